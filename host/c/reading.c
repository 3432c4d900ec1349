/* Opens, reads and refuses blocks from C. Prints a line for each thing that isn't as expected, and how many were. */
#include "expect.h"
#include "idzulgar.h"

#include <string.h>

/* Sample A: i32, run-length, 7 7 7 -1. */
static const uint8_t sample_a[] = {2, 0, 0, 0, 2, 0, 0, 0, 3, 1, 7, 0, 0, 0, 255, 255, 255, 255};

/* Sample B: blob, dictionary, "ab" null "ab" "c". */
static const uint8_t sample_b[] = {0,    0, 0, 0, 0,   0,    0, 28, 0,   0, 0, 2, 4,   0,   0,   0, 4, 0, 0, 0, 1, 1, 1, 1, 1, 0,
                                   0, 128, 0, 0, 0, 128, 1,    0, 0,  128, 2, 0, 0, 128, 2,   0,   0, 0, 3, 0, 0, 0, 97, 98, 99};

/* Passes over rows, and reads up to 4 into these areas. */
static int64_t values[4];
static uint8_t flags[4];
static uint32_t ends[4];
static uint8_t bytes[16];

static idz_given read_rows(idz_reader reader, const uint8_t *block, size_t len, size_t skip, size_t size) {
    return idz_read(reader, block, len, skip, size, values, 4, flags, 4, ends, 4, bytes, 16);
}

static int same(idz_reader one, idz_reader other) { return memcmp(&one, &other, sizeof one) == 0; }

/* A refusal: no counts, and the reader that was given. */
static int refuses(idz_given given, uint8_t number, idz_reader reader) {
    return given.number == number && given.rows == 0 && given.bytes == 0 && same(given.reader, reader);
}

static void fixed(void) {
    idz_opening opening = idz_open(IDZ_I32, IDZ_RUN_LENGTH, 0, 4, sample_a, sizeof sample_a);
    expect(opening.number == IDZ_DONE && opening.reader.rows == 4 && opening.reader.runs == 2, "sample A opens");
    idz_given passed_over = idz_read(opening.reader, sample_a, sizeof sample_a, 2, 0, NULL, 0, NULL, 0, NULL, 0, NULL, 0);
    expect(passed_over.number == IDZ_DONE && passed_over.rows == 0, "2 rows passed over, and no room for any");
    idz_left left = idz_remaining(passed_over.reader);
    expect(left.number == IDZ_DONE && left.rows == 2, "2 rows remain");
    expect(same(left.reader, passed_over.reader), "and the reader comes back");
    idz_given given = read_rows(passed_over.reader, sample_a, sizeof sample_a, 0, 1);
    expect(given.number == IDZ_DONE && given.rows == 1 && values[0] == 7 && flags[0] == 1, "the next one is 7");
    idz_reader third = given.reader;
    given = read_rows(third, sample_a, sizeof sample_a, 0, 5);
    expect(given.number == IDZ_DONE && given.rows == 1 && values[0] == -1, "of 5 rows there is -1");
    idz_reader end = given.reader;
    given = read_rows(end, sample_a, sizeof sample_a, 0, 5);
    expect(given.number == IDZ_DONE && given.rows == 0 && same(given.reader, end), "no rows at the end");
    expect(refuses(read_rows(end, sample_a, sizeof sample_a, 1, 0), IDZ_TOO_FAR, end), "to pass over 1 at the end is 7");
    expect(refuses(read_rows(end, sample_a, sizeof sample_a, 0, 0), IDZ_NO_ROWS, end), "nothing asked for is 6");
    expect(refuses(read_rows(end, sample_a, sizeof sample_a - 1, 0, 4), IDZ_DISAGREE, end), "another length is 9");

    given = read_rows(opening.reader, sample_a, sizeof sample_a, 2, 1);
    expect(given.number == IDZ_DONE && given.rows == 1 && values[0] == 7, "2 passed over and 1 given in one call");
    expect(same(given.reader, third), "which leaves the reader that two calls leave");
    given = read_rows(opening.reader, sample_a, sizeof sample_a, 3, SIZE_MAX);
    expect(given.number == IDZ_DONE && given.rows == 1 && values[0] == -1, "3 passed over, and all the others given");
    given = read_rows(opening.reader, sample_a, sizeof sample_a, 4, 4);
    expect(given.number == IDZ_DONE && given.rows == 0 && same(given.reader, end), "all passed over");
}

/* Whole or not at all: each refusal hands back the reader as it stood before the rows that were to be passed over. */
static void whole(void) {
    idz_reader start = idz_open(IDZ_I32, IDZ_RUN_LENGTH, 0, 4, sample_a, sizeof sample_a).reader;
    values[0] = 77, flags[0] = 77;
    expect(refuses(read_rows(start, sample_a, sizeof sample_a, 5, 1), IDZ_TOO_FAR, start), "5 of 4 rows is 7");
    expect(refuses(read_rows(start, sample_a, sizeof sample_a, SIZE_MAX, SIZE_MAX), IDZ_TOO_FAR, start), "and so is the greatest number");
    expect(refuses(read_rows(start, sample_a, sizeof sample_a - 1, 5, 1), IDZ_DISAGREE, start), "another length comes before it");
    expect(refuses(read_rows(start, sample_a, sizeof sample_a - 1, 0, 0), IDZ_NO_ROWS, start), "and 6 before all");
    idz_given given = idz_read(start, sample_a, sizeof sample_a, 2, 2, values, 1, flags, 2, NULL, 0, NULL, 0);
    expect(refuses(given, IDZ_ROOM, start), "2 rows into 1 value is 4");
    given = idz_read(start, sample_a, sizeof sample_a, 2, 2, values, 2, flags, 1, NULL, 0, NULL, 0);
    expect(refuses(given, IDZ_ROOM, start), "and into 1 flag");
    uint8_t block[sizeof sample_a];
    memcpy(block, sample_a, sizeof block);
    block[9] = 0;
    expect(refuses(read_rows(start, block, sizeof block, 2, 2), IDZ_DISAGREE, start), "a bad count behind the rows passed over is 9");
    expect(refuses(read_rows(start, block, sizeof block, 4, 0), IDZ_DISAGREE, start), "or among them");
    expect(refuses(read_rows(start, block, sizeof block, 5, 0), IDZ_TOO_FAR, start), "but 7 comes first");
    expect(values[0] == 77 && flags[0] == 77, "and nothing was written");
    given = read_rows(start, block, sizeof block, 2, 1);
    expect(given.number == IDZ_DONE && given.rows == 1 && values[0] == 7, "a bad count that no row needs doesn't matter");
}

static void variable(void) {
    idz_opening opening = idz_open(IDZ_BLOB, IDZ_DICTIONARY, 0, 4, sample_b, sizeof sample_b);
    expect(opening.number == IDZ_DONE, "sample B opens");
    idz_given given = read_rows(opening.reader, sample_b, sizeof sample_b, 0, 4);
    expect(given.number == IDZ_DONE && given.rows == 4 && given.bytes == 5, "sample B gives 4 rows of 5 bytes");
    expect(memcmp(bytes, "ababc", 5) == 0 && memcmp(flags, "\1\0\1\1", 4) == 0, "their bytes and flags");
    expect(ends[0] == 2 && ends[1] == 2 && ends[2] == 4 && ends[3] == 5, "their ends");
    given = idz_read(opening.reader, sample_b, sizeof sample_b, 0, 4, values, 0, flags, 4, ends, 4, bytes, 4);
    expect(refuses(given, IDZ_ROOM, opening.reader), "4 bytes of room is 4");
    given = idz_read(opening.reader, sample_b, sizeof sample_b, 2, 4, values, 0, flags, 2, ends, 2, bytes, 3);
    expect(given.number == IDZ_DONE && given.rows == 2 && given.bytes == 3, "the last two rows need room for themselves alone");
    expect(memcmp(bytes, "abc", 3) == 0 && ends[0] == 2 && ends[1] == 3, "with their ends from the first of them on");
    uint8_t unknown[sizeof sample_b];
    memcpy(unknown, sample_b, sizeof unknown);
    unknown[24] = 9;
    given = read_rows(opening.reader, unknown, sizeof unknown, 0, 1);
    expect(refuses(given, IDZ_DISAGREE, opening.reader), "an unknown key is 9 in a row given");
    given = read_rows(opening.reader, unknown, sizeof unknown, 1, 3);
    expect(given.number == IDZ_DONE && given.rows == 3 && memcmp(bytes, "abc", 3) == 0, "and doesn't matter in one passed over");
}

/* The reader counts the nulls among the rows that it gave. */
static void nulls(void) {
    idz_reader start = idz_open(IDZ_BLOB, IDZ_DICTIONARY, 0, 4, sample_b, sizeof sample_b).reader;
    expect(start.nulls == 0, "none at opening");
    idz_reader reader = read_rows(start, sample_b, sizeof sample_b, 0, 1).reader;
    expect(reader.nulls == 0, "none in the first row of sample B");
    reader = read_rows(reader, sample_b, sizeof sample_b, 0, 2).reader;
    expect(reader.nulls == 1, "one in the next two");
    expect(refuses(read_rows(reader, sample_b, sizeof sample_b, 2, 1), IDZ_TOO_FAR, reader), "a refusal leaves the count");
    reader = read_rows(reader, sample_b, sizeof sample_b, 0, 4).reader;
    expect(reader.place == 4 && reader.nulls == 1, "which is of all rows since opening");
    expect(read_rows(start, sample_b, sizeof sample_b, 2, 2).reader.nulls == 0, "a null that is passed over isn't counted");
    expect(read_rows(start, sample_b, sizeof sample_b, 1, 3).reader.nulls == 1, "one behind the rows passed over is");
    idz_reader fixed = idz_open(IDZ_I32, IDZ_RUN_LENGTH, 0, 4, sample_a, sizeof sample_a).reader;
    expect(read_rows(fixed, sample_a, sizeof sample_a, 0, 4).reader.nulls == 0, "sample A has none");

    /* any count can stand in a record, and is held against the rows given and passed over */
    idz_reader forged = read_rows(start, sample_b, sizeof sample_b, 1, 0).reader;
    forged.nulls = 1;
    expect(idz_remaining(forged).number == IDZ_DONE, "a count of 1 behind one row may be");
    expect(read_rows(forged, sample_b, sizeof sample_b, 0, 1).reader.nulls == 2, "and the next null is added to it");
    forged.nulls = 2;
    idz_left left = idz_remaining(forged);
    expect(left.number == IDZ_DISAGREE && left.rows == 0 && same(left.reader, forged), "a count of 2 is 9");
    expect(refuses(read_rows(forged, sample_b, sizeof sample_b, 0, 1), IDZ_DISAGREE, forged), "to a read too");
    expect(refuses(read_rows(forged, sample_b, sizeof sample_b, 4, 0), IDZ_DISAGREE, forged), "before 7");
    expect(refuses(read_rows(forged, sample_b, sizeof sample_b, 0, 0), IDZ_NO_ROWS, forged), "and behind 6");
    fixed.nulls = SIZE_MAX;
    expect(refuses(read_rows(fixed, sample_a, sizeof sample_a, 0, 1), IDZ_DISAGREE, fixed), "where there are no nulls too");
    expect(offsetof(idz_reader, nulls) + sizeof(size_t) == sizeof(idz_reader), "the count is the record's last field");
}

static void refused(void) {
    uint8_t unknown[sizeof sample_b];
    memcpy(unknown, sample_b, sizeof unknown);
    unknown[36] = 3;
    idz_opening opening = idz_open(IDZ_BLOB, IDZ_DICTIONARY, 0, 4, unknown, sizeof unknown);
    expect(opening.number == IDZ_KEY, "an unknown key is 15");
    idz_left left = idz_remaining(opening.reader);
    expect(left.number == IDZ_DISAGREE && left.rows == 0 && same(left.reader, opening.reader), "and its record is refused as 9");
    idz_reader none = opening.reader;
    expect(refuses(read_rows(none, unknown, sizeof unknown, 1, 0), IDZ_DISAGREE, none), "by passing over rows too");
    expect(refuses(read_rows(none, unknown, sizeof unknown, 0, 1), IDZ_DISAGREE, none), "and by reading some");
    expect(refuses(read_rows(none, unknown, sizeof unknown, 0, 0), IDZ_NO_ROWS, none), "but where nothing is asked for, which is 6");
    expect(idz_open(IDZ_CHAR, IDZ_PLAIN, 256, 0, unknown, 0).number == IDZ_COLUMN, "char of 256 is 1");
    expect(idz_open(IDZ_I32, IDZ_RUN_LENGTH, 0, 5, sample_a, sizeof sample_a).number == IDZ_SUM, "another sum is 16");
}

/* bool, run-length: one run of 129 rows, whose count then becomes 1 in two bytes. */
static void longer_than_needed(void) {
    uint8_t block[] = {1, 0, 0, 0, 2, 0, 0, 0, 0x81, 0x01, 1};
    idz_opening opening = idz_open(IDZ_BOOL, IDZ_RUN_LENGTH, 0, 129, block, sizeof block);
    expect(opening.number == IDZ_DONE, "a count in two bytes opens");
    block[9] = 0;
    expect(read_rows(opening.reader, block, sizeof block, 0, 1).number == IDZ_DISAGREE, "a count that became longer than needed is 9");
    expect(read_rows(opening.reader, block, sizeof block, 1, 0).number == IDZ_DISAGREE, "to a skip too");
    expect(idz_remaining(opening.reader).number == IDZ_DONE, "but what remains is told without it");
    expect(idz_open(IDZ_BOOL, IDZ_RUN_LENGTH, 0, 1, block, sizeof block).number == IDZ_VARINT, "and 12 at opening");
}

/* Char is text up to its first NUL, string is text as a whole, and blob is any bytes. */
static void texts(void) {
    static const uint8_t behind_nul[] = {'A', 0, 0xFF}, cut_by_nul[] = {0xC3, 0, 0xA9};
    idz_opening opening = idz_open(IDZ_CHAR, IDZ_PLAIN, 3, 1, behind_nul, 3);
    idz_given given = read_rows(opening.reader, behind_nul, 3, 0, 1);
    expect(opening.number == IDZ_DONE && given.bytes == 1 && bytes[0] == 'A', "what stands behind a NUL is no part of a char");
    expect(idz_open(IDZ_CHAR, IDZ_PLAIN, 3, 1, cut_by_nul, 3).number == IDZ_TEXT, "a char that a NUL cuts is 17");
    expect(idz_open(IDZ_CHAR, IDZ_PLAIN, 2, 1, cut_by_nul, 3).number == IDZ_LENGTH, "and 11 with another width");

    uint8_t strings[] = {2, 0, 0, 0, 3, 0, 0, 0, 0xC3, 0xA9, 'A'};
    opening = idz_open(IDZ_STRING, IDZ_PLAIN, 0, 2, strings, sizeof strings);
    given = read_rows(opening.reader, strings, sizeof strings, 0, 2);
    expect(opening.number == IDZ_DONE && given.rows == 2 && given.bytes == 3 && memcmp(bytes, "\xC3\xA9" "A", 3) == 0, "strings come back");
    expect(ends[0] == 2 && ends[1] == 3, "with their ends");
    strings[0] = 1;
    expect(idz_open(IDZ_STRING, IDZ_PLAIN, 0, 2, strings, sizeof strings).number == IDZ_TEXT, "a character in two items is 17");
    expect(idz_open(IDZ_BLOB, IDZ_PLAIN, 0, 2, strings, sizeof strings).number == IDZ_DONE, "but not as blob");
    given = read_rows(opening.reader, strings, sizeof strings, 0, 1);
    expect(given.number == IDZ_DONE && given.bytes == 1 && bytes[0] == 0xC3, "reading hands out what is no text any more");
    expect(idz_open(IDZ_STRING, IDZ_PLAIN, 1, 0, strings, 0).number == IDZ_COLUMN, "string of a width is 1");
}

int main(void) {
    fixed();
    whole();
    variable();
    nulls();
    refused();
    longer_than_needed();
    texts();
    return tell();
}
