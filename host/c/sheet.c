/* Writes sheet files, opens their columns, reads these, and refuses what is none, from C. Prints a line for each thing that isn't as
 * expected, and how many were. */
#include "expect.h"
#include "idzulgar.h"

#include <stdlib.h>
#include <string.h>

enum { COLUMNS = 4, END = 1 + 16 * COLUMNS, BLOCKS = 18 + 11 + 0 + 6, FILE_LEN = END + BLOCKS, MOST = 16777216 };

/* Kind, encoding, width, rows and length of each: i32, run-length, 7 7 7 -1; string, plain, C3A9 and A; i16, plain, no rows; six bools. */
static const size_t columns[5 * COLUMNS] = {IDZ_I32, IDZ_RUN_LENGTH, 0, 4, 18, IDZ_STRING, IDZ_PLAIN, 0, 2, 11,
                                            IDZ_I16, IDZ_PLAIN,      0, 0, 0,  IDZ_BOOL,   IDZ_PLAIN, 0, 6, 6};

static const uint8_t blocks[BLOCKS + 2] = {2, 0, 0, 0, 2, 0, 0, 0, 3, 1, 7, 0, 0, 0, 255, 255, 255, 255, /* the first column's */
                                           2, 0, 0, 0, 3, 0, 0, 0, 0xC3, 0xA9, 'A',                      /* the second one's */
                                           1, 0, 1, 1, 0, 1,                                             /* the last one's */
                                           0xEE, 0xEE};                                                  /* no column's */

/* What the directory is to be, byte by byte. */
static const uint8_t directory[END] = {4,                                                   /* columns, and of each: */
                                       0x24, 0, 0, 0, 0, 0, 0, 4, 0, 0, 0, 65, 0, 0, 0, 18, /* kind 2, encoding 2, rows 4 */
                                       0xA0, 0, 0, 0, 0, 0, 0, 2, 0, 0, 0, 83, 0, 0, 0, 11, /* kind 10, encoding 0, rows 2 */
                                       0x10, 0, 0, 0, 0, 0, 0, 0, 0, 0, 0, 94, 0, 0, 0, 0,  /* kind 1, encoding 0, rows 0 */
                                       0x00, 0, 0, 0, 0, 0, 0, 6, 0, 0, 0, 94, 0, 0, 0, 6}; /* kind 0, encoding 0, rows 6 */

static uint8_t file[FILE_LEN];

static int all(const uint8_t *bytes, size_t len, uint8_t byte) {
    for (size_t at = 0; at < len; at++) {
        if (bytes[at] != byte) {
            return 0;
        }
    }
    return 1;
}

static int same(idz_reader one, idz_reader other) { return memcmp(&one, &other, sizeof one) == 0; }

/* A refusal: no place, and the reader that stands beside a refused opening, whose fields but the kind are 0. */
static int refuses(idz_found found, uint8_t number) {
    idz_reader none = idz_open(99, 0, 0, 0, NULL, 0).reader;
    return found.number == number && found.from == 0 && found.len == 0 && none.kind == 255 && same(found.reader, none);
}

static int written(idz_written answer, uint8_t number, size_t len) { return answer.number == number && answer.len == len; }

static void write_it(void) {
    uint8_t out[FILE_LEN + 9];
    memset(out, 0x5A, sizeof out);
    idz_written answer = idz_sheet_write(columns, 5 * COLUMNS, blocks, BLOCKS, out, sizeof out);
    expect(written(answer, IDZ_DONE, FILE_LEN), "four columns are written");
    expect(memcmp(out, directory, END) == 0, "their directory");
    expect(memcmp(out + END, blocks, BLOCKS) == 0, "and their blocks behind it");
    expect(all(out + FILE_LEN, 9, 0x5A), "memory behind the file stays");
    memcpy(file, out, FILE_LEN);

    for (size_t more = 0; more <= 9; more += 9) {
        memset(out, 0x5A, sizeof out);
        answer = idz_sheet_write(columns, 5 * COLUMNS, blocks, BLOCKS + 2, out, FILE_LEN + more);
        expect(written(answer, IDZ_DONE, FILE_LEN), "with bytes behind the last block, into room for just the file and for more");
        expect(memcmp(out, file, FILE_LEN) == 0 && all(out + FILE_LEN, 9, 0x5A), "they aren't looked at");
    }
    memset(out, 0x5A, sizeof out);
    expect(written(idz_sheet_write(columns, 0, blocks, BLOCKS, out, 1), IDZ_DONE, 1) && out[0] == 0, "no columns are a byte");
    expect(all(out + 1, sizeof out - 1, 0x5A), "and nothing more");
}

/* What is refused writes nothing, wherever it is found. */
static uint8_t room[FILE_LEN + 1025];

static int refuses_to_write(const size_t *list, size_t list_len, size_t blocks_len, size_t room_len, uint8_t number) {
    memset(room, 0x5A, sizeof room);
    return written(idz_sheet_write(list, list_len, blocks, blocks_len, room, room_len), number, 0) && all(room, sizeof room, 0x5A);
}

static void refused_writes(void) {
    static const size_t many[5 * 65]; /* bool, plain, no rows */
    const size_t four = 5 * COLUMNS, large = sizeof room;
    size_t changed[5 * COLUMNS];
    expect(refuses_to_write(columns, four, BLOCKS, FILE_LEN - 1, IDZ_ROOM), "a byte of room too few is 4");
    expect(refuses_to_write(columns, four, BLOCKS, 0, IDZ_ROOM), "and so is none");
    expect(refuses_to_write(columns, 0, 0, 0, IDZ_ROOM), "for no columns too");
    expect(refuses_to_write(columns, four, BLOCKS - 1, large, IDZ_CUT), "blocks that end before the last one does are 10");
    expect(refuses_to_write(columns, four, 0, 0, IDZ_CUT), "and so are none, before room that is short");
    expect(refuses_to_write(columns, four - 1, BLOCKS, large, IDZ_SHEET), "numbers that are cut are 21");
    expect(refuses_to_write(columns, 1, 0, 0, IDZ_SHEET), "and a number alone, before all else");
    expect(refuses_to_write(many, 5 * 65, 0, large, IDZ_SHEET), "65 columns are 21");
    memcpy(changed, columns, sizeof changed);
    changed[8] = 1;
    expect(refuses_to_write(changed, four, BLOCKS, large, IDZ_LENGTH), "one string where there are two is 11");
    expect(refuses_to_write(changed, four, BLOCKS - 1, 0, IDZ_LENGTH), "which comes before a later block that is cut, and before room");
    changed[0] = IDZ_F64 + 1;
    expect(refuses_to_write(changed, four, BLOCKS, large, IDZ_COLUMN), "the first bad column gives the number");
    memcpy(changed, columns, sizeof changed);
    changed[3] = 5;
    expect(refuses_to_write(changed, four, BLOCKS, large, IDZ_SUM), "another sum is 16");
    changed[4] = SIZE_MAX;
    expect(refuses_to_write(changed, four, BLOCKS, large, IDZ_CUT), "the greatest length is 10");
    memcpy(changed, columns, sizeof changed);
    changed[9] = SIZE_MAX - 17;
    expect(refuses_to_write(changed, four, BLOCKS, large, IDZ_CUT), "and so is one that comes to 0 with the length before it");
    expect(written(idz_sheet_write(many, 5 * 64, NULL, 0, room, large), IDZ_DONE, 1025) && room[0] == 64, "64 columns are written");
    expect(idz_sheet_open(room, 1025, 63).number == IDZ_DONE, "and the last of them is opened");
    expect(refuses(idz_sheet_open(room, 1025, 64), IDZ_NO_COLUMN), "but there is no 65th");
    expect(refuses(idz_sheet_open(room, 1024, 0), IDZ_SHEET), "and none in a directory that is cut");
    room[0] = 65;
    expect(refuses(idz_sheet_open(room, large, 0), IDZ_SHEET), "nor in one of 65 columns");
}

/* Each column is read through the ordinary calls, from its part of the file. */
static void read_each(void) {
    static const size_t from[COLUMNS] = {65, 83, 94, 94}, len[COLUMNS] = {18, 11, 0, 6};
    int64_t values[8];
    uint8_t flags[8], bytes[8];
    uint32_t ends[8];
    for (size_t column = 0; column < COLUMNS; column++) {
        const size_t *five = columns + 5 * column;
        idz_found found = idz_sheet_open(file, FILE_LEN, column);
        expect(found.number == IDZ_DONE && found.from == from[column] && found.len == len[column], "a column is where it was written");
        idz_opening alone = idz_open(five[0], five[1], five[2], five[3], blocks + (found.from - END), found.len);
        expect(alone.number == IDZ_DONE && same(found.reader, alone.reader), "and its reader is that of the block by itself");
        idz_left left = idz_remaining(found.reader);
        expect(left.number == IDZ_DONE && left.rows == five[3], "with all its rows before it");
        idz_given given = idz_read(found.reader, file + found.from, found.len, 0, 8, values, 8, flags, 8, ends, 8, bytes, 8);
        expect(given.number == IDZ_DONE && given.rows == five[3], "which are read from that part of the file");
        given = idz_read(found.reader, file, FILE_LEN, 0, 8, values, 8, flags, 8, ends, 8, bytes, 8);
        expect(given.number == IDZ_DISAGREE && same(given.reader, found.reader), "the file as a whole isn't the block");
    }
    idz_found rates = idz_sheet_open(file, FILE_LEN, 0), names = idz_sheet_open(file, FILE_LEN, 1);
    idz_given given = idz_read(rates.reader, file + rates.from, rates.len, 2, 8, values, 8, flags, 8, NULL, 0, NULL, 0);
    expect(given.number == IDZ_DONE && given.rows == 2 && values[0] == 7 && values[1] == -1, "two rates behind two passed over");
    given = idz_read(names.reader, file + names.from, names.len, 0, 8, NULL, 0, flags, 8, ends, 8, bytes, 8);
    expect(given.rows == 2 && given.bytes == 3 && memcmp(bytes, "\xC3\xA9" "A", 3) == 0 && ends[0] == 2 && ends[1] == 3, "two names");
}

static void refused_columns(void) {
    expect(refuses(idz_sheet_open(file, FILE_LEN, COLUMNS), IDZ_NO_COLUMN), "a fifth column is 20");
    expect(refuses(idz_sheet_open(file, FILE_LEN, 256), IDZ_NO_COLUMN), "and so is one that a byte doesn't hold");
    expect(refuses(idz_sheet_open(file, FILE_LEN, SIZE_MAX), IDZ_NO_COLUMN), "and the greatest number");
    expect(refuses(idz_sheet_open(NULL, 0, 0), IDZ_SHEET), "no file at all is 21");
    expect(refuses(idz_sheet_open(file, 1, 0), IDZ_SHEET), "a byte of it too");
    expect(refuses(idz_sheet_open(file, END - 1, SIZE_MAX), IDZ_SHEET), "and a cut directory, before 20");
    expect(refuses(idz_sheet_open(file, END, 0), IDZ_OUTSIDE), "a file that ends with the directory has no first block: 22");
    expect(refuses(idz_sheet_open(file, FILE_LEN - 1, 3), IDZ_OUTSIDE), "a byte less, and the last block ends behind it");
    expect(idz_sheet_open(file, FILE_LEN - 1, 1).number == IDZ_DONE, "which the others don't");
    expect(idz_sheet_open(file, 94, 2).number == IDZ_DONE, "no bytes at the file's end are a block of no rows");
    expect(refuses(idz_sheet_open(file, 93, 2), IDZ_OUTSIDE), "and 22 behind it");

    uint8_t none[1] = {0};
    expect(refuses(idz_sheet_open(none, 1, 0), IDZ_NO_COLUMN), "a file of no columns has no first one");

    /* the third column has no bytes, which may lie at both borders and nowhere else */
    uint8_t moved[FILE_LEN];
    memcpy(moved, file, FILE_LEN);
    static const struct {
        uint8_t at, number;
    } places[] = {{END, IDZ_DONE}, {END - 1, IDZ_OUTSIDE}, {0, IDZ_OUTSIDE}, {FILE_LEN, IDZ_DONE}, {FILE_LEN + 1, IDZ_OUTSIDE}};
    for (size_t place = 0; place < sizeof places / sizeof places[0]; place++) {
        moved[1 + 16 * 2 + 11] = places[place].at;
        expect(idz_sheet_open(moved, FILE_LEN, 2).number == places[place].number, "no bytes at a border");
    }
    memset(moved + 1 + 16 * 2 + 8, 0xFF, 8);
    expect(refuses(idz_sheet_open(moved, FILE_LEN, 2), IDZ_OUTSIDE), "the greatest offset and length");
    memset(moved + 1 + 16 * 2 + 12, 0, 3);
    moved[1 + 16 * 2 + 15] = END + 1;
    expect(refuses(idz_sheet_open(moved, FILE_LEN, 2), IDZ_OUTSIDE), "an end that 32 bits don't hold");
    moved[1 + 16 * 2 + 1] = 1;
    expect(refuses(idz_sheet_open(moved, FILE_LEN, 2), IDZ_OUTSIDE), "which comes before the zero bit");
}

/* One column is damaged, and every other is found and read as before. */
static void damaged(void) {
    static const struct {
        size_t column, at;
        uint8_t byte, number;
    } damages[] = {
        {0, 1, 0xC4, IDZ_COLUMN},      /* kind 12 */
        {0, 1, 0x2A, IDZ_COLUMN},      /* encoding 5 */
        {0, 2, 0x01, IDZ_COLUMN},      /* the zero bit */
        {0, 2, 0x02, IDZ_COLUMN},      /* a width */
        {0, 8, 5, IDZ_SUM},            /* five rows */
        {0, 12, 66, IDZ_LIMIT},        /* the block from its second byte on, where it reads as 2^25 runs */
        {0, 12, 64, IDZ_OUTSIDE},      /* the block from the directory's last byte on */
        {0, 16, 17, IDZ_LENGTH},       /* a byte less of it */
        {0, 16, 7, IDZ_CUT},           /* not all of its head */
        {0, 15, 1, IDZ_OUTSIDE},       /* 256 bytes more of it, which the file hasn't */
        {0, 65 + 8, 0, IDZ_COUNTS},    /* a count of 0 */
        {0, 65 + 9, 0x80, IDZ_VARINT}, /* a count that is cut */
        {1, 17 + 2, 0x10, IDZ_LIMIT},  /* 2^44 strings more */
        {1, 83 + 0, 4, IDZ_ENDS},      /* an end that falls */
        {1, 83 + 9, 0x41, IDZ_TEXT},   /* a character that is cut */
        {2, 33 + 7, 1, IDZ_LENGTH},    /* a row of no bytes */
        {3, 49 + 15, 5, IDZ_LENGTH},   /* a bool less */
    };
    uint8_t bad[FILE_LEN];
    for (size_t place = 0; place < sizeof damages / sizeof damages[0]; place++) {
        memcpy(bad, file, FILE_LEN);
        bad[damages[place].at] = damages[place].byte;
        expect(refuses(idz_sheet_open(bad, FILE_LEN, damages[place].column), damages[place].number), "a damaged column gives its number");
        for (size_t column = 0; column < COLUMNS; column++) {
            if (column != damages[place].column) {
                idz_found one = idz_sheet_open(file, FILE_LEN, column), other = idz_sheet_open(bad, FILE_LEN, column);
                expect(other.number == IDZ_DONE && one.from == other.from && one.len == other.len && same(one.reader, other.reader),
                       "and no other is touched by it");
            }
        }
    }

    /* bytes that change under a reader are as they are in any block: 9, or rows from what is there */
    memcpy(bad, file, FILE_LEN);
    idz_found found = idz_sheet_open(bad, FILE_LEN, 0);
    int64_t values[4] = {77, 77, 77, 77};
    uint8_t flags[4];
    bad[65 + 8] = 0;
    idz_given given = idz_read(found.reader, bad + found.from, found.len, 0, 4, values, 4, flags, 4, NULL, 0, NULL, 0);
    expect(given.number == IDZ_DISAGREE && same(given.reader, found.reader) && values[0] == 77, "a count that becomes 0 is 9");
    bad[65 + 8] = 3;
    given = idz_read(found.reader, bad + found.from - 1, found.len + 1, 0, 4, values, 4, flags, 4, NULL, 0, NULL, 0);
    expect(given.number == IDZ_DISAGREE, "and so is another length");
    memset(bad, 0xFF, END);
    given = idz_read(found.reader, bad + found.from, found.len, 0, 4, values, 4, flags, 4, NULL, 0, NULL, 0);
    expect(given.number == IDZ_DONE && given.rows == 4 && values[3] == -1, "a directory that changes afterwards doesn't matter");
}

/* Files of 16,777,216 bytes and of one more. */
static void greatest(void) {
    size_t one[5] = {IDZ_BLOB, IDZ_PLAIN, 0, 1, MOST - 17};
    uint8_t *block = calloc(MOST, 1), *out = calloc(MOST + 1, 1);
    if (block == NULL || out == NULL) {
        expect(0, "memory for two files");
        return;
    }
    for (size_t more = 0; more < 2; more++) {
        one[4] = MOST - 17 + more;
        uint32_t end = (uint32_t)one[4] - 4;
        for (size_t at = 0; at < 4; at++) {
            block[at] = (uint8_t)(end >> (8 * at));
        }
        idz_written answer = idz_sheet_write(one, 5, block, one[4], out, MOST + 1);
        expect(more == 0 ? written(answer, IDZ_DONE, MOST) : written(answer, IDZ_LIMIT, 0), "the greatest file is written, none above");
        answer = idz_sheet_write(one, 5, block, one[4], out, MOST - 1);
        expect(written(answer, more == 0 ? IDZ_ROOM : IDZ_LIMIT, 0), "in a byte too few it is 4, which 3 comes before");
    }
    idz_found found = idz_sheet_open(out, MOST, 0);
    expect(found.number == IDZ_DONE && found.from == 17 && found.len == MOST - 17, "and opened");
    expect(refuses(idz_sheet_open(out, MOST + 1, 0), IDZ_LIMIT), "with a byte more it is 3");
    expect(refuses(idz_sheet_open(out, MOST + 1, SIZE_MAX), IDZ_LIMIT), "before 20");
    out[0] = 255;
    expect(refuses(idz_sheet_open(out, MOST + 1, 0), IDZ_LIMIT), "and before 21");
    expect(refuses(idz_sheet_open(out, MOST, 0), IDZ_SHEET), "which it is without that byte");
    free(block);
    free(out);
}

int main(void) {
    write_it();
    refused_writes();
    read_each();
    refused_columns();
    damaged();
    greatest();
    expect(offsetof(idz_found, reader) + sizeof(idz_reader) == sizeof(idz_found), "the reader is the last of what is found");
    return tell();
}
