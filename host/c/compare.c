/* Compares columns from C: blocks by hand and built ones, in all encodings, and what is refused. Prints a line for each thing that isn't as
 * expected, and how many were. */
#include "expect.h"
#include "idzulgar.h"

#include <string.h>

/* A block with what it is opened by. */
typedef struct {
    idz_descriptor descriptor;
    const uint8_t *block;
    size_t len;
} column;

/* Slots that hold numbers which are no rows, three more than are ever lent. */
enum { SLOTS = 8, MORE = 3 };
static size_t firsts[SLOTS + MORE], lasts[SLOTS + MORE];

static size_t no_first(size_t at) { return SIZE_MAX - at; }
static size_t no_last(size_t at) { return SIZE_MAX / 2 - at; }

static idz_compared compare(column one, column other, size_t firsts_len, size_t lasts_len) {
    for (size_t at = 0; at < SLOTS + MORE; at++) {
        firsts[at] = no_first(at);
        lasts[at] = no_last(at);
    }
    return idz_compare(one.descriptor, one.block, one.len, other.descriptor, other.block, other.len, firsts, firsts_len, lasts, lasts_len);
}

/* Whether the slots from one on are as they were. */
static int untouched(size_t from) {
    for (size_t at = from; at < SLOTS + MORE; at++) {
        if (firsts[at] != no_first(at) || lasts[at] != no_last(at)) {
            return 0;
        }
    }
    return 1;
}

static int refuses(column one, column other, size_t firsts_len, size_t lasts_len, uint8_t number) {
    idz_compared answer = compare(one, other, firsts_len, lasts_len);
    return answer.number == number && answer.ranges == 0 && untouched(0);
}

/* Whether these are the ranges, of one column against the other and the other way round, in just as many slots and in more; with one
 * slot less in either list they are 4. */
static int gives(column one, column other, const size_t (*ranges)[2], size_t count) {
    const size_t lent[] = {count, SLOTS};
    for (int turn = 0; turn < 2; turn++) {
        for (size_t slots = 0; slots < 2; slots++) {
            idz_compared answer = compare(one, other, lent[slots], lent[slots]);
            if (answer.number != IDZ_DONE || answer.ranges != count || !untouched(count)) {
                return 0;
            }
            for (size_t at = 0; at < count; at++) {
                if (firsts[at] != ranges[at][0] || lasts[at] != ranges[at][1]) {
                    return 0;
                }
            }
        }
        if (count > 0 && !(refuses(one, other, count - 1, count, IDZ_ROOM) && refuses(one, other, count, count - 1, IDZ_ROOM))) {
            return 0;
        }
        column first = one;
        one = other;
        other = first;
    }
    return 1;
}

static int equal(column one, column other) { return gives(one, other, NULL, 0); }

static int differ(column one, column other, size_t first, size_t last) {
    const size_t range[1][2] = {{first, last}};
    return gives(one, other, range, 1);
}

#define COLUMN(kind, encoding, width, rows, bytes) ((column){{kind, encoding, width, 0, rows}, bytes, sizeof bytes})

/* i32, 7 7 7 -1, in each encoding. */
static const uint8_t plain[] = {7, 0, 0, 0, 7, 0, 0, 0, 7, 0, 0, 0, 255, 255, 255, 255};
static const uint8_t nullable[] = {7, 0, 0, 0, 7, 0, 0, 0, 7, 0, 0, 0, 255, 255, 255, 255, 0x0F, 1, 0, 0, 0};
static const uint8_t runs[] = {2, 0, 0, 0, 2, 0, 0, 0, 3, 1, 7, 0, 0, 0, 255, 255, 255, 255};
static const uint8_t nullable_runs[] = {2, 0, 0, 0, 2, 0, 0, 0, 3, 1, 7, 0, 0, 0, 255, 255, 255, 255, 3, 1, 0, 0, 0};
static const uint8_t dictionary[] = {0, 0, 0, 0, 0, 0, 0,   18, 0, 0, 0,   2, 2, 0, 0, 0,   2,   0,   0,
                                     0, 3, 1, 1, 0, 0, 128, 2,  0, 0, 128, 7, 0, 0, 0, 255, 255, 255, 255};

/* Builds a block of integers, of which those whose bit of `nulls` is set are null. */
static column build(size_t kind, size_t encoding, const int64_t *values, size_t rows, unsigned nulls, uint8_t *room, size_t room_len) {
    uint8_t items[256], flags[4];
    uint32_t counts[32];
    int32_t keys[32];
    idz_builder builder = idz_create(kind, encoding, 0, 4096).builder;
    for (size_t row = 0; row < rows; row++) {
        idz_appended appended =
            idz_append(builder, items, 256, NULL, 0, flags, 4, counts, 32, keys, 32, NULL, 0, !(nulls >> row & 1), values[row], NULL, 0);
        expect(appended.number == IDZ_DONE, "a row is appended");
        builder = appended.builder;
    }
    idz_finished finished = idz_finish(builder, items, 256, NULL, 0, flags, 4, counts, 32, keys, 32, NULL, 0, room, room_len);
    expect(finished.number == IDZ_DONE, "a block is finished");
    return (column){{kind, encoding, 0, 0, rows}, room, finished.len};
}

static void all_encodings(void) {
    const column columns[] = {COLUMN(IDZ_I32, IDZ_PLAIN, 0, 4, plain), COLUMN(IDZ_I32, IDZ_NULLABLE, 0, 4, nullable),
                              COLUMN(IDZ_I32, IDZ_RUN_LENGTH, 0, 4, runs), COLUMN(IDZ_I32, IDZ_RUN_LENGTH_NULLABLE, 0, 4, nullable_runs),
                              COLUMN(IDZ_I32, IDZ_DICTIONARY, 0, 4, dictionary)};
    static const int64_t same[] = {7, 7, 7, -1}, second[] = {7, 8, 7, -1}, ends[] = {8, 7, 7, 0}, none[] = {1, 2, 3, 4},
                         longer[] = {7, 7, 7, -1, -1, -1}, changed[] = {7, 9, 7, 8, -1};
    uint8_t room[256];
    for (size_t one = 0; one < 5; one++) {
        expect(equal(columns[one], columns[one]), "a block doesn't differ from itself");
        for (size_t encoding = 0; encoding < 5; encoding++) {
            expect(equal(columns[one], columns[encoding]), "nor from another of the same rows");
            column other = build(IDZ_I32, encoding, same, 4, 0, room, sizeof room);
            expect(equal(columns[one], other), "nor from a built one");
            other = build(IDZ_I32, encoding, second, 4, 0, room, sizeof room);
            expect(differ(columns[one], other, 1, 1), "one row is a range");
            other = build(IDZ_I32, encoding, none, 4, 0, room, sizeof room);
            expect(differ(columns[one], other, 0, 3), "all rows are one");
            other = build(IDZ_I32, encoding, ends, 4, 0, room, sizeof room);
            static const size_t first_and_last[2][2] = {{0, 0}, {3, 3}};
            expect(gives(columns[one], other, first_and_last, 2), "the first row and the last are two");
            other = build(IDZ_I32, encoding, longer, 6, 0, room, sizeof room);
            expect(differ(columns[one], other, 4, 5), "rows that one column alone has differ");
            other = build(IDZ_I32, encoding, longer, 3, 0, room, sizeof room);
            expect(differ(columns[one], other, 3, 3), "whichever it is");
            other = build(IDZ_I32, encoding, changed, 5, 0, room, sizeof room);
            static const size_t joined[2][2] = {{1, 1}, {3, 4}};
            expect(gives(columns[one], other, joined, 2), "and join a row before them that does");
            other = build(IDZ_I32, encoding, same, 0, 0, room, sizeof room);
            expect(differ(columns[one], other, 0, 3), "against no rows all of them do");
        }
    }
}

/* A null equals a null alone; encodings 0 and 2 have none, and store a 0 for it. */
static void nulls(void) {
    static const int64_t zeros[] = {0, 0, 5};
    uint8_t room[256], other_room[256];
    for (size_t kind = IDZ_I16; kind <= IDZ_INTERVAL; kind++) {
        for (size_t encoding = 0; encoding < 5; encoding++) {
            int has_nulls = encoding != IDZ_PLAIN && encoding != IDZ_RUN_LENGTH;
            column with = build(kind, encoding, zeros, 3, 2, room, sizeof room);
            for (size_t to = 0; to < 5; to++) {
                int also_has = to != IDZ_PLAIN && to != IDZ_RUN_LENGTH;
                column other = build(kind, to, zeros, 3, 2, other_room, sizeof other_room);
                expect(has_nulls == also_has ? equal(with, other) : differ(with, other, 1, 1), "a null against a null, or a stored 0");
                other = build(kind, to, zeros, 3, 0, other_room, sizeof other_room);
                expect(has_nulls ? differ(with, other, 1, 1) : equal(with, other), "and against a 0");
            }
        }
    }
    /* string: "", null and "" of which the second has bytes under it, against "", "" and null; the unused bits are set */
    static const uint8_t one[] = {0, 0, 0, 0, 1, 0, 0, 0, 1, 0, 0, 0, 'x', 0xFD, 1, 0, 0, 0};
    static const uint8_t other[] = {0, 0, 0, 0, 0, 0, 0, 0, 2, 0, 0, 0, 'y', 'z', 0xFB, 1, 0, 0, 0};
    static const uint8_t empty[] = {0, 0, 0, 0, 0, 0, 0, 0, 0, 0, 0, 0};
    column first = COLUMN(IDZ_STRING, IDZ_NULLABLE, 0, 3, one), second = COLUMN(IDZ_STRING, IDZ_NULLABLE, 0, 3, other);
    expect(differ(first, second, 1, 2), "no bytes aren't null");
    expect(differ(first, COLUMN(IDZ_STRING, IDZ_PLAIN, 0, 3, empty), 1, 1), "nor in another encoding");
    static const uint8_t same_rows[] = {0, 0, 0, 0, 2, 0, 0, 0, 2, 0, 0, 0, 'y', 'z', 0x05, 1, 0, 0, 0};
    expect(equal(first, COLUMN(IDZ_STRING, IDZ_NULLABLE, 0, 3, same_rows)), "what lies under a null doesn't matter, nor do unused bits");
    first.descriptor.kind = second.descriptor.kind = IDZ_BLOB;
    expect(differ(first, second, 1, 2), "of a blob too");
}

/* Rows are compared as they are read. */
static void as_read(void) {
    static const uint8_t bools[] = {1, 0, 255}, other_bools[] = {7, 0, 1}, chars[] = "a\0bxyz", other_chars[] = "a\0\xFFxyz";
    static const uint8_t shorter[] = "a\0bxy", zero[] = {0, 0, 0, 0, 0, 0, 0, 0}, minus[] = {0, 0, 0, 0, 0, 0, 0, 0x80};
    static const uint8_t nan[] = {0, 0, 0, 0, 0, 0, 0xF8, 0x7F}, other_nan[] = {1, 0, 0, 0, 0, 0, 0xF8, 0x7F};
    static const uint8_t blob[] = {2, 0, 0, 0, 'a', 0}, other_blob[] = {1, 0, 0, 0, 'a'};
    expect(equal(COLUMN(IDZ_BOOL, IDZ_PLAIN, 0, 3, bools), COLUMN(IDZ_BOOL, IDZ_PLAIN, 0, 3, other_bools)), "a bool is 0 or it isn't");
    column one = {{IDZ_CHAR, IDZ_PLAIN, 3, 0, 2}, chars, 6}, other = {{IDZ_CHAR, IDZ_PLAIN, 3, 0, 2}, other_chars, 6};
    expect(equal(one, other), "a char ends at its first NUL");
    other.block = shorter;
    expect(differ(one, other, 1, 1), "a char that is shorter is another");
    column plus = COLUMN(IDZ_F64, IDZ_PLAIN, 0, 1, zero), negative = COLUMN(IDZ_F64, IDZ_PLAIN, 0, 1, minus);
    expect(differ(plus, negative, 0, 0), "0.0 and -0.0 are two rows");
    one = COLUMN(IDZ_F64, IDZ_PLAIN, 0, 1, nan), other = COLUMN(IDZ_F64, IDZ_PLAIN, 0, 1, other_nan);
    expect(equal(one, one) && differ(one, other, 0, 0), "a NaN equals its own bits");
    one = COLUMN(IDZ_BLOB, IDZ_PLAIN, 0, 1, blob), other = COLUMN(IDZ_BLOB, IDZ_PLAIN, 0, 1, other_blob);
    expect(differ(one, other, 0, 0), "a NUL at the end of a blob is a byte");
}

static void refusals(void) {
    const column sound = COLUMN(IDZ_I32, IDZ_RUN_LENGTH, 0, 4, runs);
    column other = sound, bad = sound;
    other.descriptor.kind = IDZ_DATE;
    expect(refuses(sound, other, SLOTS, SLOTS, IDZ_UNLIKE) && refuses(other, sound, 0, 0, IDZ_UNLIKE), "another kind is 25");
    other.descriptor.kind = IDZ_I32 + 256;
    expect(refuses(sound, other, SLOTS, SLOTS, IDZ_UNLIKE), "and so is one that a byte doesn't hold");
    static const uint8_t text[] = {1, 0, 0, 0, 'a'};
    expect(refuses(COLUMN(IDZ_BLOB, IDZ_PLAIN, 0, 1, text), COLUMN(IDZ_STRING, IDZ_PLAIN, 0, 1, text), SLOTS, SLOTS, IDZ_UNLIKE),
           "a blob is no string, whatever it holds");
    expect(refuses(COLUMN(IDZ_CHAR, IDZ_PLAIN, 5, 1, text), COLUMN(IDZ_CHAR, IDZ_PLAIN, 5 + 256, 1, text), SLOTS, SLOTS, IDZ_UNLIKE),
           "and so is a width that a byte doesn't hold");
    other = sound;
    other.descriptor.width = 4;
    expect(refuses(sound, other, SLOTS, SLOTS, IDZ_UNLIKE) && refuses(other, sound, 0, 0, IDZ_UNLIKE), "another width is 25");
    expect(refuses(other, other, SLOTS, SLOTS, IDZ_COLUMN), "the same one, which no i32 has, is 1");
    other.descriptor.kind = bad.descriptor.kind = 12;
    other.descriptor.width = 0;
    expect(refuses(other, bad, SLOTS, SLOTS, IDZ_COLUMN), "a kind that there isn't, twice, is 1");
    bad.descriptor.kind = 13;
    expect(refuses(other, bad, SLOTS, SLOTS, IDZ_UNLIKE), "and two of them are 25");

    static const size_t bits[] = {1, 2, 256, (size_t)1 << 32, SIZE_MAX};
    for (size_t at = 0; at < sizeof bits / sizeof bits[0]; at++) {
        other = sound;
        other.descriptor.zero = bits[at];
        expect(refuses(sound, other, SLOTS, SLOTS, IDZ_COLUMN) && refuses(other, sound, 0, 0, IDZ_COLUMN), "a zero bit that is set is 1");
        other.descriptor.width = 1;
        expect(refuses(sound, other, SLOTS, SLOTS, IDZ_UNLIKE), "which 25 comes before");
    }

    other = bad = sound;
    other.len--;
    bad.descriptor.rows++;
    expect(refuses(sound, other, SLOTS, SLOTS, IDZ_LENGTH) && refuses(other, sound, 0, 0, IDZ_LENGTH), "a byte too few is 11");
    expect(refuses(other, bad, SLOTS, SLOTS, IDZ_LENGTH) && refuses(bad, other, SLOTS, SLOTS, IDZ_SUM), "the first block comes first");
    other.descriptor.zero = 1;
    expect(refuses(bad, other, SLOTS, SLOTS, IDZ_SUM) && refuses(other, bad, SLOTS, SLOTS, IDZ_COLUMN), "its zero bit too");
    bad.descriptor.rows = (size_t)1 << 48;
    expect(refuses(sound, bad, 0, 0, IDZ_LIMIT), "a row above all is 3, before room that is short");
    bad.descriptor.encoding = 5;
    expect(refuses(sound, bad, 0, 0, IDZ_COLUMN), "no such encoding is 1");

    uint8_t changed[sizeof runs];
    memcpy(changed, runs, sizeof runs);
    changed[10] = 8;
    other = sound;
    other.block = changed;
    expect(differ(sound, other, 0, 2), "a run that changed is a range");
    for (size_t more = 0; more < 2; more++) {
        idz_compared answer = compare(sound, other, more ? 1 : SLOTS, more ? SLOTS : 1);
        expect(answer.number == IDZ_DONE && answer.ranges == 1 && firsts[0] == 0 && lasts[0] == 2 && untouched(1), "lists of two lengths");
    }
    expect(refuses(sound, other, 0, 0, IDZ_ROOM) && refuses(sound, other, 0, SLOTS, IDZ_ROOM) && refuses(sound, other, SLOTS, 0, IDZ_ROOM),
           "and 4 if either list has no slot for it");
    changed[8] = 0;
    expect(refuses(sound, other, SLOTS, SLOTS, IDZ_COUNTS), "a count of 0 is 13");
    changed[8] = 0x83;
    expect(refuses(sound, other, SLOTS, SLOTS, IDZ_COUNTS), "a count that goes on into the next leaves none for the second run");
}

/* 2^40 rows of i64 in 257 runs, of which one has another value. */
enum { RUNS = 257, LONG = 8 + 5 * RUNS + 8 * RUNS };

static column long_runs(uint8_t *block, size_t changed) {
    const size_t rows = (size_t)1 << 40, each = rows / RUNS;
    memset(block, 0, LONG);
    block[0] = RUNS % 256, block[1] = RUNS / 256;
    block[4] = 5 * RUNS % 256, block[5] = 5 * RUNS / 256;
    for (size_t run = 0; run < RUNS; run++) {
        size_t count = run + 1 < RUNS ? each : rows - each * (RUNS - 1);
        for (size_t at = 0; at < 5; at++) {
            block[8 + 5 * run + at] = (uint8_t)(count >> (7 * at) & 127) | (at < 4 ? 128 : 0);
        }
        block[8 + 5 * RUNS + 8 * run] = run == changed ? 100 : (uint8_t)(run % 99);
    }
    return (column){{IDZ_I64, IDZ_RUN_LENGTH, 0, 0, rows}, block, LONG};
}

static void many_rows(void) {
    static uint8_t block[LONG], other_block[LONG];
    const size_t rows = (size_t)1 << 40, each = rows / RUNS;
    column one = long_runs(block, RUNS), other = long_runs(other_block, RUNS);
    expect(equal(one, other), "2^40 rows don't differ from as many");
    other = long_runs(other_block, 200);
    expect(differ(one, other, 200 * each, 201 * each - 1), "but for a run of them");
    other = long_runs(other_block, RUNS - 1);
    expect(differ(one, other, 256 * each, rows - 1), "or the last one");
    static const uint8_t three[] = {0, 0, 0, 0, 0, 0, 0, 0, 0, 0, 0, 0, 0, 0, 0, 0, 9, 0, 0, 0, 0, 0, 0, 0};
    expect(differ(one, COLUMN(IDZ_I64, IDZ_PLAIN, 0, 3, three), 2, rows - 1), "three rows leave the rest to differ");
}

int main(void) {
    all_encodings();
    nulls();
    as_read();
    refusals();
    many_rows();
    expect(sizeof(idz_descriptor) == 5 * sizeof(size_t) && offsetof(idz_descriptor, zero) == 3 * sizeof(size_t), "a descriptor's numbers");
    expect(offsetof(idz_compared, ranges) == sizeof(size_t) && sizeof(idz_compared) == 2 * sizeof(size_t), "what comparing answers");
    return tell();
}
