/* Salvages dictionary columns from C: blocks of each kind with keys damaged, blocks by hand that no builder makes, blocks of many rows, and
 * what is refused. Prints a line for each thing that isn't as expected, and how many were. */
#include "expect.h"
#include "idzulgar.h"

#include <string.h>

/* A block with what it is opened by. */
typedef struct {
    idz_descriptor descriptor;
    const uint8_t *block;
    size_t len;
} column;

/* Slots that hold numbers which are no rows, and bytes of room, three more of each than are ever lent. */
enum { SLOTS = 8, ROOM = 1 << 20, MORE = 3 };
static size_t firsts[SLOTS + MORE], lasts[SLOTS + MORE];
static uint8_t out[ROOM + MORE];

static size_t no_first(size_t at) { return SIZE_MAX - at; }
static size_t no_last(size_t at) { return SIZE_MAX / 2 - at; }
static uint8_t no_byte(size_t at) { return (uint8_t)(0xA5 ^ at); }

/* How much of the room is filled anew for each call, and looked at behind it. */
static size_t looked_at(column one) { return one.len + MORE < sizeof out ? one.len + MORE : sizeof out; }

static idz_salvaged salvage(column one, size_t firsts_len, size_t lasts_len, size_t out_len) {
    for (size_t at = 0; at < SLOTS + MORE; at++) {
        firsts[at] = no_first(at);
        lasts[at] = no_last(at);
    }
    for (size_t at = 0; at < looked_at(one); at++) {
        out[at] = no_byte(at);
    }
    return idz_salvage(one.descriptor, one.block, one.len, firsts, firsts_len, lasts, lasts_len, out, out_len);
}

/* Whether the slots from one on and the bytes from one on are as they were. */
static int untouched(column one, size_t slot, size_t byte) {
    for (size_t at = slot; at < SLOTS + MORE; at++) {
        if (firsts[at] != no_first(at) || lasts[at] != no_last(at)) {
            return 0;
        }
    }
    for (size_t at = byte; at < looked_at(one); at++) {
        if (out[at] != no_byte(at)) {
            return 0;
        }
    }
    return 1;
}

static int refuses(column one, size_t firsts_len, size_t lasts_len, size_t out_len, uint8_t number) {
    idz_salvaged answer = salvage(one, firsts_len, lasts_len, out_len);
    return answer.number == number && answer.len == 0 && answer.ranges == 0 && untouched(one, 0, 0);
}

static uint8_t opening(column one) {
    idz_descriptor d = one.descriptor;
    return idz_open(d.kind, d.encoding, d.width, d.rows, one.block, one.len).number;
}

/* Whether a block gives this one and these ranges, in just as much memory as they take and in more; with a slot or a byte less it is 4. The
 * block that comes of it isn't longer, opens, and gives itself and no ranges. */
static int gives(column one, const size_t (*ranges)[2], size_t count, column due) {
    const size_t lent[] = {count, SLOTS}, room[] = {due.len, one.len};
    if (due.len > one.len || opening(due) != IDZ_DONE) {
        return 0;
    }
    for (int more = 0; more < 2; more++) {
        idz_salvaged answer = salvage(one, lent[more], lent[more], room[more]);
        if (answer.number != IDZ_DONE || answer.len != due.len || answer.ranges != count || !untouched(one, count, due.len)) {
            return 0;
        }
        for (size_t at = 0; at < count; at++) {
            if (firsts[at] != ranges[at][0] || lasts[at] != ranges[at][1]) {
                return 0;
            }
        }
        if (memcmp(out, due.block, due.len) != 0) {
            return 0;
        }
    }
    if (!(refuses(one, count, count, due.len - 1, IDZ_ROOM) && refuses(one, SLOTS, SLOTS, 0, IDZ_ROOM))) {
        return 0;
    }
    if (count > 0 && !(refuses(one, count - 1, count, due.len, IDZ_ROOM) && refuses(one, count, count - 1, due.len, IDZ_ROOM))) {
        return 0;
    }
    idz_salvaged again = salvage(due, 0, 0, due.len);
    return again.number == IDZ_DONE && again.len == due.len && again.ranges == 0 && memcmp(out, due.block, due.len) == 0;
}

static int loses_nothing(column one, column due) { return gives(one, NULL, 0, due); }

/* Rows by their numbers: 0 is null, and each other number another row of any kind, but that a bool has two. */
static const uint8_t rows[] = {1, 1, 2, 0, 2, 2, 1}, run_of[] = {0, 0, 1, 2, 3, 3, 4};
enum { ROWS = sizeof rows, RUNS = 5 };

static int64_t value_of(size_t kind, uint8_t row) {
    static const int64_t floats[] = {0, (int64_t)0x3FA3333333333333, INT64_MIN}; /* 0.0375 and -0.0 */
    return kind == IDZ_BOOL ? row - 1 : kind == IDZ_F64 ? floats[row] : row * 1000 - 1500;
}

/* Builds the dictionary block of some rows. */
static column build(size_t kind, const uint8_t *list, size_t count, uint8_t *room, size_t room_len) {
    static const uint8_t *const texts[] = {(const uint8_t *)"", (const uint8_t *)"a", (const uint8_t *)"ab"};
    uint8_t items[64], lens[8];
    uint32_t ends[8], counts[8];
    int32_t keys[8];
    size_t width = kind == IDZ_CHAR ? 3 : 0;
    idz_builder builder = idz_create(kind, IDZ_DICTIONARY, width, 4096).builder;
    for (size_t row = 0; row < count; row++) {
        uint8_t number = list[row];
        int bytes = kind == IDZ_CHAR || kind == IDZ_BLOB || kind == IDZ_STRING;
        idz_appended appended = idz_append(builder, items, 64, ends, 8, NULL, 0, counts, 8, keys, 8, lens, 8, number > 0,
                                           bytes ? 0 : value_of(kind, number), texts[number], bytes ? number : 0);
        expect(appended.number == IDZ_DONE, "a row is appended");
        builder = appended.builder;
    }
    idz_finished finished = idz_finish(builder, items, 64, ends, 8, NULL, 0, counts, 8, keys, 8, lens, 8, room, room_len);
    expect(finished.number == IDZ_DONE, "a block is finished");
    return (column){{kind, IDZ_DICTIONARY, width, 0, count}, room, finished.len};
}

/* Gives a run of a block another key: behind 20 bytes of lengths and the counts stand the keys. */
static void set_key(uint8_t *block, size_t run, uint32_t key) {
    size_t counts = block[16] + ((size_t)block[17] << 8) + ((size_t)block[18] << 16), at = 20 + counts + 4 * run;
    for (size_t byte = 0; byte < 4; byte++) {
        block[at + byte] = (uint8_t)(key >> 8 * byte);
    }
}

/* Null's key, and that of an entry, counted from 0; as the bits of an i32. */
#define NULL_KEY 0x80000000u
#define KEY(entry) (NULL_KEY + 1 + (entry))

/* Of each kind: every choice of runs whose keys name no entry. */
static void all_kinds(void) {
    static const uint32_t unknown[] = {KEY(2), KEY(3), 0x7FFFFFFF, 0xFFFFFFFF, 0};
    for (size_t kind = IDZ_BOOL; kind <= IDZ_F64; kind++) {
        uint8_t block[256], due_block[256], left[ROWS];
        for (unsigned lost = 0; lost < 1 << RUNS; lost++) {
            column one = build(kind, rows, ROWS, block, sizeof block);
            expect(opening(one) == IDZ_DONE, "a built block opens");
            size_t ranges[ROWS][2], count = 0;
            for (size_t run = 0; run < RUNS; run++) {
                if (lost >> run & 1) {
                    set_key(block, run, unknown[(run + lost) % 5]);
                }
            }
            for (size_t row = 0; row < ROWS; row++) {
                int is_lost = lost >> run_of[row] & 1;
                left[row] = is_lost ? 0 : rows[row];
                if (is_lost && count > 0 && ranges[count - 1][1] + 1 == row) {
                    ranges[count - 1][1] = row;
                } else if (is_lost) {
                    ranges[count][0] = ranges[count][1] = row;
                    count++;
                }
            }
            expect(opening(one) == (lost ? IDZ_KEY : IDZ_DONE), "and with a bad key it is 15");
            column due = build(kind, left, ROWS, due_block, sizeof due_block);
            expect(gives(one, (const size_t(*)[2])ranges, count, due), "the rows of bad keys become null, and all others stay");
            expect(lost || (due.len == one.len && memcmp(due.block, block, due.len) == 0), "a sound block comes back as it is");
        }
        column none = build(kind, rows, 0, block, sizeof block), due = build(kind, rows, 0, due_block, sizeof due_block);
        expect(none.len == 12 && loses_nothing(none, due), "no rows are twelve bytes");
    }
}

/* The start of a block of these runs, of at most 127 rows each: key length, entries, runs, the bytes of their counts. */
#define HEAD(entries, runs) 0, 0, 0, 0, 0, 0, 0, 8 + 5 * (runs), 0, 0, 0, entries, runs, 0, 0, 0, runs, 0, 0, 0
#define K(entry) (entry) + 1, 0, 0, 0x80
#define N 0, 0, 0, 0x80

#define COLUMN(kind, width, rows, bytes) ((column){{kind, IDZ_DICTIONARY, width, 0, rows}, bytes, sizeof bytes})

/* Entries are one by what they read as, in the order of first use, and those that no row has go. */
static void as_read(void) {
    static const uint8_t chars[] = {HEAD(4, 5), 1,   2,   1,   1,   1,   K(2), K(0), K(4), K(1), K(0), 'x',
                                    0,          'y', 'a', 'b', 'c', 'x', 0,    'z',  'n',  'o',  'n'};
    static const uint8_t due_chars[] = {HEAD(2, 4), 3, 1, 1, 1, K(0), N, K(1), K(0), 'x', 0, 0, 'a', 'b', 'c'};
    static const size_t row_3[1][2] = {{3, 3}};
    expect(gives(COLUMN(IDZ_CHAR, 3, 6, chars), row_3, 1, COLUMN(IDZ_CHAR, 3, 6, due_chars)), "a char ends at its first NUL");
    static const uint8_t bools[] = {HEAD(3, 3), 1, 1, 4, K(2), K(0), K(1), 2, 0, 255};
    static const uint8_t due_bools[] = {HEAD(2, 2), 2, 4, K(0), K(1), 1, 0};
    expect(loses_nothing(COLUMN(IDZ_BOOL, 0, 6, bools), COLUMN(IDZ_BOOL, 0, 6, due_bools)), "a bool is 0 or 1");
    static const uint8_t blobs[] = {HEAD(4, 3), 1, 1, 1, K(3), K(9), K(1), 1, 0,   0,   0, 3,   0,   0, 0,
                                    4,          0, 0, 0, 6,    0,    0,    0, 'a', 'a', 0, 'b', 'a', 0};
    static const uint8_t due_blobs[] = {HEAD(1, 3), 1, 1, 1, K(0), N, K(0), 2, 0, 0, 0, 'a', 0};
    static const size_t row_1[1][2] = {{1, 1}};
    expect(gives(COLUMN(IDZ_BLOB, 0, 3, blobs), row_1, 1, COLUMN(IDZ_BLOB, 0, 3, due_blobs)), "a NUL at the end of a blob is a byte");
    static const uint8_t nulls[] = {HEAD(1, 4), 1, 2, 3, 4, N, K(1), K(8), N, 7, 0};
    static const uint8_t due_nulls[] = {HEAD(0, 1), 10, N};
    static const size_t between[1][2] = {{1, 5}};
    expect(gives(COLUMN(IDZ_I16, 0, 10, nulls), between, 1, COLUMN(IDZ_I16, 0, 10, due_nulls)), "lost rows join nulls, which aren't lost");
    static const uint8_t unused[] = {0, 0, 0, 0, 0, 0, 0, 0, 0, 0, 0, 2, 7, 0, 8, 0}, none[12] = {0};
    expect(loses_nothing(COLUMN(IDZ_I16, 0, 0, unused), COLUMN(IDZ_I16, 0, 0, none)), "entries without rows go");
}

static void refusals(void) {
    /* string: "ab" twice, a row whose key names no entry, null; entries "ab" and "c" */
    static const uint8_t bytes[] = {HEAD(2, 3), 2, 1, 1, K(0), K(2), N, 2, 0, 0, 0, 3, 0, 0, 0, 'a', 'b', 'c'};
    static const uint8_t due_bytes[] = {HEAD(1, 2), 2, 2, K(0), N, 2, 0, 0, 0, 'a', 'b'};
    static const size_t row_2[1][2] = {{2, 2}};
    uint8_t block[sizeof bytes];
    const column sound = COLUMN(IDZ_STRING, 0, 4, due_bytes);
    column one = COLUMN(IDZ_STRING, 0, 4, block), bad;
    memcpy(block, bytes, sizeof bytes);
    expect(opening(one) == IDZ_KEY && gives(one, row_2, 1, sound), "a key that names no entry");

    for (size_t encoding = 0; encoding < 9; encoding++) {
        bad = one;
        bad.descriptor.encoding = encoding == 8 ? 4 + 256 : encoding;
        expect(encoding == IDZ_DICTIONARY || refuses(bad, SLOTS, SLOTS, one.len, IDZ_COLUMN), "any other encoding is 1");
    }
    static const size_t wrong[] = {1, 2, 256, (size_t)1 << 32, SIZE_MAX};
    static const size_t no_kinds[] = {12, IDZ_STRING + 16, IDZ_STRING + 256, IDZ_STRING + ((size_t)1 << 32), SIZE_MAX};
    for (size_t at = 0; at < sizeof wrong / sizeof wrong[0]; at++) {
        bad = one;
        bad.descriptor.zero = wrong[at];
        expect(refuses(bad, SLOTS, SLOTS, one.len, IDZ_COLUMN), "a zero bit that is set is 1");
        bad = one;
        bad.descriptor.width = wrong[at];
        bad.descriptor.rows = SIZE_MAX;
        expect(refuses(bad, SLOTS, SLOTS, one.len, IDZ_COLUMN), "a width that no string has is 1, before 3");
        bad = one;
        bad.descriptor.kind = no_kinds[at];
        expect(refuses(bad, 0, 0, 0, IDZ_COLUMN), "a kind that there isn't is 1, before room that is short");
    }
    bad = one;
    bad.descriptor.rows = (size_t)1 << 48;
    expect(refuses(bad, SLOTS, SLOTS, one.len, IDZ_LIMIT), "a row above all is 3");
    bad.len = 11;
    expect(refuses(bad, SLOTS, SLOTS, one.len, IDZ_LIMIT), "before a block that is cut");
    bad.descriptor.rows = 4;
    expect(refuses(bad, SLOTS, SLOTS, one.len, IDZ_CUT), "which is 10");
    bad = one;
    bad.descriptor.rows = 5;
    expect(refuses(bad, SLOTS, SLOTS, one.len, IDZ_SUM) && refuses(bad, 0, 0, 0, IDZ_SUM), "a row too many is 16, room or not");
    bad = one;
    bad.len--;
    expect(refuses(bad, SLOTS, SLOTS, one.len, IDZ_ENDS), "a byte too few is 14, though a key is bad");

    /* a byte of the block changed: what it is, and how it is told; the keys' own rule is the only one that isn't asked */
    static const struct {
        size_t at;
        uint8_t byte, number;
        const char *what;
    } changes[] = {{9, 1, IDZ_LIMIT, "65,538 entries are 3"},
                   {0, 0xFF, IDZ_CUT, "a key length near 2^64 is 10"},
                   {7, 7, IDZ_CUT, "a key block of 7 bytes is 10"},
                   {14, 0x11, IDZ_LIMIT, "1,114,115 runs are 3"},
                   {12, 0, IDZ_COUNTS, "no runs are 13"},
                   {19, 1, IDZ_CUT, "counts that are cut are 10"},
                   {16, 2, IDZ_COUNTS, "counts for two runs of three are 13"},
                   {22, 0x80, IDZ_VARINT, "a count that is cut is 12"},
                   {21, 0, IDZ_COUNTS, "a count of 0 is 13"},
                   {7, 24, IDZ_LENGTH, "a byte more than keys is 11"},
                   {35, 4, IDZ_ENDS, "an end that falls is 14"},
                   {39, 2, IDZ_LENGTH, "an end too low is 11"},
                   {43, 0xC3, IDZ_TEXT, "an entry that isn't text is 17, though no row has it and a key is bad"}};
    for (size_t at = 0; at < sizeof changes / sizeof changes[0]; at++) {
        memcpy(block, bytes, sizeof bytes);
        block[changes[at].at] = changes[at].byte;
        expect(refuses(one, SLOTS, SLOTS, one.len, changes[at].number) && refuses(one, 0, 0, 0, changes[at].number), changes[at].what);
    }
    memcpy(block, bytes, sizeof bytes);
    static const size_t lent[][3] = {{0, SLOTS, 45}, {SLOTS, 0, 45}, {SLOTS, SLOTS, 0}, {0, 0, 0}};
    for (size_t at = 0; at < sizeof lent / sizeof lent[0]; at++) {
        expect(refuses(one, lent[at][0], lent[at][1], lent[at][2], IDZ_ROOM), "4 if either list or the room is short");
    }
    bad = one;
    bad.descriptor.kind = IDZ_BLOB;
    column due = sound;
    due.descriptor.kind = IDZ_BLOB;
    expect(gives(bad, row_2, 1, due), "the same of a blob");
}

enum { MOST_RUNS = 65537 };

/* A row of i32, 0 for null, and how many there are of it. */
typedef struct {
    uint8_t row;
    uint64_t times;
} equal_rows;

/* Builds the dictionary block of such rows. */
static column build_runs(const equal_rows *list, size_t count, uint8_t *room, size_t room_len) {
    static uint8_t items[64];
    static uint32_t counts[MOST_RUNS];
    static int32_t keys[MOST_RUNS];
    idz_builder builder = idz_create(IDZ_I32, IDZ_DICTIONARY, 0, 4096).builder;
    for (size_t at = 0; at < count; at++) {
        idz_appended appended = idz_append_times(builder, items, 64, NULL, 0, NULL, 0, counts, MOST_RUNS, keys, MOST_RUNS, NULL, 0,
                                                 list[at].row > 0, list[at].row, NULL, 0, list[at].times);
        expect(appended.number == IDZ_DONE, "rows are appended");
        builder = appended.builder;
    }
    idz_finished finished = idz_finish(builder, items, 64, NULL, 0, NULL, 0, counts, MOST_RUNS, keys, MOST_RUNS, NULL, 0, room, room_len);
    expect(finished.number == IDZ_DONE, "a block is finished");
    return (column){{IDZ_I32, IDZ_DICTIONARY, 0, 0, builder.rows}, room, finished.len};
}

static void many_rows(void) {
    static uint8_t block[ROOM], due_block[ROOM];
    const uint64_t full = 4294967295, half = (uint64_t)1 << 31, most = 281474976710655;
    /* the second and the third run are lost: with the nulls before them they are two full runs and one row */
    const equal_rows four[] = {{0, half}, {8, full}, {9, half}, {7, full}}, joined[] = {{0, full + 2 * half}, {7, full}};
    column one = build_runs(four, 4, block, ROOM), due = build_runs(joined, 2, due_block, ROOM);
    set_key(block, 1, KEY(3));
    set_key(block, 2, 0xFFFFFFFF);
    const size_t between[1][2] = {{half, 2 * half + full - 1}};
    expect(gives(one, between, 1, due), "runs that join past the most rows of one");
    /* the most rows, equal ones: lost are the last 65,535, all others, or all */
    const equal_rows all[] = {{7, most}}, none[] = {{0, most}}, but_last[] = {{7, most - 65535}, {0, 65535}},
                     last[] = {{0, most - 65535}, {7, 65535}};
    one = build_runs(all, 1, block, ROOM);
    expect(one.descriptor.rows == most && opening(one) == IDZ_DONE, "281,474,976,710,655 rows");
    expect(loses_nothing(one, build_runs(all, 1, due_block, ROOM)), "of which none is lost");
    set_key(block, MOST_RUNS - 1, 0);
    const size_t end[1][2] = {{most - 65535, most - 1}}, start[1][2] = {{0, most - 65536}}, whole[1][2] = {{0, most - 1}};
    expect(gives(one, end, 1, build_runs(but_last, 2, due_block, ROOM)), "or the last run");
    for (size_t run = 0; run < MOST_RUNS; run++) {
        set_key(block, run, run == MOST_RUNS - 1 ? KEY(0) : KEY(1 + (uint32_t)run));
    }
    expect(gives(one, start, 1, build_runs(last, 2, due_block, ROOM)), "or all but that");
    set_key(block, MOST_RUNS - 1, KEY(1));
    expect(gives(one, whole, 1, build_runs(none, 1, due_block, ROOM)), "or all");
    one.descriptor.rows++;
    expect(refuses(one, SLOTS, SLOTS, one.len, IDZ_LIMIT), "and a row more is 3");
}

int main(void) {
    all_kinds();
    as_read();
    refusals();
    many_rows();
    expect(offsetof(idz_salvaged, len) == sizeof(size_t) && offsetof(idz_salvaged, ranges) == 2 * sizeof(size_t) &&
               sizeof(idz_salvaged) == 3 * sizeof(size_t),
           "what salvaging answers");
    return tell();
}
