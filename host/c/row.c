/* Asks the second engine for rows from C: of blocks of each kind by hand, of built blocks of each kind in each encoding, of blocks of many
 * rows, and what is refused. Each row that is given is also asked of a reader. Prints a line for each thing that isn't as expected, and how
 * many were. */
#include "expect.h"
#include "idzulgar.h"

#include <stdio.h>
#include <string.h>

/* A block with what it is opened by. */
typedef struct {
    idz_descriptor descriptor;
    const uint8_t *block;
    size_t len;
} column;

/* A row: whether it is there, its integer or its bytes. */
typedef struct {
    int flag;
    int64_t value;
    const char *bytes;
    size_t len;
} row;

#define COUNT(list) (sizeof list / sizeof list[0])
#define INT(value) {1, value, NULL, 0}
#define TEXT(text) {1, 0, text, sizeof text - 1}
static const row none = {0, 0, NULL, 0};

/* What is lent: how many slots of each area. */
typedef struct {
    size_t values, flags, ends, bytes;
} lengths;

/* The areas hold numbers that no row here has, and are longer than what is ever lent of them. */
enum { SLOTS = 4, ROOM = 16, MORE = 3 };
typedef struct {
    int64_t values[SLOTS + MORE];
    uint32_t ends[SLOTS + MORE];
    uint8_t flags[SLOTS + MORE], bytes[ROOM + MORE];
} areas;

static const lengths enough = {SLOTS, SLOTS, SLOTS, ROOM}, nothing = {0, 0, 0, 0};

static areas filled(void) {
    areas all;
    memset(&all, 0, sizeof all); /* any bytes between the areas, too */
    for (size_t at = 0; at < SLOTS + MORE; at++) {
        all.values[at] = INT64_MIN + 77 + (int64_t)at;
        all.ends[at] = UINT32_MAX - (uint32_t)at;
        all.flags[at] = (uint8_t)(0xAA + at);
    }
    for (size_t at = 0; at < ROOM + MORE; at++) {
        all.bytes[at] = (uint8_t)(0xA5 ^ at);
    }
    return all;
}

static int same(areas one, areas other) { return memcmp(&one, &other, sizeof one) == 0; }

static int is_bytes(size_t kind) { return kind == IDZ_CHAR || kind == IDZ_BLOB || kind == IDZ_STRING; }

/* Areas with a row of a kind written to them. */
static areas written(size_t kind, row due) {
    areas all = filled();
    all.flags[0] = (uint8_t)due.flag;
    if (!is_bytes(kind)) {
        all.values[0] = due.value;
        return all;
    }
    all.ends[0] = (uint32_t)due.len;
    for (size_t at = 0; at < due.len; at++) {
        all.bytes[at] = (uint8_t)due.bytes[at];
    }
    return all;
}

static idz_row_given ask(column one, size_t at, areas *lent, lengths l) {
    return idz_row(one.descriptor, one.block, one.len, at, lent->values, l.values, lent->flags, l.flags, lent->ends, l.ends, lent->bytes,
                   l.bytes);
}

static int refuses(column one, size_t at, lengths l, uint8_t number) {
    areas lent = filled();
    idz_row_given answer = ask(one, at, &lent, l);
    return answer.number == number && answer.bytes == 0 && same(lent, filled());
}

static idz_opening opening(column one) {
    idz_descriptor d = one.descriptor;
    return idz_open(d.kind, d.encoding, d.width, d.rows, one.block, one.len);
}

/* Whether both engines give a row so, into this much memory. */
static int gives_into(column one, size_t at, row due, lengths l) {
    areas lent = filled(), read = filled();
    idz_row_given answer = ask(one, at, &lent, l);
    idz_given given = idz_read(opening(one).reader, one.block, one.len, at, 1, read.values, l.values, read.flags, l.flags, read.ends, l.ends,
                               read.bytes, l.bytes);
    return answer.number == IDZ_DONE && answer.bytes == due.len && same(lent, written(one.descriptor.kind, due)) &&
           given.number == IDZ_DONE && given.rows == 1 && given.bytes == due.len && same(lent, read);
}

/* Whether a row is given so, into just as much memory as it takes and into more; with a slot or a byte less it is 4. */
static int gives(column one, size_t at, row due) {
    int bytes = is_bytes(one.descriptor.kind);
    const lengths just = {!bytes, 1, (size_t)bytes, due.len};
    lengths fewer[3] = {just, just, just};
    fewer[0].flags = 0;
    *(bytes ? &fewer[1].ends : &fewer[1].values) = 0;
    fewer[2].bytes -= due.len > 0;
    if (!(gives_into(one, at, due, just) && gives_into(one, at, due, enough))) {
        return 0;
    }
    return refuses(one, at, fewer[0], IDZ_ROOM) && refuses(one, at, fewer[1], IDZ_ROOM) && refuses(one, at, nothing, IDZ_ROOM) &&
           (due.len == 0 || refuses(one, at, fewer[2], IDZ_ROOM));
}

/* Whether a block has just these rows: behind them it is 7, whatever room there is. */
static int has(column one, const row *due, size_t count) {
    if (one.descriptor.rows != count || opening(one).number != IDZ_DONE) {
        return 0;
    }
    for (size_t at = 0; at < count; at++) {
        if (!gives(one, at, due[at])) {
            return 0;
        }
    }
    const size_t behind[] = {count, count + 1, (size_t)1 << 32, SIZE_MAX - 1, SIZE_MAX};
    for (size_t at = 0; at < COUNT(behind); at++) {
        if (!(refuses(one, behind[at], enough, IDZ_TOO_FAR) && refuses(one, behind[at], nothing, IDZ_TOO_FAR))) {
            return 0;
        }
    }
    return 1;
}

#define COLUMN(kind, encoding, width, rows, bytes) ((column){{kind, encoding, width, 0, rows}, bytes, sizeof bytes})
#define HAS(kind, encoding, width, block, due) has(COLUMN(kind, encoding, width, COUNT(due), block), due, COUNT(due))

static void fixed_by_hand(void) {
    static const uint8_t bools[] = {0, 1, 255};
    static const row due_bools[] = {INT(0), INT(1), INT(1)};
    expect(HAS(IDZ_BOOL, IDZ_PLAIN, 0, bools, due_bools), "any byte but 0 is true");
    static const uint8_t i16s[] = {0x34, 0x12, 0xFE, 0xFF, 0x00, 0x80};
    static const row due_i16s[] = {INT(0x1234), INT(-2), INT(INT16_MIN)};
    expect(HAS(IDZ_I16, IDZ_PLAIN, 0, i16s, due_i16s), "i16, the lowest byte first");
    static const uint8_t i32s[] = {0x78, 0x56, 0x34, 0x12, 0xFF, 0xFF, 0xFF, 0xFF, 0xFF, 0xFF, 0xFF, 0x7F};
    static const row due_i32s[] = {INT(0x12345678), INT(-1), INT(INT32_MAX)};
    expect(HAS(IDZ_I32, IDZ_PLAIN, 0, i32s, due_i32s), "i32, the lowest byte first");
    static const uint8_t i64s[] = {8, 7, 6, 5, 4, 3, 2, 1, 0, 0, 0, 0, 0, 0, 0, 0x80};
    static const row due_i64s[] = {INT(0x0102030405060708), INT(INT64_MIN)};
    expect(HAS(IDZ_I64, IDZ_PLAIN, 0, i64s, due_i64s), "i64, the lowest byte first");
    static const uint8_t dates[] = {0, 0, 0x4E, 0x20, 0xFF, 0xFF, 0xFF, 0xFE};
    static const row due_dates[] = {INT(20000), INT(-2)};
    expect(HAS(IDZ_DATE, IDZ_PLAIN, 0, dates, due_dates), "Date, the highest byte first");
    static const uint8_t times[] = {1, 2, 3, 4, 5, 6, 7, 8, 0xFF, 0xFF, 0xFF, 0xFF, 0xFF, 0xFF, 0xFF, 0xFF};
    static const row due_times[] = {INT(0x0102030405060708), INT(-1)};
    expect(HAS(IDZ_TIMESTAMP, IDZ_PLAIN, 0, times, due_times), "Timestamp, the highest byte first");
    expect(HAS(IDZ_TIMESTAMP_TZ, IDZ_PLAIN, 0, times, due_times), "TimestampTz as well");
    static const uint8_t intervals[] = {0, 0, 0, 14, 0xFF, 0xFF, 0xFF, 0xFD};
    static const row due_intervals[] = {INT(((int64_t)14 << 32) + 0xFFFFFFFD)};
    expect(HAS(IDZ_INTERVAL, IDZ_PLAIN, 0, intervals, due_intervals), "Interval, months before days");
    static const uint8_t floats[] = {0x33, 0x33, 0x33, 0x33, 0x33, 0x33, 0xA3, 0x3F, 0, 0, 0, 0, 0, 0, 0, 0x80};
    static const row due_floats[] = {INT(0x3FA3333333333333), INT(INT64_MIN)};
    expect(HAS(IDZ_F64, IDZ_PLAIN, 0, floats, due_floats), "f64 by its bits: 0.0375 and -0.0");
}

static void bytes_by_hand(void) {
    static const uint8_t chars[] = {'a', 'b', 0, 'a', 'b', 'c', 0, 'x', 0xFF};
    static const row due_chars[] = {TEXT("ab"), TEXT("abc"), TEXT("")};
    expect(HAS(IDZ_CHAR, IDZ_PLAIN, 3, chars, due_chars), "char up to its first NUL");
    static const uint8_t blobs[] = {0, 0, 0, 0, 3, 0, 0, 0, 5, 0, 0, 0, 0xFF, 0, 'a', 'b', 'c'};
    static const row due_blobs[] = {TEXT(""), TEXT("\xFF\0a"), TEXT("bc")};
    expect(HAS(IDZ_BLOB, IDZ_PLAIN, 0, blobs, due_blobs), "blob by its ends");
    static const uint8_t strings[] = {2, 0, 0, 0, 2, 0, 0, 0, 6, 0, 0, 0, 0xC3, 0xA9, 'A', 0xE2, 0x82, 0xAC};
    static const row due_strings[] = {TEXT("\xC3\xA9"), TEXT(""), TEXT("A\xE2\x82\xAC")};
    expect(HAS(IDZ_STRING, IDZ_PLAIN, 0, strings, due_strings), "string by its ends");
}

/* Document 01's samples A to C, and the other two encodings. */
static void encodings_by_hand(void) {
    static const uint8_t sample_a[] = {2, 0, 0, 0, 2, 0, 0, 0, 3, 1, 7, 0, 0, 0, 255, 255, 255, 255};
    static const row due_a[] = {INT(7), INT(7), INT(7), INT(-1)};
    expect(HAS(IDZ_I32, IDZ_RUN_LENGTH, 0, sample_a, due_a), "sample A: i32, run-length");
    static const uint8_t sample_b[] = {0, 0, 0, 0, 0, 0, 0, 28, 0, 0, 0, 2, 4, 0, 0, 0, 4, 0, 0, 0, 1, 1, 1, 1, 1, 0, 0, 0x80,
                                       0, 0, 0, 0x80, 1, 0, 0, 0x80, 2, 0, 0, 0x80, 2, 0, 0, 0, 3, 0, 0, 0, 'a', 'b', 'c'};
    const row due_b[] = {TEXT("ab"), none, TEXT("ab"), TEXT("c")};
    expect(HAS(IDZ_BLOB, IDZ_DICTIONARY, 0, sample_b, due_b), "sample B: blob, dictionary");
    static const uint8_t sample_c[] = {5, 0, 0, 0, 0xFE, 0xFF, 5, 1, 0, 0, 0};
    const row due_c[] = {INT(5), none, INT(-2)};
    expect(HAS(IDZ_I16, IDZ_NULLABLE, 0, sample_c, due_c), "sample C: i16, nullable");
    /* under a null lies an item, and the bits behind the last one are set */
    static const uint8_t under[] = {9, 8, 7, 0xFA, 1, 0, 0, 0};
    const row due_under[] = {none, INT(1), none};
    expect(HAS(IDZ_BOOL, IDZ_NULLABLE, 0, under, due_under), "what lies under a null isn't shown");
    static const uint8_t runs[] = {3, 0, 0, 0, 3, 0, 0, 0, 1, 2, 1, 'a', 'b', 'x', 'y', 'c', 0, 5, 1, 0, 0, 0};
    const row due_runs[] = {TEXT("ab"), none, none, TEXT("c")};
    expect(HAS(IDZ_CHAR, IDZ_RUN_LENGTH_NULLABLE, 2, runs, due_runs), "char, run-length over nullable");
    static const uint8_t unused[] = {0, 0, 0, 0, 0, 0, 0, 0, 0, 0, 0, 1, 1, 0, 0, 0, 'a'};
    expect(has(COLUMN(IDZ_STRING, IDZ_DICTIONARY, 0, 0, unused), NULL, 0), "no rows of an entry");
}

/* Rows by their numbers: 0 is null, and each other number another row of any kind, but that a bool has two. */
static const uint8_t list[] = {1, 1, 2, 0, 2, 2, 1};
enum { ROWS = sizeof list };

/* What comes back of a row: where there are no nulls, one is stored as 0 or no bytes. */
static row row_of(size_t kind, size_t encoding, uint8_t number) {
    static const int64_t floats[] = {0, 0x3FA3333333333333, INT64_MIN};
    static const char *const texts[] = {"", "a", "ab"};
    row due = {number > 0 || encoding == IDZ_PLAIN || encoding == IDZ_RUN_LENGTH, 0, NULL, 0};
    if (is_bytes(kind)) {
        due.bytes = texts[number];
        due.len = number;
    } else if (number > 0) {
        due.value = kind == IDZ_BOOL ? number - 1 : kind == IDZ_F64 ? floats[number] : number * 1000 - 1500;
    }
    return due;
}

static column build(size_t kind, size_t encoding, size_t count, uint8_t *room, size_t room_len) {
    uint8_t items[64], lens[8], flags[1];
    uint32_t ends[8], counts[8];
    int32_t keys[8];
    size_t width = kind == IDZ_CHAR ? 3 : 0;
    idz_builder builder = idz_create(kind, encoding, width, 4096).builder;
    for (size_t at = 0; at < count; at++) {
        row next = row_of(kind, encoding, list[at]);
        idz_appended appended = idz_append(builder, items, 64, ends, 8, flags, 1, counts, 8, keys, 8, lens, 8, list[at] > 0, next.value,
                                           (const uint8_t *)next.bytes, next.len);
        expect(appended.number == IDZ_DONE, "a row is appended");
        builder = appended.builder;
    }
    idz_finished finished = idz_finish(builder, items, 64, ends, 8, flags, 1, counts, 8, keys, 8, lens, 8, room, room_len);
    expect(finished.number == IDZ_DONE, "a block is finished");
    return (column){{kind, encoding, width, 0, count}, room, finished.len};
}

/* Each kind in each encoding, with no rows and with ever more. */
static void all_pairs(void) {
    for (size_t kind = IDZ_BOOL; kind <= IDZ_F64; kind++) {
        for (size_t encoding = IDZ_PLAIN; encoding <= IDZ_DICTIONARY; encoding++) {
            for (size_t count = 0; count <= ROWS; count++) {
                uint8_t block[128];
                row due[ROWS];
                column one = build(kind, encoding, count, block, sizeof block);
                for (size_t at = 0; at < count; at++) {
                    due[at] = row_of(kind, encoding, list[at]);
                }
                char what[80];
                snprintf(what, sizeof what, "%zu rows of kind %zu, encoding %zu", count, kind, encoding);
                expect(has(one, due, count), what);
                one.descriptor.rows++;
                expect(opening(one).number != IDZ_DONE && refuses(one, 0, enough, opening(one).number), "and none of one row more");
            }
        }
    }
}

static void refusals(void) {
    /* string: "ab" twice, null, "c"; entries "ab" and "c" */
    static const uint8_t bytes[] = {0, 0, 0, 0, 0, 0, 0, 23, 0, 0, 0, 2, 3, 0, 0, 0, 3, 0, 0, 0, 2, 1, 1, 1, 0, 0, 0x80,
                                    0, 0, 0, 0x80, 2, 0, 0, 0x80, 2, 0, 0, 0, 3, 0, 0, 0, 'a', 'b', 'c'};
    const row due[] = {TEXT("ab"), TEXT("ab"), none, TEXT("c")};
    uint8_t block[sizeof bytes];
    column one = COLUMN(IDZ_STRING, IDZ_DICTIONARY, 0, 4, block), bad;
    memcpy(block, bytes, sizeof bytes);
    expect(has(one, due, 4), "strings, dictionary");

    static const size_t wrong[] = {1, 2, 256, (size_t)1 << 32, SIZE_MAX};
    static const size_t no_kinds[] = {12, IDZ_STRING + 16, IDZ_STRING + 256, IDZ_STRING + ((size_t)1 << 32), SIZE_MAX};
    static const size_t no_encodings[] = {5, IDZ_DICTIONARY + 8, IDZ_DICTIONARY + 256, IDZ_DICTIONARY + ((size_t)1 << 32), SIZE_MAX};
    for (size_t at = 0; at < COUNT(wrong); at++) {
        bad = one;
        bad.descriptor.zero = wrong[at];
        expect(refuses(bad, 0, enough, IDZ_COLUMN) && refuses(bad, SIZE_MAX, nothing, IDZ_COLUMN), "a zero bit that is set is 1");
        bad = one;
        bad.descriptor.width = wrong[at];
        bad.descriptor.rows = SIZE_MAX;
        expect(refuses(bad, 0, enough, IDZ_COLUMN), "a width that no string has is 1, before 3");
        bad = one;
        bad.descriptor.kind = no_kinds[at];
        expect(refuses(bad, 4, enough, IDZ_COLUMN), "a kind that there isn't is 1, before 7");
        bad = one;
        bad.descriptor.encoding = no_encodings[at];
        expect(refuses(bad, 0, nothing, IDZ_COLUMN), "an encoding that there isn't is 1, before 4");
    }
    static const size_t no_chars[] = {0, 256, 257, SIZE_MAX};
    for (size_t at = 0; at < COUNT(no_chars); at++) {
        expect(refuses(COLUMN(IDZ_CHAR, IDZ_PLAIN, no_chars[at], 1, block), 0, enough, IDZ_COLUMN), "char of such a width is 1");
    }
    bad = one;
    bad.descriptor.rows = (size_t)1 << 48;
    expect(refuses(bad, 0, enough, IDZ_LIMIT) && refuses(bad, SIZE_MAX, enough, IDZ_LIMIT), "a row above all is 3");
    bad = COLUMN(IDZ_BOOL, IDZ_PLAIN, 0, 1048577, block);
    expect(refuses(bad, 0, enough, IDZ_LIMIT), "and one above all without runs");
    bad = one;
    bad.descriptor.rows = 5;
    expect(refuses(bad, 0, enough, IDZ_SUM) && refuses(bad, 5, nothing, IDZ_SUM), "a row too many is 16, before 7 and 4");
    bad = one;
    bad.len--;
    expect(refuses(bad, 0, enough, IDZ_ENDS), "a byte too few is 14");
    expect(refuses(one, 4, nothing, IDZ_TOO_FAR), "7 comes before 4");

    /* a byte of the block changed: what it is, and how it is told, of rows that don't need it too */
    static const struct {
        size_t at;
        uint8_t byte, number;
        const char *what;
    } changes[] = {{9, 1, IDZ_LIMIT, "65,538 entries are 3"},
                   {0, 0xFF, IDZ_CUT, "a key length near 2^64 is 10"},
                   {7, 7, IDZ_CUT, "a key block of 7 bytes is 10"},
                   {14, 0x11, IDZ_LIMIT, "1,114,115 runs are 3"},
                   {12, 0, IDZ_COUNTS, "no runs are 13"},
                   {19, 1, IDZ_CUT, "counts that are cut are 10"},
                   {16, 2, IDZ_COUNTS, "counts for two runs of three are 13"},
                   {22, 0x80, IDZ_VARINT, "a count that is cut is 12"},
                   {21, 0, IDZ_COUNTS, "a count of 0 is 13"},
                   {7, 24, IDZ_LENGTH, "a byte more than keys is 11"},
                   {31, 3, IDZ_KEY, "a key that names no entry is 15"},
                   {35, 4, IDZ_ENDS, "an end that falls is 14"},
                   {39, 2, IDZ_LENGTH, "an end too low is 11"},
                   {45, 0xC3, IDZ_TEXT, "an entry that isn't text is 17"}};
    for (size_t at = 0; at < COUNT(changes); at++) {
        memcpy(block, bytes, sizeof bytes);
        block[changes[at].at] = changes[at].byte;
        uint8_t number = changes[at].number;
        expect(opening(one).number == number && refuses(one, 0, enough, number) && refuses(one, 3, nothing, number) &&
                   refuses(one, SIZE_MAX, enough, number),
               changes[at].what);
    }
}

/* NULL with length 0: for areas that the kind doesn't use, for the bytes of a row that has none, and for a block of no bytes. */
static void nulls(void) {
    static const uint8_t number[] = {7, 0, 0, 0}, text[] = {0, 0, 0, 0};
    int64_t value = 1;
    uint32_t end = 1;
    uint8_t flag = 77;
    idz_descriptor i32 = {IDZ_I32, IDZ_PLAIN, 0, 0, 1}, blob = {IDZ_BLOB, IDZ_PLAIN, 0, 0, 1};
    idz_row_given answer = idz_row(i32, number, sizeof number, 0, &value, 1, &flag, 1, NULL, 0, NULL, 0);
    expect(answer.number == IDZ_DONE && answer.bytes == 0 && value == 7 && flag == 1, "an i32 takes no ends and no bytes");
    flag = 77;
    answer = idz_row(blob, text, sizeof text, 0, NULL, 0, &flag, 1, &end, 1, NULL, 0);
    expect(answer.number == IDZ_DONE && answer.bytes == 0 && end == 0 && flag == 1, "a blob of no bytes takes none, and no values");
    static const uint8_t due[] = {IDZ_TOO_FAR, IDZ_CUT, IDZ_TOO_FAR, IDZ_TOO_FAR, IDZ_CUT};
    for (size_t encoding = IDZ_PLAIN; encoding <= IDZ_DICTIONARY; encoding++) {
        idz_descriptor empty = {IDZ_I32, encoding, 0, 0, 0};
        answer = idz_row(empty, NULL, 0, 0, NULL, 0, NULL, 0, NULL, 0, NULL, 0);
        expect(answer.number == due[encoding] && answer.bytes == 0, "a row of no bytes");
    }
}

/* The most rows take 65,537 runs, and one more where one of them differs. */
enum { MOST_RUNS = 65538 };

/* The most rows, of which the first or the last is another than the others. */
static void many_rows(void) {
    static uint8_t block[1 << 20], items[4 * MOST_RUNS];
    static uint32_t counts[MOST_RUNS];
    const size_t most = 281474976710655, full = 4294967295;
    for (int first = 0; first < 2; first++) {
        idz_builder builder = idz_create(IDZ_I32, IDZ_RUN_LENGTH, 0, 4096).builder;
        for (int part = 0; part < 2; part++) {
            size_t times = (part == 0) == first ? 1 : most - 1;
            idz_appended appended = idz_append_times(builder, items, sizeof items, NULL, 0, NULL, 0, counts, MOST_RUNS, NULL, 0, NULL, 0, 1,
                                                     times == 1 ? -5 : 8, NULL, 0, times);
            expect(appended.number == IDZ_DONE, "rows are appended");
            builder = appended.builder;
        }
        idz_finished finished =
            idz_finish(builder, items, sizeof items, NULL, 0, NULL, 0, counts, MOST_RUNS, NULL, 0, NULL, 0, block, sizeof block);
        column one = {{IDZ_I32, IDZ_RUN_LENGTH, 0, 0, most}, block, finished.len};
        expect(finished.number == IDZ_DONE && opening(one).number == IDZ_DONE, "281,474,976,710,655 rows");
        const size_t at[] = {0, 1, full - 1, full, full + 1, most / 2, most - 2, most - 1}, odd = first ? 0 : most - 1;
        for (size_t place = 0; place < COUNT(at); place++) {
            const row due = INT(at[place] == odd ? -5 : 8);
            expect(gives(one, at[place], due), "a row of so many");
        }
        expect(refuses(one, most, enough, IDZ_TOO_FAR) && refuses(one, SIZE_MAX, enough, IDZ_TOO_FAR), "and none behind them");
    }
}

int main(void) {
    fixed_by_hand();
    bytes_by_hand();
    encodings_by_hand();
    all_pairs();
    refusals();
    nulls();
    many_rows();
    expect(offsetof(idz_row_given, number) == 0 && offsetof(idz_row_given, bytes) == sizeof(size_t) &&
               sizeof(idz_row_given) == 2 * sizeof(size_t),
           "what asking for a row answers");
    return tell();
}
