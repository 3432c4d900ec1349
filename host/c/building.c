/* Builds, finishes and refuses blocks from C. Prints a line for each thing that isn't as expected, and how many were. */
#include "expect.h"
#include "idzulgar.h"

#include <string.h>

/* The six areas, large enough for some rows. */
static uint8_t items[128], flags[4], lens[8], out[256];
static uint32_t ends[8], counts[32];
static int32_t keys[32];

static idz_appended append(idz_builder builder, int present, int64_t value, const char *item, size_t items_len) {
    return idz_append(builder, items, items_len, ends, 8, flags, 4, counts, 32, keys, 32, lens, 8, (uint8_t)present, value,
                      (const uint8_t *)item, strlen(item));
}

static idz_finished finish(idz_builder builder, size_t room) {
    return idz_finish(builder, items, 128, ends, 8, flags, 4, counts, 32, keys, 32, lens, 8, out, room);
}

static int same(idz_builder one, idz_builder other) { return memcmp(&one, &other, sizeof one) == 0; }

/* Sample A: i32, run-length, 7 7 7 -1. */
static void run_length(void) {
    static const uint8_t block[] = {2, 0, 0, 0, 2, 0, 0, 0, 3, 1, 7, 0, 0, 0, 255, 255, 255, 255};
    static const int64_t rows[] = {7, 7, 7, -1};
    idz_creation creation = idz_create(IDZ_I32, IDZ_RUN_LENGTH, 0, 8);
    expect(creation.number == IDZ_DONE, "a builder of i32");
    idz_builder builder = creation.builder;
    for (int i = 0; i < 4; i++) {
        idz_appended appended = append(builder, 1, rows[i], "", 64);
        expect(appended.number == IDZ_DONE, "an append");
        builder = appended.builder;
    }
    idz_estimated estimated = idz_estimate(builder);
    expect(estimated.number == IDZ_DONE && estimated.size == 16, "estimate 16");
    idz_asked asked = idz_should_finish(builder, 1, 0);
    expect(asked.number == IDZ_DONE && asked.full, "8 bytes and 4 more are above the target");
    idz_finished finished = finish(builder, 64);
    expect(finished.number == IDZ_DONE && finished.len == sizeof block && memcmp(out, block, sizeof block) == 0, "sample A");
    idz_finished short_of = finish(builder, sizeof block - 1);
    expect(short_of.number == IDZ_ROOM && short_of.len == 0, "a byte of room too few is 4");
    expect(same(estimated.builder, builder) && same(asked.builder, builder), "estimate and should_finish hand the builder back");
    expect(same(finished.builder, builder) && same(short_of.builder, builder), "finish too, done or refused");
}

/* Sample B: blob, dictionary, "ab" null "ab" "c". */
static void dictionary(void) {
    static const char *rows[] = {"ab", NULL, "ab", "c"};
    idz_builder builder = idz_create(IDZ_BLOB, IDZ_DICTIONARY, 0, 100).builder;
    for (int i = 0; i < 4; i++) {
        builder = append(builder, rows[i] != NULL, 0, rows[i] != NULL ? rows[i] : "", 64).builder;
    }
    idz_finished finished = finish(builder, 64);
    expect(finished.number == IDZ_DONE && finished.len == 51 && memcmp(out + 48, "abc", 3) == 0, "sample B has 51 bytes");
    idz_opening opening = idz_open(IDZ_BLOB, IDZ_DICTIONARY, 0, 4, out, finished.len);
    expect(opening.number == IDZ_DONE && opening.reader.entries == 2, "and it opens");
}

/* Lists of integers: 1 2 1 2 .., 7 7 7 .., 7 null 7 null .., null null null .. */
enum { IN_TURN, EQUAL, WITH_NULLS, NULLS };
enum { NEVER = 32 };

/* How many rows of a list are in when should_finish first says yes, or NEVER if it hasn't by 31. */
static size_t cut_after(idz_creation creation, int list) {
    idz_builder builder = creation.builder;
    expect(creation.number == IDZ_DONE, "a builder of integers");
    for (size_t row = 0; row < NEVER; row++) {
        int present = list != NULLS && (list != WITH_NULLS || row % 2 == 0);
        idz_asked asked = idz_should_finish(builder, (uint8_t)present, 0);
        expect(asked.number == IDZ_DONE && same(asked.builder, builder), "should_finish before a row");
        if (asked.full) {
            return row;
        }
        idz_appended appended = append(builder, present, list == IN_TURN ? 1 + (int64_t)row % 2 : 7, "", 128);
        expect(appended.number == IDZ_DONE && appended.builder.key_target == builder.key_target, "an append keeps the key target");
        builder = appended.builder;
    }
    return NEVER;
}

static idz_creation keyed(size_t target, size_t key_target) {
    return idz_create_with_key_target(IDZ_I32, IDZ_DICTIONARY, 0, target, key_target);
}

/* Where a dictionary is cut: its keys are held to the target, or to a key target that was asked for by name. */
static void key_targets(void) {
    expect(idz_create(IDZ_I32, IDZ_DICTIONARY, 0, 64).builder.key_target == 64, "the key target is the target");
    expect(keyed(64, 9).builder.target == 64 && keyed(64, 9).builder.key_target == 9, "or the one by name");
    expect(cut_after(idz_create(IDZ_I32, IDZ_DICTIONARY, 0, 64), IN_TURN) == 16, "1 2 1 2 ..: 16 keys and one more have 68 bytes");
    expect(cut_after(idz_create(IDZ_I32, IDZ_DICTIONARY, 0, 64), WITH_NULLS) == 16, "nulls are runs too");
    expect(cut_after(idz_create(IDZ_I32, IDZ_DICTIONARY, 0, 64), EQUAL) == NEVER, "7 7 7 .. is one run");
    expect(cut_after(idz_create(IDZ_I32, IDZ_DICTIONARY, 0, 64), NULLS) == NEVER, "so is null null null ..");
    expect(cut_after(idz_create(IDZ_I32, IDZ_DICTIONARY, 0, 0), NULLS) == 1, "a target of 0 is a key target of 0");
    for (int list = IN_TURN; list <= NULLS; list++) {
        expect(cut_after(keyed(64, 0), list) == 1, "key target 0: a block a row");
        expect(cut_after(keyed(64, 7), list) == 1, "key target 7: too");
        expect(cut_after(keyed(64, SIZE_MAX), list) == NEVER, "the greatest key target: no keys are too many");
    }
    expect(cut_after(keyed(64, 8), IN_TURN) == 2, "key target 8: two keys");
    expect(cut_after(keyed(64, 64), IN_TURN) == 16, "the target by name");
    expect(cut_after(keyed(7, SIZE_MAX), EQUAL) == 1, "the entries are held to the target all the same");
    expect(cut_after(keyed(7, SIZE_MAX), NULLS) == NEVER, "and nulls have none");
    for (size_t encoding = IDZ_PLAIN; encoding < IDZ_DICTIONARY; encoding++) {
        for (int list = IN_TURN; list <= NULLS; list++) {
            size_t rows = cut_after(idz_create(IDZ_I32, encoding, 0, 64), list);
            expect(cut_after(idz_create_with_key_target(IDZ_I32, encoding, 0, 64, 0), list) == rows, "no keys, key target 0");
            expect(cut_after(idz_create_with_key_target(IDZ_I32, encoding, 0, 64, SIZE_MAX), list) == rows, "no keys, the greatest");
        }
        expect(idz_create_with_key_target(IDZ_I32, encoding, 0, 64, 0).builder.key_target == 0, "which is kept");
    }
    expect(cut_after(idz_create(IDZ_I32, IDZ_PLAIN, 0, 64), EQUAL) == 16, "a plain block has 16 rows");
    idz_creation creation = idz_create_with_key_target(IDZ_CHAR, IDZ_DICTIONARY, 0, 64, 0);
    expect(creation.number == IDZ_COLUMN && idz_estimate(creation.builder).number == IDZ_DISAGREE, "char of 0 is 1, and its record 9");
}

/* Any number is a key target: put into the record, it is no 9, and only should_finish says otherwise. */
static void forged_key_targets(void) {
    static const size_t forged[] = {0, SIZE_MAX, 5};
    for (size_t encoding = IDZ_PLAIN; encoding <= IDZ_DICTIONARY; encoding++) {
        idz_builder builder = append(idz_create(IDZ_I32, encoding, 0, 64).builder, 1, 7, "", 128).builder;
        idz_finished finished = finish(builder, 256);
        uint8_t block[sizeof out];
        memcpy(block, out, sizeof out);
        for (size_t at = 0; at < sizeof forged / sizeof forged[0]; at++) {
            builder.key_target = forged[at];
            idz_asked asked = idz_should_finish(builder, 1, 0);
            expect(asked.number == IDZ_DONE && same(asked.builder, builder), "should_finish takes any key target");
            expect(asked.full == (encoding == IDZ_DICTIONARY && forged[at] < 8), "and holds the keys to it");
            expect(idz_estimate(builder).number == IDZ_DONE && append(builder, 0, 0, "", 128).number == IDZ_DONE, "so do the other calls");
            idz_finished again = finish(builder, 256);
            expect(again.number == IDZ_DONE && again.len == finished.len && memcmp(out, block, again.len) == 0, "the block is the same");
        }
    }
}

/* f64, run-length, 1.0 1.0 -0.0 0.0: a double goes in and comes back by its bits, so the zeros are two runs. */
static void floats(void) {
    static const double rows[] = {1.0, 1.0, -0.0, 0.0};
    static const uint8_t block[] = {3, 0, 0, 0, 3, 0, 0, 0, 2, 1, 1, /* three runs, of 2, 1 and 1 rows */
                                    0, 0, 0, 0, 0, 0, 0xF0, 0x3F,    /* 1.0 */
                                    0, 0, 0, 0, 0, 0, 0, 0x80,       /* -0.0 */
                                    0, 0, 0, 0, 0, 0, 0, 0};         /* 0.0 */
    idz_builder builder = idz_create(IDZ_F64, IDZ_RUN_LENGTH, 0, 100).builder;
    for (int i = 0; i < 4; i++) {
        int64_t bits;
        memcpy(&bits, &rows[i], sizeof bits);
        builder = append(builder, 1, bits, "", 64).builder;
    }
    idz_finished finished = finish(builder, 64);
    expect(finished.number == IDZ_DONE && finished.len == sizeof block && memcmp(out, block, sizeof block) == 0, "three runs of doubles");
    idz_reader reader = idz_open(IDZ_F64, IDZ_RUN_LENGTH, 0, 4, out, finished.len).reader;
    int64_t values[4];
    uint8_t given_flags[4];
    idz_given given = idz_read(reader, out, finished.len, 0, 4, values, 4, given_flags, 4, NULL, 0, NULL, 0);
    expect(given.number == IDZ_DONE && given.rows == 4 && memcmp(values, rows, sizeof rows) == 0, "and their bits come back");
    expect(idz_create(IDZ_F64, IDZ_PLAIN, 8, 0).number == IDZ_COLUMN, "f64 of a width is 1");
}

/* string, plain: C3A9, a null, "A". Text goes in, and what is none is refused. */
static void strings(void) {
    static const uint8_t block[] = {2, 0, 0, 0, 2, 0, 0, 0, 3, 0, 0, 0, 0xC3, 0xA9, 'A'};
    idz_builder builder = idz_create(IDZ_STRING, IDZ_PLAIN, 0, 100).builder;
    builder = append(builder, 1, 0, "\xC3\xA9", 64).builder;
    idz_appended appended = append(builder, 1, 0, "\xC3", 64);
    expect(appended.number == IDZ_ITEM && same(appended.builder, builder), "a string that is cut is 2");
    builder = append(builder, 0, 0, "\xC3", 64).builder;
    builder = append(builder, 1, 0, "A", 64).builder;
    idz_finished finished = finish(builder, 64);
    expect(finished.number == IDZ_DONE && finished.len == sizeof block && memcmp(out, block, sizeof block) == 0, "strings as blobs are");
    idz_builder chars = idz_create(IDZ_CHAR, IDZ_PLAIN, 2, 100).builder;
    expect(append(chars, 1, 0, "\xFF", 64).number == IDZ_ITEM, "a char that isn't text is 2");
    expect(append(chars, 1, 0, "\xC3\xA9", 64).number == IDZ_DONE, "one that is isn't");
    idz_builder blobs = idz_create(IDZ_BLOB, IDZ_PLAIN, 0, 100).builder;
    expect(append(blobs, 1, 0, "\xFF", 64).number == IDZ_DONE, "nor is a blob, which takes any bytes");
    expect(idz_create(IDZ_STRING, IDZ_PLAIN, 1, 0).number == IDZ_COLUMN, "string of a width is 1");
}

static void refused(void) {
    idz_creation creation = idz_create(IDZ_CHAR, IDZ_PLAIN, 0, 0);
    expect(creation.number == IDZ_COLUMN, "char of 0 is 1");
    idz_estimated estimated = idz_estimate(creation.builder);
    idz_asked asked = idz_should_finish(creation.builder, 1, 1);
    idz_finished finished = finish(creation.builder, 64);
    expect(estimated.number == IDZ_DISAGREE && estimated.size == 0, "and estimate refuses its record as 9");
    expect(asked.number == IDZ_DISAGREE && !asked.full, "should_finish too");
    expect(finished.number == IDZ_DISAGREE && finished.len == 0, "finish too");
    expect(same(estimated.builder, creation.builder) && same(asked.builder, creation.builder) && same(finished.builder, creation.builder),
           "all three hand it back");
    idz_builder builder = idz_create(IDZ_CHAR, IDZ_PLAIN, 2, 0).builder;
    expect(append(builder, 1, 0, "abc", 64).number == IDZ_ITEM, "three bytes in char 2 are 2");
    idz_appended appended = append(builder, 1, 0, "ab", 1);
    expect(appended.number == IDZ_ROOM && same(appended.builder, builder), "a byte of room for two is 4");
    builder.bytes = 1;
    expect(append(builder, 1, 0, "ab", 64).number == IDZ_DISAGREE, "a record that contradicts itself is 9");
}

/* The six areas again, as one memory that can be kept and compared: room for 40 rows of any kind here. */
typedef struct {
    uint32_t ends[40], counts[40];
    int32_t keys[40];
    uint8_t items[320], flags[8], lens[40];
} memory;

enum { ITEMS = 320 };

static idz_appended times_into(memory *lent, size_t items_len, idz_builder builder, int present, int64_t value, const char *item,
                               size_t times) {
    return idz_append_times(builder, lent->items, items_len, lent->ends, 40, lent->flags, 8, lent->counts, 40, lent->keys, 40, lent->lens,
                            40, (uint8_t)present, value, (const uint8_t *)item, strlen(item), times);
}

static idz_appended once_into(memory *lent, idz_builder builder, int present, int64_t value, const char *item) {
    return idz_append(builder, lent->items, ITEMS, lent->ends, 40, lent->flags, 8, lent->counts, 40, lent->keys, 40, lent->lens, 40,
                      (uint8_t)present, value, (const uint8_t *)item, strlen(item));
}

static int unchanged(const memory *one, const memory *other) { return memcmp(one, other, sizeof *one) == 0; }

static const size_t MOST_ROWS = 281474976710655, FULL_RUN = 4294967295;

/* A loan of 360 equal payments: one run, and the same by single rows. */
static void payments(void) {
    static const uint8_t block[] = {1, 0, 0, 0, 2, 0, 0, 0, 0xE8, 2, 0x23, 0x5C, 1, 0, 0, 0, 0, 0};
    memory lent = {0}, other = {0};
    idz_builder builder = idz_create(IDZ_I64, IDZ_RUN_LENGTH, 0, 100).builder, single = builder;
    idz_appended appended =
        idz_append_times(builder, lent.items, 8, NULL, 0, NULL, 0, lent.counts, 1, NULL, 0, NULL, 0, 1, 89123, NULL, 0, 360);
    expect(appended.number == IDZ_DONE && appended.builder.rows == 360 && appended.builder.runs == 1, "360 payments in one run");
    for (int month = 0; month < 360; month++) {
        single = once_into(&other, single, 1, 89123, "").builder;
    }
    expect(same(appended.builder, single) && unchanged(&lent, &other), "as by 360 appends");
    idz_finished finished = idz_finish(single, lent.items, 8, NULL, 0, NULL, 0, lent.counts, 1, NULL, 0, NULL, 0, out, sizeof out);
    expect(finished.number == IDZ_DONE && finished.len == sizeof block && memcmp(out, block, sizeof block) == 0, "the block of 360 payments");
}

/* Up to 20 rows at once behind up to three others, of every kind and encoding, in every split: as by single rows, in every byte. */
static void as_single_rows(void) {
    static const char *texts[] = {"", "a", "bc"};
    for (size_t kind = IDZ_BOOL; kind <= IDZ_F64; kind++) {
        for (size_t encoding = IDZ_PLAIN; encoding <= IDZ_DICTIONARY; encoding++) {
            for (size_t before = 0; before <= 3; before++) {
                for (int row = 0; row < 3; row++) {
                    memory start;
                    memset(&start, 0x5A, sizeof start);
                    idz_builder builder = idz_create(kind, encoding, kind == IDZ_CHAR ? 3 : 0, 0).builder;
                    for (size_t place = 0; place < before; place++) {
                        builder = once_into(&start, builder, place != 1, (int64_t)place % 2, texts[place % 2]).builder;
                    }
                    memory singles = start;
                    idz_builder single = builder;
                    for (size_t times = 0; times <= 20; times++) {
                        memory all = start;
                        idz_appended appended = times_into(&all, ITEMS, builder, row != 1, row % 2, texts[row], times);
                        expect(appended.number == IDZ_DONE && same(appended.builder, single) && unchanged(&all, &singles), "n rows at once");
                        memory split = start;
                        appended = times_into(&split, ITEMS, builder, row != 1, row % 2, texts[row], times / 3);
                        appended = times_into(&split, ITEMS, appended.builder, row != 1, row % 2, texts[row], times - times / 3);
                        expect(appended.number == IDZ_DONE && same(appended.builder, single) && unchanged(&split, &singles), "n and then m");
                        single = once_into(&singles, single, row != 1, row % 2, texts[row]).builder;
                    }
                }
            }
        }
    }
}

/* A run of 4,294,967,290 rows, and ten more: five join, and five are another run. */
static void full_runs(void) {
    for (size_t encoding = IDZ_RUN_LENGTH; encoding <= IDZ_DICTIONARY; encoding++) {
        int keyed = encoding == IDZ_DICTIONARY;
        memory lent = {0};
        idz_builder builder = idz_create(IDZ_I32, encoding, 0, 0).builder;
        builder = times_into(&lent, ITEMS, builder, 1, 7, "", 4294967290).builder;
        expect(builder.runs == 1 && builder.last == 4294967290 && lent.counts[0] == 4294967290, "a run that is nearly full");
        memory full = lent;
        idz_appended appended = times_into(&full, ITEMS, builder, 1, 7, "", 5);
        expect(appended.builder.runs == 1 && appended.builder.last == FULL_RUN && full.counts[0] == FULL_RUN, "five join");
        appended = times_into(&lent, ITEMS, builder, 1, 7, "", 10);
        builder = appended.builder;
        expect(appended.number == IDZ_DONE && builder.rows == 4294967300 && builder.runs == 2 && builder.last == 5, "of ten, five join");
        expect(lent.counts[0] == FULL_RUN && lent.counts[1] == 5 && builder.counts == 6, "and five are another run");
        expect(builder.bytes == (keyed ? 4 : 8) && lent.items[4] == (keyed ? 0 : 7), "with the item again, but for an entry");
        expect(builder.entries == (size_t)keyed && (!keyed || (lent.keys[0] == INT32_MIN + 1 && lent.keys[1] == INT32_MIN + 1)),
               "or the key again");
    }
}

/* The most rows that a block can have, in one call. */
static void most_rows(void) {
    static uint8_t some_items[65538], some_flags[8194];
    static uint32_t some_counts[65538];
    static int32_t some_keys[65538];
    for (size_t encoding = IDZ_RUN_LENGTH; encoding <= IDZ_DICTIONARY; encoding++) {
        int keyed = encoding == IDZ_DICTIONARY;
        size_t items_len = keyed ? 1 : 65537, flags_len = encoding == IDZ_RUN_LENGTH_NULLABLE ? 8193 : 0, keys_len = keyed ? 65537 : 0;
        memset(some_items, 0x5A, sizeof some_items);
        memset(some_flags, 0x5A, sizeof some_flags);
        memset(some_counts, 0x5A, sizeof some_counts);
        memset(some_keys, 0x5A, sizeof some_keys);
        idz_builder builder = idz_create(IDZ_BOOL, encoding, 0, 0).builder;
        idz_appended appended = idz_append_times(builder, some_items, items_len, NULL, 0, some_flags, flags_len, some_counts, 65536,
                                                 some_keys, keys_len, NULL, 0, 1, 1, NULL, 0, MOST_ROWS);
        expect(appended.number == IDZ_ROOM && same(appended.builder, builder), "a run's count without a slot is 4");
        int written = some_items[0] != 0x5A || some_flags[0] != 0x5A || some_counts[0] != 0x5A5A5A5A || some_keys[0] != 0x5A5A5A5A;
        expect(!written, "and nothing is written");
        appended = idz_append_times(builder, some_items, items_len, NULL, 0, some_flags, flags_len, some_counts, 65537, some_keys, keys_len,
                                    NULL, 0, 1, 1, NULL, 0, MOST_ROWS);
        idz_builder most = appended.builder;
        expect(appended.number == IDZ_DONE && most.rows == MOST_ROWS && most.runs == 65537 && most.last == 65535, "65,537 runs");
        expect(most.counts == 5 * 65536 + 3 && most.bytes == items_len && most.entries == (size_t)keyed, "of five bytes, and of three");
        int full = some_counts[65536] == 65535, equal = some_flags[8192] == (flags_len > 0 ? 1 : 0x5A);
        for (size_t run = 0; run < 65537; run++) {
            full = full && (run == 65536 || some_counts[run] == FULL_RUN);
            equal = equal && (run >= items_len || some_items[run] == 1) && (run >= keys_len || some_keys[run] == INT32_MIN + 1);
            equal = equal && (run / 8 >= 8192 || flags_len == 0 || some_flags[run / 8] == 0xFF);
        }
        expect(full, "65,536 full runs and one of 65,535");
        expect(equal, "with equal items, flags and keys");
        expect(some_counts[65537] == 0x5A5A5A5A && some_items[65537] == 0x5A && some_flags[8193] == 0x5A, "and nothing behind them");
        for (int sort = 0; sort < 2; sort++) {
            appended = idz_append(most, some_items, 65538, NULL, 0, some_flags, 8194, some_counts, 65538, some_keys, 65538, NULL, 0,
                                  (uint8_t)sort, 1, NULL, 0);
            expect(appended.number == IDZ_LIMIT && same(appended.builder, most), "one row more is 3, whether or not it joins");
        }
        appended = idz_append_times(builder, some_items, 65538, NULL, 0, some_flags, 8194, some_counts, 65538, some_keys, 65538, NULL, 0, 1,
                                    1, NULL, 0, MOST_ROWS + 1);
        expect(appended.number == IDZ_LIMIT && same(appended.builder, builder), "so it is in one call");
    }
}

/* Flags over the edge of a byte, and a count that takes a byte more. */
static void edges(void) {
    memory lent;
    memset(&lent, 0x5A, sizeof lent);
    idz_builder builder = idz_create(IDZ_I32, IDZ_NULLABLE, 0, 0).builder;
    builder = times_into(&lent, ITEMS, builder, 1, 7, "", 6).builder;
    expect(lent.flags[0] == 0x3F && lent.flags[1] == 0x5A, "six flags");
    memory nulls = lent;
    times_into(&nulls, ITEMS, builder, 0, 0, "", 5);
    expect(nulls.flags[0] == 0x3F && nulls.flags[1] == 0, "and five of nulls");
    idz_appended appended = times_into(&lent, ITEMS, builder, 1, 7, "", 5);
    expect(appended.number == IDZ_DONE && lent.flags[0] == 0xFF && lent.flags[1] == 7 && lent.flags[2] == 0x5A, "or five more");
    builder = times_into(&lent, ITEMS, idz_create(IDZ_I32, IDZ_RUN_LENGTH, 0, 0).builder, 1, 7, "", 120).builder;
    expect(builder.counts == 1 && times_into(&lent, ITEMS, builder, 1, 7, "", 7).builder.counts == 1, "127 rows: a byte");
    builder = times_into(&lent, ITEMS, builder, 1, 7, "", 10).builder;
    expect(builder.counts == 2 && builder.last == 130 && lent.counts[0] == 130, "130 rows: two");
}

/* What n rows are refused as: 9, 2, 3, 4, and n = 0 as 9 and 2 alone. */
static void times_refused(void) {
    static const size_t many[] = {0, 1, 10, 2000000, SIZE_MAX};
    memory lent, before;
    memset(&lent, 0x5A, sizeof lent);
    /* plain bool, room for ten rows */
    idz_builder bools = idz_create(IDZ_BOOL, IDZ_PLAIN, 0, 0).builder;
    before = lent;
    expect(times_into(&lent, 10, bools, 1, 1, "", 11).number == IDZ_ROOM && unchanged(&lent, &before), "eleven rows are 4: room is for ten");
    expect(times_into(&lent, 10, bools, 1, 1, "", 1048576).number == IDZ_ROOM, "so are 1,048,576");
    expect(times_into(&lent, 10, bools, 1, 1, "", 1048577).number == IDZ_LIMIT, "one more is 3, which comes before 4");
    expect(times_into(&lent, 10, bools, 1, 1, "", 2000000).number == IDZ_LIMIT, "so are 2,000,000");
    expect(times_into(&lent, 0, bools, 1, 1, "", 2000000).number == IDZ_LIMIT, "and with no room at all");
    expect(times_into(&lent, 10, bools, 1, 2, "", 2000000).number == IDZ_ITEM, "of a row that doesn't fit they are 2");
    expect(unchanged(&lent, &before), "and nothing is written");
    expect(times_into(&lent, 10, bools, 1, 1, "", 10).number == IDZ_DONE && !unchanged(&lent, &before), "ten rows are taken");
    /* char of 2 and string: rows that don't fit, however many times */
    idz_builder chars = times_into(&lent, ITEMS, idz_create(IDZ_CHAR, IDZ_RUN_LENGTH, 2, 0).builder, 1, 0, "ab", 3).builder;
    idz_builder strings = idz_create(IDZ_STRING, IDZ_PLAIN, 0, 0).builder;
    before = lent;
    for (size_t at = 0; at < sizeof many / sizeof many[0]; at++) {
        expect(times_into(&lent, ITEMS, chars, 1, 0, "abc", many[at]).number == IDZ_ITEM, "a char that is too long is 2");
        expect(times_into(&lent, ITEMS, chars, 1, 0, "\xC3", many[at]).number == IDZ_ITEM, "one that isn't text too");
        expect(times_into(&lent, ITEMS, strings, 1, 0, "\xC3", many[at]).number == IDZ_ITEM, "so is a string");
        idz_builder wrong = chars;
        wrong.bytes++;
        expect(times_into(&lent, ITEMS, wrong, 1, 0, "abc", many[at]).number == IDZ_DISAGREE, "a record that contradicts itself is 9 before");
    }
    /* nothing of a row that fits, with no room for it: done */
    chars.null = 5;
    idz_appended appended = times_into(&lent, 2, chars, 1, 0, "cd", 0);
    expect(appended.number == IDZ_DONE && same(appended.builder, chars) && unchanged(&lent, &before), "0 rows change nothing, nor `null`");
    expect(times_into(&lent, 1, chars, 1, 0, "cd", 0).number == IDZ_DISAGREE, "but items that aren't there are 9");
    lent.lens[0] = 3;
    expect(times_into(&lent, ITEMS, chars, 1, 0, "ab", 0).number == IDZ_DISAGREE, "so is a length above the width");
    idz_builder blobs = times_into(&lent, ITEMS, idz_create(IDZ_BLOB, IDZ_DICTIONARY, 0, 0).builder, 1, 0, "ab", 3).builder;
    lent.ends[0]++;
    expect(times_into(&lent, ITEMS, blobs, 1, 0, "ab", 0).number == IDZ_DISAGREE, "and an end past the bytes");
    expect(times_into(&lent, ITEMS, blobs, 0, 0, "", 0).number == IDZ_DONE, "which no null looks at");
    /* any number of rows gets an answer; bytes in all are 2^64 and more */
    for (size_t encoding = IDZ_PLAIN; encoding <= IDZ_DICTIONARY; encoding++) {
        idz_builder builder = idz_create(IDZ_BLOB, encoding, 0, 0).builder;
        before = lent;
        expect(times_into(&lent, ITEMS, builder, 1, 0, "ab", SIZE_MAX).number == IDZ_LIMIT, "2^64 - 1 rows are 3");
        expect(times_into(&lent, ITEMS, builder, 1, 0, "ab", (size_t)1 << 63).number == IDZ_LIMIT, "2^63 of two bytes too");
        expect(times_into(&lent, ITEMS, builder, 0, 0, "", MOST_ROWS + 1).number == IDZ_LIMIT, "2^48 nulls too");
        expect(unchanged(&lent, &before), "and nothing is written");
    }
}

int main(void) {
    expect(IDZ_VERSION == 4, "the header's version");
    run_length();
    dictionary();
    key_targets();
    forged_key_targets();
    floats();
    strings();
    refused();
    payments();
    as_single_rows();
    full_runs();
    most_rows();
    edges();
    times_refused();
    return tell();
}
