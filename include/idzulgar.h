/* Column blocks of risinglight, built and read by proved code. Link target/staticlib/libcapi.a, which `rt staticlib capi` makes.
 * docs/FORMAT.md says what a block's bytes mean, and what each call answers and refuses, in which order.
 *
 * Every call takes any numbers, records and bytes, and answers with a number below; 0 is done. A refusal hands back the record that
 * it was given, counts of 0, and writes nothing; idz_remaining, idz_finish, idz_estimate and idz_should_finish hand it back when done,
 * too. Opening, of a block or of a sheet's column, and creation are given no record: beside their refusal stands one of kind 255, which
 * every call refuses as 9, but for a read that passes over no rows and gives none, which is 6.
 *
 * What no call can test, and the caller sees to: a pointer that goes with a length points to that many items and is aligned for them
 * (with length 0 it may be NULL or point anywhere); memory that a call writes overlaps nothing else that the call is lent.
 * Nothing is kept between calls but the record, and nothing is allocated, so calls on several threads don't touch each other.
 *
 * Sizes, counts and record fields are 64 bits wide: the library is for x86-64.
 */
#ifndef IDZULGAR_H
#define IDZULGAR_H

#include <stdbool.h>
#include <stddef.h>
#include <stdint.h>

#ifdef __cplusplus
extern "C" {
#endif

/* Which records and calls these are. In 1 the answers of idz_remaining, idz_finish, idz_estimate and idz_should_finish had no record. In
 * 2 idz_reader had no count of nulls. In 3 idz_builder had no key target, and that of every dictionary was 0. */
#define IDZ_VERSION 4

/* What comes back. */
enum {
    IDZ_DONE = 0,
    IDZ_COLUMN = 1,      /* kind, encoding or width is not one of the pairs; to be salvaged, the encoding is not dictionary */
    IDZ_ITEM = 2,        /* an appended item doesn't fit its kind: an integer outside it, a char item longer than the width, or a char
                            or string item that isn't text */
    IDZ_LIMIT = 3,       /* a limit is passed: rows 281,474,976,710,655; stored items or runs 1,048,576; entries 65,536;
                            block or sheet file 16,777,216 bytes */
    IDZ_ROOM = 4,        /* lent room is too short for the whole answer */
    IDZ_NO_ROWS = 6,     /* nothing asked for: a read that passes over no rows and gives none */
    IDZ_TOO_FAR = 7,     /* more rows to pass over than remain; no such row (idz_row) */
    IDZ_DISAGREE = 9,    /* the record and the lent memory disagree: another length, a record that contradicts itself, or a field
                            that changed since opening */
    IDZ_CUT = 10,        /* the block is cut */
    IDZ_LENGTH = 11,     /* a length is wrong */
    IDZ_VARINT = 12,     /* a run count is cut, too large or longer than needed */
    IDZ_COUNTS = 13,     /* a run count is 0, or the counts don't fill their section */
    IDZ_ENDS = 14,       /* the end of a blob or string falls or passes the data */
    IDZ_KEY = 15,        /* a dictionary key names no entry; idz_salvage gives the other rows back */
    IDZ_SUM = 16,        /* the run counts don't add up to the rows */
    IDZ_TEXT = 17,       /* a stored char or string item isn't text (opening) */
    IDZ_NO_COLUMN = 20,  /* the sheet file has no such column */
    IDZ_SHEET = 21,      /* the sheet file is empty, has over 64 columns, or is cut in its directory; to be written, it would have over
                            64, or the list of their numbers is cut */
    IDZ_OUTSIDE = 22,    /* a sheet file's block begins before the directory's end or ends behind the file's */
    IDZ_UNLIKE = 25      /* two columns to be compared differ in their kinds or in their widths */
};

/* Kinds. Width is 1 to 255 for char and 0 for every other kind. The items of char and string are text, which is well-formed UTF-8 (the
 * Unicode Standard, table 3-7): a stored char item up to its first NUL, all others whole. */
enum {
    IDZ_BOOL = 0,
    IDZ_I16 = 1,
    IDZ_I32 = 2,
    IDZ_I64 = 3,
    IDZ_DATE = 4,
    IDZ_TIMESTAMP = 5,
    IDZ_TIMESTAMP_TZ = 6,
    IDZ_INTERVAL = 7, /* one i64: months times 2^32 plus days modulo 2^32 */
    IDZ_CHAR = 8,
    IDZ_BLOB = 9,    /* any bytes */
    IDZ_STRING = 10, /* text, laid out as blob: what is said of blob below goes for string too */
    IDZ_F64 = 11     /* one i64: the bits of a double, which rows are compared by */
};

/* Encodings. */
enum { IDZ_PLAIN = 0, IDZ_NULLABLE = 1, IDZ_RUN_LENGTH = 2, IDZ_RUN_LENGTH_NULLABLE = 3, IDZ_DICTIONARY = 4 };

/* A reader: what opening was given and found at the block's head, where reading stands, and how many nulls were given. Copy it as you
 * like: a copy goes on from where the original stood. */
typedef struct {
    size_t kind, encoding, width, rows, len, runs, counts, keys, entries;
    size_t place, run, at, taken;
    size_t nulls; /* rows given since opening whose flag was 0; rows passed over aren't counted. A record in which it is above `place`
                     contradicts itself. */
} idz_reader;

typedef struct {
    uint8_t number;
    idz_reader reader;
} idz_opening;

typedef struct {
    uint8_t number;
    size_t rows;  /* rows given */
    size_t bytes; /* bytes written, for char and blob */
    idz_reader reader;
} idz_given;

typedef struct {
    uint8_t number;
    size_t rows;
    idz_reader reader; /* as it was given */
} idz_left;

/* A builder: what creation was given, and what was appended so far. Between calls its rows lie in six areas, which the caller lends to
 * each call with what they held: items (fixed and char items at their width, blob data), the blob items' ends, flags (a bit an
 * item), the runs' counts, the key runs' keys, the char items' lengths. An area without a need may have length 0. */
typedef struct {
    size_t kind, encoding, width, target;
    size_t key_target; /* any number is one; idz_should_finish alone looks at it, and for a dictionary alone */
    size_t rows, runs, entries, bytes, last, null, counts;
} idz_builder;

typedef struct {
    uint8_t number;
    idz_builder builder;
} idz_creation;

typedef struct {
    uint8_t number;
    idz_builder builder;
} idz_appended;

typedef struct {
    uint8_t number;
    size_t len;          /* bytes written */
    idz_builder builder; /* as it was given */
} idz_finished;

typedef struct {
    uint8_t number;
    size_t size;
    idz_builder builder; /* as it was given */
} idz_estimated;

typedef struct {
    uint8_t number;
    bool full;
    idz_builder builder; /* as it was given */
} idz_asked;

/* What opening a sheet file's column answers. */
typedef struct {
    uint8_t number;
    size_t from, len; /* where the block lies: `len` bytes from `file + from` on; both are 0 beside a refusal, opening's own too */
    idz_reader reader;
} idz_found;

typedef struct {
    uint8_t number;
    size_t len; /* bytes written */
} idz_written;

/* What a block is opened by, as one record. `zero` is the bit between width and rows in a descriptor's bytes, as they stand in a sheet
 * file's directory (below): any number but 0 is that bit set, which is opening's 1. */
typedef struct {
    size_t kind, encoding, width, zero, rows;
} idz_descriptor;

typedef struct {
    uint8_t number;
    size_t ranges; /* ranges written, and there are no others */
} idz_compared;

typedef struct {
    uint8_t number;
    size_t len;    /* bytes of the block that was written */
    size_t ranges; /* ranges written, and there are no others */
} idz_salvaged;

typedef struct {
    uint8_t number;
    size_t bytes; /* bytes written, for char and blob */
} idz_row_given;

/* Opens a block of `rows` rows: 0 exactly for a sound block, else 1, 3 or 10 to 17. The block isn't kept: lend it to each call. */
idz_opening idz_open(size_t kind, size_t encoding, size_t width, size_t rows, const uint8_t *block, size_t block_len);

/* Passes over `skip` rows, then gives min(size, rows remaining behind them) rows; at the end that is 0 rows. It is done whole or not at
 * all: the reader of a refusal stands before the rows that were to be passed over. If size is 0 it only passes over rows, and all areas may
 * have length 0.
 *
 * Fixed kinds write one i64 a row to `values`; char and blob write their bytes to `bytes`, one after another, and to `ends` where each
 * row's bytes end. `flags` gets 1 a row, 0 for a null, whose value is 0 or no bytes; the reader counts these nulls. Areas that the kind
 * doesn't use may have length 0.
 *
 * Refuses in this order: 6 if skip and size are both 0, whatever else is lent; 9 for another length of the block, or a record that
 * contradicts itself; 7 if skip is above the rows remaining; 9 for a field, which is a run count of a row passed over or given, or an end
 * or a key of a row given; 4 for the room of the rows given. Text isn't tested again: of a block that changed since it was opened, bytes
 * that aren't text any more are handed out as they are. */
idz_given idz_read(idz_reader reader, const uint8_t *block, size_t block_len, size_t skip, size_t size, int64_t *values,
                   size_t values_len, uint8_t *flags, size_t flags_len, uint32_t *ends, size_t ends_len, uint8_t *bytes,
                   size_t bytes_len);

/* The rows that are left, from the record alone. Refuses 9. */
idz_left idz_remaining(idz_reader reader);

/* A builder of a column with nothing appended: 0 or 1. The target is what idz_should_finish holds blocks to. It holds a dictionary's keys to
 * the key target, which is the target here.
 *
 * In version 3 the key target was 0, so a dictionary was to be finished after each row. This default changed: a caller that relied on the cut
 * calls idz_create_with_key_target with 0. And idz_builder is longer by a field: object code made with the header of version 3 still links
 * and doesn't fit, so compile it anew. */
idz_creation idz_create(size_t kind, size_t encoding, size_t width, size_t target);

/* The same with a key target of its own, which may be any number. With 0 a dictionary is to be finished as soon as it has a row; the other
 * encodings keep the number and don't look at it.
 *
 *     idz_creation creation = idz_create_with_key_target(IDZ_I32, IDZ_DICTIONARY, 0, 4096, 0); */
idz_creation idz_create_with_key_target(size_t kind, size_t encoding, size_t width, size_t target, size_t key_target);

/* Appends one row `times` times, all or none: `present` is 0 for a null; a fixed kind takes `value`, char and blob take `item`. Record and
 * areas come out as by so many calls of idz_append: a run is full at 4,294,967,295 rows, and behind it the next begins, for which encodings
 * 2 and 3 store the item again; a dictionary has the key again, and the entry once. Needs, all these rows counted in: the item bytes
 * stored; a slot of `ends` a blob item; a byte of `flags` per eight items (encodings 1 and 3); a slot of `counts` a run; a slot of `keys` a
 * key run; a byte of `lens` a char item.
 *
 * Of a loan, 360 equal payments, in a run-length column of i64:
 *
 *     idz_appended appended = idz_append_times(builder, items, items_len, NULL, 0, NULL, 0, counts, counts_len, NULL, 0, NULL, 0, 1, 89123,
 *                                              NULL, 0, 360);
 *     if (appended.number != IDZ_DONE) return appended.number;
 *     builder = appended.builder;
 *
 * Refuses in this order: 9 for the record, the areas and the fields, as for one row; 2 if the row doesn't fit; 3 if the block passes a
 * limit with all these rows; 4 exactly when an area is below its need. So it is 3 also where single appends would meet 4 first. If `times`
 * is 0, a call that is neither 9 nor 2 is done, and record and areas stay as they are. Of char and string `item` has to be text, whole;
 * items that the areas hold aren't tested again.
 *
 * idz_should_finish asks of one next row: where it says no and n rows are then appended at once, a block of encodings 0 and 1 can pass its
 * target by n - 1 items.
 *
 * It takes a step for each run that gets rows (in encodings 0 and 1 for each row), however many they are: 281,474,976,710,655 equal rows are
 * 65,537 runs. */
idz_appended idz_append_times(idz_builder builder, uint8_t *items, size_t items_len, uint32_t *ends, size_t ends_len, uint8_t *flags,
                              size_t flags_len, uint32_t *counts, size_t counts_len, int32_t *keys, size_t keys_len, uint8_t *lens,
                              size_t lens_len, uint8_t present, int64_t value, const uint8_t *item, size_t item_len, size_t times);

/* Appends one row: the call above with 1, which callers that aren't C or C++ make themselves. It was a call of the library's own and isn't
 * any more: object code made with an older header fails to link, so compile it anew. No record grew, and IDZ_VERSION stays. */
static inline idz_appended idz_append(idz_builder builder, uint8_t *items, size_t items_len, uint32_t *ends, size_t ends_len,
                                      uint8_t *flags, size_t flags_len, uint32_t *counts, size_t counts_len, int32_t *keys,
                                      size_t keys_len, uint8_t *lens, size_t lens_len, uint8_t present, int64_t value,
                                      const uint8_t *item, size_t item_len) {
    return idz_append_times(builder, items, items_len, ends, ends_len, flags, flags_len, counts, counts_len, keys, keys_len, lens, lens_len,
                            present, value, item, item_len, 1);
}

/* Writes the block that the areas hold to `out`, and answers its length. Refuses 9, 4. It can be called again, and append can go on. */
idz_finished idz_finish(idz_builder builder, const uint8_t *items, size_t items_len, const uint32_t *ends, size_t ends_len,
                        const uint8_t *flags, size_t flags_len, const uint32_t *counts, size_t counts_len, const int32_t *keys,
                        size_t keys_len, const uint8_t *lens, size_t lens_len, uint8_t *out, size_t out_len);

/* The estimated size of the block, from the record alone. Refuses 9. In encoding 0 the block has just so many bytes, in 1 four more. In 2 to
 * 4, with a row at least, it has at most size + beyond + 3 * builder.runs, and at least size + beyond - builder.runs, where beyond is 4 in
 * encoding 2 and 8 in 3 and 4 (docs/FORMAT.md, 30). */
idz_estimated idz_estimate(idz_builder builder);

/* Whether to finish before a next row, from the record alone: whether that row is present, and the length of its bytes. A dictionary is to be
 * finished by its entries and the target, or by its keys: if it has a key run, and 4 bytes a key run and 4 more are above the key target,
 * whatever the next row is. Refuses 9. */
idz_asked idz_should_finish(idz_builder builder, uint8_t present, size_t len);

/* A sheet file is up to 64 blocks in one file of at most 16,777,216 bytes: a byte, the number of columns; 16 bytes a column, which is
 * the directory; then the blocks. A column's 16 bytes are, bit by bit and the most significant first, its kind (4 bits), encoding (3),
 * width (8), a zero bit, its rows (48), its block's offset from the file's start (32) and its block's length (32). */

/* Opens a column of a sheet file, counted from 0. Its own 16 bytes and its own block are looked at, and nothing of the other columns,
 * which may hold anything. The reader is the one that idz_open gives for the block, and goes on as any other: idz_read is lent the block,
 * which is a part of the file, and not the file.
 *
 *     idz_found found = idz_sheet_open(file, file_len, 3);
 *     if (found.number != IDZ_DONE) return found.number;
 *     idz_given given = idz_read(found.reader, file + found.from, found.len, 0, 4, values, 4, flags, 4, ends, 0, bytes, 0);
 *
 * Refuses in this order: 3 for a file above the size; 21 for no byte at all, over 64 columns, or a directory that is cut; 20 if there is
 * no such column; 22 for a block that begins before the directory's end or ends behind the file's, also for one of no bytes; then as
 * idz_open does, a zero bit that is set being its 1. */
idz_found idz_sheet_open(const uint8_t *file, size_t file_len, size_t column);

/* Writes a sheet file of sound blocks to `out`, whole or not at all, and answers its length. `columns` has five numbers a column: kind,
 * encoding, width, rows and the length of its block; `blocks` has the blocks one after another, as the file gets them behind its directory.
 * Bytes behind the last block aren't looked at; those of `out` behind the file stay.
 *
 * Refuses in this order: 21 for over 64 columns, or a list that isn't five numbers a column; of the first bad block 10 if `blocks` ends
 * before it does, else what idz_open refuses it as; 3 if the file would be above 16,777,216 bytes; 4 if `out` is shorter than the
 * file. */
idz_written idz_sheet_write(const size_t *columns, size_t columns_len, const uint8_t *blocks, size_t blocks_len, uint8_t *out,
                            size_t out_len);

/* Tells which rows of two sound blocks differ. The blocks are of one kind and width, in any encodings, and may be the same memory. Rows are
 * compared as idz_read gives them, each with that of the same number: a null equals a null alone, and neither 0 nor no bytes; an f64 equals
 * the same bits; char, blob and string equal the same bytes. A row that only one block has differs.
 *
 * The answer is ranges of rows, counted from 0: each one's first row goes to `firsts` and its last, which belongs to it, to `lasts`, at the
 * same place. They ascend, and each is as long as it can be, so between two of them lies a row that doesn't differ. Equal rows and equal
 * numbers of them give no ranges, which need no room. Slots behind the ranges stay.
 *
 *     idz_descriptor yesterday = {IDZ_F64, IDZ_DICTIONARY, 0, 0, 400}, today = {IDZ_F64, IDZ_RUN_LENGTH_NULLABLE, 0, 0, 402};
 *     idz_compared compared = idz_compare(yesterday, before, before_len, today, after, after_len, firsts, 100, lasts, 100);
 *     if (compared.number != IDZ_DONE) return compared.number;
 *     for (size_t at = 0; at < compared.ranges; at++) printf("%zu %zu\n", firsts[at], lasts[at]);
 *
 * Refuses in this order: 25 if kinds or widths differ as the numbers that they are, whether or not there are such; what opening refuses the
 * first block as, a zero bit that is set being its 1; what it refuses the second as; 4 if either list is shorter than the number of ranges.
 *
 * It takes a step for each run of either block (in encodings 0 and 1 for each row), however many rows the runs have, and a step compares one
 * item with one. */
idz_compared idz_compare(idz_descriptor a, const uint8_t *first, size_t first_len, idz_descriptor b, const uint8_t *second,
                         size_t second_len, size_t *firsts, size_t firsts_len, size_t *lasts, size_t lasts_len);

/* Gives back the rows of a dictionary block of which some keys name no entry (opening's 15), if that is all that is wrong with it. A row
 * whose key names no entry is lost and becomes null; all others stay, nulls too, whose key is a good one. The block that a builder gives for
 * these rows goes to `out`: it is sound, and has as many rows. The ranges of lost rows go to `firsts` and `lasts`, as those of idz_compare
 * do: the first row and the last of each, counted from 0; they ascend, and each is as long as it can be. Bytes of `out` behind the block
 * stay, and so do slots behind the ranges.
 *
 * A sound block gives no ranges and a block of equal rows. A builder's comes back byte for byte, unless a char row was appended with a NUL in
 * it; of others runs of equal rows are joined up to 4,294,967,295 rows, entries stand in the order of their first use, those that read the
 * same are one, and those that no row has are left out; a bool is 0 or 1, and behind the first NUL of a char item come NULs alone.
 *
 *     idz_descriptor rates = {IDZ_F64, IDZ_DICTIONARY, 0, 0, 400};
 *     idz_salvaged salvaged = idz_salvage(rates, block, block_len, firsts, 100, lasts, 100, out, block_len);
 *     if (salvaged.number != IDZ_DONE) return salvaged.number;
 *     for (size_t at = 0; at < salvaged.ranges; at++) printf("lost: %zu to %zu\n", firsts[at], lasts[at]);
 *     idz_opening opening = idz_open(IDZ_F64, IDZ_DICTIONARY, 0, 400, out, salvaged.len);
 *
 * Refuses in this order: 1 for any encoding but dictionary, and for what is opening's 1, a zero bit that is set among it; what opening would
 * refuse the block as if every key were good, so never 15; 4 if `out` is shorter than the block that is due, or either list than the number
 * of ranges. Nothing is written then. The block that is due is never longer than the one that is lent: `out` of as many bytes always has
 * room. And no block has more than 524,288 ranges.
 *
 * It goes over the runs some times, however many rows they have, and looks for each one's entry among the others as an append does. */
idz_salvaged idz_salvage(idz_descriptor d, const uint8_t *block, size_t block_len, size_t *firsts, size_t firsts_len, size_t *lasts,
                         size_t lasts_len, uint8_t *out, size_t out_len);

/* Gives one row of a block, counted from 0, by a second engine: it has no function in common with the one behind all other calls, takes no
 * reader, and finds the row from the block's start each time. What it writes is what idz_read writes for one row, each to the first slot of
 * its area: of a fixed kind an i64 to `values`; of char and blob the bytes to `bytes` and their number to `ends`; to `flags` 1, or 0 for a
 * null, whose value is 0 or no bytes. Areas that the kind doesn't use may have length 0, and what lies behind the row stays.
 *
 * Of a sound block it gives, for each row below `rows` and whatever is lent, the number, the bytes and the areas that idz_read gives with the
 * reader of idz_open, `row` rows to pass over and a size of 1. So a row can be asked for twice, and where the answers differ something is
 * wrong that no proof can see: the memory, the machine, the compiler.
 *
 *     idz_descriptor rates = {IDZ_F64, IDZ_DICTIONARY, 0, 0, 400};
 *     int64_t value = 0, again = 0;
 *     uint8_t flag = 0, flag_again = 0;
 *     idz_given given = idz_read(opening.reader, block, block_len, 17, 1, &value, 1, &flag, 1, NULL, 0, NULL, 0);
 *     idz_row_given row = idz_row(rates, block, block_len, 17, &again, 1, &flag_again, 1, NULL, 0, NULL, 0);
 *     if (given.number != row.number || value != again || flag != flag_again) puts("row 17 differs");
 *
 * Refuses in this order: what opening refuses the block as, a zero bit that is set being its 1; 7 if `row` is `rows` or above (at `rows`
 * idz_read gives no rows); 4 for the room of the row, which is a slot of `flags` and one of `values`, or one of `ends` and the bytes. Nothing
 * is written then.
 *
 * It tests the whole block anew, item by item, whichever row it is asked for, and then goes over the run counts up to the row, which is up to
 * as much again. So it is for checking; idz_read is for reading. */
idz_row_given idz_row(idz_descriptor d, const uint8_t *block, size_t block_len, size_t row, int64_t *values, size_t values_len,
                      uint8_t *flags, size_t flags_len, uint32_t *ends, size_t ends_len, uint8_t *bytes, size_t bytes_len);

#ifdef __cplusplus
}
#endif

#endif
