/* Passes NULL with length 0 for every area of every call: alone, for the answers that are due, and then in every choice of areas, where
 * the call is made again with a pointer that isn't NULL, also with length 0, and must answer and write the same. Nothing lies at NULL,
 * so reading or writing there ends the program. Prints a line for each thing that isn't as expected, and how many were. */
#include "expect.h"
#include "idzulgar.h"

#include <stdio.h>
#include <string.h>

static void expect_of(int holds, const char *what, int kind, int encoding) {
    char named[160];
    snprintf(named, sizeof named, "%s (kind %d, encoding %d)", what, kind, encoding);
    expect(holds, named);
}

/* The C library's functions that the library calls come through here (host/test links with --wrap): NULL goes to none of them. */
static int given_null;

void *__real_memset(void *to, int byte, size_t len);
void *__wrap_memset(void *to, int byte, size_t len);
void *__wrap_memset(void *to, int byte, size_t len) {
    given_null += to == NULL;
    return __real_memset(to, byte, len);
}

void *__real_memcpy(void *to, const void *from, size_t len);
void *__wrap_memcpy(void *to, const void *from, size_t len);
void *__wrap_memcpy(void *to, const void *from, size_t len) {
    given_null += to == NULL || from == NULL;
    return __real_memcpy(to, from, len);
}

void *__real_memmove(void *to, const void *from, size_t len);
void *__wrap_memmove(void *to, const void *from, size_t len);
void *__wrap_memmove(void *to, const void *from, size_t len) {
    given_null += to == NULL || from == NULL;
    return __real_memmove(to, from, len);
}

/* All that is lent. */
static struct memory {
    int64_t values[4];
    uint32_t given_ends[4], ends[4], counts[4];
    int32_t keys[4];
    uint8_t items[16], flags[4], lens[4], given_flags[4], given_bytes[4], out[64];
} memory;

static int64_t elsewhere; /* aligned for any item */

/* Lent is an area, or `none` with length 0 if its bit of `missing` is set. */
#define LENT(bit, area) (missing >> (bit) & 1 ? none : (void *)memory.area), (missing >> (bit) & 1 ? 0 : sizeof memory.area / sizeof memory.area[0])

/* A row: null, of no bytes, or of one. */
enum { NO_ROW, NO_BYTES, ONE_BYTE, SORTS };

static idz_appended append(idz_builder builder, unsigned missing, void *none, int sort) {
    static const uint8_t item[] = {1};
    return idz_append(builder, LENT(0, items), LENT(1, ends), LENT(2, flags), LENT(3, counts), LENT(4, keys), LENT(5, lens),
                      sort != NO_ROW, 1, sort == ONE_BYTE ? item : none, sort == ONE_BYTE);
}

static idz_appended append_times(idz_builder builder, unsigned missing, void *none, int sort, size_t times) {
    static const uint8_t item[] = {1};
    return idz_append_times(builder, LENT(0, items), LENT(1, ends), LENT(2, flags), LENT(3, counts), LENT(4, keys), LENT(5, lens),
                            sort != NO_ROW, 1, sort == ONE_BYTE ? item : none, sort == ONE_BYTE, times);
}

static idz_finished finish(idz_builder builder, unsigned missing, void *none) {
    return idz_finish(builder, LENT(0, items), LENT(1, ends), LENT(2, flags), LENT(3, counts), LENT(4, keys), LENT(5, lens),
                      LENT(6, out));
}

static idz_given read_rows(idz_reader reader, const uint8_t *block, size_t len, size_t skip, size_t size, unsigned missing, void *none) {
    return idz_read(reader, block, len, skip, size, LENT(0, values), LENT(1, given_flags), LENT(2, given_ends), LENT(3, given_bytes));
}

static idz_row_given ask_row(idz_descriptor d, const uint8_t *block, size_t len, size_t row, unsigned missing, void *none) {
    return idz_row(d, block, len, row, LENT(0, values), LENT(1, given_flags), LENT(2, given_ends), LENT(3, given_bytes));
}

enum { ALL_OF_BUILDING = 127, ALL_OF_READING = 15 };

static int same_builder(idz_builder one, idz_builder other) { return memcmp(&one, &other, sizeof one) == 0; }

static int same_reader(idz_reader one, idz_reader other) { return memcmp(&one, &other, sizeof one) == 0; }

static int same_memory(struct memory one) { return memcmp(&one, &memory, sizeof one) == 0; }

/* What no bytes are opened as, by encoding. */
static const uint8_t opens[] = {IDZ_DONE, IDZ_CUT, IDZ_DONE, IDZ_DONE, IDZ_CUT};

/* No memory at all: nothing to read from and none to build in. */
static void nothing(int kind, int encoding, size_t width) {
    static const uint8_t finishes[] = {IDZ_DONE, IDZ_ROOM, IDZ_DONE, IDZ_DONE, IDZ_ROOM};
    idz_opening opening = idz_open((size_t)kind, (size_t)encoding, width, 0, NULL, 0);
    expect_of(opening.number == opens[encoding], "no bytes opened", kind, encoding);
    uint8_t due = opens[encoding] == IDZ_DONE ? IDZ_DONE : IDZ_DISAGREE;
    idz_given given = read_rows(opening.reader, NULL, 0, 0, 1, ALL_OF_READING, NULL);
    expect_of(given.number == due && given.rows == 0 && given.bytes == 0, "no bytes read into no memory", kind, encoding);
    given = read_rows(opening.reader, NULL, 0, 0, 0, ALL_OF_READING, NULL);
    expect_of(given.number == IDZ_NO_ROWS && same_reader(given.reader, opening.reader), "nothing asked for", kind, encoding);
    due = opens[encoding] == IDZ_DONE ? IDZ_TOO_FAR : IDZ_DISAGREE;
    given = read_rows(opening.reader, NULL, 0, 1, 0, ALL_OF_READING, NULL);
    expect_of(given.number == due && same_reader(given.reader, opening.reader), "a row passed over where there is none", kind, encoding);
    idz_descriptor d = {(size_t)kind, (size_t)encoding, width, 0, 0};
    idz_row_given row = ask_row(d, NULL, 0, 0, ALL_OF_READING, NULL);
    due = opens[encoding] == IDZ_DONE ? IDZ_TOO_FAR : opens[encoding];
    expect_of(row.number == due && row.bytes == 0, "a row of no bytes asked for", kind, encoding);
    idz_builder builder = idz_create((size_t)kind, (size_t)encoding, width, 0).builder;
    idz_finished finished = finish(builder, ALL_OF_BUILDING, NULL);
    expect_of(finished.number == finishes[encoding] && finished.len == 0, "no rows finished into no memory", kind, encoding);
    for (int sort = 0; sort < SORTS; sort++) {
        idz_appended appended = append(builder, ALL_OF_BUILDING, NULL, sort);
        expect_of(appended.number == IDZ_ROOM && same_builder(appended.builder, builder), "a row into no memory", kind, encoding);
        appended = append_times(builder, ALL_OF_BUILDING, NULL, sort, 3);
        expect_of(appended.number == IDZ_ROOM && same_builder(appended.builder, builder), "three into no memory", kind, encoding);
        appended = append_times(builder, ALL_OF_BUILDING, NULL, sort, 0);
        expect_of(appended.number == IDZ_DONE && same_builder(appended.builder, builder), "none into no memory", kind, encoding);
    }
}

/* The nulls among some rows by their flags. */
static size_t nulls_by(const uint8_t *flags, size_t rows) {
    size_t nulls = 0;
    for (size_t row = 0; row < rows; row++) {
        nulls += flags[row] == 0;
    }
    return nulls;
}

/* Reads a block of these rows in every choice of areas, with no row passed over and with one, and passes over one alone. */
static void read_back(int kind, int encoding, size_t width, size_t rows, const uint8_t *block, size_t len) {
    static const size_t calls[][2] = {{0, 4}, {1, 4}, {1, 0}};
    idz_opening opening = idz_open((size_t)kind, (size_t)encoding, width, rows, block, len);
    expect_of(opening.number == IDZ_DONE, "a block opened", kind, encoding);
    for (unsigned missing = 0; missing <= ALL_OF_READING; missing++) {
        for (size_t call = 0; call < sizeof calls / sizeof calls[0]; call++) {
            size_t skip = calls[call][0], size = calls[call][1];
            struct memory before = memory;
            idz_given one = read_rows(opening.reader, block, len, skip, size, missing, NULL);
            struct memory after = memory;
            memory = before;
            idz_given other = read_rows(opening.reader, block, len, skip, size, missing, &elsewhere);
            expect_of(one.number == other.number && one.rows == other.rows && one.bytes == other.bytes, "a read's answer", kind, encoding);
            expect_of(same_reader(one.reader, other.reader) && same_memory(after), "what a read leaves", kind, encoding);
            expect_of(one.reader.nulls == nulls_by(after.given_flags, one.rows), "its count of nulls", kind, encoding);
            memory = before;
            if (size == 0) {
                expect_of(one.number == (rows == 0 ? IDZ_TOO_FAR : IDZ_DONE) && one.rows == 0, "a row passed over", kind, encoding);
                expect_of(same_memory(after), "into no room", kind, encoding);
            }
        }
    }
}

/* Asks for each row of a block in every choice of areas, and for one behind the last. A row comes as a read gives it. */
static void ask_back(int kind, int encoding, size_t width, size_t rows, const uint8_t *block, size_t len) {
    idz_descriptor d = {(size_t)kind, (size_t)encoding, width, 0, rows};
    idz_reader reader = idz_open(d.kind, d.encoding, width, rows, block, len).reader;
    for (unsigned missing = 0; missing <= ALL_OF_READING; missing++) {
        for (size_t row = 0; row <= rows; row++) {
            struct memory before = memory;
            idz_row_given one = ask_row(d, block, len, row, missing, NULL);
            struct memory after = memory;
            memory = before;
            idz_row_given other = ask_row(d, block, len, row, missing, &elsewhere);
            expect_of(one.number == other.number && one.bytes == other.bytes && same_memory(after), "a row asked for", kind, encoding);
            memory = before;
            if (row == rows) {
                expect_of(one.number == IDZ_TOO_FAR && same_memory(after), "and none behind the last", kind, encoding);
                continue;
            }
            idz_given given = read_rows(reader, block, len, row, 1, missing, NULL);
            expect_of(one.number == given.number && one.bytes == given.bytes && same_memory(after), "and as it is read", kind, encoding);
            memory = before;
        }
    }
}

/* One row more, none, two and three at once, and the block, in every choice of areas. */
static void build_on(int kind, int encoding, idz_builder builder) {
    for (unsigned missing = 0; missing <= ALL_OF_BUILDING; missing++) {
        struct memory before = memory;
        for (int sort = 0; sort < SORTS; sort++) {
            idz_appended one = append(builder, missing, NULL, sort);
            struct memory after = memory;
            memory = before;
            idz_appended other = append(builder, missing, &elsewhere, sort);
            expect_of(one.number == other.number && same_builder(one.builder, other.builder), "append's answer", kind, encoding);
            expect_of(same_memory(after), "what append leaves", kind, encoding);
            memory = before;
            for (size_t times = 0; times <= 3; times++) {
                idz_appended null = append_times(builder, missing, NULL, sort, times);
                after = memory;
                memory = before;
                other = append_times(builder, missing, &elsewhere, sort, times);
                expect_of(null.number == other.number && same_builder(null.builder, other.builder), "append_times' answer", kind, encoding);
                expect_of(same_memory(after), "what append_times leaves", kind, encoding);
                expect_of(times != 0 || same_memory(before), "no rows change nothing", kind, encoding);
                expect_of(times != 1 || (null.number == one.number && same_builder(null.builder, one.builder)), "one row", kind, encoding);
                memory = before;
            }
        }
        idz_finished one = finish(builder, missing, NULL);
        struct memory after = memory;
        memory = before;
        idz_finished other = finish(builder, missing, &elsewhere);
        expect_of(one.number == other.number && one.len == other.len, "finish's answer", kind, encoding);
        expect_of(same_builder(one.builder, builder) && same_memory(after), "what finish leaves", kind, encoding);
        memory = before;
    }
}

/* Up to two rows of each sort, then one more, and the block read back. */
static void some(int kind, int encoding, size_t width) {
    for (int first = 0; first <= SORTS; first++) {
        for (int second = 0; second <= (first < SORTS ? SORTS : 0); second++) {
            idz_builder builder = idz_create((size_t)kind, (size_t)encoding, width, 0).builder;
            if (first < SORTS) {
                builder = append(builder, 0, NULL, first).builder;
            }
            if (first < SORTS && second < SORTS) {
                builder = append(builder, 0, NULL, second).builder;
            }
            build_on(kind, encoding, builder);
            struct memory kept = memory;
            idz_finished finished = finish(builder, 0, NULL);
            expect_of(finished.number == IDZ_DONE, "a block finished", kind, encoding);
            read_back(kind, encoding, width, builder.rows, finished.len > 0 ? memory.out : NULL, finished.len);
            ask_back(kind, encoding, width, builder.rows, finished.len > 0 ? memory.out : NULL, finished.len);
            memory = kept;
        }
    }
}

/* A sheet file of two columns of no bytes, and of one with the block of a row: each of the writer's three areas present or not. */
static void sheet_files(void) {
    static const size_t two[] = {IDZ_BOOL, IDZ_PLAIN, 0, 0, 0, IDZ_BLOB, IDZ_RUN_LENGTH, 0, 0, 0}, one[] = {IDZ_BOOL, IDZ_PLAIN, 0, 1, 1};
    static const uint8_t row[] = {1};
    expect_of(idz_sheet_open(NULL, 0, 0).number == IDZ_SHEET, "no file opened", -1, -1);
    for (unsigned missing = 0; missing < 8; missing++) {
        for (int rows = 0; rows < 2; rows++) {
            const size_t *list = rows == 0 ? two : one;
            const size_t list_len = missing & 1 ? 0 : rows == 0 ? 10 : 5, blocks_len = missing & 2 ? 0 : 1;
            const size_t out_len = missing & 4 ? 0 : sizeof memory.out;
            struct memory before = memory;
            idz_written null = idz_sheet_write(missing & 1 ? NULL : list, list_len, missing & 2 ? NULL : row, blocks_len,
                                               missing & 4 ? NULL : memory.out, out_len);
            struct memory after = memory;
            memory = before;
            void *none = &elsewhere;
            idz_written other = idz_sheet_write(missing & 1 ? none : list, list_len, missing & 2 ? none : row, blocks_len,
                                                missing & 4 ? none : memory.out, out_len);
            uint8_t due = list_len == 5 && blocks_len == 0 ? IDZ_CUT : out_len == 0 ? IDZ_ROOM : IDZ_DONE;
            size_t len = due != IDZ_DONE ? 0 : list_len == 0 ? 1 : list_len == 5 ? 18 : 33;
            expect_of(null.number == due && null.len == len, "a sheet file written", -1, -1);
            expect_of(other.number == due && other.len == len && same_memory(after), "and the same without NULL", -1, -1);
            if (len == 33) {
                idz_found found = idz_sheet_open(memory.out, len, 1);
                idz_given given = read_rows(found.reader, memory.out + found.from, found.len, 0, 1, ALL_OF_READING, NULL);
                expect_of(found.number == IDZ_DONE && found.from == len && given.number == IDZ_DONE, "no bytes at the file's end", -1, -1);
                given = read_rows(found.reader, NULL, 0, 0, 1, ALL_OF_READING, NULL);
                expect_of(given.number == IDZ_DONE && given.rows == 0, "which are lent as none", -1, -1);
            }
            memory = before;
        }
    }
}

/* Two columns of a row each compared: of a block that is missing the column has no rows, of a list that is missing no slots. */
static void comparing(int kind, int encoding, size_t width) {
    idz_builder builder = append(idz_create((size_t)kind, (size_t)encoding, width, 0).builder, 0, NULL, ONE_BYTE).builder;
    size_t len = finish(builder, 0, NULL).len;
    for (unsigned missing = 0; missing < 16; missing++) {
        idz_descriptor first = {(size_t)kind, (size_t)encoding, width, 0, 1}, second = first;
        first.rows -= missing & 1, second.rows -= missing >> 1 & 1;
        size_t ranges = first.rows != second.rows;
        uint8_t due = missing & 3 ? opens[encoding] : IDZ_DONE;
        if (due == IDZ_DONE && ranges > 0 && missing & 12) {
            due = IDZ_ROOM;
        }
        for (int pointer = 0; pointer < 2; pointer++) {
            void *none = pointer == 0 ? NULL : &elsewhere;
            size_t firsts[] = {77, 77}, lasts[] = {77, 77};
            idz_compared answer = idz_compare(first, missing & 1 ? none : memory.out, missing & 1 ? 0 : len, second,
                                              missing & 2 ? none : memory.out, missing & 2 ? 0 : len, missing & 4 ? none : firsts,
                                              missing & 4 ? 0 : 2, missing & 8 ? none : lasts, missing & 8 ? 0 : 2);
            size_t written = due == IDZ_DONE ? ranges : 0, slot = written > 0 ? 0 : 77;
            expect_of(answer.number == due && answer.ranges == written, "columns compared", kind, encoding);
            expect_of(firsts[0] == slot && lasts[0] == slot && firsts[1] == 77 && lasts[1] == 77, "and the slots", kind, encoding);
        }
    }
}

/* A column of a row whose key names no entry salvaged: of a block that is missing the column has no rows. */
static void salvaging(int kind, size_t width) {
    idz_builder builder = append(idz_create((size_t)kind, IDZ_DICTIONARY, width, 0).builder, 0, NULL, ONE_BYTE).builder;
    size_t len = finish(builder, 0, NULL).len;
    uint8_t block[sizeof memory.out];
    memcpy(block, memory.out, len);
    block[21] = 2; /* behind 20 bytes of lengths and one of the count */
    for (unsigned missing = 0; missing < 16; missing++) {
        idz_descriptor d = {(size_t)kind, IDZ_DICTIONARY, width, 0, missing & 1 ? 0 : 1};
        uint8_t due = missing & 1 ? IDZ_CUT : missing ? IDZ_ROOM : IDZ_DONE;
        struct memory before = memory, after = memory;
        for (int pointer = 0; pointer < 2; pointer++) {
            void *none = pointer == 0 ? NULL : &elsewhere;
            size_t firsts[] = {77, 77}, lasts[] = {77, 77}, slot = due == IDZ_DONE ? 0 : 77;
            memory = before;
            idz_salvaged answer = idz_salvage(d, missing & 1 ? none : block, missing & 1 ? 0 : len, missing & 2 ? none : firsts,
                                              missing & 2 ? 0 : 2, missing & 4 ? none : lasts, missing & 4 ? 0 : 2,
                                              missing & 8 ? none : memory.out, missing & 8 ? 0 : sizeof memory.out);
            expect_of(answer.number == due && answer.ranges == (due == IDZ_DONE), "a column salvaged", kind, IDZ_DICTIONARY);
            expect_of(answer.len == (due == IDZ_DONE ? 25 : 0), "and the length of its block", kind, IDZ_DICTIONARY);
            expect_of(firsts[0] == slot && lasts[0] == slot && firsts[1] == 77 && lasts[1] == 77, "the slots", kind, IDZ_DICTIONARY);
            if (pointer == 0) {
                after = memory;
            }
        }
        expect_of(same_memory(after) && (due == IDZ_DONE || same_memory(before)), "what salvaging leaves", kind, IDZ_DICTIONARY);
        memory = before;
    }
}

int main(void) {
    for (int kind = IDZ_BOOL; kind <= IDZ_F64; kind++) {
        for (int encoding = IDZ_PLAIN; encoding <= IDZ_DICTIONARY; encoding++) {
            size_t width = kind == IDZ_CHAR ? 2 : 0;
            nothing(kind, encoding, width);
            some(kind, encoding, width);
            comparing(kind, encoding, width);
        }
        salvaging(kind, kind == IDZ_CHAR ? 2 : 0);
    }
    sheet_files();
    expect_of(given_null == 0, "no NULL goes to the C library", -1, -1);
    return tell();
}
