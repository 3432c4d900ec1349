/* Puts a fault into one call of the library, for host/night to see that the night run tells it: with --wrap a program's calls come through
 * here. FAULT in the environment names the call (open, read, row or sheet), what goes wrong in it, the length of the block (of a sheet, of the
 * file) and the row (of a sheet, the column; of open, 0). All other calls answer as they do, and without FAULT all do. */
#include "idzulgar.h"

#include <stdio.h>
#include <stdlib.h>
#include <string.h>

/* Whether this call gets a fault; what goes wrong in it is then at `what`. */
static int is_due(const char *call, size_t len, size_t row, char what[16]) {
    const char *words = getenv("FAULT");
    char name[16];
    size_t due_len, due_row;
    return words != NULL && sscanf(words, "%15s %15s %zu %zu", name, what, &due_len, &due_row) == 4 && strcmp(name, call) == 0 &&
           len == due_len && row == due_row;
}

/* A refusal where there is none, and none where there is one; or another refusal. */
static uint8_t other_number(const char *what, uint8_t number) {
    if (strcmp(what, "number") == 0) {
        return number == IDZ_DONE ? IDZ_CUT : IDZ_DONE;
    }
    return strcmp(what, "refusal") == 0 ? number ^ 1 : number;
}

/* What a call answered and wrote, with one thing changed. Two slots of each area were lent, and a byte more than the row has. */
static void spoil(const char *what, uint8_t *number, size_t *bytes, int64_t *values, uint8_t *flags, uint32_t *ends, uint8_t *area) {
    *number = other_number(what, *number);
    if (strcmp(what, "value") == 0) {
        values[0] ^= 1;
    } else if (strcmp(what, "sign") == 0) {
        values[0] ^= INT64_MIN;
    } else if (strcmp(what, "flag") == 0) {
        flags[0] ^= 1;
    } else if (strcmp(what, "end") == 0) {
        ends[0]++;
    } else if (strcmp(what, "byte") == 0) {
        area[*bytes - 1] ^= 1;
    } else if (strcmp(what, "bytes") == 0) {
        (*bytes)++;
    } else if (strcmp(what, "next_value") == 0) {
        values[1] = 0;
    } else if (strcmp(what, "next_flag") == 0) {
        flags[1] = 0;
    } else if (strcmp(what, "next_end") == 0) {
        ends[1] = 0;
    } else if (strcmp(what, "next_byte") == 0) {
        area[*bytes] = 0;
    }
}

idz_opening __real_idz_open(size_t kind, size_t encoding, size_t width, size_t rows, const uint8_t *block, size_t block_len);
idz_opening __wrap_idz_open(size_t kind, size_t encoding, size_t width, size_t rows, const uint8_t *block, size_t block_len);
idz_opening __wrap_idz_open(size_t kind, size_t encoding, size_t width, size_t rows, const uint8_t *block, size_t block_len) {
    idz_opening opening = __real_idz_open(kind, encoding, width, rows, block, block_len);
    char what[16];
    if (is_due("open", block_len, 0, what)) {
        opening.number = other_number(what, opening.number);
    }
    return opening;
}

idz_found __real_idz_sheet_open(const uint8_t *file, size_t file_len, size_t column);
idz_found __wrap_idz_sheet_open(const uint8_t *file, size_t file_len, size_t column);
idz_found __wrap_idz_sheet_open(const uint8_t *file, size_t file_len, size_t column) {
    idz_found found = __real_idz_sheet_open(file, file_len, column);
    char what[16];
    if (is_due("sheet", file_len, column, what)) {
        found.number = strcmp(what, "outside") == 0 ? IDZ_OUTSIDE : other_number(what, found.number);
    }
    return found;
}

#define AREAS                                                                                                                             \
    int64_t *values, size_t values_len, uint8_t *flags, size_t flags_len, uint32_t *ends, size_t ends_len, uint8_t *bytes, size_t bytes_len
#define LENT values, values_len, flags, flags_len, ends, ends_len, bytes, bytes_len

idz_given __real_idz_read(idz_reader reader, const uint8_t *block, size_t block_len, size_t skip, size_t size, AREAS);
idz_given __wrap_idz_read(idz_reader reader, const uint8_t *block, size_t block_len, size_t skip, size_t size, AREAS);
idz_given __wrap_idz_read(idz_reader reader, const uint8_t *block, size_t block_len, size_t skip, size_t size, AREAS) {
    idz_given given = __real_idz_read(reader, block, block_len, skip, size, LENT);
    char what[16];
    if (is_due("read", block_len, skip, what)) {
        given.rows += strcmp(what, "rows") == 0;
        spoil(what, &given.number, &given.bytes, values, flags, ends, bytes);
    }
    return given;
}

idz_row_given __real_idz_row(idz_descriptor d, const uint8_t *block, size_t block_len, size_t row, AREAS);
idz_row_given __wrap_idz_row(idz_descriptor d, const uint8_t *block, size_t block_len, size_t row, AREAS);
idz_row_given __wrap_idz_row(idz_descriptor d, const uint8_t *block, size_t block_len, size_t row, AREAS) {
    idz_row_given given = __real_idz_row(d, block, block_len, row, LENT);
    char what[16];
    if (is_due("row", block_len, row, what)) {
        spoil(what, &given.number, &given.bytes, values, flags, ends, bytes);
    }
    return given;
}
