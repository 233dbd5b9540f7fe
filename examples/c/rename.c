/* rename FILE OLD NEW: writes a DBN file below version 4 to standard output, with another symbol in its start wherever the old one stands.
 *
 * Exit status: 0 written, 1 refused or cut short, 2 a file that cannot be opened or read, a wrong use, or no memory.
 * After relay/build-lib this line builds it:
 *
 *     cc -std=c99 -Iinclude examples/c/rename.c target/native/libdbn_c.a -o target/rename
 */
#include "dbn_start.h"

#include <stdio.h>
#include <stdlib.h>
#include <string.h>

/* The most bytes that a block may have. */
#define MOST_BYTES ((uint64_t)1 << 24)

/* A start that was read: the block and the new symbol after it, which is the text that the rows' starts count from. */
struct start {
    uint8_t *store;
    size_t length; /* of the block */
    size_t added;  /* of the new symbol */
    uint32_t *table;
    size_t numbers;
    uint64_t out[16];
};

static const uint16_t no_types[DBN_SHEET] = {0};

static int fail(int status, const char *sentence) {
    fprintf(stderr, "rename: %s\n", sentence);
    return status;
}

static int refused(uint32_t number) {
    fprintf(stderr, "rename: refused by %u: %s\n", (unsigned)number, dbn_sentence(number));
    return 1;
}

/* Reads the block of a version, with a table for as many rows as it needs. */
static int read_block(FILE *file, struct start *s, uint8_t version, const char *symbol) {
    s->added = strlen(symbol);
    s->store = (uint8_t *)malloc(s->length + s->added);
    if (s->store == NULL) {
        return fail(2, "no memory");
    }
    if (fread(s->store, 1, s->length, file) != s->length) {
        return fail(1, "the file ends before its start does");
    }
    memcpy(s->store + s->length, symbol, s->added);
    uint32_t number = dbn_block(version, s->store, s->length, no_types, NULL, 0, NULL, 0, s->out);
    if (number == DBN_REFUSED_TABLE_SHORT) {
        s->numbers = (size_t)s->out[DBN_OUT_SYMBOLOGY_ROWS] * DBN_SYMBOLOGY_ROW;
        s->table = (uint32_t *)malloc(s->numbers * sizeof *s->table);
        if (s->table == NULL) {
            return fail(2, "no memory");
        }
        number = dbn_block(version, s->store, s->length, no_types, s->table, s->numbers, NULL, 0, s->out);
    }
    return number == DBN_ACCEPTED ? 0 : refused(number);
}

/* Gives each row of the old symbol the span of the new one, which stands after the block. */
static void rename_rows(struct start *s, const char *old) {
    size_t length = strlen(old);
    for (size_t row = 0; row < s->out[DBN_OUT_SYMBOLOGY_ROWS]; row++) {
        uint32_t *at = s->table + dbn_symbology_cell(s->numbers, row, DBN_COLUMN_START);
        uint32_t *n = s->table + dbn_symbology_cell(s->numbers, row, DBN_COLUMN_LENGTH);
        if (*n == length && memcmp(s->store + *at, old, length) == 0) {
            *at = (uint32_t)s->length;
            *n = (uint32_t)s->added;
        }
    }
}

/* Writes the start. Symbols keep their width, so it is no longer than it was. */
static int write_start(struct start *s, uint8_t version) {
    size_t most = 8 + s->length;
    uint8_t *output = (uint8_t *)malloc(most);
    if (output == NULL) {
        return fail(2, "no memory");
    }
    uint64_t out[16];
    /* What dbn_block told are the fields: the dataset starts at byte 0 of the text, as out[DBN_FIELD_DATASET_START] says. */
    uint32_t number = dbn_write_block(version, s->out, s->table, s->numbers, s->out[DBN_OUT_SYMBOLOGY_ROWS], NULL, 0, s->store,
                                      s->length + s->added, no_types, output, most, out);
    int status = 0;
    if (number != DBN_ACCEPTED) {
        status = refused(number);
    } else if (fwrite(output, 1, (size_t)out[DBN_WRITE_LENGTH], stdout) != out[DBN_WRITE_LENGTH]) {
        status = fail(2, "the start cannot be written");
    }
    free(output);
    return status;
}

/* The start with the new symbol, then the records as they are. */
static int run(FILE *file, struct start *s, const char *old, const char *symbol) {
    uint8_t prelude[8], piece[4096];
    uint64_t told[4];
    size_t n = fread(prelude, 1, sizeof prelude, file);
    uint32_t number = dbn_prelude(prelude, n, told);
    if (number != DBN_ACCEPTED) {
        return refused(number);
    }
    if (told[DBN_PRELUDE_MISSING] > 0) {
        return fail(1, "the file ends before its start does");
    }
    if (told[DBN_PRELUDE_VERSION] >= 4) {
        return fail(1, "a version 4 stream, whose layout is judged by a type sheet; this program has none");
    }
    if (told[DBN_PRELUDE_LENGTH] > MOST_BYTES) {
        return refused(DBN_REFUSED_STORE_SHORT);
    }
    s->length = (size_t)told[DBN_PRELUDE_LENGTH];
    int status = read_block(file, s, prelude[3], symbol);
    if (status == 0) {
        rename_rows(s, old);
        status = write_start(s, prelude[3]);
    }
    while (status == 0 && (n = fread(piece, 1, sizeof piece, file)) > 0) {
        if (fwrite(piece, 1, n, stdout) != n) {
            status = fail(2, "the records cannot be written");
        }
    }
    return status;
}

int main(int argc, char **argv) {
    if (argc != 4) {
        return fail(2, "rename FILE OLD NEW");
    }
    FILE *file = fopen(argv[1], "rb");
    if (file == NULL) {
        return fail(2, "the file cannot be opened");
    }
    struct start s;
    memset(&s, 0, sizeof s);
    int status = run(file, &s, argv[2], argv[3]);
    free(s.store);
    free(s.table);
    fclose(file);
    return status;
}
