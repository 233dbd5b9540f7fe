/* house store FILE | house load FILE: keeps the start of a DBN stream below version 4 in a house file. `store` reads the stream from standard input
 * and puts its start, prelude and block, into FILE; `load` checks FILE, tells on standard error what the start has, and writes the start, byte for
 * byte, to standard output.
 *
 * Exit status: 0 accepted, 1 refused or cut short, 2 a file that cannot be opened, read or written, a wrong use, or no memory.
 * After relay/build-lib this line builds it:
 *
 *     cc -std=c99 -Iinclude examples/c/house.c target/native/libdbn_c.a -o target/house
 */
#include "dbn_start.h"

#include <stdio.h>
#include <stdlib.h>
#include <string.h>

/* The longest file, and the longest start in one. */
#define MOST_FILE ((size_t)DBN_HOUSE_MOST * DBN_HOUSE_BLOCK)
#define MOST_START ((size_t)DBN_HOUSE_MOST * DBN_HOUSE_PAYLOAD)

/* Below version 4 nothing is judged by a sheet. */
static const uint16_t NO_TYPES[DBN_SHEET] = {0};

static int fail(const char *sentence) {
    fprintf(stderr, "house: %s\n", sentence);
    return 2;
}

/* Tells a refusal, and at which byte where the number has a place. */
static int refused(uint32_t number, uint64_t place) {
    fprintf(stderr, "house: refused by %u", (unsigned)number);
    if (dbn_has_place(number)) {
        fprintf(stderr, " at byte %llu of the %s", (unsigned long long)place, number < 20 ? "prelude" : "block");
    }
    fprintf(stderr, ": %s\n", dbn_sentence(number));
    return 1;
}

/* Whether a start is of version 4. */
static int has_layout(const uint8_t *start, size_t n) {
    return n >= 8 && memcmp(start, "DBN\4", 4) == 0;
}

/* How many of the n bytes of a stream are its start: what the prelude tells, where it is whole and tells fewer. */
static size_t start_of(const uint8_t *stream, size_t n) {
    uint64_t out[4];
    if (dbn_prelude(stream, n, out) != DBN_ACCEPTED || out[DBN_PRELUDE_MISSING] > 0 || n - 8 < out[DBN_PRELUDE_LENGTH]) {
        return n;
    }
    return 8 + (size_t)out[DBN_PRELUDE_LENGTH];
}

/* Puts a file's bytes on disk; answers whether they are there. */
static int put(const char *name, const uint8_t *bytes, size_t n) {
    FILE *file = fopen(name, "wb");
    int whole = file != NULL && fwrite(bytes, 1, n, file) == n;
    return file != NULL && fclose(file) == 0 && whole;
}

/* Stores the start that the n bytes of a stream begin with. */
static int store(const uint8_t *stream, size_t n, const char *name) {
    uint64_t out[16];
    size_t length = start_of(stream, n), on = dbn_house_length(length);
    if (has_layout(stream, n)) {
        fprintf(stderr, "house: a version 4 stream, whose layout is judged by a type sheet; this program has none\n");
        return 1;
    }
    uint8_t *output = (uint8_t *)malloc(on + 1);
    if (output == NULL) {
        return fail("no memory");
    }
    uint32_t number = dbn_house_store(stream, length, NO_TYPES, output, on, out);
    int status = 0;
    if (number != DBN_ACCEPTED) {
        status = refused(number, out[DBN_OUT_PLACE]);
    } else if (!put(name, output, (size_t)out[DBN_HOUSE_LENGTH])) {
        status = fail("the file cannot be written");
    }
    free(output);
    return status;
}

/* Loads a file of n bytes into a store that holds what any file of that length holds. The first call has no tables, and tells by 3 how many rows
 * there are; the second has room for them. */
static int load(const uint8_t *file, size_t n, uint8_t *start, size_t room) {
    uint64_t out[20] = {0};
    uint32_t *rows = NULL;
    uint32_t number = dbn_house_load(file, n, start, room, NO_TYPES, NULL, 0, NULL, 0, out);
    if (has_layout(start, (size_t)out[DBN_OUT_HELD])) {
        fprintf(stderr, "house: a version 4 start, whose layout is judged by a type sheet; this program has none\n");
        return 1;
    }
    if (number == DBN_REFUSED_TABLE_SHORT) {
        size_t sn = (size_t)out[DBN_OUT_SYMBOLOGY_ROWS] * DBN_SYMBOLOGY_ROW;
        rows = (uint32_t *)calloc(sn, sizeof *rows);
        if (rows == NULL) {
            return fail("no memory");
        }
        number = dbn_house_load(file, n, start, room, NO_TYPES, rows, sn, NULL, 0, out);
    }
    free(rows);
    if (number == DBN_REFUSED_STORE_SHORT) {
        number = DBN_REFUSED_HOUSE_NEEDS; /* the prelude announces more than any file of this length holds */
    }
    if (number != DBN_ACCEPTED) {
        return refused(number, out[DBN_OUT_PLACE]);
    }
    size_t length = (size_t)out[DBN_OUT_HELD];
    fprintf(stderr, "version %u, dataset \"%.*s\", %llu rows\n", start[3], (int)out[DBN_OUT_DATASET_LENGTH], (const char *)start + 8,
            (unsigned long long)out[DBN_OUT_SYMBOLOGY_ROWS]);
    return fwrite(start, 1, length, stdout) == length ? 0 : fail("the start cannot be written");
}

int main(int argc, char **argv) {
    int storing = argc == 3 && strcmp(argv[1], "store") == 0;
    if (argc != 3 || (!storing && strcmp(argv[1], "load") != 0)) {
        return fail("house store FILE | house load FILE");
    }
    FILE *file = storing ? stdin : fopen(argv[2], "rb");
    uint8_t *bytes = (uint8_t *)malloc(MOST_FILE + 1), *start = (uint8_t *)malloc(MOST_START);
    int status;
    if (file == NULL || bytes == NULL || start == NULL) {
        status = fail(file == NULL ? "the file cannot be opened" : "no memory");
    } else {
        size_t n = fread(bytes, 1, MOST_FILE + 1, file);
        size_t room = n / DBN_HOUSE_BLOCK * DBN_HOUSE_PAYLOAD;
        if (ferror(file)) {
            status = fail("the bytes cannot be read");
        } else {
            status = storing ? store(bytes, n, argv[2]) : load(bytes, n, start, room);
        }
        fclose(file);
    }
    free(bytes);
    free(start);
    return status;
}
