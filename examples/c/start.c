/* start [FILE]: shows the start of a DBN stream below version 4 and counts its records, from a file or from standard input.
 *
 * Exit status: 0 accepted, 1 refused or cut short, 2 a file that cannot be opened or read, or no memory.
 * After relay/build-lib this line builds it:
 *
 *     cc -std=c99 -Iinclude examples/c/start.c target/native/libdbn_c.a -o target/start
 */
#include "dbn_start.h"

#include <stdio.h>
#include <stdlib.h>
#include <string.h>

/* What a stream start may take: its bytes, and its rows of symbology. */
#define MOST_BYTES ((size_t)1 << 24)
#define MOST_ROWS ((uint64_t)1 << 20)

/* A stream start as it comes: the bytes held, and the symbology table, of so many numbers. It has no layout below version 4. */
struct start {
    uint8_t *store;
    size_t length;
    uint64_t held;
    uint32_t *table;
    size_t numbers;
    uint64_t out[20];
};

static const uint16_t no_types[DBN_SHEET] = {0};

static uint32_t feed(struct start *s, const uint8_t *piece, size_t n) {
    uint32_t number = dbn_feed(s->held, s->store, s->length, piece, n, no_types, s->table, s->numbers, NULL, 0, s->out);
    s->held = s->out[DBN_OUT_HELD];
    return number;
}

/* A store for the whole block that the held prelude announces. */
static uint32_t longer_store(struct start *s) {
    uint64_t told[4];
    uint32_t number = dbn_prelude(s->store, (size_t)s->held, told);
    if (number != DBN_ACCEPTED) {
        s->out[DBN_OUT_PLACE] = told[DBN_PRELUDE_PLACE];
        return number;
    }
    if (told[DBN_PRELUDE_VERSION] >= 4) {
        fprintf(stderr, "start: a version 4 stream, whose layout is judged by a type sheet; this program has none\n");
        exit(1);
    }
    size_t whole = 8 + (size_t)told[DBN_PRELUDE_LENGTH];
    uint8_t *store = whole <= MOST_BYTES ? (uint8_t *)realloc(s->store, whole) : NULL;
    if (store == NULL) {
        return DBN_REFUSED_STORE_SHORT;
    }
    s->store = store;
    s->length = whole;
    return DBN_ACCEPTED;
}

/* A table for the rows that the block needs. */
static uint32_t longer_table(struct start *s) {
    uint64_t rows = s->out[DBN_OUT_SYMBOLOGY_ROWS];
    size_t numbers = (size_t)rows * DBN_SYMBOLOGY_ROW;
    uint32_t *table = rows <= MOST_ROWS ? (uint32_t *)realloc(s->table, numbers * sizeof *table) : NULL;
    if (table == NULL) {
        return DBN_REFUSED_TABLE_SHORT;
    }
    s->table = table;
    s->numbers = numbers;
    return DBN_ACCEPTED;
}

/* Feeds a piece, with a longer store or table where one is wanted. */
static uint32_t feed_all(struct start *s, const uint8_t *piece, size_t n) {
    for (;;) {
        uint32_t number = feed(s, piece, n);
        piece += s->out[DBN_OUT_TAKEN];
        n -= (size_t)s->out[DBN_OUT_TAKEN];
        uint32_t grown = number;
        if (number == DBN_REFUSED_STORE_SHORT && s->held == 8) {
            grown = longer_store(s);
        } else if (number == DBN_REFUSED_TABLE_SHORT) {
            grown = longer_table(s);
        }
        if (number == DBN_ACCEPTED || grown != DBN_ACCEPTED) {
            return grown;
        }
    }
}

/* Prints a text between quotation marks, with everything else than printable ASCII escaped, so that no name can forge a line. */
static void text(const uint8_t *bytes, size_t n) {
    putchar('"');
    for (size_t i = 0; i < n; i++) {
        if (bytes[i] < 0x20 || bytes[i] > 0x7E || bytes[i] == '"' || bytes[i] == '\\') {
            printf("\\x%02x", bytes[i]);
        } else {
            putchar(bytes[i]);
        }
    }
    putchar('"');
}

/* The date of an interval's day number, year x 10000 + month x 100 + day. */
static unsigned date(uint32_t day) {
    uint64_t out[1];
    if (dbn_day(day, out) != 1) {
        abort(); /* every day of an accepted block has a date */
    }
    return (unsigned)out[DBN_DAY_DATE];
}

/* A number of a row, from its column. */
static uint32_t cell(const struct start *s, size_t row, enum dbn_symbology_column column) {
    return s->table[dbn_symbology_cell(s->numbers, row, column)];
}

static void show(const struct start *s) {
    const uint8_t *block = s->store + 8;
    size_t n = (size_t)s->held - 8;
    printf("version %d, dataset ", s->store[3]);
    text(block, (size_t)s->out[DBN_OUT_DATASET_LENGTH]);
    printf(", %llu rows\n", (unsigned long long)s->out[DBN_OUT_SYMBOLOGY_ROWS]);
    static const char *const kinds[] = {"symbol ", "partial ", "not found ", "mapping ", "  "};
    for (size_t row = 0; row < s->out[DBN_OUT_SYMBOLOGY_ROWS]; row++) {
        uint32_t kind = cell(s, row, DBN_COLUMN_KIND);
        uint64_t name[2];
        if (dbn_symbology_name(block, n, s->table, s->numbers, row, name) != DBN_ACCEPTED) {
            abort(); /* every row of an accepted block has a name */
        }
        printf("%s", kinds[kind]);
        if (kind == DBN_KIND_INTERVAL) {
            printf("%u to %u: ", date(cell(s, row, DBN_COLUMN_X)), date(cell(s, row, DBN_COLUMN_Y)));
        }
        text(block + name[DBN_NAME_START], (size_t)name[DBN_NAME_LENGTH]);
        putchar('\n');
    }
}

/* Tells why a start or a record is refused, and at which byte where the number has a place. */
static void refused(uint32_t number, uint64_t place) {
    fprintf(stderr, "start: refused by %u", (unsigned)number);
    if (dbn_has_place(number)) {
        const char *part = number <= DBN_REFUSED_BLOCK_LENGTH ? "prelude" : "block";
        fprintf(stderr, " at byte %llu of the %s", (unsigned long long)place, part);
    }
    fprintf(stderr, ": %s\n", dbn_sentence(number));
}

/* Tells that the stream has no more bytes, or cannot be read; answers the status. */
static int ended(FILE *file, uint64_t needed) {
    if (ferror(file)) {
        fprintf(stderr, "start: the stream cannot be read\n");
        return 2;
    }
    fprintf(stderr, "start: the stream ends %llu bytes too early\n", (unsigned long long)needed);
    return 1;
}

/* Reads the records to the end of the stream and counts them. The store has room for the longest one. */
static int records(FILE *file) {
    uint8_t piece[4096], store[DBN_FRAME_MOST];
    uint64_t out[5] = {0}, held = 0, count = 0, bytes = 0;
    uint32_t number = DBN_ACCEPTED;
    size_t n;
    while (number == DBN_ACCEPTED && (n = fread(piece, 1, sizeof piece, file)) > 0) {
        for (size_t at = 0; number == DBN_ACCEPTED && at < n; at += (size_t)out[DBN_FRAME_TAKEN]) {
            number = dbn_frame(held, store, sizeof store, piece + at, n - at, out);
            held = out[DBN_FRAME_HELD];
            if (number == DBN_ACCEPTED && out[DBN_FRAME_NEEDED] == 0) {
                count++; /* the record is the first out[DBN_FRAME_LENGTH] bytes of the store */
                bytes += out[DBN_FRAME_LENGTH];
                held = 0;
            }
        }
    }
    printf("%llu records, %llu bytes\n", (unsigned long long)count, (unsigned long long)bytes);
    fflush(stdout);
    if (number != DBN_ACCEPTED) {
        refused(number, 0);
        return 1;
    }
    return held > 0 || ferror(file) ? ended(file, out[DBN_FRAME_NEEDED]) : 0;
}

/* Reads what the start needs and no byte more, so that the records stay in the file; then the records. */
static int run(FILE *file, struct start *s) {
    uint8_t piece[4096];
    uint32_t number = feed_all(s, NULL, 0);
    while (dbn_step_of(number, s->out) == DBN_STEP_NEEDS) {
        uint64_t needed = s->out[DBN_OUT_NEEDED];
        size_t n = fread(piece, 1, needed < sizeof piece ? (size_t)needed : sizeof piece, file);
        if (n == 0) {
            return ended(file, needed);
        }
        number = feed_all(s, piece, n);
    }
    if (number != DBN_ACCEPTED) {
        refused(number, s->out[DBN_OUT_PLACE]);
        return 1;
    }
    show(s);
    return records(file);
}

int main(int argc, char **argv) {
    FILE *file = argc > 1 ? fopen(argv[1], "rb") : stdin;
    struct start s;
    memset(&s, 0, sizeof s);
    s.length = 8;
    s.store = (uint8_t *)malloc(s.length);
    if (file == NULL || s.store == NULL) {
        fprintf(stderr, "start: %s\n", file == NULL ? "the file cannot be opened" : "no memory");
        return 2;
    }
    setvbuf(file, NULL, _IONBF, 0);
    int status = run(file, &s);
    free(s.store);
    free(s.table);
    return status;
}
