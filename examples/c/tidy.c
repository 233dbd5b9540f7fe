/* tidy SHEET WIDTH [FILE]: tells whether a layout is in the plain form, which dbn_write_layout gives for its rows; from a file or from standard
 * input. SHEET is a file of a type sheet, 520 little-endian numbers of two bytes, and WIDTH the symbol width.
 *
 * Exit status: 0 tidy, 1 refused or untidy, 2 a file that cannot be opened or read, a wrong use, or no memory.
 * After relay/build-lib this line builds it:
 *
 *     cc -std=c99 -Iinclude examples/c/tidy.c target/native/libdbn_c.a -o target/tidy
 */
#include "dbn_start.h"

#include <stdio.h>
#include <stdlib.h>

/* The most bytes that a layout may have here. */
#define MOST_BYTES ((size_t)1 << 24)

static int fail(const char *sentence) {
    fprintf(stderr, "tidy: %s\n", sentence);
    return 2;
}

/* The type sheet of a file; answers whether it has one. */
static int read_sheet(const char *name, uint16_t sheet[DBN_SHEET]) {
    uint8_t bytes[2 * DBN_SHEET];
    FILE *file = fopen(name, "rb");
    int whole = file != NULL && fread(bytes, 1, sizeof bytes, file) == sizeof bytes && fgetc(file) == EOF;
    for (size_t i = 0; whole && i < DBN_SHEET; i++) {
        sheet[i] = (uint16_t)(bytes[2 * i] | bytes[2 * i + 1] << 8);
    }
    if (file != NULL) {
        fclose(file);
    }
    return whole;
}

/* Tells what dbn_tidy says of a layout, and at which byte where the number has a place. */
static int tell(const uint8_t *layout, size_t n, uint16_t width, const uint16_t sheet[DBN_SHEET]) {
    uint64_t out[16];
    uint32_t number = dbn_tidy(layout, n, width, sheet, out);
    if (number == DBN_ACCEPTED) {
        printf("tidy\n");
        return 0;
    }
    printf("refused by %u", (unsigned)number);
    if (dbn_has_place(number)) {
        printf(" at byte %llu", (unsigned long long)out[DBN_OUT_PLACE]);
    }
    printf(": %s\n", dbn_sentence(number));
    return 1;
}

int main(int argc, char **argv) {
    uint16_t sheet[DBN_SHEET];
    char *end = NULL;
    unsigned long width = argc == 3 || argc == 4 ? strtoul(argv[2], &end, 10) : 65536;
    if (width > 65535 || end == argv[2] || *end != '\0') {
        return fail("tidy SHEET WIDTH [FILE]");
    }
    if (!read_sheet(argv[1], sheet)) {
        return fail("the sheet cannot be read, or has not 520 numbers");
    }
    FILE *file = argc == 4 ? fopen(argv[3], "rb") : stdin;
    uint8_t *layout = (uint8_t *)malloc(MOST_BYTES + 1);
    if (file == NULL || layout == NULL) {
        return fail(file == NULL ? "the file cannot be opened" : "no memory");
    }
    size_t n = fread(layout, 1, MOST_BYTES + 1, file);
    int status;
    if (ferror(file) || n > MOST_BYTES) {
        status = fail("the layout cannot be read, or is too long");
    } else {
        status = tell(layout, n, (uint16_t)width, sheet);
    }
    free(layout);
    fclose(file);
    return status;
}
