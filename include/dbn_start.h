/* The start of DBN streams, and the records after it in versions 1 to 3: C functions of the library dbn_c, for C99 and C++11. examples/c
 * has a program that calls them.
 *
 * Answers. Every function answers a refusal number, 0 for accepted, unless it says yes or no. dbn_sentence tells a number in words.
 *
 * Places. A refusal from reading, 10 to 12 and 20 to 55, also has a place (dbn_has_place), the byte where it happened: the first byte of the
 * number or text that broke its rule, or where something was to begin that does not fit, which may be the end of the bytes; for 28 the first
 * byte that the contents do not reach. It counts from the prelude for 10 to 12, and else from the block or the layout that was given; from the
 * block in dbn_feed, dbn_house_store and dbn_house_load, too. What dbn_tidy finds untidy, 120 to 123, has a place as well, counted from the
 * layout. docs/REFUSALS.md has the place and the smallest input of every such number. dbn_write_block, which reads no block, refuses by some of
 * the numbers from reading too, and then without a place.
 *
 * Buffers. A slice is a pointer and a length in elements. It may be NULL where the length is 0, and is not read then; `sheet`, `fields` and
 * `out` are never NULL. A pointer is aligned for its element: 2 bytes for uint16_t, 4 for uint32_t, 8 for uint64_t. A buffer that is lent for
 * writing (store, symbology, layout, rows, output, out, where they are not const) overlaps no other buffer of the call; two that are
 * only read may. size_t has 64 bits. Nothing is kept after a call, nothing is allocated, and any number of threads may call at once.
 *
 * What is written. Cells of a table that are none of its rows', output past the written length and the store past the bytes held are untouched.
 * `out` is written only as said here, and what is not named keeps its value. A refusal leaves tables and output as they were; only the store of
 * dbn_feed and of dbn_frame keeps the bytes it took, that of dbn_house_load what a sound file holds, and a refusal by 3 tells the rows needed.
 *
 * Names. A dataset or symbol comes without the NULs that fill its width, and holds none: after a NUL only NULs may follow. One that is as
 * long as its width has no NUL after it, so go by its length and not to the next NUL. A layout's names hold no NUL, and one follows each.
 *
 * Days. The dates of an interval come as day numbers: 1 January of year 0 is 0, and each day after it has the next number, by the Gregorian
 * rule in every year. Year 0 is a leap year, so 1 January of year 1 is 366, and 31 December of year 9999 is 3,652,424, the largest. A later day
 * has a larger number, and the days from one to another are the difference. dbn_day gives the date of a number, dbn_date the number of a date.
 *
 * Stack, in bytes that a call needs at the most:
 *     dbn_text, dbn_date, dbn_day, dbn_prelude, dbn_symbology_name,
 *     dbn_layout_name, dbn_frame                                               4 KiB
 *     dbn_block, dbn_feed, dbn_house_store, dbn_house_load, dbn_layout,
 *     dbn_tidy, dbn_write_layout, dbn_write_block                             32 KiB
 *     the same for a layout of more than 4,096 structs, or with a record
 *     or struct whose fields stand far from the order of their offsets       320 KiB
 *     dbn_layout_plain                                                        64 KiB
 *     the same for a layout of more than 4,096 structs, or with a record
 *     or struct that reaches to byte 8,191 or past it                        320 KiB
 * So 64 KiB do for streams below version 4 and for layouts in order, and 320 KiB for anything that a stranger sends.
 */
#ifndef DBN_START_H
#define DBN_START_H

#include <stddef.h>
#include <stdint.h>

#if defined(SIZE_MAX) && SIZE_MAX < UINT64_MAX
#error "dbn_start.h: the library dbn_c is for machines whose size_t has 64 bits"
#endif

/* The version of this header, major x 10000 + minor x 100 + patch. */
#define DBN_START_VERSION_MAJOR 0
#define DBN_START_VERSION_MINOR 12
#define DBN_START_VERSION_PATCH 0
#define DBN_START_VERSION (DBN_START_VERSION_MAJOR * 10000 + DBN_START_VERSION_MINOR * 100 + DBN_START_VERSION_PATCH)

#ifdef __cplusplus
extern "C" {
#endif

/* The refusals: name, number and sentence. The names come out as DBN_REFUSED_MAGIC and so on. Number 70 (names and fields differ in
 * number) is retired: it never came, and it is not used again. */
#define DBN_REFUSALS(X) \
    X(HELD_BEYOND, 1, "more bytes are held than the store, the whole block or the record has")     \
    X(STORE_SHORT, 2, "the store is too short for the prelude or for the block")                   \
    X(TABLE_SHORT, 3, "a row table is too short")                                                  \
    X(MAGIC, 10, "the stream does not begin with DBN")                                             \
    X(VERSION, 11, "the version is not 1 to 4")                                                    \
    X(BLOCK_LENGTH, 12, "the block's length is below 100")                                         \
    X(SIZE, 13, "the block is below 100 bytes, or it or the layout is above 4,294,967,295")        \
    X(DATASET_NOT_UTF8, 20, "the dataset is not UTF-8")                                            \
    X(SCHEMA, 21, "the schema is not known")                                                       \
    X(STYPE_IN, 22, "the input symbol type is not known")                                          \
    X(STYPE_OUT, 23, "the output symbol type is not known")                                        \
    X(LAYOUT_LENGTH_MISSING, 24, "the length of the layout is missing")                            \
    X(LAYOUT_BELOW_4, 25, "a layout below version 4")                                              \
    X(NO_LAYOUT, 26, "no layout in version 4")                                                     \
    X(SYMBOLOGY_LENGTH_MISSING, 27, "the length of the symbology is missing")                      \
    X(SYMBOLOGY_NOT_SPANNED, 28, "the symbology does not span its section")                        \
    X(DATASET_AFTER_NUL, 29, "the dataset has more than NULs after a NUL")                         \
    X(LIST_COUNT_MISSING, 30, "the count of a symbol list is missing")                             \
    X(LIST_COUNT_LARGE, 31, "the count of a symbol list is too large")                             \
    X(LIST_NOT_UTF8, 32, "a symbol of a list is not UTF-8")                                        \
    X(MAPPING_COUNT_MISSING, 33, "the count of mappings is missing")                               \
    X(MAPPING_COUNT_LARGE, 34, "the count of mappings is too large")                               \
    X(MAPPING_SHORT, 35, "a mapping is cut short")                                                 \
    X(RAW_SYMBOL_NOT_UTF8, 36, "the raw symbol of a mapping is not UTF-8")                         \
    X(INTERVAL_COUNT_LARGE, 37, "the count of a mapping's intervals is too large")                 \
    X(START_DATE, 38, "an interval's start date is no date")                                       \
    X(END_DATE, 39, "an interval's end date is no date")                                           \
    X(SYMBOL_NOT_UTF8, 40, "an interval's symbol is not UTF-8")                                    \
    X(LIST_AFTER_NUL, 41, "a symbol of a list has more than NULs after a NUL")                     \
    X(RAW_SYMBOL_AFTER_NUL, 42, "the raw symbol of a mapping has more than NULs after a NUL")      \
    X(SYMBOL_AFTER_NUL, 43, "an interval's symbol has more than NULs after a NUL")                 \
    X(LAYOUT_PAST_END, 44, "the layout goes past the end of the block")                            \
    X(SYMBOLOGY_PAST_END, 45, "the symbology goes past the end of the block")                      \
    X(LAYOUT_TRUNCATED, 50, "the layout is cut short")                                             \
    X(SECTION_SHORT, 51, "a section's length is below 2")                                          \
    X(NAME_HOLDS_NUL, 52, "a name holds a NUL")                                                    \
    X(NAME_NOT_UTF8, 53, "a name is not UTF-8")                                                    \
    X(NAME_NOT_CLOSED, 54, "a name has no closing NUL")                                            \
    X(LABEL_TWICE, 55, "a label code stands twice in a label def")                                 \
    X(STRUCT_SIZE, 60, "a struct's size is not a multiple of its alignment")                       \
    X(RTYPE_TWICE, 61, "an rtype stands twice")                                                    \
    X(RTYPE_RESERVED, 62, "an rtype's low byte is 4E")                                             \
    X(BASE_BELOW_HEADER, 63, "a base size is below the header's")                                  \
    X(BASE_NOT_OF_8, 64, "a base size is not a multiple of 8")                                     \
    X(ID_TWICE, 71, "a field id stands twice")                                                     \
    X(STRUCT_IN_STRUCT, 72, "a struct within a struct")                                            \
    X(DEF_INDEX, 73, "a def index is out of range")                                                \
    X(MISALIGNED, 74, "a field is misaligned")                                                     \
    X(SIZE_ZERO, 75, "a field has size 0")                                                         \
    X(DECIMAL_SCALE, 76, "a decimal's scale is not -9")                                            \
    X(SYMBOL_WIDTH, 77, "a symbol field's size is not the symbol width")                           \
    X(FIELD_END, 78, "a field's offset and size are over 65535")                                   \
    X(EXTENSION_MARK, 79, "a field's extension mark and its place differ")                         \
    X(PAST_BASE, 80, "a base field goes past the base")                                            \
    X(BASE_GAP, 81, "a gap or an overlap among the base fields")                                   \
    X(BASE_UNFILLED, 82, "the base is not covered to its end")                                     \
    X(EXTENSION_GAP, 83, "a gap among the extension fields")                                       \
    X(ROWS_MALFORMED, 90, "the rows are malformed, or there is no such name")                      \
    X(COUNT_LARGE, 91, "a count is over 65535")                                                    \
    X(NAME_LONG, 92, "a name is over 255 bytes")                                                   \
    X(NAME_TEXT, 93, "a name holds a NUL or is not UTF-8")                                         \
    X(SECTION_LARGE, 94, "a section is over 65535 bytes, or the layout over 4,294,967,295")        \
    X(LABELS_NOT_RISING, 95, "label codes do not rise")                                            \
    X(OUTPUT_SHORT, 96, "the output is too short")                                                 \
    X(FRAME_LENGTH, 100, "a record's length is below 16 bytes")                                    \
    X(FRAME_STORE_SHORT, 101, "the store is too short for a record's header or for the record")    \
    X(START_MALFORMED, 110, "the symbology rows, texts or fields to write are malformed")          \
    X(TEXT_WIDE, 111, "a symbol or the dataset is too wide, or a width in version 1 is not 22")    \
    X(START_OUTPUT_SHORT, 112, "the output is too short for the start or its house file")          \
    X(LEFTOVER_IN_SECTION, 120, "bytes are left over in a section")                                \
    X(CODES_NOT_RISING, 121, "a label's code is not above the one before it")                      \
    X(SKIPPED_NOT_ZERO, 122, "a skipped byte of an entry is not zero")                             \
    X(LEFTOVER_AFTER_LABELS, 123, "bytes are left over after the label defs")                      \
    X(HOUSE_LENGTH, 130, "a house file does not have 1 to 65,536 blocks of 512 bytes")             \
    X(HOUSE_CHECK, 131, "the check words of a house file's block are wrong")                       \
    X(HOUSE_INDEX, 132, "the index of a house file's block is not its place in the file")          \
    X(HOUSE_USED, 133, "the used count of a house file's block is wrong, or its filler not zero")  \
    X(HOUSE_NEEDS, 134, "the start of a house file ends before its prelude or its block does")

enum dbn_refusal {
    DBN_ACCEPTED = 0,
#define DBN_NAMED(name, number, sentence) DBN_REFUSED_##name = number,
    DBN_REFUSALS(DBN_NAMED)
#undef DBN_NAMED
    DBN_REFUSED_LAST = DBN_REFUSED_HOUSE_NEEDS
};

/* What a number says, in a few words. */
static inline const char *dbn_sentence(uint32_t number) {
    switch (number) {
    case DBN_ACCEPTED:
        return "accepted";
#define DBN_TOLD(name, number, sentence) \
    case number:                         \
        return sentence;
        DBN_REFUSALS(DBN_TOLD)
#undef DBN_TOLD
    default:
        return "no such number";
    }
}

/* 1 where a refusal by this number has a place, from reading or for what is untidy, else 0. */
static inline int dbn_has_place(uint32_t number) {
    return (number >= 10 && number <= 12) || (number >= 20 && number <= 55) || (number >= 120 && number <= 123);
}

/* The type sheet, DBN_SHEET numbers: what the layout of version 4 is judged by. Below version 4 it is not looked at. From
 * DBN_SHEET_SIZES on stand the natural sizes of the 256 type ids (0: none), from DBN_SHEET_LABEL_USERS on a nonzero number for each id
 * whose def index names a label def. */
enum dbn_sheet {
    DBN_SHEET_SIZES = 0,
    DBN_SHEET_LABEL_USERS = 256,
    DBN_SHEET_STRUCT_ID = 512,
    DBN_SHEET_SYMBOL_ID = 513,
    DBN_SHEET_DECIMAL_ID = 514,
    DBN_SHEET_PADDING_ID = 515,
    DBN_SHEET_EXTENSION_WEIGHT = 516, /* of the extension bit in a field's flags, such as 64 */
    DBN_SHEET_NO_LABEL_DEF = 517,     /* the def index that means no label def */
    DBN_SHEET_HEADER_SIZE = 518,
    DBN_SHEET_UNUSED = 519,
    DBN_SHEET = 520
};

/* Numbers in a row, and the kinds of rows, which are a row's first number. Unused numbers are 0. Starts count from the block for
 * symbology rows and from the layout for layout rows, and from the text where rows are written. A table of n numbers has room for
 * n / DBN_SYMBOLOGY_ROW or n / DBN_LAYOUT_ROW rows, rounded down; n need not be a multiple. Layout rows stand one after the other, and symbology
 * rows in columns. */
enum dbn_row { DBN_SYMBOLOGY_ROW = 6, DBN_LAYOUT_ROW = 9 };

/* The columns of a symbology table: first every kind, then every start, and so on. Each is h cells high, where h is the rows that the
 * table has room for, and not those that were read. A table of 26 numbers has h = 4, and three rows in it stand at these indexes:
 *
 *                 kind   start  length       x       y   owner
 *             +-------+-------+-------+-------+-------+-------+
 *     row 0   |     0 |     4 |     8 |    12 |    16 |    20 |
 *     row 1   |     1 |     5 |     9 |    13 |    17 |    21 |   written
 *     row 2   |     2 |     6 |    10 |    14 |    18 |    22 |
 *             + - - - + - - - + - - - + - - - + - - - + - - - +
 *             |     3 |     7 |    11 |    15 |    19 |    23 |   untouched: past the last row of each column
 *             +-------+-------+-------+-------+-------+-------+
 *                  24      25                                     untouched: after the six columns
 *
 * So number c of row r stands at c * h + r, which dbn_symbology_cell gives, and every start stands from symbology + DBN_COLUMN_START * h on, in
 * the order of the rows. */
enum dbn_symbology_column {
    DBN_COLUMN_KIND = 0,
    DBN_COLUMN_START = 1,
    DBN_COLUMN_LENGTH = 2,
    DBN_COLUMN_X = 3,
    DBN_COLUMN_Y = 4,
    DBN_COLUMN_OWNER = 5
};

/* Where a number of a row stands in a symbology table of n numbers, for a row that the table has room for. */
static inline size_t dbn_symbology_cell(size_t n, size_t row, enum dbn_symbology_column column) {
    return (size_t)column * (n / DBN_SYMBOLOGY_ROW) + row;
}

/* The kinds of symbology rows, and the numbers after the kind: start, length, x, y and owner. The owner of an interval is the index of its
 * mapping's row, and of every other row its own index. Indexes count from 0. So an interval's mapping is found at once, and only intervals
 * of that mapping stand between the two. */
enum dbn_symbology_kind {
    DBN_KIND_SYMBOL = 0,    /* start, length, 0, 0, owner */
    DBN_KIND_PARTIAL = 1,   /* start, length, 0, 0, owner */
    DBN_KIND_NOT_FOUND = 2, /* start, length, 0, 0, owner */
    DBN_KIND_MAPPING = 3,   /* start, length, count of the intervals that follow, 0, owner */
    DBN_KIND_INTERVAL = 4   /* start, length, start day and end day as day numbers, owner */
};

enum dbn_layout_kind {
    DBN_KIND_RECORD = 10,     /* start, length, rtype, schema, base size, count of fields, hash low, hash high; the fields, then their names, follow */
    DBN_KIND_FIELD = 11,      /* id, offset, size, type, flags, def index, scale byte; it has no text */
    DBN_KIND_FIELD_NAME = 12, /* start, length */
    DBN_KIND_STRUCT = 13,     /* start, length, size, count of fields; the fields, then their names, follow */
    DBN_KIND_LABEL_DEF = 14,  /* start, length, count of the labels that follow */
    DBN_KIND_LABEL = 15       /* start, length, code */
};

/* The places of `out`: of dbn_block, dbn_feed and dbn_house_load, and in part of dbn_layout, dbn_layout_plain, dbn_tidy and dbn_house_store. */
enum dbn_out {
    DBN_OUT_DATASET_LENGTH = 0, /* the dataset is the block's first bytes */
    DBN_OUT_SCHEMA = 1,
    DBN_OUT_START = 2,
    DBN_OUT_END = 3,
    DBN_OUT_LIMIT = 4,
    DBN_OUT_STYPE_IN = 5,
    DBN_OUT_STYPE_OUT = 6,
    DBN_OUT_TS_OUT = 7,
    DBN_OUT_SYMBOL_WIDTH = 8,
    DBN_OUT_LAYOUT_VERSION = 9, /* 0 below version 4 */
    DBN_OUT_SYMBOLOGY_ROWS = 10,
    DBN_OUT_LAYOUT_ROWS = 11,
    DBN_OUT_PRESENT = 12, /* the bits of enum dbn_present */
    DBN_OUT_PLACE = 13,   /* of a refusal that has one */
    DBN_OUT_TAKEN = 16,   /* from here on dbn_feed and dbn_house_load alone */
    DBN_OUT_HELD = 17,
    DBN_OUT_NEEDED = 18
};

/* The places of `out` of the other functions. */
enum dbn_date_out { DBN_DATE_DAY = 0 };
enum dbn_day_out { DBN_DAY_DATE = 0 };
enum dbn_prelude_out { DBN_PRELUDE_MISSING = 0, DBN_PRELUDE_VERSION = 1, DBN_PRELUDE_LENGTH = 2, DBN_PRELUDE_PLACE = 3 };
enum dbn_write_out { DBN_WRITE_LENGTH = 0 };
enum dbn_house_out { DBN_HOUSE_LENGTH = 0 }; /* of dbn_house_store */
enum dbn_name_out { DBN_NAME_START = 0, DBN_NAME_LENGTH = 1 };
enum dbn_frame_out { DBN_FRAME_TAKEN = 0, DBN_FRAME_HELD = 1, DBN_FRAME_NEEDED = 2, DBN_FRAME_LENGTH = 3, DBN_FRAME_RTYPE = 4 };

/* The bytes of a record's header, which are the fewest that a record has, and the most that one has. A store of DBN_FRAME_MOST bytes is never
 * refused by 101. */
enum dbn_frame_size { DBN_FRAME_HEADER = 16, DBN_FRAME_MOST = 1020 };

/* A house file: the bytes of a block, those of its payload, and the most blocks. */
enum dbn_house_size { DBN_HOUSE_BLOCK = 512, DBN_HOUSE_PAYLOAD = 504, DBN_HOUSE_MOST = 65536 };

/* How long the house file of a start of n bytes is. */
static inline size_t dbn_house_length(size_t n) {
    return (n / DBN_HOUSE_PAYLOAD + (n % DBN_HOUSE_PAYLOAD > 0)) * DBN_HOUSE_BLOCK;
}

/* The largest day number, that of 31 December of year 9999. */
enum dbn_day_number { DBN_DAY_LAST = 3652424 };

/* Which fields a block has. What is absent has the value 0. */
enum dbn_present { DBN_HAS_SCHEMA = 1, DBN_HAS_END = 2, DBN_HAS_LIMIT = 4, DBN_HAS_STYPE_IN = 8 };

/* Where the fields of dbn_write_block have what no block gives: the dataset's start in the text. */
enum dbn_write_field { DBN_FIELD_DATASET_START = 13 };

/* How far a stream start has come. */
enum dbn_step {
    DBN_STEP_NEEDS,  /* out[DBN_OUT_NEEDED] bytes end the present stage, and no fewer do */
    DBN_STEP_DONE,   /* the block is read */
    DBN_STEP_REFUSED /* by the number */
};

/* The step that dbn_feed's number and `out` tell. */
static inline enum dbn_step dbn_step_of(uint32_t number, const uint64_t out[20]) {
    if (number != DBN_ACCEPTED) {
        return DBN_STEP_REFUSED;
    }
    return out[DBN_OUT_NEEDED] > 0 ? DBN_STEP_NEEDS : DBN_STEP_DONE;
}

/* 1 where the n bytes are UTF-8, else 0. */
uint32_t dbn_text(const uint8_t *s, size_t n);

/* 1 where the number is a date, year x 10000 + month x 100 + day, of the years 0 to 9999; then out[DBN_DATE_DAY] is its day number. Else 0, and out
 * keeps its value. */
uint32_t dbn_date(uint32_t yyyymmdd, uint64_t out[1]);

/* 1 where the number is a day number, 0 to DBN_DAY_LAST; then out[DBN_DAY_DATE] is its date, year x 10000 + month x 100 + day. Else 0, and out
 * keeps its value. */
uint32_t dbn_day(uint32_t day, uint64_t out[1]);

/* The verdict on a prelude. Fewer than 8 bytes: 0 and out = {8 - n, 0, 0, 0}. Else 10, 11 or 12 and out[DBN_PRELUDE_PLACE] is the place, or 0
 * and out = {0, version, block length, 0}. Bytes past the eighth are not looked at. */
uint32_t dbn_prelude(const uint8_t *s, size_t n, uint64_t out[4]);

/* Reads a block given whole (the bytes after the prelude), its rows into the tables of sn and ln numbers, those of symbology in columns. 0:
 * out[0] to out[12] as enum dbn_out names them, and out[13] to out[15] are 0. 3: out[DBN_OUT_SYMBOLOGY_ROWS] and out[DBN_OUT_LAYOUT_ROWS] are
 * the rows needed. 20 to 55: out[DBN_OUT_PLACE] is the place in the block. 11: it is 3, where a prelude has the version. */
uint32_t dbn_block(uint8_t version, const uint8_t *block, size_t n, const uint16_t sheet[520], uint32_t *symbology, size_t sn,
                   uint32_t *layout, size_t ln, uint64_t out[16]);

/* Feeds a piece of a stream after the first `held` bytes of the store, 0 at the start. Always: out[DBN_OUT_TAKEN] is the count taken,
 * out[DBN_OUT_HELD] the count then held, out[DBN_OUT_NEEDED] the count still needed, 0 when done or refused. Done is 0 with nothing
 * needed, and out[0] to out[15] are as those of dbn_block. 3: the rows needed, as dbn_block tells them. 10 to 12: out[DBN_OUT_PLACE] is the place
 * in the prelude; 20 to 55: in the block, which begins at byte 8 of the store. With 8 bytes held, 2 means that the store is
 * below 8 + block length; a call with a longer store that begins with the same bytes goes on, and so does one with longer tables after 3. */
uint32_t dbn_feed(uint64_t held, uint8_t *store, size_t storelen, const uint8_t *piece, size_t n, const uint16_t sheet[520],
                  uint32_t *symbology, size_t sn, uint32_t *layout, size_t ln, uint64_t out[20]);

/* Feeds a piece of the records after the start of a stream below version 4, after the first `held` bytes of the store, which are those of a begun
 * record: 0 at the start and after each record. A record has 4 times as many bytes as its first byte says, its header of 16 among them; its second
 * byte is its rtype. What is still needed is taken, to 16 below 16 held, then to the record's end, both in one call where the piece has them. Always:
 * out[DBN_FRAME_TAKEN] is the count taken, out[DBN_FRAME_HELD] the count then held, out[DBN_FRAME_NEEDED] the count still needed, 0 with
 * a record or a refusal. A record is 0 with nothing needed: the first out[DBN_FRAME_LENGTH] bytes of the store, and out[DBN_FRAME_RTYPE] is
 * its rtype. Then call again with held 0 and what was not taken. Held bytes that are a whole record, or are refused, take nothing.
 * Refused in this order: 1 for a held count beyond the store, 101 for a store below 16; with 16 held 100, 101 for a store below the record, 1
 * for a held count beyond the record. A refusal ends the records, as the next one's start is unknown; after 101 a call with a longer
 * store that begins with the same bytes goes on. Records of version 4 are left to the caller. */
uint32_t dbn_frame(uint64_t held, uint8_t *store, size_t storelen, const uint8_t *piece, size_t n, uint64_t out[5]);

/* Stores the start of a stream, prelude and block, in a house file: blocks of 512 bytes, each its index from 0, its count of used bytes, 504
 * payload bytes, zeros after the used ones, and two check words a and b; every number has two bytes, the low one first. Over the 254 words of
 * two bytes before them a is the sum and b the sum of the running sums of a, both modulo 65535. Every block but the last is full, and the last
 * has at least one used byte. 0: out[DBN_HOUSE_LENGTH] is the length written, which dbn_house_length tells before.
 *
 * Refused as the reader refuses the n bytes where dbn_feed holds them in a store that is long enough, 3 apart, since no table is lent: 10 to 12,
 * 1 for bytes after the block, 134 where bytes are still needed, which is so below 8 bytes too, and what refuses the block. Then 130 above
 * 65,536 blocks, which are 33,030,144 bytes of a start, then 112 for an output below the length. 10 to 12 and 20 to 55: out[DBN_OUT_PLACE] is
 * the place, as dbn_feed counts it. A refusal leaves the output as it was. */
uint32_t dbn_house_store(const uint8_t *stream, size_t n, const uint16_t sheet[520], uint8_t *output, size_t on, uint64_t out[16]);

/* Loads a house file of fn bytes: the bytes that it holds come to the front of the store, and are read as dbn_feed reads held bytes. What was
 * stored comes back as it was, and a file with any one byte changed is refused, by 131. A word of 0 and one of 65535 are alike to both sums, so
 * that where one stands for the other in the bytes held, the check words do not tell it.
 *
 * Refused first by 130 for a length that is zero, not of 512 or above 65,536 blocks; then, block by block, 131 for its check words, 132 for its
 * index, 133 for its used count or for filler that is not zero; then 1 for a store below the bytes held. These leave store, tables and `out` as
 * they were. Else out[DBN_OUT_TAKEN] is 0, out[DBN_OUT_HELD] the count of the bytes held, and number, tables and the rest of `out` are those of
 * dbn_feed with so many bytes held and an empty piece; but where that still needs bytes, which out[DBN_OUT_NEEDED] counts, the number is 134. So
 * 0 is an accepted start; after 3 or 2 a call with longer tables or a longer store goes on. A store of 504 bytes for each block holds what any
 * file holds, and 2 then means that the file ends before the start does. 130 to 134 have no place. */
uint32_t dbn_house_load(const uint8_t *file, size_t fn, uint8_t *store, size_t storelen, const uint16_t sheet[520], uint32_t *symbology, size_t sn,
                        uint32_t *layout, size_t ln, uint64_t out[20]);

/* Reads a layout given with a symbol width, its rows into the table of rn numbers. 0: out[DBN_OUT_LAYOUT_VERSION] is the layout's version,
 * out[DBN_OUT_LAYOUT_ROWS] the rows. 3: out[DBN_OUT_LAYOUT_ROWS] is the rows needed. 50 to 55: out[DBN_OUT_PLACE] is the place in the layout. */
uint32_t dbn_layout(const uint8_t *layout, size_t n, uint16_t width, const uint16_t sheet[520], uint32_t *rows, size_t rn, uint64_t out[16]);

/* The verdict on a layout given with a symbol width, without a table: the answer of dbn_layout, 3 apart, with 81 to 83 found by the plain
 * engine, which marks each byte of a record with the field that owns it. 0, and 50 to 55: `out` as that of dbn_layout. */
uint32_t dbn_layout_plain(const uint8_t *layout, size_t n, uint16_t width, const uint16_t sheet[520], uint64_t out[16]);

/* Whether a layout given with a symbol width is tidy. 0: it is, which is to say that its bytes are those that dbn_write_layout gives for the rows
 * that it reads to, with its version; `out` is as it was. No table is lent, and the layout is not written a second time.
 *
 * Refused first by what dbn_layout would answer, 3 apart: 13, 50 to 55, 60 to 64 and 71 to 83. Then by the first untidy thing in wire order:
 * 120 for bytes left over in a section; 121 for a label's code that is not above the one before it in its label def; 122 for a skipped byte of an
 * entry that is not zero, where an entry has 16 bytes, of which the first eleven are read; 123 for bytes left over after the label defs. Bytes
 * that are left over are so with any value, 0 too. 50 to 55 and 120 to 123: out[DBN_OUT_PLACE] is the place in the layout, which is the first byte
 * left over for 120 and 123, the code for 121, and the first skipped byte that is not zero for 122. Two tidy layouts with the same version, rows
 * and names, starts apart, are the same bytes. */
uint32_t dbn_tidy(const uint8_t *layout, size_t n, uint16_t width, const uint16_t sheet[520], uint64_t out[16]);

/* Writes layout rows, whose names are parts of the text, as a layout of a version, for a symbol width. 0: out[DBN_WRITE_LENGTH] is the
 * length written. */
uint32_t dbn_write_layout(const uint32_t *rows, size_t rn, const uint8_t *text, size_t tn, uint16_t version, uint16_t width,
                          const uint16_t sheet[520], uint8_t *output, size_t on, uint64_t out[16]);

/* Writes the start of a stream, prelude and block, of a version: its fields, the first `rows` rows of a symbology table of sn numbers, and
 * layout rows, ln numbers, whose names, like the symbols and the dataset, are parts of the text. 0: out[DBN_WRITE_LENGTH] is the length written,
 * the prelude's eight bytes among them. Any refusal leaves output and `out` as they were, and has no place.
 *
 * fields[0] to fields[9] and fields[DBN_OUT_PRESENT] are as dbn_block gives them, the symbol width 22 in version 1 among them, and
 * fields[DBN_FIELD_DATASET_START] is where the dataset starts in the text. fields[10], [11], [14] and [15] are not looked at. The
 * table has columns of height sn / 6, as dbn_block fills them, and sn need not be a multiple; cells of no row are not looked at. Starts
 * count from the text, in which texts may overlap and stand in any order. So what dbn_block read is written again with its `out` as the fields and
 * the block as the text; the starts of layout rows then grow by 104, where the layout begins in the block.
 *
 * Absent values are written as schema 65535, end 2^64-1, limit 0 and stype_in 255, and version 1's record count as 2^64-1. A symbol and the dataset
 * are filled with NULs to their width, reserved and skipped bytes are zero, and no bytes follow the symbology. Version 4 without layout rows has a
 * layout of eight bytes, its version and three counts of 0. What is written reads back, with the same sheet, with the same fields and rows, starts
 * apart.
 *
 * Refused in this order: 11; 110; 111; 90 to 95 for the layout rows, as in dbn_write_layout; 13 for a block above 4,294,967,295 bytes; what
 * dbn_block would answer to the block that is about to be written, 3 apart, among them 25 for layout rows below version 4 and 31 for symbols of a
 * list where the width is 0; 112 for an output below the length.
 *
 * 110 is for fields: presence bits above 15; a value beside an absent bit that is not 0; a present schema of 65535 or above, end of 0 or 2^64-1,
 * limit of 0, stype_in of 255 or above; stype_out above 255; ts_out above 1; a width above 65535, but in version 1; a layout version above
 * 65535, or not 0 below version 4. For texts: a dataset or symbol whose span is not inside the text, or that ends in a NUL. For rows: more than
 * sn / 6, or than 4,294,967,295; kinds out of the order of all symbols, all partial, all not found, then mappings, each with as many intervals
 * after it as its x says; x or y of a list's row, or y of a mapping, that is not 0; a day of an interval above DBN_DAY_LAST; an owner that is not
 * the row's own index, or of an interval not that of its mapping.
 *
 * 111 is for a dataset longer than its field, 38 bytes in version 4 and else 16, for a symbol longer than the width, and for any width but 22 in
 * version 1. */
uint32_t dbn_write_block(uint8_t version, const uint64_t fields[16], const uint32_t *symbology, size_t sn, uint64_t rows, const uint32_t *layout,
                         size_t ln, const uint8_t *text, size_t tn, const uint16_t sheet[520], uint8_t *output, size_t on, uint64_t out[16]);

/* The text of symbology row `index`, as a part of the block. `rows` is the table as it was lent and rn its whole length, which tells the
 * height of its columns: a front part of it is another table. 0: out = {start, length}. 90: out = {0, 0}, for a row that the table has no room
 * for, what is no kind, or a span outside the block. The function is not told how many rows were read: a row past the last is what the caller's
 * table held. */
uint32_t dbn_symbology_name(const uint8_t *block, size_t n, const uint32_t *rows, size_t rn, uint64_t index, uint64_t out[2]);

/* The text of layout row `index`, as a part of the layout. 0: out = {start, length}. 90: out = {0, 0}. */
uint32_t dbn_layout_name(const uint8_t *layout, size_t n, const uint32_t *rows, size_t rn, uint64_t index, uint64_t out[2]);

#ifdef __cplusplus
}
#endif

#endif
