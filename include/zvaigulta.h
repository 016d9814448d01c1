/*
 * Zvaigulta: Japan's digital mapping files, judged, read and edited by a proved library.
 *
 * A file is bytes in a buffer: records of 84 bytes without line ends, a sheet or an index. `used` is the length of the file in its buffer,
 * which may be longer. Records number from 1.
 *
 * In the form with line ends, carriage return and line feed (13, 10) stand behind each record, 86 bytes in all. `zv_judge_sheet_lines`,
 * `zv_judge_index_lines` and `zv_from_lines` read it, `zv_to_lines` writes it; every other call reads and writes plain records alone.
 *
 * Behind the last record of a sheet a directory of its layers may stand, in records of its own, of one of two editions. Edition 1 lists the header of
 * each layer: `zv_append_directory` writes it, `zv_judge_directory` and `zv_jump` read it alone. Edition 2 lists header, item total and last record of
 * each: `zv_append_second_edition` writes it; `zv_judge_either_edition` and `zv_jump_either_edition` read a directory of either edition. Every other
 * call takes the sheet without a directory, and `zv_judge_sheet` refuses its records.
 *
 * Every call answers every content of its buffers and every number, and returns. A refused call changes no byte of any buffer. No call keeps
 * a pointer, takes memory from the heap or has state of its own, so calls on different buffers may run at the same time.
 *
 * What the caller owes: a pointer has as many bytes behind it as the length says; it may be NULL where the length is 0, and only there. A
 * buffer that a call writes overlaps no other buffer of that call.
 *
 * The library is for x86-64 Linux. `make install` puts it where programs find it:
 *
 *     cc -std=c99 example.c $(pkg-config --cflags --libs zvaigulta) -o example
 *
 * links the shared object (once after the first installation, `ldconfig`; under another PREFIX, LD_LIBRARY_PATH), and
 *
 *     cc -std=c99 example.c $(pkg-config --cflags zvaigulta) $(pkg-config --variable=libdir zvaigulta)/libzvaigulta.a -o example
 *
 * the archive.
 */
#ifndef ZVAIGULTA_H
#define ZVAIGULTA_H

#include <stddef.h>
#include <stdint.h>

#if !defined(__x86_64__) || !defined(__linux__)
#error "zvaigulta is a library for x86-64 Linux"
#endif

#ifdef __cplusplus
extern "C" {
#endif

/* The version of this header as one number, 500 for 0.5.0; `zv_version` answers that of the library. */
#define ZV_VERSION_MAJOR 0
#define ZV_VERSION_MINOR 5
#define ZV_VERSION_PATCH 0
#define ZV_VERSION (ZV_VERSION_MAJOR * 10000 + ZV_VERSION_MINOR * 100 + ZV_VERSION_PATCH)

/* Bytes of a record, plain and with its line end, and the most records of a file. */
#define ZV_RECORD_BYTES 84
#define ZV_LINE_RECORD_BYTES 86
#define ZV_MOST_RECORDS 200000

/* Room that always holds the line of `zv_report`, the words of a refusal, and the name of a column. */
#define ZV_LINE_BYTES 65
#define ZV_TEXT_BYTES 90
#define ZV_NAME_BYTES 18

/*
 * The refusals. The record that goes with each stands in parentheses; where none stands it is 0.
 */
enum zv_refusal {
    /* The call was accepted. */
    ZV_ACCEPTED = 0,
    /*
     * The used length is 0, above the buffer, no multiple of 84 (of 86 where line ends are read), or above 200,000 records. With a directory
     * the file may be longer; the sheet before it has 0 records or above 200,000.
     */
    ZV_LENGTH = 1,
    /* Record 1 does not start with the asked type (1). */
    ZV_FILE_TYPE = 2,
    /* A needed record is missing (its item's header; in the sheet part or an index, 1). */
    ZV_MISSING_RECORD = 3,
    /* Not H, E1 to E8, G or T where one is due (that record). */
    ZV_RECORD_TYPE = 4,
    /* An integer column is malformed (that record; 0 for a column read alone). */
    ZV_MALFORMED = 5,
    /* An integer outside its range or list; unit against level; f count; note direction; b count (that record). */
    ZV_OUTSIDE_RANGE = 6,
    /* A level rule is broken (that record). */
    ZV_LEVEL = 7,
    /* A data rule is broken (that record). */
    ZV_DATA_RULE = 8,
    /* A corner's fraction is too large or of opposite sign (that e record; 0 for joining alone). */
    ZV_FRACTION = 9,
    /* A count differs (the header; 2 for the sheet's own counts); an index has records left over (1). */
    ZV_COUNT = 10,
    /* The edit's place is no start of an item or header, nor, for an insertion, one past the end; or a removal at a header. */
    ZV_PLACE = 11,
    /* The block is not exactly one sound item with a level from 2 to 9. */
    ZV_BLOCK = 12,
    /* The block's level is above the open level plus 1 at that place, or below the level of the record now there. */
    ZV_BLOCK_LEVEL = 13,
    /* A header's total would pass 99,999, its grid and net count 9, or the file 200,000 records. */
    ZV_LIMIT = 14,
    /* A buffer is too short for the result. */
    ZV_ROOM = 15,
    /* A number does not fit the width, a width or unit is not allowed, or a corner cannot be split; there is no such refusal, layout or column. */
    ZV_NUMBER = 16,
    /* The record number is outside the file, or in the sheet part; for a jump, the sheet has no layer of this number. */
    ZV_RECORD_NUMBER = 17,
    /* A record of a file with line ends does not end in carriage return and line feed (the first such record). */
    ZV_LINE_END = 18,
    /*
     * The directory of layers is wrong: the last record is no well-formed ZE whose pointer lies from 1 to its own number (the last record); a record
     * differs from the right directory of the sheet (the first such record). The calls that read either edition take a well-formed YE as well.
     */
    ZV_DIRECTORY = 19,
    /* The last record starts YE, but its edition column is not 2 in written form (the last record). Only of the calls that read either edition. */
    ZV_EDITION = 27
};

/* The nineteen record layouts, in the order of document 01. */
enum zv_layout {
    ZV_INDEX_A = 1,
    ZV_INDEX_B = 2,
    ZV_INDEX_C = 3,
    ZV_SHEET_A = 4,
    ZV_SHEET_B = 5,
    ZV_SHEET_C = 6,
    ZV_SHEET_D = 7,
    ZV_SHEET_E = 8,
    ZV_SHEET_F = 9,
    ZV_HEADER = 10,
    ZV_ELEMENT = 11,
    ZV_GRID_HEADER = 12,
    ZV_NET_HEADER = 13,
    ZV_DATA_3D = 14,
    ZV_DATA_2D = 15,
    ZV_DATA_NOTE = 16,
    ZV_DATA_ATTRIBUTE = 17,
    ZV_DATA_GRID = 18,
    ZV_DATA_NET = 19
};

/* What may stand in a column, by a letter. */
enum zv_content {
    /* Text, not judged. */
    ZV_TEXT = 'A',
    /* Blank, not judged. */
    ZV_BLANK = 'X',
    /* An integer. */
    ZV_INTEGER = 'I',
    /* An integer of a list, whose ends are the least and the greatest number; not every number between them is on it. */
    ZV_LISTED = 'L',
    /* An integer, or spaces alone. */
    ZV_INTEGER_OR_SPACES = 'S'
};

/*
 * Each answer starts with the same two fields: `refusal` is 0 for an accepted call, else one of the numbers above; `at` is the record that the
 * refusal names, 0 where it names none. The other fields are 0 for a refused call.
 */

/* A number. */
struct zv_number {
    uint64_t refusal;
    size_t at;
    /* The column's number, or a corner in millimetres. */
    int64_t value;
};

/* A corner in its two parts, which never have opposite signs. */
struct zv_corner {
    uint64_t refusal;
    size_t at;
    /* Whole metres. */
    int64_t whole;
    /* The fraction: millimetres for unit 1, centimetres for units 10 and 999. */
    int64_t fraction;
};

/* What an accepted file holds. */
struct zv_counts {
    uint64_t refusal;
    size_t at;
    /* Its records. */
    size_t records;
    /* Its items (elements, grids and nets); 0 for an index. */
    size_t items;
};

/* A length in bytes. */
struct zv_length {
    uint64_t refusal;
    size_t at;
    /* The written column's width, the length of the file or text that was written, or the new used length after an edit or an append. */
    size_t length;
};

/* The way up from a record to its layer. */
struct zv_way {
    uint64_t refusal;
    size_t at;
    /* The record number of the header above; 0 for a layer header, which has none. */
    size_t header;
    /* How many headers the way passes, the layer's included: the record's level less one. */
    size_t passed;
};

/* A layer that was jumped to. */
struct zv_layer {
    uint64_t refusal;
    size_t at;
    /* The record number of its header. */
    size_t header;
};

/* A layer that was jumped to by a directory of either edition. */
struct zv_layer_entry {
    uint64_t refusal;
    size_t at;
    /* The record number of its header. */
    size_t header;
    /* How many items it holds, at any level, and the number of its last record; both 0 for a directory of edition 1, which does not state them. */
    size_t total;
    size_t last;
};

/* A column of a layout. */
struct zv_column {
    uint64_t refusal;
    size_t at;
    /* The byte of the record at which it starts, from 0. */
    size_t start;
    /* Its bytes. */
    size_t width;
    /* One of `enum zv_content`. */
    uint64_t content;
    /* The least and the greatest number that its own table allows; 0 for text and blanks. */
    int64_t least;
    int64_t greatest;
};

/* The library was compiled with these sizes and offsets; a compiler that lays a struct out in another way stops here. */
#if defined(__cplusplus) && __cplusplus >= 201103L
#define ZV_ASSERT(name, test) static_assert(test, #name)
#elif defined(__STDC_VERSION__) && __STDC_VERSION__ >= 201112L
#define ZV_ASSERT(name, test) _Static_assert(test, #name)
#else
#define ZV_ASSERT(name, test) typedef char name[(test) ? 1 : -1]
#endif
#define ZV_ASSERT_FIELD(type, field, offset) \
    ZV_ASSERT(zv_offset_of_##type##_##field, offsetof(struct zv_##type, field) == (offset) && sizeof(((struct zv_##type *)0)->field) == 8)
#define ZV_ASSERT_SIZE(type, size) \
    ZV_ASSERT(zv_size_of_##type, sizeof(struct zv_##type) == (size)); \
    ZV_ASSERT_FIELD(type, refusal, 0); \
    ZV_ASSERT_FIELD(type, at, 8)
ZV_ASSERT_SIZE(number, 24);
ZV_ASSERT_FIELD(number, value, 16);
ZV_ASSERT_SIZE(corner, 32);
ZV_ASSERT_FIELD(corner, whole, 16);
ZV_ASSERT_FIELD(corner, fraction, 24);
ZV_ASSERT_SIZE(counts, 32);
ZV_ASSERT_FIELD(counts, records, 16);
ZV_ASSERT_FIELD(counts, items, 24);
ZV_ASSERT_SIZE(length, 24);
ZV_ASSERT_FIELD(length, length, 16);
ZV_ASSERT_SIZE(way, 32);
ZV_ASSERT_FIELD(way, header, 16);
ZV_ASSERT_FIELD(way, passed, 24);
ZV_ASSERT_SIZE(layer, 24);
ZV_ASSERT_FIELD(layer, header, 16);
ZV_ASSERT_SIZE(layer_entry, 40);
ZV_ASSERT_FIELD(layer_entry, header, 16);
ZV_ASSERT_FIELD(layer_entry, total, 24);
ZV_ASSERT_FIELD(layer_entry, last, 32);
ZV_ASSERT_SIZE(column, 56);
ZV_ASSERT_FIELD(column, start, 16);
ZV_ASSERT_FIELD(column, width, 24);
ZV_ASSERT_FIELD(column, content, 32);
ZV_ASSERT_FIELD(column, least, 40);
ZV_ASSERT_FIELD(column, greatest, 48);
#undef ZV_ASSERT_SIZE
#undef ZV_ASSERT_FIELD
#undef ZV_ASSERT

/* The version of the library that answers, in the form of ZV_VERSION. */
uint64_t zv_version(void);

/*
 * Reads a number column of 1 to 18 bytes: leading spaces, at most one minus, one digit or more to the last byte. Refusals: 16 for another
 * width, 5 for a malformed column.
 */
struct zv_number zv_read_column(const uint8_t *column, size_t width);

/*
 * Writes a number over a whole column of 1 to 18 bytes: shortest digits, spaces in front. Answers the width. Refusal 16 where the width is
 * not allowed or the number does not fit.
 */
struct zv_length zv_write_column(uint8_t *column, size_t width, int64_t value);

/*
 * Joins whole metres and a fraction to millimetres. The unit is 1 (fraction in millimetres), 10 or 999 (in centimetres). Refusals: 16 for
 * another unit, or a whole or fraction that does not fit its column of 7 or 4; then 9.
 */
struct zv_number zv_join_corner(uint64_t unit, int64_t whole, int64_t fraction);

/* Splits millimetres into the one corner that joins to them. Refusal 16 where there is none. */
struct zv_corner zv_split_corner(uint64_t unit, int64_t millimetres);

/* Judges the first `used` bytes of a buffer as a sheet. Refusals 1 to 10. */
struct zv_counts zv_judge_sheet(const uint8_t *buffer, size_t length, size_t used);

/* Judges the first `used` bytes of a buffer as an index. Refusals 1 to 6 and 10. */
struct zv_counts zv_judge_index(const uint8_t *buffer, size_t length, size_t used);

/*
 * Judges the first `used` bytes of a buffer as a sheet with line ends. Refusals: 1 with multiples of 86; 18 with the first record of the whole file
 * that does not end in 13, 10; then 2 to 10, as `zv_judge_sheet` answers for the same records without their line ends.
 */
struct zv_counts zv_judge_sheet_lines(const uint8_t *buffer, size_t length, size_t used);

/* The same for an index. Refusals 1 and 18, then 2 to 6 and 10. */
struct zv_counts zv_judge_index_lines(const uint8_t *buffer, size_t length, size_t used);

/*
 * Writes a plain file with line ends to a target, and answers its length, 86 bytes for each record. Bytes of the target past it stay. Judges nothing
 * but the length. Refusals: 1, then 15 where the target is too short.
 */
struct zv_length zv_to_lines(const uint8_t *buffer, size_t length, size_t used, uint8_t *target, size_t target_length);

/*
 * Writes a file with line ends without them to a target, and answers its length, 84 bytes for each record. Bytes of the target past it stay. Judges
 * nothing but the length and the line ends. Refusals: 1 with multiples of 86, 18, then 15 where the target is too short.
 */
struct zv_length zv_from_lines(const uint8_t *buffer, size_t length, size_t used, uint8_t *target, size_t target_length);

/*
 * Writes the normal form of a sheet, every judged integer in written form, to a second buffer, and answers its length, which is `used`. Bytes of
 * the second buffer past it stay. Judges first (1 to 10); refusal 15 where the second buffer is too short.
 */
struct zv_length zv_normal_sheet(const uint8_t *buffer, size_t length, size_t used, uint8_t *second, size_t second_length);

/* The same for an index. */
struct zv_length zv_normal_index(const uint8_t *buffer, size_t length, size_t used, uint8_t *second, size_t second_length);

/*
 * Inserts a block, one item with its data, into a sheet: before the record at `place`, or at the end for one past the last record. The header
 * above and the sheet's counts are rewritten, the rest moves unchanged. Answers the new used length. Judges first (1 to 10), then 11 to 15; the
 * buffer must have room for the block behind the sheet.
 */
struct zv_length zv_insert(uint8_t *buffer, size_t length, size_t used, size_t place, const uint8_t *block, size_t block_length);

/*
 * Removes the item that starts at the record `place` of a sheet. The header above and the sheet's counts are rewritten, the freed end is filled with
 * spaces. Answers the new used length. Judges first (1 to 10), then 11.
 */
struct zv_length zv_remove(uint8_t *buffer, size_t length, size_t used, size_t place);

/* The header above the record `number` of a sheet; a data record answers as its item. Judges first (1 to 10), then 17. */
struct zv_way zv_way_up(const uint8_t *buffer, size_t length, size_t used, size_t number);

/*
 * Judges the first `used` bytes of a buffer as a sheet with a directory of its layers. Accepted exactly where the directory lists every layer
 * header of an accepted sheet once, in order, and nothing else; answers the sheet's records and items, without the records of the directory.
 * Refusals: 1 for the length against 0, the buffer and 84; 19 with the last record, if that is no well-formed ZE whose pointer lies from 1 to its
 * own number; 1 to 10, as `zv_judge_sheet` answers for the records before the pointer; then 19 with the first record that differs from the
 * right directory.
 */
struct zv_counts zv_judge_directory(const uint8_t *buffer, size_t length, size_t used);

/*
 * Appends the directory of its layers to a sheet: a record for each eleven layers, one for what is left of them, and one that closes it. Answers the
 * new used length; bytes of the buffer past it stay. Judges the sheet first (1 to 10); refusal 15 where the buffer has no room behind the sheet.
 */
struct zv_length zv_append_directory(uint8_t *buffer, size_t length, size_t used);

/*
 * The header of layer `layer`, numbered from 1, of a sheet with a directory: what counting the layers from the front gives. Judges first, as
 * `zv_judge_directory` (1 to 10 and 19), then 17; then one record of the directory is read.
 */
struct zv_layer zv_jump(const uint8_t *buffer, size_t length, size_t used, size_t layer);

/*
 * Judges the first `used` bytes of a buffer as a sheet with a directory of either edition. One of edition 2 is accepted exactly where it lists
 * header, item total and last record of every layer of an accepted sheet, in order, and nothing else; one of edition 1 as `zv_judge_directory`
 * says. Answers the sheet's records and items. Refusals: 1 for the length against 0, the buffer and 84; 27 with the last record, if that starts YE
 * and its edition column is not 2 in written form; then 19 and 1 to 10 as `zv_judge_directory`, with YE for ZE in edition 2.
 */
struct zv_counts zv_judge_either_edition(const uint8_t *buffer, size_t length, size_t used);

/*
 * Appends the directory of its layers in edition 2 to a sheet: a record for each three layers, one for what is left of them, and one that closes it.
 * Answers the new used length; bytes of the buffer past it stay. Refusals as `zv_append_directory`.
 */
struct zv_length zv_append_second_edition(uint8_t *buffer, size_t length, size_t used);

/*
 * The header of layer `layer`, numbered from 1, of a sheet with a directory of either edition, with its item total and its last record, which are 0
 * for edition 1. Judges first, as `zv_judge_either_edition` (1 to 10, 19 and 27), then 17; then one record of the directory is read.
 */
struct zv_layer_entry zv_jump_either_edition(const uint8_t *buffer, size_t length, size_t used, size_t layer);

/*
 * Puts the line that the program dm prints on an input, with its line end, at the start of a buffer, and answers the line's length. Bytes behind it
 * stay. Refusal 15 where the buffer is too short, ZV_LINE_BYTES are always enough.
 */
struct zv_length zv_report(const uint8_t *input, size_t input_length, uint8_t *out, size_t out_length);

/*
 * Puts the words of a refusal at the start of a buffer, and answers their length: ASCII, no end mark. Bytes behind them stay. Refusals: 15 where the
 * buffer is too short, ZV_TEXT_BYTES are always enough; 16 for a number that is no refusal: 0, which is no refusal but an answer, 20 to 26,
 * and any above 27.
 */
struct zv_length zv_refusal_text(uint64_t number, uint8_t *out, size_t out_length);

/*
 * What stands in a column of a record layout: the layout is one of `enum zv_layout`, the column numbers from 1 in the order of the record. Every
 * column starts where the one before it ends, and together they have 84 bytes. Refusal 16 where there is no such layout, or no such column in
 * it, so a program may ask from 1 on until it is refused.
 */
struct zv_column zv_layout_column(size_t layout, size_t column);

/*
 * Puts the name of a column at the start of a buffer, and answers its length: ASCII, no end mark, and none for a blank. Bytes behind it stay.
 * Refusals: 15 where the buffer is too short, ZV_NAME_BYTES are always enough; 16 where there is no such column.
 */
struct zv_length zv_column_name(size_t layout, size_t column, uint8_t *out, size_t out_length);

#ifdef __cplusplus
}
#endif

#endif
