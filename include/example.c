/*
 * The proved library from C: `example FILE` judges a file; `example` alone takes a small sheet through every call, checks each answer and
 * prints it. Exit status 0 where everything was as expected (or the file accepted), 1 where not, 2 where the file could not be read.
 */
#include "zvaigulta.h"

#include <stdio.h>
#include <string.h>

/* The example of document 01: five sheet records, one layer, one line of seven points. */
static const char SHEET[] =
    "M 09LD1234Example sheet         500Town plan                      010               "
    "  -1234   5678   -934   5978        1      4  1   -934   5678  -1234   5978         "
    "                                                                                    "
    "2408240700Plotter                       Approval 1                    100           "
    "Survey office                            -56  50   0   0   0  50 -56   0            "
    "H 2100 0   0   0 1    1    0    0    1    0    0    0    0    0    002408         0 "
    "E22101 0   0   1 2 02210 00   7   2      0      0        0       2408              1"
    "      0      0   1000      0   2000   -500   3000      0   4000      0   5000      0"
    "   6000      0unused text is not judged                                             ";

static const char INDEX[] = "I  9City survey office            000 0   0002008Regulation                    10   ";

enum {
    USED = 9 * ZV_RECORD_BYTES,
    BLOCK = 3 * ZV_RECORD_BYTES,
    ROOM = USED + BLOCK,
    LINES = 9 * ZV_LINE_RECORD_BYTES,
    /* The one layer is listed in one record, and one more closes the directory. */
    LISTED = USED + 2 * ZV_RECORD_BYTES
};

static int wrong = 0;

/* Prints what was asked and whether the answer is the expected one. */
static void check(const char *what, int right)
{
    printf("%s: %s\n", what, right ? "as expected" : "WRONG");
    if (!right)
        wrong = 1;
}

static void versions(void)
{
    printf("zv_version: %llu, header %d.%d.%d\n", (unsigned long long)zv_version(), ZV_VERSION_MAJOR, ZV_VERSION_MINOR, ZV_VERSION_PATCH);
    check("zv_version", zv_version() == ZV_VERSION);
}

static void columns(void)
{
    uint8_t column[4] = {'*', '*', '*', '*'};
    struct zv_number read = zv_read_column((const uint8_t *)"  12", 4);
    struct zv_length written = zv_write_column(column, 4, -12);
    printf("zv_read_column \"  12\": %lld\n", (long long)read.value);
    check("zv_read_column", read.refusal == ZV_ACCEPTED && read.at == 0 && read.value == 12);
    check("zv_read_column malformed", zv_read_column((const uint8_t *)"12  ", 4).refusal == ZV_MALFORMED);
    printf("zv_write_column -12: \"%.4s\"\n", (const char *)column);
    check("zv_write_column", written.refusal == ZV_ACCEPTED && written.length == 4 && memcmp(column, " -12", 4) == 0);
    written = zv_write_column(column, 4, 12345);
    check("zv_write_column too wide", written.refusal == ZV_NUMBER && memcmp(column, " -12", 4) == 0);
}

static void corners(void)
{
    struct zv_number joined = zv_join_corner(10, -1234, -56);
    struct zv_corner split = zv_split_corner(10, -50);
    printf("zv_join_corner 10 -1234 -56: %lld mm\n", (long long)joined.value);
    check("zv_join_corner", joined.refusal == ZV_ACCEPTED && joined.value == -1234560);
    check("zv_join_corner opposite signs", zv_join_corner(1, 12, -3).refusal == ZV_FRACTION);
    printf("zv_split_corner 10 -50: %lld and %lld\n", (long long)split.whole, (long long)split.fraction);
    check("zv_split_corner", split.refusal == ZV_ACCEPTED && split.whole == 0 && split.fraction == -5);
    check("zv_split_corner no pair", zv_split_corner(10, -55).refusal == ZV_NUMBER);
}

static void judging(uint8_t *buffer)
{
    struct zv_counts counts = zv_judge_sheet(buffer, ROOM, USED);
    const uint8_t *index = (const uint8_t *)INDEX;
    printf("zv_judge_sheet: %zu records %zu items\n", counts.records, counts.items);
    check("zv_judge_sheet", counts.refusal == ZV_ACCEPTED && counts.records == 9 && counts.items == 1);
    counts = zv_judge_sheet(buffer, ROOM, USED - ZV_RECORD_BYTES);
    printf("zv_judge_sheet without its last record: refused %llu at record %zu\n", (unsigned long long)counts.refusal, counts.at);
    check("zv_judge_sheet damaged", counts.refusal == ZV_MISSING_RECORD && counts.at == 7 && counts.records == 0);
    counts = zv_judge_index(index, ZV_RECORD_BYTES, ZV_RECORD_BYTES);
    check("zv_judge_index", counts.refusal == ZV_ACCEPTED && counts.records == 1 && counts.items == 0);
    counts = zv_judge_index(buffer, ROOM, USED);
    check("zv_judge_index of a sheet", counts.refusal == ZV_FILE_TYPE && counts.at == 1);
}

/* The sheet with line ends: written, judged and written back; then with the line feed of record 3 lost. */
static void line_ends(const uint8_t *buffer)
{
    static uint8_t lines[LINES], plain[USED];
    struct zv_length form = zv_to_lines(buffer, ROOM, USED, lines, sizeof lines);
    struct zv_counts counts = zv_judge_sheet_lines(lines, sizeof lines, form.length);
    printf("zv_to_lines: %zu bytes\n", form.length);
    check("zv_to_lines", form.refusal == ZV_ACCEPTED && form.length == LINES && memcmp(lines + ZV_RECORD_BYTES, "\r\n  -1234", 9) == 0);
    check("zv_to_lines no room", zv_to_lines(buffer, ROOM, USED, lines, LINES - 1).refusal == ZV_ROOM);
    check("zv_judge_sheet_lines", counts.refusal == ZV_ACCEPTED && counts.records == 9 && counts.items == 1);
    form = zv_from_lines(lines, sizeof lines, LINES, plain, sizeof plain);
    printf("zv_from_lines: %zu bytes\n", form.length);
    check("zv_from_lines", form.refusal == ZV_ACCEPTED && form.length == USED && memcmp(plain, SHEET, USED) == 0);
    lines[3 * ZV_LINE_RECORD_BYTES - 1] = ' ';
    counts = zv_judge_sheet_lines(lines, sizeof lines, LINES);
    printf("zv_judge_sheet_lines without a line feed: refused %llu at record %zu\n", (unsigned long long)counts.refusal, counts.at);
    check("zv_judge_sheet_lines damaged", counts.refusal == ZV_LINE_END && counts.at == 3 && counts.records == 0);
    form = zv_from_lines(lines, sizeof lines, LINES, plain, sizeof plain);
    check("zv_from_lines damaged", form.refusal == ZV_LINE_END && form.at == 3 && memcmp(plain, SHEET, USED) == 0);
    form = zv_to_lines((const uint8_t *)INDEX, ZV_RECORD_BYTES, ZV_RECORD_BYTES, lines, sizeof lines);
    counts = zv_judge_index_lines(lines, sizeof lines, form.length);
    check("zv_judge_index_lines", counts.refusal == ZV_ACCEPTED && counts.records == 1 && counts.items == 0);
    counts = zv_judge_index_lines(lines, sizeof lines, ZV_RECORD_BYTES);
    check("zv_judge_index_lines of a plain length", counts.refusal == ZV_LENGTH && counts.at == 0);
}

static void normal_forms(uint8_t *buffer)
{
    static uint8_t second[ROOM];
    struct zv_length form;
    memcpy(buffer + 5 * ZV_RECORD_BYTES + 18, "00001", 5);
    form = zv_normal_sheet(buffer, ROOM, USED, second, sizeof second);
    printf("zv_normal_sheet: %zu bytes\n", form.length);
    check("zv_normal_sheet", form.refusal == ZV_ACCEPTED && form.length == USED && memcmp(second, SHEET, USED) == 0);
    memcpy(buffer, SHEET, USED);
    form = zv_normal_index((const uint8_t *)INDEX, ZV_RECORD_BYTES, ZV_RECORD_BYTES, second, sizeof second);
    check("zv_normal_index", form.refusal == ZV_ACCEPTED && form.length == ZV_RECORD_BYTES && memcmp(second + 34, "  0", 3) == 0);
    form = zv_normal_sheet(buffer, ROOM, USED, second, USED - 1);
    check("zv_normal_sheet no room", form.refusal == ZV_ROOM && form.at == 0);
}

static void edits(uint8_t *buffer)
{
    const uint8_t *block = (const uint8_t *)SHEET + 6 * ZV_RECORD_BYTES;
    struct zv_length edited = zv_insert(buffer, ROOM, USED, 7, block, BLOCK);
    struct zv_counts counts = zv_judge_sheet(buffer, ROOM, edited.length);
    printf("zv_insert: %zu bytes, %zu items\n", edited.length, counts.items);
    check("zv_insert", edited.refusal == ZV_ACCEPTED && edited.length == ROOM && counts.records == 12 && counts.items == 2);
    check("zv_insert no room", zv_insert(buffer, ROOM, ROOM, 7, block, BLOCK).refusal == ZV_ROOM);
    edited = zv_remove(buffer, ROOM, ROOM, 10);
    printf("zv_remove: %zu bytes\n", edited.length);
    check("zv_remove", edited.refusal == ZV_ACCEPTED && edited.length == USED && memcmp(buffer, SHEET, USED) == 0);
    check("zv_remove at a header", zv_remove(buffer, ROOM, USED, 6).refusal == ZV_PLACE);
}

static void ways_up(const uint8_t *buffer)
{
    struct zv_way way = zv_way_up(buffer, ROOM, USED, 9);
    printf("zv_way_up from record 9: header %zu, %zu passed\n", way.header, way.passed);
    check("zv_way_up", way.refusal == ZV_ACCEPTED && way.header == 6 && way.passed == 1);
    way = zv_way_up(buffer, ROOM, USED, 6);
    check("zv_way_up of a layer", way.refusal == ZV_ACCEPTED && way.header == 0 && way.passed == 0);
    check("zv_way_up in the sheet part", zv_way_up(buffer, ROOM, USED, 5).refusal == ZV_RECORD_NUMBER);
}

/* The sheet with a directory of its one layer: appended, judged and used; then with a number in it that is no layer header. */
static void directories(const uint8_t *buffer)
{
    static uint8_t file[LISTED];
    struct zv_length appended;
    struct zv_counts counts;
    struct zv_layer layer;
    memcpy(file, buffer, USED);
    check("zv_append_directory no room", zv_append_directory(file, LISTED - 1, USED).refusal == ZV_ROOM);
    appended = zv_append_directory(file, LISTED, USED);
    printf("zv_append_directory: %zu bytes, \"%.17s\"\n", appended.length, (const char *)file + LISTED - ZV_RECORD_BYTES);
    check("zv_append_directory", appended.refusal == ZV_ACCEPTED && appended.length == LISTED && memcmp(file, SHEET, USED) == 0
          && memcmp(file + USED, "Z       6 ", 10) == 0 && memcmp(file + LISTED - ZV_RECORD_BYTES, "ZE     10      1 ", 17) == 0);
    counts = zv_judge_directory(file, LISTED, LISTED);
    printf("zv_judge_directory: %zu records %zu items\n", counts.records, counts.items);
    check("zv_judge_directory", counts.refusal == ZV_ACCEPTED && counts.records == 9 && counts.items == 1);
    counts = zv_judge_directory(file, LISTED, USED);
    check("zv_judge_directory of a sheet alone", counts.refusal == ZV_DIRECTORY && counts.at == 9 && counts.records == 0);
    counts = zv_judge_sheet(file, LISTED, LISTED);
    check("zv_judge_sheet with a directory", counts.refusal == ZV_RECORD_TYPE && counts.at == 10);
    layer = zv_jump(file, LISTED, LISTED, 1);
    printf("zv_jump to layer 1: record %zu\n", layer.header);
    check("zv_jump", layer.refusal == ZV_ACCEPTED && layer.at == 0 && layer.header == 6);
    check("zv_jump to no layer", zv_jump(file, LISTED, LISTED, 2).refusal == ZV_RECORD_NUMBER);
    zv_write_column(file + USED + 2, 7, 7);
    layer = zv_jump(file, LISTED, LISTED, 1);
    printf("zv_jump by a wrong directory: refused %llu at record %zu\n", (unsigned long long)layer.refusal, layer.at);
    check("zv_jump damaged", layer.refusal == ZV_DIRECTORY && layer.at == 10 && layer.header == 0);
}

/* A directory of edition 2 appended to the sheet, judged with it, and used to find the layer with its total and last record. */
static void second_edition(const uint8_t *buffer)
{
    static uint8_t file[LISTED];
    struct zv_length appended;
    struct zv_counts counts;
    struct zv_layer_entry layer;
    memcpy(file, buffer, USED);
    appended = zv_append_second_edition(file, LISTED, USED);
    printf("zv_append_second_edition: %zu bytes, \"%.24s\"\n", appended.length, (const char *)file + LISTED - ZV_RECORD_BYTES);
    check("zv_append_second_edition", appended.refusal == ZV_ACCEPTED && appended.length == LISTED && memcmp(file, SHEET, USED) == 0
          && memcmp(file + USED, "Y       6      1      9 ", 24) == 0
          && memcmp(file + LISTED - ZV_RECORD_BYTES, "YE     10      1      2 ", 24) == 0);
    counts = zv_judge_either_edition(file, LISTED, LISTED);
    printf("zv_judge_either_edition: %zu records %zu items\n", counts.records, counts.items);
    check("zv_judge_either_edition", counts.refusal == ZV_ACCEPTED && counts.records == 9 && counts.items == 1);
    counts = zv_judge_directory(file, LISTED, LISTED);
    check("zv_judge_directory of edition 2", counts.refusal == ZV_DIRECTORY && counts.at == 11);
    layer = zv_jump_either_edition(file, LISTED, LISTED, 1);
    printf("zv_jump_either_edition to layer 1: record %zu, total %zu, last %zu\n", layer.header, layer.total, layer.last);
    check("zv_jump_either_edition", layer.refusal == ZV_ACCEPTED && layer.header == 6 && layer.total == 1 && layer.last == 9);
    zv_write_column(file + LISTED - ZV_RECORD_BYTES + 16, 7, 3);
    layer = zv_jump_either_edition(file, LISTED, LISTED, 1);
    printf("zv_jump_either_edition in edition 3: refused %llu at record %zu\n", (unsigned long long)layer.refusal, layer.at);
    check("zv_jump_either_edition in edition 3", layer.refusal == ZV_EDITION && layer.at == 11 && layer.header == 0);
    zv_append_directory(file, LISTED, USED);
    layer = zv_jump_either_edition(file, LISTED, LISTED, 1);
    check("zv_jump_either_edition in edition 1", layer.refusal == ZV_ACCEPTED && layer.header == 6 && layer.total == 0 && layer.last == 0);
}

static void report_line(const uint8_t *buffer)
{
    uint8_t line[ZV_LINE_BYTES];
    struct zv_length put = zv_report(buffer, USED, line, sizeof line);
    printf("zv_report: %.*s", (int)put.length, (const char *)line);
    check("zv_report", put.refusal == ZV_ACCEPTED && put.length == 27 && memcmp(line, "accepted 9 records 1 items\n", 27) == 0);
    check("zv_report without room", zv_report(buffer, USED, line, 26).refusal == ZV_ROOM);
}

static void refusal_texts(void)
{
    uint8_t words[ZV_TEXT_BYTES];
    struct zv_length put = zv_refusal_text(ZV_MALFORMED, words, sizeof words);
    printf("zv_refusal_text 5: %.*s\n", (int)put.length, (const char *)words);
    check("zv_refusal_text", put.refusal == ZV_ACCEPTED && put.length == 30 && memcmp(words, "an integer column is malformed", 30) == 0);
    check("zv_refusal_text without room", zv_refusal_text(ZV_MALFORMED, words, 29).refusal == ZV_ROOM);
    check("zv_refusal_text of no refusal", zv_refusal_text(ZV_ACCEPTED, words, sizeof words).refusal == ZV_NUMBER);
}

/* The columns of a layout, from 1 until there is none. */
static void layout_columns(void)
{
    uint8_t name[ZV_NAME_BYTES];
    struct zv_column shift = zv_layout_column(ZV_ELEMENT, 11);
    struct zv_length put = zv_column_name(ZV_ELEMENT, 11, name, sizeof name);
    size_t end = 0, number = 1;
    struct zv_column column;
    for (column = zv_layout_column(ZV_ELEMENT, 1); column.refusal == ZV_ACCEPTED; column = zv_layout_column(ZV_ELEMENT, ++number))
        end = column.start + column.width;
    printf("zv_layout_column: an element has %zu columns, %zu bytes\n", number - 1, end);
    printf("zv_column_name: column 11 is the %.*s, bytes %zu to %zu, from %lld to %lld\n", (int)put.length, (const char *)name, shift.start + 1,
           shift.start + shift.width, (long long)shift.least, (long long)shift.greatest);
    check("zv_layout_column", shift.refusal == ZV_ACCEPTED && shift.start == 24 && shift.width == 2 && shift.content == ZV_INTEGER
          && shift.least == -9 && shift.greatest == 9 && number == 25 && end == ZV_RECORD_BYTES);
    check("zv_layout_column of no layout", zv_layout_column(20, 1).refusal == ZV_NUMBER);
    check("zv_column_name", put.refusal == ZV_ACCEPTED && put.length == 5 && memcmp(name, "shift", 5) == 0);
    check("zv_column_name without room", zv_column_name(ZV_ELEMENT, 11, name, 4).refusal == ZV_ROOM);
}

/* Reads a file into a buffer; answers its bytes, or -1 where it cannot be read. */
static long read_file(const char *name, uint8_t *buffer, size_t room)
{
    long used = -1;
    FILE *file = fopen(name, "rb");
    if (file) {
        size_t got = fread(buffer, 1, room, file);
        if (!ferror(file))
            used = (long)got;
        fclose(file);
    }
    return used;
}

/* What judging answered, a refusal in words; the record where it names one. */
static void print_counts(struct zv_counts counts)
{
    uint8_t words[ZV_TEXT_BYTES];
    struct zv_length put = zv_refusal_text(counts.refusal, words, sizeof words);
    if (counts.refusal == ZV_ACCEPTED)
        printf("accepted %zu records %zu items\n", counts.records, counts.items);
    else if (counts.at == 0)
        printf("refused %llu: %.*s\n", (unsigned long long)counts.refusal, (int)put.length, (const char *)words);
    else
        printf("refused %llu at record %zu: %.*s\n", (unsigned long long)counts.refusal, counts.at, (int)put.length, (const char *)words);
}

/* Judges a file as the program does: an index if it starts "I ", else a sheet. */
static int judge_file(const char *name)
{
    /* One record more than a file may have, so that a longer file shows. */
    static uint8_t buffer[(size_t)ZV_RECORD_BYTES * (ZV_MOST_RECORDS + 1)];
    struct zv_counts counts;
    long used = read_file(name, buffer, sizeof buffer);
    if (used < 0) {
        fprintf(stderr, "example: %s cannot be read\n", name);
        return 2;
    }
    if (used >= 2 && memcmp(buffer, "I ", 2) == 0)
        counts = zv_judge_index(buffer, sizeof buffer, (size_t)used);
    else
        counts = zv_judge_sheet(buffer, sizeof buffer, (size_t)used);
    print_counts(counts);
    return counts.refusal == ZV_ACCEPTED ? 0 : 1;
}

int main(int argc, char **argv)
{
    static uint8_t buffer[ROOM];
    if (argc == 2)
        return judge_file(argv[1]);
    memset(buffer, ' ', sizeof buffer);
    memcpy(buffer, SHEET, USED);
    versions();
    columns();
    corners();
    judging(buffer);
    line_ends(buffer);
    normal_forms(buffer);
    edits(buffer);
    ways_up(buffer);
    directories(buffer);
    second_edition(buffer);
    report_line(buffer);
    refusal_texts();
    layout_columns();
    printf(wrong ? "wrong answers\n" : "all as expected\n");
    return wrong;
}
