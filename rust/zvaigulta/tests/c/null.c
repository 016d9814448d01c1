/*
 * A null pointer with the length 0, at every pointer of every call: the answer is that of an empty buffer that is there, and the buffer that
 * goes with it is left in the same state. The word is a file with an accepted sheet, so that the calls come to use every pointer. Prints a
 * line for each call and pointer.
 */
#include "zvaigulta.h"

#include <stdio.h>
#include <string.h>

enum { ROOM = 12 * ZV_RECORD_BYTES };

/* An accepted index. */
static const uint8_t *const INDEX = (const uint8_t *)"I  9City survey office            000 0   0002008Regulation                    10   ";

static uint8_t sheet[ROOM], lines[ROOM], second[ROOM], held[ROOM];
static size_t used, lines_used;

static void fresh(void)
{
    memcpy(second, sheet, ROOM);
}

/* Keeps the second buffer as the call with an empty buffer left it, for `same` to compare with. */
static void keep(void)
{
    memcpy(held, second, ROOM);
    fresh();
}

/* Two answers, struct for struct, and the second buffer after each. */
static void same(const char *what, const void *empty, const void *null, size_t size)
{
    int right = memcmp(empty, null, size) == 0 && memcmp(held, second, ROOM) == 0;
    printf("%s: %s\n", what, right ? "the same" : "DIFFERENT");
}

/* An answer to an empty buffer, and the answer to a null pointer. */
#define BOTH(type, what, empty, null) \
    do { \
        struct type a, b; \
        fresh(); \
        a = empty; \
        keep(); \
        b = null; \
        same(what, &a, &b, sizeof a); \
    } while (0)

static int read_sheet(const char *name)
{
    FILE *file = fopen(name, "rb");
    if (!file)
        return 0;
    used = fread(sheet, 1, ROOM, file);
    fclose(file);
    lines_used = zv_to_lines(sheet, ROOM, used, lines, ROOM).length;
    return zv_judge_sheet(sheet, ROOM, used).refusal == ZV_ACCEPTED && zv_judge_index(INDEX, 84, 84).refusal == ZV_ACCEPTED;
}

/* Every call with a null pointer; the used length of a buffer that is null may be any number. */
static void every_pointer(size_t any)
{
    static uint8_t none[1];
    const size_t data = 6 * ZV_RECORD_BYTES;
    BOTH(zv_number, "zv_read_column column", zv_read_column(none, 0), zv_read_column(NULL, 0));
    BOTH(zv_length, "zv_write_column column", zv_write_column(none, 0, 7), zv_write_column(NULL, 0, 7));
    BOTH(zv_counts, "zv_judge_sheet buffer", zv_judge_sheet(none, 0, any), zv_judge_sheet(NULL, 0, any));
    BOTH(zv_counts, "zv_judge_index buffer", zv_judge_index(none, 0, any), zv_judge_index(NULL, 0, any));
    BOTH(zv_counts, "zv_judge_sheet_lines buffer", zv_judge_sheet_lines(none, 0, any), zv_judge_sheet_lines(NULL, 0, any));
    BOTH(zv_counts, "zv_judge_index_lines buffer", zv_judge_index_lines(none, 0, any), zv_judge_index_lines(NULL, 0, any));
    BOTH(zv_length, "zv_to_lines buffer", zv_to_lines(none, 0, any, second, ROOM), zv_to_lines(NULL, 0, any, second, ROOM));
    BOTH(zv_length, "zv_to_lines target", zv_to_lines(sheet, ROOM, used, none, 0), zv_to_lines(sheet, ROOM, used, NULL, 0));
    BOTH(zv_length, "zv_from_lines buffer", zv_from_lines(none, 0, any, second, ROOM), zv_from_lines(NULL, 0, any, second, ROOM));
    BOTH(zv_length, "zv_from_lines target", zv_from_lines(lines, ROOM, lines_used, none, 0), zv_from_lines(lines, ROOM, lines_used, NULL, 0));
    BOTH(zv_length, "zv_normal_sheet buffer", zv_normal_sheet(none, 0, any, second, ROOM), zv_normal_sheet(NULL, 0, any, second, ROOM));
    BOTH(zv_length, "zv_normal_sheet second", zv_normal_sheet(sheet, ROOM, used, none, 0), zv_normal_sheet(sheet, ROOM, used, NULL, 0));
    BOTH(zv_length, "zv_normal_index buffer", zv_normal_index(none, 0, any, second, ROOM), zv_normal_index(NULL, 0, any, second, ROOM));
    BOTH(zv_length, "zv_normal_index second", zv_normal_index(INDEX, 84, 84, none, 0), zv_normal_index(INDEX, 84, 84, NULL, 0));
    BOTH(zv_length, "zv_insert buffer", zv_insert(none, 0, any, 1, sheet + data, 84), zv_insert(NULL, 0, any, 1, sheet + data, 84));
    BOTH(zv_length, "zv_insert block", zv_insert(second, ROOM, used, 7, none, 0), zv_insert(second, ROOM, used, 7, NULL, 0));
    BOTH(zv_length, "zv_remove buffer", zv_remove(none, 0, any, 1), zv_remove(NULL, 0, any, 1));
    BOTH(zv_way, "zv_way_up buffer", zv_way_up(none, 0, any, 1), zv_way_up(NULL, 0, any, 1));
    BOTH(zv_counts, "zv_judge_directory buffer", zv_judge_directory(none, 0, any), zv_judge_directory(NULL, 0, any));
    BOTH(zv_length, "zv_append_directory buffer", zv_append_directory(none, 0, any), zv_append_directory(NULL, 0, any));
    BOTH(zv_layer, "zv_jump buffer", zv_jump(none, 0, any, 1), zv_jump(NULL, 0, any, 1));
    BOTH(zv_counts, "zv_judge_either_edition buffer", zv_judge_either_edition(none, 0, any), zv_judge_either_edition(NULL, 0, any));
    BOTH(zv_length, "zv_append_second_edition buffer", zv_append_second_edition(none, 0, any), zv_append_second_edition(NULL, 0, any));
    BOTH(zv_layer_entry, "zv_jump_either_edition buffer", zv_jump_either_edition(none, 0, any, 1), zv_jump_either_edition(NULL, 0, any, 1));
    BOTH(zv_length, "zv_report input", zv_report(none, 0, second, ROOM), zv_report(NULL, 0, second, ROOM));
    BOTH(zv_length, "zv_report out", zv_report(sheet, used, none, 0), zv_report(sheet, used, NULL, 0));
    BOTH(zv_length, "zv_refusal_text out", zv_refusal_text(1, none, 0), zv_refusal_text(1, NULL, 0));
    BOTH(zv_length, "zv_column_name out", zv_column_name(1, 1, none, 0), zv_column_name(1, 1, NULL, 0));
    /* A blank's name is empty, and has room in a buffer of 0. */
    BOTH(zv_length, "zv_column_name out", zv_column_name(1, 13, none, 0), zv_column_name(1, 13, NULL, 0));
}

int main(int argc, char **argv)
{
    if (argc != 2 || !read_sheet(argv[1]))
        return 2;
    every_pointer(0);
    every_pointer(ZV_RECORD_BYTES);
    every_pointer(ZV_LINE_RECORD_BYTES);
    every_pointer((size_t)-1);
    return 0;
}
