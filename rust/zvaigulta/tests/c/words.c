/*
 * Every refusal's words and every layout's columns, as the library answers them, one to a line, with what lies around them: numbers that are
 * none, layouts and columns that are not there. Each text is also put into a buffer of just its length, and into one a byte shorter.
 */
#include "zvaigulta.h"

#include <stdio.h>
#include <string.h>

enum { ROOM = 128 };

static uint8_t out[ROOM];

/* Whether the bytes of the buffer from some place on are as `fresh` left them. */
static int untouched_from(size_t from)
{
    int same = 1;
    size_t i;
    for (i = from; i < ROOM; i++)
        same &= out[i] == '*';
    return same;
}

static void fresh(void)
{
    memset(out, '*', ROOM);
}

/* The text of an answer, and whether the bytes behind it are as they were. */
static void print_text(struct zv_length put)
{
    printf(" %llu %zu %zu %d [%.*s]", (unsigned long long)put.refusal, put.at, put.length, untouched_from(put.length), (int)put.length,
           (const char *)out);
}

static void refusal(uint64_t number)
{
    struct zv_length put, exact, tight;
    fresh();
    put = zv_refusal_text(number, out, ROOM);
    printf("refusal %llu", (unsigned long long)number);
    print_text(put);
    exact = zv_refusal_text(number, out, put.length);
    fresh();
    tight = zv_refusal_text(number, out, put.length == 0 ? 0 : put.length - 1);
    printf(" exact %llu tight %llu %d\n", (unsigned long long)exact.refusal, (unsigned long long)tight.refusal, untouched_from(0));
}

static void column(size_t layout, size_t number)
{
    struct zv_column c = zv_layout_column(layout, number);
    struct zv_length put, tight;
    printf("column %zu %zu %llu %zu %zu %zu %llu %lld %lld", layout, number, (unsigned long long)c.refusal, c.at, c.start, c.width,
           (unsigned long long)c.content, (long long)c.least, (long long)c.greatest);
    fresh();
    put = zv_column_name(layout, number, out, ROOM);
    print_text(put);
    fresh();
    tight = zv_column_name(layout, number, out, put.length == 0 ? 0 : put.length - 1);
    printf(" tight %llu %d\n", (unsigned long long)tight.refusal, untouched_from(0));
}

int main(void)
{
    size_t layout, number;
    uint64_t n;
    for (n = 0; n <= 40; n++)
        refusal(n);
    refusal(256 + 5);
    refusal((UINT64_C(1) << 32) + 5);
    refusal(UINT64_MAX);
    for (layout = 0; layout <= 21; layout++)
        for (number = 0; number <= 30; number++)
            column(layout, number);
    column((size_t)-1, 1);
    column(1, (size_t)-1);
    column(1, ((size_t)-1) / 45 + 2);
    column(256 + 1, 1);
    return 0;
}
