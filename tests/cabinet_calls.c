/*
 * Each function of include/zeppilorn.h, called through its declaration: what is proved of the library says nothing of the header, so this
 * sees that names, order and widths of the arguments are the same in both. The numbers are those of document 01's worked run.
 */
#include <stdio.h>
#include <stdlib.h>
#include <string.h>

#include "zeppilorn.h"

enum { N = ZEPPILORN_BOX_WORDS };

static uint32_t words[N + 1];
static const uint32_t factors[] = {1, 2};
static const uint32_t connections[] = {1, 1, 1, 4, 2, 3, 1, 8};
static const uint32_t arrivals[] = {0, 2, 3, 1, 1, 1, 2, 1, 1, 5, 1, 1, 8, 2, 2};
static const uint32_t plan_words[] = {140, 4, 8, 2, 40, 2, 48, 5, 80, 4294966912u, 1, 2, 1, 1, 1, 4, 2, 3, 1, 8,
                                      0, 2, 3, 1, 1, 1, 2, 1, 1, 5, 1, 1, 8, 2, 2};

/* A result and its fields are those expected. */
static void expect(const char *call, uint32_t answer, uint32_t expected, const uint32_t *fields, const uint32_t *values, size_t n)
{
    size_t i;

    if (answer != expected) {
        fprintf(stderr, "%s answered %u, not %u\n", call, (unsigned)answer, (unsigned)expected);
        exit(1);
    }
    for (i = 0; i < n; i++)
        if (fields[i] != values[i]) {
            fprintf(stderr, "%s: field %u is %u, not %u\n", call, (unsigned)i, (unsigned)fields[i], (unsigned)values[i]);
            exit(1);
        }
}

/* Fields that hold something else before each call. */
static uint32_t *stale(void)
{
    static uint32_t fields[8];

    memset(fields, 0xff, sizeof fields);
    return fields;
}

#define EXPECT(call, answer, ...) \
    do { \
        const uint32_t values[] = {__VA_ARGS__}; \
        uint32_t *f = stale(); \
        uint32_t got = call; \
        expect(#call, got, answer, f, values, sizeof values / sizeof values[0]); \
    } while (0)

static void boxes(void)
{
    if (zeppilorn_box_words() != N)
        expect("zeppilorn_box_words()", 1, 0, NULL, NULL, 0);
    words[N] = 7;
    expect("open, D 0", zeppilorn_open(words, N, 0, 8, factors, 2), 2, NULL, NULL, 0);
    expect("open, a word short", zeppilorn_open(words, N - 1, 4, 8, factors, 2), 17, NULL, NULL, 0);
    expect("is_sound, nothing opened", zeppilorn_is_sound(words, N), 1, NULL, NULL, 0);
    EXPECT(zeppilorn_admit(words, N, 1, 1, 1, 4, f), 1, 0, 0);
    expect("open", zeppilorn_open(words, N + 1, 4, 8, factors, 2), 0, NULL, NULL, 0);
    expect("is_sound", zeppilorn_is_sound(words, N), 0, NULL, NULL, 0);
    EXPECT(zeppilorn_admit(words, N, 1, 1, 1, 3, f), 3, 0, 0);
    EXPECT(zeppilorn_admit(words, N, 1, 5, 1, 8, f), 6, 0, 4);
    EXPECT(zeppilorn_admit(words, N, 1, 1, 1, 4, f), 0, 1, 0);
    EXPECT(zeppilorn_admit(words, N, 2, 3, 1, 8, f), 0, 2, 0);
    EXPECT(zeppilorn_step(words, N, f), 0, 0, 0, 0, 0, 0);
    EXPECT(zeppilorn_offer(words, N, 3, 1, f), 7, 0);
    EXPECT(zeppilorn_offer(words, N, 2, 2, f), 0, 1);
    EXPECT(zeppilorn_offer(words, N, 2, 1, f), 9, 0);
    EXPECT(zeppilorn_step(words, N, f), 0, 1, 1, 0, 0, 0);
    EXPECT(zeppilorn_step(words, N, f), 0, 1, 0, 2, 1, 3);
    EXPECT(zeppilorn_step(words, N - 1, f), 1, 0, 0, 0, 0, 0);
    expect("a word beyond the box", words[N], 7, NULL, NULL, 0);
}

/* The stretch of a slot, from an entry on. */
static void expect_stretch(const uint8_t *table, size_t from, uint32_t slot, size_t first, size_t size)
{
    size_t fields[2] = {9, 9};
    uint32_t answer = zeppilorn_slot_arrivals(table, 60, from, slot, fields);

    if (answer != 0 || fields[0] != first || fields[1] != size) {
        fprintf(stderr, "zeppilorn_slot_arrivals from %u, slot %u: %u, %u, %u\n", (unsigned)from, (unsigned)slot, (unsigned)answer,
                (unsigned)fields[0], (unsigned)fields[1]);
        exit(1);
    }
}

static void plans(void)
{
    static uint8_t plan[141];
    size_t i;

    plan[140] = 7;
    EXPECT(zeppilorn_write_plan(4, 8, factors, 2, connections, 7, arrivals, 15, plan, 140, f), 15, 0);
    EXPECT(zeppilorn_write_plan(4, 8, factors, 2, connections, 8, arrivals, 15, plan, 139, f), 17, 0);
    EXPECT(zeppilorn_write_plan(4, 8, factors, 2, connections, 8, arrivals, 15, plan, 141, f), 0, 140);
    for (i = 0; i < 140; i++)
        expect("a byte of the plan", plan[i], (plan_words[i / 4] >> (8 * (i % 4))) & 255, NULL, NULL, 0);
    expect("the byte beyond the plan", plan[140], 7, NULL, NULL, 0);
    EXPECT(zeppilorn_read_plan(plan, 140, f), 0, 4, 8, 2, 40, 2, 48, 5, 80);
    EXPECT(zeppilorn_read_plan(plan, 136, f), 13, 0, 0, 0, 0, 0, 0, 0, 0);
    EXPECT(zeppilorn_factor(plan + 40, 8, 1, f), 0, 2);
    EXPECT(zeppilorn_factor(plan + 40, 8, 2, f), 0, 0);
    EXPECT(zeppilorn_connection(plan + 48, 32, 1, f), 0, 2, 3, 1, 8);
    EXPECT(zeppilorn_arrival(plan + 80, 60, 4, f), 0, 8, 2, 2);
    EXPECT(zeppilorn_arrival(plan + 80, 60, 5, f), 0, 0, 0, 0);
    expect_stretch(plan + 80, 0, 0, 0, 12);
    expect_stretch(plan + 80, 2, 5, 36, 12);
    expect_stretch(plan + 80, 0, 3, 0, 0);
    expect_stretch(plan + 80, 9, 8, 0, 0);
}

/* A plan that is refused, and a buffer that is one byte too short. */
static void runs(void)
{
    static uint8_t text[ZEPPILORN_TEXT_BYTES];
    static const char refused[] = "REFUSED 13\n";

    text[0] = text[11] = 7;
    EXPECT(zeppilorn_run_plan((const uint8_t *)"", 0, text, ZEPPILORN_TEXT_BYTES - 1, f), 17, 0);
    expect("the text of a run that is refused", text[0], 7, NULL, NULL, 0);
    EXPECT(zeppilorn_run_plan((const uint8_t *)"", 0, text, ZEPPILORN_TEXT_BYTES, f), 0, 11);
    expect("the line of a refused plan", (uint32_t)memcmp(text, refused, 11), 0, NULL, NULL, 0);
    expect("the byte beyond the text", text[11], 7, NULL, NULL, 0);
}

int main(void)
{
    boxes();
    plans();
    runs();
    return 0;
}
