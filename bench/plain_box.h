/* The public calls twice over: the proved ones, and plain C that does the same on the same words. Each gives 0 for success. */
#include <stddef.h>
#include <stdint.h>
#include <stdio.h>
#include <stdlib.h>
#include <string.h>
#include <time.h>

#include "zeppilorn.h"

enum { WORDS = 4371 };

/* The proved calls, without the fields of their answers. */
static inline uint32_t box_open(uint32_t *ws, size_t n, uint32_t d, uint32_t m, const uint32_t *factors, size_t count)
{
    return zeppilorn_open(ws, n, d, m, factors, count);
}

static inline uint32_t box_sound(const uint32_t *ws, size_t n) { return zeppilorn_is_sound(ws, n); }

static inline uint32_t box_admit(uint32_t *ws, size_t n, uint32_t class, uint32_t longest, uint32_t burst, uint32_t period)
{
    uint32_t fields[2];
    return zeppilorn_admit(ws, n, class, longest, burst, period, fields);
}

static inline uint32_t box_offer(uint32_t *ws, size_t n, uint32_t connection, uint32_t units)
{
    uint32_t fields[1];
    return zeppilorn_offer(ws, n, connection, units, fields);
}

static inline uint32_t box_step(uint32_t *ws, size_t n)
{
    uint32_t fields[5];
    return zeppilorn_step(ws, n, fields);
}

uint32_t plain_sound(const uint32_t *ws, size_t n);
uint32_t plain_admit(uint32_t *ws, size_t n, uint32_t class, uint32_t longest, uint32_t burst, uint32_t period);
uint32_t plain_offer(uint32_t *ws, size_t n, uint32_t connection, uint32_t units);
uint32_t plain_step(uint32_t *ws, size_t n);

static inline double now(void)
{
    struct timespec t;
    clock_gettime(CLOCK_MONOTONIC, &t);
    return t.tv_sec * 1e9 + t.tv_nsec;
}

/* Whether the program is only to see that the results are equal, and to time nothing. */
static inline int only_equal(int argc, char **argv) { return argc > 1 && !strcmp(argv[1], "--equal"); }

static inline void must(int holds, const char *what)
{
    if (!holds) {
        fprintf(stderr, "%s\n", what);
        exit(1);
    }
}
