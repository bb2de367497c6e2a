/* Reading a plan of 4,096 arrivals: the proved reader beside a plain C loop that does the same, in one run, turn by turn. Prints the
   shortest turn of each in nanoseconds, and their ratio. Given --equal and plans, sees that both answer the same number to each. */
#include <stdint.h>
#include <stdio.h>
#include <stdlib.h>
#include <string.h>
#include <time.h>

#include "zeppilorn.h"

static uint32_t proved_number(const uint8_t *plan, size_t size)
{
    uint32_t fields[8];
    return zeppilorn_read_plan(plan, size, fields);
}

static uint32_t word(const uint8_t *p)
{
    return (uint32_t)p[0] | (uint32_t)p[1] << 8 | (uint32_t)p[2] << 16 | (uint32_t)p[3] << 24;
}

__attribute__((noinline)) static uint32_t plain_number(const uint8_t *plan, size_t size)
{
    if (size < 40 || size > 65536 || size % 4 || word(plan) != size)
        return 13;
    uint32_t sum = 0;
    for (size_t i = 0; i < size; i += 4)
        sum += word(plan + i);
    if (sum)
        return 14;
    size_t c = word(plan + 12), k = word(plan + 20), a = word(plan + 28), start = 40 + 4 * c + 16 * k;
    if (c > 8 || k > 32 || a > 4096 || word(plan + 16) != 40 || word(plan + 24) != 40 + 4 * c ||
        word(plan + 32) != start || size != start + 12 * a)
        return 15;
    uint32_t low = 0;
    for (size_t i = 0; i < a; i++) {
        uint32_t slot = word(plan + start + 12 * i);
        if (slot < low || slot > 1000000)
            return 16;
        low = slot;
    }
    return 0;
}

static double turn(uint32_t (*number)(const uint8_t *, size_t), const uint8_t *plan, size_t size)
{
    struct timespec a, b;
    uint32_t all = 0;
    clock_gettime(CLOCK_MONOTONIC, &a);
    for (int i = 0; i < 100; i++) {
        all |= number(plan, size);
        __asm__ volatile("" ::: "memory"); /* the plan may have changed: each turn reads it anew */
    }
    clock_gettime(CLOCK_MONOTONIC, &b);
    if (all)
        exit(1);
    return ((b.tv_sec - a.tv_sec) * 1e9 + (b.tv_nsec - a.tv_nsec)) / 100;
}

static uint8_t plan[70000];

static size_t load(const char *path)
{
    FILE *f = fopen(path, "rb");
    if (!f) {
        fprintf(stderr, "%s: cannot be read\n", path);
        exit(2);
    }
    size_t size = fread(plan, 1, sizeof plan, f);
    fclose(f);
    return size;
}

static int compare(int count, char **paths)
{
    for (int i = 0; i < count; i++) {
        size_t size = load(paths[i]);
        uint32_t proved = proved_number(plan, size), plain = plain_number(plan, size);
        if (proved != plain) {
            fprintf(stderr, "%s: proved %u, plain C %u\n", paths[i], proved, plain);
            return 1;
        }
    }
    printf("plan reader: the same numbers on %d plans\n", count);
    return 0;
}

int main(int argc, char **argv)
{
    if (argc > 2 && !strcmp(argv[1], "--equal"))
        return compare(argc - 2, argv + 2);
    if (argc != 2)
        return 2;
    size_t size = load(argv[1]);
    double proved = 1e18, plain = 1e18;
    for (int i = 0; i < 2000; i++) {
        double t = turn(proved_number, plan, size);
        proved = t < proved ? t : proved;
        t = turn(plain_number, plan, size);
        plain = t < plain ? t : plain;
    }
    printf("%zu bytes: proved %.0f ns, plain C %.0f ns, ratio %.2f\n", size, proved, plain, proved / plain);
    return 0;
}
