/* Here: the functions of include/zeppilorn.h, each of which has its call made there: PROGRAM is that process, and RUNNER starts it. */
#define _GNU_SOURCE
#include <fcntl.h>
#include <stdio.h>
#include <stdlib.h>
#include <string.h>
#include <sys/mman.h>
#include <unistd.h>

#include "far.h"
#include "zeppilorn.h"

static struct far *far;
static int asks, answers;

static void must(int holds, const char *what)
{
    if (!holds) {
        fprintf(stderr, "far: %s\n", what);
        exit(2);
    }
}

static void start(void)
{
    int fd = memfd_create("far", 0);
    must(fd >= 0 && ftruncate(fd, sizeof *far) == 0, "no shared memory");
    far = mmap(0, sizeof *far, PROT_READ | PROT_WRITE, MAP_SHARED, fd, 0);
    must(far != MAP_FAILED, "no shared memory");
    int there[2], back[2];
    must(pipe2(there, O_CLOEXEC) == 0 && pipe2(back, O_CLOEXEC) == 0, "no pipe");
    asks = there[1];
    answers = back[0];
    char text[16];
    snprintf(text, sizeof text, "%d", fd);
    pid_t child = fork();
    must(child >= 0, "no process");
    if (child == 0) {
        dup2(there[0], 0);
        dup2(back[1], 1);
        execl(RUNNER, RUNNER, PROGRAM, text, (char *)0);
        _exit(2);
    }
    close(there[0]);
    close(back[1]);
}

/* What is lent to a call: `altered` where the call may change it. */
struct lent {
    void *at;
    size_t size;
    int altered;
};

#define TO_READ(at, count) {(void *)(at), (count) * sizeof *(at), 0}
#define TO_CHANGE(at, count) {(at), (count) * sizeof *(at), 1}

static int gap_stands(size_t at)
{
    for (size_t i = 0; i < GAP; i++)
        if (far->bytes[at + i] != (uint8_t)(0xA5 ^ i))
            return 0;
    return 1;
}

static size_t put_gap(size_t at)
{
    for (size_t i = 0; i < GAP; i++)
        far->bytes[at + i] = (uint8_t)(0xA5 ^ i);
    return at + GAP;
}

/* Puts what is lent into the shared memory, aligned for words. */
static void send(const struct lent *lent, int count)
{
    size_t at = 0;
    for (int i = 0; i < count; i++) {
        must(at + lent[i].size + 2 * GAP <= ROOM, "too much is lent");
        at = put_gap(at);
        far->start[i] = at;
        far->size[i] = lent[i].size;
        memcpy(far->bytes + at, lent[i].at, lent[i].size);
        at = put_gap(at + lent[i].size);
        at += -at % 16;
    }
}

static void receive(const struct lent *lent, int count)
{
    for (int i = 0; i < count; i++) {
        const uint8_t *now = far->bytes + far->start[i];
        must(gap_stands(far->start[i] - GAP) && gap_stands(far->start[i] + lent[i].size), "a call wrote beside what was lent");
        if (lent[i].altered)
            memcpy(lent[i].at, now, lent[i].size);
        else
            must(lent[i].size == 0 || !memcmp(lent[i].at, now, lent[i].size), "a call changed what it may only read");
    }
}

static uint64_t call(enum function function, const uint64_t numbers[MOST_NUMBERS], const struct lent *lent, int count)
{
    if (!far)
        start();
    far->function = function;
    memcpy(far->numbers, numbers, sizeof far->numbers);
    send(lent, count);
    char byte = 0;
    must(write(asks, &byte, 1) == 1 && read(answers, &byte, 1) == 1, "the other process ended");
    receive(lent, count);
    return far->answer;
}

#define NUMBERS(...) ((const uint64_t[MOST_NUMBERS]){__VA_ARGS__})
#define CALL(function, numbers, ...) \
    call(function, numbers, (const struct lent[]){__VA_ARGS__}, sizeof((const struct lent[]){__VA_ARGS__}) / sizeof(struct lent))

size_t zeppilorn_box_words(void) { return call(BOX_WORDS, NUMBERS(0), 0, 0); }

uint32_t zeppilorn_open(uint32_t *words, size_t count, uint32_t interval, uint32_t cycle, const uint32_t *factors, size_t classes)
{
    return CALL(OPEN, NUMBERS(interval, cycle), TO_CHANGE(words, count), TO_READ(factors, classes));
}

uint32_t zeppilorn_is_sound(const uint32_t *words, size_t count) { return CALL(IS_SOUND, NUMBERS(0), TO_READ(words, count)); }

uint32_t zeppilorn_admit(uint32_t *words, size_t count, uint32_t class_number, uint32_t longest, uint32_t burst, uint32_t period,
                         uint32_t fields[2])
{
    return CALL(ADMIT, NUMBERS(class_number, longest, burst, period), TO_CHANGE(words, count), TO_CHANGE(fields, 2));
}

uint32_t zeppilorn_offer(uint32_t *words, size_t count, uint32_t connection, uint32_t units, uint32_t fields[1])
{
    return CALL(OFFER, NUMBERS(connection, units), TO_CHANGE(words, count), TO_CHANGE(fields, 1));
}

uint32_t zeppilorn_step(uint32_t *words, size_t count, uint32_t fields[5])
{
    return CALL(STEP, NUMBERS(0), TO_CHANGE(words, count), TO_CHANGE(fields, 5));
}

uint32_t zeppilorn_read_plan(const uint8_t *plan, size_t size, uint32_t fields[8])
{
    return CALL(READ_PLAN, NUMBERS(0), TO_READ(plan, size), TO_CHANGE(fields, 8));
}

uint32_t zeppilorn_factor(const uint8_t *classes, size_t size, size_t place, uint32_t fields[1])
{
    return CALL(FACTOR, NUMBERS(place), TO_READ(classes, size), TO_CHANGE(fields, 1));
}

uint32_t zeppilorn_connection(const uint8_t *connections, size_t size, size_t place, uint32_t fields[4])
{
    return CALL(CONNECTION, NUMBERS(place), TO_READ(connections, size), TO_CHANGE(fields, 4));
}

uint32_t zeppilorn_arrival(const uint8_t *arrivals, size_t size, size_t place, uint32_t fields[3])
{
    return CALL(ARRIVAL, NUMBERS(place), TO_READ(arrivals, size), TO_CHANGE(fields, 3));
}

uint32_t zeppilorn_slot_arrivals(const uint8_t *arrivals, size_t size, size_t from, uint32_t slot, size_t fields[2])
{
    return CALL(SLOT_ARRIVALS, NUMBERS(from, slot), TO_READ(arrivals, size), TO_CHANGE(fields, 2));
}

uint32_t zeppilorn_write_plan(uint32_t interval, uint32_t cycle, const uint32_t *factors, size_t classes, const uint32_t *connections,
                              size_t connection_words, const uint32_t *arrivals, size_t arrival_words, uint8_t *plan, size_t size,
                              uint32_t fields[1])
{
    return CALL(WRITE_PLAN, NUMBERS(interval, cycle), TO_READ(factors, classes), TO_READ(connections, connection_words),
                TO_READ(arrivals, arrival_words), TO_CHANGE(plan, size), TO_CHANGE(fields, 1));
}

uint32_t zeppilorn_run_plan(const uint8_t *plan, size_t size, uint8_t *text, size_t text_size, uint32_t fields[1])
{
    return CALL(RUN_PLAN, NUMBERS(0), TO_READ(plan, size), TO_CHANGE(text, text_size), TO_CHANGE(fields, 1));
}
