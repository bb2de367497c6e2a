/*
 * A cabinet's loop in C: a box on one link, two boards, ten slots. Build it with `tools/built cabinet` and
 *
 *     gcc -std=c99 -Iinclude examples/cabinet.c crates/cabinet/out/libcabinet.a -o cabinet
 *
 * It prints what examples/cabinet.expected holds; `tests/cabinet-example` compares the two. An answer that a cabinet does not expect ends
 * the program with a message and a status of 1.
 */
#include <stdio.h>
#include <stdlib.h>

#include "zeppilorn.h"

/* The answers that a board's own traffic can cause, which a cabinet meets in its daily work. */
enum { DONE = 0, WRONG_LENGTH = 8, NOT_FITTING = 9, STORE_FULL = 10 };

/* A board, as it was agreed with the planner. */
struct board {
    const char *name;
    uint32_t class_number;
    uint32_t longest;
    uint32_t burst;
    uint32_t period;
};

/* What a board hands to the cabinet, and when. */
struct arrival {
    uint32_t slot;
    size_t board;
    uint32_t units;
};

/* D and M: the queues turn every 4 slots, and all agreements repeat within 8. */
static const uint32_t interval = 4;
static const uint32_t cycle = 8;

/* Class 1 has a bound of 1 x 4 slots, class 2 of 2 x 4. */
static const uint32_t factors[] = {1, 2};

/* Call sheets: one packet of 1 unit every 4 slots. Map tiles: one packet of up to 3 units every 8. */
static const struct board boards[] = {
    {"call sheets", 1, 1, 1, 4},
    {"map tiles", 2, 3, 1, 8},
};

/* The call sheet of slot 2 comes too soon after the one of slot 1. */
static const struct arrival arrivals[] = {
    {0, 1, 3}, {1, 0, 1}, {2, 0, 1}, {5, 0, 1}, {8, 1, 2},
};

enum { BOARDS = sizeof boards / sizeof boards[0], ARRIVALS = sizeof arrivals / sizeof arrivals[0], SLOTS = 10 };

/* The box. Its words are the cabinet's own memory, and only the calls write them. */
static uint32_t words[ZEPPILORN_BOX_WORDS];

/* The number that the box gave to each board. */
static uint32_t connections[BOARDS];

/* An answer that is not expected: the cabinet stops rather than go on without knowing its state. */
static void stop(const char *call, uint32_t answer)
{
    fprintf(stderr, "cabinet: %s was refused with %u\n", call, (unsigned)answer);
    exit(1);
}

/* Opens the box and admits the boards. A board that is refused here was planned wrong. */
static void set_up(void)
{
    uint32_t fields[2];
    uint32_t answer;
    size_t i;

    if (zeppilorn_box_words() != ZEPPILORN_BOX_WORDS) {
        fprintf(stderr, "cabinet: zeppilorn.h is not the header of the linked library\n");
        exit(1);
    }
    answer = zeppilorn_open(words, ZEPPILORN_BOX_WORDS, interval, cycle, factors, 2);
    if (answer != DONE)
        stop("opening", answer);
    for (i = 0; i < BOARDS; i++) {
        const struct board *b = &boards[i];
        answer = zeppilorn_admit(words, ZEPPILORN_BOX_WORDS, b->class_number, b->longest, b->burst, b->period, fields);
        if (answer != DONE)
            stop("an admission", answer);
        connections[i] = fields[0];
        printf("%s: admitted as connection %u\n", b->name, (unsigned)fields[0]);
    }
}

/* Offers what arrives at this slot. A packet that is turned away is the board's to offer again later; the box is as it was. */
static void offer_arrivals(uint32_t slot)
{
    uint32_t fields[1];
    uint32_t answer;
    size_t i;

    for (i = 0; i < ARRIVALS; i++) {
        const struct arrival *a = &arrivals[i];
        if (a->slot != slot)
            continue;
        answer = zeppilorn_offer(words, ZEPPILORN_BOX_WORDS, connections[a->board], a->units, fields);
        if (answer == DONE)
            printf("slot %u: %s, length %u: packet %u\n", (unsigned)slot, boards[a->board].name, (unsigned)a->units,
                   (unsigned)fields[0]);
        else if (answer == WRONG_LENGTH || answer == NOT_FITTING || answer == STORE_FULL)
            printf("slot %u: %s, length %u: turned away with %u\n", (unsigned)slot, boards[a->board].name, (unsigned)a->units,
                   (unsigned)answer);
        else
            stop("an offer", answer);
    }
}

/* Sends one unit and tells what went over the link. */
static void step(uint32_t slot)
{
    uint32_t fields[5];
    uint32_t answer = zeppilorn_step(words, ZEPPILORN_BOX_WORDS, fields);

    if (answer != DONE)
        stop("a step", answer);
    if (fields[0] == 0)
        printf("slot %u: idle\n", (unsigned)slot);
    else if (fields[1] != 0)
        printf("slot %u: packet %u, units left %u\n", (unsigned)slot, (unsigned)fields[0], (unsigned)fields[1]);
    else
        printf("slot %u: packet %u of connection %u departs at %u, it came at %u\n", (unsigned)slot, (unsigned)fields[0],
               (unsigned)fields[2], (unsigned)fields[4], (unsigned)fields[3]);
}

int main(void)
{
    uint32_t slot;

    set_up();
    for (slot = 0; slot < SLOTS; slot++) {
        offer_arrivals(slot);
        step(slot);
    }
    /* A cabinet that keeps its words over a restart tests them before it goes on. */
    if (zeppilorn_is_sound(words, ZEPPILORN_BOX_WORDS) != DONE)
        stop("the test of the state", 1);
    printf("the state is sound\n");
    return 0;
}
