/* A step and an offer, proved and in plain C, in one run, turn by turn: sixteen calls one after another from an idle box, and from one in
   which 100 or 1,000 packets wait. Prints the shortest turn of each for one call in nanoseconds, their ratio, and the share of the test
   of soundness, which is measured by itself on the same words. Then steps of the idle box early, in the middle and at the end of the
   counter's range, to see that their time does not depend on the counter. Given --equal, makes one turn of each and sees that the words
   are the same, and that the two tests of soundness agree on each word of the boxes damaged in turn. */
#include "plain_box.h"

enum { CALLS = 16, COUNTER = 204 };

static int turns = 5000, equal;

static uint32_t before[WORDS], ws[WORDS], other[WORDS];

static uint32_t proved_step(uint32_t *on, uint32_t i) { (void)i; return box_step(on, WORDS); }
static uint32_t plain_steps(uint32_t *on, uint32_t i) { (void)i; return plain_step(on, WORDS); }
static uint32_t proved_offer(uint32_t *on, uint32_t i) { return box_offer(on, WORDS, 1 + i, 1); }
static uint32_t plain_offers(uint32_t *on, uint32_t i) { return plain_offer(on, WORDS, 1 + i, 1); }
static uint32_t proved_sound(uint32_t *on, uint32_t i) { (void)i; return box_sound(on, WORDS); }
static uint32_t plain_sounds(uint32_t *on, uint32_t i) { (void)i; return plain_sound(on, WORDS); }

static double turn(uint32_t (*call)(uint32_t *, uint32_t), uint32_t *on)
{
    memcpy(on, before, sizeof before);
    uint32_t all = 0;
    double start = now();
    for (uint32_t i = 0; i < CALLS; i++) {
        all |= call(on, i);
        __asm__ volatile("" ::: "memory"); /* the words may have changed: each call reads them anew */
    }
    double taken = (now() - start) / CALLS;
    must(all == 0, "a call is refused");
    return taken;
}

typedef uint32_t numbered(uint32_t *, uint32_t);

/* A turn of the two calls; the shorter one of it and the earlier ones stays, in nanoseconds a call. */
static void measure(numbered *a, numbered *b, double shortest[2])
{
    double proved = turn(a, ws), plain = turn(b, other);
    must(!memcmp(ws, other, sizeof ws), "the words differ");
    shortest[0] = proved < shortest[0] ? proved : shortest[0];
    shortest[1] = plain < shortest[1] ? plain : shortest[1];
}

static void report(uint32_t waiting)
{
    double step[2] = {1e18, 1e18}, offer[2] = {1e18, 1e18}, sound[2] = {1e18, 1e18};
    for (int i = 0; i < turns; i++) {
        measure(proved_step, plain_steps, step);
        measure(proved_offer, plain_offers, offer);
        measure(proved_sound, plain_sounds, sound);
    }
    if (equal)
        return;
    printf("  %4u waiting: step proved %.0f ns, plain C %.0f ns, ratio %.2f; ", waiting, step[0], step[1], step[0] / step[1]);
    printf("offer proved %.0f ns, plain C %.0f ns, ratio %.2f; ", offer[0], offer[1], offer[0] / offer[1]);
    printf("soundness proved %.0f ns, plain C %.0f ns, ratio %.2f, ", sound[0], sound[1], sound[0] / sound[1]);
    printf("%.0f%% of the proved step, %.0f%% of the proved offer\n", 100 * sound[0] / step[0], 100 * sound[0] / offer[0]);
}

/* A box in which 16 connections stand and nothing waits, their allowances full: it is sound whatever its counter. */
static void idle_box(void)
{
    static const uint32_t factors[1] = {4};
    must(box_open(before, WORDS, 256, 4096, factors, 1) == 0, "no box");
    for (uint32_t i = 0; i < 16; i++)
        must(box_admit(before, WORDS, 1, 1, 64, 4096) == 0, "a connection is refused");
}

/* The counters take turns, so that what else the machine does falls on all of them. */
static void report_counters(void)
{
    static const uint32_t counters[3] = {0, 1000000, 3999999000};
    double step[3][2] = {{1e18, 1e18}, {1e18, 1e18}, {1e18, 1e18}};
    idle_box();
    for (int i = 0; i < turns; i++)
        for (int k = 0; k < 3; k++) {
            before[COUNTER] = counters[k];
            measure(proved_step, plain_steps, step[k]);
        }
    for (int k = 0; k < 3 && !equal; k++)
        printf("  idle at counter %10u: step proved %.0f ns, plain C %.0f ns, ratio %.2f\n", counters[k], step[k][0], step[k][1],
               step[k][0] / step[k][1]);
}

/* Both tests of soundness on the box with each word damaged in turn. */
static void compare_soundness(void)
{
    for (size_t i = 0; i < WORDS; i++) {
        uint32_t kept = before[i], damage[4] = {0, kept + 1, kept - 1, UINT32_MAX};
        for (int k = 0; k < 4; k++) {
            before[i] = damage[k];
            must(box_sound(before, WORDS) == plain_sound(before, WORDS), "the tests of soundness differ");
        }
        before[i] = kept;
    }
}

int main(int argc, char **argv)
{
    equal = only_equal(argc, argv);
    turns = equal ? 1 : turns;
    static const uint32_t waiting[3] = {0, 100, 1000};
    for (int k = 0; k < 3; k++) {
        idle_box();
        for (uint32_t i = 0; i < waiting[k]; i++)
            must(box_offer(before, WORDS, 1 + i % 16, 1) == 0, "an offer is refused");
        report(waiting[k]);
        if (equal)
            compare_soundness();
    }
    report_counters();
    if (equal)
        puts("step, offer, soundness: the same words and verdicts");
    return 0;
}
