/* The full search of an admission, proved and in plain C, in one run, turn by turn: 31 connections of eight classes stand, the 32nd is
   taken, so that no t of 0 to 5,119 fails. Prints the shortest turn of each in microseconds, and their ratio. Given --equal and a file of
   stored calls, sees that both give the same words after each admission. */
#include "plain_box.h"

typedef uint32_t admission(uint32_t *, size_t, uint32_t, uint32_t, uint32_t, uint32_t);

static uint32_t standing[WORDS], ws[WORDS], other[WORDS];

static double turn(admission *admit, uint32_t *on)
{
    memcpy(on, standing, sizeof standing);
    double start = now();
    uint32_t answer = admit(on, WORDS, 8, 2, 1, 4096);
    double taken = now() - start;
    must(answer == 0, "the 32nd connection is refused");
    return taken;
}

static void stand(void)
{
    static const uint32_t factors[8] = {1, 2, 3, 4, 5, 6, 7, 8};
    must(box_open(standing, WORDS, 128, 4096, factors, 8) == 0, "no box");
    for (uint32_t i = 0; i < 31; i++)
        must(box_admit(standing, WORDS, 1 + i % 8, 1 + i % 2, 1, 4096 >> i % 3) == 0, "a connection is refused");
}

/* Makes the openings and admissions of a file of tests/stored/calls on both sides: each is taken by both or refused by both, and the
   words stay the same. A row is a kind (0 opening, 1 admission, 4 a factor of the next opening) and four numbers. */
static int compare(const char *path)
{
    uint32_t row[5], factors[8], admissions = 0;
    FILE *f = fopen(path, "rb");
    must(f != 0, "the calls cannot be read");
    while (fread(row, sizeof row, 1, f) == 1) {
        const uint32_t *a = row + 1;
        if (row[0] == 4) {
            factors[a[0]] = a[1];
        } else if (row[0] == 0) {
            must(box_open(ws, WORDS, a[0], a[1], factors, a[2]) == 0, "no box");
            memcpy(other, ws, sizeof ws);
        } else {
            must(!box_admit(ws, WORDS, a[0], a[1], a[2], a[3]) == !plain_admit(other, WORDS, a[0], a[1], a[2], a[3]), "one refuses");
            must(!memcmp(ws, other, sizeof ws), "the words differ");
            admissions++;
        }
    }
    fclose(f);
    must(admissions > 0, "the calls have no admission");
    printf("admission: the same words after each of %u\n", admissions);
    return 0;
}

int main(int argc, char **argv)
{
    if (only_equal(argc, argv))
        return compare(argc > 2 ? argv[2] : "");
    double proved = 1e18, plain = 1e18;
    stand();
    for (int i = 0; i < 400; i++) {
        double t = turn(box_admit, ws);
        proved = t < proved ? t : proved;
        t = turn(plain_admit, other);
        plain = t < plain ? t : plain;
        must(!memcmp(ws, other, sizeof ws), "the words differ");
    }
    printf("  admission, 32 connections, 5,120 slots: proved %.0f us, plain C %.0f us, ratio %.2f\n",
           proved / 1e3, plain / 1e3, proved / plain);
    return 0;
}
