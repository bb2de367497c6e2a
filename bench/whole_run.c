/* The whole run of document 01 in plain, unverified C: a plan on standard input, the lines of its run on standard output, byte for byte
   those of `gateway`. It is written as one would without a proof: its own structs, linked queues by rank, a word of occupied queues, the
   allowance as the one number of a virtual schedule, and no test of soundness. It steps through every slot, idle or not, as `gateway`
   does: skipping idle stretches would compare another way to run a plan and not the same one. */
#include <stdint.h>
#include <stdio.h>
#include <string.h>

enum { HEADER = 40, LONGEST_PLAN = 65536, LAST_SLOT = 1000000, PLACES = 64, MOST_WAITING = 1024, MOST_CONNECTIONS = 32, LONGEST_LINE = 51 };

struct connection {
    uint32_t class, longest, burst, period;
    uint32_t starts; /* the first t at which it adds to the sum of (11) */
    uint64_t due;    /* the slot at which the packet after the last accepted one would come, were all spread evenly */
};

struct packet {
    uint32_t serial, place, units, arrival;
    struct packet *next;
};

struct queue {
    struct packet *head, *tail;
};

struct plan {
    uint32_t interval, cycle, classes, connections, arrivals;
    const uint8_t *class, *connection, *arrival;
};

static struct {
    uint32_t interval, cycle, classes, factor[8];
    struct connection standing[MOST_CONNECTIONS];
    struct connection *by_place[MOST_CONNECTIONS]; /* null for one that was refused */
    uint32_t count, slot, accepted, departed, waiting;
    uint32_t lowest, since_turn; /* the place of tag 0, and the slots since the last turn */
    uint64_t occupied;           /* a bit a place: a packet waits there */
    struct queue queue[PLACES];
    struct packet pool[MOST_WAITING + 1], *unused;
    struct packet *link;
    uint32_t left;
} box;

/* Printing. */

static struct {
    char bytes[1 << 16];
    size_t size;
} text;

static void flush(void)
{
    fwrite(text.bytes, 1, text.size, stdout);
    text.size = 0;
}

static void put_number(uint32_t n, char after)
{
    char digits[10];
    size_t i = sizeof digits;
    do
        digits[--i] = '0' + n % 10;
    while (n /= 10);
    memcpy(text.bytes + text.size, digits + i, sizeof digits - i);
    text.size += sizeof digits - i;
    text.bytes[text.size++] = after;
}

static void put_line(const char *word, size_t count, const uint32_t *numbers)
{
    if (text.size + LONGEST_LINE > sizeof text.bytes)
        flush();
    size_t size = strlen(word);
    memcpy(text.bytes + text.size, word, size);
    text.size += size;
    for (size_t i = 0; i < count; i++)
        put_number(numbers[i], i + 1 < count ? ' ' : '\n');
}

#define LINE(word, ...) put_line(word " ", sizeof((uint32_t[]){__VA_ARGS__}) / 4, (uint32_t[]){__VA_ARGS__})

/* Reading. */

static uint32_t word(const uint8_t *p)
{
    return (uint32_t)p[0] | (uint32_t)p[1] << 8 | (uint32_t)p[2] << 16 | (uint32_t)p[3] << 24;
}

static int slots_wrong(const uint8_t *arrivals, uint32_t count)
{
    uint32_t before = 0;
    for (uint32_t i = 0; i < count; i++) {
        uint32_t slot = word(arrivals + 12 * i);
        if (slot < before || slot > LAST_SLOT)
            return 1;
        before = slot;
    }
    return 0;
}

static uint32_t read_plan(struct plan *p, const uint8_t *bytes, size_t size)
{
    if (size < HEADER || size > LONGEST_PLAN || size % 4 || word(bytes) != size)
        return 13;
    uint32_t sum = 0;
    for (size_t i = 0; i < size; i += 4)
        sum += word(bytes + i);
    if (sum)
        return 14;
    p->interval = word(bytes + 4);
    p->cycle = word(bytes + 8);
    p->classes = word(bytes + 12);
    p->connections = word(bytes + 20);
    p->arrivals = word(bytes + 28);
    if (p->classes > 8 || p->connections > MOST_CONNECTIONS || p->arrivals > 4096)
        return 15;
    uint32_t connections = HEADER + 4 * p->classes, arrivals = connections + 16 * p->connections;
    if (word(bytes + 16) != HEADER || word(bytes + 24) != connections || word(bytes + 32) != arrivals ||
        size != arrivals + 12 * p->arrivals)
        return 15;
    p->class = bytes + HEADER;
    p->connection = bytes + connections;
    p->arrival = bytes + arrivals;
    return slots_wrong(p->arrival, p->arrivals) ? 16 : 0;
}

/* Opening and admission. */

static int within(uint32_t low, uint32_t x, uint32_t high)
{
    return low <= x && x <= high;
}

static uint32_t open_box(const struct plan *p)
{
    if (!within(1, p->interval, 256) || !within(1, p->cycle, 4096) || !p->classes)
        return 2;
    uint32_t factor = 0;
    for (uint32_t i = 0; i < p->classes; i++) {
        uint32_t before = factor;
        factor = word(p->class + 4 * i);
        if (factor <= before || factor > 63)
            return 2;
        box.factor[i] = factor;
    }
    if (factor * p->interval > 1024)
        return 2;
    box.interval = p->interval;
    box.cycle = p->cycle;
    box.classes = p->classes;
    for (size_t i = 0; i < MOST_WAITING + 1; i++) {
        box.pool[i].next = box.unused;
        box.unused = box.pool + i;
    }
    return 0;
}

static int off_range(const struct connection *c)
{
    return !within(1, c->class, box.classes) || !within(1, c->longest, 64) || !within(1, c->burst, 64) ||
           !within(1, c->period, box.cycle) || box.cycle % c->period;
}

static uint32_t rate(uint32_t count)
{
    uint32_t sum = 0;
    for (uint32_t i = 0; i < count; i++)
        sum += box.standing[i].longest * (box.cycle / box.standing[i].period);
    return sum;
}

/* Whether (11) or (12) fails at t. A connection whose bound exceeds t + D adds nothing to the sum yet, and class 1 adds from d1 on, so
   within the range of (12) each connection is either in the sum or in the way. */
static int fails_at(uint32_t t, uint32_t count, int twelve)
{
    uint32_t sum = 0, way = 0;
    for (uint32_t i = 0; i < count; i++) {
        const struct connection *c = box.standing + i;
        if (t >= c->starts)
            sum += c->longest * (c->burst + (t - c->starts) / c->period);
        else if (twelve && c->longest > way)
            way = c->longest;
    }
    return t < sum + way;
}

/* The first t that fails among the first connections, or the end of the search. */
static uint32_t search(uint32_t count, uint32_t end)
{
    uint32_t first = box.factor[0] * box.interval, last = box.factor[box.classes - 1] * box.interval;
    for (uint32_t t = 0; t < end; t++)
        if (fails_at(t, count, first <= t && t + box.interval < last))
            return t;
    return end;
}

static uint32_t admit(uint32_t place, const uint8_t *entry, uint32_t *t)
{
    struct connection *c = box.standing + box.count;
    *c = (struct connection){.class = word(entry), .longest = word(entry + 4), .burst = word(entry + 8), .period = word(entry + 12)};
    if (off_range(c))
        return 3;
    c->starts = (box.factor[c->class - 1] - (c->class > 1)) * box.interval;
    if (rate(box.count + 1) > box.cycle)
        return 5;
    uint32_t end = box.factor[box.classes - 1] * box.interval + box.cycle, found = search(box.count + 1, end);
    if (found < end) {
        *t = found;
        return 6;
    }
    box.by_place[place] = c;
    box.count++;
    return 0;
}

/* Offers and steps. */

static void join(struct packet *p, uint32_t place)
{
    struct queue *q = box.queue + place;
    p->next = NULL;
    if (q->head)
        q->tail->next = p;
    else
        q->head = p;
    q->tail = p;
    box.occupied |= 1ull << place;
    box.waiting++;
}

static uint32_t offer(uint32_t place, uint32_t units)
{
    struct connection *c = within(1, place, MOST_CONNECTIONS) ? box.by_place[place - 1] : NULL;
    if (!c)
        return 7;
    if (!within(1, units, c->longest))
        return 8;
    if (c->due > box.slot + (uint64_t)(c->burst - 1) * c->period)
        return 9;
    if (box.waiting == MOST_WAITING)
        return 10;
    c->due = (c->due > box.slot ? c->due : box.slot) + c->period;
    struct packet *p = box.unused;
    box.unused = p->next;
    *p = (struct packet){.serial = ++box.accepted, .place = place, .units = units, .arrival = box.slot};
    join(p, (box.lowest + box.factor[c->class - 1]) % PLACES);
    return 0;
}

/* The place of the lowest-tagged queue that has a packet: the lowest bit, counted from the place of tag 0. */
static uint32_t lowest_occupied(void)
{
    uint64_t turned = box.occupied >> box.lowest | box.occupied << (PLACES - box.lowest) % PLACES;
    return (box.lowest + (uint32_t)__builtin_ctzll(turned)) % PLACES;
}

static void load(void)
{
    uint32_t place = lowest_occupied();
    struct queue *q = box.queue + place;
    box.link = q->head;
    box.left = q->head->units;
    q->head = q->head->next;
    if (!q->head)
        box.occupied &= ~(1ull << place);
    box.waiting--;
}

static void depart(void)
{
    struct packet *p = box.link;
    LINE("DEPART", p->serial, p->place, p->arrival, box.slot + 1);
    box.departed++;
    p->next = box.unused;
    box.unused = p;
    box.link = NULL;
}

/* Whether the turn at the end of this slot would leave a packet at tag 0. */
static int blocked(void)
{
    const struct packet *first = box.queue[box.lowest].head;
    return box.since_turn + 1 == box.interval && first && (box.link || first->next);
}

static uint32_t step(void)
{
    if (blocked())
        return 11;
    if (!box.link && box.waiting)
        load();
    if (box.link && --box.left == 0)
        depart();
    box.slot++;
    if (++box.since_turn == box.interval) {
        box.since_turn = 0;
        box.lowest = (box.lowest + 1) % PLACES;
    }
    return 0;
}

/* The run. 4 cannot come, as a plan has at most 32 connections, nor 12: all is gone long before slot 4,000,000,000. */

static uint32_t offer_due(const struct plan *p, uint32_t next)
{
    for (; next < p->arrivals && word(p->arrival + 12 * next) == box.slot; next++) {
        const uint8_t *entry = p->arrival + 12 * next;
        uint32_t answer = offer(word(entry + 4), word(entry + 8));
        LINE("OFFER", next + 1, answer, answer ? 0 : box.accepted);
    }
    return next;
}

static void run(const struct plan *p)
{
    for (uint32_t i = 0; i < p->connections; i++) {
        uint32_t t = 0, answer = admit(i, p->connection + 16 * i, &t);
        LINE("ADMIT", i + 1, answer, t);
    }
    uint32_t next = 0;
    while (next < p->arrivals || box.departed < box.accepted) {
        next = offer_due(p, next);
        uint32_t stop = step();
        if (stop) {
            LINE("STOP", stop);
            return;
        }
    }
    LINE("END", box.slot, box.accepted, box.departed);
}

int main(void)
{
    static uint8_t bytes[LONGEST_PLAN + 1];
    struct plan plan;
    uint32_t refusal = read_plan(&plan, bytes, fread(bytes, 1, sizeof bytes, stdin));
    if (!refusal)
        refusal = open_box(&plan);
    if (refusal)
        LINE("REFUSED", refusal);
    else
        run(&plan);
    flush();
    return 0;
}
