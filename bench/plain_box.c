/* The public calls in plain C, by docs/LAYOUT.md and document 01, with the test of soundness before each. */
#include "plain_box.h"

static int within(uint32_t low, uint32_t x, uint32_t high)
{
    return low <= x && x <= high;
}

static int zeros(const uint32_t *ws, size_t from, size_t to)
{
    for (; from < to; from++)
        if (ws[from])
            return 0;
    return 1;
}

static int settings_sound(const uint32_t *ws)
{
    uint32_t p = ws[2], low = 0;
    if (!within(1, ws[0], 256) || !within(1, ws[1], 4096) || !within(1, p, 8))
        return 0;
    for (uint32_t i = 0; i < p; low = ws[3 + i++])
        if (ws[3 + i] <= low)
            return 0;
    return low <= 63 && low * ws[0] <= 1024 && zeros(ws, 3 + p, 11);
}

static int numbers_allowed(const uint32_t *ws, uint32_t class, uint32_t s, uint32_t b, uint32_t t)
{
    return within(1, class, ws[2]) && within(1, s, 64) && within(1, b, 64) && within(1, t, ws[1]) && ws[1] % t == 0;
}

static int rows_sound(const uint32_t *ws)
{
    if (ws[11] > 32)
        return 0;
    for (uint32_t i = 0; i < ws[11]; i++) {
        const uint32_t *r = ws + 12 + 6 * i;
        if (!numbers_allowed(ws, r[0], r[1], r[2], r[3]) || r[5] > r[2])
            return 0;
        if (r[5] == r[2] ? r[4] != 0 : r[4] < 1 || (r[4] > ws[204] && r[4] - ws[204] > r[3]))
            return 0;
    }
    return zeros(ws, 12 + 6 * ws[11], 204);
}

static int packet_sound(const uint32_t *ws, const uint32_t *p)
{
    return within(1, p[0], ws[205]) && within(1, p[1], ws[11]) && within(1, p[2], ws[7 + 6 * p[1]]) && p[3] <= ws[204];
}

static size_t lengths(const uint32_t *ws, size_t places)
{
    size_t sum = 0;
    for (size_t i = 0; i < places; i++)
        sum += ws[211 + i];
    return sum;
}

static int queues_sound(const uint32_t *ws)
{
    uint32_t d = ws[0], turns = ws[204] / d, largest = ws[2 + ws[2]];
    const uint32_t *p = ws + 275;
    for (uint32_t place = 0; place < 64; place++) {
        uint32_t tag = (place - turns) % 64, before = 0;
        if (tag > largest && ws[211 + place])
            return 0;
        for (uint32_t i = 0; i < ws[211 + place]; before = *p, p += 4, i++)
            if (p[0] <= before || !packet_sound(ws, p) || p[3] / d + ws[2 + ws[6 + 6 * p[1]]] != turns + tag)
                return 0;
    }
    return 1;
}

uint32_t plain_sound(const uint32_t *ws, size_t n)
{
    if (n < WORDS || !settings_sound(ws) || !rows_sound(ws) || ws[204] > 4000000000u)
        return 1;
    size_t waiting = lengths(ws, 64);
    if (waiting > 1024 || ws[205] > (uint64_t)ws[204] + waiting + (ws[206] != 0))
        return 1;
    if (ws[206] ? !packet_sound(ws, ws + 207) || ws[206] >= ws[209] : !zeros(ws, 207, 211))
        return 1;
    return !queues_sound(ws);
}

/* The first t that fails, or the end of the search. */
static uint32_t search(const uint32_t *ws, const uint32_t *rows, uint32_t count)
{
    uint32_t d = ws[0], first = ws[3] * d, last = ws[2 + ws[2]] * d, end = last + ws[1];
    for (uint32_t t = 0; t < end; t++) {
        uint32_t sum = 0, way = 0;
        int speaks = first <= t && t + d < last;
        for (uint32_t i = 0; i < count; i++) {
            const uint32_t *r = rows + 6 * i;
            uint32_t bound = ws[2 + r[0]] * d, at = r[0] == 1 ? t : t + d;
            if (at >= bound)
                sum += r[1] * (r[2] + (at - bound) / r[3]);
            if (speaks && t + d < bound && r[1] > way)
                way = r[1];
        }
        if (t < sum + way)
            return t;
    }
    return end;
}

uint32_t plain_admit(uint32_t *ws, size_t n, uint32_t class, uint32_t longest, uint32_t burst, uint32_t period)
{
    if (plain_sound(ws, n) || !numbers_allowed(ws, class, longest, burst, period) || ws[11] >= 32)
        return 1;
    uint32_t rows[192], count = ws[11], rate = 0, row[6] = {class, longest, burst, period, 0, burst};
    memcpy(rows, ws + 12, 24 * count);
    memcpy(rows + 6 * count, row, sizeof row);
    for (uint32_t i = 0; i <= count; i++)
        rate += rows[6 * i + 1] * (ws[1] / rows[6 * i + 3]);
    if (rate > ws[1] || search(ws, rows, count + 1) < ws[2 + ws[2]] * ws[0] + ws[1])
        return 1;
    memcpy(ws + 12 + 6 * count, row, sizeof row);
    ws[11]++;
    return 0;
}

/* The credits that have come back by now are put in. */
static void refill(uint32_t *r, uint32_t slot)
{
    if (slot < r[4])
        return;
    uint32_t back = (slot - r[4]) / r[3] + 1;
    if (r[2] - r[5] <= back) {
        r[4] = 0;
        r[5] = r[2];
    } else {
        r[4] += back * r[3];
        r[5] += back;
    }
}

uint32_t plain_offer(uint32_t *ws, size_t n, uint32_t connection, uint32_t units)
{
    if (plain_sound(ws, n) || !within(1, connection, ws[11]) || !within(1, units, ws[7 + 6 * connection]))
        return 1;
    uint32_t r[6];
    memcpy(r, ws + 6 + 6 * connection, sizeof r);
    refill(r, ws[204]);
    size_t waiting = lengths(ws, 64);
    if (!r[5] || waiting >= 1024)
        return 1;
    if (r[5] == r[2])
        r[4] = ws[204] + r[3];
    r[5]--;
    memcpy(ws + 6 + 6 * connection, r, sizeof r);
    uint32_t place = (ws[204] / ws[0] + ws[2 + r[0]]) % 64, packet[4] = {++ws[205], connection, units, ws[204]};
    size_t ahead = lengths(ws, place + 1);
    uint32_t *p = ws + 275 + 4 * ahead;
    memmove(p + 4, p, 16 * (waiting - ahead));
    memcpy(p, packet, sizeof packet);
    ws[211 + place]++;
    return 0;
}

/* If the link is free, the head of the lowest-tagged queue goes onto it. */
static void load(uint32_t *ws)
{
    uint32_t turns = ws[204] / ws[0], largest = ws[2 + ws[2]];
    for (uint32_t tag = 0; !ws[206] && tag <= largest; tag++) {
        uint32_t place = (turns + tag) % 64;
        if (!ws[211 + place])
            continue;
        size_t ahead = lengths(ws, place), waiting = lengths(ws, 64);
        uint32_t *p = ws + 275 + 4 * ahead;
        ws[206] = p[2];
        memcpy(ws + 207, p, 16);
        memmove(p, p + 4, 16 * (waiting - ahead - 1));
        ws[211 + place]--;
    }
}

uint32_t plain_step(uint32_t *ws, size_t n)
{
    if (plain_sound(ws, n) || ws[204] >= 4000000000u)
        return 1;
    if ((ws[204] + 1) % ws[0] == 0 && ws[211 + ws[204] / ws[0] % 64] > (ws[206] == 0))
        return 1;
    load(ws);
    if (ws[206] && !--ws[206])
        memset(ws + 207, 0, 16);
    ws[204]++;
    return 0;
}
