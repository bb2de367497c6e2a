/*
 * Zeppilorn for C and C++: the box of one link, plan files, and the whole run of a plan. The library is crates/cabinet/out/libcabinet.a (`tools/built cabinet`), for
 * x86-64 Linux; examples/cabinet.c is a program to copy. Which theorem holds each sentence stands in docs/PROMISES.md.
 *
 * The caller lends all memory; the library keeps none, so each box may lie where the caller likes, and two boxes know nothing of each
 * other. A pointer with a count must point to that many elements, and `fields` to as many as its brackets say. What a call changes
 * (`words`, `plan` of zeppilorn_write_plan, `text`, `fields`) must not overlap anything else that is lent to the same call, and no other thread may
 * use it meanwhile. Nothing else is asked: every call answers on any contents.
 *
 * Each call returns an answer number. 0 is success. Every refusal leaves all lent words and bytes unchanged and sets all fields to 0, but
 * 6, which gives t. A call sets all its fields each time.
 *
 *    1  the state is not sound                       10  1,024 packets wait
 *    2  D, M, the classes or the largest bound       11  the step would turn the queues while tag 0 still has
 *       are off range                                    a waiting packet
 *    3  class number, s, b or T is off range,        12  the counter stands at 4,000,000,000
 *       or T does not divide M                       13  plan under 40 bytes, above 65,536, not a multiple
 *    4  32 connections stand                             of 4, or word 0 differs from its size
 *    5  the rate exceeds M                           14  the plan's words do not sum to 0 modulo 2^32
 *    6  (11) or (12) fails; gives the first such t   15  plan counts or offsets are wrong
 *    7  no such connection                           16  arrival slots fall, or one exceeds 1,000,000
 *    8  length 0 or above s                          17  the buffer lent for a new box or a written plan
 *    9  the packet does not fit the envelope             (or for the text of a run) is too short
 *
 * Where a call can refuse for several reasons, it gives the first of them in the order in which its numbers stand below.
 */
#ifndef ZEPPILORN_H
#define ZEPPILORN_H

#include <stddef.h>
#include <stdint.h>

/* The words that a box takes; words beyond them are never altered. */
#define ZEPPILORN_BOX_WORDS 4371

/* The bytes that are lent for the text of a run: the text of any plan fits into them. */
#define ZEPPILORN_TEXT_BYTES 420000

#ifdef __cplusplus
extern "C" {
#endif

/* ZEPPILORN_BOX_WORDS, as the library that is linked has it. */
size_t zeppilorn_box_words(void);

/*
 * Opens a box in `words`, whatever stood there: a rotation interval D of 1 to 256 slots, a cycle M of 1 to 4,096 slots, and 1 to 8 classes
 * with rising factors of 1 to 63; class p has the bound factors[p - 1] x D, at most 1,024 slots.
 * Answers 0, 2 or 17.
 */
uint32_t zeppilorn_open(uint32_t *words, size_t count, uint32_t interval, uint32_t cycle,
                        const uint32_t *factors, size_t classes);

/* Tests `words`: 0 where they are a sound state, else 1. The calls below make this test themselves. */
uint32_t zeppilorn_is_sound(const uint32_t *words, size_t count);

/*
 * Admits a connection of a class (1 is the first) that sends packets of at most `longest` units, `burst` of them at once and one more after
 * each `period` slots; or refuses it, where the test does not show that every bound is kept. It may come at any slot.
 * Answers 0, 1, 3, 4, 5 or 6.
 * fields[0]: the connection's number, counted from 1. fields[1]: for 6, the first t at which the test fails.
 */
uint32_t zeppilorn_admit(uint32_t *words, size_t count, uint32_t class_number, uint32_t longest, uint32_t burst, uint32_t period,
                         uint32_t fields[2]);

/*
 * Offers a packet of `units` units of a connection, by its number, at the slot that the box stands at. A refused packet is not charged.
 * Answers 0, 1, 7, 8, 9 or 10.
 * fields[0]: the serial of the accepted packet, counted from 1 over all connections.
 */
uint32_t zeppilorn_offer(uint32_t *words, size_t count, uint32_t connection, uint32_t units, uint32_t fields[1]);

/*
 * One step: sends one unit, if there is one to send, and raises the slot counter by one. Offers of a slot come before its step.
 * Answers 0, 1, 12 or 11. A box that was opened, has had only these calls since and is lent whole never answers 1 or 11.
 * fields[0]: the serial of the packet on the link; 0: the link was idle.
 * fields[1]: its units left; 0: that was its last unit, it has departed, and the three fields that follow are set.
 * fields[2]: its connection. fields[3]: the slot of its arrival. fields[4]: the slot of its departure.
 */
uint32_t zeppilorn_step(uint32_t *words, size_t count, uint32_t fields[5]);

/*
 * Tests a whole plan and reads its header. The entries of its tables are not range-checked here: opening, admission and offers do that.
 * Answers 0, 13, 14, 15 or 16.
 * fields[0]: D. fields[1]: M. fields[2], [4], [6]: the counts of classes, connections and arrivals.
 * fields[3], [5], [7]: the byte at which each of these tables starts; an entry has 4, 16 and 12 bytes.
 */
uint32_t zeppilorn_read_plan(const uint8_t *plan, size_t size, uint32_t fields[8]);

/*
 * An entry of a table, by its place counted from 0. The table is lent as `plan` + its start, with count x 4, 16 or 12 bytes; words past its
 * end, and a last word that is not whole, read as 0. These three always answer 0.
 * A factor: fields[0].
 */
uint32_t zeppilorn_factor(const uint8_t *classes, size_t size, size_t place, uint32_t fields[1]);

/* A connection: fields[0] class, [1] longest, [2] burst, [3] period. */
uint32_t zeppilorn_connection(const uint8_t *connections, size_t size, size_t place, uint32_t fields[4]);

/* An arrival: fields[0] slot, [1] the connection's place in the plan, counted from 1, [2] length. */
uint32_t zeppilorn_arrival(const uint8_t *arrivals, size_t size, size_t place, uint32_t fields[3]);

/*
 * The arrivals of one slot, as a stretch of the arrival table; entries before the place `from` are passed over. Who walks the slots in
 * order starts with 0 and adds fields[1] / 12 to `from` each time. The stretch can be lent to zeppilorn_arrival as `arrivals` + fields[0].
 * It runs from the first entry whose slot is not below `slot` up to the next one above it: all arrivals of the slot, in a plan that reads well.
 * Always answers 0.
 * fields[0]: the first byte of the stretch within the table. fields[1]: its size in bytes. Both are 0 where it is empty.
 */
uint32_t zeppilorn_slot_arrivals(const uint8_t *arrivals, size_t size, size_t from, uint32_t slot, size_t fields[2]);

/*
 * Writes a plan into `plan` from D, M and three tables of words: a factor per class; class, longest, burst, period per connection; slot,
 * connection's place, length per arrival. Bytes of `plan` beyond it are not altered; 65,536 bytes are always enough.
 * Answers 0, 15 (also where a table does not hold whole entries), 16 or 17.
 * fields[0]: the bytes written.
 */
uint32_t zeppilorn_write_plan(uint32_t interval, uint32_t cycle, const uint32_t *factors, size_t classes,
                              const uint32_t *connections, size_t connection_words, const uint32_t *arrivals, size_t arrival_words,
                              uint8_t *plan, size_t size, uint32_t fields[1]);

/*
 * Makes the whole run of a plan in a box of its own and writes its lines, as the program prints them, to the start of `text`. A plan that is
 * refused by reading or opening is told there, by a line REFUSED and the number. Bytes of `text` beyond the lines are not altered.
 * Answers 0, or 17 where `text_size` is below ZEPPILORN_TEXT_BYTES.
 * fields[0]: the bytes written.
 */
uint32_t zeppilorn_run_plan(const uint8_t *plan, size_t size, uint8_t *text, size_t text_size, uint32_t fields[1]);

#ifdef __cplusplus
}
#endif

#endif
