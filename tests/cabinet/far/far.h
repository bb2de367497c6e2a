/* The calls of the library made in another process, for a machine that cannot link it: what is lent goes there and comes back in shared
   memory; a byte on a pipe says that a call is to be made, and one on another that it has been made. */
#ifndef FAR_H
#define FAR_H

#include <stdint.h>

enum function {
    BOX_WORDS,
    OPEN,
    IS_SOUND,
    ADMIT,
    OFFER,
    STEP,
    READ_PLAN,
    FACTOR,
    CONNECTION,
    ARRIVAL,
    SLOT_ARRIVALS,
    WRITE_PLAN,
    RUN_PLAN
};

enum { MOST_LENT = 5, MOST_NUMBERS = 5, GAP = 64, ROOM = 1 << 20 };

struct far {
    uint32_t function;
    uint64_t numbers[MOST_NUMBERS];
    uint64_t start[MOST_LENT]; /* the first byte of what is lent, in `bytes` */
    uint64_t size[MOST_LENT];  /* its bytes */
    uint64_t answer;
    uint8_t bytes[ROOM]; /* what is lent, with a gap before and after each, which no call may touch */
};

#endif
