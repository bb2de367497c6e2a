/* There: makes the calls that the other process asks for, with the library. Its argument is the descriptor of the shared memory; the
   pipes are its standard input and output. */
#include <stdlib.h>
#include <sys/mman.h>
#include <unistd.h>

#include "far.h"
#include "zeppilorn.h"

static struct far *far;

static uint8_t *bytes(int i) { return far->bytes + far->start[i]; }
static size_t size(int i) { return far->size[i]; }
static uint32_t *words(int i) { return (uint32_t *)bytes(i); }
static size_t count(int i) { return size(i) / 4; }
static uint32_t number(int i) { return (uint32_t)far->numbers[i]; }

static uint64_t answer(void)
{
    switch ((enum function)far->function) {
    case OPEN:
        return zeppilorn_open(words(0), count(0), number(0), number(1), words(1), count(1));
    case IS_SOUND:
        return zeppilorn_is_sound(words(0), count(0));
    case ADMIT:
        return zeppilorn_admit(words(0), count(0), number(0), number(1), number(2), number(3), words(1));
    case OFFER:
        return zeppilorn_offer(words(0), count(0), number(0), number(1), words(1));
    case STEP:
        return zeppilorn_step(words(0), count(0), words(1));
    case READ_PLAN:
        return zeppilorn_read_plan(bytes(0), size(0), words(1));
    case FACTOR:
        return zeppilorn_factor(bytes(0), size(0), far->numbers[0], words(1));
    case CONNECTION:
        return zeppilorn_connection(bytes(0), size(0), far->numbers[0], words(1));
    case ARRIVAL:
        return zeppilorn_arrival(bytes(0), size(0), far->numbers[0], words(1));
    case SLOT_ARRIVALS:
        return zeppilorn_slot_arrivals(bytes(0), size(0), far->numbers[0], number(1), (size_t *)bytes(1));
    case WRITE_PLAN:
        return zeppilorn_write_plan(number(0), number(1), words(0), count(0), words(1), count(1), words(2), count(2), bytes(3), size(3),
                                    words(4));
    case RUN_PLAN:
        return zeppilorn_run_plan(bytes(0), size(0), bytes(1), size(1), words(2));
    case BOX_WORDS:
        return zeppilorn_box_words();
    }
    exit(2);
}

int main(int argc, char **argv)
{
    char byte;
    far = mmap(0, sizeof *far, PROT_READ | PROT_WRITE, MAP_SHARED, argc > 1 ? atoi(argv[1]) : -1, 0);
    if (far == MAP_FAILED)
        return 2;
    while (read(0, &byte, 1) == 1) {
        far->answer = answer();
        if (write(1, &byte, 1) != 1)
            return 2;
    }
    return 0;
}
