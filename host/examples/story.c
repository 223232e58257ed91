/* The same story in C. Build it, after host/build, by
   cc -I target/host -o story host/examples/story.c target/host/libsockhurdle_host.a */
#include <inttypes.h>
#include <stdio.h>
#include <stdlib.h>

#include "sockhurdle_host.h"

/* The maker of the old tiles. */
#define OLD 1

static uint64_t table[SOCKHURDLE_WORDS], out[SOCKHURDLE_OUT], ids[SOCKHURDLE_SLOTS];

/* A call that is not refused here. */
static void good(uint64_t answer)
{
    if (answer != 0) {
        printf("refusal %" PRIu64 "\n", answer);
        exit(1);
    }
}

/* The snapshot that was taken last. A snapshot is xmax, the ids and their count; the ids stay where they were put. */
static uint64_t xmax, count;

static void keep(void)
{
    xmax = out[SOCKHURDLE_OUT_XMAX];
    count = out[SOCKHURDLE_OUT_COUNT];
}

/* Whose tile a page reads: the new one if it may, else the old one if it may, else none. */
static uint64_t read_tile(uint64_t new_maker)
{
    const uint64_t makers[] = {new_maker, OLD};
    for (int i = 0; i < 2; i++)
        if (sockhurdle_settled(xmax, (const uint8_t *)ids, 8 * count, makers[i]) == SOCKHURDLE_YES)
            return makers[i];
    return 0;
}

static void vacuum(uint64_t clock, const char *after)
{
    good(sockhurdle_vacuum(table, SOCKHURDLE_WORDS, clock, clock, out, SOCKHURDLE_OUT));
    uint64_t holder = out[SOCKHURDLE_OUT_HOLDER];
    printf(" line=%" PRIu64 ", held by ", out[SOCKHURDLE_OUT_LINE]);
    if (holder == SOCKHURDLE_NOBODY)
        printf("nobody%s", after);
    else if (holder >= SOCKHURDLE_FIRST_PIN)
        printf("pin %" PRIu64 "%s", holder - SOCKHURDLE_FIRST_PIN, after);
    else
        printf("slot %" PRIu64 "%s", holder, after);
}

static uint16_t begin(uint64_t number)
{
    good(sockhurdle_begin(table, SOCKHURDLE_WORDS, number, out, SOCKHURDLE_OUT));
    return (uint16_t)out[SOCKHURDLE_OUT_SLOT];
}

int main(void)
{
    good(sockhurdle_fresh(table, SOCKHURDLE_WORDS));
    uint16_t first = begin(OLD);
    good(sockhurdle_finish(table, SOCKHURDLE_WORDS, first, OLD, 2, out, SOCKHURDLE_OUT));

    /* The re-encode begins, then the page. It asks for its top tile before the re-encode is done, for its bottom tile after. */
    uint16_t encode = begin(3), page = begin(4);
    good(sockhurdle_own(table, SOCKHURDLE_WORDS, page, 4, 5, 5, out, SOCKHURDLE_OUT, ids, SOCKHURDLE_SLOTS));
    keep();
    printf("page: top=%" PRIu64, read_tile(3));
    vacuum(5, ";");
    good(sockhurdle_finish(table, SOCKHURDLE_WORDS, encode, 3, 5, out, SOCKHURDLE_OUT));
    printf(" bottom=%" PRIu64, read_tile(3));
    vacuum(6, ";");
    good(sockhurdle_end(table, SOCKHURDLE_WORDS, page, 4, out, SOCKHURDLE_OUT));
    vacuum(6, "\n");

    /* The next page is not registered, and pins its snapshot. */
    good(sockhurdle_pin(table, SOCKHURDLE_WORDS, 6, 6, out, SOCKHURDLE_OUT, ids, SOCKHURDLE_SLOTS));
    keep();
    uint16_t pin = (uint16_t)out[SOCKHURDLE_OUT_SLOT];
    printf("next page: top and bottom=%" PRIu64 "\n", read_tile(3));
    good(sockhurdle_unpin(table, SOCKHURDLE_WORDS, pin, out, SOCKHURDLE_OUT));
    if (sockhurdle_unpin(table, SOCKHURDLE_WORDS, pin, out, SOCKHURDLE_OUT) == SOCKHURDLE_FREE_PIN)
        printf("refusal 16: pin %" PRIu64 " is free\n", out[SOCKHURDLE_OUT_SLOT]);
    return 0;
}
