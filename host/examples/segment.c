/* The same host in C. Build it, after host/build, by
   cc -I target/host -o segment host/examples/segment.c target/host/libsockhurdle_host.a */
#include <stdio.h>
#include <string.h>

#include "sockhurdle_host.h"

static uint8_t segment[SOCKHURDLE_IMAGE_LEN];

static void put_slot(int slot, uint64_t txid, uint64_t snapshot_xmin)
{
    sockhurdle_put(segment + 16 * slot, txid);
    sockhurdle_put(segment + 16 * slot + 8, snapshot_xmin);
}

static const char *word(uint64_t answer)
{
    switch (answer) {
    case SOCKHURDLE_NO:
        return "false";
    case SOCKHURDLE_YES:
        return "true";
    case SOCKHURDLE_ZERO_TXID:
        return "refusal 4: the id is 0";
    case SOCKHURDLE_BAD_SNAPSHOT:
        return "refusal 10: more ids than slots";
    case SOCKHURDLE_BAD_IMAGE:
        return "refusal 18: bytes of another length";
    }
    return "no answer";
}

int main(void)
{
    /* A segment that another process wrote: two transactions, 5 and 9, a pinned snapshot, and the counters. */
    put_slot(0, 5, 4);
    put_slot(1, 9, 5);
    sockhurdle_put(segment + SOCKHURDLE_PINS_AT, 4);
    sockhurdle_put(segment + SOCKHURDLE_CLOCK_AT, 12);
    sockhurdle_put(segment + SOCKHURDLE_SAMPLE_AT, 11);
    sockhurdle_put(segment + SOCKHURDLE_LINE_AT, 4);
    printf("the segment passes: %s\n", word(sockhurdle_check_image(segment, sizeof segment)));

    /* Slot 1's txid is written over with slot 0's, as a torn write may. */
    memmove(segment + 16, segment, 8);
    printf("with 5 in two slots: %s\n", word(sockhurdle_check_image(segment, sizeof segment)));
    printf("one byte short: %s\n", word(sockhurdle_check_image(segment, sizeof segment - 1)));

    /* A reader's snapshot: everything below 12 is settled but 5 and 9, which were in flight. */
    uint8_t list[2 * 8];
    sockhurdle_put(list, 5);
    sockhurdle_put(list + 8, 9);
    static const uint64_t makers[] = {4, 5, 9, 11, 12};
    for (size_t i = 0; i < sizeof makers / sizeof *makers; i++)
        printf("made by %d: settled %s, usable by 9 %s\n", (int)makers[i],
               word(sockhurdle_settled(12, list, sizeof list, makers[i])),
               word(sockhurdle_usable(12, list, sizeof list, makers[i], 9)));
    return 0;
}
