/* The settled test, the usable test and the table check, for a host in C. Link libsockhurdle_host.a, which host/build makes
   from proved code: each function ends, reads the bytes that it is lent and nothing else, and writes nothing. docs/SPEC.md
   has the rules: section 18 these functions, 6 the table check, 7 the two tests.

   A slice is a pointer and a length in bytes. The pointer is not null, and needs no alignment; nobody writes these bytes
   during the call. Any bytes and any length are answered. */
#ifndef SOCKHURDLE_HOST_H
#define SOCKHURDLE_HOST_H

#include <stddef.h>
#include <stdint.h>

#ifdef __cplusplus
extern "C" {
#endif

/* How many slots a table has, and so how many ids a list may have. */
#define SOCKHURDLE_SLOTS 1024

/* How many pins a table has. */
#define SOCKHURDLE_PINS 64

/* The image of a table: each number is 8 bytes, the least byte first. Slot after slot its txid, then its snapshot_xmin; then
   the pins; then the clock, the sampled clock and the vacuum line. */
#define SOCKHURDLE_PINS_AT (16 * SOCKHURDLE_SLOTS)
#define SOCKHURDLE_CLOCK_AT (SOCKHURDLE_PINS_AT + 8 * SOCKHURDLE_PINS)
#define SOCKHURDLE_SAMPLE_AT (SOCKHURDLE_CLOCK_AT + 8)
#define SOCKHURDLE_LINE_AT (SOCKHURDLE_SAMPLE_AT + 8)
#define SOCKHURDLE_IMAGE_LEN (SOCKHURDLE_LINE_AT + 8)

/* The answers. */
#define SOCKHURDLE_NO 0
#define SOCKHURDLE_YES 1
#define SOCKHURDLE_ZERO_TXID 4     /* the id asked about is 0 */
#define SOCKHURDLE_BAD_SNAPSHOT 10 /* the list has more ids than a table has slots */
#define SOCKHURDLE_BAD_IMAGE 18    /* the bytes have the length of no list, or of no image */

/* Whether every reader of a snapshot may use what `id` made: it is below xmax and not in the list, the ids that were in flight.
   Yes, no, or refusals 18, 10, 4, in this order. */
uint64_t sockhurdle_settled(uint64_t xmax, const uint8_t *list, size_t list_len, uint64_t id);

/* Whether one reader may: the id is settled, or the reader's own (0 for none). The answers are the same. */
uint64_t sockhurdle_usable(uint64_t xmax, const uint8_t *list, size_t list_len, uint64_t id, uint64_t own);

/* Whether the table of an image passes the table check. Yes, no, or refusal 18. */
uint64_t sockhurdle_check_image(const uint8_t *image, size_t image_len);

/* A table in your own memory: one run of words of 64 bits. The txids of the slots, their snapshot_xmins, the pins; then the clock, the
   sampled clock and the vacuum line. docs/SPEC.md, section 20. Of these functions, beside what is said above: lengths are in words,
   a pointer is aligned as uint64_t is, the runs of a call do not overlap, and nobody else reads or writes them during it: one lock
   for each table is yours to hold. A run of any length is answered: 18 for a table of another length, 12 where an answer has no
   room; then nothing is written. */
#define SOCKHURDLE_WORDS (2 * SOCKHURDLE_SLOTS + SOCKHURDLE_PINS + 3)

/* How many words an answer takes, and what stands where. */
#define SOCKHURDLE_OUT 8
#define SOCKHURDLE_OUT_SLOT 0
#define SOCKHURDLE_OUT_ID 1
#define SOCKHURDLE_OUT_SEEN 2
#define SOCKHURDLE_OUT_XMIN 3
#define SOCKHURDLE_OUT_XMAX 4
#define SOCKHURDLE_OUT_LINE 5
#define SOCKHURDLE_OUT_COUNT 6
#define SOCKHURDLE_OUT_HOLDER 7

/* The holder is a slot's number, this and a pin's, or nobody. */
#define SOCKHURDLE_FIRST_PIN 2000
#define SOCKHURDLE_NOBODY 65535

/* The refusals of these functions, beside 4 and 18. */
#define SOCKHURDLE_NO_FREE_SLOT 1            /* all slots are taken; the number is used up */
#define SOCKHURDLE_INVALID_SLOT 2            /* no slot has this number */
#define SOCKHURDLE_SLOT_OWNERSHIP_MISMATCH 3 /* the slot holds another txid, or none */
#define SOCKHURDLE_CLOCK_EXHAUSTED 5         /* the clock has no number left */
#define SOCKHURDLE_BAD_RESERVATION 6         /* the number is 0, below the clock, or the largest of all */
#define SOCKHURDLE_BAD_CLOCK 7               /* the clock is below the table's */
#define SOCKHURDLE_BAD_SAMPLE 8              /* the sample is 0 or above the clock */
#define SOCKHURDLE_NO_ROOM 12                /* a run has no room for the answer */
#define SOCKHURDLE_ENDED_BEFORE 17           /* of a batch: the ender of a version is below its maker */
#define SOCKHURDLE_WILD_JUMP 13              /* the number lies too far above the clock */
#define SOCKHURDLE_NO_FREE_PIN 14            /* all pins are taken */
#define SOCKHURDLE_INVALID_PIN 15            /* no pin has this number */
#define SOCKHURDLE_FREE_PIN 16               /* the pin is free */

/* How many words a table has. */
size_t sockhurdle_words(void);

/* Makes a run of words the fresh table. 0, or refusal 18. */
uint64_t sockhurdle_fresh(uint64_t *table, size_t table_len);

/* Whether words that somebody else wrote are a table that passes the table check. Yes, no, or refusal 18. */
uint64_t sockhurdle_check(const uint64_t *table, size_t table_len);

/* Each answers 0, or the number of its refusal, and writes the rest of its answer into the first words of `out`. */
uint64_t sockhurdle_begin(uint64_t *table, size_t table_len, uint64_t number, uint64_t *out, size_t out_len);
uint64_t sockhurdle_end(uint64_t *table, size_t table_len, uint16_t slot, uint64_t id, uint64_t *out, size_t out_len);
uint64_t sockhurdle_stamp(uint64_t *table, size_t table_len, uint64_t number, uint64_t *out, size_t out_len);
uint64_t sockhurdle_finish(uint64_t *table, size_t table_len, uint16_t slot, uint64_t id, uint64_t number, uint64_t *out, size_t out_len);
uint64_t sockhurdle_unpin(uint64_t *table, size_t table_len, uint16_t pin, uint64_t *out, size_t out_len);
uint64_t sockhurdle_oldest(uint64_t *table, size_t table_len, uint64_t clock, uint64_t sample, uint64_t *out, size_t out_len);
uint64_t sockhurdle_vacuum(uint64_t *table, size_t table_len, uint64_t clock, uint64_t sample, uint64_t *out, size_t out_len);

/* The three snapshots: a plain one, a transaction's, and a pinned one, whose pin `out` has as slot. xmin, xmax and the count are in
   `out`, the ids in flight in the first places of `ids`, which has SOCKHURDLE_SLOTS at least (12 otherwise); a refusal leaves it. */
uint64_t sockhurdle_snap(uint64_t *table, size_t table_len, uint64_t clock, uint64_t sample, uint64_t *out, size_t out_len, uint64_t *ids, size_t ids_len);
uint64_t sockhurdle_own(uint64_t *table, size_t table_len, uint16_t slot, uint64_t id, uint64_t clock, uint64_t sample, uint64_t *out, size_t out_len, uint64_t *ids, size_t ids_len);
uint64_t sockhurdle_pin(uint64_t *table, size_t table_len, uint64_t clock, uint64_t sample, uint64_t *out, size_t out_len, uint64_t *ids, size_t ids_len);

/* A version that a vacuum asks about: its maker's id and its ender's, 0 where it is alive. An ender that was given up is told as 0. */
struct sockhurdle_version {
    uint64_t maker;
    uint64_t ender;
};

/* Decides which versions may be removed by a line, 1 for each that may go, else 0, in the first bytes of `run`. 0, or refusal 12 where
   `run` has fewer bytes than there are versions or `out` has no word, then 4 or 17 of the first bad version, whose place is then in
   the first word of `out`. A refusal writes no decision. */
uint64_t sockhurdle_batch(uint64_t line, const struct sockhurdle_version *versions, size_t versions_len, uint8_t *run, size_t run_len, uint64_t *out, size_t out_len);

/* Puts a number as its 8 bytes. */
static inline void sockhurdle_put(uint8_t *at, uint64_t number)
{
    for (int i = 0; i < 8; i++)
        at[i] = (uint8_t)(number >> (8 * i));
}

#ifdef __cplusplus
}
#endif

#endif
