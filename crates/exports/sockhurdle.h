/* The replay and the check of a wait, for a host in C. Link target/operator/libsockhurdle.a, which operator/build.sh makes of the crate exports_c,
   and the C library's -lm: a read that fails is told by errno, which a call of the mathematics sets aside before.
   Each function is proved: it ends and keeps to the memory that it is lent. */
#ifndef SOCKHURDLE_H
#define SOCKHURDLE_H

#include <stddef.h>
#include <stdint.h>

/* A whole replay into a buffer, without the second engine: the length of the output, which is never 0; or 0 where it had no
   room, and the buffer then begins with as many of its records as had. */
size_t sockhurdle_replay(const uint8_t *input, size_t input_len, uint8_t *out, size_t out_len);

/* Reads an input to its end, or until the buffer is full: the number of bytes, or SIZE_MAX where a read failed; errno
   is then that read's. A trace has at most 65,536 bytes, so a buffer of 65,537 tells a long one. */
size_t sockhurdle_read(int32_t from, uint8_t *into, size_t into_len);

/* A whole replay to a file descriptor, under proc-2 and proc-3 with the second engine's line: 0 where it went; 3 where the text is no trace, and refusal 9 went; 1 where a write
   failed, and what went is a beginning of the output. A host that wants 1 where a pipe's reader left ignores SIGPIPE. */
int32_t sockhurdle_replay_to(const uint8_t *input, size_t input_len, int32_t to);

/* Reads a trace from one descriptor and replays it to another: as sockhurdle_replay_to; or 2 where the input could not be
   read, and nothing was run or written. `int main(void) { return sockhurdle_run(0, 1); }` is a whole program. */
int32_t sockhurdle_run(int32_t from, int32_t to);

/* Checks what others did to a table while one waited for the lock. `table` is the text of the entry table, `wait` that of
   what happened; docs/SPEC.md has both (16.1, 16.4) and the report (16.5). The length of the report, which is never 0; or 0
   where it had no room, and nothing was written. 16,384 bytes are room for every report. */
size_t sockhurdle_wait(const uint8_t *table, size_t table_len, const uint8_t *wait, size_t wait_len,
                       uint8_t *out, size_t out_len);

/* The same for an owner, whose slot must not be touched. */
size_t sockhurdle_wait_owned(const uint8_t *table, size_t table_len, uint16_t slot, uint64_t id, const uint8_t *wait,
                             size_t wait_len, uint8_t *out, size_t out_len);

#endif
