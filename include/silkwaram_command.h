/* The whole command `lexicat` in one call, for C and C++: what a process of it reads and writes, in memory. Link with
 * libsilkwaram-command.a, which is beside libsilkwaram and needs nothing of it. docs/COMMAND.md says what the command
 * does, docs/LIBRARY.md leads in.
 *
 * The status, both texts and told->input_read are proved to be those of the command for these arguments and this input.
 * Not proved: time, stack and memory, which are measured; the texts of help, usage and refusals, which are tried.
 *
 * What the caller owes, which nothing checks: that texts can be read, and buffers and `told` written, for their whole
 * length; that what the call writes to overlaps nothing else that is passed to it, and no other thread touches it
 * during the call; that the thread has 160 KiB of stack left; that the call is not made from a signal handler; and that
 * malloc, realloc and free are those of one allocator, which aligns blocks as the C standard asks. Calls of several
 * threads may run at once. */
#ifndef SILKWARAM_COMMAND_H
#define SILKWARAM_COMMAND_H

#include <stddef.h>
#include <stdint.h>

#ifdef __cplusplus
extern "C" {
#endif

/* A text: bytes with a length, which need no zero byte at the end. One of length 0 may be NULL. */
typedef struct sw_text {
  const uint8_t *text;
  size_t len;
} sw_text;

/* What the call reports beside its status. */
typedef struct sw_command_told {
  size_t out_len;      /* bytes of standard output, also where `out` has no room for them */
  size_t err_len;      /* bytes of standard error, also where `err` has no room for them */
  uint32_t input_read; /* 1 if the command read its input; 0 if not: then the answer is the same for any input */
} sw_command_told;

/* Runs the command on the arguments after its name, over an input. The status is that of the process: 0 answered,
 * 1 nothing found, 2 usage, 3 refused, 5 out of memory. (4 does not come, as no read and no write fails.)
 *
 * What the command writes to standard output goes to the front of `out`, and what it reports on standard error to the
 * front of `err`, without a zero byte after it; the rest of a buffer is not touched. Where a text has more bytes than
 * its buffer nothing is written to that buffer, and the status is the same as with room: call again with the lengths
 * that `told` has. `told` is written whatever the status.
 *
 * `pick`, `new`, `explain`, help, the version, usage faults and refused arguments do not read the input. To read an
 * input only if it is needed, call without one first, and again with it if told->input_read is 1. An input of more than
 * 67,108,864 bytes is refused (23). An argument that is not UTF-8 is a usage fault, and one may hold a zero byte.
 *
 * The call prints nothing, waits for nothing, opens no file, does not end the process, and keeps no pointer. */
int32_t sw_command(const sw_text *words, size_t count, const uint8_t *input, size_t input_len, uint8_t *out,
                   size_t out_len, uint8_t *err, size_t err_len, sw_command_told *told);

#ifdef __cplusplus
}
#endif

#endif
