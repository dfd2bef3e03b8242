/* What the command calls beside read and write, for arm64 Linux: its arguments, and what a call
 * failed by, as the kit has them for x86-64 (libos_c.a). Tried, not proved. */
#include <errno.h>
#include <string.h>
#include <sys/types.h>

static int count;
static char **words;

/* (glibc calls it before main, with the arguments of main) */
__attribute__((constructor)) static void keep(int argc, char **argv) {
  count = argc;
  words = argv;
}

/* Puts argument i at the start of a buffer. Answers its length; -1 where there is none; -2 where it
 * does not fit, and then the buffer is full. */
ssize_t rattle_arg(size_t i, char *buffer, size_t room) {
  size_t len;
  if (i >= (size_t)count || !words[i]) return -1;
  len = strlen(words[i]);
  memcpy(buffer, words[i], len < room ? len : room);
  return len > room ? -2 : (ssize_t)len;
}

int rattle_errno(void) { return errno; }
void rattle_set_errno(int error) { errno = error; }
