/* What the programs have in common that find the text of one of many messages, which messages.py names. */
#ifndef ASKED_H
#define ASKED_H

#include <string.h>
#include <sys/resource.h>

#include "measuring.h"

enum { TURNS = 200000, ID_ROOM = 32 };

/* Finds the text of a message, and returns its length; 0 where there is none. */
typedef size_t question(const char *id, size_t len);

static question *ask;
static unsigned messages;

static void ask_one(unsigned message) {
  char id[ID_ROOM];
  size_t len = (size_t)snprintf(id, sizeof id, "message-%07u", message);
  if (ask(id, len) == 0) exit(1);
}

/* (always the same messages, at random) */
static void ask_any(void) {
  static uint64_t it = 1;
  it = it * 6364136223846793005u + 1442695040888963407u;
  ask_one((unsigned)((it >> 33) % messages));
}

/* The page faults of this process and the most kilobytes that it held. (The kernel counts in ru_maxrss what the process
 * held that became this one.) */
static void report(void) {
  struct rusage used;
  char line[256];
  long most = 0;
  getrusage(RUSAGE_SELF, &used);
  FILE *from = fopen("/proc/self/status", "r");
  if (!from) exit(2);
  while (fgets(line, sizeof line, from))
    if (sscanf(line, "VmHWM: %ld", &most) == 1) break;
  fclose(from);
  printf("%ld %ld\n", used.ru_minflt + used.ru_majflt, most);
}

/* `each`: the time of a question of any of so many messages. `once`: asks one message, and reports. `none`: reports. */
static int asked(const char *how, const char *count, question find) {
  ask = find;
  messages = (unsigned)strtoul(count, NULL, 10);
  if (!strcmp(how, "once")) ask_one(messages / 3);
  if (!strcmp(how, "each"))
    printf("%.0f\n", least_of(ask_any, TURNS));
  else
    report();
  return 0;
}

#endif
