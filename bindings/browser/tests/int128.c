/* Compares bindings/browser/int128.c with the compiler's own arithmetic of 128 bits, over edges and random numbers.
   usage: int128 SEED */
#define __multi3 own_product
#define __ashlti3 own_left
#define __lshrti3 own_right
#define __ashrti3 own_signed_right
#define __udivti3 own_quotient
#define __umodti3 own_rest
#include "../int128.c"

#include <stdio.h>
#include <stdlib.h>

static unsigned long state;

static unsigned long next(void) {
  state ^= state << 13;
  state ^= state >> 7;
  state ^= state << 17;
  return state;
}

/* A number of any length, with many near a power of two. */
static whole number(void) {
  whole it = ((whole)next() << 64 | next()) >> (next() % 128);
  switch (next() % 4) {
  case 0: return ((whole)1 << (next() % 128)) - next() % 2;
  case 1: return ~it;
  default: return it;
  }
}

static void check(int is, const char *what, whole a, whole b) {
  if (is) return;
  printf("%s of %016lx%016lx and %016lx%016lx\n", what, (long)(a >> 64), (long)a, (long)(b >> 64), (long)b);
  exit(1);
}

int main(int count, char **words) {
  if (count != 2) return 2;
  state = 2 * strtoul(words[1], NULL, 10) + 1;
  for (int round = 0; round < 1000000; round++) {
    whole a = number(), b = number();
    int n = (int)(next() % 128);
    check(own_product(a, b) == a * b, "the product", a, b);
    check(own_left(a, n) == a << n, "the left shift", a, (whole)n);
    check(own_right(a, n) == a >> n, "the right shift", a, (whole)n);
    check(own_signed_right((signed_whole)a, n) == (signed_whole)a >> n, "the signed right shift", a, (whole)n);
    if (b == 0) continue;
    check(own_quotient(a, b) == a / b, "the quotient", a, b);
    check(own_rest(a, b) == a % b, "the rest", a, b);
  }
  puts("1000000 of each operation");
  return 0;
}
