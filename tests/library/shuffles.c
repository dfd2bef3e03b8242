/* Prints what the function of bindings/browser/tests/shuffle.ll makes of bytes and indices, which
 * are made at random of the number that is given. */
#include <stdint.h>
#include <stdio.h>
#include <stdlib.h>

void shuffle(const uint8_t *bytes, const uint8_t *indices, uint8_t *out);

int main(int argc, char **argv) {
  uint64_t state = argc > 1 ? strtoull(argv[1], NULL, 10) | 1 : 1;
  for (int round = 0; round < 20000; round++) {
    uint8_t given[32], out[16];
    for (int at = 0; at < 32; at++) {
      state ^= state << 13;
      state ^= state >> 7;
      state ^= state << 17;
      given[at] = (uint8_t)(state >> 32);
    }
    shuffle(given, given + 16, out);
    fwrite(out, 1, sizeof out, stdout);
  }
  return 0;
}
