/* Nanoseconds of processor time of ICU's nearest call: which of 8 languages fits an Accept-Language field. */
#include <unicode/uenum.h>
#include <unicode/uloc.h>

#include "measuring.h"

enum { CALLS = 2000, TAGS = 8, ROOM = 64 };

static UEnumeration *held;
static UErrorCode fault = U_ZERO_ERROR;

static void accept(void) {
  char out[ROOM];
  UAcceptResult result;
  fault = U_ZERO_ERROR;
  uenum_reset(held, &fault);
  uloc_acceptLanguageFromHTTP(out, ROOM, &result, "da, en-GB;q=0.8, en;q=0.7", held, &fault);
}

int main(void) {
  const char *tags[TAGS] = {"en", "fr", "de", "es", "it", "pt-BR", "ja", "zh-Hant"};
  held = uenum_openCharStringsEnumeration(tags, TAGS, &fault);
  double least = least_of(accept, CALLS);
  uenum_close(held);
  if (U_FAILURE(fault)) return 1;
  printf("| ICU's `uloc_acceptLanguageFromHTTP` from C | %.0f |\n", least);
  return 0;
}
