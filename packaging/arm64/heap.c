/* The kit's heap for arm64 Linux: the three functions that the proved code calls for memory, as the
 * kit has them for x86-64 (liblibc_c.a). Tried, not proved. */
#include <stddef.h>
#include <stdlib.h>

/* What the proved code gets of an allocation: whether there is memory, and its address. */
typedef struct {
  size_t is_there;
  void *at;
} allocated;

static allocated as_allocated(void *at) {
  static max_align_t nowhere;
  return at ? (allocated){1, at} : (allocated){0, &nowhere};
}

/* (glibc aligns each block to 16 bytes, and the proved code asks for no more) */
allocated rattle_alloc(size_t n, size_t alignment) {
  return as_allocated(malloc(n ? n : alignment));
}

allocated rattle_realloc(void *at, size_t kept, size_t n, size_t alignment) {
  (void)kept;
  return as_allocated(realloc(at, n ? n : alignment));
}

void rattle_dealloc(void *at) { free(at); }
