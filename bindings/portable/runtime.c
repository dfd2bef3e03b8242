/* What the C of wasm2c calls: memory that grows, the table of functions, and the end of the process
 * at a fault, which the proved code has not. Tried, not proved. */
#define PAGE 65536u

#if !defined(__GNUC__) && !defined(_MSC_VER)
/* (of numbers that are not 0) */
static int bits_set(uint64_t it) {
  int count = 0;
  for (; it; it &= it - 1) count++;
  return count;
}
static int zeros_after(uint64_t it) { return bits_set(~it & (it - 1)); }
static int zeros_before(uint64_t it) {
  int count = 64;
  for (; it; it >>= 1) count--;
  return count;
}
#define __builtin_popcount bits_set
#define __builtin_popcountll bits_set
#define __builtin_ctz zeros_after
#define __builtin_ctzll zeros_after
#define __builtin_clz(it) (zeros_before(it) - 32)
#define __builtin_clzll zeros_before
#endif

static void wasm_rt_trap(wasm_rt_trap_t fault) {
  (void)fault;
  abort();
}

static bool wasm_rt_is_initialized(void) { return true; }

/* (no two types of the module are the same) */
static uint32_t wasm_rt_register_func_type(uint32_t parameters, uint32_t results, ...) {
  static uint32_t count;
  (void)parameters, (void)results;
  return ++count;
}

static uint32_t wasm_rt_grow_memory(wasm_rt_memory_t *it, uint32_t more) {
  uint32_t before = it->pages, size = it->size;
  uint8_t *data;
  if (more > it->max_pages - before) return ~(uint32_t)0;
  data = realloc(it->data, (size_t)(before + more) * PAGE);
  if (!data) return ~(uint32_t)0;
#if WABT_BIG_ENDIAN
  /* (wasm2c has the bytes of a memory in reverse there) */
  memmove(data + (size_t)more * PAGE, data, size);
  memset(data, 0, (size_t)more * PAGE);
#else
  memset(data + size, 0, (size_t)more * PAGE);
#endif
  it->data = data;
  it->pages = before + more;
  it->size = it->pages * PAGE;
  return before;
}

/* (a size of 32 bits is that of a page less than the most that there can be) */
static void wasm_rt_allocate_memory(wasm_rt_memory_t *it, uint32_t pages, uint32_t most) {
  *it = (wasm_rt_memory_t){NULL, 0, most < PAGE - 1 ? most : PAGE - 1, 0};
  if (wasm_rt_grow_memory(it, pages)) abort();
}

static void wasm_rt_free_memory(wasm_rt_memory_t *it) { free(it->data); }

static void wasm_rt_allocate_funcref_table(wasm_rt_funcref_table_t *it, uint32_t count,
                                           uint32_t most) {
  *it = (wasm_rt_funcref_table_t){calloc(count, sizeof *it->data), most, count};
  if (!it->data) abort();
}

static void wasm_rt_free_funcref_table(wasm_rt_funcref_table_t *it) { free(it->data); }
