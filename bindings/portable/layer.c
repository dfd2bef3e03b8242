/* What all calls share: one module, which one call at a time uses, and the copies of what a call is
 * passed and answers, as a module sees its own memory alone. Tried, not proved. */
#ifdef _WIN32
#include <windows.h>
static SRWLOCK lock = SRWLOCK_INIT;
static void take_lock(void) { AcquireSRWLockExclusive(&lock); }
static void leave_lock(void) { ReleaseSRWLockExclusive(&lock); }
static void keep_lock_over_forks(void) {}
#else
#include <pthread.h>
static pthread_mutex_t lock = PTHREAD_MUTEX_INITIALIZER;
static void take_lock(void) { pthread_mutex_lock(&lock); }
static void leave_lock(void) { pthread_mutex_unlock(&lock); }
static void keep_lock_over_forks(void) { pthread_atfork(take_lock, leave_lock, leave_lock); }
#endif

/* The bytes that are kept for calls that need no more, so that one of them never lacks memory. */
#define KEPT 4096u
#define MOST 0xffffffffu
/* The bytes that a text of a length takes: too many where it is longer than a memory. */
#define TAKES(len) (((u64)((len) < MOST ? (len) : MOST) + 15) / 16 * 16)
#define OUT_OF_MEMORY 26u

static MODULE module;
static u64 kept, block, next;

static bool is_ready(void) {
  void *enough;
  if (kept) return true;
  if (!module.w2c_memory.data) {
    /* (wasm2c has no way to say that there is no memory to begin with) */
    enough = malloc(FIRST_MEMORY);
    if (!enough) return false;
    free(enough);
    CALL(_init_module)();
    CALL(_instantiate)(&module);
    keep_lock_over_forks();
  }
  kept = CALL(Z_allocate)(&module, KEPT);
  return kept != 0;
}

/* Begins a call whose texts, room and structs take so many bytes; false where there is no memory
 * for them, and then the call has ended. */
static bool begin(u64 bytes) {
  take_lock();
  block = 0;
  if (is_ready()) block = bytes <= KEPT ? kept : CALL(Z_allocate)(&module, bytes);
  next = block;
  if (!block) leave_lock();
  return block != 0;
}

static void end(void) {
  if (block != kept) CALL(Z_release)(&module, block);
  leave_lock();
}

static u64 room(size_t len) {
  u64 at = next;
  next += TAKES(len);
  return at;
}

#if WABT_BIG_ENDIAN
static void put_bytes(u64 at, const uint8_t *from, size_t len) {
  uint8_t *to = module.w2c_memory.data + module.w2c_memory.size - at;
  while (len--) *--to = *from++;
}

static void get_bytes(uint8_t *to, u64 at, size_t len) {
  const uint8_t *from = module.w2c_memory.data + module.w2c_memory.size - at;
  while (len--) *to++ = *--from;
}
#else
static void put_bytes(u64 at, const uint8_t *from, size_t len) {
  memcpy(module.w2c_memory.data + at, from, len);
}

static void get_bytes(uint8_t *to, u64 at, size_t len) {
  memcpy(to, module.w2c_memory.data + at, len);
}
#endif

static u64 put_text(const uint8_t *from, size_t len) {
  u64 at = room(len);
  if (len) put_bytes(at, from, len);
  return at;
}

/* An answer, where it has bytes and they fit. */
static void get_answer(uint8_t *out, size_t out_len, u64 at, size_t len) {
  if (len && len <= out_len) get_bytes(out, at, len);
}

static void put_number(u64 at, u64 number) { i64_store(&module.w2c_memory, at, number); }
static u64 get_number(u64 at) { return i64_load(&module.w2c_memory, at); }
static uint32_t get_half(u64 at) { return i32_load(&module.w2c_memory, at); }
