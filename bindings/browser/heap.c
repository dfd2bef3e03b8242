/* The heap of the WebAssembly module: the three functions that the proved code calls for memory,
 * over a memory that grows. Tried, not proved.
 *
 * Blocks lie one after the other. Each begins with its size and that of the block before it, so
 * a block that is freed is joined with free neighbours at once. Free blocks are in lists by
 * size, eight to each power of two, and a bit for each list that is not empty; so taking and
 * giving back cost the same however many blocks there are. */
typedef __SIZE_TYPE__ size;
typedef unsigned char byte;
_Static_assert(sizeof(size) == 8, "the module was made for 64 bits");

#define UNIT 16u       /* sizes and addresses of blocks are multiples of it */
#define HEAD 16u       /* bytes of a block before its contents */
#define LEAST_BLOCK 32u
#define IN_USE 1u      /* in `size`, beside the bytes */
#define LARGEST ((size)1 << 40)
#define FINE_BITS 3
#define FINE (1u << FINE_BITS)
#define PAGE ((size)65536)
#define FIRST_GROWTH ((size)1 << 20)

typedef struct block {
  size bytes;          /* of the whole block, and IN_USE */
  size bytes_before;   /* of the block before this one; 0 for the first of a region */
  struct block *next, *previous;   /* of a free block alone: its list */
} block;

/* What the proved code gets of an allocation: whether there is memory, and its address. */
typedef struct {
  size is_there;
  byte *at;
} allocated;

extern byte __heap_base;
static block *lists[64][FINE];
static size coarse;         /* bit f: a list of lists[f] is not empty */
static byte fine[64];       /* bit s: lists[f][s] is not empty */
static byte *region_end;    /* after the last block, where the mark of the end is */
static size taken;          /* bytes of the blocks that are in use */
static byte nowhere[UNIT];  /* the address where there is no memory */

static size bytes_of(const block *b) { return b->bytes & ~(size)IN_USE; }
static block *after(const block *b) { return (block *)((byte *)b + bytes_of(b)); }
static byte *contents(block *b) { return (byte *)b + HEAD; }
static block *block_of(byte *at) { return (block *)(at - HEAD); }
static unsigned top_bit(size n) { return 63u - (unsigned)__builtin_clzl(n); }

static void place_of(size bytes, unsigned *f, unsigned *s) {
  *f = top_bit(bytes);
  *s = (unsigned)(bytes >> (*f - FINE_BITS)) & (FINE - 1);
}

static void put_in_list(block *b) {
  unsigned f, s;
  place_of(b->bytes, &f, &s);
  b->previous = 0;
  b->next = lists[f][s];
  if (b->next) b->next->previous = b;
  lists[f][s] = b;
  fine[f] |= (byte)(1u << s);
  coarse |= (size)1 << f;
}

static void take_from_list(block *b) {
  unsigned f, s;
  place_of(b->bytes, &f, &s);
  if (b->next) b->next->previous = b->previous;
  if (b->previous) {
    b->previous->next = b->next;
    return;
  }
  lists[f][s] = b->next;
  if (b->next) return;
  fine[f] &= (byte)~(1u << s);
  if (!fine[f]) coarse &= ~((size)1 << f);
}

/* A free block of at least so many bytes, from the first list that has none that is smaller; or
 * none. */
static block *find(size bytes) {
  unsigned f, s, rest;
  size higher;
  place_of(bytes + ((size)1 << (top_bit(bytes) - FINE_BITS)) - 1, &f, &s);
  rest = fine[f] & (~0u << s);
  if (!rest) {
    higher = f < 63 ? coarse & (~(size)0 << (f + 1)) : 0;
    if (!higher) return 0;
    f = (unsigned)__builtin_ctzl(higher);
    rest = fine[f];
  }
  return lists[f][__builtin_ctz(rest)];
}

/* Makes a free block of a stretch that is in no list, joins it with the free blocks beside it,
 * and puts it into its list. The block after it has to be there already. */
static block *make_free(block *b, size bytes) {
  block *next = (block *)((byte *)b + bytes);
  if (!(next->bytes & IN_USE)) {
    take_from_list(next);
    bytes += next->bytes;
  }
  if (b->bytes_before) {
    block *before = (block *)((byte *)b - b->bytes_before);
    if (!(before->bytes & IN_USE)) {
      take_from_list(before);
      bytes += before->bytes;
      b = before;
    }
  }
  b->bytes = bytes;
  after(b)->bytes_before = bytes;
  put_in_list(b);
  return b;
}

/* Leaves in a block that is in use so many bytes, and makes what is after them free, if that is a
 * block. */
static void cut(block *b, size bytes) {
  size whole = bytes_of(b), rest = whole - bytes;
  block *other;
  if (rest < LEAST_BLOCK) return;
  b->bytes = bytes | IN_USE;
  other = after(b);
  other->bytes_before = bytes;
  make_free(other, rest);
}

/* A stretch of new memory becomes a free block; where it follows the region that is there, of that
 * one. */
static void add_memory(byte *from, byte *to) {
  block *b, *end;
  if (from == region_end) {
    b = (block *)(from - HEAD);   /* the mark of the end */
  } else {
    b = (block *)(((size)from + UNIT - 1) & ~(size)(UNIT - 1));
    b->bytes_before = 0;
  }
  end = (block *)(to - HEAD);
  end->bytes = IN_USE;            /* (of no bytes: only its head is there, and it is never freed) */
  region_end = to;
  make_free(b, (size)((byte *)end - (byte *)b));
}

static int grow(size bytes) {
  size pages = (bytes + PAGE - 1) / PAGE, old = __builtin_wasm_memory_grow(0, pages);
  /* (wasm-opt makes 32 bits of it, of which -1 is a refusal, and widens them without their sign) */
  if ((unsigned)old == ~0u) return 0;
  add_memory((byte *)(old * PAGE), (byte *)((old + pages) * PAGE));
  return 1;
}

/* Asks the host for memory in which a block of so many bytes is found: for an eighth of what
 * there is, so that many small requests do not each grow it; and where that is refused, for no
 * more than is needed. */
static int get_memory(size bytes) {
  size there = (size)__builtin_wasm_memory_size(0) * PAGE, wanted;
  if (!region_end) {
    add_memory(&__heap_base, (byte *)there);
    return 1;
  }
  /* (`find` looks in lists whose blocks are all large enough, so a list's width more) */
  bytes += ((size)1 << (top_bit(bytes) - FINE_BITS)) + HEAD;
  wanted = there / 8 > FIRST_GROWTH ? there / 8 : FIRST_GROWTH;
  return (bytes < wanted && grow(wanted)) || grow(bytes);
}

static size block_bytes(size n) {
  size bytes = (n + HEAD + UNIT - 1) & ~(size)(UNIT - 1);
  return bytes < LEAST_BLOCK ? LEAST_BLOCK : bytes;
}

static byte *take(size n) {
  size bytes;
  block *b;
  if (n > LARGEST) return 0;
  bytes = block_bytes(n);
  while (!(b = find(bytes)))
    if (!get_memory(bytes)) return 0;
  take_from_list(b);
  b->bytes |= IN_USE;
  cut(b, bytes);
  taken += bytes_of(b);
  return contents(b);
}

static void give_back(byte *at) {
  block *b = block_of(at);
  taken -= bytes_of(b);
  make_free(b, bytes_of(b));
}

/* Changes the size of a block where it lies, if there is room. */
static int resize(byte *at, size n) {
  block *b = block_of(at), *next = after(b);
  size bytes = block_bytes(n), old = bytes_of(b);
  if (bytes > old) {
    if ((next->bytes & IN_USE) || old + next->bytes < bytes) return 0;
    take_from_list(next);
    b->bytes = (old + next->bytes) | IN_USE;
    after(b)->bytes_before = bytes_of(b);
  }
  cut(b, bytes);
  taken += bytes_of(b) - old;
  return 1;
}

allocated rattle_alloc(size n, size alignment) {
  byte *at = alignment > UNIT ? 0 : take(n);
  return at ? (allocated){1, at} : (allocated){0, nowhere};
}

void rattle_dealloc(byte *at) {
  if (at && at != nowhere) give_back(at);
}

allocated rattle_realloc(byte *at, size kept, size n, size alignment) {
  size old;
  byte *other;
  (void)kept;
  if (!at || at == nowhere) return rattle_alloc(n, alignment);
  if (n > LARGEST || alignment > UNIT) return (allocated){0, nowhere};
  if (resize(at, n)) return (allocated){1, at};
  other = take(n);
  if (!other) return (allocated){0, nowhere};
  old = bytes_of(block_of(at)) - HEAD;
  __builtin_memcpy(other, at, old < n ? old : n);
  give_back(at);
  return (allocated){1, other};
}

/* For the host: memory for a text, or 0; its return; and how many bytes are in use, with what
 * the heap itself takes. */
byte *allocate(size n) { return take(n); }
void release(byte *at) { rattle_dealloc(at); }
size bytes_in_use(void) { return taken; }

/* What LLVM calls by these names. (Copies and fills are instructions of WebAssembly.) */
int memcmp(const void *one, const void *other, size n) {
  const byte *a = one, *b = other;
  for (size at = 0; at < n; at++)
    if (a[at] != b[at]) return a[at] < b[at] ? -1 : 1;
  return 0;
}

int bcmp(const void *one, const void *other, size n) { return memcmp(one, other, n); }
