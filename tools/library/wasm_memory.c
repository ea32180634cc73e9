/* The heap of the library in WebAssembly, and what a compiler may call. It is not proved.
   A block has a power of two bytes, at least 32, of which the first 16 say how large it is. Free blocks of a size are a list. */

typedef unsigned long size;
typedef unsigned __int128 wide;

enum { HEAD = 16, LEAST = 5, KINDS = 64, PAGE = 65536 };

typedef struct block {
  size kind;
  struct block *next;
} block;

extern char __heap_base;
static block *free_blocks[KINDS];
static size end;

/* The least kind whose blocks have room for so many bytes and their head. */
static size kind_of(size wanted) {
  size kind = LEAST;
  while (kind < KINDS - 1 && ((size)1 << kind) - HEAD < wanted) kind++;
  return kind;
}

/* A new block at the end of what was given out; null if the memory does not grow so far. */
static block *at_the_end(size kind) {
  size length = (size)1 << kind, have = __builtin_wasm_memory_size(0) * PAGE;
  if (!end) end = ((size)&__heap_base + HEAD - 1) & ~(size)(HEAD - 1);
  if (length > ((size)1 << 40)) return 0;
  if (end + length > have) {
    size pages = (end + length - have + PAGE - 1) / PAGE;
    if (__builtin_wasm_memory_grow(0, pages) == (size)-1) return 0;
  }
  block *made = (block *)end;
  end += length;
  return made;
}

void *malloc(size wanted) {
  size kind = kind_of(wanted);
  block *found = free_blocks[kind];
  if (found) {
    free_blocks[kind] = found->next;
  } else if (!(found = at_the_end(kind))) {
    return 0;
  }
  found->kind = kind;
  return (char *)found + HEAD;
}

void free(void *given) {
  if (!given) return;
  block *it = (block *)((char *)given - HEAD);
  it->next = free_blocks[it->kind];
  free_blocks[it->kind] = it;
}

void *memcpy(void *to, const void *from, size length) {
  for (size i = 0; i < length; i++) ((char *)to)[i] = ((const char *)from)[i];
  return to;
}

void *memmove(void *to, const void *from, size length) {
  if (to <= from) return memcpy(to, from, length);
  for (size i = length; i > 0; i--) ((char *)to)[i - 1] = ((const char *)from)[i - 1];
  return to;
}

void *memset(void *to, int byte, size length) {
  for (size i = 0; i < length; i++) ((char *)to)[i] = (char)byte;
  return to;
}

void *realloc(void *given, size wanted) {
  if (!given) return malloc(wanted);
  size room = ((size)1 << ((block *)((char *)given - HEAD))->kind) - HEAD;
  if (wanted <= room) return given;
  void *made = malloc(wanted);
  if (!made) return 0;
  memcpy(made, given, room);
  free(given);
  return made;
}

/* A number of 128 bits by its halves, of whose operations clang makes calls. */
typedef union halves {
  wide whole;
  struct {
    size low, high;
  };
} halves;

wide __lshrti3(wide number, int bits) {
  halves it = {number}, made = {0};
  if (bits >= 64) {
    made.low = it.high >> (bits - 64);
  } else if (bits) {
    made.low = it.low >> bits | it.high << (64 - bits);
    made.high = it.high >> bits;
  } else {
    made = it;
  }
  return made.whole;
}

wide __ashlti3(wide number, int bits) {
  halves it = {number}, made = {0};
  if (bits >= 64) {
    made.high = it.low << (bits - 64);
  } else if (bits) {
    made.high = it.high << bits | it.low >> (64 - bits);
    made.low = it.low << bits;
  } else {
    made = it;
  }
  return made.whole;
}

/* The low 128 bits of a product. */
wide __multi3(wide one, wide other) {
  const size low = 0xffffffff;
  halves a = {one}, b = {other}, made;
  size first = (a.low & low) * (b.low & low), second = (a.low >> 32) * (b.low & low), third = (a.low & low) * (b.low >> 32);
  size middle = (first >> 32) + (second & low) + (third & low);
  made.low = middle << 32 | (first & low);
  made.high = (a.low >> 32) * (b.low >> 32) + (second >> 32) + (third >> 32) + (middle >> 32) + a.high * b.low + a.low * b.high;
  return made.whole;
}

/* The remainder, bit by bit. */
wide __umodti3(wide one, wide other) {
  halves number = {one}, rest = {0};
  for (int bit = 127; bit >= 0; bit--) {
    const size next = (bit >= 64 ? number.high >> (bit - 64) : number.low >> bit) & 1, is_over = rest.high >> 63;
    rest.high = rest.high << 1 | rest.low >> 63;
    rest.low = rest.low << 1 | next;
    if (is_over || rest.whole >= other) rest.whole -= other;
  }
  return rest.whole;
}
