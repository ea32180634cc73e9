/* The heap of the library on other machines than x86-64: what the kit's object for x86-64 does, over malloc, realloc and free.
   No size of 0 is asked for. The first word of a result is 1 if there is memory; the second one is the block, and never null. */

typedef struct {
  unsigned long found;
  void *block;
} got;

void *malloc(unsigned long size);
void *realloc(void *block, unsigned long size);
void free(void *block);

static char nothing;

static got got_of(void *block) {
  got it = {block != 0, block ? block : &nothing};
  return it;
}

got rattle_alloc(unsigned long size, unsigned long align) { return got_of(malloc(size ? size : align)); }

got rattle_realloc(void *block, unsigned long old, unsigned long size, unsigned long align) {
  (void)old;
  return got_of(realloc(block, size ? size : align));
}

void rattle_dealloc(void *block) { free(block); }
