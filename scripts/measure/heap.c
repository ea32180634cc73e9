/* Refuses growths of memory in a program before which LD_PRELOAD puts it, and tells the most bytes that it held at once.
 *
 * The environment's REFUSED is the number of the one growth that is refused, counted from the program's start. A program can
 * also command it, by growths of more bytes than any memory has:
 *   COMMANDS                  whether a growth was refused since the last command: memory if so, else none
 *   COMMANDS + n              from here on the nth growth is refused
 *   COMMANDS + ALL            from here on each growth is refused
 *   COMMANDS + THERE          memory, which tells that this library is there
 * Each of the first three ends what was commanded before. On descriptor 9 it writes `met` for each refused growth, and at
 * the program's end `peak` with the bytes, a line each.
 *
 * A program that is checked for bad accesses has an allocator of its own, to which its `malloc` and the others are jumps. There
 * each of the jumps is led to this library.
 */
#define _GNU_SOURCE
#include <dlfcn.h>
#include <errno.h>
#include <malloc.h>
#include <stdint.h>
#include <stdio.h>
#include <stdlib.h>
#include <string.h>
#include <sys/mman.h>
#include <unistd.h>

#define COMMANDS 0x5eed00000000ul
#define ALL 0x80000000ul
#define THERE 0xfffffffful

void *__libc_malloc(size_t size);
void *__libc_realloc(void *block, size_t size);
void *__libc_calloc(size_t count, size_t size);
void __libc_free(void *block);

static void *(*real_malloc)(size_t) = __libc_malloc;
static void *(*real_realloc)(void *, size_t) = __libc_realloc;
static void *(*real_calloc)(size_t, size_t) = __libc_calloc;
static void (*real_free)(void *) = __libc_free;

/* How many growths come until one is refused; 0: none is. */
static unsigned long left;
static int all_are;
static int was_refused;

static int is_refused(void) {
  if (!all_are && (left == 0 || --left != 0)) return 0;
  was_refused = 1;
  if (write(9, "met\n", 4) != 4 && errno != EBADF) _exit(99);
  errno = ENOMEM;
  return 1;
}

/* What a command gives. */
static void *obey(unsigned long command) {
  int tells = command == THERE || (command == 0 && was_refused);
  if (command != THERE) {
    all_are = command == ALL;
    left = all_are ? 0 : command;
    was_refused = 0;
  }
  if (tells) return real_malloc(1);
  errno = ENOMEM;
  return 0;
}

/* The bytes of all blocks, now and at most. */
static long held;
static long peak;

static long size_of(void *block) { return block ? (long)malloc_usable_size(block) : 0; }

/* Counts a block that the program got, and what it gave back for it. */
static void *counted(void *block, long given) {
  held += size_of(block) - given;
  if (held > peak) peak = held;
  return block;
}

static void *grown(size_t size) {
  if (size >= COMMANDS && size - COMMANDS <= THERE) return obey(size - COMMANDS);
  return is_refused() ? 0 : counted(real_malloc(size), 0);
}

/* A block that gets smaller is no growth. */
static void *regrown(void *block, size_t size) {
  long given = size_of(block);
  if (given < (long)size && is_refused()) return 0;
  void *other = real_realloc(block, size);
  return other ? counted(other, given) : 0;
}

static void *cleared(size_t count, size_t size) { return is_refused() ? 0 : counted(real_calloc(count, size), 0); }

static void released(void *block) {
  held -= size_of(block);
  real_free(block);
}

void *malloc(size_t size) { return grown(size); }
void *realloc(void *block, size_t size) { return regrown(block, size); }
void *calloc(size_t count, size_t size) { return cleared(count, size); }
void free(void *block) { released(block); }

/* Puts code near a place, which goes on at `to`, wherever that is. */
static uint8_t *far_jump(uint8_t *near, void *to) {
  for (uint8_t *at = (uint8_t *)((uintptr_t)near & ~0xfffful); near - at < 0x40000000; at -= 0x10000) {
    uint8_t *code = mmap(at, 4096, PROT_READ | PROT_WRITE | PROT_EXEC, MAP_PRIVATE | MAP_ANONYMOUS | MAP_FIXED_NOREPLACE, -1, 0);
    if (code == MAP_FAILED) continue;
    memcpy(code, "\x49\xbb", 2);
    memcpy(code + 2, &to, 8);
    memcpy(code + 10, "\x41\xff\xe3", 3);
    return code;
  }
  _exit(98);
}

/* Leads the jump of this name to `to`, and keeps where it went. */
static void lead(const char *name, void *to, void **went) {
  uint8_t *jump = dlsym(RTLD_DEFAULT, name);
  int32_t offset;
  if (*jump != 0xe9) _exit(97);
  memcpy(&offset, jump + 1, 4);
  *went = jump + 5 + offset;
  offset = far_jump(jump, to) - (jump + 5);
  uint8_t *page = (uint8_t *)((uintptr_t)jump & ~0xffful);
  if (mprotect(page, 8192, PROT_READ | PROT_WRITE | PROT_EXEC)) _exit(96);
  memcpy(jump + 1, &offset, 4);
  if (mprotect(page, 8192, PROT_READ | PROT_EXEC)) _exit(96);
}

/* Whether the program's `malloc` is another than this library's. */
static int has_its_own(void) {
  Dl_info theirs, ours;
  dladdr(dlsym(RTLD_DEFAULT, "malloc"), &theirs);
  dladdr((void *)is_refused, &ours);
  return theirs.dli_fbase != ours.dli_fbase;
}

__attribute__((constructor)) static void begin(void) {
  if (has_its_own()) {
    lead("malloc", (void *)grown, (void **)&real_malloc);
    lead("realloc", (void *)regrown, (void **)&real_realloc);
    lead("calloc", (void *)cleared, (void **)&real_calloc);
    lead("free", (void *)released, (void **)&real_free);
  }
  const char *word = getenv("REFUSED");
  left = word ? strtoul(word, 0, 10) : 0;
}

__attribute__((destructor)) static void end(void) {
  char line[40];
  ssize_t length = snprintf(line, sizeof line, "peak %ld\n", peak);
  if (write(9, line, length) != length && errno != EBADF) _exit(99);
}
