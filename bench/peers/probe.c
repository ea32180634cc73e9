// Does one work of the engine, and prints its answer and what the heap did in the meantime, a line of words and numbers. The
// linker leads the engine's malloc, realloc and free here.
//   probe admit FILTER [ROUNDS]
//   probe explain FILTER [ROUNDS]         a refused filter: its admission, and the place of its fault in words
//   probe together FILTER [ROUNDS [COUNT]] admissions of which so many stay until the last is there (8)
//   probe keep FILTER
//   probe head HEAD [ROUNDS]
//   probe judge FILTER HEAD [ROUNDS]      admission and head once, the decision so often
//   probe stream STREAM [ROUNDS [PIECE]]  frames and discovery responses, in pieces of so many bytes
//   probe feed STREAM [ROUNDS [PIECE]]    the same, fed to a client
//   probe front BYTES [ROUNDS [PIECE]]    a connection's bytes, in pieces of so many
//   probe step STREAM HEAD [ROUNDS [PIECE [CONNECTIONS]]]
//                                         a proxy that took the stream: the head comes on so many connections, so often
//   probe step_alone ..                   the same by fronts, the filter and the answer alone
//   probe update STREAM [ROUNDS [PIECE]]  a proxy: the stream comes so often
//   probe update_alone ..                 the same by the client alone
//   probe expression EXPRESSION [ROUNDS [PART]]
//                                         a condition from its bytes to its tree (PART 1), its type (2), its bound (3), its code (4)
//                                         or until its code is verified (5)
//   probe pack COUNT [ROUNDS [DIFFERENT]]  a code of so many constants, all of them different or so many
//   probe bound EXPRESSION [ROUNDS [BUDGET [VISITS]]]
//                                         the bound of an expression that was read and checked once
// `kept` is what stands when a filter was admitted (work `keep`), `peak` the most that ever stood; both count the blocks as
// malloc makes them. `faults` is how many pages the system gave to the work.
#include <malloc.h>
#include <stdint.h>
#include <stdio.h>
#include <stdlib.h>
#include <string.h>
#include <sys/resource.h>

uint64_t engine_admit(const char *filter, size_t length, uint64_t rounds);
uint64_t engine_explain(const char *filter, size_t length, uint64_t rounds);
uint64_t engine_admit_together(const char *filter, size_t length, uint64_t count, uint64_t rounds);
uint64_t engine_keep(const char *filter, size_t length, size_t mark);
uint64_t engine_head(const char *head, size_t length, uint64_t rounds);
uint64_t engine_decide(const char *filter, size_t filter_length, const char *head, size_t head_length, uint64_t copies,
                       uint64_t rounds);
uint64_t engine_stream(const char *stream, size_t length, size_t piece, uint64_t rounds);
uint64_t engine_feed(const char *stream, size_t length, size_t piece, uint64_t rounds);
uint64_t engine_front(const char *bytes, size_t length, size_t piece, uint64_t rounds);
uint64_t engine_step(const char *stream, size_t stream_length, const char *head, size_t head_length, uint64_t conns,
                     size_t piece, uint64_t rounds);
uint64_t engine_step_alone(const char *stream, size_t stream_length, const char *head, size_t head_length, uint64_t conns,
                           size_t piece, uint64_t rounds);
uint64_t engine_update(const char *stream, size_t length, size_t piece, uint64_t rounds);
uint64_t engine_update_alone(const char *stream, size_t length, size_t piece, uint64_t rounds);
uint64_t engine_expression(const char *bytes, size_t length, uint64_t part, uint64_t budget, uint64_t rounds);
uint64_t engine_pack(uint64_t count, uint64_t different, uint64_t rounds);
uint64_t engine_bound(const char *bytes, size_t length, uint64_t steps, uint64_t visits, uint64_t rounds);

void *__real_malloc(size_t size);
void *__real_realloc(void *block, size_t size);
void __real_free(void *block);

// The greatest budget of a filter.
static const uint64_t BUDGET = 100000000;

// The most visits that a filter may be given.
static const uint64_t VISITS = 0x7fffffffffffffff;

// The last part of a condition's way.
enum { VERIFIED = 5 };

// A size that nothing else asks for: the engine takes such a block when its filter is there.
enum { MARK = 7654321 };

static size_t allocations, reallocations, standing, peak, kept;
static void *mark;

static size_t size_of(void *block) { return block ? malloc_usable_size(block) + sizeof(size_t) : 0; }

static void *taken(void *block) {
  standing += size_of(block);
  if (standing > peak) peak = standing;
  return block;
}

void *__wrap_malloc(size_t size) {
  if (size == MARK) {
    kept = standing;
    return mark = __real_malloc(size);
  }
  allocations++;
  return taken(__real_malloc(size));
}

void *__wrap_realloc(void *block, size_t size) {
  size_t before = size_of(block);
  void *moved = __real_realloc(block, size);
  reallocations++;
  if (moved) standing -= before;
  return moved ? taken(moved) : moved;
}

void __wrap_free(void *block) {
  if (block != mark) standing -= size_of(block);
  __real_free(block);
}

struct bytes {
  char *start;
  size_t length;
};

static struct bytes contents_of(const char *name) {
  FILE *file = fopen(name, "rb");
  struct bytes bytes = {__real_malloc(1 << 25), 0};
  if (!file || !bytes.start) {
    fprintf(stderr, "probe: cannot read %s\n", name);
    exit(2);
  }
  bytes.length = fread(bytes.start, 1, 1 << 25, file);
  fclose(file);
  return bytes;
}

static long faults(void) {
  struct rusage usage;
  getrusage(RUSAGE_SELF, &usage);
  return usage.ru_minflt;
}

int main(int count, char **words) {
  if (count < 3) {
    fprintf(stderr, "usage: probe admit|explain|together|keep|head|stream|feed|front|update|update_alone|expression|bound FILE "
                    "[ROUNDS [COUNT, PIECE, PART or BUDGET]] | "
                    "probe step|step_alone STREAM HEAD [ROUNDS [PIECE [CONNECTIONS]]] | "
                    "probe judge FILTER HEAD [ROUNDS] | probe pack COUNT [ROUNDS [DIFFERENT]]\n");
    return 2;
  }
  const char *work = words[1];
  int packs = !strcmp(work, "pack");
  struct bytes input = packs ? (struct bytes){0, 0} : contents_of(words[2]);
  uint64_t rounds = count > 3 ? strtoull(words[3], 0, 10) : 1, answer = 0;
  long before = faults();
  if (packs) answer = engine_pack(strtoull(words[2], 0, 10), strtoull(words[count > 4 ? 4 : 2], 0, 10), rounds);
  if (!strcmp(work, "admit")) answer = engine_admit(input.start, input.length, rounds);
  if (!strcmp(work, "explain")) answer = engine_explain(input.start, input.length, rounds);
  if (!strcmp(work, "together"))
    answer = engine_admit_together(input.start, input.length, count > 4 ? strtoull(words[4], 0, 10) : 8, rounds);
  if (!strcmp(work, "keep")) answer = engine_keep(input.start, input.length, MARK);
  if (!strcmp(work, "head")) answer = engine_head(input.start, input.length, rounds);
  if (!strcmp(work, "stream"))
    answer = engine_stream(input.start, input.length, count > 4 ? strtoull(words[4], 0, 10) : 16384, rounds);
  if (!strcmp(work, "feed"))
    answer = engine_feed(input.start, input.length, count > 4 ? strtoull(words[4], 0, 10) : 16384, rounds);
  if (!strcmp(work, "front"))
    answer = engine_front(input.start, input.length, count > 4 ? strtoull(words[4], 0, 10) : 16384, rounds);
  if (!strcmp(work, "expression"))
    answer = engine_expression(input.start, input.length, count > 4 ? strtoull(words[4], 0, 10) : VERIFIED, BUDGET, rounds);
  if (!strcmp(work, "bound"))
    answer = engine_bound(input.start, input.length, count > 4 ? strtoull(words[4], 0, 10) : BUDGET,
                          count > 5 ? strtoull(words[5], 0, 10) : VISITS, rounds);
  if (!strncmp(work, "update", 6))
    answer = (strcmp(work, "update") ? engine_update_alone : engine_update)(
        input.start, input.length, count > 4 ? strtoull(words[4], 0, 10) : 16384, rounds);
  if (!strncmp(work, "step", 4) && count > 3) {
    struct bytes head = contents_of(words[3]);
    answer = (strcmp(work, "step") ? engine_step_alone : engine_step)(
        input.start, input.length, head.start, head.length, count > 6 ? strtoull(words[6], 0, 10) : 1,
        count > 5 ? strtoull(words[5], 0, 10) : 16384, count > 4 ? strtoull(words[4], 0, 10) : 1);
  }
  if (!strcmp(work, "judge") && count > 3) {
    struct bytes head = contents_of(words[3]);
    answer = engine_decide(input.start, input.length, head.start, head.length, 1, count > 4 ? strtoull(words[4], 0, 10) : 1);
  }
  printf("bytes %zu answer %llu allocations %zu reallocations %zu kept %zu peak %zu faults %ld\n", input.length,
         (unsigned long long)answer, allocations, reallocations, kept, peak, faults() - before);
  return 0;
}
