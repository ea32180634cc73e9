/* Judges jobs as judge.c does, each head by four threads at once, which share the filter. Prints the lines of judge.c; status 1 where
   two threads have other answers. */
#include <pthread.h>
#include "jobs.h"

enum { THREADS = 4, MOST = 1 << 12 };
static struct asked {
  vupresal_facts facts;
  vupresal_bytes head;
} asked[MOST];
static size_t count;
/* VUPRESAL_OK, or VUPRESAL_EMPTY if no filter was admitted yet. */
static int32_t held;
static struct worker {
  pthread_t thread;
  vupresal_filter filter;
  struct answer answers[MOST];
} workers[THREADS];

static void note(vupresal_filter *filter, const vupresal_facts *facts, vupresal_bytes head) {
  (void)filter;
  CHECK(count < MOST);
  asked[count++] = (struct asked){*facts, head};
}

/* Decides by the worker's handle, then by another one of the same filter; frees both. */
static void *work(void *it) {
  struct worker *const worker = (struct worker *)it;
  vupresal_filter own = {0};
  CHECK_STATUS(vupresal_filter_share(&worker->filter, &own), held);
  for (size_t at = 0; at < count; at++) {
    if (at == count / 2) vupresal_filter_free(&worker->filter);
    worker->answers[at] = answer_of(at < count / 2 ? &worker->filter : &own, &asked[at].facts, asked[at].head);
  }
  vupresal_filter_free(&worker->filter);
  vupresal_filter_free(&own);
  return NULL;
}

static bool are_same(const struct answer *one, const struct answer *other) {
  return one->status == other->status && one->differs == other->differs && one->decision.matched == other->decision.matched &&
         one->decision.is_matched == other->decision.is_matched && one->decision.is_allowed == other->decision.is_allowed;
}

/* All threads judge what was asked of the filter. */
static void judge_all(vupresal_filter *filter) {
  if (count == 0) return;
  held = vupresal_filter_share(filter, filter);
  for (int at = 0; at < THREADS; at++) {
    CHECK_STATUS(vupresal_filter_share(filter, &workers[at].filter), held);
    CHECK(pthread_create(&workers[at].thread, NULL, work, &workers[at]) == 0);
  }
  for (int at = 0; at < THREADS; at++) CHECK(pthread_join(workers[at].thread, NULL) == 0);
  for (size_t at = 0; at < count; at++) {
    for (int other = 1; other < THREADS; other++)
      CHECK(are_same(&workers[0].answers[at], &workers[other].answers[at]));
    print_answer(filter, &workers[0].answers[at]);
  }
  count = 0;
}

int main(void) {
  vupresal_filter filter = {0};
  do_jobs(&filter, note, judge_all);
  vupresal_filter_free(&filter);
  return 0;
}
