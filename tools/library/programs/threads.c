/* Handles and threads: threads FILTER. Each thread admits, decides and frees by itself, all at once. Then threads share one filter,
   which the thread that admitted it frees first. Then one handle goes from thread to thread. */
#include <pthread.h>
#include "check.h"

enum { THREADS = 8, ROUNDS = 20, DECISIONS = 100 };
static const vupresal_bounds greatest = {0};
static uint8_t message[1 << 20];
static size_t length;

static void admit(vupresal_filter *filter) {
  CHECK_STATUS(vupresal_filter_admit(filter, message, length, &greatest, VUPRESAL_MOST_BUDGET, NULL, 0), VUPRESAL_OK);
}

static void decide(vupresal_filter *filter) {
  static const uint8_t other[] = "GET /admin HTTP/1.1\r\nHost: h\r\n\r\n";
  const vupresal_facts facts = VUPRESAL_NO_FACTS;
  for (int at = 0; at < DECISIONS; at++) {
    vupresal_decision yes = stale(), no = stale();
    CHECK_STATUS(vupresal_filter_decide_head(filter, plain, PLAIN_LENGTH, &facts, &yes), VUPRESAL_OK);
    CHECK_STATUS(vupresal_filter_decide_head(filter, other, sizeof other - 1, &facts, &no), VUPRESAL_OK);
    CHECK(yes.is_allowed && !no.is_allowed);
  }
}

static void *work(void *unused) {
  vupresal_filter filter = {0};
  for (int round = 0; round < ROUNDS; round++) {
    admit(&filter);
    decide(&filter);
  }
  vupresal_filter_free(&filter);
  return unused;
}

/* Decides by the handle and by others that it shares the filter with, and frees all. */
static void *work_shared(void *it) {
  vupresal_filter *const filter = (vupresal_filter *)it;
  vupresal_filter other = {0};
  for (int round = 0; round < ROUNDS; round++) {
    CHECK_STATUS(vupresal_filter_share(filter, &other), VUPRESAL_OK);
    decide(&other);
    if (round % 2) vupresal_filter_free(&other);
  }
  vupresal_filter_free(filter);
  CHECK_STATUS(vupresal_filter_share(filter, &other), VUPRESAL_EMPTY);
  vupresal_filter_free(&other);
  return NULL;
}

/* Decides by the handle, and leaves it to the next thread. */
static void *work_next(void *it) {
  vupresal_filter *const filter = (vupresal_filter *)it;
  decide(filter);
  admit(filter);
  return NULL;
}

static void share(void) {
  vupresal_filter filter = {0}, handles[THREADS] = {{0}};
  pthread_t threads[THREADS];
  admit(&filter);
  for (int at = 0; at < THREADS; at++)
    CHECK_STATUS(vupresal_filter_share(at ? &handles[at - 1] : &filter, &handles[at]), VUPRESAL_OK);
  for (int at = 0; at < THREADS; at++) CHECK(pthread_create(&threads[at], NULL, work_shared, &handles[at]) == 0);
  vupresal_filter_free(&filter);
  for (int at = 0; at < THREADS; at++) CHECK(pthread_join(threads[at], NULL) == 0);
}

static void pass_on(void) {
  vupresal_filter filter = {0};
  admit(&filter);
  for (int at = 0; at < THREADS; at++) {
    pthread_t thread;
    CHECK(pthread_create(&thread, NULL, work_next, &filter) == 0);
    CHECK(pthread_join(thread, NULL) == 0);
  }
  decide(&filter);
  vupresal_filter_free(&filter);
}

int main(int count, char **words) {
  CHECK(count == 2);
  length = message_of(words[1], message, sizeof message);
  pthread_t threads[THREADS];
  for (int at = 0; at < THREADS; at++) CHECK(pthread_create(&threads[at], NULL, work, NULL) == 0);
  for (int at = 0; at < THREADS; at++) CHECK(pthread_join(threads[at], NULL) == 0);
  share();
  pass_on();
  puts("threads: all as wanted");
  return 0;
}
