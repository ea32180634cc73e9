/* Forks after an admission: fork FILTER. Each process has its own copy of the handle, decides by it, and frees it. */
#include <sys/wait.h>
#include <unistd.h>
#include "check.h"

enum { CHILDREN = 8, ROUNDS = 200 };
static uint8_t message[1 << 20];

static void decide(vupresal_filter *filter) {
  static const uint8_t other[] = "GET /admin HTTP/1.1\r\nHost: h\r\n\r\n";
  const vupresal_facts facts = VUPRESAL_NO_FACTS;
  for (int round = 0; round < ROUNDS; round++) {
    vupresal_decision decision = stale();
    CHECK_STATUS(vupresal_filter_decide_head(filter, plain, PLAIN_LENGTH, &facts, &decision), VUPRESAL_OK);
    CHECK(decision.is_allowed && decision.matched == 0);
    CHECK_STATUS(vupresal_filter_decide_head(filter, other, sizeof other - 1, &facts, &decision), VUPRESAL_OK);
    CHECK(!decision.is_allowed && !decision.is_matched);
  }
}

int main(int count, char **words) {
  CHECK(count == 2);
  size_t length = message_of(words[1], message, sizeof message);
  const vupresal_bounds greatest = {0};
  vupresal_filter filter = {0};
  CHECK_STATUS(vupresal_filter_admit(&filter, message, length, &greatest, VUPRESAL_MOST_BUDGET, NULL, 0), VUPRESAL_OK);
  for (int child = 0; child < CHILDREN; child++) {
    pid_t process = fork();
    CHECK(process >= 0);
    if (process > 0) continue;
    decide(&filter);
    /* half of the children take another filter instead */
    if (child % 2)
      CHECK_STATUS(vupresal_filter_admit(&filter, message, length, &greatest, VUPRESAL_MOST_BUDGET, NULL, 0),
                   VUPRESAL_OK);
    decide(&filter);
    vupresal_filter_free(&filter);
    return 0;
  }
  decide(&filter);
  vupresal_filter_free(&filter);
  for (int child = 0; child < CHILDREN; child++) {
    int status;
    CHECK(wait(&status) > 0 && WIFEXITED(status) && WEXITSTATUS(status) == 0);
  }
  puts("fork: all as wanted");
  return 0;
}
