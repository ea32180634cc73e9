/* Judges jobs from standard input, by the head and by its parts, and prints a line for each: see jobs.h. */
#include "jobs.h"

static void judge(vupresal_filter *filter, const vupresal_facts *facts, vupresal_bytes head) {
  struct answer answer = answer_of(filter, facts, head);
  print_answer(filter, &answer);
}

static void admitting(vupresal_filter *filter) { (void)filter; }

int main(void) {
  vupresal_filter filter = {0};
  do_jobs(&filter, judge, admitting);
  vupresal_filter_free(&filter);
  return 0;
}
