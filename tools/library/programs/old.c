/* A program that was linked with a library of the version of its header, and runs with another one. It prints what a filter says, or
   that the library is not the expected one. With -DNEWER it needs a function that a newer library added. */
#include "check.h"

#ifdef NEWER
uint64_t vupresal_newer(void);
#endif

int main(void) {
  vupresal_filter filter = {0};
  vupresal_bounds bounds = {0};
  vupresal_facts facts = VUPRESAL_NO_FACTS;
  vupresal_decision decision = stale();
  if (!vupresal_is_expected()) return puts("not expected"), 0;
#ifdef NEWER
  CHECK(vupresal_newer() == 7);
#endif
  CHECK_STATUS(vupresal_filter_admit(&filter, open_to_all, sizeof open_to_all, &bounds, 1, NULL, 0), VUPRESAL_OK);
  CHECK_STATUS(vupresal_filter_decide_head(&filter, plain, PLAIN_LENGTH, &facts, &decision), VUPRESAL_OK);
  vupresal_filter_free(&filter);
  return puts(decision.is_allowed ? "allow" : "deny"), 0;
}
