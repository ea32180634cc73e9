/* Decides on one request: decide FILTER HEAD. FILTER is a file of an HTTP RBAC filter, HEAD a file of a head of HTTP/1.
   Prints the verdict, and the policy that matches. Status 0: allowed; 3: denied; 1: no filter, or no decision. */
#include <stdio.h>
#include <vupresal.h>

static uint8_t message[1 << 20], head[1 << 16];

static size_t read_file(const char *path, uint8_t *room, size_t size) {
  FILE *file = fopen(path, "rb");
  if (file == NULL) return perror(path), 0;
  size_t length = fread(room, 1, size, file);
  fclose(file);
  return length;
}

static int fail(const char *why, const void *more) {
  fprintf(stderr, "decide: %s %s\n", why, (const char *)more);
  return 1;
}

int main(int count, char **words) {
  if (count != 3) return fail("usage: decide FILTER HEAD", "");
  if (!vupresal_is_expected()) return fail("the library has another version than its header", "");

  vupresal_filter filter = {0};
  vupresal_bounds greatest = {0};
  uint8_t place[256];
  size_t length = read_file(words[1], message, sizeof message);
  int32_t status = vupresal_filter_admit(&filter, message, length, &greatest, 1000000, place, sizeof place);
  if (status != VUPRESAL_OK) return fail(vupresal_status_text(status), place);

  vupresal_facts facts = VUPRESAL_NO_FACTS;
  vupresal_decision decision;
  length = read_file(words[2], head, sizeof head);
  status = vupresal_filter_decide_head(&filter, head, length, &facts, &decision);

  uint8_t name[256] = {0};
  if (decision.is_matched) vupresal_filter_policy_name(&filter, decision.matched, name, sizeof name - 1);
  vupresal_filter_free(&filter);
  if (status != VUPRESAL_OK) return fail(vupresal_status_text(status), "");
  printf("%s %s\n", decision.is_allowed ? "allow" : "deny", (const char *)name);
  return decision.is_allowed ? 0 : 3;
}
