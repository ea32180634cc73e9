/* Times one decision through the library: embed_decisions FILTER HEAD. Prints nanoseconds of processor time, each the best of ROUNDS
   rounds, by name: the call alone, a decision by the head and by the parts, an admission. Of a request that is made once: a request by
   its head and by its parts on a connection, and a further filter on it. */
#include <stdio.h>
#include <stdlib.h>
#include <string.h>
#include <time.h>
#include <vupresal.h>

enum { ROUNDS = 9, CALLS = 20000, ADMISSIONS = 20, MOST_LINES = 64 };

static uint8_t message[1 << 21], head[1 << 16];
static vupresal_line lines[MOST_LINES];
static vupresal_filter filter;
static vupresal_connection connection;
static vupresal_made_request made;
static vupresal_facts facts = VUPRESAL_NO_FACTS;
static vupresal_request request;
static size_t length, head_length;
static const vupresal_bounds greatest;

static double now(void) {
  struct timespec time;
  clock_gettime(CLOCK_PROCESS_CPUTIME_ID, &time);
  return (double)time.tv_sec * 1e9 + (double)time.tv_nsec;
}

static size_t read_file(const char *path, uint8_t *room, size_t size) {
  FILE *file = fopen(path, "rb");
  if (!file) return perror(path), exit(2), 0;
  size_t count = fread(room, 1, size, file);
  fclose(file);
  return count;
}

static void must(int32_t status) {
  if (status == VUPRESAL_OK) return;
  fprintf(stderr, "%s\n", vupresal_status_text(status));
  exit(2);
}

static void by_head(void) {
  vupresal_decision decision;
  must(vupresal_filter_decide_head(&filter, head, head_length, &facts, &decision));
  if (!decision.is_allowed) exit(3);
}

static void by_parts(void) {
  vupresal_decision decision;
  must(vupresal_filter_decide(&filter, &request, &facts, &decision));
  if (!decision.is_allowed) exit(3);
}

static void made_of_head(void) { must(vupresal_request_of_head(&made, &connection, head, head_length)); }

static void made_of_parts(void) { must(vupresal_request_of_parts(&made, &connection, &request)); }

static void further_filter(void) {
  vupresal_decision decision;
  must(vupresal_filter_decide_request(&filter, &made, &decision));
  if (!decision.is_allowed) exit(3);
}

static void bare_call(void) {
  if (vupresal_filter_bound(&filter) == 1) exit(3);
}

static void admission(void) {
  must(vupresal_filter_admit(&filter, message, length, &greatest, VUPRESAL_MOST_BUDGET, NULL, 0));
}

/* The parts of the head, whose lines end in CR LF. */
static void take_apart(void) {
  char *at = (char *)head, *space = strchr(at, ' '), *last = strchr(space + 1, ' ');
  request.method = vupresal_bytes_of(at, (size_t)(space - at));
  request.target = vupresal_bytes_of(space + 1, (size_t)(last - space - 1));
  request.lines = lines, request.is_http11 = true;
  for (at = strstr(last, "\r\n") + 2; *at != '\r'; at = strstr(at, "\r\n") + 2) {
    char *colon = strchr(at, ':'), *end = strstr(at, "\r\n");
    lines[request.line_count++] = (vupresal_line){vupresal_bytes_of(at, (size_t)(colon - at)),
                                                  vupresal_bytes_of(colon + 2, (size_t)(end - colon - 2))};
  }
}

static void measure(const char *name, void (*call)(void), int calls) {
  double best = 1e18;
  for (int round = 0; round < ROUNDS; round++) {
    double start = now();
    for (int at = 0; at < calls; at++) call();
    double each = (now() - start) / calls;
    if (each < best) best = each;
  }
  printf("%s %.0f\n", name, best);
}

int main(int count, char **words) {
  if (count != 3 || !vupresal_is_expected()) return 2;
  length = read_file(words[1], message, sizeof message);
  head_length = read_file(words[2], head, sizeof head - 1);
  facts.source_port = 40000, facts.destination_port = 80, facts.mtls = 0;
  facts.remote_ip = facts.direct_remote_ip = vupresal_bytes_of("\x7f\0\0\1", 4);
  facts.source_address = vupresal_text_of("127.0.0.1:40000", 15);
  facts.destination_address = vupresal_text_of("127.0.0.1:80", 12);
  admission();
  take_apart();
  measure("call", bare_call, CALLS * 10);
  measure("head", by_head, CALLS);
  measure("parts", by_parts, CALLS);
  must(vupresal_connection_new(&connection, &facts));
  measure("made_head", made_of_head, CALLS);
  measure("made_parts", made_of_parts, CALLS);
  measure("further", further_filter, CALLS);
  measure("admit", admission, ADMISSIONS);
  vupresal_request_free(&made);
  vupresal_connection_free(&connection);
  vupresal_filter_free(&filter);
  return 0;
}
