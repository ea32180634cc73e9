/* Refuses each growth of memory of each call in turn: refused FILTER RESPONSE, behind the library of scripts/measure/heap.c (LD_PRELOAD).
   FILTER admits `GET /` alone, RESPONSE is a frame with a filter `f` that admits everything.

   A call whose growth was refused has the status 19, or its own answer; then the handle is as before. Prints how many growths were
   refused for each call; status 1 where a call met fewer than are told here. */
#include "check.h"

/* What scripts/measure/heap.c obeys. */
#define COMMANDS 0x5eed00000000ul

static void *(*volatile grow)(size_t) = malloc;

/* From here on the nth growth is refused. */
static void refuse(size_t nth) { free(grow(COMMANDS + nth)); }

/* Whether one was refused since; none is from here on. */
static bool was_refused(void) {
  void *block = grow(COMMANDS);
  free(block);
  return block != NULL;
}

static uint8_t message[1 << 20], frame[1 << 20];
static size_t length, frame_length;
static const vupresal_bounds greatest = {0};
static const vupresal_facts bare = VUPRESAL_NO_FACTS;

static vupresal_bytes text(const char *it) { return vupresal_bytes_of(it, strlen(it)); }

static int32_t admit(vupresal_filter *filter) {
  uint8_t place[64];
  return vupresal_filter_admit(filter, message, length, &greatest, VUPRESAL_MOST_BUDGET, place, sizeof place);
}

static int32_t refuse_place(vupresal_filter *filter) {
  uint8_t place[64];
  int32_t status = vupresal_filter_admit(filter, message, length, &greatest, 1, place, sizeof place);
  return status == VUPRESAL_TOO_COSTLY ? VUPRESAL_OK : status;
}

static int32_t by_head(vupresal_filter *filter) {
  vupresal_facts facts = bare;
  facts.source_address = facts.destination_address = facts.tls_version = vupresal_text_of("127.0.0.1:80", 12);
  vupresal_decision decision = stale();
  int32_t status = vupresal_filter_decide_head(filter, plain, PLAIN_LENGTH, &facts, &decision);
  if (status != VUPRESAL_OK) check_refuses(decision);
  else CHECK(decision.is_allowed);
  return status;
}

static int32_t by_parts(vupresal_filter *filter) {
  vupresal_line lines[] = {{text("host"), text("h")}, {text("x-user"), text("a")}};
  vupresal_request request = {text("GET"), text("/"), lines, 2, true, VUPRESAL_HTTP_1};
  vupresal_decision decision = stale();
  int32_t status = vupresal_filter_decide(filter, &request, &bare, &decision);
  if (status != VUPRESAL_OK) check_refuses(decision);
  else CHECK(decision.is_allowed);
  return status;
}

static int32_t ask(vupresal_filter *filter) {
  uint8_t room[16];
  CHECK(vupresal_filter_policies(filter) == 1 && vupresal_filter_policy_name(filter, 0, room, sizeof room) == 7);
  CHECK(vupresal_filter_bound(filter) > 1);
  return VUPRESAL_OK;
}

static vupresal_filter other;

/* Shares the filter with a handle that holds another one, which stays if memory runs out. */
static int32_t share(vupresal_filter *filter) {
  const uint64_t before = vupresal_filter_bound(&other);
  int32_t status = vupresal_filter_share(filter, &other);
  CHECK(vupresal_filter_bound(&other) == (status == VUPRESAL_OK ? vupresal_filter_bound(filter) : before));
  return status;
}

/* A connection, a request and a set of the filter twice; what cannot be made is empty. */
static int32_t by_set(vupresal_filter *filter) {
  vupresal_facts facts = bare;
  facts.tls_version = facts.requested_server_name = vupresal_text_of("TLSv1.3", 7);
  vupresal_connection connection = {0};
  vupresal_made_request made = {0};
  vupresal_set set = {0};
  vupresal_decision decision = stale();
  vupresal_set_decision of_set = {stale(), 7};
  int32_t status = vupresal_connection_new(&connection, &facts);
  if (status == VUPRESAL_OK) status = vupresal_request_of_head(&made, &connection, plain, PLAIN_LENGTH);
  if (status == VUPRESAL_OK) status = vupresal_filter_decide_request(filter, &made, &decision);
  else CHECK_STATUS(vupresal_filter_decide_request(filter, &made, &decision), VUPRESAL_EMPTY);
  CHECK(decision.is_allowed == (status == VUPRESAL_OK));
  for (int twice = 0; twice < 2 && status == VUPRESAL_OK; twice++) status = vupresal_set_add(&set, filter);
  if (status == VUPRESAL_OK) status = vupresal_set_decide(&set, &made, &of_set);
  CHECK(status != VUPRESAL_OK || (of_set.decision.is_allowed && of_set.filter == 1));
  vupresal_set_free(&set);
  vupresal_request_free(&made);
  vupresal_connection_free(&connection);
  return status;
}

/* Refuses each growth of the call; the filter stays. */
static void try_filter(const char *name, int32_t call(vupresal_filter *), size_t fewest) {
  vupresal_filter filter = {0};
  CHECK_STATUS(admit(&filter), VUPRESAL_OK);
  size_t nth = 1;
  for (;; nth++) {
    refuse(nth);
    int32_t status = call(&filter);
    if (!was_refused()) {
      CHECK_STATUS(status, VUPRESAL_OK);
      break;
    }
    CHECK(status == VUPRESAL_MEMORY || status == VUPRESAL_OK);
    CHECK_STATUS(by_head(&filter), VUPRESAL_OK);
  }
  vupresal_filter_free(&filter);
  printf("refused: %s: %zu growths\n", name, nth - 1);
  CHECK(nth - 1 >= fewest);
}

static int32_t new_proxy(vupresal_proxy *proxy) {
  vupresal_resource one = {text("f"), 1000};
  vupresal_settings settings = {text("n"), text("c"), &one, 1, {0}};
  return vupresal_proxy_new(proxy, &settings);
}

static uint8_t output[1 << 16];

/* A head on an open connection, and the status of its answer. */
static int answer(vupresal_proxy *proxy) {
  vupresal_given given;
  CHECK_STATUS(vupresal_proxy_http_bytes(proxy, 0, plain, PLAIN_LENGTH, &given), VUPRESAL_OK);
  CHECK(vupresal_proxy_http_output(proxy, output, sizeof output) == given.http_length && given.http_length > 12);
  return atoi((const char *)output + 9);
}

enum { NEW, UP, BYTES, OPEN, HEAD, CLOSED, LOST, STEPS };
static const char *const step_names[] = {"proxy_new",  "ads_up",      "ads_bytes", "http_open",
                                         "http_bytes", "http_closed", "ads_lost"};

static int32_t step(vupresal_proxy *proxy, int at, vupresal_given *given) {
  switch (at) {
    case NEW: return new_proxy(proxy);
    case UP: return vupresal_proxy_ads_up(proxy, given);
    case BYTES: return vupresal_proxy_ads_bytes(proxy, frame, frame_length, given);
    case OPEN: return vupresal_proxy_http_open(proxy, 0, &bare, given);
    case HEAD: return vupresal_proxy_http_bytes(proxy, 0, plain, PLAIN_LENGTH, given);
    case CLOSED: return vupresal_proxy_http_closed(proxy, 0, given);
    default: return vupresal_proxy_ads_lost(proxy, given);
  }
}

/* Takes all steps, with the nth growth of one of them refused, until that is taken; whether a growth was refused. */
static bool run(int refused_in, size_t nth) {
  vupresal_proxy proxy = {0};
  bool met = false;
  for (int at = NEW; at < STEPS; at++) {
    vupresal_given given = {7, 7, true, true};
    if (at == refused_in) {
      refuse(nth);
      int32_t status = step(&proxy, at, &given);
      met = was_refused();
      CHECK(status == VUPRESAL_OK || (met && status == VUPRESAL_MEMORY));
      if (status != VUPRESAL_OK) {
        CHECK(at == NEW ||
              (given.ads_length == 0 && given.http_length == 0 && !given.closes_ads && !given.closes_http));
        CHECK_STATUS(step(&proxy, at, &given), VUPRESAL_OK);
      }
    } else {
      CHECK_STATUS(step(&proxy, at, &given), VUPRESAL_OK);
    }
    /* a response may be refused for memory: then there is no filter, and requests are answered 503 */
    if (at == HEAD) CHECK(answer(&proxy) == 200 || refused_in == BYTES || refused_in == HEAD);
  }
  vupresal_proxy_free(&proxy);
  return met;
}

static void try_proxy(int at) {
  size_t nth = 1;
  while (run(at, nth)) nth++;
  printf("refused: %s: %zu growths\n", step_names[at], nth - 1);
}

int main(int count, char **words) {
  CHECK(count == 3);
  length = message_of(words[1], message, sizeof message);
  frame_length = message_of(words[2], frame, sizeof frame);
  refuse(1);
  free(grow(16));
  if (!was_refused()) return fputs("refused: the library of scripts/measure/heap.c is not there\n", stderr), 2;
  try_filter("admit", admit, 10);
  try_filter("refused", refuse_place, 5);
  try_filter("decide_head", by_head, 5);
  try_filter("decide", by_parts, 5);
  try_filter("made once", by_set, 8);
  try_filter("queries", ask, 0);
  CHECK_STATUS(vupresal_filter_admit(&other, open_to_all, sizeof open_to_all, &greatest, 1, NULL, 0), VUPRESAL_OK);
  try_filter("share", share, 1);
  vupresal_filter_free(&other);
  for (int at = NEW; at < STEPS; at++) try_proxy(at);
  puts("refused: all as wanted");
  return 0;
}
