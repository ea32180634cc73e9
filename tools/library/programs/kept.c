/* Connections, requests and sets that are made once: kept FILTER, where the filter admits `GET /` alone by a policy of the name
   `readers`. What is decided is what is decided by the parts and by the head, and misuse gets a status. */
#include "check.h"

static uint8_t message[1 << 20];
static size_t length;
static const vupresal_bounds greatest = {0};
static const vupresal_facts bare = VUPRESAL_NO_FACTS;
static const uint8_t admin[] = "GET /admin HTTP/1.1\r\nHost: h\r\n\r\n";

static vupresal_bytes text(const char *it) { return vupresal_bytes_of(it, strlen(it)); }

static vupresal_filter admitted(const uint8_t *bytes, size_t count, const vupresal_bounds *bounds) {
  vupresal_filter filter = {0};
  CHECK_STATUS(vupresal_filter_admit(&filter, bytes, count, bounds, VUPRESAL_MOST_BUDGET, NULL, 0), VUPRESAL_OK);
  return filter;
}

static vupresal_connection connected(void) {
  vupresal_connection connection = {0};
  CHECK_STATUS(vupresal_connection_new(&connection, &bare), VUPRESAL_OK);
  return connection;
}

static vupresal_request parts(const char *target, vupresal_line *line, uint64_t protocol) {
  line->name = text("host"), line->value = text("h");
  vupresal_request request = {text("GET"), text(target), line, 1, true, protocol};
  return request;
}

/* The decision on a request that was made. */
static vupresal_decision decided(vupresal_filter *filter, vupresal_made_request *made, int32_t wanted) {
  vupresal_decision decision = stale();
  CHECK_STATUS(vupresal_filter_decide_request(filter, made, &decision), wanted);
  if (wanted != VUPRESAL_OK) check_refuses(decision);
  return decision;
}

static vupresal_set_decision set_decided(vupresal_set *set, vupresal_made_request *made, int32_t wanted) {
  vupresal_set_decision decision = {{7, true, true}, 7};
  CHECK_STATUS(vupresal_set_decide(set, made, &decision), wanted);
  if (wanted != VUPRESAL_OK) {
    check_refuses(decision.decision);
    CHECK(decision.filter == 0);
  }
  return decision;
}

/* Empty handles and those that were freed; all may be freed again. */
static void empty_handles(void) {
  vupresal_filter filter = {0};
  vupresal_connection connection = {0};
  vupresal_made_request made = {0};
  vupresal_set set = {0};
  vupresal_line line;
  vupresal_request request = parts("/", &line, VUPRESAL_HTTP_1);
  for (int round = 0; round < 2; round++) {
    decided(&filter, &made, VUPRESAL_EMPTY);
    set_decided(&set, &made, VUPRESAL_EMPTY);
    CHECK_STATUS(vupresal_set_add(&set, &filter), VUPRESAL_EMPTY);
    CHECK_STATUS(vupresal_request_of_parts(&made, &connection, &request), VUPRESAL_EMPTY);
    CHECK_STATUS(vupresal_request_of_head(&made, &connection, plain, PLAIN_LENGTH), VUPRESAL_EMPTY);
    if (round == 0) {
      filter = admitted(open_to_all, sizeof open_to_all, &greatest);
      decided(&filter, &made, VUPRESAL_EMPTY);
      CHECK_STATUS(vupresal_set_add(&set, &filter), VUPRESAL_OK);
      set_decided(&set, &made, VUPRESAL_EMPTY);
      connection = connected();
      CHECK_STATUS(vupresal_request_of_parts(&made, &connection, &request), VUPRESAL_OK);
      CHECK(decided(&filter, &made, VUPRESAL_OK).is_allowed);
    }
    for (int twice = 0; twice < 2; twice++) {
      vupresal_filter_free(&filter);
      vupresal_connection_free(&connection);
      vupresal_request_free(&made);
      vupresal_set_free(&set);
    }
  }
}

/* Several filters on one request, whose connection is freed before it; then another request in its place. */
static void several_filters(void) {
  vupresal_filter readers = admitted(message, length, &greatest), all = admitted(open_to_all, sizeof open_to_all, &greatest);
  vupresal_connection connection = connected();
  vupresal_made_request made = {0};
  vupresal_line line;
  vupresal_request request = parts("/", &line, VUPRESAL_HTTP_1);
  CHECK_STATUS(vupresal_request_of_parts(&made, &connection, &request), VUPRESAL_OK);
  memset(&line, 0xff, sizeof line);
  vupresal_connection_free(&connection);
  for (int round = 0; round < 3; round++) {
    CHECK(decided(&readers, &made, VUPRESAL_OK).is_allowed);
    CHECK(decided(&all, &made, VUPRESAL_OK).is_matched);
  }
  connection = connected();
  CHECK_STATUS(vupresal_request_of_head(&made, &connection, admin, sizeof admin - 1), VUPRESAL_OK);
  CHECK(!decided(&readers, &made, VUPRESAL_OK).is_allowed);
  CHECK(decided(&all, &made, VUPRESAL_OK).is_allowed);
  vupresal_made_request moved = made;
  memset(&made, 0, sizeof made);
  CHECK(decided(&all, &moved, VUPRESAL_OK).is_allowed);
  vupresal_request_free(&moved);
  vupresal_connection_free(&connection);
  vupresal_filter_free(&readers);
  vupresal_filter_free(&all);
}

/* What cannot be made leaves an empty handle, so that nothing is decided on what was there before. */
static void nothing_made(void) {
  vupresal_filter all = admitted(open_to_all, sizeof open_to_all, &greatest);
  vupresal_connection connection = connected();
  vupresal_made_request made = {0};
  vupresal_line line;
  static const char long_method[] = "GETGETGETGETGETGETGETGETGETGETGET";
  vupresal_request of[] = {parts("no slash", &line, VUPRESAL_HTTP_1), parts("/", &line, 4), parts("/", &line, VUPRESAL_HTTP_1),
                           parts("/", &line, VUPRESAL_HTTP_1)};
  const int32_t wanted[] = {VUPRESAL_BAD_REQUEST, VUPRESAL_OUT_OF_RANGE, VUPRESAL_OUTSIDE_LIMITS, VUPRESAL_BAD_REQUEST};
  of[2].method = text(long_method);
  of[3].line_count = 0;
  for (size_t at = 0; at < sizeof of / sizeof *of; at++) {
    CHECK_STATUS(vupresal_request_of_head(&made, &connection, plain, PLAIN_LENGTH), VUPRESAL_OK);
    CHECK_STATUS(vupresal_request_of_parts(&made, &connection, &of[at]), wanted[at]);
    decided(&all, &made, VUPRESAL_EMPTY);
  }
  CHECK_STATUS(vupresal_request_of_head(&made, &connection, plain, PLAIN_LENGTH), VUPRESAL_OK);
  CHECK_STATUS(vupresal_request_of_head(&made, &connection, plain, PLAIN_LENGTH - 1), VUPRESAL_BAD_REQUEST);
  decided(&all, &made, VUPRESAL_EMPTY);
  vupresal_facts facts = bare;
  facts.source_port = 65536;
  CHECK_STATUS(vupresal_connection_new(&connection, &facts), VUPRESAL_OUT_OF_RANGE);
  CHECK_STATUS(vupresal_request_of_head(&made, &connection, plain, PLAIN_LENGTH), VUPRESAL_EMPTY);
  facts = bare;
  facts.tls_version = vupresal_text_of("\xff", 1);
  connection = connected();
  CHECK_STATUS(vupresal_connection_new(&connection, &facts), VUPRESAL_BAD_REQUEST);
  CHECK_STATUS(vupresal_request_of_head(&made, &connection, plain, PLAIN_LENGTH), VUPRESAL_EMPTY);
  vupresal_request_free(&made);
  vupresal_connection_free(&connection);
  vupresal_filter_free(&all);
}

/* A filter's own limits count, as by the parts. The text of HTTP/2 has 6 bytes, but its head's has 8. */
static void limits_of_filters(void) {
  const vupresal_bounds bounds[] = {{64, 128, 4096, 2, 4096, 1024, 0}, {64, 128, 4096, 3, 4096, 7, 0}, {3, 128, 4096, 3, 4096, 8, 0},
                                    {4, 10, 4, 3, 1, 8, 0}};
  vupresal_connection connection = connected();
  for (uint64_t protocol = 0; protocol < 4; protocol++)
    for (size_t at = 0; at < sizeof bounds / sizeof *bounds; at++) {
      if (protocol == 1) continue;
      vupresal_filter filter = admitted(open_to_all, sizeof open_to_all, &bounds[at]);
      vupresal_line line;
      vupresal_request request = parts("/", &line, protocol);
      vupresal_made_request made = {0};
      vupresal_decision decision = stale();
      int32_t status = vupresal_filter_decide(&filter, &request, &bare, &decision);
      CHECK_STATUS(status, at == 3 ? VUPRESAL_OK : VUPRESAL_OUTSIDE_LIMITS);
      CHECK_STATUS(vupresal_request_of_parts(&made, &connection, &request), VUPRESAL_OK);
      CHECK(decided(&filter, &made, status).is_allowed == decision.is_allowed);
      vupresal_request_free(&made);
      vupresal_filter_free(&filter);
    }
  vupresal_connection_free(&connection);
}

/* The first filter that refuses decides; if none does, the last. */
static void sets(void) {
  const vupresal_bounds narrow = {64, 128, 4096, 2, 4096, 1024, 0};
  vupresal_filter readers = admitted(message, length, &greatest), all = admitted(open_to_all, sizeof open_to_all, &greatest),
                  limited = admitted(open_to_all, sizeof open_to_all, &narrow);
  vupresal_connection connection = connected();
  vupresal_made_request made = {0};
  vupresal_set set = {0};
  vupresal_filter *const order[] = {&all, &readers, &all, &limited};
  const uint64_t passing[] = {0, 1, 2}, refusing[] = {0, 1, 1, 1};
  for (size_t at = 0; at < 4; at++) {
    CHECK_STATUS(vupresal_set_add(&set, order[at]), VUPRESAL_OK);
    CHECK_STATUS(vupresal_request_of_head(&made, &connection, plain, PLAIN_LENGTH), VUPRESAL_OK);
    if (at < 3) {
      vupresal_set_decision is = set_decided(&set, &made, VUPRESAL_OK);
      CHECK(is.decision.is_allowed && is.decision.is_matched && is.decision.matched == 0 && is.filter == passing[at]);
    } else {
      set_decided(&set, &made, VUPRESAL_OUTSIDE_LIMITS);
    }
    CHECK_STATUS(vupresal_request_of_head(&made, &connection, admin, sizeof admin - 1), VUPRESAL_OK);
    vupresal_set_decision is = set_decided(&set, &made, VUPRESAL_OK);
    CHECK(is.decision.is_allowed == (at == 0) && is.filter == refusing[at]);
  }
  /* the set keeps its filters */
  vupresal_filter_free(&readers);
  vupresal_filter_free(&all);
  vupresal_filter_free(&limited);
  CHECK(!set_decided(&set, &made, VUPRESAL_OK).decision.is_allowed);
  vupresal_set_free(&set);
  set_decided(&set, &made, VUPRESAL_EMPTY);
  vupresal_request_free(&made);
  vupresal_connection_free(&connection);
}

static void cause_is(vupresal_connection *connection, const vupresal_request *request, int32_t status, uint32_t reason, uint32_t limit) {
  vupresal_cause cause = {99, 99};
  CHECK_STATUS(vupresal_cause_of_parts(connection, request, &cause), status);
  CHECK(cause.reason == reason && cause.limit == limit);
}

/* What a request is at fault with, and which limit it exceeds. */
static void causes(void) {
  static char big[5001], name[130], long_method[34];
  memset(big, '/', 5000), memset(name, 'n', 129), memset(long_method, 'M', 33);
  vupresal_connection connection = connected(), other = {0};
  vupresal_line line, two[2], lines[70];
  vupresal_request request = parts("/", &line, VUPRESAL_HTTP_1);
  cause_is(&connection, &request, VUPRESAL_OK, VUPRESAL_CAUSE_NONE, VUPRESAL_LIMIT_UNKNOWN);
  cause_is(&other, &request, VUPRESAL_EMPTY, VUPRESAL_CAUSE_NONE, VUPRESAL_LIMIT_UNKNOWN);
  line.value = text("a\nb");
  cause_is(&connection, &request, VUPRESAL_BAD_REQUEST, VUPRESAL_CAUSE_FIELD_VALUE, VUPRESAL_LIMIT_UNKNOWN);
  request = parts("x", &line, VUPRESAL_HTTP_1);
  cause_is(&connection, &request, VUPRESAL_BAD_REQUEST, VUPRESAL_CAUSE_OTHER_FORM, VUPRESAL_LIMIT_UNKNOWN);
  request = parts(big, &line, VUPRESAL_HTTP_1);
  cause_is(&connection, &request, VUPRESAL_OUTSIDE_LIMITS, VUPRESAL_CAUSE_OUTSIDE_LIMITS, VUPRESAL_LIMIT_TARGET);
  request = parts("/", &line, 4);
  cause_is(&connection, &request, VUPRESAL_OUT_OF_RANGE, VUPRESAL_CAUSE_NONE, VUPRESAL_LIMIT_UNKNOWN);
  request = parts("/", &line, VUPRESAL_HTTP_1);
  request.method = text(long_method);
  cause_is(&connection, &request, VUPRESAL_OUTSIDE_LIMITS, VUPRESAL_CAUSE_OUTSIDE_LIMITS, VUPRESAL_LIMIT_METHOD);
  request = parts("/", &line, VUPRESAL_HTTP_1);
  request.line_count = 0;
  cause_is(&connection, &request, VUPRESAL_BAD_REQUEST, VUPRESAL_CAUSE_NO_HOST, VUPRESAL_LIMIT_UNKNOWN);
  request = parts("/", two, VUPRESAL_HTTP_1);
  request.line_count = 2, two[1] = (vupresal_line){text("Host"), text("i")};
  cause_is(&connection, &request, VUPRESAL_BAD_REQUEST, VUPRESAL_CAUSE_TWO_HOSTS, VUPRESAL_LIMIT_UNKNOWN);
  two[1] = (vupresal_line){text("cookie"), text(big)};
  cause_is(&connection, &request, VUPRESAL_OUTSIDE_LIMITS, VUPRESAL_CAUSE_OUTSIDE_LIMITS, VUPRESAL_LIMIT_VALUE);
  two[1] = (vupresal_line){text(name), text("")};
  cause_is(&connection, &request, VUPRESAL_OUTSIDE_LIMITS, VUPRESAL_CAUSE_OUTSIDE_LIMITS, VUPRESAL_LIMIT_NAME);
  two[1] = (vupresal_line){text("transfer-encoding"), text("chunked")};
  cause_is(&connection, &request, VUPRESAL_TRANSFER_CODING, VUPRESAL_CAUSE_TRANSFER_CODING, VUPRESAL_LIMIT_UNKNOWN);
  request = parts("/", lines, VUPRESAL_HTTP_1);
  request.line_count = 62;
  for (size_t at = 1; at < 62; at++) lines[at] = (vupresal_line){text("x"), text("y")};
  cause_is(&connection, &request, VUPRESAL_OUTSIDE_LIMITS, VUPRESAL_CAUSE_OUTSIDE_LIMITS, VUPRESAL_LIMIT_FIELDS);
  vupresal_cause cause = {99, 99};
  CHECK_STATUS(vupresal_cause_of_head(&connection, plain, PLAIN_LENGTH - 1, &cause), VUPRESAL_BAD_REQUEST);
  CHECK(cause.reason == VUPRESAL_CAUSE_UNFINISHED && cause.limit == VUPRESAL_LIMIT_UNKNOWN);
  vupresal_facts facts = bare;
  facts.tls_version = vupresal_text_of(big, 1025);
  CHECK_STATUS(vupresal_connection_new(&connection, &facts), VUPRESAL_OK);
  request = parts("/", &line, VUPRESAL_HTTP_1);
  cause_is(&connection, &request, VUPRESAL_OUTSIDE_LIMITS, VUPRESAL_CAUSE_OUTSIDE_LIMITS, VUPRESAL_LIMIT_TEXT);
  vupresal_connection_free(&connection);
}

int main(int count, char **words) {
  CHECK(count == 2);
  length = message_of(words[1], message, sizeof message);
  empty_handles();
  several_filters();
  nothing_made();
  limits_of_filters();
  sets();
  causes();
  return 0;
}
