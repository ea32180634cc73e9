/* Bad input of every kind gets a status, and the handle stays as it was: inputs FILTER, where the filter admits `GET /` alone by a
   policy of the name `readers`. */
#include "check.h"

static uint8_t message[1 << 20];
static size_t length;
static const vupresal_bounds greatest = {0};
static const vupresal_facts bare = VUPRESAL_NO_FACTS;
/* More bytes than there are anywhere. No caller may say so; but a message or a head is read no further than it makes sense, and an
   absent text, an address of a wrong length or a part outside the limits is not read. */
static const size_t ENDLESS = (size_t)1 << 63;

static int32_t admit(vupresal_filter *filter, const uint8_t *bytes, size_t count) {
  return vupresal_filter_admit(filter, bytes, count, &greatest, VUPRESAL_MOST_BUDGET, NULL, 0);
}

static bool passes(vupresal_filter *filter) {
  vupresal_decision decision = stale();
  CHECK_STATUS(vupresal_filter_decide_head(filter, plain, PLAIN_LENGTH, &bare, &decision), VUPRESAL_OK);
  return decision.is_allowed && decision.is_matched;
}

/* No decision on this head with these facts, but this status. */
static void no_decision(vupresal_filter *filter, const void *head, size_t count, const vupresal_facts *facts,
                        int32_t wanted) {
  vupresal_decision decision = stale();
  CHECK_STATUS(vupresal_filter_decide_head(filter, (const uint8_t *)head, count, facts, &decision), wanted);
  check_refuses(decision);
}

/* The same for a request by its parts. */
static void no_decision_of(vupresal_filter *filter, const vupresal_request *request, int32_t wanted) {
  vupresal_decision decision = stale();
  CHECK_STATUS(vupresal_filter_decide(filter, request, &bare, &decision), wanted);
  check_refuses(decision);
}

static vupresal_bytes text(const char *it) { return vupresal_bytes_of(it, strlen(it)); }

static void empty_handles(void) {
  vupresal_filter filter = {0};
  vupresal_request request = {text("GET"), text("/"), NULL, 0, false, VUPRESAL_HTTP_1};
  uint8_t room[4] = {9, 9, 9, 9};
  for (int round = 0; round < 2; round++) {
    no_decision(&filter, plain, PLAIN_LENGTH, &bare, VUPRESAL_EMPTY);
    no_decision_of(&filter, &request, VUPRESAL_EMPTY);
    CHECK(vupresal_filter_policies(&filter) == 0 && vupresal_filter_bound(&filter) == 0);
    CHECK(vupresal_filter_policy_name(&filter, 0, room, sizeof room) == 0 && room[0] == 9);
    vupresal_filter_free(&filter);
    vupresal_filter_free(&filter);
    if (round == 0) {
      CHECK_STATUS(admit(&filter, message, length), VUPRESAL_OK);
      CHECK(passes(&filter));
      vupresal_filter_free(&filter);
    }
  }
}

static void admissions(vupresal_filter *filter) {
  static const uint8_t no_text[] = {0x0a, 0x06, 0x12, 0x04, 0x0a, 0x02, 0xff, 0xfe};
  static const uint8_t broken[] = {0x0a, 0xff};
  uint8_t place[8];
  CHECK_STATUS(admit(filter, NULL, 0), VUPRESAL_MISSING);
  CHECK_STATUS(admit(filter, (const uint8_t *)"", 0), VUPRESAL_MISSING);
  CHECK_STATUS(admit(filter, broken, sizeof broken), VUPRESAL_BAD_WIRE);
  CHECK_STATUS(admit(filter, no_text, sizeof no_text), VUPRESAL_BAD_TEXT);
  /* the zeros behind the message are no fields */
  CHECK_STATUS(admit(filter, message, ENDLESS), VUPRESAL_BAD_WIRE);
  CHECK_STATUS(admit(filter, message, SIZE_MAX), VUPRESAL_BAD_WIRE);
  const uint64_t budgets[] = {0, VUPRESAL_MOST_BUDGET + 1, UINT64_MAX};
  for (size_t at = 0; at < 3; at++)
    CHECK_STATUS(vupresal_filter_admit(filter, message, length, &greatest, budgets[at], NULL, 0),
                 VUPRESAL_OUT_OF_RANGE);
  const vupresal_bounds wrong[] = {{65, 1, 1, 1, 1, 1, 0},  {1, 129, 1, 1, 1, 1, 0},
                                   {1, 1, 4097, 1, 1, 1, 0}, {1, 1, 1, 33, 1, 1, 0},
                                   {1, 1, 1, 1, 4097, 1, 0}, {1, 1, 1, 1, 1, 1025, 0},
                                   {0, 1, 1, 1, 1, 1, 0},   {1, 1, 1, 1, 1, 0, 0},
                                   {SIZE_MAX, SIZE_MAX, 1, 1, 1, 1, 0},
                                   /* visits of 2^63 and more */
                                   {1, 1, 1, 1, 1, 1, UINT64_C(1) << 63}, {1, 1, 1, 1, 1, 1, UINT64_MAX}};
  for (size_t at = 0; at < sizeof wrong / sizeof *wrong; at++)
    CHECK_STATUS(vupresal_filter_admit(filter, message, length, &wrong[at], 1, NULL, 0), VUPRESAL_OUT_OF_RANGE);
  /* the place is cut to the room, and ends in a zero */
  static const char whole[] = "policy \"readers\": checked_condition";
  for (size_t room = 0; room <= sizeof place; room++) {
    memset(place, 9, sizeof place);
    CHECK_STATUS(vupresal_filter_admit(filter, message, length, &greatest, 1, place, room), VUPRESAL_TOO_COSTLY);
    CHECK(room == 0 || (memcmp(place, whole, room - 1) == 0 && place[room - 1] == 0));
    CHECK(room == sizeof place || place[room] == 9);
  }
  CHECK(passes(filter));
}

static void heads(vupresal_filter *filter) {
  static const char *const malformed[] = {"GET",
                                          "GET /",
                                          "GET / HTTP/1.1\r\n",
                                          "GET / HTTP/1.1\r\nHost: h\r\n",
                                          "\r\n\r\n",
                                          "GET / HTTP/1.1\r\n\r\n",
                                          "GET http://h/ HTTP/1.1\r\nHost: h\r\n\r\n",
                                          "GET / HTTP/2.0\r\nHost: h\r\n\r\n",
                                          "GET / HTTP/1.1\r\n: v\r\nHost: h\r\n\r\n",
                                          "GET / HTTP/1.1\r\nHost: h\r\nHost: h\r\n\r\n",
                                          "GET / HTTP/1.1\r\nHost: h\r\nx: \xff\r\n\r\n",
                                          "G\xff / HTTP/1.1\r\nHost: h\r\n\r\n"};
  no_decision(filter, NULL, 0, &bare, VUPRESAL_BAD_REQUEST);
  for (size_t at = 0; at < sizeof malformed / sizeof *malformed; at++)
    no_decision(filter, malformed[at], strlen(malformed[at]), &bare, VUPRESAL_BAD_REQUEST);
  const char *coded = "GET / HTTP/1.1\r\nHost: h\r\nTransfer-Encoding: chunked\r\n\r\n";
  no_decision(filter, coded, strlen(coded), &bare, VUPRESAL_TRANSFER_CODING);
  static char large[1 << 17];
  memset(large, 'a', sizeof large);
  memcpy(large, "GET /", 5);
  no_decision(filter, large, sizeof large, &bare, VUPRESAL_OUTSIDE_LIMITS);
  memcpy(large + 5 + 4096, " HTTP/1.1\r\nHost: h\r\n\r\n", 22);
  no_decision(filter, large, 5 + 4096 + 22, &bare, VUPRESAL_OUTSIDE_LIMITS);
  /* a whole head in endless bytes is a head */
  vupresal_decision decision = stale();
  CHECK_STATUS(vupresal_filter_decide_head(filter, plain, ENDLESS, &bare, &decision), VUPRESAL_OK);
  CHECK(decision.is_allowed);
}

static void parts(vupresal_filter *filter) {
  vupresal_line lines[70];
  for (size_t at = 0; at < 70; at++) lines[at] = (vupresal_line){text("x"), text("v")};
  lines[0] = (vupresal_line){text("host"), text("h")};
  const vupresal_request good = {text("GET"), text("/"), lines, 1, true, VUPRESAL_HTTP_1};
  vupresal_decision decision = stale();
  CHECK_STATUS(vupresal_filter_decide(filter, &good, &bare, &decision), VUPRESAL_OK);
  CHECK(decision.is_allowed);
  vupresal_request request = good;
  request.lines = NULL, request.line_count = 0;
  no_decision_of(filter, &request, VUPRESAL_BAD_REQUEST);
  request.is_http11 = false;
  CHECK_STATUS(vupresal_filter_decide(filter, &request, &bare, &decision), VUPRESAL_OK);
  request = good, request.line_count = 70;
  no_decision_of(filter, &request, VUPRESAL_OUTSIDE_LIMITS);
  const vupresal_bytes nothing = VUPRESAL_NO_BYTES,
                       bad[] = {nothing, text("x"), text("/\n"), text("/\xff"), text("/ "), text("http://h/")};
  for (size_t at = 0; at < sizeof bad / sizeof *bad; at++) {
    request = good, request.target = bad[at];
    no_decision_of(filter, &request, VUPRESAL_BAD_REQUEST);
  }
  const vupresal_bytes methods[] = {nothing, text("G T"), text("G\r\n"), text("\xff")};
  for (size_t at = 0; at < sizeof methods / sizeof *methods; at++) {
    request = good, request.method = methods[at];
    no_decision_of(filter, &request, VUPRESAL_BAD_REQUEST);
  }
  const vupresal_line wrong[] = {{nothing, text("v")},          {text(""), text("")},
                                 {text("a b"), text("v")},      {text("x"), text("a\nb")},
                                 {text("x"), text("a\rb")},     {text("x"), text("\xff\xfe")},
                                 {text("\xc3\xa9"), text("v")}, {text(":path"), text("/")},
                                 {text("host"), text("other")}, {text(":authority"), text("other")}};
  request = good, request.line_count = 2;
  for (size_t at = 0; at < sizeof wrong / sizeof *wrong; at++) {
    lines[1] = wrong[at];
    no_decision_of(filter, &request, VUPRESAL_BAD_REQUEST);
  }
  lines[1] = (vupresal_line){text("transfer-encoding"), text("chunked")};
  no_decision_of(filter, &request, VUPRESAL_TRANSFER_CODING);
  static char large[5000];
  memset(large, 'a', sizeof large - 1);
  lines[1] = (vupresal_line){text("x"), text(large)};
  no_decision_of(filter, &request, VUPRESAL_OUTSIDE_LIMITS);
  lines[1] = (vupresal_line){text(large), text("x")};
  no_decision_of(filter, &request, VUPRESAL_OUTSIDE_LIMITS);
  lines[1] = (vupresal_line){text("X-Any"), nothing};
  CHECK_STATUS(vupresal_filter_decide(filter, &request, &bare, &decision), VUPRESAL_OK);
  CHECK(passes(filter));
}

/* A part that is longer than any request within the limits has is not read. */
static void lengths(vupresal_filter *filter) {
  const size_t sizes[] = {65537, ENDLESS, SIZE_MAX};
  for (size_t at = 0; at < 3; at++) {
    const vupresal_bytes far = vupresal_bytes_of("a", sizes[at]);
    vupresal_line lines[] = {{text("host"), text("h")}, {text("x"), text("v")}};
    const vupresal_request good = {text("GET"), text("/"), lines, 2, true, VUPRESAL_HTTP_1};
    vupresal_request request = good;
    request.method = far;
    no_decision_of(filter, &request, VUPRESAL_OUTSIDE_LIMITS);
    request = good, request.target = far;
    no_decision_of(filter, &request, VUPRESAL_OUTSIDE_LIMITS);
    request = good, request.line_count = sizes[at];
    no_decision_of(filter, &request, VUPRESAL_OUTSIDE_LIMITS);
    request = good, lines[1].value = far;
    no_decision_of(filter, &request, VUPRESAL_OUTSIDE_LIMITS);
    lines[1].name = far, lines[1].value = text("v");
    no_decision_of(filter, &request, VUPRESAL_OUTSIDE_LIMITS);
  }
  /* the limits are those of the filter */
  const vupresal_bounds bounds = {5, 10, 4, 3, 2, 20, 0};
  vupresal_filter small = {0};
  CHECK_STATUS(vupresal_filter_admit(&small, message, length, &bounds, VUPRESAL_MOST_BUDGET, NULL, 0), VUPRESAL_OK);
  vupresal_line lines[6];
  for (size_t at = 0; at < 6; at++) lines[at] = (vupresal_line){text("host"), text("h")};
  vupresal_request request = {text("GET"), text("/a"), lines, 1, true, VUPRESAL_HTTP_1};
  vupresal_decision decision = stale();
  CHECK_STATUS(vupresal_filter_decide(&small, &request, &bare, &decision), VUPRESAL_OK);
  request.line_count = 5; /* five hosts */
  no_decision_of(&small, &request, VUPRESAL_BAD_REQUEST);
  request.line_count = 6;
  no_decision_of(&small, &request, VUPRESAL_OUTSIDE_LIMITS);
  request.line_count = 1, request.method = vupresal_bytes_of("G T", 4);
  no_decision_of(&small, &request, VUPRESAL_OUTSIDE_LIMITS);
  request.method = text("G T");
  no_decision_of(&small, &request, VUPRESAL_BAD_REQUEST);
  request.method = text("GET"), request.target = vupresal_bytes_of("//", 3);
  no_decision_of(&small, &request, VUPRESAL_OUTSIDE_LIMITS);
  request.target = text("/"), lines[0].name = vupresal_bytes_of("0123456789", 11);
  no_decision_of(&small, &request, VUPRESAL_OUTSIDE_LIMITS);
  vupresal_filter_free(&small);
}

static void facts(vupresal_filter *filter) {
  static char large[1025];
  memset(large, 'a', sizeof large);
  vupresal_facts wrong = bare;
  wrong.scheme = text("\xff");
  no_decision(filter, plain, PLAIN_LENGTH, &wrong, VUPRESAL_BAD_REQUEST);
  for (size_t at = 0; at < 7; at++) {
    wrong = bare;
    vupresal_text *const one = &wrong.source_address + at;
    *one = vupresal_text_of("a\xff", 2);
    no_decision(filter, plain, PLAIN_LENGTH, &wrong, VUPRESAL_BAD_REQUEST);
    *one = vupresal_text_of(large, sizeof large);
    no_decision(filter, plain, PLAIN_LENGTH, &wrong, VUPRESAL_OUTSIDE_LIMITS);
    /* a text that is far too long is not read, and neither is an absent one */
    *one = vupresal_text_of("a", ENDLESS);
    no_decision(filter, plain, PLAIN_LENGTH, &wrong, VUPRESAL_BAD_REQUEST);
    one->is_there = false;
    vupresal_decision decision = stale();
    CHECK_STATUS(vupresal_filter_decide_head(filter, plain, PLAIN_LENGTH, &wrong, &decision), VUPRESAL_OK);
  }
  wrong = bare, wrong.source_port = INT32_MIN, wrong.destination_port = 65535, wrong.mtls = INT32_MIN;
  vupresal_decision decision = stale();
  CHECK_STATUS(vupresal_filter_decide_head(filter, plain, PLAIN_LENGTH, &wrong, &decision), VUPRESAL_OK);
  CHECK(decision.is_allowed);
  /* numbers that are no ports, and bytes that are no address, are not absent */
  const int32_t ports[] = {65536, INT32_MAX};
  for (size_t at = 0; at < 2; at++) {
    wrong = bare, wrong.source_port = ports[at];
    no_decision(filter, plain, PLAIN_LENGTH, &wrong, VUPRESAL_OUT_OF_RANGE);
    wrong = bare, wrong.destination_port = ports[at];
    no_decision(filter, plain, PLAIN_LENGTH, &wrong, VUPRESAL_OUT_OF_RANGE);
  }
  const size_t sizes[] = {1, 3, 5, 8, 15, 17, ENDLESS};
  for (size_t at = 0; at < sizeof sizes / sizeof *sizes; at++)
    for (size_t place = 0; place < 3; place++) {
      wrong = bare;
      (&wrong.direct_remote_ip)[place] = vupresal_bytes_of("1", sizes[at]);
      no_decision(filter, plain, PLAIN_LENGTH, &wrong, VUPRESAL_OUT_OF_RANGE);
    }
}

/* Whether a filter with this message lets the head through on a connection with these facts. */
static bool lets_through(const void *bytes, size_t count, const vupresal_facts *facts) {
  vupresal_filter one = {0};
  vupresal_decision decision = stale();
  CHECK_STATUS(admit(&one, bytes, count), VUPRESAL_OK);
  CHECK_STATUS(vupresal_filter_decide_head(&one, plain, PLAIN_LENGTH, facts, &decision), VUPRESAL_OK);
  vupresal_filter_free(&one);
  return decision.is_allowed;
}

/* Server names and addresses have one form, so that no rule on them is passed by another spelling. */
static void one_form(void) {
  /* denies the server name "a" */
  static const uint8_t deny_name[] = "\x0a\x14\x08\x01\x12\x10\x0a\x01p\x12\x0b\x0a\x05\x4a\x03\x0a\x01" "a\x12\x02\x18\x01";
  static const char *const denied[] = {"a", "A"}, *const passed[] = {"b", "", "aa", "\xc3\xa1"};
  vupresal_facts facts = bare;
  for (size_t at = 0; at < 2; at++) {
    facts.requested_server_name = vupresal_text_of(denied[at], strlen(denied[at]));
    CHECK(!lets_through(deny_name, sizeof deny_name - 1, &facts));
  }
  for (size_t at = 0; at < 4; at++) {
    facts.requested_server_name = vupresal_text_of(passed[at], strlen(passed[at]));
    CHECK(lets_through(deny_name, sizeof deny_name - 1, &facts));
  }
  /* denies the destination 10.0.0.0/8 */
  static const uint8_t deny_range[] =
      "\x0a\x1f\x08\x01\x12\x1b\x0a\x01p\x12\x16\x0a\x10\x2a\x0e\x0a\x08" "10.0.0.0\x12\x02\x08\x08\x12\x02\x18\x01";
  static const uint8_t mapped[] = {0, 0, 0, 0, 0, 0, 0, 0, 0, 0, 0xff, 0xff, 10, 1, 2, 3},
                       other[] = {0, 0, 0, 0, 0, 0, 0, 0, 0, 0, 0xff, 0xfe, 10, 1, 2, 3};
  facts = bare;
  CHECK(lets_through(deny_range, sizeof deny_range - 1, &facts));
  facts.destination_ip = vupresal_bytes_of(mapped + 12, 4);
  CHECK(!lets_through(deny_range, sizeof deny_range - 1, &facts));
  facts.destination_ip = vupresal_bytes_of(mapped, 16);
  CHECK(!lets_through(deny_range, sizeof deny_range - 1, &facts));
  facts.destination_ip = vupresal_bytes_of(other, 16);
  CHECK(lets_through(deny_range, sizeof deny_range - 1, &facts));
}

/* A filter whose condition is `request.protocol == "HTTP/2"` lets through what is of HTTP/2. */
static void protocols(void) {
  static const uint8_t http2[] =
      "\x0aJ\x12H\x0a\x01p\x12\x43\x0a\x02\x18\x01\x12\x02\x18\x01\x22\x39\x22\x37\x10\x03\x32\x33\x12\x04_==_"
      "\x1a\x1d\x10\x02*\x19\x0a\x0d\x10\x01\x22\x09\x0a\x07request\x12\x08protocol\x1a\x0c\x10\x04\x1a\x08\x32\x06HTTP/2";
  static const struct { uint64_t protocol; bool is_http11, passes; int32_t status; } rows[] = {
      {VUPRESAL_HTTP_1, true, false, VUPRESAL_OK},   {VUPRESAL_HTTP_1, false, false, VUPRESAL_OK},
      {VUPRESAL_HTTP_2, true, true, VUPRESAL_OK},    {VUPRESAL_HTTP_2, false, true, VUPRESAL_OK},
      {VUPRESAL_HTTP_3, true, false, VUPRESAL_OK},   {1, true, false, VUPRESAL_OUT_OF_RANGE},
      {4, true, false, VUPRESAL_OUT_OF_RANGE},       {UINT64_MAX, true, false, VUPRESAL_OUT_OF_RANGE},
      {(uint64_t)1 << 32, true, false, VUPRESAL_OUT_OF_RANGE}};
  const vupresal_line host = {text(":authority"), text("h")};
  vupresal_filter one = {0};
  CHECK_STATUS(admit(&one, http2, sizeof http2 - 1), VUPRESAL_OK);
  for (size_t at = 0; at < sizeof rows / sizeof *rows; at++) {
    const vupresal_request request = {text("GET"), text("/"), &host, 1, rows[at].is_http11, rows[at].protocol};
    vupresal_decision decision = stale();
    CHECK_STATUS(vupresal_filter_decide(&one, &request, &bare, &decision), rows[at].status);
    CHECK(decision.is_allowed == rows[at].passes);
  }
  const vupresal_request hostless = {text("GET"), text("/"), NULL, 0, false, VUPRESAL_HTTP_2};
  no_decision_of(&one, &hostless, VUPRESAL_BAD_REQUEST);
  vupresal_filter_free(&one);
}

static void names(vupresal_filter *filter) {
  uint8_t room[8];
  for (size_t size = 0; size <= sizeof room; size++) {
    memset(room, 9, sizeof room);
    CHECK(vupresal_filter_policy_name(filter, 0, size ? room : NULL, size) == 7);
    CHECK(memcmp(room, "readers", size < 7 ? size : 7) == 0 && (size == sizeof room || room[size] == 9) &&
          room[7] == 9);
  }
  const uint64_t others[] = {1, (uint64_t)1 << 32, (uint64_t)1 << 63, UINT64_MAX};
  for (size_t at = 0; at < 4; at++) CHECK(vupresal_filter_policy_name(filter, others[at], room, sizeof room) == 0);
}

static bool passes_admin(vupresal_filter *filter) {
  static const uint8_t admin[] = "GET /admin HTTP/1.1\r\nHost: h\r\n\r\n";
  vupresal_decision decision = stale();
  CHECK_STATUS(vupresal_filter_decide_head(filter, admin, sizeof admin - 1, &bare, &decision), VUPRESAL_OK);
  return decision.is_allowed;
}

/* Handles that share a filter. */
static void shares(vupresal_filter *filter) {
  vupresal_filter none = {0}, first = {0}, second = {0};
  CHECK_STATUS(vupresal_filter_share(&none, &first), VUPRESAL_EMPTY);
  CHECK_STATUS(vupresal_filter_share(&none, &none), VUPRESAL_EMPTY);
  CHECK_STATUS(vupresal_filter_share(filter, &first), VUPRESAL_OK);
  CHECK(passes(filter) && passes(&first));
  /* from an empty handle nothing comes, and nothing goes */
  CHECK_STATUS(vupresal_filter_share(&none, &first), VUPRESAL_EMPTY);
  CHECK(passes(&first) && !passes_admin(&first));
  /* with itself, and with one that has it already */
  CHECK_STATUS(vupresal_filter_share(&first, &first), VUPRESAL_OK);
  CHECK_STATUS(vupresal_filter_share(filter, &first), VUPRESAL_OK);
  CHECK(passes(filter) && passes(&first));
  /* what the second handle held is freed; an admission into one handle leaves the other */
  CHECK_STATUS(admit(&second, open_to_all, sizeof open_to_all), VUPRESAL_OK);
  CHECK(passes_admin(&second));
  CHECK_STATUS(vupresal_filter_share(&first, &second), VUPRESAL_OK);
  CHECK(passes(&second) && !passes_admin(&second));
  CHECK_STATUS(admit(&first, open_to_all, sizeof open_to_all), VUPRESAL_OK);
  CHECK(passes_admin(&first) && !passes_admin(&second) && !passes_admin(filter));
  vupresal_filter_free(&first);
  CHECK(passes(filter) && passes(&second));
  vupresal_filter_free(&second);
  vupresal_filter_free(&second);
  CHECK(passes(filter));
}

static void proxies(void) {
  vupresal_proxy proxy = {0};
  vupresal_given given = {7, 7, true, true};
  uint8_t room[4096];
  for (int round = 0; round < 2; round++) {
    CHECK_STATUS(vupresal_proxy_ads_up(&proxy, &given), VUPRESAL_EMPTY);
    CHECK(given.ads_length == 0 && given.http_length == 0 && !given.closes_ads && !given.closes_http);
    CHECK_STATUS(vupresal_proxy_ads_bytes(&proxy, NULL, 0, &given), VUPRESAL_EMPTY);
    CHECK_STATUS(vupresal_proxy_ads_lost(&proxy, &given), VUPRESAL_EMPTY);
    CHECK_STATUS(vupresal_proxy_http_open(&proxy, 0, &bare, &given), VUPRESAL_EMPTY);
    vupresal_facts unread = bare;
    unread.scheme = text("\xff");
    CHECK_STATUS(vupresal_proxy_http_open(&proxy, 0, &unread, &given), VUPRESAL_EMPTY);
    CHECK_STATUS(vupresal_proxy_http_bytes(&proxy, 0, plain, PLAIN_LENGTH, &given), VUPRESAL_EMPTY);
    CHECK_STATUS(vupresal_proxy_http_closed(&proxy, 0, &given), VUPRESAL_EMPTY);
    CHECK(vupresal_proxy_ads_output(&proxy, room, sizeof room) == 0 &&
          vupresal_proxy_http_output(&proxy, NULL, 0) == 0);
    CHECK(vupresal_proxy_generation(&proxy) == 0);
    vupresal_proxy_free(&proxy);
    if (round == 1) break;
    const vupresal_resource one = {text("f"), 1000};
    vupresal_resource many[9];
    char numbers[9][2];
    for (size_t at = 0; at < 9; at++) {
      numbers[at][0] = (char)('0' + at);
      many[at] = (vupresal_resource){vupresal_bytes_of(numbers[at], 1), 1};
    }
    vupresal_settings settings = {text("n"), text("c"), &one, 1, {0}};
    CHECK_STATUS(vupresal_proxy_new(&proxy, &settings), VUPRESAL_OK);
    CHECK_STATUS(vupresal_proxy_ads_up(&proxy, &given), VUPRESAL_OK);
    CHECK(given.ads_length > 0 && vupresal_proxy_ads_output(&proxy, room, sizeof room) == given.ads_length);
    CHECK_STATUS(vupresal_proxy_http_bytes(&proxy, 3, plain, PLAIN_LENGTH, &given), VUPRESAL_OK);
    CHECK(given.http_length == 0);
    CHECK_STATUS(vupresal_proxy_http_open(&proxy, 3, &bare, &given), VUPRESAL_OK);
    CHECK_STATUS(vupresal_proxy_http_bytes(&proxy, 3, plain, PLAIN_LENGTH, &given), VUPRESAL_OK);
    CHECK(given.http_length == vupresal_proxy_http_output(&proxy, room, sizeof room) &&
          memcmp(room, "HTTP/1.1 503", 12) == 0);
    CHECK_STATUS(vupresal_proxy_http_bytes(&proxy, 8, plain, PLAIN_LENGTH, &given), VUPRESAL_OK);
    CHECK_STATUS(vupresal_proxy_http_open(&proxy, UINT64_MAX, &bare, &given), VUPRESAL_OK);
    CHECK(given.http_length == 0);
    vupresal_facts wrong = bare;
    wrong.scheme = text("\xff");
    CHECK_STATUS(vupresal_proxy_http_open(&proxy, 4, &wrong, &given), VUPRESAL_BAD_REQUEST);
    /* settings out of range leave the proxy as it was */
    settings.filter_count = 0;
    CHECK_STATUS(vupresal_proxy_new(&proxy, &settings), VUPRESAL_OUT_OF_RANGE);
    settings.filters = NULL;
    CHECK_STATUS(vupresal_proxy_new(&proxy, &settings), VUPRESAL_OUT_OF_RANGE);
    settings.filters = many, settings.filter_count = 9;
    CHECK_STATUS(vupresal_proxy_new(&proxy, &settings), VUPRESAL_OUT_OF_RANGE);
    settings.filter_count = 2, many[1] = many[0];
    CHECK_STATUS(vupresal_proxy_new(&proxy, &settings), VUPRESAL_OUT_OF_RANGE);
    many[1].name = text("\xff");
    CHECK_STATUS(vupresal_proxy_new(&proxy, &settings), VUPRESAL_OUT_OF_RANGE);
    settings.filter_count = 1, many[0].budget = 0;
    CHECK_STATUS(vupresal_proxy_new(&proxy, &settings), VUPRESAL_OUT_OF_RANGE);
    settings.filters = &one, settings.bounds.fields = 65;
    CHECK_STATUS(vupresal_proxy_new(&proxy, &settings), VUPRESAL_OUT_OF_RANGE);
    settings.bounds.fields = 0, settings.node = text("\xff");
    CHECK_STATUS(vupresal_proxy_new(&proxy, &settings), VUPRESAL_OUT_OF_RANGE);
    /* names and filters beyond their greatest number are not read */
    const size_t sizes[] = {257, ENDLESS, SIZE_MAX};
    for (size_t at = 0; at < 3; at++) {
      const vupresal_bytes far = vupresal_bytes_of("a", sizes[at]);
      settings.node = far;
      CHECK_STATUS(vupresal_proxy_new(&proxy, &settings), VUPRESAL_OUT_OF_RANGE);
      settings.node = text("n"), settings.cluster = far;
      CHECK_STATUS(vupresal_proxy_new(&proxy, &settings), VUPRESAL_OUT_OF_RANGE);
      settings.cluster = text("c"), settings.filter_count = sizes[at];
      CHECK_STATUS(vupresal_proxy_new(&proxy, &settings), VUPRESAL_OUT_OF_RANGE);
      settings.filters = many, settings.filter_count = 1, many[0] = (vupresal_resource){far, 1};
      CHECK_STATUS(vupresal_proxy_new(&proxy, &settings), VUPRESAL_OUT_OF_RANGE);
      settings.filters = &one;
    }
    CHECK_STATUS(vupresal_proxy_http_bytes(&proxy, 3, plain, PLAIN_LENGTH, &given), VUPRESAL_OK);
    CHECK(given.http_length > 0);
    CHECK_STATUS(vupresal_proxy_ads_bytes(&proxy, (const uint8_t *)"\xff\xff\xff\xff\xff", 5, &given), VUPRESAL_OK);
    CHECK(given.closes_ads);
    vupresal_proxy_free(&proxy);
  }
}

int main(int count, char **words) {
  CHECK(count == 2 && vupresal_is_expected());
  length = message_of(words[1], message, sizeof message);
  for (int32_t status = -3; status < 600; status++) CHECK(strlen(vupresal_status_text(status)) > 3);
  vupresal_filter filter = {0};
  CHECK_STATUS(admit(&filter, message, length), VUPRESAL_OK);
  empty_handles();
  admissions(&filter);
  heads(&filter);
  parts(&filter);
  lengths(&filter);
  facts(&filter);
  one_form();
  protocols();
  names(&filter);
  shares(&filter);
  proxies();
  CHECK(passes(&filter));
  /* a handle may be moved */
  vupresal_filter moved = filter;
  memset(&filter, 0, sizeof filter);
  CHECK(passes(&moved));
  vupresal_filter_free(&moved);
  puts("inputs: all as wanted");
  return 0;
}
