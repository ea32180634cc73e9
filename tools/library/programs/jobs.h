/* The jobs of judge.c and shared.c. A job is a line of standard input:
     filter BUDGET HEX      admits the message: `admitted POLICIES BOUND`, or `refused STATUS PLACE`
     fact NAME VALUE        a fact of the connection for the next head, where VALUE is HEX or a number
     head HEX               judges the head: `allow NUMBER NAME`, `deny - -` or `status STATUS`; then forgets the facts
   An empty text is `-`. Where the answer by parts differs from that by the head, the line is `DIFFERS`. */
#ifndef JOBS_H
#define JOBS_H
#include "check.h"

static char line[1 << 22];
static struct kept {
  struct kept *next;
  uint8_t bytes[];
} *last_kept;

static size_t hex_of(const char *text, uint8_t *into) {
  if (strcmp(text, "-") == 0) return 0;
  size_t length = strlen(text) / 2;
  for (size_t at = 0; at < length; at++) {
    unsigned byte;
    CHECK(sscanf(text + 2 * at, "%2x", &byte) == 1);
    into[at] = (uint8_t)byte;
  }
  return length;
}

/* The bytes of a text, until all are forgotten. */
static vupresal_bytes keep(const char *text) {
  struct kept *const room = (struct kept *)malloc(sizeof *room + strlen(text) / 2 + 1);
  CHECK(room);
  room->next = last_kept;
  last_kept = room;
  return vupresal_bytes_of(room->bytes, hex_of(text, room->bytes));
}

static void forget(void) {
  while (last_kept) {
    struct kept *const next = last_kept->next;
    free(last_kept);
    last_kept = next;
  }
}

static void add_fact(vupresal_facts *facts, const char *name, const char *value) {
  static const char *const texts[] = {"source.address",
                                      "destination.address",
                                      "connection.requested_server_name",
                                      "connection.tls_version",
                                      "connection.subject_peer_certificate",
                                      "connection.dns_san_peer_certificate",
                                      "connection.uri_san_peer_certificate"};
  static const char *const addresses[] = {"direct_remote_ip", "remote_ip", "destination_ip"};
  for (size_t at = 0; at < 7; at++)
    if (strcmp(name, texts[at]) == 0) {
      (&facts->source_address)[at].bytes = keep(value);
      (&facts->source_address)[at].is_there = true;
      return;
    }
  for (size_t at = 0; at < 3; at++)
    if (strcmp(name, addresses[at]) == 0) {
      (&facts->direct_remote_ip)[at] = keep(value);
      return;
    }
  if (strcmp(name, "request.scheme") == 0) facts->scheme = keep(value);
  else if (strcmp(name, "source.port") == 0) facts->source_port = atoi(value);
  else if (strcmp(name, "destination.port") == 0) facts->destination_port = atoi(value);
  else if (strcmp(name, "connection.mtls") == 0) facts->mtls = atoi(value);
  else if (strcmp(name, "connection.id") == 0)
    facts->connection_id = strtoull(value, NULL, 10), facts->has_connection_id = true;
  else check_failed(__FILE__, __LINE__, name);
}

/* The parts of a head that is whole and has a decision. */
static vupresal_request parts_of(const uint8_t *head, size_t length, vupresal_line *lines) {
  const char *at = (const char *)head, *end = at + length;
  while (*at == '\r' || *at == '\n') at++;
  const char *space = (const char *)memchr(at, ' ', (size_t)(end - at)),
             *last = (const char *)memchr(space + 1, ' ', (size_t)(end - space - 1));
  const char *line_end = (const char *)memchr(at, '\n', (size_t)(end - at));
  vupresal_request request = {vupresal_bytes_of(at, (size_t)(space - at)),
                              vupresal_bytes_of(space + 1, (size_t)(last - space - 1)), lines, 0,
                              memcmp(last + 1, "HTTP/1.1", 8) == 0, VUPRESAL_HTTP_1};
  for (at = line_end + 1; *at != '\r' && *at != '\n'; at = line_end + 1) {
    line_end = (const char *)memchr(at, '\n', (size_t)(end - at));
    const char *stop = line_end[-1] == '\r' ? line_end - 1 : line_end,
               *colon = (const char *)memchr(at, ':', (size_t)(stop - at));
    lines[request.line_count++] = (vupresal_line){vupresal_bytes_of(at, (size_t)(colon - at)),
                                                  vupresal_bytes_of(colon + 1, (size_t)(stop - colon - 1))};
  }
  return request;
}

/* What a filter says of a head. */
struct answer {
  int32_t status;
  bool differs;
  vupresal_decision decision;
};

/* Whether the decision is another one. */
static bool is_other(const vupresal_decision *one, const vupresal_decision *other) {
  return one->matched != other->matched || one->is_matched != other->is_matched || one->is_allowed != other->is_allowed;
}

/* Whether a request that is made of the head, or of these parts, gets another answer: from the filter, or from a set of it twice. */
static bool differs_if_made(vupresal_filter *filter, const vupresal_facts *facts, vupresal_bytes head, const vupresal_request *parts,
                            const struct answer *answer) {
  vupresal_connection connection = {0};
  vupresal_made_request made = {0};
  vupresal_set set = {0};
  vupresal_decision decision = stale();
  vupresal_set_decision of_set = {stale(), 7};
  int32_t status = vupresal_connection_new(&connection, facts);
  if (status == VUPRESAL_OK)
    status = parts ? vupresal_request_of_parts(&made, &connection, parts)
                   : vupresal_request_of_head(&made, &connection, head.at, head.length);
  if (status == VUPRESAL_OK) status = vupresal_filter_decide_request(filter, &made, &decision);
  bool differs = status != answer->status;
  if (status == VUPRESAL_OK) {
    CHECK_STATUS(vupresal_set_add(&set, filter), VUPRESAL_OK);
    CHECK_STATUS(vupresal_set_add(&set, filter), VUPRESAL_OK);
    CHECK_STATUS(vupresal_set_decide(&set, &made, &of_set), VUPRESAL_OK);
    differs |= is_other(&decision, &answer->decision) || is_other(&of_set.decision, &decision) ||
               of_set.filter != (decision.is_allowed ? 1u : 0u);
  }
  vupresal_set_free(&set);
  vupresal_request_free(&made);
  vupresal_connection_free(&connection);
  return differs;
}

/* Judges a head, and its parts; each also as a request that is made once. */
static struct answer answer_of(vupresal_filter *filter, const vupresal_facts *facts, vupresal_bytes head) {
  struct answer answer = {0, false, stale()};
  answer.status = vupresal_filter_decide_head(filter, head.at, head.length, facts, &answer.decision);
  answer.differs = vupresal_filter_policies(filter) && differs_if_made(filter, facts, head, NULL, &answer);
  if (answer.status != VUPRESAL_OK) {
    check_refuses(answer.decision);
    return answer;
  }
  vupresal_line *const lines = (vupresal_line *)malloc((head.length + 1) * sizeof *lines);
  CHECK(lines);
  vupresal_request request = parts_of(head.at, head.length, lines);
  vupresal_decision other = stale();
  int32_t status = vupresal_filter_decide(filter, &request, facts, &other);
  answer.differs |= status != VUPRESAL_OK || is_other(&other, &answer.decision) || differs_if_made(filter, facts, head, &request, &answer);
  free(lines);
  return answer;
}

static void print_answer(vupresal_filter *filter, const struct answer *answer) {
  static uint8_t name[1 << 20];
  if (answer->differs) {
    puts("DIFFERS");
  } else if (answer->status != VUPRESAL_OK) {
    printf("status %" PRId32 "\n", answer->status);
  } else if (!answer->decision.is_matched) {
    printf("%s - -\n", answer->decision.is_allowed ? "allow" : "deny");
  } else {
    size_t named = vupresal_filter_policy_name(filter, answer->decision.matched, name, sizeof name);
    printf("%s %" PRIu64 " %s", answer->decision.is_allowed ? "allow" : "deny", answer->decision.matched, named ? "" : "-");
    for (size_t at = 0; at < named; at++) printf("%02x", name[at]);
    puts("");
  }
}

static void admit(vupresal_filter *filter, uint64_t budget, const char *digits) {
  static uint8_t place[1 << 16], bytes[1 << 21];
  const vupresal_bounds greatest = {0};
  size_t length = hex_of(digits, bytes);
  int32_t status = vupresal_filter_admit(filter, bytes, length, &greatest, budget, place, sizeof place);
  if (status == VUPRESAL_OK)
    printf("admitted %zu %" PRIu64 "\n", vupresal_filter_policies(filter), vupresal_filter_bound(filter));
  else printf("refused %" PRId32 " %s\n", status, place);
}

/* Does all jobs: `judge` gets each head, and `admitting` is called before each admission. */
static void do_jobs(vupresal_filter *filter, void judge(vupresal_filter *, const vupresal_facts *, vupresal_bytes),
                    void admitting(vupresal_filter *)) {
  const vupresal_facts bare = VUPRESAL_NO_FACTS;
  vupresal_facts facts = bare;
  CHECK(vupresal_is_expected());
  while (fgets(line, sizeof line, stdin)) {
    line[strcspn(line, "\n")] = 0;
    char *first = strchr(line, ' '), *second = first ? strchr(first + 1, ' ') : NULL;
    CHECK(first);
    *first++ = 0;
    if (second) *second++ = 0;
    if (strcmp(line, "filter") == 0) {
      admitting(filter);
      forget();
      admit(filter, strtoull(first, NULL, 10), second);
    } else if (strcmp(line, "fact") == 0) {
      add_fact(&facts, first, second);
    } else {
      judge(filter, &facts, keep(first));
      facts = bare;
    }
  }
  admitting(filter);
  forget();
}
#endif
