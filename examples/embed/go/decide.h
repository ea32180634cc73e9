/* One call of C for a decision: cgo forbids pointers to Go's memory inside of what C reads, so Go gives texts and their lengths. */
#ifndef VUPRESAL_GO_DECIDE_H
#define VUPRESAL_GO_DECIDE_H
#include <stdlib.h>
#include <vupresal.h>

/* What a request has beside its texts. */
typedef struct vupresal_go_numbers {
  uint64_t connection_id, protocol;
  int32_t source_port, destination_port, mtls;
  bool has_connection_id, is_http11;
} vupresal_go_numbers;

/* The texts that each request has, in this order. The names and values of its lines follow. */
enum {
  VUPRESAL_GO_METHOD,
  VUPRESAL_GO_TARGET,
  VUPRESAL_GO_SCHEME,
  VUPRESAL_GO_TEXTS,
  VUPRESAL_GO_ADDRESSES = VUPRESAL_GO_TEXTS + 7,
  VUPRESAL_GO_LINES = VUPRESAL_GO_ADDRESSES + 3,
  VUPRESAL_GO_FEW = 64 /* lines that need no memory of the heap */
};

static inline vupresal_bytes vupresal_go_next(const uint8_t **texts, size_t length) {
  vupresal_bytes bytes = {*texts, length};
  *texts += length;
  return bytes;
}

/* The decision on a request, whose texts are one after another. */
static inline int32_t vupresal_go_decide(vupresal_filter *filter, const uint8_t *texts, const size_t *lengths, size_t line_count,
                                         const vupresal_go_numbers *numbers, vupresal_decision *decision) {
  vupresal_line few[VUPRESAL_GO_FEW], *lines = few;
  vupresal_facts facts = VUPRESAL_NO_FACTS;
  vupresal_text *const places[] = {&facts.source_address, &facts.destination_address, &facts.requested_server_name, &facts.tls_version,
                                   &facts.subject_peer_certificate, &facts.dns_san_peer_certificate, &facts.uri_san_peer_certificate};
  vupresal_bytes *const addresses[] = {&facts.direct_remote_ip, &facts.remote_ip, &facts.destination_ip};
  vupresal_request request = {.is_http11 = numbers->is_http11, .protocol = numbers->protocol, .line_count = line_count};
  int32_t status;
  *decision = (vupresal_decision){0};
  if (line_count > VUPRESAL_GO_FEW) lines = (vupresal_line *)calloc(line_count, sizeof(vupresal_line));
  if (!lines) return VUPRESAL_MEMORY;
  request.method = vupresal_go_next(&texts, lengths[VUPRESAL_GO_METHOD]);
  request.target = vupresal_go_next(&texts, lengths[VUPRESAL_GO_TARGET]);
  facts.scheme = vupresal_go_next(&texts, lengths[VUPRESAL_GO_SCHEME]);
  for (int i = 0; i < 7; i++) {
    places[i]->bytes = vupresal_go_next(&texts, lengths[VUPRESAL_GO_TEXTS + i]);
    places[i]->is_there = places[i]->bytes.length != 0;
  }
  for (int i = 0; i < 3; i++) *addresses[i] = vupresal_go_next(&texts, lengths[VUPRESAL_GO_ADDRESSES + i]);
  for (size_t i = 0; i < line_count; i++) {
    lines[i].name = vupresal_go_next(&texts, lengths[VUPRESAL_GO_LINES + 2 * i]);
    lines[i].value = vupresal_go_next(&texts, lengths[VUPRESAL_GO_LINES + 2 * i + 1]);
  }
  request.lines = lines;
  facts.source_port = numbers->source_port;
  facts.destination_port = numbers->destination_port;
  facts.mtls = numbers->mtls;
  facts.connection_id = numbers->connection_id;
  facts.has_connection_id = numbers->has_connection_id;
  status = vupresal_filter_decide(filter, &request, &facts, decision);
  if (lines != few) free(lines);
  return status;
}
#endif
