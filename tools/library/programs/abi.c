/* The ABI 0, as version 0.1.0 had it: the sizes of structs, and where their members are. A line of it may be added, but not changed, as
   long as VUPRESAL_ABI stays. It compiles, or it does not. */
#include <stddef.h>
#include "vupresal.h"

#define SIZE(type, size) _Static_assert(sizeof(type) == (size), #type)
#define PLACE(type, member, place) _Static_assert(offsetof(type, member) == (place), #type "." #member)

_Static_assert(VUPRESAL_ABI == 0, "another ABI: write down its structs here");

SIZE(vupresal_bytes, 16);
PLACE(vupresal_bytes, at, 0);
PLACE(vupresal_bytes, length, 8);

SIZE(vupresal_text, 24);
PLACE(vupresal_text, bytes, 0);
PLACE(vupresal_text, is_there, 16);

SIZE(vupresal_bounds, 56);
PLACE(vupresal_bounds, fields, 0);
PLACE(vupresal_bounds, name, 8);
PLACE(vupresal_bounds, value, 16);
PLACE(vupresal_bounds, method, 24);
PLACE(vupresal_bounds, target, 32);
PLACE(vupresal_bounds, text, 40);
PLACE(vupresal_bounds, visits, 48);

SIZE(vupresal_facts, 264);
PLACE(vupresal_facts, scheme, 0);
PLACE(vupresal_facts, source_address, 16);
PLACE(vupresal_facts, destination_address, 40);
PLACE(vupresal_facts, requested_server_name, 64);
PLACE(vupresal_facts, tls_version, 88);
PLACE(vupresal_facts, subject_peer_certificate, 112);
PLACE(vupresal_facts, dns_san_peer_certificate, 136);
PLACE(vupresal_facts, uri_san_peer_certificate, 160);
PLACE(vupresal_facts, direct_remote_ip, 184);
PLACE(vupresal_facts, remote_ip, 200);
PLACE(vupresal_facts, destination_ip, 216);
PLACE(vupresal_facts, source_port, 232);
PLACE(vupresal_facts, destination_port, 236);
PLACE(vupresal_facts, mtls, 240);
PLACE(vupresal_facts, connection_id, 248);
PLACE(vupresal_facts, has_connection_id, 256);

SIZE(vupresal_line, 32);
PLACE(vupresal_line, name, 0);
PLACE(vupresal_line, value, 16);

SIZE(vupresal_request, 64);
PLACE(vupresal_request, method, 0);
PLACE(vupresal_request, target, 16);
PLACE(vupresal_request, lines, 32);
PLACE(vupresal_request, line_count, 40);
PLACE(vupresal_request, is_http11, 48);
PLACE(vupresal_request, protocol, 56);

SIZE(vupresal_decision, 16);
PLACE(vupresal_decision, matched, 0);
PLACE(vupresal_decision, is_matched, 8);
PLACE(vupresal_decision, is_allowed, 9);

SIZE(vupresal_filter, 16);
SIZE(vupresal_proxy, 16);
SIZE(vupresal_connection, 16);
SIZE(vupresal_made_request, 16);
SIZE(vupresal_set, 16);

SIZE(vupresal_set_decision, 24);
PLACE(vupresal_set_decision, decision, 0);
PLACE(vupresal_set_decision, filter, 16);

SIZE(vupresal_cause, 8);
PLACE(vupresal_cause, reason, 0);
PLACE(vupresal_cause, limit, 4);

SIZE(vupresal_resource, 24);
PLACE(vupresal_resource, name, 0);
PLACE(vupresal_resource, budget, 16);

SIZE(vupresal_settings, 104);
PLACE(vupresal_settings, node, 0);
PLACE(vupresal_settings, cluster, 16);
PLACE(vupresal_settings, filters, 32);
PLACE(vupresal_settings, filter_count, 40);
PLACE(vupresal_settings, bounds, 48);

SIZE(vupresal_given, 24);
PLACE(vupresal_given, ads_length, 0);
PLACE(vupresal_given, http_length, 8);
PLACE(vupresal_given, closes_ads, 16);
PLACE(vupresal_given, closes_http, 17);

SIZE(vupresal_build, 104);
PLACE(vupresal_build, number, 0);
PLACE(vupresal_build, filter, 8);
PLACE(vupresal_build, build, 88);
PLACE(vupresal_build, is_proved, 96);

int main(void) { return 0; }
