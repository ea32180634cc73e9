/*
 * Vupresal in a process: RBAC filters, and the core of a proxy. C11 and C++17, x86-64 Linux; without a proof also
 * aarch64 Linux and WebAssembly of 64 bits.
 *
 * A filter decides which requests pass. It is Envoy's message envoy.extensions.filters.http.rbac.v3.RBAC:
 *
 *     vupresal_filter filter = {0};
 *     vupresal_bounds bounds = {0};
 *     int32_t status = vupresal_filter_admit(&filter, message, length, &bounds, VUPRESAL_MOST_BUDGET, NULL, 0);
 *     ..
 *     vupresal_facts facts = VUPRESAL_NO_FACTS;
 *     vupresal_decision decision;
 *     status = vupresal_filter_decide_head(&filter, head, head_length, &facts, &decision);
 *     if (status == VUPRESAL_OK && decision.is_allowed) ..
 *     vupresal_filter_free(&filter);
 *
 * What is asked more than once is made once: the facts of a connection, a request for several filters, several filters as a set.
 * A proxy's core takes updates from a control plane, admits their filters, and answers requests. It is at the end of this file.
 *
 * STATUSES. A function that can fail returns a status: VUPRESAL_OK or one of the others below. A decision beside any other status
 * refuses, so a caller that forgets the status lets nothing through. vupresal_status_text gives the meaning of each.
 *
 * HANDLES. vupresal_filter, vupresal_connection, vupresal_made_request, vupresal_set and vupresal_proxy are memory of the caller.
 * Set all bytes to 0 before the first use; that is an empty handle. A call on an empty handle is an ordinary case with an answer,
 * and so is a second free. Do not read, change or copy a handle. It may be moved, if the old place is not used again. Nothing in
 * the library points to it.
 *
 * MEMORY. The library calls malloc, realloc and free of the process. Where memory runs out, the status is VUPRESAL_MEMORY, and the
 * handle holds what it held before; that of a connection or a request is then empty. No function keeps a pointer that it was given:
 * messages, heads, texts and rooms are the caller's again once the call returns. What a function writes may not overlap anything
 * else that it is given.
 *
 * POINTERS. A pointer to bytes, lines or resources is valid for its length, and may be null where that is 0. No other pointer may be
 * null. A bool is 0 or 1. Nothing else matters: any message, head, text or number gets an answer. Where there is a limit of a length,
 * a greater one has its status before anything of that length is read; each function below says which.
 *
 * THREADS. A handle may pass from thread to thread, and one call at a time has it. Whoever passes it on orders the two threads: by a
 * lock, by the start or the join of a thread, or by a sequentially consistent atomic. Threads that decide by one filter have a handle
 * each, which vupresal_filter_share makes; calls with different handles may run at the same time. The library has no global state and
 * no locks; it counts the handles of a filter atomically.
 * A process of one thread may fork: the child has a copy of each handle. Not to be called from a signal handler, nor in the forked
 * child of a process with threads.
 */
#ifndef VUPRESAL_H
#define VUPRESAL_H

#include <stdbool.h>
#include <stddef.h>
#include <stdint.h>

#ifdef __cplusplus
extern "C" {
#endif

/* The version of this header: a million for each first number, a thousand for each second one. */
#define VUPRESAL_VERSION_NUMBER 1000
#define VUPRESAL_VERSION_TEXT "0.1.0"

/* The number of the ABI, which is also that of the shared library: libvupresal.so.0. As long as it stays, a later library has all
   functions and structs of this header as they are here. */
#define VUPRESAL_ABI 0u

/* The greatest budget of a filter, in steps of its conditions. */
#define VUPRESAL_MOST_BUDGET 100000000u

/* ------------------------------------------------------------------------------------------------------------------ statuses */

/* 1 to 19 say why a filter's message is refused: docs/PROFILE.md, "Refusals". */
enum {
  VUPRESAL_OK = 0,                 /* done */
  VUPRESAL_BAD_WIRE = 1,           /* the bytes are not whole fields of Protocol Buffers */
  VUPRESAL_BAD_TEXT = 2,           /* a text of the message is not UTF-8 */
  VUPRESAL_UNKNOWN_FIELD = 3,      /* a field is unknown, or has the wrong wire type */
  VUPRESAL_MISSING = 4,            /* a required part is missing */
  VUPRESAL_BAD_VALUE = 5,          /* a value of the message is outside its range */
  VUPRESAL_UNSUPPORTED = 6,        /* a part is known but not supported */
  VUPRESAL_BOTH_CONDITIONS = 7,    /* a policy has a checked and an unchecked condition */
  VUPRESAL_TOO_LARGE = 8,          /* a limit of size, number or depth is exceeded */
  VUPRESAL_UNKNOWN_NAME = 9,       /* a condition has a name that is not known */
  VUPRESAL_NO_OVERLOAD = 10,       /* a condition's function does not take these operands */
  VUPRESAL_BAD_TYPE_ENTRY = 11,    /* a condition's type map names another type than the one found */
  VUPRESAL_BAD_REFERENCE = 12,     /* a condition's reference map names something else */
  VUPRESAL_NOT_BOOL = 13,          /* the type of a condition is not bool */
  VUPRESAL_NEEDS_TYPE = 14,        /* an empty list or map in a condition has no type */
  VUPRESAL_TOO_COSTLY = 15,        /* the conditions may take more steps than the budget has */
  VUPRESAL_DUPLICATE_RESOURCE = 16, /* two resources have the same name; not for one filter */
  VUPRESAL_WRONG_TYPE = 17,        /* a resource has the wrong type; not for one filter */
  VUPRESAL_CODE_REFUSED = 18,      /* a condition's code is not accepted; for no filter, which is proved */
  VUPRESAL_MEMORY = 19,            /* memory ran out */
  VUPRESAL_OUT_OF_STEPS = 20,      /* a condition took more steps than its bound; for no request, which is proved */
  VUPRESAL_EMPTY = -1,             /* the handle is empty */
  VUPRESAL_OUT_OF_RANGE = -2,      /* limits, a budget, settings, or a port, an address or a protocol are out of their ranges */
  VUPRESAL_BAD_REQUEST = 400,      /* the head, a part of the request or a text of the facts is malformed */
  VUPRESAL_OUTSIDE_LIMITS = 431,   /* the request is outside the limits */
  VUPRESAL_TRANSFER_CODING = 501   /* the request has a Transfer-Encoding field, so its body cannot be skipped */
};

/* The meaning of a status, in English. The text is static: never null, and not to be freed. */
static inline const char *vupresal_status_text(int32_t status) {
  switch (status) {
    case VUPRESAL_OK: return "done";
    case VUPRESAL_BAD_WIRE: return "the bytes are not whole fields of Protocol Buffers";
    case VUPRESAL_BAD_TEXT: return "a text is not UTF-8";
    case VUPRESAL_UNKNOWN_FIELD: return "a field is unknown, or has the wrong wire type";
    case VUPRESAL_MISSING: return "a required part is missing";
    case VUPRESAL_BAD_VALUE: return "a value is outside its range";
    case VUPRESAL_UNSUPPORTED: return "a part is known but not supported";
    case VUPRESAL_BOTH_CONDITIONS: return "a policy has a checked and an unchecked condition";
    case VUPRESAL_TOO_LARGE: return "a limit of size, number or depth is exceeded";
    case VUPRESAL_UNKNOWN_NAME: return "a condition has a name that is not known";
    case VUPRESAL_NO_OVERLOAD: return "a condition's function does not take these operands";
    case VUPRESAL_BAD_TYPE_ENTRY: return "a condition's type map names another type than the one found";
    case VUPRESAL_BAD_REFERENCE: return "a condition's reference map names something else";
    case VUPRESAL_NOT_BOOL: return "the type of a condition is not bool";
    case VUPRESAL_NEEDS_TYPE: return "an empty list or map in a condition has no type";
    case VUPRESAL_TOO_COSTLY: return "the conditions may take more steps than the budget has";
    case VUPRESAL_DUPLICATE_RESOURCE: return "two resources have the same name";
    case VUPRESAL_WRONG_TYPE: return "a resource has the wrong type";
    case VUPRESAL_CODE_REFUSED: return "a condition's code is not accepted";
    case VUPRESAL_MEMORY: return "memory ran out";
    case VUPRESAL_OUT_OF_STEPS: return "a condition took more steps than its bound";
    case VUPRESAL_EMPTY: return "the handle is empty";
    case VUPRESAL_OUT_OF_RANGE: return "limits, a budget, settings, a port, an address or a protocol are out of their ranges";
    case VUPRESAL_BAD_REQUEST: return "the request or a text of its facts is malformed";
    case VUPRESAL_OUTSIDE_LIMITS: return "the request is outside the limits";
    case VUPRESAL_TRANSFER_CODING: return "the request has a Transfer-Encoding field";
    default: return "no status of this library";
  }
}

/* ------------------------------------------------------------------------------------------------------- bytes, texts, limits */

/* So many bytes; `at` may be null if the length is 0. */
typedef struct vupresal_bytes {
  const uint8_t *at;
  size_t length;
} vupresal_bytes;

/* A text in UTF-8 that may be absent. The bytes of an absent one are not read. */
typedef struct vupresal_text {
  vupresal_bytes bytes;
  bool is_there;
} vupresal_text;

/* The limits of the requests that a filter is asked for. All six 0 are the greatest. Otherwise each is from 1 to the number beside
   it. A smaller limit makes the bounds of conditions smaller. A request outside the limits has the status 431, and no decision. */
typedef struct vupresal_bounds {
  size_t fields; /* 64: the number of field lines, and 3 for the method, the path and the scheme */
  size_t name;   /* 128: the bytes of a field's name */
  size_t value;  /* 4096: the bytes of a field's value, where the lines of one name are joined by commas */
  size_t method; /* 32: the bytes of the method */
  size_t target; /* 4096: the bytes of the target */
  size_t text;   /* 1024: the bytes of any other text, as of the facts */
  /* The most visits that the measuring of a filter's conditions may take together: 1 to 2^63 - 1, or 0 for 4194304. */
  uint64_t visits;
} vupresal_bounds;

/* The facts of a connection. A rule on an absent fact does not match, and a condition that reads one is an error. A port above
   65535, or an address of another length than 0, 4 and 16, has the status VUPRESAL_OUT_OF_RANGE.
   The library puts two facts into one form: A to Z in requested_server_name are lowered, and an address ::ffff:a.b.c.d is a.b.c.d. The
   texts source_address and destination_address stay as they are given: write such an address in them as one of IPv4. */
typedef struct vupresal_facts {
  vupresal_bytes scheme;                                                               /* request.scheme: "http" or "https" */
  vupresal_text source_address, destination_address;                                   /* as Envoy has it: "127.0.0.1:57684" */
  vupresal_text requested_server_name;                                                 /* of TLS (SNI) */
  vupresal_text tls_version;                                                           /* as "TLSv1.3" */
  vupresal_text subject_peer_certificate, dns_san_peer_certificate, uri_san_peer_certificate;
  vupresal_bytes direct_remote_ip, remote_ip, destination_ip;                          /* 4 or 16 bytes in network order; none: absent */
  int32_t source_port, destination_port;                                               /* 0 to 65535; below 0: absent */
  int32_t mtls;                                                                        /* 1: mutual TLS, 0: none; below 0: absent */
  uint64_t connection_id;                                                              /* if has_connection_id */
  bool has_connection_id;
} vupresal_facts;

/* Macros for these in C. In C++ write {pointer, length}. */
#define VUPRESAL_LITERAL(text) {(const uint8_t *)("" text), sizeof(text) - 1}
#define VUPRESAL_NO_BYTES {NULL, 0}
#define VUPRESAL_NO_TEXT {{NULL, 0}, false}
/* The facts of a connection of which nothing but the scheme http is known, to begin with. */
#define VUPRESAL_NO_FACTS                                                                                                          \
  {VUPRESAL_LITERAL("http"), VUPRESAL_NO_TEXT,  VUPRESAL_NO_TEXT,  VUPRESAL_NO_TEXT,  VUPRESAL_NO_TEXT, VUPRESAL_NO_TEXT,          \
   VUPRESAL_NO_TEXT,         VUPRESAL_NO_TEXT,  VUPRESAL_NO_BYTES, VUPRESAL_NO_BYTES, VUPRESAL_NO_BYTES, -1, -1, -1, 0, false}

/* These bytes, and a text of them. */
static inline vupresal_bytes vupresal_bytes_of(const void *at, size_t length) {
  vupresal_bytes bytes = {(const uint8_t *)at, length};
  return bytes;
}

static inline vupresal_text vupresal_text_of(const void *at, size_t length) {
  vupresal_text text = {{(const uint8_t *)at, length}, true};
  return text;
}

/* ------------------------------------------------------------------------------------------------------------------- requests */

/* A field of a request. The name may be in any case. */
typedef struct vupresal_line {
  vupresal_bytes name, value;
} vupresal_line;

/* The protocols of requests: vupresal_request.protocol. */
enum {
  VUPRESAL_HTTP_1 = 0, /* HTTP/1.1 or HTTP/1.0, as is_http11 says */
  VUPRESAL_HTTP_2 = 2,
  VUPRESAL_HTTP_3 = 3
};

/* A request by its parts: what a proxy has once it read a head of HTTP/1, or the field section of HTTP/2 or 3.
   The host is a line of the name `host` or `:authority`; both with one value count once. No other pseudo-header is a line.
   Join the cookie lines of HTTP/2 to one by "; " before (RFC 9113, section 8.2.3); other lines of one name are joined by commas. */
typedef struct vupresal_request {
  vupresal_bytes method;
  vupresal_bytes target;      /* the path and query to judge, beginning with a slash: `:path` of HTTP/2 */
  const vupresal_line *lines; /* in the order of the request; may be null if there are none */
  size_t line_count;
  bool is_http11;             /* true for HTTP/1.1, false for HTTP/1.0; of no effect for later protocols */
  uint64_t protocol;          /* request.protocol: VUPRESAL_HTTP_2, VUPRESAL_HTTP_3, or 0 for HTTP/1 */
} vupresal_request;

/* A decision. */
typedef struct vupresal_decision {
  uint64_t matched; /* the number of the first policy that matches, from 0 in ascending order of names; only if is_matched */
  bool is_matched;  /* whether a policy matches */
  bool is_allowed;  /* whether the request may pass; false beside any status but VUPRESAL_OK */
} vupresal_decision;

/* -------------------------------------------------------------------------------------------------------------------- filters */

/* A filter's handle; see HANDLES above. */
typedef struct vupresal_filter {
  void *at;
  bool held;
} vupresal_filter;

/* Admits the message of a filter and puts the filter into the handle, in place of what that held.
 *
 * bounds    the limits of the requests that the filter will be asked for
 * budget    the most steps that the conditions of the filter may take together for one request: 1 to VUPRESAL_MOST_BUDGET
 * place     room for the place of a refusal, as UTF-8 with a zero at the end: `policy "p": permissions[0].header.name`. It is cut
 *           to the room, between characters. It is empty if no part can be named, and after an admission. Null and 0 for none.
 *
 * Status: VUPRESAL_OK; 1 to 15 if the message is refused; VUPRESAL_MEMORY; VUPRESAL_OUT_OF_RANGE for limits, visits or a budget
 * out of range. After any but VUPRESAL_OK the handle holds what it held. 256 policies take some 0.3 ms, and with a condition in
 * each some 2.4 ms. */
int32_t vupresal_filter_admit(vupresal_filter *filter, const uint8_t *message, size_t length, const vupresal_bounds *bounds,
                              uint64_t budget, uint8_t *place, size_t room);

/* Decides on one request, by its parts.
 *
 * Status: VUPRESAL_OK, with the decision; VUPRESAL_BAD_REQUEST if a head of HTTP/1 could not have these parts (as a value with a
 * line end, a name that is no token, two hosts, or none except in HTTP/1.0), a text is not UTF-8, or a text of the facts has more
 * than 65,536 bytes, of which none is then read; VUPRESAL_OUTSIDE_LIMITS; VUPRESAL_TRANSFER_CODING; VUPRESAL_OUT_OF_RANGE for a port,
 * an address or a protocol; VUPRESAL_MEMORY; VUPRESAL_EMPTY. The filter stays as it was.
 *
 * No part is read, and the status is VUPRESAL_OUTSIDE_LIMITS, if the method, the target or a name has more bytes than its limit, if
 * there are more lines than the limit of fields, or if a value has more than 65,536 bytes. White space at the ends of a value does not
 * count for its own limit. */
int32_t vupresal_filter_decide(vupresal_filter *filter, const vupresal_request *request, const vupresal_facts *facts,
                               vupresal_decision *decision);

/* Decides on one request, by its head of HTTP/1, from the method to the empty line. What follows that has no effect. At most 65,536
 * bytes are read; a head has no more.
 *
 * Status: as above. VUPRESAL_BAD_REQUEST also if the head is not whole, VUPRESAL_OUTSIDE_LIMITS if it is not whole in 65,536 bytes. */
int32_t vupresal_filter_decide_head(vupresal_filter *filter, const uint8_t *head, size_t length, const vupresal_facts *facts,
                                    vupresal_decision *decision);

/* The number of the filter's policies; 0 if the handle is empty. */
size_t vupresal_filter_policies(vupresal_filter *filter);

/* The most steps that the filter's conditions together take for one request; 0 if the handle is empty. */
uint64_t vupresal_filter_bound(vupresal_filter *filter);

/* Copies as much of the name of the policy of this number into the room as that takes, without a zero at its end.
 * Returns the bytes of the whole name; 0 if there is no such policy, or if its name is empty. */
size_t vupresal_filter_policy_name(vupresal_filter *filter, uint64_t number, uint8_t *room, size_t length);

/* As vupresal_filter_share, which calls it; for two handles, not for one. */
int32_t vupresal_filter_share_distinct(vupresal_filter *from, vupresal_filter *to);

/* Frees what the handle holds, and leaves it empty. A filter that other handles share is freed with the last of them. */
void vupresal_filter_free(vupresal_filter *filter);

/* Puts the filter of `from` into `to` as well, in place of what that held. Nothing is copied: both handles then share one filter, and
 * each may be used by another thread. If both are the same handle, it holds what it held.
 *
 * Status: VUPRESAL_OK; VUPRESAL_MEMORY; VUPRESAL_EMPTY if `from` is empty. After any but VUPRESAL_OK both hold what they held. */
static inline int32_t vupresal_filter_share(vupresal_filter *from, vupresal_filter *to) {
  vupresal_filter other = {NULL, false};
  int32_t status = vupresal_filter_share_distinct(from, from == to ? &other : to);
  vupresal_filter_free(&other);
  return status;
}

/* ------------------------------------------------------------------------------------------ connections, requests and sets, once */

/* A connection's handle: facts that were checked once, for all its requests. */
typedef struct vupresal_connection {
  void *at;
  bool held;
} vupresal_connection;

/* A request's handle: a request that was made once, for any filters. */
typedef struct vupresal_made_request {
  void *at;
  bool held;
} vupresal_made_request;

/* The handle of a set: filters in order, of which each may refuse. */
typedef struct vupresal_set {
  void *at;
  bool held;
} vupresal_set;

/* The decision of a set. */
typedef struct vupresal_set_decision {
  vupresal_decision decision; /* of the filter that decides */
  uint64_t filter;            /* which one it is, from 0 in the order in which they were added */
} vupresal_set_decision;

/* Checks the facts of a connection, and puts it into the handle, in place of what that held. The facts are the caller's again.
 *
 * Status: VUPRESAL_OK; VUPRESAL_BAD_REQUEST for a text that is not UTF-8 or has more than 65,536 bytes; VUPRESAL_OUT_OF_RANGE for a port or
 * an address; VUPRESAL_MEMORY. After any but VUPRESAL_OK the handle is empty. A text above a filter's limit, as of 1,024 bytes, is found when a
 * request is made or decided. */
int32_t vupresal_connection_new(vupresal_connection *connection, const vupresal_facts *facts);

/* Makes a request on the connection, by its parts or by its head of HTTP/1, and puts it into the handle, in place of what that held.
 * Nothing that was given is kept, and the connection may be freed before the request. The limits are the greatest.
 *
 * Status: as of vupresal_filter_decide and vupresal_filter_decide_head; VUPRESAL_EMPTY if the connection is empty. After any but VUPRESAL_OK
 * the handle is empty, so a caller that forgets the status gets no decision. No part is read in the cases that vupresal_filter_decide
 * names, with the greatest limits. */
int32_t vupresal_request_of_parts(vupresal_made_request *made, vupresal_connection *connection, const vupresal_request *request);
int32_t vupresal_request_of_head(vupresal_made_request *made, vupresal_connection *connection, const uint8_t *head, size_t length);

/* Decides on a request that was made before: as vupresal_filter_decide on its parts, or vupresal_filter_decide_head on its head.
 *
 * Status: VUPRESAL_OK, with the decision; VUPRESAL_OUTSIDE_LIMITS if the request is outside the filter's limits; VUPRESAL_MEMORY;
 * VUPRESAL_EMPTY if a handle is empty. Both handles stay as they were. */
int32_t vupresal_filter_decide_request(vupresal_filter *filter, vupresal_made_request *made, vupresal_decision *decision);

/* Adds the filter to the set, as its last. Both then share it, as with vupresal_filter_share.
 * Status: VUPRESAL_OK; VUPRESAL_MEMORY; VUPRESAL_EMPTY if the filter's handle is empty. After any but VUPRESAL_OK the set is as it was. */
int32_t vupresal_set_add(vupresal_set *set, vupresal_filter *filter);

/* Decides on a request by the filters of the set, in order. The first that refuses it decides; if none refuses, the last does.
 *
 * Status: VUPRESAL_OK, with the decision; VUPRESAL_OUTSIDE_LIMITS if the request is outside the limits of a filter that is tried;
 * VUPRESAL_MEMORY; VUPRESAL_EMPTY if the set has no filter, or the request's handle is empty. Both handles stay as they were. */
int32_t vupresal_set_decide(vupresal_set *set, vupresal_made_request *made, vupresal_set_decision *decision);

/* What a request is at fault with: vupresal_cause.reason. */
enum {
  VUPRESAL_CAUSE_NONE = 0,            /* there is no fault, or the status says it all */
  VUPRESAL_CAUSE_METHOD = 1,          /* the method is malformed (RFC 9112, also for those below) */
  VUPRESAL_CAUSE_TARGET = 2,          /* the target is malformed */
  VUPRESAL_CAUSE_VERSION = 3,         /* the version is malformed */
  VUPRESAL_CAUSE_LINE_END = 4,        /* the end of a line is malformed */
  VUPRESAL_CAUSE_FIELD_NAME = 5,      /* the name of a field is malformed */
  VUPRESAL_CAUSE_FIELD_VALUE = 6,     /* the value of a field is malformed */
  VUPRESAL_CAUSE_FOLDED_LINE = 7,     /* a line begins with white space */
  VUPRESAL_CAUSE_UNFINISHED = 8,      /* the head is not whole */
  VUPRESAL_CAUSE_TOO_LONG = 9,        /* the head has more than 65,536 bytes */
  VUPRESAL_CAUSE_OTHER_FORM = 10,     /* the target does not begin with a slash */
  VUPRESAL_CAUSE_BAD_TEXT = 11,       /* a value is not UTF-8 */
  VUPRESAL_CAUSE_NO_HOST = 12,        /* a request of HTTP/1.1 or a later one has no host */
  VUPRESAL_CAUSE_TWO_HOSTS = 13,      /* there are two hosts */
  VUPRESAL_CAUSE_TWO_LENGTHS = 14,    /* there are two Content-Length */
  VUPRESAL_CAUSE_BAD_LENGTH = 15,     /* a Content-Length is no number of 1 to 18 digits */
  VUPRESAL_CAUSE_TRANSFER_CODING = 16, /* there is a Transfer-Encoding */
  VUPRESAL_CAUSE_OUTSIDE_LIMITS = 17, /* a limit is exceeded: vupresal_cause.limit */
  VUPRESAL_CAUSE_FACTS = 18           /* a text of the facts is not UTF-8, or too long to be read */
};

/* Which limit is exceeded: vupresal_cause.limit. */
enum {
  VUPRESAL_LIMIT_UNKNOWN = 0, /* none, or it is not told: of a head it never is */
  VUPRESAL_LIMIT_FIELDS = 1,  /* the number of field lines */
  VUPRESAL_LIMIT_NAME = 2,    /* the bytes of a name */
  VUPRESAL_LIMIT_VALUE = 3,   /* the bytes of a value: of one line, or of all lines of one name */
  VUPRESAL_LIMIT_METHOD = 4,  /* the bytes of the method */
  VUPRESAL_LIMIT_TARGET = 5,  /* the bytes of the target */
  VUPRESAL_LIMIT_TEXT = 6     /* the bytes of a text of the facts */
};

/* Why a request is not made. */
typedef struct vupresal_cause {
  uint32_t reason, limit;
} vupresal_cause;

/* Tells why no request is made of these parts, or of this head: once a call that makes it, or decides on it, had the status
 * VUPRESAL_BAD_REQUEST, VUPRESAL_OUTSIDE_LIMITS or VUPRESAL_TRANSFER_CODING. The limits are the greatest, so nothing is at fault with a request
 * that is outside the limits of a filter alone. Status: that of making the request. */
int32_t vupresal_cause_of_parts(vupresal_connection *connection, const vupresal_request *request, vupresal_cause *cause);
int32_t vupresal_cause_of_head(vupresal_connection *connection, const uint8_t *head, size_t length, vupresal_cause *cause);

/* Frees what the handle holds, and leaves it empty. */
void vupresal_connection_free(vupresal_connection *connection);
void vupresal_request_free(vupresal_made_request *made);
void vupresal_set_free(vupresal_set *set);

/* --------------------------------------------------------------------------------------------------------- the core of a proxy */

/* The core keeps the filters that a control plane sends by xDS (state of the world, gRPC frames on a plain stream), and answers
 * heads of HTTP/1 on up to 8 connections at once. It has no sockets: the caller gives it each event, and sends what the event
 * gives. A head is judged by all filters of the configuration, in order. Before each has one, the answer is 503. */

/* A proxy's handle; see HANDLES above. */
typedef struct vupresal_proxy {
  void *at;
  bool held;
} vupresal_proxy;

/* A filter that the proxy asks its control plane for. */
typedef struct vupresal_resource {
  vupresal_bytes name; /* 1 to 256 bytes of UTF-8; no two are the same */
  uint64_t budget;     /* 1 to VUPRESAL_MOST_BUDGET */
} vupresal_resource;

/* The settings of a proxy. */
typedef struct vupresal_settings {
  vupresal_bytes node, cluster; /* what it calls itself; at most 256 bytes of UTF-8 each */
  const vupresal_resource *filters;
  size_t filter_count;          /* 1 to 8 */
  vupresal_bounds bounds;       /* of the requests on all connections */
} vupresal_settings;

/* What an event gives: so many bytes to send on the update stream or on the event's connection, and what to close after them. */
typedef struct vupresal_given {
  size_t ads_length, http_length;
  bool closes_ads, closes_http;
} vupresal_given;

/* Puts the core of a new proxy into the handle, in place of what that held.
 * Status: VUPRESAL_OK; VUPRESAL_OUT_OF_RANGE for settings out of range; VUPRESAL_MEMORY. After any but VUPRESAL_OK the handle holds
 * what it held. With more than 8 filters, or a name, a node or a cluster of more than 256 bytes, no text is read. */
int32_t vupresal_proxy_new(vupresal_proxy *proxy, const vupresal_settings *settings);

/* The update stream comes up, delivers bytes, or is lost.
 * Status: VUPRESAL_OK; VUPRESAL_MEMORY, and the event had no effect; VUPRESAL_EMPTY. After any but VUPRESAL_OK nothing is given. */
int32_t vupresal_proxy_ads_up(vupresal_proxy *proxy, vupresal_given *given);
int32_t vupresal_proxy_ads_bytes(vupresal_proxy *proxy, const uint8_t *bytes, size_t length, vupresal_given *given);
int32_t vupresal_proxy_ads_lost(vupresal_proxy *proxy, vupresal_given *given);

/* A connection opens with these facts, delivers bytes, or is closed by its client. Connections are 0 to 7; bytes on one that is not
 * open give nothing, and so does any other number.
 * Status: as above; of vupresal_proxy_http_open also VUPRESAL_BAD_REQUEST, for a text of the facts that is not UTF-8 or has more than
 * 65,536 bytes, and VUPRESAL_OUT_OF_RANGE for a port or an address. */
int32_t vupresal_proxy_http_open(vupresal_proxy *proxy, uint64_t number, const vupresal_facts *facts, vupresal_given *given);
int32_t vupresal_proxy_http_bytes(vupresal_proxy *proxy, uint64_t number, const uint8_t *bytes, size_t length,
                                  vupresal_given *given);
int32_t vupresal_proxy_http_closed(vupresal_proxy *proxy, uint64_t number, vupresal_given *given);

/* Copies as many of the last event's bytes into the room as that takes, for the update stream and for the event's connection.
 * Returns how many there are; 0 if the handle is empty. */
size_t vupresal_proxy_ads_output(vupresal_proxy *proxy, uint8_t *room, size_t length);
size_t vupresal_proxy_http_output(vupresal_proxy *proxy, uint8_t *room, size_t length);

/* How many responses of the control plane were accepted; 0 if the handle is empty. */
uint64_t vupresal_proxy_generation(vupresal_proxy *proxy);

/* Frees what the handle holds, and leaves it empty. */
void vupresal_proxy_free(vupresal_proxy *proxy);

/* ------------------------------------------------------------------------------------------------------------------ the version */

/* The version of the library, and the bytes of each struct. The layout of this struct never changes, so that a library of any version
 * may fill it. */
typedef struct vupresal_build {
  uint64_t number; /* as VUPRESAL_VERSION_NUMBER */
  size_t filter, proxy, bounds, facts, line, request, decision, resource, settings, given, build;
  bool is_proved;  /* whether each function of the library is proved to meet its contract */
} vupresal_build;

/* Tells what library this is. */
void vupresal_version(vupresal_build *build);

/* Whether the library is one that this header is for: of the same ABI, with the same structs, and of this version or a later one.
 * Call it once, before anything else. */
static inline bool vupresal_is_expected(void) {
  vupresal_build is;
  vupresal_version(&is);
  return is.number / 1000000 == VUPRESAL_ABI && is.number >= VUPRESAL_VERSION_NUMBER && is.build == sizeof(vupresal_build) && is.filter == sizeof(vupresal_filter) &&
         is.proxy == sizeof(vupresal_proxy) && is.bounds == sizeof(vupresal_bounds) && is.facts == sizeof(vupresal_facts) &&
         is.line == sizeof(vupresal_line) && is.request == sizeof(vupresal_request) &&
         is.decision == sizeof(vupresal_decision) && is.resource == sizeof(vupresal_resource) &&
         is.settings == sizeof(vupresal_settings) && is.given == sizeof(vupresal_given);
}

#ifdef __cplusplus
}
#endif
#endif
