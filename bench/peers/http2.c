// http2 [ROUNDS [MILLISECONDS]]: the crates hpack and http2 beside nghttp2 on the same octets, in turn within each round (15 rounds of 20
// milliseconds). A line for each work: both least times of a call, by the processor's clock, and their ratio. Each answer is checked.
//
// On both sides octets of a server come in pieces of 16 KiB, and whole messages of gRPC are put together of them. What a side writes
// meanwhile is dropped.
#define _GNU_SOURCE
#include <nghttp2/nghttp2.h>
#include <stdint.h>
#include <stdio.h>
#include <stdlib.h>
#include <string.h>
#include <time.h>

uint64_t engine_call(const uint8_t *stream, size_t length, size_t piece, uint64_t rounds);
uint64_t engine_first_block(const uint8_t *block, size_t length, uint64_t rounds);
uint64_t engine_next_block(const uint8_t *first, size_t first_length, const uint8_t *block, size_t length, uint64_t rounds);

enum { PIECE = 16384, WINDOW = 1048581, FIELDS = 20 };

static void stop(const char *why) {
  fprintf(stderr, "http2: %s\n", why);
  exit(1);
}

static void *room(void *old, size_t size) {
  void *found = realloc(old, size);
  if (!found) stop("out of memory");
  return found;
}

// Octets that grow.
struct octets {
  uint8_t *at;
  size_t length, most;
};

static void add(struct octets *to, const void *more, size_t count) {
  if (to->length + count > to->most) {
    to->most = to->length + count + to->most / 2 + 64;
    to->at = room(to->at, to->most);
  }
  memcpy(to->at + to->length, more, count);
  to->length += count;
}

static void add_frame(struct octets *to, uint8_t kind, uint8_t flags, uint32_t stream, const void *payload, size_t count) {
  uint8_t head[9] = {count >> 16, count >> 8, count, kind, flags, stream >> 24, stream >> 16, stream >> 8, stream};
  add(to, head, 9);
  add(to, payload, count);
}

// What a server writes: settings, the answer's fields, and so many messages of so many octets, in frames as long as may be.
static struct octets stream_of(size_t messages, size_t size) {
  struct octets to = {0}, data = {0};
  static const char answer[] = "\x88\x0f\x10\x10" "application/grpc";
  add_frame(&to, 4, 0, 0, "", 0);
  add_frame(&to, 1, 4, 1, answer, sizeof answer - 1);
  for (size_t at = 0; at < messages; at++) {
    uint8_t head[5] = {0, size >> 24, size >> 16, size >> 8, size};
    data.length = 0;
    add(&data, head, 5);
    for (size_t octet = 0; octet < size; octet++) add(&data, &(uint8_t){octet * 7 + at}, 1);
    for (size_t from = 0; from < data.length; from += PIECE)
      add_frame(&to, 0, 0, 1, data.at + from, data.length - from < PIECE ? data.length - from : PIECE);
  }
  free(data.at);
  return to;
}

// A message that is put together, and the octets of those that were whole.
struct cutting {
  struct octets message;
  uint64_t sum;
};

static int on_data(nghttp2_session *session, uint8_t flags, int32_t stream, const uint8_t *data, size_t count, void *user) {
  struct cutting *cutting = user;
  (void)session, (void)flags, (void)stream;
  while (count > 0) {
    struct octets *message = &cutting->message;
    size_t wanted = 5;
    if (message->length >= 5)
      wanted += (size_t)message->at[1] << 24 | (size_t)message->at[2] << 16 | (size_t)message->at[3] << 8 | message->at[4];
    size_t part = wanted - message->length < count ? wanted - message->length : count;
    add(message, data, part);
    data += part, count -= part;
    if (message->length == wanted && wanted > 5) cutting->sum += wanted - 5, message->length = 0;
  }
  return 0;
}

static ssize_t on_send(nghttp2_session *session, const uint8_t *data, size_t count, int flags, void *user) {
  (void)session, (void)data, (void)flags, (void)user;
  return (ssize_t)count;
}

// The call sends nothing more for now.
static ssize_t on_read(nghttp2_session *session, int32_t stream, uint8_t *to, size_t most, uint32_t *flags, nghttp2_data_source *source,
                       void *user) {
  (void)session, (void)stream, (void)to, (void)most, (void)flags, (void)source, (void)user;
  return NGHTTP2_ERR_DEFERRED;
}

#define FIELD(name, value) {(uint8_t *)name, (uint8_t *)value, sizeof name - 1, sizeof value - 1, NGHTTP2_NV_FLAG_NONE}

static nghttp2_session *new_session(nghttp2_session_callbacks *callbacks, struct cutting *cutting) {
  nghttp2_session *session;
  nghttp2_nv fields[] = {FIELD(":method", "POST"), FIELD(":scheme", "http"), FIELD(":path", "/service/method"),
                         FIELD(":authority", "localhost"), FIELD("te", "trailers"), FIELD("content-type", "application/grpc")};
  nghttp2_settings_entry settings[] = {{NGHTTP2_SETTINGS_ENABLE_PUSH, 0}, {NGHTTP2_SETTINGS_INITIAL_WINDOW_SIZE, WINDOW}};
  nghttp2_data_provider provider = {.read_callback = on_read};
  if (nghttp2_session_client_new(&session, callbacks, cutting)) stop("no session of nghttp2");
  nghttp2_submit_settings(session, NGHTTP2_FLAG_NONE, settings, 2);
  nghttp2_session_set_local_window_size(session, NGHTTP2_FLAG_NONE, 0, WINDOW);
  if (nghttp2_submit_request(session, NULL, fields, 6, &provider, NULL) != 1) stop("no call of nghttp2");
  if (nghttp2_session_send(session)) stop("nghttp2 does not send");
  return session;
}

static uint64_t nghttp2_call(const struct octets *stream, uint64_t rounds) {
  static nghttp2_session_callbacks *callbacks;
  struct cutting cutting = {0};
  if (!callbacks) {
    nghttp2_session_callbacks_new(&callbacks);
    nghttp2_session_callbacks_set_send_callback(callbacks, on_send);
    nghttp2_session_callbacks_set_on_data_chunk_recv_callback(callbacks, on_data);
  }
  for (uint64_t round = 0; round < rounds; round++) {
    nghttp2_session *session = new_session(callbacks, &cutting);
    for (size_t at = 0; at < stream->length; at += PIECE) {
      size_t count = stream->length - at < PIECE ? stream->length - at : PIECE;
      if (nghttp2_session_mem_recv(session, stream->at + at, count) != (ssize_t)count) stop("nghttp2 refuses the stream");
      if (nghttp2_session_send(session)) stop("nghttp2 does not send");
    }
    nghttp2_session_del(session);
    cutting.message.length = 0;
  }
  free(cutting.message.at);
  return cutting.sum;
}

static uint64_t inflated(nghttp2_hd_inflater *inflater, const struct octets *block) {
  uint64_t sum = 0;
  const uint8_t *at = block->at;
  size_t left = block->length;
  for (;;) {
    nghttp2_nv field;
    int flags = 0;
    ssize_t count = nghttp2_hd_inflate_hd2(inflater, &field, &flags, at, left, 1);
    if (count < 0) stop("nghttp2 refuses the block");
    at += count, left -= (size_t)count;
    if (flags & NGHTTP2_HD_INFLATE_EMIT) sum += field.namelen + field.valuelen;
    if (flags & NGHTTP2_HD_INFLATE_FINAL) break;
  }
  nghttp2_hd_inflate_end_headers(inflater);
  return sum;
}

static uint64_t nghttp2_first_block(const struct octets *block, uint64_t rounds) {
  uint64_t sum = 0;
  for (uint64_t round = 0; round < rounds; round++) {
    nghttp2_hd_inflater *inflater;
    if (nghttp2_hd_inflate_new(&inflater)) stop("no inflater");
    sum += inflated(inflater, block);
    nghttp2_hd_inflate_del(inflater);
  }
  return sum;
}

static uint64_t nghttp2_next_block(const struct octets *first, const struct octets *block, uint64_t rounds) {
  nghttp2_hd_inflater *inflater;
  if (nghttp2_hd_inflate_new(&inflater)) stop("no inflater");
  uint64_t sum = inflated(inflater, first);
  for (uint64_t round = 0; round < rounds; round++) sum += inflated(inflater, block);
  nghttp2_hd_inflate_del(inflater);
  return sum;
}

// The fields of an answer as a control plane behind a proxy sends them; `hidden` keeps them out of the table.
static const nghttp2_nv ANSWER[FIELDS] = {
    FIELD(":status", "200"), FIELD("content-type", "application/grpc"), FIELD("date", "Sun, 29 Nov 2026 16:00:00 GMT"),
    FIELD("server", "envoy"), FIELD("grpc-encoding", "identity"), FIELD("grpc-accept-encoding", "identity,deflate,gzip"),
    FIELD("x-envoy-upstream-service-time", "12"), FIELD("x-request-id", "5f3c2b1a-90ab-4cde-8f01-23456789abcd"),
    FIELD("x-b3-traceid", "463ac35c9f6413ad48485a3953bb6124"), FIELD("x-b3-spanid", "a2fb4a1d1a96d312"), FIELD("x-b3-sampled", "1"),
    FIELD("cache-control", "no-cache, no-store, max-age=0"), FIELD("vary", "accept-encoding"), FIELD("via", "1.1 proxy.example"),
    FIELD("strict-transport-security", "max-age=31536000; includeSubDomains"), FIELD("x-content-type-options", "nosniff"),
    FIELD("set-cookie", "session=0123456789abcdef; Path=/; HttpOnly"), FIELD("etag", "\"33a64df551425fcc55e4d42a148795d9\""),
    FIELD("last-modified", "Sat, 28 Nov 2026 09:30:00 GMT"), FIELD("accept-ranges", "bytes"),
};

static struct octets deflated(nghttp2_hd_deflater *deflater, uint8_t flag) {
  nghttp2_nv fields[FIELDS];
  struct octets block = {0};
  memcpy(fields, ANSWER, sizeof fields);
  for (int at = 0; at < FIELDS; at++) fields[at].flags = flag;
  block.most = nghttp2_hd_deflate_bound(deflater, fields, FIELDS);
  block.at = room(NULL, block.most);
  ssize_t count = nghttp2_hd_deflate_hd(deflater, block.at, block.most, fields, FIELDS);
  if (count < 0) stop("nghttp2 writes no block");
  block.length = (size_t)count;
  return block;
}

static double now(void) {
  struct timespec time;
  clock_gettime(CLOCK_THREAD_CPUTIME_ID, &time);
  return (double)time.tv_sec * 1e9 + (double)time.tv_nsec;
}

// A work, of which both sides are measured.
struct work {
  const char *name;
  const struct octets *first, *octets;
  uint64_t (*engine)(const struct work *, uint64_t), (*peer)(const struct work *, uint64_t);
  double least[2];
  uint64_t count[2];
};

static uint64_t by_engine_call(const struct work *it, uint64_t rounds) { return engine_call(it->octets->at, it->octets->length, PIECE, rounds); }
static uint64_t by_peer_call(const struct work *it, uint64_t rounds) { return nghttp2_call(it->octets, rounds); }
static uint64_t by_engine_first(const struct work *it, uint64_t rounds) { return engine_first_block(it->octets->at, it->octets->length, rounds); }
static uint64_t by_peer_first(const struct work *it, uint64_t rounds) { return nghttp2_first_block(it->octets, rounds); }
static uint64_t by_engine_next(const struct work *it, uint64_t rounds) {
  return engine_next_block(it->first->at, it->first->length, it->octets->at, it->octets->length, rounds);
}
static uint64_t by_peer_next(const struct work *it, uint64_t rounds) { return nghttp2_next_block(it->first, it->octets, rounds); }

static void measure(struct work *it, int side, double wanted) {
  uint64_t (*run)(const struct work *, uint64_t) = side ? it->peer : it->engine;
  double begin = now();
  run(it, it->count[side]);
  double taken = now() - begin, each = taken / (double)it->count[side];
  if (it->least[side] == 0 || each < it->least[side]) it->least[side] = each;
  if (taken < wanted / 2) it->count[side] *= 2;
}

int main(int count, char **words) {
  int rounds = count > 1 ? atoi(words[1]) : 15;
  double wanted = (count > 2 ? atof(words[2]) : 20) * 1e6;
  struct octets large = stream_of(8, 1000000), small = stream_of(5000, 100), small_blocks[3];
  nghttp2_hd_deflater *deflater, *other;
  if (nghttp2_hd_deflate_new(&deflater, 4096) || nghttp2_hd_deflate_new(&other, 4096)) stop("no deflater");
  small_blocks[0] = deflated(deflater, NGHTTP2_NV_FLAG_NONE);
  small_blocks[1] = deflated(deflater, NGHTTP2_NV_FLAG_NONE);
  small_blocks[2] = deflated(other, NGHTTP2_NV_FLAG_NO_INDEX);
  struct work works[] = {
      {"bytes to messages: 8 messages of 1,000,000 octets", NULL, &large, by_engine_call, by_peer_call, {0, 0}, {1, 1}},
      {"bytes to messages: 5,000 messages of 100 octets, each a frame", NULL, &small, by_engine_call, by_peer_call, {0, 0}, {1, 1}},
      {"a block of 20 fields, the first on a connection", NULL, &small_blocks[0], by_engine_first, by_peer_first, {0, 0}, {1, 1}},
      {"a block of 20 fields that the table has", &small_blocks[0], &small_blocks[1], by_engine_next, by_peer_next, {0, 0}, {1, 1}},
      {"a block of 20 fields that go into no table", &small_blocks[0], &small_blocks[2], by_engine_next, by_peer_next, {0, 0}, {1, 1}},
  };
  int of = sizeof works / sizeof *works;
  for (int at = 0; at < of; at++)
    if (works[at].engine(&works[at], 3) != works[at].peer(&works[at], 3)) stop(works[at].name);
  for (int round = 0; round < rounds; round++)
    for (int at = 0; at < of; at++)
      for (int side = 0; side < 2; side++) measure(&works[at], side, wanted);
  printf("| Work | Octets | Engine | nghttp2 | Ratio of the times |\n|---|---|---|---|---|\n");
  for (int at = 0; at < of; at++)
    printf("| %s | %zu | %.0f ns | %.0f ns | %.2f |\n", works[at].name, works[at].octets->length, works[at].least[0], works[at].least[1],
           works[at].least[0] / works[at].least[1]);
  return 0;
}
