/* What the programs of this folder test with: a line that does not hold ends the program with status 1. */
#ifndef CHECK_H
#define CHECK_H
#include <inttypes.h>
#include <stdio.h>
#include <stdlib.h>
#include <string.h>
#include "vupresal.h"

#define CHECK(it) ((it) ? (void)0 : check_failed(__FILE__, __LINE__, #it))
#define CHECK_STATUS(it, wanted) check_status(__FILE__, __LINE__, #it, (it), (wanted))

static inline void check_failed(const char *file, int line, const char *what) {
  fprintf(stderr, "%s:%d: not so: %s\n", file, line, what);
  exit(1);
}

static inline void check_status(const char *file, int line, const char *what, int32_t got, int32_t wanted) {
  if (got == wanted) return;
  fprintf(stderr, "%s:%d: %s: %" PRId32 " (%s), and not %" PRId32 "\n", file, line, what, got,
          vupresal_status_text(got), wanted);
  exit(1);
}

static const uint8_t plain[] = "GET / HTTP/1.1\r\nHost: h\r\n\r\n";
enum { PLAIN_LENGTH = sizeof plain - 1 };

/* A filter that lets all through. */
static const uint8_t open_to_all[] = {0x0a, 0x0f, 0x12, 0x0d, 0x0a, 0x01, 'p',  0x12, 0x08,
                                      0x0a, 0x02, 0x18, 0x01, 0x12, 0x02, 0x18, 0x01};

/* The filter in a file. */
static inline size_t message_of(const char *path, uint8_t *room, size_t size) {
  FILE *file = fopen(path, "rb");
  if (!file) return perror(path), exit(2), 0;
  size_t length = fread(room, 1, size, file);
  fclose(file);
  return length;
}

/* A decision that a caller forgot to clear. */
static inline vupresal_decision stale(void) {
  vupresal_decision decision = {7, true, true};
  return decision;
}

static inline void check_refuses(vupresal_decision decision) {
  CHECK(!decision.is_allowed && !decision.is_matched && decision.matched == 0);
}
#endif
