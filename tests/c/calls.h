/* A call file that a test puts together, message by message, with the number that each is to be answered with. */
#ifndef CALLS_H
#define CALLS_H

#include <reel.h>

#include <string.h>

enum { FILE_MOST = 1 << 18, MESSAGES_MOST = 1 << 13, KINDS = REEL_KIND_RETIRE, LAST_NUMBER = REEL_RETIRED };

/* Messages and the number that each is answered with where the tables are sound and the stores fit. */
static uint8_t file[FILE_MOST];
static size_t length, starts[MESSAGES_MOST];
static unsigned numbers[MESSAGES_MOST], messages;

/* What message m is answered on tables or stores that are wrong: `state` to all but what its own bytes turn back. */
static inline unsigned number_in(unsigned m, unsigned state) {
  int by_its_bytes = numbers[m] >= REEL_CUT_SHORT && numbers[m] <= REEL_WRONG_LENGTH;
  return state == REEL_ACCEPTED || by_its_bytes ? numbers[m] : state;
}

/* One more message, of this version, kind and arguments, with `more` zeros behind them. */
static inline void add(unsigned number, uint8_t version, uint8_t kind, const uint8_t *arguments, size_t count,
                       size_t more) {
  size_t l = 2 + count + more;
  starts[messages] = length;
  numbers[messages++] = number;
  file[length] = (uint8_t)(l / 256);
  file[length + 1] = (uint8_t)(l % 256);
  file[length + 2] = version;
  file[length + 3] = kind;
  memcpy(file + length + 4, arguments, count);
  memset(file + length + 4 + count, 0, more);
  length += 2 + l;
}

static inline void call(unsigned number, uint8_t kind, size_t count, uint8_t a, uint8_t b, uint8_t c, uint8_t d) {
  uint8_t arguments[4];
  arguments[0] = a;
  arguments[1] = b;
  arguments[2] = c;
  arguments[3] = d;
  add(number, REEL_MESSAGE_VERSION, kind, arguments, count, 0);
}

/* A message too short to have a kind: L is 0 or 1. */
static inline void stub(unsigned number, uint8_t l, uint8_t version) {
  starts[messages] = length;
  numbers[messages++] = number;
  file[length] = 0;
  file[length + 1] = l;
  file[length + 2] = version;
  length += 2 + (size_t)l;
}

/* What its own bytes turn back: 2, 3 and 4. L may be more than any reply buffer has. */
static inline void ill_formed(void) {
  static const uint8_t none[1] = {0};
  unsigned kind;
  stub(REEL_FOREIGN_VERSION, 0, 0);
  stub(REEL_FOREIGN_VERSION, 1, 0);
  stub(REEL_UNKNOWN_KIND, 1, REEL_MESSAGE_VERSION);
  add(REEL_FOREIGN_VERSION, 0, REEL_KIND_CREATE, none, 0, 2);
  add(REEL_FOREIGN_VERSION, 2, REEL_KIND_CREATE, none, 0, 2);
  add(REEL_FOREIGN_VERSION, 255, KINDS + 1, none, 0, 0);
  add(REEL_UNKNOWN_KIND, REEL_MESSAGE_VERSION, 0, none, 0, 0);
  add(REEL_UNKNOWN_KIND, REEL_MESSAGE_VERSION, KINDS + 1, none, 0, 5);
  add(REEL_UNKNOWN_KIND, REEL_MESSAGE_VERSION, 255, none, 0, 300);
  for (kind = REEL_KIND_CREATE; kind <= KINDS; kind++)
    add(REEL_WRONG_LENGTH, REEL_MESSAGE_VERSION, (uint8_t)kind, none, 0, 0);
  add(REEL_WRONG_LENGTH, REEL_MESSAGE_VERSION, REEL_KIND_WRITE, none, 0, 260);
}

#endif
