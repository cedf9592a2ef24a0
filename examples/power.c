/*
 * The unit of power.h on a medium whose power is cut: begun, served, cut at several bytes, and started again. After
 * `bash tools/build`:
 *
 *   gcc -std=c11 -I target/reel examples/power.c target/reel/libreel.a -o target/power && target/power
 */
#include "power.h"

#include <stdio.h>
#include <stdlib.h>

static const uint8_t create[] = {0, 4, 1, REEL_KIND_CREATE, 3, 5};           /* station 3, page 5 */
static const uint8_t make_copy[] = {0, 5, 1, REEL_KIND_MAKE_COPY, 5, 0, 0};  /* page 5, copy 0, to frame 0 */
static const uint8_t set_current[] = {0, 4, 1, REEL_KIND_SET_CURRENT, 5, 0}; /* page 5, copy 0 */
static const uint8_t write_41[] = {0, 6, 1, REEL_KIND_WRITE, 3, 5, 0, 0x41}; /* station 3, page 5, offset 0, a byte */
static const uint8_t write_42[] = {0, 6, 1, REEL_KIND_WRITE, 3, 5, 0, 0x42};
static const uint8_t read_byte[] = {0, 6, 1, REEL_KIND_READ, 3, 5, 0, 1};

/* A medium in memory that takes so many bytes more before its power is cut; a real one has drivers here. */
static uint8_t medium[2 * POWER_SLOT];
static size_t bytes_left = SIZE_MAX;

void medium_read(size_t at, uint8_t *bytes, size_t length) { memcpy(bytes, medium + at, length); }
void medium_write(size_t at, const uint8_t *bytes, size_t length) {
  for (; length > 0 && bytes_left > 0; length--, bytes_left--) medium[at++] = *bytes++;
}
void medium_barrier(void) {} /* here each byte is kept at once */

static void expect(int holds, const char *what) {
  if (!holds) {
    printf("FAILED: %s\n", what);
    exit(1);
  }
}

static void serve(struct power *unit, const uint8_t *message, size_t length, uint8_t out[REEL_REPLY_SIZE]) {
  uint32_t answer = power_answer(unit, message, length, out, REEL_REPLY_SIZE);
  expect(reel_answer_number(answer) == REEL_ACCEPTED, reel_word(reel_answer_number(answer)));
}

/* Power-up: the state that was kept, and the byte that page 5 has there. */
static uint8_t byte_after_start(void) {
  struct power unit;
  uint8_t out[REEL_REPLY_SIZE];
  bytes_left = SIZE_MAX;
  expect(power_start(&unit), "a state is kept");
  expect(reel_rules(unit.image + POWER_TABLES, REEL_TABLES_SIZE, POWER_SLOW - POWER_FAST, POWER_SEAL - POWER_SLOW) ==
             REEL_ACCEPTED,
         "its tables keep the rules");
  serve(&unit, read_byte, sizeof read_byte, out);
  return out[REEL_REPLY_HEAD];
}

int main(void) {
  static struct power unit;
  /* A save writes a seal of 0, all before the seal, and the seal. */
  static const size_t cuts[] = {0, 2, 4, 1000, 4 + POWER_SEAL, 4 + POWER_SEAL + 4};
  uint8_t out[REEL_REPLY_SIZE];
  size_t last = sizeof cuts / sizeof *cuts - 1, i;
  expect(!power_start(&unit), "an empty medium");
  power_begin(&unit);
  serve(&unit, create, sizeof create, out);
  serve(&unit, make_copy, sizeof make_copy, out);
  serve(&unit, set_current, sizeof set_current, out);
  serve(&unit, write_41, sizeof write_41, out);

  /* A cut leaves the byte before the write, however often it happens; without one the new byte is kept. */
  for (i = 0; i <= last; i++) {
    expect(power_start(&unit), "a state is kept");
    bytes_left = cuts[i];
    serve(&unit, write_42, sizeof write_42, out);
    expect(byte_after_start() == (i < last ? 0x41 : 0x42), "the state before the write, or the one after it");
  }
  printf("power: %u cuts, each time the state before the write; the write again, and it is kept\n", (unsigned)last);
  return 0;
}
