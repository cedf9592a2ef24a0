/*
 * The messages of a closed page: what is given where the writer refuses any one of them, and what a unit makes of them,
 * on a page that does not stand, on one of the station's own and on one of another's. The page is then read and written
 * by every station. The fences have their bytes.
 */
#include "test.h"

/* The header's functions call this writer, which refuses one of its calls where it is told to. */
#define reel_write refusing_write
#include <reel.h>
#undef reel_write

#include <string.h>

enum { P = 1, S = 1, FILLER = 0xA5 };

/* The library's writer. */
uint32_t reel_write(uint8_t kind, uint8_t first, uint8_t second, uint8_t third, uint8_t fourth, const uint8_t *bytes,
                    size_t bytes_len, uint8_t *out, size_t out_len);

static unsigned written, refused_call, refusal; /* calls of the writer, which of them it refuses, and by which number */
static uint8_t tables[REEL_TABLES_SIZE], fast[REEL_FRAME_SIZE * P], slow[REEL_FRAME_SIZE * S], out[REEL_REPLY_SIZE];

uint32_t refusing_write(uint8_t kind, uint8_t first, uint8_t second, uint8_t third, uint8_t fourth,
                        const uint8_t *bytes, size_t bytes_len, uint8_t *to, size_t to_len) {
  if (++written == refused_call) return refusal;
  return reel_write(kind, first, second, third, fourth, bytes, bytes_len, to, to_len);
}

/* Any refusal of any of the sixteen comes out, no message is written after it, and none is left. */
static void refused_in_part(void) {
  uint8_t file[REEL_CLOSED_SIZE], before[REEL_CLOSED_SIZE];
  memset(file, FILLER, sizeof file);
  memset(before, FILLER, sizeof before);
  for (refused_call = 1; refused_call <= 16; refused_call++)
    for (refusal = 1; refusal < 256; refusal++) {
      written = 0;
      expect(reel_write_create_closed(3, 5, file, sizeof file) == refusal, "the writer's own refusal");
      expect(written == refused_call, "nothing is written after a refusal");
      expect(memcmp(file, before, sizeof file) == 0, "nothing is left of a closed page that is refused");
    }
  refused_call = 0;
}

/* The number with which the unit answers these bytes. */
static unsigned number(const uint8_t *message, size_t length) {
  return reel_answer_number(
      reel_answer(tables, sizeof tables, fast, sizeof fast, slow, sizeof slow, message, length, out, sizeof out));
}

/* The number with which the unit answers a call of this kind; of a write d is the byte. */
static unsigned call(uint8_t kind, uint8_t a, uint8_t b, uint8_t c, uint8_t d) {
  uint8_t message[REEL_MESSAGE_SIZE];
  uint32_t given = reel_write(kind, a, b, c, d, &d, 1, message, sizeof message);
  expect(reel_written_number(given) == REEL_ACCEPTED, "a call in range");
  return number(message, reel_written_length(given));
}

/* The messages of a closed page one by one: how the create is answered, and each of the grants. */
static void sent(uint8_t station, uint8_t page, unsigned create, unsigned grant) {
  uint8_t file[REEL_CLOSED_SIZE];
  size_t at, length, count = 0;
  expect(reel_written_number(reel_write_create_closed(station, page, file, sizeof file)) == REEL_ACCEPTED, "written");
  for (at = 0; at < sizeof file; at += length) {
    length = reel_next(file + at, sizeof file - at);
    expect(number(file + at, length) == (count++ == 0 ? create : grant), "a message of a closed page");
  }
  expect(count == 16, "sixteen messages");
}

/* The rights on a page, by station. */
static uint8_t *rights(uint8_t page) {
  return tables + REEL_TABLES_PAGES + REEL_PAGE_SIZE * (size_t)page + REEL_PAGE_RIGHTS;
}

/* What a create leaves: the owner has right 2, every other station right 1. The sixteen messages leave right 0 in the
   place of 1, and every other byte of the tables as the create alone does. */
static void closes(uint8_t station, uint8_t page) {
  uint8_t created[REEL_TABLES_SIZE], other;
  expect(reel_fresh(P, S, tables, sizeof tables) == REEL_ACCEPTED, "fresh tables");
  expect(call(REEL_KIND_CREATE, station, page, 0, 0) == REEL_ACCEPTED, "a create");
  for (other = 0; other < REEL_STATIONS; other++) {
    expect(rights(page)[other] == (other == station ? 2 : 1), "the rights on a new page");
    if (other != station) rights(page)[other] = 0;
  }
  memcpy(created, tables, sizeof tables);

  expect(reel_fresh(P, S, tables, sizeof tables) == REEL_ACCEPTED, "fresh tables");
  sent(station, page, REEL_ACCEPTED, REEL_ACCEPTED);
  expect(memcmp(tables, created, sizeof tables) == 0, "the tables with a closed page");

  /* Of a page that stands only the grants count, and only by its owner. */
  expect(call(REEL_KIND_GRANT, station, page, (uint8_t)((station + 1) % 16), 2) == REEL_ACCEPTED, "opened to one");
  sent(station, page, REEL_PAGE_STANDS, REEL_ACCEPTED);
  sent((uint8_t)((station + 1) % 16), page, REEL_PAGE_STANDS, REEL_NO_RIGHT);
  expect(memcmp(tables, created, sizeof tables) == 0, "the tables with a page closed again");
}

/* Page 5 of station 3 with a CURRENT copy on frame 0: every other station's read is answered so. */
static void others_read(unsigned answered) {
  uint8_t other;
  expect(call(REEL_KIND_MAKE_COPY, 5, 0, 0, 0) == REEL_ACCEPTED, "a copy on frame 0");
  expect(call(REEL_KIND_SET_CURRENT, 5, 0, 0, 0) == REEL_ACCEPTED, "it is CURRENT");
  expect(call(REEL_KIND_WRITE, 3, 5, 0, 0x41) == REEL_ACCEPTED, "the owner writes");
  for (other = 0; other < REEL_STATIONS; other++) {
    expect(call(REEL_KIND_READ, other, 5, 0, 1) == (other == 3 ? (unsigned)REEL_ACCEPTED : answered), "a read");
    expect(call(REEL_KIND_WRITE, other, 5, 0, 0x41) == (other == 3 ? REEL_ACCEPTED : REEL_NO_RIGHT), "a write");
  }
}

int main(void) {
  unsigned page;
  refused_in_part();
  for (page = 0; page < 16 * REEL_PAGES; page++) closes((uint8_t)(page % 16), (uint8_t)(page / 16));

  expect(reel_fresh(P, S, tables, sizeof tables) == REEL_ACCEPTED, "fresh tables");
  sent(3, 5, REEL_ACCEPTED, REEL_ACCEPTED);
  others_read(REEL_NO_RIGHT);
  expect(reel_fresh(P, S, tables, sizeof tables) == REEL_ACCEPTED, "fresh tables");
  expect(call(REEL_KIND_CREATE, 3, 5, 0, 0) == REEL_ACCEPTED, "a create");
  others_read(REEL_ACCEPTED);
  printf("%u closed pages, each refusal of the writer in each of 16 messages\n", page);
  return 0;
}
