/*
 * Pairs of call files, to see that the contents of pages stay hidden from the placement module. The two files of a pair
 * have the same messages, but each byte that a write carries is another: every byte after the offset of a message of
 * version 1 and kind 5, also of one that is refused 4 or cut short. Both stores and the reply buffer differ in every
 * byte too. Each file is served by reel_run, by reel_replies into one buffer and in parts, and message by message by
 * reel_answer, with reel_rules and reel_read in between; and it is forecast by reel_forecast.
 *
 *   pairs SAMPLE               compares what the library gives for the two files of each pair, and what it leaves
 *   pairs SAMPLE SIDE [COUNT]  serves one file, 0 or 1, of each pair or of the first COUNT, for valgrind, and prints a
 *                              line after each way of serving it
 *
 * SAMPLE is a call file that makes a pair of its own. Addresses and lengths are the same on both sides, and so are the
 * instructions of this program itself, so that simulated caches and branches meet the library in the same state.
 *
 * With -DMEMCHECK the bytes that differ are undefined to memcheck, which then reports each branch and each address that
 * depends on them, and here each byte that must not.
 */
#include "calls.h"
#include "random.h"
#include "test.h"

#include <reel.h>

#include <stdio.h>
#include <string.h>
#ifdef MEMCHECK
#include <valgrind/memcheck.h>
#endif

enum { STORE_MOST = REEL_FRAME_SIZE * REEL_MOST_FRAMES, REPLIES_MOST = MESSAGES_MOST * REEL_REPLY_SIZE };
enum { FEW_FRAMES = 4, MORE_FRAMES = 5 }; /* of each store: for eight copies, and for two frames more */
enum { OWNER = 3, PAGE = 5, RANDOM_MESSAGES = 3000, PART = 200 };
enum { BYTES_AT = REEL_MESSAGE_SIZE - REEL_FRAME_SIZE /* in a write */ };
enum { ANY_NUMBER = 255 /* of a message whose answer is not foretold */ };

/* A pair: its name, what puts its messages together, its frames, and the number with which its unit turns back every
   message that its own bytes do not: 5, 6 or 18, and else 0. */
struct pair {
  const char *name;
  void (*put)(void);
  uint8_t p, s;
  unsigned state;
};

/* What the library gave and left. */
struct record {
  uint8_t tables[REEL_TABLES_SIZE], replies[REPLIES_MOST];
  uint32_t tally[REEL_TALLY_SIZE], figures[REEL_FIGURES_SIZE], answers[MESSAGES_MOST], between[2 * MESSAGES_MOST];
  size_t said, asked;       /* bytes of replies; what reel_rules and reel_read gave in between, or reel_forecast */
  unsigned first, answered; /* the message that the first reply kept is for; answers of reel_answer */
};

static const char *sample;
static uint8_t tables[REEL_TABLES_SIZE], fast[STORE_MOST], slow[STORE_MOST], sent[FILE_MOST], out[REPLIES_MOST];
static uint32_t tally[REEL_TALLY_SIZE], figures[REEL_FIGURES_SIZE];
static size_t fast_len, slow_len;
static struct record records[2];
static unsigned seen[LAST_NUMBER + 1], reads, differing; /* answers by number; accepted reads, and those that differ */

/* ---- the messages of a pair */

/* A write of so many bytes of this value. */
static void writes(unsigned number, uint8_t station, uint8_t page, uint8_t offset, size_t size, uint8_t value) {
  uint8_t arguments[3];
  arguments[0] = station;
  arguments[1] = page;
  arguments[2] = offset;
  add(number, REEL_MESSAGE_VERSION, REEL_KIND_WRITE, arguments, 3, size);
  memset(file + length - size, value, size);
}

/* The last message loses so many bytes. */
static void cut(size_t bytes) { length -= bytes; }

/* A page with copies on so many frames from this one on, of which the first ones are CURRENT. */
static void stands(uint8_t station, uint8_t page, uint8_t frame, uint8_t copies, uint8_t current) {
  uint8_t copy;
  call(REEL_ACCEPTED, REEL_KIND_CREATE, 2, station, page, 0, 0);
  for (copy = 0; copy < copies; copy++)
    call(REEL_ACCEPTED, REEL_KIND_MAKE_COPY, 3, page, 0, (uint8_t)(frame + copy), 0);
  for (copy = 0; copy < current; copy++) call(REEL_ACCEPTED, REEL_KIND_SET_CURRENT, 2, page, copy, 0, 0);
}

static void reads_all(uint8_t page) { call(REEL_ACCEPTED, REEL_KIND_READ, 4, OWNER, page, 0, REEL_FRAME_SIZE); }

/* A write to a page with two copies, the second MOST RECENT and not CURRENT, and what placement can see after it. */
static void writes_and_looks(uint8_t page, uint8_t second, uint8_t offset, size_t size, uint8_t value) {
  call(REEL_ACCEPTED, REEL_KIND_LOOK_PAGE, 1, page, 0, 0, 0);
  writes(REEL_ACCEPTED, OWNER, page, offset, size, value);
  call(REEL_ACCEPTED, REEL_KIND_LOOK_PAGE, 1, page, 0, 0, 0);
  call(REEL_ACCEPTED, REEL_KIND_LOOK_FRAME, 1, second, 0, 0, 0);
  call(REEL_STALE, REEL_KIND_SET_CURRENT, 2, page, 1, 0, 0);
  reads_all(page);
  call(REEL_ACCEPTED, REEL_KIND_DELETE_COPY, 2, page, 1, 0, 0);
  call(REEL_ACCEPTED, REEL_KIND_MAKE_COPY, 3, page, 0, second, 0);
}

/* Document 01's trap: on side 0 the page holds already what is written, first zeros and then the bytes of the write
   before; on side 1 it holds other bytes. The CURRENT copy is fast or slow, and the other one in the other store. */
static void equal_bytes(void) {
  static const uint8_t spans[][2] = {{0, 64}, {0, 1}, {63, 1}, {16, 32}};
  uint8_t page;
  for (page = 0; page < FEW_FRAMES; page++) {
    uint8_t offset = spans[page][0], size = spans[page][1], one = page, other = FEW_FRAMES + page;
    uint8_t first = page % 2 ? other : one, second = page % 2 ? one : other;
    stands(OWNER, page, first, 1, 1);
    call(REEL_ACCEPTED, REEL_KIND_MAKE_COPY, 3, page, 0, second, 0);
    writes_and_looks(page, second, offset, size, 0);
    writes_and_looks(page, second, offset, size, 0x41);
    writes_and_looks(page, second, offset, size, 0x41);
  }
}

/* On side 0 the page and the frames are zeros, so that a copy changes no byte. Copies go from either store to either,
   and each is read. */
static void copies_of_zeros(void) {
  static const uint8_t frames[] = {1, FEW_FRAMES, FEW_FRAMES + 1, 2};
  uint8_t i;
  stands(OWNER, PAGE, 0, 1, 1);
  writes(REEL_ACCEPTED, OWNER, PAGE, 0, REEL_FRAME_SIZE, 0);
  for (i = 0; i < sizeof frames; i++) {
    call(REEL_ACCEPTED, REEL_KIND_MAKE_COPY, 3, PAGE, i, frames[i], 0);
    call(REEL_ACCEPTED, REEL_KIND_SET_CURRENT, 2, PAGE, (uint8_t)(i + 1), 0, 0);
    call(REEL_ACCEPTED, REEL_KIND_REMOVE_CURRENT, 2, PAGE, i, 0, 0);
    reads_all(PAGE);
    call(REEL_ACCEPTED, REEL_KIND_LOOK_PAGE, 1, PAGE, 0, 0, 0);
  }
}

/* On side 0 the frames that are freed hold zeros already. */
static void deletes_of_zeros(void) {
  uint8_t frame;
  stands(OWNER, PAGE, 0, REEL_MOST_COPIES, REEL_MOST_COPIES);
  writes(REEL_ACCEPTED, OWNER, PAGE, 0, REEL_FRAME_SIZE, 0);
  reads_all(PAGE);
  call(REEL_ACCEPTED, REEL_KIND_DELETE_COPY, 2, PAGE, REEL_MOST_COPIES - 1, 0, 0); /* in the slow store */
  call(REEL_ACCEPTED, REEL_KIND_DELETE_COPY, 2, PAGE, 0, 0, 0);                    /* in the fast one */
  call(REEL_ACCEPTED, REEL_KIND_RETIRE, 1, 0, 0, 0, 0);
  call(REEL_ACCEPTED, REEL_KIND_DELETE_PAGE, 2, OWNER, PAGE, 0, 0);
  for (frame = 0; frame < 2 * FEW_FRAMES; frame++) call(REEL_ACCEPTED, REEL_KIND_LOOK_FRAME, 1, frame, 0, 0, 0);
  stands(OWNER, PAGE, 1, REEL_MOST_COPIES - 1, 1);
  reads_all(PAGE);
  call(REEL_ACCEPTED, REEL_KIND_DELETE_PAGE, 2, OWNER, PAGE, 0, 0);
  stands(OWNER, PAGE, 0, 0, 0);
  call(REEL_ACCEPTED, REEL_KIND_DELETE_PAGE, 2, OWNER, PAGE, 0, 0);
}

/* What every kind names too large. */
static void out_of_range(void) {
  static const uint8_t rows[][5] = {
      {REEL_KIND_CREATE, REEL_STATIONS, PAGE},
      {REEL_KIND_CREATE, OWNER, REEL_PAGES},
      {REEL_KIND_DELETE_PAGE, REEL_STATIONS, PAGE},
      {REEL_KIND_DELETE_PAGE, OWNER, REEL_PAGES},
      {REEL_KIND_GRANT, REEL_STATIONS, PAGE, 4, 1},
      {REEL_KIND_GRANT, OWNER, REEL_PAGES, 4, 1},
      {REEL_KIND_GRANT, OWNER, PAGE, REEL_STATIONS, 1},
      {REEL_KIND_GRANT, OWNER, PAGE, 4, 3},
      {REEL_KIND_READ, REEL_STATIONS, PAGE, 0, 1},
      {REEL_KIND_READ, OWNER, REEL_PAGES, 0, 1},
      {REEL_KIND_READ, OWNER, PAGE, REEL_FRAME_SIZE, 1},
      {REEL_KIND_READ, OWNER, PAGE, 0, 0},
      {REEL_KIND_READ, OWNER, PAGE, REEL_FRAME_SIZE - 1, 2},
      {REEL_KIND_MAKE_COPY, REEL_PAGES, 0, 0},
      {REEL_KIND_MAKE_COPY, PAGE, 0, 2 * MORE_FRAMES},
      {REEL_KIND_DELETE_COPY, REEL_PAGES, 0},
      {REEL_KIND_SET_CURRENT, REEL_PAGES, 0},
      {REEL_KIND_REMOVE_CURRENT, REEL_PAGES, 0},
      {REEL_KIND_LOOK_PAGE, REEL_PAGES},
      {REEL_KIND_LOOK_FRAME, 2 * MORE_FRAMES},
      {REEL_KIND_RETIRE, 2 * MORE_FRAMES},
  };
  static const uint8_t arguments[] = {0, 2, 2, 4, 4, 0, 3, 2, 2, 2, 1, 1, 1};
  size_t i;
  for (i = 0; i < sizeof rows / sizeof *rows; i++)
    call(REEL_OUT_OF_RANGE, rows[i][0], arguments[rows[i][0]], rows[i][1], rows[i][2], rows[i][3], rows[i][4]);
  writes(REEL_OUT_OF_RANGE, REEL_STATIONS, PAGE, 0, 1, 0);
  writes(REEL_OUT_OF_RANGE, OWNER, REEL_PAGES, 0, 1, 0);
  writes(REEL_OUT_OF_RANGE, OWNER, PAGE, REEL_FRAME_SIZE, 1, 0);
  writes(REEL_OUT_OF_RANGE, OWNER, PAGE, REEL_FRAME_SIZE - 1, 2, 0);
}

/* Every kind that needs a page, before it stands. */
static void no_page(void) {
  call(REEL_NO_PAGE, REEL_KIND_DELETE_PAGE, 2, OWNER, PAGE, 0, 0);
  call(REEL_NO_PAGE, REEL_KIND_GRANT, 4, OWNER, PAGE, 4, 1);
  call(REEL_NO_PAGE, REEL_KIND_READ, 4, OWNER, PAGE, 0, 1);
  writes(REEL_NO_PAGE, OWNER, PAGE, 0, 1, 0);
  call(REEL_NO_PAGE, REEL_KIND_MAKE_COPY, 3, PAGE, 0, 0, 0);
  call(REEL_NO_PAGE, REEL_KIND_DELETE_COPY, 2, PAGE, 0, 0, 0);
  call(REEL_NO_PAGE, REEL_KIND_SET_CURRENT, 2, PAGE, 0, 0, 0);
  call(REEL_NO_PAGE, REEL_KIND_REMOVE_CURRENT, 2, PAGE, 0, 0, 0);
  call(REEL_NO_PAGE, REEL_KIND_LOOK_PAGE, 1, PAGE, 0, 0, 0);
}

/* A page with its null copy: rights and copies that it has not. */
static void null_copy(void) {
  call(REEL_ACCEPTED, REEL_KIND_CREATE, 2, OWNER, PAGE, 0, 0);
  call(REEL_PAGE_STANDS, REEL_KIND_CREATE, 2, OWNER, PAGE, 0, 0);
  call(REEL_NO_RIGHT, REEL_KIND_DELETE_PAGE, 2, 4, PAGE, 0, 0);
  call(REEL_NO_RIGHT, REEL_KIND_GRANT, 4, 4, PAGE, 4, 2);
  call(REEL_ACCEPTED, REEL_KIND_GRANT, 4, OWNER, PAGE, 6, 0);
  call(REEL_NO_RIGHT, REEL_KIND_READ, 4, 6, PAGE, 0, 1);
  writes(REEL_NO_RIGHT, 4, PAGE, 0, 1, 0);
  call(REEL_NOTHING_CURRENT, REEL_KIND_READ, 4, OWNER, PAGE, 0, 1);
  writes(REEL_NOTHING_CURRENT, OWNER, PAGE, 0, 1, 0);
  call(REEL_NO_FRAME, REEL_KIND_SET_CURRENT, 2, PAGE, 0, 0, 0);
  call(REEL_ACCEPTED, REEL_KIND_REMOVE_CURRENT, 2, PAGE, 0, 0, 0);
  call(REEL_LAST_RECENT, REEL_KIND_DELETE_COPY, 2, PAGE, 0, 0, 0);
  call(REEL_NO_COPY, REEL_KIND_MAKE_COPY, 3, PAGE, 1, 0, 0);
  call(REEL_NO_COPY, REEL_KIND_DELETE_COPY, 2, PAGE, 1, 0, 0);
  call(REEL_NO_COPY, REEL_KIND_SET_CURRENT, 2, PAGE, 1, 0, 0);
  call(REEL_NO_COPY, REEL_KIND_REMOVE_CURRENT, 2, PAGE, 1, 0, 0);
}

/* The page with eight copies, beside a retired frame and a free one. */
static void eight_copies(void) {
  uint8_t frame, retired = 2 * MORE_FRAMES - 1;
  call(REEL_ACCEPTED, REEL_KIND_RETIRE, 1, retired, 0, 0, 0);
  call(REEL_ACCEPTED, REEL_KIND_RETIRE, 1, retired, 0, 0, 0);
  call(REEL_ACCEPTED, REEL_KIND_LOOK_FRAME, 1, retired, 0, 0, 0);
  for (frame = 0; frame < REEL_MOST_COPIES; frame++) call(REEL_ACCEPTED, REEL_KIND_MAKE_COPY, 3, PAGE, 0, frame, 0);
  call(REEL_FRAME_HELD, REEL_KIND_RETIRE, 1, 0, 0, 0, 0);
  call(REEL_RETIRED, REEL_KIND_MAKE_COPY, 3, PAGE, 0, retired, 0);
  call(REEL_FRAME_HELD, REEL_KIND_MAKE_COPY, 3, PAGE, 0, 0, 0);
  call(REEL_EIGHT_COPIES, REEL_KIND_MAKE_COPY, 3, PAGE, 0, REEL_MOST_COPIES, 0);
  call(REEL_ACCEPTED, REEL_KIND_SET_CURRENT, 2, PAGE, 0, 0, 0);
  call(REEL_ACCEPTED, REEL_KIND_SET_CURRENT, 2, PAGE, 0, 0, 0);
  writes(REEL_ACCEPTED, OWNER, PAGE, 0, REEL_FRAME_SIZE, 0x41);
  call(REEL_STALE, REEL_KIND_SET_CURRENT, 2, PAGE, 1, 0, 0);
  call(REEL_LAST_RECENT, REEL_KIND_DELETE_COPY, 2, PAGE, 0, 0, 0);
  call(REEL_ACCEPTED, REEL_KIND_DELETE_COPY, 2, PAGE, 1, 0, 0);
  call(REEL_ACCEPTED, REEL_KIND_LOOK_FRAME, 1, 0, 0, 0, 0);
  call(REEL_ACCEPTED, REEL_KIND_LOOK_FRAME, 1, 1, 0, 0, 0);
  call(REEL_ACCEPTED, REEL_KIND_LOOK_PAGE, 1, PAGE, 0, 0, 0);
  reads_all(PAGE);
  call(REEL_ACCEPTED, REEL_KIND_REMOVE_CURRENT, 2, PAGE, 0, 0, 0);
  call(REEL_ACCEPTED, REEL_KIND_REMOVE_CURRENT, 2, PAGE, 0, 0, 0);
  call(REEL_NOTHING_CURRENT, REEL_KIND_READ, 4, OWNER, PAGE, 0, 1);
  call(REEL_ACCEPTED, REEL_KIND_SET_CURRENT, 2, PAGE, 0, 0, 0);
  call(REEL_ACCEPTED, REEL_KIND_GRANT, 4, OWNER, PAGE, 4, 2);
  writes(REEL_ACCEPTED, 4, PAGE, REEL_FRAME_SIZE - 1, 1, 0x41);
  call(REEL_ACCEPTED, REEL_KIND_READ, 4, 4, PAGE, REEL_FRAME_SIZE - 1, 1);
  call(REEL_ACCEPTED, REEL_KIND_DELETE_PAGE, 2, OWNER, PAGE, 0, 0);
}

/* Every kind, accepted and turned back with each number that it can get; the last message is cut short. */
static void every_kind(void) {
  static const uint8_t none[1] = {0};
  uint8_t kind;
  ill_formed();
  for (kind = REEL_KIND_CREATE; kind <= KINDS; kind++)
    add(REEL_WRONG_LENGTH, REEL_MESSAGE_VERSION, kind, none, 0, REEL_MESSAGE_SIZE - 3);
  out_of_range();
  no_page();
  null_copy();
  eight_copies();
  writes(REEL_CUT_SHORT, OWNER, PAGE, 0, REEL_FRAME_SIZE, 0);
  cut(1);
}

/* Writes of 1 to 64 bytes at the front, one byte behind it, at the end and past it, to so many CURRENT copies. */
static void writes_of_each_length(uint8_t frame, uint8_t copies) {
  size_t size;
  stands(OWNER, PAGE, frame, copies, copies);
  for (size = 1; size <= REEL_FRAME_SIZE; size++) {
    uint8_t last = (uint8_t)(REEL_FRAME_SIZE - size);
    writes(REEL_ACCEPTED, OWNER, PAGE, 0, size, (uint8_t)size);
    writes(size < REEL_FRAME_SIZE ? REEL_ACCEPTED : REEL_OUT_OF_RANGE, OWNER, PAGE, 1, size, 0);
    writes(REEL_ACCEPTED, OWNER, PAGE, last, size, (uint8_t)size);
    writes(REEL_OUT_OF_RANGE, OWNER, PAGE, (uint8_t)(last + 1), size, 0);
    call(REEL_ACCEPTED, REEL_KIND_READ, 4, OWNER, PAGE, last, (uint8_t)size);
  }
  call(REEL_ACCEPTED, REEL_KIND_DELETE_PAGE, 2, OWNER, PAGE, 0, 0);
}

static void each_length(void) {
  writes_of_each_length(FEW_FRAMES - 1, 1);
  writes_of_each_length(FEW_FRAMES, 1);
  writes_of_each_length(0, REEL_MOST_COPIES);
}

/* Writes that are refused 4: without page or offset, without bytes, with one too many, and with more. */
static void wrong_lengths(void) {
  static const size_t carried[] = {65, 66, 295, 65530};
  static const uint8_t arguments[3] = {OWNER, PAGE, 0};
  size_t i;
  stands(OWNER, PAGE, 0, 2, 1);
  writes(REEL_ACCEPTED, OWNER, PAGE, 0, REEL_FRAME_SIZE, 0x41);
  for (i = 0; i <= 3; i++) add(REEL_WRONG_LENGTH, REEL_MESSAGE_VERSION, REEL_KIND_WRITE, arguments, i, 0);
  for (i = 0; i < sizeof carried / sizeof *carried; i++) writes(REEL_WRONG_LENGTH, OWNER, PAGE, 0, carried[i], 0x41);
  reads_all(PAGE);
  writes(REEL_CUT_SHORT, OWNER, PAGE, 0, REEL_FRAME_SIZE, 0x41);
  cut(REEL_FRAME_SIZE - 20);
}

/* The bytes behind the file are one more message, whose answer is not foretold. */
static void take_on(size_t size) {
  expect(messages < MESSAGES_MOST && length + size <= FILE_MOST, "room for a message");
  starts[messages] = length;
  numbers[messages++] = ANY_NUMBER;
  length += size;
}

/* Messages of any sort, hostile ones among them, and a write that is cut to its first byte. */
static void random_messages(uint32_t frames) {
  unsigned i;
  for (i = 0; i < RANDOM_MESSAGES; i++) take_on(any_message(file + length, frames));
  writes(REEL_CUT_SHORT, 0, 0, 0, REEL_FRAME_SIZE, 0x41);
  cut(REEL_FRAME_SIZE - 1);
}

static void random_on_few(void) { random_messages(2 * FEW_FRAMES); }

/* The same where every page stands and every frame is held, as many pages as there can be on as many frames. */
static void random_on_all(void) {
  uint8_t page;
  for (page = 0; page < REEL_PAGES; page++) stands(0, page, (uint8_t)(4 * page), page < REEL_PAGES - 1 ? 4 : 2, 2);
  random_messages(2 * REEL_MOST_FRAMES);
}

static void of_sample(void) {
  FILE *from = fopen(sample, "rb");
  size_t end;
  expect(from != NULL, "the sample");
  end = fread(file, 1, sizeof file, from);
  fclose(from);
  while (length < end) take_on(reel_next(file + length, end - length));
}

static const struct pair pairs[] = {
    {"a write of equal bytes", equal_bytes, FEW_FRAMES, FEW_FRAMES, REEL_ACCEPTED},
    {"copies of a page of zeros", copies_of_zeros, FEW_FRAMES, FEW_FRAMES, REEL_ACCEPTED},
    {"deletes of frames of zeros", deletes_of_zeros, FEW_FRAMES, FEW_FRAMES, REEL_ACCEPTED},
    {"every kind and number", every_kind, MORE_FRAMES, MORE_FRAMES, REEL_ACCEPTED},
    {"every kind on broken tables", every_kind, MORE_FRAMES, MORE_FRAMES, REEL_BROKEN_TABLES},
    {"every kind with a misfit store", every_kind, MORE_FRAMES, MORE_FRAMES, REEL_MISFIT_STORE},
    {"every kind with a short reply buffer", every_kind, MORE_FRAMES, MORE_FRAMES, REEL_SHORT_BUFFER},
    {"writes of each length", each_length, FEW_FRAMES, FEW_FRAMES, REEL_ACCEPTED},
    {"writes of a wrong length, one cut short", wrong_lengths, FEW_FRAMES, FEW_FRAMES, REEL_ACCEPTED},
    {"random messages, few frames", random_on_few, FEW_FRAMES, FEW_FRAMES, REEL_ACCEPTED},
    {"random messages, all frames", random_on_all, REEL_MOST_FRAMES, REEL_MOST_FRAMES, REEL_ACCEPTED},
    {"the sample", of_sample, FEW_FRAMES, FEW_FRAMES, REEL_ACCEPTED},
};
enum { PAIRS = sizeof pairs / sizeof *pairs };

/* What message m of the pair is answered. */
static unsigned due(const struct pair *pair, unsigned m) {
  return pair->state == REEL_SHORT_BUFFER ? REEL_SHORT_BUFFER : number_in(m, pair->state);
}

/* ---- one side of a pair */

/* Bytes that differ between the sides, each of them: on side 1 by a number from 1 to 255, which the next has not. */
static void vary(uint8_t *bytes, size_t from, size_t to, uint8_t side) {
  size_t i;
  for (i = from; i < to; i++) bytes[i] ^= (uint8_t)(side * (1 + i % 255));
#ifdef MEMCHECK
  VALGRIND_MAKE_MEM_UNDEFINED(bytes + from, to - from);
#endif
}

/* What is lent for one side: the stores are zeros on side 0. */
static void lend(const struct pair *pair, uint8_t side, size_t room) {
  static const uint32_t begun[REEL_TALLY_SIZE] = {3, 2, UINT32_MAX - 1000};
  size_t at, size;
  expect(reel_fresh(pair->p, pair->s, tables, sizeof tables) == REEL_ACCEPTED, "fresh tables");
  if (pair->state == REEL_BROKEN_TABLES) tables[REEL_TABLES_REGISTER] ^= 1;
  memcpy(tally, begun, sizeof tally);
  memset(figures, 0, sizeof figures);
  fast_len = REEL_FRAME_SIZE * (size_t)pair->p;
  slow_len = REEL_FRAME_SIZE * (size_t)pair->s - (pair->state == REEL_MISFIT_STORE);
  memset(fast, 0, fast_len);
  memset(slow, 0, slow_len);
  memset(out, 0, room);
  memcpy(sent, file, length);
  vary(fast, 0, fast_len, side);
  vary(slow, 0, slow_len, side);
  vary(out, 0, room, side);
  for (at = 0; at < length; at += size) {
    size = reel_next(file + at, length - at);
    if (size > BYTES_AT && file[at + 2] == REEL_MESSAGE_VERSION && file[at + 3] == REEL_KIND_WRITE)
      vary(sent, at + BYTES_AT, at + size, side);
  }
}

/* ---- the ways to serve it */

static void keep(struct record *r, size_t used) {
  memcpy(r->replies + r->said, out, used);
  r->said += used;
}

/* The last reply alone is kept. */
static void by_run(struct record *r, size_t room) {
  reel_run(tables, sizeof tables, fast, fast_len, slow, slow_len, sent, length, out, room, tally, REEL_TALLY_SIZE);
  r->first = messages - 1;
  if (room >= REEL_REPLY_SIZE) keep(r, reel_next(out, room));
}

static void by_replies(struct record *r, size_t room) {
  size_t at = 0, used;
  while (at < length) {
    at = reel_replies(tables, sizeof tables, fast, fast_len, slow, slow_len, sent, length, at, out, room, tally,
                      REEL_TALLY_SIZE, &used);
    keep(r, used);
  }
}

/* Each message alone; after it the rules, and the place of a read with the station, page and offset that one named. */
static void by_answer(struct record *r, size_t room) {
  uint8_t station = 0, page = 0, offset = 0;
  unsigned m;
  for (m = 0; m < messages; m++) {
    const uint8_t *message = sent + starts[m];
    size_t size = (m + 1 < messages ? starts[m + 1] : length) - starts[m];
    uint32_t answer = reel_answer(tables, sizeof tables, fast, fast_len, slow, slow_len, message, size, out, room);
    r->answers[r->answered++] = answer;
    keep(r, reel_answer_length(answer));
    if (size >= BYTES_AT) {
      station = message[4];
      page = message[5];
      offset = message[6];
    }
    r->between[r->asked++] = reel_rules(tables, sizeof tables, fast_len, slow_len);
    r->between[r->asked++] = reel_read(tables, sizeof tables, fast_len, slow_len, station, page, offset,
                                       (uint8_t)(1 + m % REEL_FRAME_SIZE));
  }
}

/* No reply is there to keep. */
static void by_forecast(struct record *r, size_t room) {
  (void)room;
  r->between[r->asked++] = reel_forecast(tables, sizeof tables, sent, length, figures, REEL_FIGURES_SIZE);
  r->first = messages;
}

static const struct way {
  const char *name;
  void (*serve)(struct record *r, size_t room);
  size_t room; /* of the reply buffer; 0 for as much as all replies can take */
} ways[] = {{"in one run", by_run, REEL_REPLY_SIZE},
            {"in one buffer", by_replies, 0},
            {"in parts", by_replies, PART},
            {"one by one", by_answer, REEL_REPLY_SIZE},
            {"forecast", by_forecast, REEL_REPLY_SIZE}};
enum { WAYS = sizeof ways / sizeof *ways };

static void serve(const struct pair *pair, const struct way *way, uint8_t side, struct record *r) {
  size_t room = way->room ? way->room : messages * (size_t)REEL_REPLY_SIZE;
  if (pair->state == REEL_SHORT_BUFFER) room = REEL_REPLY_SIZE - 1;
  r->said = r->asked = r->first = r->answered = 0;
  lend(pair, side, room);
  way->serve(r, room);
  memcpy(r->tables, tables, sizeof tables);
  memcpy(r->tally, tally, sizeof tally);
  memcpy(r->figures, figures, sizeof figures);
}

/* ---- what may differ: the data of accepted reads */

/* How many bytes of a reply to message m, from its front on, must not differ: all of them but a read's data. */
static size_t alike(unsigned m, size_t size) {
  if (size == REEL_REPLY_HEAD || file[starts[m] + 3] != REEL_KIND_READ) return size;
  reads++;
  return REEL_REPLY_HEAD;
}

static void compare(const struct pair *pair, const struct record *one, const struct record *other) {
  size_t said, size;
  unsigned m = one->first;
  expect(memcmp(one->tables, other->tables, sizeof one->tables) == 0, "equal tables");
  expect(memcmp(one->tally, other->tally, sizeof one->tally) == 0, "equal tallies");
  expect(memcmp(one->figures, other->figures, sizeof one->figures) == 0, "equal figures");
  expect(one->said == other->said && one->answered == other->answered && one->asked == other->asked,
         "replies of equal lengths");
  expect(memcmp(one->answers, other->answers, one->answered * sizeof *one->answers) == 0, "equal answers");
  expect(memcmp(one->between, other->between, one->asked * sizeof *one->between) == 0,
         "equal rules and places, or an equal number of the forecast");
  for (said = 0; said < one->said; said += size, m++) {
    const uint8_t *reply = one->replies + said, *twin = other->replies + said;
    size_t same;
    size = reel_next(reply, one->said - said);
    same = alike(m, size);
    expect(memcmp(reply, twin, same) == 0, "replies that are equal but for the data of reads");
    differing += memcmp(reply + same, twin + same, size - same) != 0;
  }
  expect(said == one->said && (m == messages || pair->state == REEL_SHORT_BUFFER), "a reply to each message");
  for (m = 0; m < one->answered; m++) {
    unsigned number = reel_answer_number(one->answers[m]);
    expect(due(pair, m) == ANY_NUMBER || due(pair, m) == number, "the number that is due");
    seen[number]++;
  }
}

#ifdef MEMCHECK
/* What must not differ depends on none of the bytes that do. */
static void check_defined(const struct record *r) {
  size_t said, size;
  unsigned m = r->first;
  VALGRIND_CHECK_MEM_IS_DEFINED(r->tables, sizeof r->tables);
  VALGRIND_CHECK_MEM_IS_DEFINED(r->tally, sizeof r->tally);
  VALGRIND_CHECK_MEM_IS_DEFINED(r->figures, sizeof r->figures);
  VALGRIND_CHECK_MEM_IS_DEFINED(r->answers, r->answered * sizeof *r->answers);
  VALGRIND_CHECK_MEM_IS_DEFINED(r->between, r->asked * sizeof *r->between);
  for (said = 0; said < r->said; said += size, m++) {
    size = reel_next(r->replies + said, r->said - said);
    VALGRIND_CHECK_MEM_IS_DEFINED(r->replies + said, alike(m, size));
  }
}
#endif

/* ---- the program */

static void put_together(const struct pair *pair) {
  length = messages = 0;
  pair->put();
}

/* callgrind takes stock where this returns. */
static void __attribute__((noinline)) served(const struct pair *pair, const struct way *way) {
  printf("%s\t%s\n", pair->name, way->name);
}

static void serve_side(uint8_t side, size_t count) {
  size_t i, w;
  for (i = 0; i < count; i++) {
    put_together(pairs + i);
    for (w = 0; w < WAYS; w++) {
      serve(pairs + i, ways + w, side, records);
#ifdef MEMCHECK
      check_defined(records);
#endif
      served(pairs + i, ways + w);
    }
  }
}

static void compare_sides(void) {
  size_t i, w;
  unsigned n, all = 0;
  for (i = 0; i < PAIRS; i++) {
    put_together(pairs + i);
    all += messages;
    for (w = 0; w < WAYS; w++) {
      unsigned before = differing;
      serve(pairs + i, ways + w, 0, records);
      serve(pairs + i, ways + w, 1, records + 1);
      compare(pairs + i, records, records + 1);
      expect(pairs[i].state != REEL_ACCEPTED || ways[w].serve == by_run || ways[w].serve == by_forecast ||
                 differing > before,
             "reads that show different bytes");
    }
  }
  for (n = 0; n <= LAST_NUMBER; n++)
    expect((seen[n] > 0) == (n != REEL_TOO_MANY_FRAMES), "every number that a message can get");
  printf("%u pairs of %u messages, in %u ways: %u of %u accepted reads show different bytes\n", (unsigned)PAIRS, all,
         (unsigned)WAYS, differing, reads);
}

int main(int argc, char **argv) {
  if (argc < 2 || argc > 4) return 2;
  sample = argv[1];
  if (argc == 2)
    compare_sides();
  else
    serve_side((uint8_t)(argv[2][0] - '0'), argc == 4 ? (size_t)strtoul(argv[3], NULL, 10) : PAIRS);
  return 0;
}
