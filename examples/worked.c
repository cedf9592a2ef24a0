/*
 * The worked example of document 01 through every function of reel.h, each reply compared, what deletes leave in the
 * stores, a frame retired, and what the functions answer where something is wrong. After `bash tools/build`:
 *
 *   gcc -std=c99 -I target/reel examples/worked.c target/reel/libreel.a -o target/worked && target/worked
 */
#include <reel.h>

#include <stdio.h>
#include <stdlib.h>
#include <string.h>

enum { P = 4, S = 4, FILLER = 0xA5 };

static const uint8_t calls[] = {
    0, 4, 1, REEL_KIND_CREATE, 3, 5,               /* station 3, page 5 */
    0, 5, 1, REEL_KIND_MAKE_COPY, 5, 0, 0,         /* page 5, copy 0, to frame 0 */
    0, 4, 1, REEL_KIND_SET_CURRENT, 5, 0,          /* page 5, copy 0 */
    0, 7, 1, REEL_KIND_WRITE, 3, 5, 0, 0x41, 0x37, /* station 3, page 5, offset 0, two bytes */
    0, 6, 1, REEL_KIND_READ, 3, 5, 0, 3,           /* station 3, page 5, offset 0, count 3 */
    0, 3, 1, REEL_KIND_LOOK_PAGE, 5,               /* page 5 */
};
static const uint8_t replies[] = {
    0, 4, 1, REEL_ACCEPTED, 0, 0,                /* created */
    0, 4, 1, REEL_ACCEPTED, 0, 64,               /* 64 laid */
    0, 4, 1, REEL_ACCEPTED, 0, 0,                /* current */
    0, 4, 1, REEL_ACCEPTED, 0, 2,                /* 2 laid */
    0, 7, 1, REEL_ACCEPTED, 0, 0, 0x41, 0x37, 0, /* three bytes */
    0, 8, 1, REEL_ACCEPTED, 0, 0, 1, 0, 1, 1,    /* one copy on frame 0, CURRENT and MOST RECENT */
};
enum { MESSAGES = 6, LAID = 66, LAST_REPLY = 10 };

/* All that a unit lends to the kernel. Here each buffer is a block of its own; arrays serve as well. */
struct unit {
  uint8_t *tables, *fast, *slow, *out;
  size_t tables_len, fast_len, slow_len, out_len;
  uint32_t *tally;
};

static void expect(int holds, const char *what) {
  if (!holds) {
    printf("FAILED: %s\n", what);
    exit(1);
  }
}

static uint8_t *lend(size_t length) {
  uint8_t *block = (uint8_t *)malloc(length);
  expect(block != NULL, "memory");
  memset(block, FILLER, length);
  return block;
}

static struct unit fresh_unit(size_t out_len) {
  struct unit u;
  u.tables = lend(u.tables_len = REEL_TABLES_SIZE);
  u.fast = lend(u.fast_len = REEL_FRAME_SIZE * P);
  u.slow = lend(u.slow_len = REEL_FRAME_SIZE * S);
  u.out = lend(u.out_len = out_len);
  u.tally = (uint32_t *)calloc(REEL_TALLY_SIZE, sizeof(uint32_t));
  expect(u.tally != NULL, "memory");
  expect(reel_fresh(P, S, u.tables, u.tables_len) == REEL_ACCEPTED, "fresh tables");
  return u;
}

static void give_up(struct unit u) {
  free(u.tables);
  free(u.fast);
  free(u.slow);
  free(u.out);
  free(u.tally);
}

static uint32_t answer(struct unit u, const uint8_t *message, size_t length) {
  return reel_answer(u.tables, u.tables_len, u.fast, u.fast_len, u.slow, u.slow_len, message, length, u.out, u.out_len);
}

static void run(struct unit u, const uint8_t *file, size_t length) {
  reel_run(u.tables, u.tables_len, u.fast, u.fast_len, u.slow, u.slow_len, file, length, u.out, u.out_len, u.tally,
           REEL_TALLY_SIZE);
}

static size_t part(struct unit u, const uint8_t *file, size_t length, size_t at, size_t *used) {
  return reel_replies(u.tables, u.tables_len, u.fast, u.fast_len, u.slow, u.slow_len, file, length, at, u.out,
                      u.out_len, u.tally, REEL_TALLY_SIZE, used);
}

static unsigned rules(struct unit u) { return reel_rules(u.tables, u.tables_len, u.fast_len, u.slow_len); }

/* Whether the bytes at p are still as they were lent. */
static int untouched(const uint8_t *p, size_t length) {
  while (length > 0 && *p == FILLER) {
    p++;
    length--;
  }
  return length == 0;
}

static void expect_tally(struct unit u) {
  expect(u.tally[REEL_TALLY_MESSAGES] == MESSAGES && u.tally[REEL_TALLY_REFUSALS] == 0 &&
             u.tally[REEL_TALLY_LAID] == LAID,
         "the tally");
}

/* Message by message. */
static void by_answer(void) {
  struct unit u = fresh_unit(REEL_REPLY_SIZE);
  size_t at = 0, said = 0, laid = 0;
  while (at < sizeof calls) {
    uint32_t given;
    size_t size = reel_next(calls + at, sizeof calls - at), length;
    memset(u.out, FILLER, u.out_len);
    given = answer(u, calls + at, size);
    length = reel_answer_length(given);
    expect(reel_answer_number(given) == REEL_ACCEPTED, reel_word(reel_answer_number(given)));
    expect(length == reel_next(replies + said, sizeof replies - said), "answer: the length of the reply");
    expect(memcmp(u.out, replies + said, length) == 0, "answer: the reply");
    expect(untouched(u.out + length, u.out_len - length), "answer: bytes past the reply");
    at += size;
    said += length;
    laid += reel_answer_laid(given);
  }
  expect(said == sizeof replies && laid == LAID, "answer: all replies, all bytes laid");
  give_up(u);
  printf("answer: every reply as due\n");
}

/* The whole file in one call; the last reply is left. */
static void by_run(void) {
  struct unit u = fresh_unit(REEL_REPLY_SIZE);
  run(u, calls, sizeof calls);
  expect(memcmp(u.out, replies + sizeof replies - LAST_REPLY, LAST_REPLY) == 0, "run: the last reply");
  expect(untouched(u.out + LAST_REPLY, u.out_len - LAST_REPLY), "run: bytes past the longest reply");
  expect_tally(u);
  give_up(u);
  printf("run: last reply and tally as due\n");
}

/* In parts: the buffer takes two replies, and is emptied after each call. */
static void by_replies(void) {
  struct unit u = fresh_unit(REEL_REPLY_SIZE + 10);
  size_t at = 0, said = 0, used, parts = 0;
  while (at < sizeof calls) {
    at = part(u, calls, sizeof calls, at, &used);
    expect(said + used <= sizeof replies && memcmp(u.out, replies + said, used) == 0, "replies: each as due");
    said += used;
    parts++;
  }
  expect(at == sizeof calls && said == sizeof replies, "replies: all of them");
  expect_tally(u);
  give_up(u);
  printf("replies: every reply as due, in %u parts\n", (unsigned)parts);
}

/* After power-up the tables are tested; a page can be read where it stands. */
static void in_place(void) {
  /* Page 5 moves to the slow store: copy 0 to frame 5, which becomes CURRENT, and copy 0 is no longer so. */
  static const uint8_t moves[] = {0, 5, 1, REEL_KIND_MAKE_COPY, 5, 0, 5, 0, 4, 1, REEL_KIND_SET_CURRENT, 5, 1,
                                  0, 4, 1, REEL_KIND_REMOVE_CURRENT, 5, 0};
  static const uint8_t grant[] = {0, 6, 1, REEL_KIND_GRANT, 3, 5, 4, 0}; /* station 3, page 5, to station 4, right 0 */
  struct unit u = fresh_unit(REEL_REPLY_SIZE);
  uint32_t place;
  run(u, calls, sizeof calls);
  expect(rules(u) == REEL_ACCEPTED, "the rules hold");

  place = reel_read(u.tables, u.tables_len, u.fast_len, u.slow_len, 3, 5, 1, 2); /* station, page, offset, count */
  expect(reel_read_length(place) == 2 && reel_read_bytes(place, u.fast, u.slow) == u.fast + 1, "a place on frame 0");
  expect(*reel_read_bytes(place, u.fast, u.slow) == 0x37, "its bytes");

  run(u, moves, sizeof moves);
  place = reel_read(u.tables, u.tables_len, u.fast_len, u.slow_len, 3, 5, 1, 2);
  expect(reel_read_bytes(place, u.fast, u.slow) == u.slow + REEL_FRAME_SIZE * (5 - P) + 1, "a place on frame 5");
  expect(*reel_read_bytes(place, u.fast, u.slow) == 0x37, "its bytes");

  /* Every station may read a new page, until the owner takes its right away. */
  expect(reel_read(u.tables, u.tables_len, u.fast_len, u.slow_len, 4, 5, 1, 2) == place, "the same for station 4");
  run(u, grant, sizeof grant);
  expect(reel_read(u.tables, u.tables_len, u.fast_len, u.slow_len, 4, 5, 1, 2) == 0, "station 4 has no right");
  give_up(u);
  printf("in place: the rules hold, page 5 is read in the fast store and in the slow one\n");
}

/* Whether a frame holds zeros alone. */
static int zeros(const uint8_t *frame) {
  size_t i;
  for (i = 0; i < REEL_FRAME_SIZE; i++)
    if (frame[i] != 0) return 0;
  return 1;
}

/* What is deleted is gone from the stores: each frame that becomes free is filled with zeros, and 64 bytes are laid for
   it. */
static void deleted(void) {
  static const uint8_t make_copy[] = {0, 5, 1, REEL_KIND_MAKE_COPY, 5, 0, 5}; /* page 5, copy 0, to frame 5 */
  static const uint8_t delete_copy[] = {0, 4, 1, REEL_KIND_DELETE_COPY, 5, 0};
  static const uint8_t by_another[] = {0, 4, 1, REEL_KIND_DELETE_PAGE, 4, 5}; /* station 4 is not the owner */
  static const uint8_t by_owner[] = {0, 4, 1, REEL_KIND_DELETE_PAGE, 3, 5};
  static const uint8_t create[] = {0, 4, 1, REEL_KIND_CREATE, 3, 5};
  struct unit u = fresh_unit(REEL_REPLY_SIZE);
  const uint8_t *frame0 = u.fast, *frame5 = u.slow + REEL_FRAME_SIZE * (5 - P);
  uint32_t given;
  run(u, calls, sizeof calls);

  expect(answer(u, delete_copy, sizeof delete_copy) == REEL_LAST_RECENT + 256 * REEL_REPLY_HEAD,
         "the only copy is not deleted");
  expect(frame0[0] == 0x41 && frame0[1] == 0x37, "a refused delete leaves its bytes");

  expect(reel_answer_number(answer(u, make_copy, sizeof make_copy)) == REEL_ACCEPTED, "a copy on frame 5");
  given = answer(u, delete_copy, sizeof delete_copy);
  expect(reel_answer_number(given) == REEL_ACCEPTED && reel_answer_laid(given) == REEL_FRAME_SIZE,
         "delete copy: 64 laid");
  expect(u.out[4] == 0 && u.out[5] == REEL_FRAME_SIZE, "delete copy: 64 in the reply");
  expect(zeros(frame0), "delete copy: zeros on frame 0");
  expect(frame5[0] == 0x41 && frame5[1] == 0x37, "delete copy: the other copy keeps its bytes");

  expect(reel_answer_number(answer(u, by_another, sizeof by_another)) == REEL_NO_RIGHT, "delete page: the owner alone");
  expect(frame5[0] == 0x41, "a refused delete leaves its bytes");
  given = answer(u, by_owner, sizeof by_owner);
  expect(reel_answer_number(given) == REEL_ACCEPTED && reel_answer_laid(given) == REEL_FRAME_SIZE,
         "delete page: 64 laid");
  expect(zeros(frame5), "delete page: zeros on frame 5");

  /* Frames that no copy ever had hold what the caller lent; a page without a frame has nothing to clear. */
  expect(untouched(u.fast + REEL_FRAME_SIZE, REEL_FRAME_SIZE * (P - 1)), "frames 1 to 3");
  expect(untouched(u.slow, REEL_FRAME_SIZE), "frame 4");
  expect(untouched(u.slow + 2 * REEL_FRAME_SIZE, REEL_FRAME_SIZE * (S - 2)), "frames 6 and 7");
  expect(reel_answer_number(answer(u, create, sizeof create)) == REEL_ACCEPTED, "page 5 anew");
  expect(reel_answer_laid(answer(u, by_owner, sizeof by_owner)) == 0, "delete page: nothing laid for a null copy");
  expect(untouched(u.fast + REEL_FRAME_SIZE, REEL_FRAME_SIZE * (P - 1)), "frames 1 to 3 again");
  give_up(u);
  printf("deletes: zeros on each frame that they free, and 64 bytes laid for it\n");
}

/* What is wrong is answered by its number; tables and stores remain as they were. */
static void refused(void) {
  static const uint8_t look[] = {0, 3, 1, REEL_KIND_LOOK_PAGE, 5};
  struct unit u = fresh_unit(REEL_REPLY_SIZE), wrong;
  uint8_t *before = lend(u.tables_len), *recent;
  size_t used;
  run(u, calls, sizeof calls);
  memcpy(before, u.tables, u.tables_len);

  expect(reel_answer_number(answer(u, calls, reel_whole_length(calls))) == REEL_PAGE_STANDS, "page 5 created again");
  expect(reel_whole_length(u.out) == REEL_REPLY_HEAD && u.out[3] == REEL_PAGE_STANDS, "the reply of a refusal");
  expect(reel_answer_number(answer(u, look, sizeof look - 1)) == REEL_CUT_SHORT, "a message cut short");

  wrong = u;
  wrong.tables_len--;
  expect(rules(wrong) == REEL_BROKEN_TABLES, "rules: tables of a wrong length");
  expect(reel_answer_number(answer(wrong, look, sizeof look)) == REEL_BROKEN_TABLES, "tables of a wrong length");
  wrong = u;
  wrong.fast_len--;
  expect(rules(wrong) == REEL_MISFIT_STORE, "rules: a store of a wrong length");
  expect(reel_answer_number(answer(wrong, look, sizeof look)) == REEL_MISFIT_STORE, "a store of a wrong length");
  wrong = u;
  wrong.out_len--;
  memset(u.out, FILLER, u.out_len);
  expect(answer(wrong, look, sizeof look) == REEL_SHORT_BUFFER, "a short reply buffer: no reply, nothing laid");
  expect(part(wrong, calls, sizeof calls, 0, &used) == sizeof calls && used == 0, "replies: a short reply buffer");
  expect(u.tally[REEL_TALLY_REFUSALS] == MESSAGES, "replies: every message refused");
  expect(untouched(u.out, u.out_len), "a short reply buffer is left alone");

  /* A mark is 0 or 1. */
  recent = u.tables + REEL_TABLES_PAGES + 5 * REEL_PAGE_SIZE + REEL_PAGE_COPIES + REEL_COPY_RECENT;
  *recent = 2;
  expect(rules(u) == REEL_BROKEN_TABLES, "rules: a mark of 2");
  run(u, look, sizeof look);
  expect(u.out[3] == REEL_BROKEN_TABLES && *recent == 2, "a mark of 2");
  *recent = 1;

  expect(memcmp(u.tables, before, u.tables_len) == 0, "refusals leave the tables as they were");
  expect(reel_fresh(REEL_MOST_FRAMES + 1, S, u.tables, u.tables_len - 1) == REEL_BROKEN_TABLES, "the length first");
  expect(memcmp(u.tables, before, u.tables_len) == 0, "fresh: tables of a wrong length are left alone");
  expect(reel_fresh(REEL_MOST_FRAMES + 1, S, u.tables, u.tables_len) == REEL_TOO_MANY_FRAMES, "too many frames");
  expect(u.tables[REEL_TABLES_P] == 0 && u.tables[REEL_TABLES_S] == 0, "too many frames: tables of no frames");
  free(before);
  give_up(u);
  printf("refusals: each with its number, and nothing changed\n");
}

/* A frame's register entry, low byte first. */
static unsigned entry(struct unit u, unsigned frame) {
  const uint8_t *p = u.tables + REEL_TABLES_REGISTER + REEL_ENTRY_SIZE * frame;
  return p[0] + 256u * p[1];
}

/* The register names the copy on a frame. Where it names another the tables are broken, and every byte remains as it
   was. */
static void wrong_register(void) {
  static const uint8_t look[] = {0, 3, 1, REEL_KIND_LOOK_FRAME, 0};
  struct unit u = fresh_unit(REEL_REPLY_SIZE), before = fresh_unit(REEL_REPLY_SIZE);
  run(u, calls, sizeof calls);
  expect(entry(u, 0) == REEL_MOST_COPIES * 5 + 0, "page 5, copy 0 is on frame 0");
  expect(entry(u, 1) == REEL_FREE_ENTRY && entry(u, REEL_REGISTER_ENTRIES - 1) == REEL_FREE_ENTRY,
         "no other frame is held");

  u.tables[REEL_TABLES_REGISTER]++;
  expect(entry(u, 0) == REEL_MOST_COPIES * 5 + 1, "copy 1 is named");
  memcpy(before.tables, u.tables, u.tables_len);
  memcpy(before.fast, u.fast, u.fast_len);
  memcpy(before.slow, u.slow, u.slow_len);
  expect(rules(u) == REEL_BROKEN_TABLES, "rules: a wrong register");
  expect(reel_answer_number(answer(u, look, sizeof look)) == REEL_BROKEN_TABLES, "a wrong register");
  run(u, calls, sizeof calls);
  expect(u.tally[REEL_TALLY_REFUSALS] == MESSAGES, "run: a wrong register");
  expect(memcmp(u.tables, before.tables, u.tables_len) == 0, "a wrong register: the tables");
  expect(memcmp(u.fast, before.fast, u.fast_len) == 0, "a wrong register: the fast store");
  expect(memcmp(u.slow, before.slow, u.slow_len) == 0, "a wrong register: the slow store");

  u.tables[REEL_TABLES_REGISTER]--;
  expect(rules(u) == REEL_ACCEPTED, "rules: the register put right");
  give_up(before);
  give_up(u);
  printf("register: a wrong register entry is answered as broken tables, and nothing changed\n");
}

/* Puts an entry into the register of tables, low byte first. */
static void enter(uint8_t *tables, unsigned frame, unsigned value) {
  uint8_t *p = tables + REEL_TABLES_REGISTER + REEL_ENTRY_SIZE * frame;
  p[0] = (uint8_t)(value % 256);
  p[1] = (uint8_t)(value / 256);
}

/* An entry that breaks the tables: everything is refused, and the entry remains. */
static void wrong_entry(struct unit u, unsigned frame, unsigned value, const char *what) {
  static const uint8_t look[] = {0, 3, 1, REEL_KIND_LOOK_FRAME, 5};
  unsigned before = entry(u, frame);
  enter(u.tables, frame, value);
  expect(rules(u) == REEL_BROKEN_TABLES, what);
  expect(reel_answer_number(answer(u, look, sizeof look)) == REEL_BROKEN_TABLES, what);
  expect(entry(u, frame) == value, what);
  enter(u.tables, frame, before);
  expect(rules(u) == REEL_ACCEPTED, "the entry put right");
}

/* A frame of the card is worn out: retired, it never takes a copy again. */
static void retired(void) {
  static const uint8_t retire[] = {0, 3, 1, REEL_KIND_RETIRE, 5}, retire_held[] = {0, 3, 1, REEL_KIND_RETIRE, 0};
  static const uint8_t retire_none[] = {0, 3, 1, REEL_KIND_RETIRE, P + S};
  static const uint8_t look[] = {0, 3, 1, REEL_KIND_LOOK_FRAME, 5}, shown[] = {2, 255, 255};
  static const uint8_t make_copy[] = {0, 5, 1, REEL_KIND_MAKE_COPY, 5, 0, 5}; /* page 5, copy 0, to frame 5 */
  static const uint8_t no_copy[] = {0, 5, 1, REEL_KIND_MAKE_COPY, 5, 1, 5};   /* page 5 has no copy 1 */
  struct unit u = fresh_unit(REEL_REPLY_SIZE);
  uint8_t *before = lend(u.tables_len);
  int i;
  run(u, calls, sizeof calls);
  memcpy(before, u.tables, u.tables_len);
  expect(reel_answer_number(answer(u, retire_none, sizeof retire_none)) == REEL_OUT_OF_RANGE,
         "the unit has no frame 8");
  expect(reel_answer_number(answer(u, retire_held, sizeof retire_held)) == REEL_FRAME_HELD,
         "frame 0, which page 5 is on");
  expect(memcmp(u.tables, before, u.tables_len) == 0, "a refused retire leaves the tables as they were");

  /* The second time it is accepted too, and changes nothing. */
  enter(before, 5, REEL_RETIRED_ENTRY);
  for (i = 0; i < 2; i++) {
    expect(answer(u, retire, sizeof retire) == REEL_ACCEPTED + 256 * REEL_REPLY_HEAD, "retired: nothing laid, no data");
    expect(memcmp(u.tables, before, u.tables_len) == 0, "retired: its entry alone");
  }
  expect(untouched(u.slow, u.slow_len), "retired: its bytes remain");
  expect(reel_answer_number(answer(u, look, sizeof look)) == REEL_ACCEPTED, "a look at it");
  expect(reel_whole_length(u.out) == REEL_REPLY_HEAD + sizeof shown, "the length of a look");
  expect(memcmp(u.out + REEL_REPLY_HEAD, shown, sizeof shown) == 0, "a look shows it as retired");
  expect(reel_answer_number(answer(u, no_copy, sizeof no_copy)) == REEL_NO_COPY, "no copy comes before retired");
  expect(reel_answer_number(answer(u, make_copy, sizeof make_copy)) == REEL_RETIRED, "no copy is made on it");
  expect(memcmp(u.tables, before, u.tables_len) == 0 && untouched(u.slow, u.slow_len), "refused: all as it was");

  wrong_entry(u, 5, REEL_RETIRED_ENTRY - 1, "an entry of neither");
  wrong_entry(u, P + S, REEL_RETIRED_ENTRY, "retired past the last frame");
  wrong_entry(u, REEL_REGISTER_ENTRIES - 1, REEL_RETIRED_ENTRY, "the last frame number retired");
  wrong_entry(u, 0, REEL_RETIRED_ENTRY, "a frame retired that a copy is on");
  free(before);
  give_up(u);
  printf("retired: a frame takes no copy again, and a wrong entry is answered as broken tables\n");
}

int main(void) {
  expect(reel_version() == REEL_VERSION, "header and library are of one version");
  by_answer();
  by_run();
  by_replies();
  in_place();
  deleted();
  refused();
  wrong_register();
  retired();
  return 0;
}
