/*
 * For tools/footprint: serves messages on full tables, by the function that is named: reel_answer, or reel_replies,
 * with a grant before each message in the same call. Prints a line for each call of that function, in order, so that a
 * count of its instructions finds its message.
 */
#include <reel.h>

#include <stdio.h>
#include <stdlib.h>
#include <string.h>

enum { FRAMES = 2 * REEL_MOST_FRAMES, STORE = REEL_FRAME_SIZE * REEL_MOST_FRAMES, LAST = REEL_PAGES - 1 };

struct unit {
  uint8_t tables[REEL_TABLES_SIZE], fast[STORE], slow[STORE], out[2 * REEL_REPLY_SIZE];
  uint32_t tally[REEL_TALLY_SIZE];
};

/* A message, its arguments and what it is called. */
struct call {
  const char *name;
  uint8_t kind, arguments[4], count;
};

static struct unit full, unit;

/* Station 3 grants station 4 to write page 0, which it may read already; a message follows. */
enum { GRANT = 8 };
static uint8_t file[GRANT + REEL_MESSAGE_SIZE] = {0, GRANT - 2, REEL_MESSAGE_VERSION, REEL_KIND_GRANT, 3, 0, 4, 2};
static uint8_t *const second = file + GRANT;

/* Lays out a message behind the grant; a write gets 64 bytes. */
static size_t message(const struct call *c) {
  size_t length = 4 + (size_t)c->count;
  memcpy(second + 4, c->arguments, c->count);
  if (c->kind == REEL_KIND_WRITE) {
    memset(second + length, 0x37, REEL_FRAME_SIZE);
    length += REEL_FRAME_SIZE;
  }
  second[0] = 0;
  second[1] = (uint8_t)(length - 2);
  second[2] = REEL_MESSAGE_VERSION;
  second[3] = c->kind;
  return length;
}

static void move(uint8_t kind, uint8_t count, uint8_t a, uint8_t b, uint8_t c) {
  struct call call = {"", kind, {a, b, c, 0}, count};
  size_t length = message(&call);
  reel_run(full.tables, sizeof full.tables, full.fast, sizeof full.fast, full.slow, sizeof full.slow, second, length,
           full.out, sizeof full.out, full.tally, REEL_TALLY_SIZE);
}

/* 64 pages on all frames but the last one, every copy CURRENT but the last page's last, which a write makes stale: the
   last page has n copies, the first `deep` ones have eight, and the others share what is left; without a frame, a page
   has its null copy. */
static void fill(int n, int deep) {
  int left = FRAMES - 1 - n - 8 * deep, others = REEL_PAGES - 1 - deep, frame = 0, p, i;
  memset(&full, 0, sizeof full);
  reel_fresh(REEL_MOST_FRAMES, REEL_MOST_FRAMES, full.tables, sizeof full.tables);
  for (p = 0; p < REEL_PAGES; p++) {
    int copies = n;
    if (p < deep) {
      copies = 8;
    } else if (p < LAST) {
      copies = (left + others - 1) / others;
      left -= copies;
      others--;
    }
    move(REEL_KIND_CREATE, 2, 3, (uint8_t)p, 0);
    for (i = 0; i < copies; i++) move(REEL_KIND_MAKE_COPY, 3, (uint8_t)p, 0, (uint8_t)frame++);
    for (i = 0; i < (p == LAST && n > 1 ? n - 1 : copies); i++)
      move(REEL_KIND_SET_CURRENT, 2, (uint8_t)p, (uint8_t)i, 0);
  }
  if (frame != FRAMES - 1 || full.tally[REEL_TALLY_REFUSALS] != 0) {
    printf("the tables are not full: %d frames, %u refusals\n", frame, (unsigned)full.tally[REEL_TALLY_REFUSALS]);
    exit(1);
  }
}

static void report(int n, int deep, const char *name, const char *word) {
  printf("%d pages with 8 copies, last page with %d: %s, %s\n", deep, n, name, word);
}

static void by_answer(int n, int deep, const char *name, size_t length) {
  unit = full;
  reel_answer(unit.tables, sizeof unit.tables, unit.fast, sizeof unit.fast, unit.slow, sizeof unit.slow, second, length,
              unit.out, sizeof unit.out);
  report(n, deep, name, reel_word(unit.out[3]));
}

static void by_replies(int n, int deep, const char *name, size_t length) {
  size_t used;
  unit = full;
  reel_replies(unit.tables, sizeof unit.tables, unit.fast, sizeof unit.fast, unit.slow, sizeof unit.slow, file,
               GRANT + length, 0, unit.out, sizeof unit.out, unit.tally, REEL_TALLY_SIZE, &used);
  report(n, deep, name, reel_word(unit.out[used > REEL_REPLY_HEAD ? REEL_REPLY_HEAD + 3 : 3]));
}

/* Every message on tables of this shape. */
static void serve_all(const char *by, int n, int deep) {
  static const struct call calls[] = {
      {"create", REEL_KIND_CREATE, {3, LAST}, 2},
      {"delete page", REEL_KIND_DELETE_PAGE, {3, LAST}, 2},
      {"grant", REEL_KIND_GRANT, {3, LAST, 4, 1}, 4},
      {"read of 64 bytes", REEL_KIND_READ, {3, LAST, 0, 64}, 4},
      {"write of 64 bytes", REEL_KIND_WRITE, {3, LAST, 0}, 3},
      {"make copy on the last frame", REEL_KIND_MAKE_COPY, {LAST, 0, FRAMES - 1}, 3},
      {"make copy on the frame before it", REEL_KIND_MAKE_COPY, {LAST, 0, FRAMES - 2}, 3},
      {"delete copy", REEL_KIND_DELETE_COPY, {LAST, 0}, 2},
      {"set current", REEL_KIND_SET_CURRENT, {LAST, 7}, 2},
      {"remove current", REEL_KIND_REMOVE_CURRENT, {LAST, 6}, 2},
      {"look at page", REEL_KIND_LOOK_PAGE, {LAST}, 1},
      {"look at the last frame", REEL_KIND_LOOK_FRAME, {FRAMES - 1}, 1},
      {"retire the last frame", REEL_KIND_RETIRE, {FRAMES - 1}, 1},
      {"retire the frame before it", REEL_KIND_RETIRE, {FRAMES - 2}, 1},
  };
  int alone = strcmp(by, "reel_answer") == 0;
  size_t i;
  fill(n, deep);
  if (!alone) by_replies(n, deep, "a call with one grant", 0);
  for (i = 0; i < sizeof calls / sizeof *calls; i++)
    (alone ? by_answer : by_replies)(n, deep, calls[i].name, message(&calls[i]));
}

int main(int argc, char **argv) {
  int n;
  if (argc != 2) return 1;
  for (n = 1; n <= REEL_MOST_COPIES; n++) {
    serve_all(argv[1], n, 0);
    serve_all(argv[1], n, (FRAMES - 1 - n) / REEL_MOST_COPIES);
  }
  return 0;
}
