/*
 * A planner's question before a shift change: does tomorrow's list of calls fit on so many frames? It is asked of the
 * unit's tables alone, on a machine that has no store. Then the unit runs the list, and comes to the same figures.
 * After `bash tools/build`:
 *
 *   gcc -std=c99 -I target/reel examples/forecast.c target/reel/libreel.a -o target/forecast && target/forecast
 */
#include <reel.h>

#include <stdio.h>
#include <stdlib.h>
#include <string.h>

enum { P = 4, S = 4, LIST_MOST = 16 * REEL_MESSAGE_SIZE };

/* The unit. A planner has a copy of its tables, and nothing else of it. */
static uint8_t tables[REEL_TABLES_SIZE], fast[REEL_FRAME_SIZE * P], slow[REEL_FRAME_SIZE * S], out[REEL_REPLY_SIZE];
static uint32_t tally[REEL_TALLY_SIZE];

/* A list of calls: a call file in the making. */
struct list {
  uint8_t file[LIST_MOST];
  size_t length;
};

static void expect(int holds, const char *what) {
  if (!holds) {
    printf("FAILED: %s\n", what);
    exit(1);
  }
}

/* Where the next call of a list is written, and how many bytes are left for it. */
static uint8_t *next(struct list *l) { return l->file + l->length; }
static size_t left(const struct list *l) { return sizeof l->file - l->length; }

/* Takes on what was written there. */
static void take(struct list *l, uint32_t written) {
  expect(reel_written_number(written) == REEL_ACCEPTED, reel_word(reel_written_number(written)));
  l->length += reel_written_length(written);
}

static void run(const struct list *l) {
  memset(tally, 0, sizeof tally);
  reel_run(tables, sizeof tables, fast, sizeof fast, slow, sizeof slow, l->file, l->length, out, sizeof out, tally,
           REEL_TALLY_SIZE);
}

/* Today: page 5 of station 3 on frames 0 and 4; frame 7 is worn out. */
static void run_today(void) {
  static struct list today;
  expect(reel_fresh(P, S, tables, sizeof tables) == REEL_ACCEPTED, "fresh tables");
  take(&today, reel_write_create(3, 5, next(&today), left(&today)));
  take(&today, reel_write_make_copy(5, 0, 0, next(&today), left(&today)));
  take(&today, reel_write_make_copy(5, 0, 4, next(&today), left(&today)));
  take(&today, reel_write_retire(7, next(&today), left(&today)));
  run(&today);
  expect(tally[REEL_TALLY_REFUSALS] == 0, "today's list accepted");
}

/* Tomorrow: page 6 on three frames, and page 5 moves from frame 0 to frame 2. One call names the worn-out frame. */
static void write_tomorrow(struct list *l) {
  static const uint8_t two_bytes[] = {0x41, 0x37};
  take(l, reel_write_create(3, 6, next(l), left(l)));
  take(l, reel_write_make_copy(6, 0, 1, next(l), left(l))); /* three frames are held after it */
  take(l, reel_write_make_copy(6, 0, 5, next(l), left(l))); /* four */
  take(l, reel_write_make_copy(5, 0, 2, next(l), left(l))); /* five */
  take(l, reel_write_make_copy(6, 0, 6, next(l), left(l))); /* six */
  take(l, reel_write_make_copy(6, 0, 7, next(l), left(l))); /* refused: frame 7 is retired */
  take(l, reel_write_delete_copy(5, 0, next(l), left(l)));  /* five, and so at the end */
  take(l, reel_write_set_current(6, 0, next(l), left(l)));
  take(l, reel_write_write(3, 6, 0, two_bytes, sizeof two_bytes, next(l), left(l)));
}

/* The planner: whether a list fits on so many frames, and how many of its messages would be refused. */
static int fits(const struct list *l, unsigned frames) {
  uint32_t figures[REEL_FIGURES_SIZE];
  unsigned number = reel_forecast(tables, sizeof tables, l->file, l->length, figures, REEL_FIGURES_SIZE);
  expect(number == REEL_ACCEPTED, reel_word(number));
  for (number = 1; number < REEL_NUMBERS; number++)
    if (reel_forecast_count(figures, number) != 0)
      printf("%lu refused: %u %s\n", (unsigned long)reel_forecast_count(figures, number), number, reel_word(number));
  printf("%u frames at the most, %lu bytes laid: %s on %u frames\n", reel_forecast_most(figures),
         (unsigned long)reel_forecast_laid(figures), reel_forecast_most(figures) <= frames ? "fits" : "does not fit",
         frames);
  return reel_forecast_most(figures) <= frames;
}

/* The run has the figures that were forecast. */
static void run_as_forecast(const struct list *l) {
  uint32_t figures[REEL_FIGURES_SIZE];
  reel_forecast(tables, sizeof tables, l->file, l->length, figures, REEL_FIGURES_SIZE);
  expect(reel_forecast_most(figures) == 6 && reel_forecast_laid(figures) == 5 * REEL_FRAME_SIZE + 2, "the figures");
  expect(reel_forecast_count(figures, REEL_RETIRED) == 1 && reel_forecast_refused(figures) == 1, "one refusal");
  run(l);
  expect(tally[REEL_TALLY_MESSAGES] == reel_forecast_count(figures, REEL_ACCEPTED) + reel_forecast_refused(figures),
         "every message");
  expect(tally[REEL_TALLY_REFUSALS] == reel_forecast_refused(figures), "the refusals of the run");
  expect(tally[REEL_TALLY_LAID] == reel_forecast_laid(figures), "the bytes laid by the run");
}

/* Where the tables are broken there is no forecast: every figure is 0. */
static void broken(const struct list *l) {
  uint32_t figures[REEL_FIGURES_SIZE];
  unsigned i;
  memset(figures, 0xA5, sizeof figures);
  tables[REEL_TABLES_P] = REEL_MOST_FRAMES + 1;
  expect(reel_forecast(tables, sizeof tables, l->file, l->length, figures, REEL_FIGURES_SIZE) == REEL_BROKEN_TABLES,
         "broken tables");
  for (i = 0; i < REEL_FIGURES_SIZE; i++) expect(figures[i] == 0, "figures of broken tables");
  tables[REEL_TABLES_P] = P;
}

int main(void) {
  static struct list tomorrow;
  static uint8_t before[REEL_TABLES_SIZE];
  run_today();
  write_tomorrow(&tomorrow);
  memcpy(before, tables, sizeof tables);
  expect(fits(&tomorrow, 6), "it fits on six frames");
  expect(!fits(&tomorrow, 5), "it does not fit on five, though five are held at its end");
  broken(&tomorrow);
  expect(memcmp(before, tables, sizeof tables) == 0, "a forecast leaves the tables as they were");
  run_as_forecast(&tomorrow);
  return 0;
}
