/*
 * An interrupt after every instruction of a call, on a stack of its own, which overwrites all that lies farther below
 * the interrupted stack pointer than the library may use by the header. What is given, and all that is lent, is as
 * without interrupts. Compiled with that number of bytes as BELOW, and without a red zone for this file.
 */
#define _GNU_SOURCE
#include "test.h"

#include <reel.h>

#include <signal.h>
#include <string.h>
#include <ucontext.h>

enum { P = 4, S = 4, OVERWRITTEN = 1024 };

/* Messages of every kind, the first ones served before the calls that are interrupted. */
static const uint8_t served[] = {
    0, 4, 1, REEL_KIND_CREATE, 3, 5,         /* station 3, page 5 */
    0, 5, 1, REEL_KIND_MAKE_COPY, 5, 0, 0,   /* page 5, copy 0, to frame 0 */
    0, 5, 1, REEL_KIND_MAKE_COPY, 5, 0, 5,   /* and to frame 5 */
    0, 4, 1, REEL_KIND_SET_CURRENT, 5, 0,    /* page 5, copy 0 */
};
static const uint8_t calls[] = {
    0, 6, 1, REEL_KIND_WRITE, 3, 5, 0, 0x41, /* copy 1 becomes stale */
    0, 6, 1, REEL_KIND_READ, 3, 5, 0, 64,
    0, 3, 1, REEL_KIND_LOOK_PAGE, 5,
    0, 3, 1, REEL_KIND_LOOK_FRAME, 0,
    0, 4, 1, REEL_KIND_SET_CURRENT, 5, 1,    /* refused */
    0, 4, 1, REEL_KIND_REMOVE_CURRENT, 5, 0,
    0, 6, 1, REEL_KIND_GRANT, 3, 5, 4, 2,
    0, 5, 1, REEL_KIND_MAKE_COPY, 5, 0, 6,
    0, 4, 1, REEL_KIND_DELETE_COPY, 5, 1,
    0, 3, 1, REEL_KIND_RETIRE, 7,
    0, 4, 1, REEL_KIND_DELETE_PAGE, 3, 5,
    0, 4, 1, REEL_KIND_CREATE, 3, 6,
    0, 2, 1, REEL_KIND_RETIRE + 1,           /* an unknown kind */
    0, 4, 1,                                 /* cut short */
};

/* All that is lent, and what a call gave. */
struct unit {
  uint8_t tables[REEL_TABLES_SIZE], fast[REEL_FRAME_SIZE * P], slow[REEL_FRAME_SIZE * S], out[4 * REEL_REPLY_SIZE];
  uint32_t tally[REEL_TALLY_SIZE], figures[REEL_FIGURES_SIZE];
  size_t used;
  uint64_t given;
};

static volatile unsigned long interrupts;

static void overwrite(int number, siginfo_t *info, void *context) {
  uint8_t *top = (uint8_t *)((ucontext_t *)context)->uc_mcontext.gregs[REG_RSP] - BELOW;
  (void)number;
  (void)info;
  memset(top - OVERWRITTEN, 0xA5, OVERWRITTEN);
  interrupts++;
}

/* The processor's trap flag: while it is set, an interrupt follows every instruction. */
static void set_trap(void) { __asm__ volatile("pushfq\n\torq $0x100, (%%rsp)\n\tpopfq" ::: "memory", "cc"); }
static void clear_trap(void) { __asm__ volatile("pushfq\n\tandq $~0x100, (%%rsp)\n\tpopfq" ::: "memory", "cc"); }

static void by_version(struct unit *u) { u->given = reel_version(); }
static void by_fresh(struct unit *u) { u->given = reel_fresh(P, S, u->tables, sizeof u->tables); }
static void by_rules(struct unit *u) {
  u->given = reel_rules(u->tables, sizeof u->tables, sizeof u->fast, sizeof u->slow);
}
static void by_read(struct unit *u) {
  u->given = reel_read(u->tables, sizeof u->tables, sizeof u->fast, sizeof u->slow, 3, 5, 1, 4);
}
static void by_answer(struct unit *u) {
  u->given = reel_answer(u->tables, sizeof u->tables, u->fast, sizeof u->fast, u->slow, sizeof u->slow, calls,
                         sizeof calls, u->out, sizeof u->out);
}
static void by_run(struct unit *u) {
  reel_run(u->tables, sizeof u->tables, u->fast, sizeof u->fast, u->slow, sizeof u->slow, calls, sizeof calls, u->out,
           sizeof u->out, u->tally, REEL_TALLY_SIZE);
}
static void by_replies(struct unit *u) {
  u->given = reel_replies(u->tables, sizeof u->tables, u->fast, sizeof u->fast, u->slow, sizeof u->slow, calls,
                          sizeof calls, 0, u->out, sizeof u->out, u->tally, REEL_TALLY_SIZE, &u->used);
}
static void by_forecast(struct unit *u) {
  u->given = reel_forecast(u->tables, sizeof u->tables, calls, sizeof calls, u->figures, REEL_FIGURES_SIZE);
}
static void by_write(struct unit *u) { u->given = reel_write_write(3, 5, 0, calls, 64, u->out, sizeof u->out); }
static void by_read_reply(struct unit *u) {
  u->given = reel_read_reply(REEL_KIND_SET_CURRENT, u->out, sizeof u->out); /* of the last message served */
}

int main(void) {
  static void (*const functions[])(struct unit *) = {by_version, by_fresh,   by_rules,    by_read,  by_answer,
                                                     by_run,     by_replies, by_forecast, by_write, by_read_reply};
  static uint8_t stack[65536];
  static struct unit begun, plain, interrupted;
  stack_t own = {.ss_sp = stack, .ss_size = sizeof stack};
  struct sigaction action = {.sa_sigaction = overwrite, .sa_flags = SA_SIGINFO | SA_ONSTACK};
  size_t i;
  expect(sigaltstack(&own, NULL) == 0 && sigaction(SIGTRAP, &action, NULL) == 0, "a handler on a stack of its own");
  by_fresh(&begun);
  reel_run(begun.tables, sizeof begun.tables, begun.fast, sizeof begun.fast, begun.slow, sizeof begun.slow, served,
           sizeof served, begun.out, sizeof begun.out, begun.tally, REEL_TALLY_SIZE);
  expect(begun.tally[REEL_TALLY_REFUSALS] == 0, "the first messages accepted");
  for (i = 0; i < sizeof functions / sizeof *functions; i++) {
    unsigned long before = interrupts;
    plain = interrupted = begun;
    functions[i](&plain);
    set_trap();
    functions[i](&interrupted);
    clear_trap();
    expect(memcmp(&plain, &interrupted, sizeof plain) == 0, "all as without interrupts");
    expect(interrupts > before + 5, "interrupts");
  }
  printf("%lu interrupts in a call of each function\n", interrupts);
  return 0;
}
