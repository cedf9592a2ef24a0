/*
 * Walks call files and their replies by the lengths that stand in them, through reel_replies and the reply reader:
 * every number that a reply can carry, unknown kinds, foreign versions, and the file cut off at each of its bytes; on
 * sound tables, on broken ones and with a store of a wrong length; with buffers for one reply, for some and for all.
 * The places that reel_replies gives are held against the lengths by which the walk goes on.
 */
#include "calls.h"
#include "test.h"

#include <reel.h>

#include <string.h>

enum { P = 5, S = 5 };

static uint8_t tables[REEL_TABLES_SIZE], fast[REEL_FRAME_SIZE * P], slow[REEL_FRAME_SIZE * S], out[8192];
static unsigned seen[LAST_NUMBER + 1], walked, unread; /* replies by their number, all, and those of unknown kinds */

/* What the unit turns back, 7 to 17 and 20, among messages that it accepts. */
static void turned_back(void) {
  uint8_t frame;
  call(REEL_ACCEPTED, REEL_KIND_CREATE, 2, 3, 5, 0, 0);
  call(REEL_OUT_OF_RANGE, REEL_KIND_CREATE, 2, REEL_STATIONS, 6, 0, 0);
  call(REEL_PAGE_STANDS, REEL_KIND_CREATE, 2, 3, 5, 0, 0);
  call(REEL_NO_PAGE, REEL_KIND_READ, 4, 3, 6, 0, 1);
  call(REEL_NO_RIGHT, REEL_KIND_DELETE_PAGE, 2, 4, 5, 0, 0);
  call(REEL_NOTHING_CURRENT, REEL_KIND_READ, 4, 3, 5, 0, 1);
  call(REEL_NO_COPY, REEL_KIND_SET_CURRENT, 2, 5, 1, 0, 0);
  call(REEL_NO_FRAME, REEL_KIND_SET_CURRENT, 2, 5, 0, 0, 0);
  call(REEL_LAST_RECENT, REEL_KIND_DELETE_COPY, 2, 5, 0, 0, 0);
  call(REEL_ACCEPTED, REEL_KIND_RETIRE, 1, P + S - 1, 0, 0, 0);
  call(REEL_RETIRED, REEL_KIND_MAKE_COPY, 3, 5, 0, P + S - 1, 0);
  for (frame = 0; frame < REEL_MOST_COPIES; frame++) call(REEL_ACCEPTED, REEL_KIND_MAKE_COPY, 3, 5, 0, frame, 0);
  call(REEL_FRAME_HELD, REEL_KIND_RETIRE, 1, 0, 0, 0, 0);
  call(REEL_EIGHT_COPIES, REEL_KIND_MAKE_COPY, 3, 5, 0, REEL_MOST_COPIES, 0);
  call(REEL_ACCEPTED, REEL_KIND_SET_CURRENT, 2, 5, 0, 0, 0);
  call(REEL_ACCEPTED, REEL_KIND_WRITE, 4, 3, 5, 0, 0x41);
  call(REEL_STALE, REEL_KIND_SET_CURRENT, 2, 5, 1, 0, 0);
  call(REEL_ACCEPTED, REEL_KIND_READ, 4, 3, 5, 0, REEL_FRAME_SIZE);
  call(REEL_ACCEPTED, REEL_KIND_LOOK_PAGE, 1, 5, 0, 0, 0);
  call(REEL_ACCEPTED, REEL_KIND_LOOK_FRAME, 1, P + S - 1, 0, 0, 0);
  call(REEL_ACCEPTED, REEL_KIND_REMOVE_CURRENT, 2, 5, 0, 0, 0);
  call(REEL_ACCEPTED, REEL_KIND_GRANT, 4, 3, 5, 4, 1);
  call(REEL_ACCEPTED, REEL_KIND_DELETE_PAGE, 2, 3, 5, 0, 0);
}

/* What message m of a file with this end is answered. */
static unsigned due(unsigned m, size_t end, unsigned state) {
  return end < starts[m + 1] ? REEL_CUT_SHORT : number_in(m, state);
}

/* A reply among so many bytes that are left: the reader tells its number and its end, for an unknown kind nothing. */
static void read_one(uint8_t kind, unsigned number, const uint8_t *reply, size_t left) {
  uint64_t told = reel_read_reply(kind, reply, left);
  unsigned other;
  if (kind < REEL_KIND_CREATE || kind > KINDS) {
    expect(told == REEL_UNKNOWN_KIND, "a reply to an unknown kind is refused 3, with zeros");
    unread++;
  } else {
    expect(reel_reply_refused(told) == REEL_ACCEPTED && reel_reply_number(told) == number, "the number of a reply");
    expect(reel_reply_start(told) + reel_reply_length(told) == reel_next(reply, left), "the end of a reply");
  }
  for (other = REEL_KIND_CREATE; number != REEL_ACCEPTED && other <= KINDS; other++)
    expect(reel_reply_number(reel_read_reply((uint8_t)other, reply, left)) == number, "a refusal, read for any kind");
  seen[number]++;
  walked++;
}

/* Makes fresh tables, wrong ones for 5, and gives the length of the fast store to lend, a wrong one for 6. */
static size_t made(unsigned state) {
  expect(reel_fresh(P, S, tables, sizeof tables) == REEL_ACCEPTED, "fresh tables");
  if (state == REEL_BROKEN_TABLES) tables[REEL_TABLES_REGISTER] ^= 1;
  return sizeof fast - (state == REEL_MISFIT_STORE);
}

/* The file up to this end, its messages and replies walked side by side. */
static void walk(size_t end, unsigned state, size_t room) {
  uint32_t tally[REEL_TALLY_SIZE] = {0};
  size_t fast_len = made(state), place = 0, at = 0, used, said;
  unsigned m = 0;
  while (place < end) {
    place = reel_replies(tables, sizeof tables, fast, fast_len, slow, sizeof slow, file, end, place, out, room, tally,
                         REEL_TALLY_SIZE, &used);
    for (said = 0; said < used; said += reel_next(out + said, used - said)) {
      size_t size = reel_next(file + at, end - at);
      expect(at == starts[m], "the walk meets each message");
      read_one(size > 3 ? file[at + 3] : 0, due(m, end, state), out + said, used - said);
      at += size;
      m++;
    }
    expect(said == used && at == place, "the walk is where reel_replies is");
  }
  expect(at == end && m == tally[REEL_TALLY_MESSAGES], "as many replies as messages");
}

/* A buffer below 70 bytes gets no reply, so there is nothing to walk; each message counts as refused, 18. */
static void short_slip(void) {
  uint32_t tally[REEL_TALLY_SIZE] = {0};
  size_t used, at;
  unsigned m = 0;
  made(REEL_ACCEPTED);
  expect(reel_replies(tables, sizeof tables, fast, sizeof fast, slow, sizeof slow, file, length, 0, out,
                      REEL_REPLY_SIZE - 1, tally, REEL_TALLY_SIZE, &used) == length && used == 0, "a short buffer");
  for (at = 0; at < length; at += reel_next(file + at, length - at)) m++;
  expect(m == messages && m == tally[REEL_TALLY_REFUSALS], "each message refused");
}

/* Replies that no unit of this version sends: each number, listed or not, and each version, walked all the same. */
static void any_reply(void) {
  uint8_t all[256 * REEL_REPLY_HEAD];
  unsigned version, n;
  for (version = 0; version < 3; version++) {
    size_t said = 0;
    for (n = 0; n < 256; n++) {
      const uint8_t head[REEL_REPLY_HEAD] = {0, REEL_REPLY_HEAD - 2, (uint8_t)version, (uint8_t)n, 0, 0};
      memcpy(all + n * REEL_REPLY_HEAD, head, REEL_REPLY_HEAD);
    }
    for (n = 0; said < sizeof all; said += reel_next(all + said, sizeof all - said), n++) {
      if (version != REEL_MESSAGE_VERSION)
        expect(reel_read_reply(REEL_KIND_CREATE, all + said, sizeof all - said) == REEL_FOREIGN_VERSION, "its version");
      else if (n > LAST_NUMBER)
        expect(reel_read_reply(REEL_KIND_CREATE, all + said, sizeof all - said) == REEL_WRONG_LENGTH, "not a number");
      else
        read_one(REEL_KIND_CREATE, n, all + said, sizeof all - said);
    }
    expect(n == 256, "each reply met");
  }
}

/* Every length, with fewer bytes left than it says, as many, and more; no byte is read that is not left. */
static void any_length(void) {
  unsigned l;
  for (l = 0; l < 65536; l++) {
    const uint8_t two[2] = {(uint8_t)(l / 256), (uint8_t)(l % 256)};
    expect(reel_whole_length(two) == 2 + (size_t)l, "a whole length");
    expect(reel_next(two, 1 + (size_t)l) == 1 + (size_t)l, "one byte is missing");
    expect(reel_next(two, 2 + (size_t)l) == 2 + (size_t)l, "all are there");
    expect(reel_next(two, 3 + (size_t)l) == 2 + (size_t)l, "one byte more");
    expect(reel_next(two, SIZE_MAX) == 2 + (size_t)l, "any number more");
    expect(reel_next(two + 1, 1) == 1 && reel_next(two + 2, 0) == 0, "fewer than two bytes");
  }
}

int main(void) {
  static const unsigned states[] = {REEL_ACCEPTED, REEL_BROKEN_TABLES, REEL_MISFIT_STORE};
  static const size_t rooms[] = {REEL_REPLY_SIZE, 3 * REEL_REPLY_SIZE, sizeof out};
  size_t end, i, k;
  unsigned n;
  ill_formed();
  turned_back();
  starts[messages] = length;
  for (end = 0; end <= length; end++)
    for (i = 0; i < 3; i++)
      for (k = 0; k < 3; k++) walk(end, states[i], rooms[k]);
  for (n = 0; n <= LAST_NUMBER; n++)
    expect((seen[n] > 0) == (n != REEL_SHORT_BUFFER && n != REEL_TOO_MANY_FRAMES),
           "every number that a reply can carry");
  expect(unread > 0, "replies to unknown kinds");
  short_slip();
  any_reply();
  any_length();
  printf("%u messages in %u bytes, cut at each: %u replies walked, %u of them to unknown kinds\n", messages,
         (unsigned)length, walked, unread);
  return 0;
}
