/*
 * Lends every buffer flush against memory that may be neither read nor written, before it or behind it, and what is
 * const in memory that may only be read. So the processor stops any access of the library outside what it is lent,
 * which no instrumentation of this file could see. The same file is served message by message, in one run and in parts,
 * and all that is left is compared; it is forecast too, and the figures are those that its messages came to. Of each
 * delete it is tested what it leaves in the lent stores: zeros in the frames that it frees, by the register, and every
 * other byte as it was; of each retire that it sets the mark of its frame and changes nothing else. Each message that
 * is a call is written again, and each reply read where nothing follows it. The messages of every closed page are
 * written too. Messages and sizes follow from a seed.
 */
#define _DEFAULT_SOURCE
#include "random.h"
#include "test.h"

#include <reel.h>

#include <string.h>
#include <sys/mman.h>

enum { PAGE = 4096, FILLER = 0xA5, STORE_MOST = REEL_FRAME_SIZE * REEL_MOST_FRAMES };
enum { MESSAGES = 4000, FILE_MOST = MESSAGES * REEL_MESSAGE_SIZE, REPLIES_MOST = MESSAGES * REEL_REPLY_SIZE };

/* Readable memory between two fences. */
struct block {
  uint8_t *start;
  size_t room;
};

/* What is lent: tables, stores, reply buffer, tally, figures and the number of bytes used. */
struct unit {
  struct block tables, fast, slow, out, tally, figures, used;
  size_t fast_len, slow_len;
};

static int behind;    /* whether the fence stands behind the buffers, or before them */
static uint32_t frames; /* so many frames may be named */
static unsigned freed;  /* so many frames were seen freed */
static unsigned again;  /* so many messages were written again */
static unsigned marked; /* so many frames were seen retired */

static struct block fenced(size_t least) {
  struct block b;
  uint8_t *all;
  b.room = (least + PAGE - 1) / PAGE * PAGE;
  all = (uint8_t *)mmap(NULL, b.room + 2 * PAGE, PROT_NONE, MAP_PRIVATE | MAP_ANONYMOUS, -1, 0);
  expect(all != MAP_FAILED, "memory");
  b.start = all + PAGE;
  expect(mprotect(b.start, b.room, PROT_READ | PROT_WRITE) == 0, "memory");
  return b;
}

/* A buffer of this length in the block. */
static uint8_t *part(struct block b, size_t length) { return behind ? b.start + b.room - length : b.start; }

static uint32_t *tally_of(struct unit u, size_t length) { return (uint32_t *)part(u.tally, length * sizeof(uint32_t)); }

static uint32_t *figures_of(struct unit u, size_t length) {
  return (uint32_t *)part(u.figures, length * sizeof(uint32_t));
}

/* These bytes, where they may only be read. */
static const uint8_t *sealed(struct block b, const uint8_t *bytes, size_t length) {
  expect(mprotect(b.start, b.room, PROT_READ | PROT_WRITE) == 0, "memory");
  memcpy(part(b, length), bytes, length);
  expect(mprotect(b.start, b.room, PROT_READ) == 0, "memory");
  return part(b, length);
}

static struct unit make_unit(void) {
  struct unit u;
  u.tables = fenced(PAGE);
  u.fast = fenced(2 * PAGE);
  u.slow = fenced(2 * PAGE);
  u.out = fenced(PAGE);
  u.tally = fenced(PAGE);
  u.figures = fenced(PAGE);
  u.used = fenced(PAGE);
  u.fast_len = u.slow_len = 0;
  return u;
}

static void make_fresh(struct unit *u, uint8_t p, uint8_t s) {
  u->fast_len = REEL_FRAME_SIZE * (size_t)p;
  u->slow_len = REEL_FRAME_SIZE * (size_t)s;
  expect(reel_fresh(p, s, part(u->tables, REEL_TABLES_SIZE), REEL_TABLES_SIZE) == REEL_ACCEPTED, "fresh tables");
  memset(u->fast.start, FILLER, u->fast.room);
  memset(u->slow.start, FILLER, u->slow.room);
  memset(u->tally.start, 0, u->tally.room);
}

static uint32_t answer(struct unit u, const uint8_t *sent, size_t length) {
  return reel_answer(part(u.tables, REEL_TABLES_SIZE), REEL_TABLES_SIZE, part(u.fast, u.fast_len), u.fast_len,
                     part(u.slow, u.slow_len), u.slow_len, sent, length, part(u.out, REEL_REPLY_SIZE), REEL_REPLY_SIZE);
}

/* A read as a place has the bytes of the read as a message, and is empty where that one is refused. */
static void read_alike(struct unit u, struct block lent, const uint8_t *m, uint32_t answered) {
  const uint8_t *tables = sealed(lent, part(u.tables, REEL_TABLES_SIZE), REEL_TABLES_SIZE);
  uint32_t place = reel_read(tables, REEL_TABLES_SIZE, u.fast_len, u.slow_len, m[4], m[5], m[6], m[7]);
  if (reel_answer_number(answered) == REEL_ACCEPTED) {
    const uint8_t *bytes = reel_read_bytes(place, part(u.fast, u.fast_len), part(u.slow, u.slow_len));
    expect(reel_read_length(place) == m[7] && memcmp(bytes, part(u.out, REEL_REPLY_SIZE) + REEL_REPLY_HEAD, m[7]) == 0,
           "a read as a place");
  } else {
    expect(place == 0, "a refused read as a place");
  }
}

/* Writes a call of this kind into so many bytes: past the message, or anywhere if it is refused, they remain as they
   were. */
static uint32_t write_into(uint8_t *out, size_t room, uint8_t kind, const uint8_t arguments[4], const uint8_t *bytes,
                           size_t count) {
  uint32_t written;
  size_t i;
  memset(out, FILLER, room);
  written = reel_write(kind, arguments[0], arguments[1], arguments[2], arguments[3], bytes, count, out, room);
  expect(reel_written_number(written) == REEL_ACCEPTED || reel_written_length(written) == 0,
         "a call that is not written");
  for (i = reel_written_length(written); i < room; i++) expect(out[i] == FILLER, "bytes past a message");
  return written;
}

/* A message that is not refused 1 to 4, written again, has the same bytes; what the writer refuses the kernel refuses
   too. */
static void written_alike(struct unit u, struct block lent, const uint8_t *m, size_t size, uint32_t answered) {
  unsigned number = reel_answer_number(answered);
  size_t end = m[3] == REEL_KIND_WRITE ? 7 : size; /* of the arguments; a write's bytes follow */
  uint8_t arguments[4] = {0}, *out = part(u.out, REEL_MESSAGE_SIZE);
  uint32_t written;
  memcpy(arguments, m + 4, end - 4);
  written = write_into(out, REEL_MESSAGE_SIZE, m[3], arguments, sealed(lent, m + end, size - end), size - end);
  if (reel_written_number(written) == REEL_ACCEPTED) {
    expect(reel_written_length(written) == size && memcmp(out, m, size) == 0, "a message written again");
    expect(number != REEL_OUT_OF_RANGE || m[3] == REEL_KIND_MAKE_COPY || m[3] == REEL_KIND_LOOK_FRAME ||
               m[3] == REEL_KIND_RETIRE,
           "a call out of range");
    again++;
  } else {
    expect(reel_written_number(written) == REEL_OUT_OF_RANGE && number == REEL_OUT_OF_RANGE, "a call in range");
  }
}

/* A reply, read for its kind where nothing follows it, tells what the answer does; bytes that follow play no part. */
static void told_alike(struct unit u, struct block lent, uint8_t kind, uint32_t answered) {
  const uint8_t *out = part(u.out, REEL_REPLY_SIZE);
  size_t length = reel_answer_length(answered), data = length - REEL_REPLY_HEAD;
  const uint8_t *reply = sealed(lent, out, length);
  uint64_t told = reel_read_reply(kind, reply, length);
  expect(reel_reply_refused(told) == REEL_ACCEPTED, "a reply is read");
  expect(reel_reply_number(told) == reel_answer_number(answered), "the number that a reply carries");
  expect(reel_reply_laid(told) == reel_answer_laid(answered), "the bytes laid in a reply");
  expect(reel_reply_length(told) == data && reel_reply_data(told, reply) == reply + REEL_REPLY_HEAD,
         "the data of a reply");
  expect(reel_read_reply(kind, out, REEL_REPLY_SIZE) == told, "a reply with bytes after it");
  expect(reel_read_reply(kind, sealed(lent, out, length - 1), length - 1) == REEL_CUT_SHORT, "a reply cut short");
}

/* Tables and stores as they were before a message. */
struct state {
  uint8_t tables[REEL_TABLES_SIZE], stores[2 * STORE_MOST];
};

/* The stores one behind the other, so that frame f is the f-th block. */
static void joined(struct unit u, uint8_t *to) {
  memcpy(to, part(u.fast, u.fast_len), u.fast_len);
  memcpy(to + u.fast_len, part(u.slow, u.slow_len), u.slow_len);
}

static struct state state_of(struct unit u) {
  struct state now;
  memcpy(now.tables, part(u.tables, REEL_TABLES_SIZE), REEL_TABLES_SIZE);
  joined(u, now.stores);
  return now;
}

/* The register entry of a frame. */
static unsigned entry(const uint8_t *tables, size_t frame) {
  const uint8_t *at = tables + REEL_TABLES_REGISTER + REEL_ENTRY_SIZE * frame;
  return at[0] + 256u * at[1];
}

/* Whether a copy is on a frame. */
static int is_held(const uint8_t *tables, size_t frame) { return entry(tables, frame) < REEL_RETIRED_ENTRY; }

/* After a delete each frame that it freed holds zeros, 64 bytes are laid for each, and no other byte is another. */
static void cleared(struct unit u, struct state before, uint32_t answered) {
  static uint8_t now[2 * STORE_MOST];
  unsigned laid = 0;
  size_t f;
  for (f = 0; f < frames; f++)
    if (is_held(before.tables, f) && !is_held(part(u.tables, REEL_TABLES_SIZE), f)) {
      memset(before.stores + REEL_FRAME_SIZE * f, 0, REEL_FRAME_SIZE);
      laid += REEL_FRAME_SIZE;
      freed++;
    }
  joined(u, now);
  expect(memcmp(now, before.stores, REEL_FRAME_SIZE * frames) == 0, "the stores after a delete");
  expect(reel_answer_laid(answered) == laid, "the bytes laid by a delete");
  expect(reel_answer_number(answered) == REEL_ACCEPTED || laid == 0, "a refused delete");
}

/* An accepted retire leaves the frame retired and without a copy, and every other byte as it was; a refused one all. */
static void retired(struct unit u, struct state before, uint8_t frame, uint32_t answered) {
  struct state now = state_of(u);
  if (reel_answer_number(answered) == REEL_ACCEPTED) {
    expect(frame < frames && !is_held(before.tables, frame), "a frame that may be retired");
    uint8_t *at = before.tables + REEL_TABLES_REGISTER + REEL_ENTRY_SIZE * frame;
    marked += entry(before.tables, frame) == REEL_FREE_ENTRY;
    at[0] = REEL_RETIRED_ENTRY % 256;
    at[1] = REEL_RETIRED_ENTRY / 256;
  }
  expect(memcmp(now.tables, before.tables, REEL_TABLES_SIZE) == 0, "the tables after a retire");
  expect(memcmp(now.stores, before.stores, REEL_FRAME_SIZE * frames) == 0, "the stores after a retire");
  expect(reel_answer_laid(answered) == 0, "the bytes laid by a retire");
}

/* A copy is made on no retired frame. */
static void not_on_retired(struct state before, uint8_t frame, uint32_t answered) {
  int is_retired = frame < frames && entry(before.tables, frame) == REEL_RETIRED_ENTRY;
  expect(reel_answer_number(answered) != REEL_ACCEPTED || !is_retired, "a copy on a retired frame");
  expect(reel_answer_number(answered) != REEL_RETIRED || is_retired, "a frame that is not retired");
}

/* How many frames a copy is on. */
static uint32_t held(const uint8_t *tables) {
  uint32_t count = 0;
  size_t f;
  for (f = 0; f < frames; f++) count += (uint32_t)is_held(tables, f);
  return count;
}

/* The figures so far, with one message more. */
static void count_on(uint32_t *figures, struct unit u, uint32_t answered) {
  uint32_t now = held(part(u.tables, REEL_TABLES_SIZE));
  if (figures[REEL_FIGURES_MOST] < now) figures[REEL_FIGURES_MOST] = now;
  figures[REEL_FIGURES_LAID] += reel_answer_laid(answered);
  figures[REEL_FIGURES_COUNTS + reel_answer_number(answered)]++;
}

/* A file is forecast from tables that may only be read: 34 figures become those that its messages came to; more or
   fewer are left as they were. */
static void forecast_alike(struct unit u, struct block tables, const uint8_t *file, size_t length,
                           const uint32_t *figures) {
  uint8_t filled[(REEL_FIGURES_SIZE + 1) * sizeof(uint32_t)];
  const uint8_t *from = sealed(tables, part(u.tables, REEL_TABLES_SIZE), REEL_TABLES_SIZE);
  size_t count;
  memset(filled, FILLER, sizeof filled);
  for (count = 0; count <= REEL_FIGURES_SIZE + 1; count++) {
    size_t size = count * sizeof(uint32_t);
    memset(part(u.figures, size), FILLER, size);
    expect(reel_forecast(from, REEL_TABLES_SIZE, file, length, figures_of(u, count), count) == REEL_ACCEPTED,
           "a forecast on sound tables");
    if (count == REEL_FIGURES_SIZE)
      expect(memcmp(figures_of(u, count), figures, size) == 0, "the figures that are forecast");
    else
      expect(memcmp(part(u.figures, size), filled, size) == 0, "figures of another length");
  }
}

static void same(struct unit one, struct unit other) {
  expect(memcmp(part(one.tables, REEL_TABLES_SIZE), part(other.tables, REEL_TABLES_SIZE), REEL_TABLES_SIZE) == 0,
         "tables");
  expect(memcmp(part(one.fast, one.fast_len), part(other.fast, other.fast_len), one.fast_len) == 0, "the fast store");
  expect(memcmp(part(one.slow, one.slow_len), part(other.slow, other.slow_len), one.slow_len) == 0, "the slow store");
  expect(memcmp(tally_of(one, REEL_TALLY_SIZE), tally_of(other, REEL_TALLY_SIZE),
                REEL_TALLY_SIZE * sizeof(uint32_t)) == 0,
         "the tally");
}

/* One file: a message a call, in one run, and in parts; and forecast. */
static void serve(struct unit one, struct unit whole, struct unit parts, struct block lent, struct block tables,
                  uint8_t p, uint8_t s) {
  static uint8_t file[FILE_MOST], replies[REPLIES_MOST];
  uint32_t figures[REEL_FIGURES_SIZE] = {0};
  size_t length = 0, said = 0, at = 0, room = REEL_REPLY_SIZE + any(200), i;
  size_t *used = (size_t *)part(parts.used, sizeof(size_t));
  uint32_t *tally = tally_of(one, REEL_TALLY_SIZE);
  frames = (uint32_t)p + s;
  make_fresh(&one, p, s);
  make_fresh(&whole, p, s);
  make_fresh(&parts, p, s);
  for (i = 0; i < MESSAGES; i++) {
    size_t size = any_message(file + length, frames);
    uint8_t kind = file[length + 3];
    struct state before = state_of(one);
    uint32_t answered = answer(one, sealed(lent, file + length, size), size);
    if (size > 3 && (kind == REEL_KIND_DELETE_PAGE || kind == REEL_KIND_DELETE_COPY)) cleared(one, before, answered);
    if (size == 5 && kind == REEL_KIND_RETIRE) retired(one, before, file[length + 4], answered);
    if (size == 7 && kind == REEL_KIND_MAKE_COPY) not_on_retired(before, file[length + 6], answered);
    memcpy(replies + said, part(one.out, REEL_REPLY_SIZE), reel_answer_length(answered));
    if (size == 8 && file[length + 2] == REEL_MESSAGE_VERSION && file[length + 3] == REEL_KIND_READ)
      read_alike(one, lent, file + length, answered);
    if (size > 3 && kind >= REEL_KIND_CREATE && kind <= REEL_KIND_RETIRE) told_alike(one, lent, kind, answered);
    if (reel_answer_number(answered) == REEL_ACCEPTED || reel_answer_number(answered) > REEL_WRONG_LENGTH)
      written_alike(one, lent, file + length, size, answered);
    tally[REEL_TALLY_MESSAGES]++;
    tally[REEL_TALLY_REFUSALS] += reel_answer_number(answered) != REEL_ACCEPTED;
    tally[REEL_TALLY_LAID] += reel_answer_laid(answered);
    count_on(figures, one, answered);
    length += size;
    said += reel_answer_length(answered);
  }
  sealed(lent, file, length);
  forecast_alike(whole, tables, part(lent, length), length, figures);
  expect(reel_forecast_refused(figures) == tally[REEL_TALLY_REFUSALS], "the refusals that are forecast");
  reel_run(part(whole.tables, REEL_TABLES_SIZE), REEL_TABLES_SIZE, part(whole.fast, whole.fast_len), whole.fast_len,
           part(whole.slow, whole.slow_len), whole.slow_len, part(lent, length), length,
           part(whole.out, REEL_REPLY_SIZE), REEL_REPLY_SIZE, tally_of(whole, REEL_TALLY_SIZE), REEL_TALLY_SIZE);
  same(one, whole);
  memset(figures, 0, sizeof figures);
  figures[REEL_FIGURES_MOST] = held(part(whole.tables, REEL_TABLES_SIZE));
  forecast_alike(whole, tables, part(lent, 0), 0, figures); /* of no message: the frames held at the start */
  for (i = 0; at < length; i += *used) {
    at = reel_replies(part(parts.tables, REEL_TABLES_SIZE), REEL_TABLES_SIZE, part(parts.fast, parts.fast_len),
                      parts.fast_len, part(parts.slow, parts.slow_len), parts.slow_len, part(lent, length), length, at,
                      part(parts.out, room), room, tally_of(parts, REEL_TALLY_SIZE), REEL_TALLY_SIZE, used);
    expect(i + *used <= said && memcmp(replies + i, part(parts.out, room), *used) == 0, "the replies in parts");
  }
  expect(at == length && i == said, "the whole file in parts");
  same(one, parts);
}

/* The messages of a closed page, byte by byte. */
static void close_page(uint8_t station, uint8_t page, uint8_t *to) {
  const uint8_t create[] = {0, 4, 1, REEL_KIND_CREATE, station, page};
  uint8_t other;
  memcpy(to, create, sizeof create);
  for (other = 0; other < REEL_STATIONS; other++) {
    const uint8_t grant[] = {0, 6, 1, REEL_KIND_GRANT, station, page, other, 0};
    if (other != station) memcpy(to + 6 + 8 * (other - (other > station)), grant, sizeof grant);
  }
}

/* A closed page is written into so many bytes, or nothing is; all others remain as they were. */
static void closed_into(uint8_t *out, size_t room, uint8_t station, uint8_t page) {
  uint8_t due[PAGE];
  uint32_t given = REEL_ACCEPTED + 256 * 126;
  memset(due, FILLER, room);
  memset(out, FILLER, room);
  if (room < 126)
    given = REEL_SHORT_BUFFER;
  else if (station > 15 || page > 63)
    given = REEL_OUT_OF_RANGE;
  else
    close_page(station, page, due);
  expect(reel_write_create_closed(station, page, out, room) == given, "what is given for a closed page");
  expect(memcmp(out, due, room) == 0, "the messages of a closed page");
}

/* Every station and page, also those that are none, in a buffer of just the length. */
static void closed_pages(struct block out) {
  unsigned call;
  for (call = 0; call < 65536; call++) closed_into(part(out, 126), 126, (uint8_t)(call / 256), (uint8_t)(call % 256));
}

/* Calls and replies of any sort, between fences. */
static void senseless_call(struct unit u, struct block lent) {
  uint8_t bytes[REEL_MESSAGE_SIZE + 9], arguments[4], kind = (uint8_t)any(14);
  size_t count = any(sizeof bytes), room = any(200), size, i;
  uint32_t written;
  uint64_t told;
  for (i = 0; i < sizeof bytes; i++) bytes[i] = (uint8_t)(any(4) == 0 ? any(256) : any(2));
  for (i = 0; i < 4; i++) arguments[i] = (uint8_t)(any(4) == 0 ? any(256) : any(16));
  written = write_into(part(u.out, room), room, kind, arguments, sealed(lent, bytes, count), count);
  expect((reel_written_number(written) == REEL_SHORT_BUFFER) == (room < REEL_MESSAGE_SIZE),
         "a short buffer for a message");
  closed_into(part(u.out, room), room, arguments[0], arguments[1]);

  bytes[0] = (uint8_t)(any(50) == 0);
  bytes[1] = (uint8_t)(any(2) == 0 ? 4 + any(8) : any(sizeof bytes));
  if (any(50) != 0) bytes[2] = REEL_MESSAGE_VERSION;
  size = 2 + (size_t)bytes[1];
  if (size > sizeof bytes || any(20) == 0) size = any(sizeof bytes);
  told = reel_read_reply(kind, sealed(lent, bytes, size), size);
  expect(reel_reply_refused(told) <= REEL_WRONG_LENGTH, "the reader's own refusal");
  if (reel_reply_refused(told) != REEL_ACCEPTED)
    expect(told == reel_reply_refused(told), "a refusal of the reader and nothing else");
  else
    expect(reel_reply_start(told) + reel_reply_length(told) == 2 + (size_t)bytes[1], "the data end with the reply");
}

/* Buffers of any lengths with any bytes. */
static void senseless(struct unit u, struct block lent, struct block only_read) {
  uint8_t bytes[REEL_MESSAGE_SIZE];
  size_t tables = any(4) == 0 ? any(PAGE) : REEL_TABLES_SIZE, fast = any(2 * PAGE), slow = any(2 * PAGE);
  size_t room = any(200), size = any_message(bytes, frames), tally = any(5), place = any(80), i;
  size_t figures = any(2) == 0 ? REEL_FIGURES_SIZE : any(2 * REEL_FIGURES_SIZE);
  uint8_t *t = part(u.tables, tables), *f = part(u.fast, fast), *s = part(u.slow, slow), *out = part(u.out, room);
  const uint8_t *sent;
  unsigned number;
  int broken;
  if (any(4) == 0) size = any((uint32_t)size);
  if (any(2) == 0) reel_fresh((uint8_t)any(130), (uint8_t)any(130), t, tables);
  if (any(2) == 0 && tables == REEL_TABLES_SIZE) {
    f = part(u.fast, fast = REEL_FRAME_SIZE * (size_t)(t[REEL_TABLES_P] % 128));
    s = part(u.slow, slow = REEL_FRAME_SIZE * (size_t)(t[REEL_TABLES_S] % 128));
  }
  for (i = any(3); i > 0 && tables > 0; i--) t[any((uint32_t)tables)] = (uint8_t)any(256);
  sent = sealed(only_read, t, tables);
  number = reel_forecast(sent, tables, sealed(lent, bytes, size), size, figures_of(u, figures), figures);
  broken = reel_rules(sent, tables, 0, 0) == REEL_BROKEN_TABLES;
  expect(number == (broken ? REEL_BROKEN_TABLES : REEL_ACCEPTED), "the number of a forecast");
  for (i = 0; i < figures && figures == REEL_FIGURES_SIZE && broken; i++)
    expect(figures_of(u, figures)[i] == 0, "figures of broken tables");
  reel_rules(sent, tables, fast, slow);
  reel_read(sent, tables, fast, slow, (uint8_t)any(17), (uint8_t)any(65), (uint8_t)any(65), (uint8_t)any(66));
  sent = sealed(lent, bytes, size);
  reel_answer(t, tables, f, fast, s, slow, sent, size, out, room);
  reel_run(t, tables, f, fast, s, slow, sent, size, out, room, tally_of(u, tally), tally);
  reel_replies(t, tables, f, fast, s, slow, sent, size, place, out, room, tally_of(u, tally), tally,
               (size_t *)part(u.used, sizeof(size_t)));
}

int main(void) {
  static const uint8_t sizes[][2] = {{0, 0}, {4, 4}, {0, 5}, {5, 0}, {3, 127}, {127, 127}};
  struct unit one = make_unit(), whole = make_unit(), parts = make_unit();
  struct block lent = fenced(FILE_MOST), tables = fenced(PAGE);
  size_t i;
  for (behind = 0; behind < 2; behind++) {
    for (i = 0; i < sizeof sizes / sizeof *sizes; i++) serve(one, whole, parts, lent, tables, sizes[i][0], sizes[i][1]);
    closed_pages(one.out);
    for (i = 0; i < 20000; i++) {
      senseless(one, lent, tables);
      senseless_call(one, lent);
    }
  }
  expect(freed > 1000, "deletes that free frames");
  expect(again > 10000, "messages that are calls");
  expect(marked > 20, "frames that are retired");
  printf("%u messages three times, %u written again, %u frames freed, %u retired, %u senseless calls\n",
         12u * MESSAGES, again, freed, marked, 2u * 20000);
  return 0;
}
