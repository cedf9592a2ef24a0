/*
 * examples/power.h with its power cut at every byte. What it writes to the medium is recorded with its barriers; of
 * each save as many bytes reach the medium as the cut allows, between two barriers in several orders, and then its own
 * code starts again. What it finds is held against the states that the kernel leaves by reel_run, before the message
 * and after it. At some cuts the power is cut again in the first save after the start.
 */
#include "../../examples/power.h"
#include "test.h"

enum { STATE = POWER_SEAL - POWER_TABLES, SEAL = POWER_SLOT - POWER_SEAL, SAVE = POWER_SLOT + SEAL };
enum { MEDIUM = 2 * POWER_SLOT, STRIDE = 211 };

/*
 * How bytes that no barrier parts reach the medium: in order; in reverse; in any order, and one more gets any bits; in
 * order, and all of the slot that is in one block with the next one gets any bits.
 */
enum order { FIRST_TO_LAST, LAST_TO_FIRST, TORN, SPOILT, ORDERS };
enum { BLOCK = 512 };

/* What was written, byte by byte, and how many bytes stood before each barrier. */
struct trace {
  struct {
    size_t at;
    uint8_t byte;
  } bytes[3 * SAVE];
  size_t count, barriers[8], barrier_count;
};

static const uint8_t file[] = {
    0, 4, 1, REEL_KIND_CREATE, 3, 5,                                     /* station 3, page 5 */
    0, 4, 1, REEL_KIND_CREATE, 3, 5,                                     /* refused: it stands */
    0, 5, 1, REEL_KIND_MAKE_COPY, 5, 0, 0,                               /* page 5, copy 0, to frame 0 */
    0, 5, 1, REEL_KIND_MAKE_COPY, 5, 0, 5,                               /* and to frame 5, on the card */
    0, 4, 1, REEL_KIND_SET_CURRENT, 5, 1,                                /* page 5, copy 1 */
    0, 12, 1, REEL_KIND_WRITE, 3, 5, 9, 'D', 'E', 'L', 'E', 'T', 'E', 'D', /* station 3, page 5, offset 9 */
    0, 6, 1, REEL_KIND_READ, 3, 5, 9, 7,                                 /* station 3, page 5, offset 9, count 7 */
    0, 3, 1, REEL_KIND_LOOK_PAGE, 5,
    0, 3, 1, REEL_KIND_LOOK_FRAME, 5,
    0, 4, 1, REEL_KIND_DELETE_PAGE, 3, 5,                                /* zeros on frames 0 and 5 */
    0, 2, 1, REEL_KIND_RETIRE + 1,                                       /* refused: an unknown kind */
    0, 3, 1, REEL_KIND_RETIRE, 7,
};
enum { MESSAGES = 12 };

static uint8_t medium[MEDIUM], states[MESSAGES + 1][STATE];
static struct trace *recorded;
static enum order order;
static unsigned cuts, twice; /* so many cuts were tried, and so many of them after another */

/* ---- the medium */

void medium_read(size_t at, uint8_t *bytes, size_t length) {
  expect(at + length <= MEDIUM, "a read on the medium");
  memcpy(bytes, medium + at, length);
}

void medium_write(size_t at, const uint8_t *bytes, size_t length) {
  size_t i;
  expect(at + length <= MEDIUM, "a write on the medium");
  for (i = 0; i < length; i++, recorded->count++) {
    recorded->bytes[recorded->count].at = at + i;
    recorded->bytes[recorded->count].byte = bytes[i];
  }
}

void medium_barrier(void) { recorded->barriers[recorded->barrier_count++] = recorded->count; }

static void record(struct trace *trace) {
  trace->count = trace->barrier_count = 0;
  recorded = trace;
}

/* The order of so many bytes between two barriers. */
static void arrange(size_t *places, size_t size) {
  size_t i;
  for (i = 0; i < size; i++) places[i] = order == LAST_TO_FIRST ? size - 1 - i : i;
  for (i = size; order == TORN && i > 1; i--) {
    size_t other = any((uint32_t)i), place = places[i - 1];
    places[i - 1] = places[other];
    places[other] = place;
  }
}

/* What a cut does to the byte that would be next, and around it. */
static void harm(size_t at) {
  size_t slot = at / POWER_SLOT * POWER_SLOT, from = slot + (at - slot) / BLOCK * BLOCK, i;
  if (order == TORN) medium[at] = (uint8_t)any(256);
  for (i = from; order == SPOILT && i < from + BLOCK && i < slot + POWER_SLOT; i++) medium[i] = (uint8_t)any(256);
}

/* So many bytes of what was written reach the medium, and then the power is gone. */
static void reach(const struct trace *trace, size_t cut) {
  static size_t places[3 * SAVE];
  size_t from = 0, group, i;
  for (group = 0; group < trace->barrier_count; from = trace->barriers[group++]) {
    size_t size = trace->barriers[group] - from, these = cut < size ? cut : size;
    arrange(places, size);
    for (i = 0; i < these; i++) medium[trace->bytes[from + places[i]].at] = trace->bytes[from + places[i]].byte;
    if (these < size) {
      harm(trace->bytes[from + places[these]].at);
      return;
    }
    cut -= size;
  }
}

/* ---- cuts */

/* The bytes before a slot's seal are those of one image or of the other, or the seal is 0: chance has no part in it. */
static void not_mixed(int slot, const uint8_t *before, const uint8_t *after) {
  static const uint8_t open[SEAL] = {0};
  const uint8_t *now = medium + slot * POWER_SLOT;
  if (memcmp(now, before, POWER_SEAL) != 0 && memcmp(now, after, POWER_SEAL) != 0)
    expect(memcmp(now + POWER_SEAL, open, SEAL) == 0, "a mix of states has a seal of 0");
}

/* Which message is next where the power was cut after so many bytes of message m: this one or the one after it. */
static unsigned next_message(struct power *unit, unsigned m, size_t cut, size_t count) {
  const uint8_t *found = unit->image + POWER_TABLES;
  expect(power_start(unit), "a state is kept");
  if (cut == count || (cut + SEAL >= count && memcmp(found, states[m], STATE) != 0)) m++;
  expect(memcmp(found, states[m], STATE) == 0, "the state before the message, or the one after it");
  return m;
}

/* Message m, as this unit answers it: number, reply and state are the kernel's. */
static void serve(struct power *unit, unsigned m, const uint8_t *message, size_t length) {
  uint8_t out[REEL_REPLY_SIZE] = {0}, due[REEL_REPLY_SIZE] = {0}, image[STATE], *t = image;
  uint8_t *f = t + REEL_TABLES_SIZE, *s = f + REEL_FRAME_SIZE * POWER_P;
  uint32_t answer = power_answer(unit, message, length, out, sizeof out);
  memcpy(image, states[m], STATE);
  expect(answer == reel_answer(t, REEL_TABLES_SIZE, f, (size_t)(s - f), s, (size_t)(image + STATE - s), message, length,
                               due, sizeof due),
         "the answer");
  expect(memcmp(out, due, sizeof out) == 0, "the reply");
  expect(memcmp(unit->image + POWER_TABLES, states[m + 1], STATE) == 0, "the state in memory");
}

static const uint8_t *message_at(unsigned m, size_t *length) {
  size_t at = 0;
  while (m-- > 0) at += reel_next(file + at, sizeof file - at);
  *length = reel_next(file + at, sizeof file - at);
  return file + at;
}

/* The next cut, a stride further, but byte by byte through the seal. */
static size_t further(size_t cut, size_t stride, size_t count) {
  if (cut + SEAL >= count) return cut + 1;
  return cut + stride + SEAL < count ? cut + stride : count - SEAL;
}

/* Message m with the power cut after each byte or each stride of bytes; then, if asked, once more in the next save. */
static void cut_message(struct power unit, unsigned m, size_t stride, int again) {
  static struct trace traces[2];
  static uint8_t media[2][MEDIUM];
  struct trace *trace = &traces[again];
  const int changes = memcmp(states[m], states[m + 1], STATE) != 0;
  size_t length, cut;
  const uint8_t *message = message_at(m, &length);
  memcpy(media[again], medium, MEDIUM);
  record(trace);
  serve(&unit, m, message, length);
  expect(trace->count == (changes ? SAVE : 0), "what changes nothing writes nothing");
  expect(!changes || trace->barriers[trace->barrier_count - 1] == trace->count, "a barrier ends a save");
  for (cut = 0; cut <= trace->count; cut = further(cut, stride, trace->count)) {
    struct power started;
    unsigned next;
    memcpy(medium, media[again], MEDIUM);
    reach(trace, cut);
    next = next_message(&started, m, cut, trace->count);
    if (changes && order != SPOILT) not_mixed(unit.slot, media[again] + unit.slot * POWER_SLOT, unit.image);
    if (again && next < MESSAGES && (cut % STRIDE == 0 || cut + SEAL >= trace->count))
      cut_message(started, next, STRIDE, 0);
    cuts++;
    twice += !again;
  }
  memcpy(medium, media[again], MEDIUM);
}

/* A beginning with the power cut after each byte leaves what was kept before it, then nothing, then fresh tables. */
static void cut_begin(const uint8_t *kept) {
  static struct trace trace;
  static uint8_t before[MEDIUM];
  struct power unit;
  size_t cut;
  memcpy(before, medium, MEDIUM);
  record(&trace);
  power_begin(&unit);
  for (cut = 0; cut <= trace.count; cut++) {
    int found;
    memcpy(medium, before, MEDIUM);
    reach(&trace, cut);
    found = power_start(&unit);
    if (cut == trace.count || (found && cut + SEAL >= trace.count))
      expect(found && memcmp(unit.image + POWER_TABLES, states[0], STATE) == 0, "fresh tables");
    else if (cut < SEAL && kept != NULL)
      expect(found && memcmp(unit.image + POWER_TABLES, kept, STATE) == 0, "what was kept before");
    else
      expect(!found || (cut < 2 * SEAL && memcmp(unit.image + POWER_TABLES, kept, STATE) == 0), "nothing is kept");
    cuts++;
  }
}

/* All that was recorded reaches the medium. */
static void reach_all(void) { reach(recorded, recorded->count); }

/* Serves the first so many messages from the beginning, without a cut. */
static void serve_first(struct power *unit, unsigned messages) {
  static struct trace trace;
  unsigned m;
  memset(medium, 0, MEDIUM);
  record(&trace);
  power_begin(unit);
  reach_all();
  for (m = 0; m < messages; m++) {
    size_t length;
    const uint8_t *message = message_at(m, &length);
    record(&trace);
    serve(unit, m, message, length);
    reach_all();
  }
}

static void run_with_cuts(void) {
  static struct trace trace;
  struct power unit;
  unsigned m;
  memset(medium, 0, MEDIUM);
  cut_begin(NULL);
  expect(power_start(&unit), "begun");
  for (m = 0; m < MESSAGES; m++) {
    size_t length;
    const uint8_t *message = message_at(m, &length);
    cut_message(unit, m, order == SPOILT ? 16 : 1, 1);
    record(&trace);
    serve(&unit, m, message, length);
    reach_all();
  }
  serve_first(&unit, 6); /* the stores hold what was written */
  cut_begin(states[6]);
}

/* ---- what else a start may find */

/* The states that the kernel leaves, the first so many messages in one run. */
static void run_kernel(void) {
  unsigned m;
  for (m = 0; m <= MESSAGES; m++) {
    uint8_t *t = states[m], *f = t + REEL_TABLES_SIZE, *s = f + REEL_FRAME_SIZE * POWER_P, out[REEL_REPLY_SIZE];
    uint32_t tally[REEL_TALLY_SIZE] = {0};
    size_t length;
    const uint8_t *end = m == MESSAGES ? file + sizeof file : message_at(m, &length);
    expect(reel_fresh(POWER_P, POWER_S, t, REEL_TABLES_SIZE) == REEL_ACCEPTED, "fresh tables");
    reel_run(t, REEL_TABLES_SIZE, f, (size_t)(s - f), s, (size_t)(t + STATE - s), file, (size_t)(end - file), out,
             sizeof out, tally, REEL_TALLY_SIZE);
    expect(tally[REEL_TALLY_MESSAGES] == m, "as many messages");
  }
}

static void nothing_kept(void) {
  struct power unit;
  unsigned filler, i;
  for (filler = 0; filler < 256; filler++) {
    memset(medium, (int)filler, MEDIUM);
    expect(!power_start(&unit), "a medium of one byte");
  }
  for (filler = 0; filler < 1000; filler++) {
    for (i = 0; i < MEDIUM; i++) medium[i] = (uint8_t)any(256);
    expect(!power_start(&unit), "a medium of any bytes");
  }
}

/* Whichever byte changes by itself, its slot does not count, and the other does. With one in both, nothing is kept. */
static void broken_slots(void) {
  struct power unit, found;
  size_t at;
  serve_first(&unit, 5); /* the second make copy, and a set current: states 4 and 5 */
  for (at = 0; at < MEDIUM; at++) {
    int newer = (int)(at / POWER_SLOT) == unit.slot;
    size_t other = (at + POWER_SLOT) % MEDIUM;
    uint8_t bits = (uint8_t)(1 + any(255)), others = (uint8_t)(1 + any(255));
    medium[at] ^= bits;
    expect(power_start(&found), "one slot is whole");
    expect(memcmp(found.image + POWER_TABLES, states[newer ? 4 : 5], STATE) == 0, "the state of the other slot");
    medium[other] ^= others;
    expect(!power_start(&found), "both slots are broken");
    medium[at] ^= bits;
    medium[other] ^= others;
  }
}

/* The larger number counts, also where it is a byte longer than the other. */
static void large_numbers(void) {
  static struct trace trace;
  struct power unit, found;
  int bits, i;
  serve_first(&unit, 1);
  for (bits = 8; bits < 64; bits += 8) {
    power_put(unit.image, POWER_TABLES, ((uint64_t)1 << bits) - 3);
    for (i = 0; i < 4; i++) {
      unit.image[POWER_FAST] = (uint8_t)i;
      record(&trace);
      power_save(&unit);
      reach_all();
      expect(power_start(&found) && found.image[POWER_FAST] == i && found.slot == unit.slot, "the last state saved");
    }
  }
}

/* CRC-32, bit by bit, without the complement at its end. */
static uint32_t plain_sum(const uint8_t *bytes, size_t length) {
  uint32_t sum = 0xFFFFFFFF;
  size_t i;
  int bit;
  for (i = 0; i < length; i++) {
    sum ^= bytes[i];
    for (bit = 0; bit < 8; bit++) sum = sum >> 1 ^ (sum % 2 == 1 ? 0xEDB88320 : 0);
  }
  return sum;
}

/* A state whose checksum would be 0 has another seal, by which it is kept; with a seal of 0 it is not whole. */
static void sum_of_zero(void) {
  static struct trace trace;
  struct power unit, found;
  serve_first(&unit, 6);
  expect(power_checksum(&unit) == (uint32_t)~plain_sum(unit.image, POWER_SEAL), "the checksum is CRC-32");
  memset(medium, 0, MEDIUM);
  power_put(unit.image, POWER_TABLES, 1);
  power_put(unit.image + POWER_SEAL - 4, 4, plain_sum(unit.image, POWER_SEAL - 4) ^ 0x9226F562);
  expect((uint32_t)~plain_sum(unit.image, POWER_SEAL) == 0, "a checksum of 0");
  memcpy(medium, unit.image, POWER_SEAL);
  expect(!power_start(&found), "a seal of 0");
  power_put(unit.image, POWER_TABLES, 0);
  record(&trace);
  power_save(&unit);
  reach_all();
  expect(power_start(&found) && memcmp(found.image, unit.image, POWER_SLOT) == 0, "kept all the same");
}

static int on_medium(const char *bytes, size_t length) {
  size_t i;
  for (i = 0; i + length <= MEDIUM; i++)
    if (memcmp(medium + i, bytes, length) == 0) return 1;
  return 0;
}

/* The older slot still has what a delete took away; one save more, and the medium has it no longer. */
static void clean_medium(void) {
  static struct trace trace;
  struct power unit;
  serve_first(&unit, 10);
  expect(on_medium("DELETED", 7), "the older slot has the page that was deleted");
  record(&trace);
  power_save(&unit);
  reach_all();
  expect(!on_medium("DELETED", 7), "neither slot has it");
  expect(power_start(&unit) && memcmp(unit.image + POWER_TABLES, states[10], STATE) == 0, "the same state");
}

int main(void) {
  int o;
  run_kernel();
  for (o = FIRST_TO_LAST; o < ORDERS; o++) {
    order = (enum order)o;
    run_with_cuts();
  }
  nothing_kept();
  broken_slots();
  large_numbers();
  sum_of_zero();
  clean_medium();
  printf("%u cuts, %u of them in the first save after another\n", cuts, twice);
  return 0;
}
