/*
 * A station's side of the worked example of document 01: each call is written, answered by a unit, and its reply read.
 * Then a frame is retired, the replies to several messages are walked, a page is made that no other station may read,
 * and what writer and reader refuse. After `bash tools/build`:
 *
 *   gcc -std=c99 -I target/reel examples/station.c target/reel/libreel.a -o target/station && target/station
 */
#include <reel.h>

#include <stdio.h>
#include <stdlib.h>
#include <string.h>

enum { P = 4, S = 4, FILLER = 0xA5 };

/* The unit. A real station has none of this: its bus takes the message there and brings the reply. */
static uint8_t tables[REEL_TABLES_SIZE], fast[REEL_FRAME_SIZE * P], slow[REEL_FRAME_SIZE * S];

/* All that a station needs. */
static uint8_t message[REEL_MESSAGE_SIZE], reply[REEL_REPLY_SIZE];

static void expect(int holds, const char *what) {
  if (!holds) {
    printf("FAILED: %s\n", what);
    exit(1);
  }
}

/* Sends the call of this kind that was written, and reads the reply. */
static uint64_t sent(uint8_t kind, uint32_t written) {
  expect(reel_written_number(written) == REEL_ACCEPTED, reel_word(reel_written_number(written)));
  reel_answer(tables, sizeof tables, fast, sizeof fast, slow, sizeof slow, message, reel_written_length(written), reply,
              sizeof reply);
  return reel_read_reply(kind, reply, sizeof reply);
}

/* Whether the reply was read, and says that the unit turned the message back with this number. */
static int turned_back(uint64_t told, unsigned number) {
  return reel_reply_refused(told) == REEL_ACCEPTED && reel_reply_number(told) == number;
}

/* Whether the reply has these data. */
static int has_data(uint64_t told, const uint8_t *due, size_t length) {
  return reel_reply_length(told) == length && memcmp(reel_reply_data(told, reply), due, length) == 0;
}

static void worked_example(void) {
  static const uint8_t two_bytes[] = {0x41, 0x37}, three_bytes[] = {0x41, 0x37, 0};
  static const uint8_t one_copy[] = {1, 0, 1, 1}; /* n, then its frame, CURRENT and MOST RECENT */
  uint64_t told;

  /* station 3, page 5 */
  told = sent(REEL_KIND_CREATE, reel_write_create(3, 5, message, sizeof message));
  expect(reel_reply_accepted(told), "created");

  /* page 5, copy 0, to frame 0 */
  told = sent(REEL_KIND_MAKE_COPY, reel_write_make_copy(5, 0, 0, message, sizeof message));
  expect(reel_reply_accepted(told) && reel_reply_laid(told) == 64, "64 laid");

  /* page 5, copy 0 */
  told = sent(REEL_KIND_SET_CURRENT, reel_write_set_current(5, 0, message, sizeof message));
  expect(reel_reply_accepted(told), "current");

  /* station 3, page 5, offset 0, two bytes */
  told = sent(REEL_KIND_WRITE, reel_write_write(3, 5, 0, two_bytes, sizeof two_bytes, message, sizeof message));
  expect(reel_reply_accepted(told) && reel_reply_laid(told) == 2, "2 laid");

  /* station 3, page 5, offset 0, count 3 */
  told = sent(REEL_KIND_READ, reel_write_read(3, 5, 0, 3, message, sizeof message));
  expect(reel_reply_accepted(told) && has_data(told, three_bytes, sizeof three_bytes), "three bytes");

  /* page 5 */
  told = sent(REEL_KIND_LOOK_PAGE, reel_write_look_page(5, message, sizeof message));
  expect(reel_reply_accepted(told) && has_data(told, one_copy, sizeof one_copy), "one copy on frame 0");

  /* Page 5 stands: the reply is read, and tells why the unit turned the message back. */
  told = sent(REEL_KIND_CREATE, reel_write_create(3, 5, message, sizeof message));
  expect(turned_back(told, REEL_PAGE_STANDS), "created again");
  printf("calls: six accepted and one refused, each written, answered and its reply read\n");
}

/* Frame 5 is retired: the reply has no data, a look shows the frame as retired, and no copy is made there. */
static void retired_frame(void) {
  static const uint8_t shown[] = {2, 255, 255};
  uint64_t told = sent(REEL_KIND_RETIRE, reel_write_retire(5, message, sizeof message));
  expect(reel_reply_accepted(told) && reel_reply_laid(told) == 0 && reel_reply_length(told) == 0, "retired");

  told = sent(REEL_KIND_LOOK_FRAME, reel_write_look_frame(5, message, sizeof message));
  expect(reel_reply_accepted(told) && has_data(told, shown, sizeof shown), "shown as retired");

  /* page 5, copy 0, to frame 5 */
  told = sent(REEL_KIND_MAKE_COPY, reel_write_make_copy(5, 0, 5, message, sizeof message));
  expect(turned_back(told, REEL_RETIRED), "no copy on it");
  printf("retired: a frame retired and looked at, and a copy to it refused\n");
}

/* The kind to read a reply by. A message without a known one is refused, and a refusal is alike for every kind. */
static uint8_t kind_of(const uint8_t *call, size_t length) {
  int known = length > 3 && call[3] >= REEL_KIND_CREATE && call[3] <= REEL_KIND_RETIRE;
  return known ? call[3] : (uint8_t)REEL_KIND_CREATE;
}

/*
 * Has the unit answer a call file, and reads the reply to each message, which carries its number. Messages and replies
 * are walked by their own lengths, which are there whatever a message is, and whether or not its reply can be read.
 */
static void answered(const uint8_t *file, size_t file_len, const unsigned *numbers, size_t messages) {
  uint8_t replies[2 * REEL_REPLY_SIZE];
  uint32_t tally[REEL_TALLY_SIZE] = {0};
  size_t reached = 0, at = 0, count = 0, used, said;
  while (reached < file_len) {
    reached = reel_replies(tables, sizeof tables, fast, sizeof fast, slow, sizeof slow, file, file_len, reached,
                           replies, sizeof replies, tally, REEL_TALLY_SIZE, &used);
    for (said = 0; said < used; said += reel_next(replies + said, used - said)) {
      size_t length = reel_next(file + at, file_len - at);
      uint64_t told = reel_read_reply(kind_of(file + at, length), replies + said, used - said);
      expect(count < messages && reel_reply_refused(told) == REEL_ACCEPTED, "every reply is read");
      expect(reel_reply_number(told) == numbers[count], "with its number");
      at += length;
      count++;
    }
  }
  expect(at == file_len && count == messages, "every message");
  expect(count == tally[REEL_TALLY_MESSAGES], "as many replies as messages");
}

/* A gateway that passes on what others wrote, many messages at a time. */
static void several_replies(void) {
  static const uint8_t file[] = {
      0, 3, 1, REEL_KIND_LOOK_FRAME, 5, /* which is retired */
      0, 2, 1, REEL_KIND_RETIRE + 1,    /* an unknown kind */
      0, 0,                             /* nothing at all */
      0, 4, 2, REEL_KIND_CREATE, 3, 6,  /* a foreign version */
      0, 4, 1, REEL_KIND_CREATE, 3, 6,  /* station 3, page 6 */
      0, 6, 1, REEL_KIND_READ, 3, 6,    /* cut short */
  };
  static const unsigned numbers[] = {REEL_ACCEPTED,        REEL_UNKNOWN_KIND, REEL_FOREIGN_VERSION,
                                     REEL_FOREIGN_VERSION, REEL_ACCEPTED,     REEL_CUT_SHORT};
  answered(file, sizeof file, numbers, 6);
  printf("several: 6 replies walked by their lengths, each read with its number\n");
}

/*
 * Page 7 has what no other station may read: before anything is written to it, station 3 sends its create with fifteen
 * grants of right 0. Page 5, which was made by a create alone, may be read by every station.
 */
static void closed_page(void) {
  static const uint8_t recipe[] = {0x52}, three_bytes[] = {0x41, 0x37, 0};
  static const unsigned numbers[REEL_STATIONS] = {REEL_ACCEPTED}; /* and the others, which are 0 too */
  uint8_t file[REEL_CLOSED_SIZE];
  uint32_t written = reel_write_create_closed(3, 7, file, sizeof file); /* station 3, page 7 */
  uint64_t told;
  expect(reel_written_number(written) == REEL_ACCEPTED, reel_word(reel_written_number(written)));
  answered(file, reel_written_length(written), numbers, REEL_STATIONS);

  /* The placement module gives page 7 a copy on frame 1, and station 3 writes. */
  sent(REEL_KIND_MAKE_COPY, reel_write_make_copy(7, 0, 1, message, sizeof message));
  sent(REEL_KIND_SET_CURRENT, reel_write_set_current(7, 0, message, sizeof message));
  told = sent(REEL_KIND_WRITE, reel_write_write(3, 7, 0, recipe, sizeof recipe, message, sizeof message));
  expect(reel_reply_accepted(told), "the recipe written");
  told = sent(REEL_KIND_READ, reel_write_read(3, 7, 0, 1, message, sizeof message));
  expect(reel_reply_accepted(told) && has_data(told, recipe, sizeof recipe), "the recipe, for its owner");
  told = sent(REEL_KIND_READ, reel_write_read(4, 7, 0, 1, message, sizeof message));
  expect(turned_back(told, REEL_NO_RIGHT), "and not for station 4");

  told = sent(REEL_KIND_READ, reel_write_read(4, 5, 0, 3, message, sizeof message));
  expect(reel_reply_accepted(told) && has_data(told, three_bytes, sizeof three_bytes), "page 5, for station 4");
  told = sent(REEL_KIND_WRITE, reel_write_write(4, 5, 0, recipe, sizeof recipe, message, sizeof message));
  expect(turned_back(told, REEL_NO_RIGHT), "which may not write it");
  printf("closed: a page that its owner alone reads, and a plain one that every station reads\n");
}

/* Refused, the writer writes nothing. */
static void writer_refuses(void) {
  static const uint8_t bytes[REEL_FRAME_SIZE + 1] = {0};
  uint8_t out[REEL_CLOSED_SIZE];
  size_t room = REEL_MESSAGE_SIZE, i;
  memset(out, FILLER, sizeof out);
  expect(reel_write_look_page(5, out, room - 1) == REEL_SHORT_BUFFER, "70 bytes, also for a message of five");
  expect(reel_write(13, 5, 0, 0, 0, bytes, 0, out, room) == REEL_UNKNOWN_KIND, "kind 13");
  expect(reel_write_read(3, 5, 63, 2, out, room) == REEL_OUT_OF_RANGE, "offset 63 with count 2");
  expect(reel_write_look_frame(254, out, room) == REEL_OUT_OF_RANGE, "frame 254, which no unit has");
  expect(reel_write_retire(254, out, room) == REEL_OUT_OF_RANGE, "frame 254 retired");
  expect(reel_write_write(3, 5, 0, bytes, 0, out, room) == REEL_OUT_OF_RANGE, "a write of no byte");
  expect(reel_write_write(3, 5, 0, bytes, 65, out, room) == REEL_OUT_OF_RANGE, "a write of 65 bytes");
  expect(reel_write_create_closed(3, 7, out, sizeof out - 1) == REEL_SHORT_BUFFER, "a closed page in 125 bytes");
  expect(reel_write_create_closed(16, 7, out, sizeof out) == REEL_OUT_OF_RANGE, "a closed page of station 16");
  expect(reel_write_create_closed(3, 64, out, sizeof out) == REEL_OUT_OF_RANGE, "page 64 closed");
  for (i = 0; i < sizeof out; i++) expect(out[i] == FILLER, "nothing is written");
  printf("writer: each refusal with its number, and nothing written\n");
}

/* The reader's own refusal is not the number that a reply carries. */
static void reader_refuses(void) {
  static const uint8_t accepted[] = {0, 4, 1, REEL_ACCEPTED, 0, 0}, refused[] = {0, 4, 1, REEL_CUT_SHORT, 0, 0};
  static const uint8_t foreign[] = {0, 4, 2, REEL_ACCEPTED, 0, 0};
  static const uint8_t unlisted[] = {0, 4, 1, REEL_RETIRED + 1, 0, 0};
  static const uint8_t data[] = {0, 7, 1, REEL_ACCEPTED, 0, 0, 2, 255, 255};
  uint64_t told;
  expect(reel_read_reply(REEL_KIND_CREATE, accepted, 5) == REEL_CUT_SHORT, "a byte is missing");
  expect(reel_read_reply(REEL_KIND_CREATE, foreign, sizeof foreign) == REEL_FOREIGN_VERSION, "version 2");
  expect(reel_read_reply(13, accepted, sizeof accepted) == REEL_UNKNOWN_KIND, "kind 13");
  expect(reel_read_reply(REEL_KIND_READ, accepted, sizeof accepted) == REEL_WRONG_LENGTH,
         "an accepted read without data");
  expect(reel_read_reply(REEL_KIND_RETIRE, data, sizeof data) == REEL_WRONG_LENGTH, "an accepted retire with data");
  expect(reel_read_reply(REEL_KIND_RETIRE, unlisted, sizeof unlisted) == REEL_WRONG_LENGTH, "number 21");

  told = reel_read_reply(REEL_KIND_CREATE, refused, sizeof refused - 1);
  expect(reel_reply_refused(told) == REEL_CUT_SHORT && !reel_reply_accepted(told), "the reply is cut short");
  told = reel_read_reply(REEL_KIND_CREATE, refused, sizeof refused);
  expect(reel_reply_refused(told) == REEL_ACCEPTED, "the reply is read");
  expect(reel_reply_number(told) == REEL_CUT_SHORT && !reel_reply_accepted(told),
         "it says that the message was cut short");
  printf("reader: each refusal with its number, told apart from a reply that carries it\n");
}

int main(void) {
  expect(reel_version() == REEL_VERSION, "header and library are of one version");
  expect(reel_fresh(P, S, tables, sizeof tables) == REEL_ACCEPTED, "fresh tables");
  worked_example();
  retired_frame();
  several_replies();
  closed_page();
  writer_refuses();
  reader_refuses();
  return 0;
}
