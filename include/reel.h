/*
 * The reel page kernel: the functions of libreel.a, for C99 and C++ on x86-64 (System V). docs/EMBEDDING.md has the
 * whole of it; examples/worked.c is a program for a unit, examples/station.c one for a station, examples/forecast.c one
 * for a planner, and examples/power.h keeps a unit through a loss of power.
 *
 * The caller lends every byte. A buffer is passed as a pointer and its length, in bytes or, for the tally and the
 * figures, in numbers:
 *
 *   tables  REEL_TABLES_SIZE bytes, made by reel_fresh and then kept by the caller
 *   fast    REEL_FRAME_SIZE * P bytes, frames 0 to P - 1; P and S as given to reel_fresh
 *   slow    REEL_FRAME_SIZE * S bytes, frames P to P + S - 1
 *   out     REEL_REPLY_SIZE bytes or more, for reel_write REEL_MESSAGE_SIZE or more, for reel_write_create_closed
 *           REEL_CLOSED_SIZE or more; what no reply or message takes remains as it was
 *   tally   REEL_TALLY_SIZE numbers: messages, refusals, bytes laid; each stops at 4294967295
 *   figures REEL_FIGURES_SIZE numbers of a forecast, only written; each stops at 4294967295
 *   used    one size_t, without a length beside it; it is only written
 *
 * Any bytes and any lengths may be passed: tables of another length, or whose bytes break a table rule, are answered
 * REEL_BROKEN_TABLES, stores of another length REEL_MISFIT_STORE, a shorter out REEL_SHORT_BUFFER. A tally or figures
 * of another length are left alone. Only these are the caller's duty, and are not tested:
 *
 *   - Each pointer leads to as many elements as its length says (used to one), is aligned for its type, and is not
 *     null, also where the length is 0: there it is the address of anything, such as of a byte that is not used.
 *   - A buffer that is not const overlaps none of the others. Const ones may overlap each other.
 *   - During a call nobody else writes a buffer of it, or reads one that is not const.
 *
 * The library allocates nothing, keeps no state and calls nothing back, so it may be used by several threads at a time,
 * each on buffers of its own.
 * C functions that it needs: memcpy, memset
 * Bytes that it uses below the stack pointer: at most 128
 * They are the red zone of the calling convention. On bare metal an interrupt that is taken on the same stack
 * overwrites them, before its handler begins: each one that can come during a call needs a stack of its own, by an IST
 * entry or by calls in ring 3. A process of an operating system has nothing to do.
 */
#ifndef REEL_H
#define REEL_H

#include <stddef.h>
#include <stdint.h>

#ifdef __cplusplus
extern "C" {
#endif

/* ---- the version: major, minor and patch */

#define REEL_VERSION_MAJOR 5
#define REEL_VERSION_MINOR 1
#define REEL_VERSION_PATCH 0
#define REEL_VERSION (65536 * REEL_VERSION_MAJOR + 256 * REEL_VERSION_MINOR + REEL_VERSION_PATCH)

/* The version of the library; that of the header is REEL_VERSION. */
uint32_t reel_version(void);

/* ---- the unit */

#define REEL_STATIONS 16
#define REEL_PAGES 64
#define REEL_MOST_COPIES 8   /* of a page */
#define REEL_MOST_FRAMES 127 /* fast ones, and slow ones */
#define REEL_FRAME_SIZE 64   /* bytes of a frame, and so of a page */

/* ---- the tables' bytes: what a caller may look at; it changes them by messages alone */

#define REEL_TABLES_SIZE 3198
#define REEL_TABLES_P 0           /* the number of fast frames */
#define REEL_TABLES_S 1           /* the number of slow frames */
#define REEL_TABLES_PAGES 2       /* the records of the 64 pages, one after the other */
#define REEL_TABLES_REGISTER 2690 /* the register: an entry for each frame number 0 to 253, one after the other */

#define REEL_PAGE_SIZE 42   /* a page's record: */
#define REEL_PAGE_RIGHTS 0  /* a right for each station: 0 none, 1 read, 2 read and write */
#define REEL_PAGE_COPIES 16 /* eight copy entries, of which the first n are in use */
#define REEL_PAGE_OWNER 40  /* the owner's station */
#define REEL_PAGE_N 41      /* n, the number of copies; 0 where the page does not stand */

#define REEL_COPY_SIZE 3    /* a copy entry: */
#define REEL_COPY_FRAME 0   /* the frame */
#define REEL_COPY_CURRENT 1 /* CURRENT, 0 or 1 */
#define REEL_COPY_RECENT 2  /* MOST RECENT, 0 or 1 */

#define REEL_NULL_FRAME 255 /* the frame of a null copy */

/*
 * The register says for each frame which copy is on it, as the copy entries of the pages have it. A frame's register
 * entry is REEL_MOST_COPIES * page + copy, or REEL_FREE_ENTRY where the frame is free and from frame P + S on, or
 * REEL_RETIRED_ENTRY where the frame is retired. Its low byte comes first. Where one of the 254 register entries is
 * another, the tables are broken.
 */
#define REEL_REGISTER_ENTRIES 254
#define REEL_ENTRY_SIZE 2 /* bytes of a register entry */
#define REEL_FREE_ENTRY 65535
#define REEL_RETIRED_ENTRY 61680 /* eight bits from REEL_FREE_ENTRY, and four or more from any copy's */

/*
 * A frame is free, held by a copy, or retired. A retired one never takes a copy again: no message takes its entry back.
 * Its bytes remain. Where that entry stands for a frame that a copy is on, or from frame P + S on, the tables are
 * broken.
 */

/* ---- messages and replies */

#define REEL_MESSAGE_VERSION 1 /* the third byte of messages and replies */
#define REEL_MESSAGE_SIZE 71   /* the longest accepted message, with its bytes of length; the writer's least buffer */
#define REEL_CLOSED_SIZE 126   /* the messages of reel_write_create_closed: a create of 6 bytes, fifteen grants of 8 */
#define REEL_REPLY_SIZE 70     /* the longest reply, and the least reply buffer */
#define REEL_REPLY_HEAD 6      /* length, version, number and bytes laid; the data of a read or look come after */

/* The kinds of message, each with its arguments, a byte each; `other` is a station, `bytes` are 1 to 64. */
enum reel_kind {
  REEL_KIND_CREATE = 1,         /* station, page */
  REEL_KIND_DELETE_PAGE = 2,    /* station, page */
  REEL_KIND_GRANT = 3,          /* station, page, other, right */
  REEL_KIND_READ = 4,           /* station, page, offset, count */
  REEL_KIND_WRITE = 5,          /* station, page, offset, bytes */
  REEL_KIND_MAKE_COPY = 6,      /* page, copy, frame */
  REEL_KIND_DELETE_COPY = 7,    /* page, copy */
  REEL_KIND_SET_CURRENT = 8,    /* page, copy */
  REEL_KIND_REMOVE_CURRENT = 9, /* page, copy */
  REEL_KIND_LOOK_PAGE = 10,     /* page */
  REEL_KIND_LOOK_FRAME = 11,    /* frame */
  REEL_KIND_RETIRE = 12         /* frame */
};

/* A create gives its station, the owner, right 2 on the new page and every other station right 1, so that all may read
   it. reel_write_create_closed is for a page that they may not read. */

/* The data of a look at a frame are three bytes: 1, page, copy where a copy is on it; 0, 255, 255 where it is free;
   2, 255, 255 where it is retired. */

/* Why a message is turned back. Versions to come may add numbers. */
enum reel_number {
  REEL_ACCEPTED = 0,          /* the message was carried out */
  REEL_CUT_SHORT = 1,         /* one byte left, or fewer than L after the length */
  REEL_FOREIGN_VERSION = 2,   /* L is 0, or version not 1 */
  REEL_UNKNOWN_KIND = 3,      /* L is 1, or kind not 1 to 12 */
  REEL_WRONG_LENGTH = 4,      /* L not as listed for the kind */
  REEL_BROKEN_TABLES = 5,     /* a table rule fails */
  REEL_MISFIT_STORE = 6,      /* a store's length is wrong */
  REEL_OUT_OF_RANGE = 7,      /* station, page, right, frame or offset too large; count 0; offset + count above 64 */
  REEL_PAGE_STANDS = 8,       /* create on a standing page */
  REEL_NO_PAGE = 9,           /* the page doesn't stand */
  REEL_NO_RIGHT = 10,         /* right too low, or not owner */
  REEL_NOTHING_CURRENT = 11,  /* read or write, no CURRENT copy */
  REEL_NO_COPY = 12,          /* copy number is n or more */
  REEL_FRAME_HELD = 13,       /* make copy to a held frame, or retire of one */
  REEL_EIGHT_COPIES = 14,     /* make copy with n = 8 */
  REEL_LAST_RECENT = 15,      /* delete of the only MOST RECENT copy */
  REEL_STALE = 16,            /* set current, not MOST RECENT */
  REEL_NO_FRAME = 17,         /* set current on a null copy */
  REEL_SHORT_BUFFER = 18,     /* reply buffer below 70 bytes; nothing is written */
  REEL_TOO_MANY_FRAMES = 19,  /* fresh with P or S above 127; returns fresh tables with P = S = 0 */
  REEL_RETIRED = 20           /* make copy to a retired frame */
};

/* The word of a number, for a log; an empty one for any other. */
static inline const char *reel_word(unsigned number) {
  switch (number) {
  case REEL_ACCEPTED: return "accepted";
  case REEL_CUT_SHORT: return "cut short";
  case REEL_FOREIGN_VERSION: return "foreign version";
  case REEL_UNKNOWN_KIND: return "unknown kind";
  case REEL_WRONG_LENGTH: return "wrong length";
  case REEL_BROKEN_TABLES: return "broken tables";
  case REEL_MISFIT_STORE: return "misfit store";
  case REEL_OUT_OF_RANGE: return "out of range";
  case REEL_PAGE_STANDS: return "page stands";
  case REEL_NO_PAGE: return "no page";
  case REEL_NO_RIGHT: return "no right";
  case REEL_NOTHING_CURRENT: return "nothing current";
  case REEL_NO_COPY: return "no copy";
  case REEL_FRAME_HELD: return "frame held";
  case REEL_EIGHT_COPIES: return "eight copies";
  case REEL_LAST_RECENT: return "last recent";
  case REEL_STALE: return "stale";
  case REEL_NO_FRAME: return "no frame";
  case REEL_SHORT_BUFFER: return "short slip";
  case REEL_TOO_MANY_FRAMES: return "too many frames";
  case REEL_RETIRED: return "retired";
  default: return "";
  }
}

/* ---- messages and replies one behind the other, as in a call file and in what reel_replies leaves in out */

/* The length of the message or reply that begins with these two bytes, which count with it: 2 + L, so 2 to 65537. */
static inline size_t reel_whole_length(const uint8_t *two) { return 2 + 256 * (size_t)two[0] + two[1]; }

/*
 * How many of the bytes that are left the first message or reply takes, of any kind and version: its whole length, or
 * all of them where they are fewer than two or than that length, as the kernel takes them for one that is cut short; 0
 * where none are left. So a walk that advances by reel_next until no byte is left ends, and stays within the bytes.
 */
static inline size_t reel_next(const uint8_t *bytes, size_t left) {
  return left < 2 || left < reel_whole_length(bytes) ? left : reel_whole_length(bytes);
}

/* ---- the tally, three numbers */

#define REEL_TALLY_SIZE 3
#define REEL_TALLY_MESSAGES 0
#define REEL_TALLY_REFUSALS 1
#define REEL_TALLY_LAID 2

/* ---- the figures of a forecast, 34 numbers */

#define REEL_NUMBERS 32 /* messages are counted under 0 to 31: enum reel_number, and what versions to come may add */
#define REEL_FIGURES_SIZE 34
#define REEL_FIGURES_MOST 0   /* the most frames held at the start or after any message, 0 to 254 */
#define REEL_FIGURES_LAID 1   /* the bytes laid in all */
#define REEL_FIGURES_COUNTS 2 /* how many messages get number 0; from here on one figure for each number */

/* ---- the functions */

/*
 * Makes fresh tables, without pages, for p fast and s slow frames: REEL_ACCEPTED, or REEL_TOO_MANY_FRAMES with tables
 * of no frames. A buffer of another length than tables have is left alone: REEL_BROKEN_TABLES. The length is tested
 * first, so this is also the answer where there are too many frames. The stores' bytes may be anything.
 */
uint8_t reel_fresh(uint8_t p, uint8_t s, uint8_t *tables, size_t tables_len);

/*
 * Tests tables and the lengths of their stores, as after power-up: REEL_ACCEPTED, REEL_BROKEN_TABLES or
 * REEL_MISFIT_STORE. Once it answers REEL_ACCEPTED, no function below changes that.
 */
uint8_t reel_rules(const uint8_t *tables, size_t tables_len, size_t fast_len, size_t slow_len);

/*
 * Answers one message, its two bytes of length first, and lays the reply at the head of out. Bytes after the message
 * are not looked at; none at all count as cut short. The table rules are tested at each call. A refusal leaves tables
 * and stores as they were; a delete fills each frame that it frees with zeros. The answer is number + 256 * length of
 * the reply + 65536 * bytes laid; functions below take it apart.
 */
uint32_t reel_answer(uint8_t *tables, size_t tables_len, uint8_t *fast, size_t fast_len, uint8_t *slow, size_t slow_len,
                     const uint8_t *message, size_t message_len, uint8_t *out, size_t out_len);

/*
 * Answers every message of a call file and counts on in the tally. The table rules are tested once. Each reply is laid
 * over the one before, so the last one is left in out. Behind it bytes of a longer one before it may be left, data of a
 * read among them: whoever may not read these is not to get more of out than the last reply.
 */
void reel_run(uint8_t *tables, size_t tables_len, uint8_t *fast, size_t fast_len, uint8_t *slow, size_t slow_len,
              const uint8_t *file, size_t file_len, uint8_t *out, size_t out_len, uint32_t *tally, size_t tally_len);

/*
 * Answers the messages of a call file from place `at` on, which is 0 or a place that an earlier call gave, and lays
 * reply after reply into out until the file ends or fewer than REEL_REPLY_SIZE bytes are left. Gives the place reached,
 * in *used the bytes of out that are used, and counts on in the tally. The caller takes the replies out and goes on
 * from that place while it is below file_len. The table rules are tested once a call. If out_len is below
 * REEL_REPLY_SIZE, every message left is answered REEL_SHORT_BUFFER, nothing is laid, and the place is the file's end.
 * From a place past the end nothing is answered, and the place stays.
 */
size_t reel_replies(uint8_t *tables, size_t tables_len, uint8_t *fast, size_t fast_len, uint8_t *slow, size_t slow_len,
                    const uint8_t *file, size_t file_len, size_t at, uint8_t *out, size_t out_len, uint32_t *tally,
                    size_t tally_len, size_t *used);

/*
 * Where the bytes of a read stand: number of bytes + 256 * store (0 fast, 1 slow) + 65536 * offset in that store; 0
 * where the read would be refused. They may be read there until tables or stores are changed. Functions below take the
 * place apart.
 */
uint32_t reel_read(const uint8_t *tables, size_t tables_len, size_t fast_len, size_t slow_len, uint8_t station,
                   uint8_t page, uint8_t offset, uint8_t count);

/*
 * Forecasts a call file on the tables, without any store: the figures are those that reel_run of the file would come
 * to, whatever fitting stores hold. Tables and file remain as they were. A frame is held where a copy is on it, so
 * neither a free one nor a retired one is; a cut end of the file is one message with REEL_CUT_SHORT. Gives
 * REEL_ACCEPTED, or REEL_BROKEN_TABLES, and then every figure is 0. Functions below take the figures apart.
 */
uint8_t reel_forecast(const uint8_t *tables, size_t tables_len, const uint8_t *file, size_t file_len, uint32_t *figures,
                      size_t figures_len);

/*
 * Writes the message of a call at the head of out: its kind, and its arguments in the order of enum reel_kind.
 * Arguments past the kind's last one play no part, and bytes only in a write. Gives number + 256 * length of the
 * message; functions below take it apart, and others have the arguments by name. The number is REEL_ACCEPTED, or the
 * first that applies of
 *
 *   REEL_SHORT_BUFFER  out_len is below REEL_MESSAGE_SIZE, however short the message
 *   REEL_UNKNOWN_KIND  kind not 1 to 12
 *   REEL_OUT_OF_RANGE  as for a message, but with frames up to 253 in range, as the writer does not know the unit; also
 *                      a write of no byte or of more than 64
 *
 * and then the length is 0 and nothing is written.
 */
uint32_t reel_write(uint8_t kind, uint8_t first, uint8_t second, uint8_t third, uint8_t fourth, const uint8_t *bytes,
                    size_t bytes_len, uint8_t *out, size_t out_len);

/*
 * Reads the reply to a message of this kind, its two bytes of length first. Bytes after the reply are not looked at, so
 * a whole reply buffer may be passed. Gives refusal + 2^8 * number + 2^16 * bytes laid + 2^32 * start of the data in
 * reply + 2^40 * length of the data; functions below take it apart. The refusal is the reader's own and not the number
 * that the reply carries. It is REEL_ACCEPTED, or the first that applies of
 *
 *   REEL_CUT_SHORT        as for a message, also no byte at all
 *   REEL_FOREIGN_VERSION  as for a message
 *   REEL_UNKNOWN_KIND     kind not 1 to 12
 *   REEL_WRONG_LENGTH     a length that the kind, the number or the n of a look at a page does not have; a number that
 *                         is not in enum reel_number; a refusal with bytes laid; a CURRENT or MOST RECENT above 1
 *
 * and then all else is 0.
 */
uint64_t reel_read_reply(uint8_t kind, const uint8_t *reply, size_t reply_len);

/* ---- an answer of reel_answer, taken apart */

/* The number: REEL_ACCEPTED, or why the message was turned back. */
static inline unsigned reel_answer_number(uint32_t answer) { return answer & 255; }

/* The length of the reply in out; 0 with REEL_SHORT_BUFFER. */
static inline size_t reel_answer_length(uint32_t answer) { return answer >> 8 & 255; }

/*
 * The bytes laid into the stores: by a write its length for each CURRENT copy, by make copy REEL_FRAME_SIZE, by delete
 * copy and delete page REEL_FRAME_SIZE for each frame freed, also where it held zeros already; a null copy has no
 * frame. By all others 0.
 */
static inline unsigned reel_answer_laid(uint32_t answer) { return answer >> 16; }

/* ---- a place of reel_read, taken apart */

/* How many bytes the read has; 0 where it would be refused. */
static inline size_t reel_read_length(uint32_t place) { return place & 255; }

/* Whether the bytes of the read stand in the slow store. */
static inline int reel_read_slow(uint32_t place) { return (place >> 8 & 255) != 0; }

/* At which offset of their store the bytes of the read begin. */
static inline size_t reel_read_offset(uint32_t place) { return place >> 16; }

/* A pointer to the first byte of the read, in the stores that the place was asked for. */
static inline const uint8_t *reel_read_bytes(uint32_t place, const uint8_t *fast, const uint8_t *slow) {
  return (reel_read_slow(place) ? slow : fast) + reel_read_offset(place);
}

/* ---- the figures of reel_forecast, taken apart */

/* The most frames held at the start or after any message. */
static inline unsigned reel_forecast_most(const uint32_t *figures) { return figures[REEL_FIGURES_MOST]; }

/* The bytes laid in all. */
static inline uint32_t reel_forecast_laid(const uint32_t *figures) { return figures[REEL_FIGURES_LAID]; }

/* How many messages get a number; none get one above 31. */
static inline uint32_t reel_forecast_count(const uint32_t *figures, unsigned number) {
  return number < REEL_NUMBERS ? figures[REEL_FIGURES_COUNTS + number] : 0;
}

/* How many messages are refused, with any number. */
static inline uint64_t reel_forecast_refused(const uint32_t *figures) {
  uint64_t refused = 0;
  for (unsigned number = 1; number < REEL_NUMBERS; number++) refused += reel_forecast_count(figures, number);
  return refused;
}

/* ---- the writer for each kind, its arguments by name; for the rest as reel_write */

/* A call of any kind but a write. */
static inline uint32_t reel_write_plain(uint8_t kind, uint8_t first, uint8_t second, uint8_t third, uint8_t fourth,
                                        uint8_t *out, size_t out_len) {
  const uint8_t none = 0; /* no null pointer may be passed */
  return reel_write(kind, first, second, third, fourth, &none, 0, out, out_len);
}

static inline uint32_t reel_write_create(uint8_t station, uint8_t page, uint8_t *out, size_t out_len) {
  return reel_write_plain(REEL_KIND_CREATE, station, page, 0, 0, out, out_len);
}
static inline uint32_t reel_write_delete_page(uint8_t station, uint8_t page, uint8_t *out, size_t out_len) {
  return reel_write_plain(REEL_KIND_DELETE_PAGE, station, page, 0, 0, out, out_len);
}
static inline uint32_t reel_write_grant(uint8_t station, uint8_t page, uint8_t other, uint8_t right, uint8_t *out,
                                        size_t out_len) {
  return reel_write_plain(REEL_KIND_GRANT, station, page, other, right, out, out_len);
}
static inline uint32_t reel_write_read(uint8_t station, uint8_t page, uint8_t offset, uint8_t count, uint8_t *out,
                                       size_t out_len) {
  return reel_write_plain(REEL_KIND_READ, station, page, offset, count, out, out_len);
}
static inline uint32_t reel_write_write(uint8_t station, uint8_t page, uint8_t offset, const uint8_t *bytes,
                                        size_t bytes_len, uint8_t *out, size_t out_len) {
  return reel_write(REEL_KIND_WRITE, station, page, offset, 0, bytes, bytes_len, out, out_len);
}
static inline uint32_t reel_write_make_copy(uint8_t page, uint8_t copy, uint8_t frame, uint8_t *out, size_t out_len) {
  return reel_write_plain(REEL_KIND_MAKE_COPY, page, copy, frame, 0, out, out_len);
}
static inline uint32_t reel_write_delete_copy(uint8_t page, uint8_t copy, uint8_t *out, size_t out_len) {
  return reel_write_plain(REEL_KIND_DELETE_COPY, page, copy, 0, 0, out, out_len);
}
static inline uint32_t reel_write_set_current(uint8_t page, uint8_t copy, uint8_t *out, size_t out_len) {
  return reel_write_plain(REEL_KIND_SET_CURRENT, page, copy, 0, 0, out, out_len);
}
static inline uint32_t reel_write_remove_current(uint8_t page, uint8_t copy, uint8_t *out, size_t out_len) {
  return reel_write_plain(REEL_KIND_REMOVE_CURRENT, page, copy, 0, 0, out, out_len);
}
static inline uint32_t reel_write_look_page(uint8_t page, uint8_t *out, size_t out_len) {
  return reel_write_plain(REEL_KIND_LOOK_PAGE, page, 0, 0, 0, out, out_len);
}
static inline uint32_t reel_write_look_frame(uint8_t frame, uint8_t *out, size_t out_len) {
  return reel_write_plain(REEL_KIND_LOOK_FRAME, frame, 0, 0, 0, out, out_len);
}
static inline uint32_t reel_write_retire(uint8_t frame, uint8_t *out, size_t out_len) {
  return reel_write_plain(REEL_KIND_RETIRE, frame, 0, 0, 0, out, out_len);
}

/* ---- what reel_write gives, taken apart */

/* The number: REEL_ACCEPTED, or why nothing was written. */
static inline unsigned reel_written_number(uint32_t written) { return written & 255; }

/* The length of the message in out, or of the sixteen of a closed page; 0 where nothing was written. */
static inline size_t reel_written_length(uint32_t written) { return written >> 8; }

/* ---- the writer for a closed page, on which every station but its owner has right 0 */

/* For reel_write_create_closed alone: a create of the page and grants of right 0 to the other stations, one behind the
   other, in a buffer that has REEL_MESSAGE_SIZE bytes for the last one too. Gives number + 256 * length of all, or what
   the writer gives for the first that it refuses; those before it are then in out. */
static inline uint32_t reel_write_closing(uint8_t station, uint8_t page, uint8_t *out, size_t out_len) {
  uint32_t written = reel_write_create(station, page, out, out_len);
  size_t length = reel_written_length(written);
  for (uint8_t other = 0; other < REEL_STATIONS && reel_written_number(written) == REEL_ACCEPTED; other++) {
    if (other == station) continue;
    written = reel_write_grant(station, page, other, 0, out + length, out_len - length);
    length += reel_written_length(written);
  }
  return reel_written_number(written) == REEL_ACCEPTED ? REEL_ACCEPTED + 256 * (uint32_t)length : written;
}

/*
 * Writes sixteen messages at the head of out, one behind the other: the create of a page by a station, and its grants
 * of right 0 to the fifteen others in ascending order. Gives number + 256 * length of all, as reel_write does of one.
 * The number is REEL_ACCEPTED, and then the length REEL_CLOSED_SIZE, or the first that applies of
 *
 *   REEL_SHORT_BUFFER  out_len is below REEL_CLOSED_SIZE
 *   REEL_OUT_OF_RANGE  station or page too large, as the writer gives it
 *
 * and then the length is 0 and nothing is written.
 *
 * For a page that no other station may read, such as one of recipes or prices. The kernel checks none of this: the
 * station sends all sixteen before its first write to the page, as one call file or one by one, and writes only once
 * every grant was accepted. On a page that stands already the create is answered REEL_PAGE_STANDS and changes no right;
 * the grants are then accepted from the page's owner, and close it, while its own right stays as it was; to any other
 * station each is answered REEL_NO_RIGHT. So an owner that lost a reply sends all sixteen again.
 */
static inline uint32_t reel_write_create_closed(uint8_t station, uint8_t page, uint8_t *out, size_t out_len) {
  uint8_t file[REEL_CLOSED_SIZE + REEL_MESSAGE_SIZE]; /* so that a refusal leaves no part of them in out */
  uint32_t written;
  if (out_len < REEL_CLOSED_SIZE) return REEL_SHORT_BUFFER;
  written = reel_write_closing(station, page, file, sizeof file);
  for (size_t i = 0; i < reel_written_length(written); i++) out[i] = file[i];
  return written;
}

/* ---- what reel_read_reply gives, taken apart */

/* The reader's own refusal: REEL_ACCEPTED, or why the bytes are no reply to a message of the kind. */
static inline unsigned reel_reply_refused(uint64_t told) { return told & 255; }

/* The number that the reply carries, where it was read: REEL_ACCEPTED, or why the unit turned the message back. */
static inline unsigned reel_reply_number(uint64_t told) { return told >> 8 & 255; }

/* Whether the reply was read and says that the message was carried out. */
static inline int reel_reply_accepted(uint64_t told) {
  return reel_reply_refused(told) == REEL_ACCEPTED && reel_reply_number(told) == REEL_ACCEPTED;
}

/* The bytes laid. */
static inline unsigned reel_reply_laid(uint64_t told) { return told >> 16 & 65535; }

/* Where the data of a read or look begin in the reply. */
static inline size_t reel_reply_start(uint64_t told) { return told >> 32 & 255; }

/* How many bytes of data there are. */
static inline size_t reel_reply_length(uint64_t told) { return told >> 40; }

/* A pointer to the first byte of data, in the bytes that were read. */
static inline const uint8_t *reel_reply_data(uint64_t told, const uint8_t *reply) {
  return reply + reel_reply_start(told);
}

#ifdef __cplusplus
}
#endif

#endif
