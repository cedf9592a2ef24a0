/*
 * Kernels that leak, to see that the test finds each. Linked by --wrap=reel_answer, this file stands in the place of
 * reel_answer, and looks at contents before the library's own function is called. LEAK is a row of `leaks`, from 0 on.
 */
#include <reel.h>

enum { BYTES_AT = REEL_MESSAGE_SIZE - REEL_FRAME_SIZE /* in a write */ };

/* The bytes that a write or a delete copy is about, as they are stored, and those that are to take their place. */
struct change {
  const uint8_t *stored, *becomes;
  size_t count;
};

/* What a leak finds goes here, so that the compiler leaves it in. */
static volatile size_t found;

/* Compares before anything is laid, up to the first byte that differs. */
static void compare(struct change c) {
  size_t i = 0;
  while (i < c.count && c.stored[i] == c.becomes[i]) i++;
  found = i;
}

/* Looks each byte up in a table, by as many instructions whatever the bytes are. */
static void look_up(struct change c) {
  static volatile uint8_t lines[256][64];
  size_t i;
  for (i = 0; i < c.count; i++) found = lines[c.becomes[i]][0];
}

/* A kind of message, and what leaks of it. */
static const struct {
  uint8_t kind;
  void (*of)(struct change c);
} leaks[] = {{REEL_KIND_WRITE, compare}, {REEL_KIND_DELETE_COPY, compare}, {REEL_KIND_WRITE, look_up}};

/* The change of a write, at the place of a read. */
static struct change written(const uint8_t *tables, size_t tables_len, const uint8_t *fast, size_t fast_len,
                             const uint8_t *slow, size_t slow_len, const uint8_t *message, size_t message_len) {
  uint32_t place = reel_read(tables, tables_len, fast_len, slow_len, message[4], message[5], message[6],
                             (uint8_t)(message_len - BYTES_AT));
  struct change c = {reel_read_bytes(place, fast, slow), message + BYTES_AT, reel_read_length(place)};
  return c;
}

/* The change of a delete copy: zeros on its frame. */
static struct change deleted(const uint8_t *tables, const uint8_t *fast, const uint8_t *slow, const uint8_t *message) {
  static const uint8_t zeros[REEL_FRAME_SIZE];
  size_t frame = tables[REEL_TABLES_PAGES + REEL_PAGE_SIZE * message[4] + REEL_PAGE_COPIES +
                        REEL_COPY_SIZE * message[5] + REEL_COPY_FRAME];
  size_t p = tables[REEL_TABLES_P];
  struct change c = {frame < p ? fast + REEL_FRAME_SIZE * frame : slow + REEL_FRAME_SIZE * (frame - p), zeros,
                     REEL_FRAME_SIZE};
  return c;
}

uint32_t __real_reel_answer(uint8_t *tables, size_t tables_len, uint8_t *fast, size_t fast_len, uint8_t *slow,
                            size_t slow_len, const uint8_t *message, size_t message_len, uint8_t *out, size_t out_len);

/* Every message that is sent here has a kind, and every write and delete copy is accepted. */
uint32_t __wrap_reel_answer(uint8_t *tables, size_t tables_len, uint8_t *fast, size_t fast_len, uint8_t *slow,
                            size_t slow_len, const uint8_t *message, size_t message_len, uint8_t *out, size_t out_len) {
  if (message[3] == leaks[LEAK].kind)
    leaks[LEAK].of(message[3] == REEL_KIND_WRITE
                       ? written(tables, tables_len, fast, fast_len, slow, slow_len, message, message_len)
                       : deleted(tables, fast, slow, message));
  return __real_reel_answer(tables, tables_len, fast, fast_len, slow, slow_len, message, message_len, out, out_len);
}
