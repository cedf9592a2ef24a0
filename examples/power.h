/*
 * A unit that outlives a loss of power, to be copied. Its state, which is the tables and both stores, stands in memory
 * for the kernel, and in two slots on a medium that keeps its bytes. After each message that may have changed it, it is
 * written to the slot that has the older state, so the newer one is not touched. A cut at any byte leaves the state
 * before the message or the state after it. examples/power.c is a program with it.
 *
 * A slot: the state's number (8 bytes), tables, fast store, slow store, seal (4 bytes), the low byte of numbers first.
 * The seal is a checksum of all before it, and never 0. A slot is whole if its seal is right; of two, the one with the
 * larger number counts. A slot is written in three steps, and each has reached the medium before the next begins:
 *
 *   1. a seal of 0    a cut here leaves the slot whole or not, and its state is the older one either way
 *   2. all before it  a cut here leaves any mix of old and new bytes, but the seal is 0, so the slot is not whole
 *   3. the seal       a cut here leaves a wrong seal or the right one, and the state is there in full
 *
 * Without the first step the checksum alone would have to tell a mix from a whole state, and once in 2^32 it cannot.
 *
 * What the medium must promise:
 *
 *   - All that was written before a barrier has reached it before anything written after it does. Ask this of every
 *     cache and controller on the way. Between two barriers the bytes may come in any order.
 *   - A write that is cut harms no byte outside its slot: where the medium is written in blocks, no block has bytes of
 *     both. The bytes that it was to write may be old, new, or neither. If it can harm others of the slot, give the
 *     seal a block of its own, or this too is left to the checksum.
 *   - What it has kept through a barrier stays and reads the same each time. A byte that changes by itself breaks the
 *     seal, and then the older state counts: sound, but one message behind.
 */
#ifndef POWER_H
#define POWER_H

#include <reel.h>

#include <string.h>

enum { POWER_P = 4, POWER_S = 4 }; /* the unit's fast and slow frames */

/* Where all stands in a slot, and what a slot takes. */
enum {
  POWER_TABLES = 8,
  POWER_FAST = POWER_TABLES + REEL_TABLES_SIZE,
  POWER_SLOW = POWER_FAST + REEL_FRAME_SIZE * POWER_P,
  POWER_SEAL = POWER_SLOW + REEL_FRAME_SIZE * POWER_S,
  POWER_SLOT = POWER_SEAL + 4
};

/* The medium, 2 * POWER_SLOT bytes: these three are the unit's own. */
void medium_read(size_t at, uint8_t *bytes, size_t length);
void medium_write(size_t at, const uint8_t *bytes, size_t length);
void medium_barrier(void);

/* A unit in memory: its state as it stands in a slot, and in which slot it was written last. */
struct power {
  uint8_t image[POWER_SLOT];
  int slot;
};

static inline uint64_t power_get(const uint8_t *bytes, int count) {
  uint64_t value = 0;
  while (count > 0) value = 256 * value + bytes[--count];
  return value;
}

static inline void power_put(uint8_t *bytes, int count, uint64_t value) {
  for (; count > 0; count--, value /= 256) *bytes++ = (uint8_t)(value % 256);
}

/* CRC-32 of all before the seal, four bits at a time; 0 is kept for a slot that is being written. */
static inline uint32_t power_checksum(const struct power *unit) {
  static const uint32_t steps[16] = {0x00000000, 0x1DB71064, 0x3B6E20C8, 0x26D930AC, 0x76DC4190, 0x6B6B51F4,
                                     0x4DB26158, 0x5005713C, 0xEDB88320, 0xF00F9344, 0xD6D6A3E8, 0xCB61B38C,
                                     0x9B64C2B0, 0x86D3D2D4, 0xA00AE278, 0xBDBDF21C};
  uint32_t sum = 0xFFFFFFFF;
  int i;
  for (i = 0; i < POWER_SEAL; i++) {
    sum ^= unit->image[i];
    sum = sum >> 4 ^ steps[sum % 16];
    sum = sum >> 4 ^ steps[sum % 16];
  }
  sum = ~sum;
  return sum == 0 ? 1 : sum;
}

/* Reads a slot. Gives the number of its state, or 0 where it is not whole. */
static inline uint64_t power_load(struct power *unit, int slot) {
  uint64_t seal;
  unit->slot = slot;
  medium_read((size_t)slot * POWER_SLOT, unit->image, POWER_SLOT);
  seal = power_get(unit->image + POWER_SEAL, POWER_SLOT - POWER_SEAL);
  return seal == power_checksum(unit) ? power_get(unit->image, POWER_TABLES) : 0;
}

/*
 * After power-up: reads the state that counts, and gives whether there is one. There is none before the first
 * power_begin has ended. Later it means that the medium broke its promises in both slots: then do not begin anew in
 * silence, since all pages are lost. Test the state by reel_rules as ever.
 */
static inline int power_start(struct power *unit) {
  uint64_t first = power_load(unit, 0), second = power_load(unit, 1);
  return (first > second ? power_load(unit, 0) : second) != 0;
}

/* Lays a seal of 0: from here on the slot is not whole. */
static inline void power_open(int slot) {
  static const uint8_t seal[POWER_SLOT - POWER_SEAL] = {0};
  medium_write((size_t)slot * POWER_SLOT + POWER_SEAL, seal, sizeof seal);
  medium_barrier();
}

/* Writes the state to the other slot. When it has ended, the state is kept. */
static inline void power_save(struct power *unit) {
  size_t at;
  unit->slot = 1 - unit->slot;
  at = (size_t)unit->slot * POWER_SLOT;
  power_put(unit->image, POWER_TABLES, power_get(unit->image, POWER_TABLES) + 1);
  power_put(unit->image + POWER_SEAL, POWER_SLOT - POWER_SEAL, power_checksum(unit));
  power_open(unit->slot);
  medium_write(at, unit->image, POWER_SEAL);
  medium_barrier();
  medium_write(at + POWER_SEAL, unit->image + POWER_SEAL, POWER_SLOT - POWER_SEAL);
  medium_barrier();
}

/*
 * Begins with fresh tables and stores of zeros. What the slots had is thrown away, the older state first, as a cut in
 * between would else bring it back.
 */
static inline void power_begin(struct power *unit) {
  power_start(unit);
  power_open(1 - unit->slot);
  power_open(unit->slot);
  memset(unit->image, 0, sizeof unit->image);
  reel_fresh(POWER_P, POWER_S, unit->image + POWER_TABLES, REEL_TABLES_SIZE);
  power_save(unit);
}

/* Whether an accepted message of this kind may change tables or stores. */
static inline int power_changes(uint8_t kind) {
  return kind != REEL_KIND_READ && kind != REEL_KIND_LOOK_PAGE && kind != REEL_KIND_LOOK_FRAME;
}

/*
 * As reel_answer. The state is kept when it returns, so send the reply then, and not before: a station that has a reply
 * can count on it. One that gets none does not know whether its message was carried out: it looks before it sends it
 * again, as a delete copy that is carried out twice takes two copies.
 */
static inline uint32_t power_answer(struct power *unit, const uint8_t *message, size_t length, uint8_t *out,
                                    size_t room) {
  uint8_t *image = unit->image;
  uint32_t answer = reel_answer(image + POWER_TABLES, REEL_TABLES_SIZE, image + POWER_FAST, POWER_SLOW - POWER_FAST,
                                image + POWER_SLOW, POWER_SEAL - POWER_SLOW, message, length, out, room);
  if (reel_answer_number(answer) == REEL_ACCEPTED && power_changes(message[3])) power_save(unit);
  return answer;
}

#endif
