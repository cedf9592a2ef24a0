/* Messages that follow from a seed. */
#ifndef RANDOM_H
#define RANDOM_H

#include "test.h"

#include <reel.h>

/* A message, mostly one of the right form and with arguments that have a chance in a unit of so many frames. */
static inline size_t any_message(uint8_t *to, uint32_t frames) {
  static const uint8_t lengths[] = {4, 4, 6, 6, 6, 5, 4, 4, 4, 3, 3, 3};
  static const uint8_t kinds[] = {1, 1, 1, 1, 2, 3, 3, 4, 4, 4, 5, 5, 5, 5, 6,  6,
                                  6, 6, 6, 6, 6, 7, 7, 8, 8, 8, 8, 9, 10, 11, 12};
  size_t kind = kinds[any(sizeof kinds)], length = lengths[kind - 1], i;
  if (kind == REEL_KIND_WRITE) length += any(64);
  if (any(50) == 0) length = any(70);
  for (i = 4; i < length + 2; i++) to[i] = (uint8_t)(any(20) == 0 ? any(256) : any(3));
  to[0] = 0;
  to[1] = (uint8_t)length;
  if (length > 0) to[2] = any(50) == 0 ? 2 : REEL_MESSAGE_VERSION;
  if (length > 1) to[3] = (uint8_t)(any(50) == 0 ? any(256) : kind);
  if (kind <= REEL_KIND_WRITE && length > 3 && any(8) != 0) to[4] = 0;
  if (kind == REEL_KIND_MAKE_COPY && length == 5) to[6] = (uint8_t)any(frames + 1);
  if (kind == REEL_KIND_READ && length == 6) to[7] = (uint8_t)any(66);
  return length + 2;
}

#endif
