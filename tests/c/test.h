/* What the tests in C share: a fact that has to hold, and numbers that follow from a seed. */
#ifndef TEST_H
#define TEST_H

#include <stdint.h>
#include <stdio.h>
#include <stdlib.h>

/* The test ends where the fact does not hold, and names it. */
static inline void expect(int holds, const char *what) {
  if (!holds) {
    printf("FAILED: %s\n", what);
    exit(1);
  }
}

/* Any number below this one. */
static inline uint32_t any(uint32_t below) {
  static uint32_t seed = 7;
  seed = seed * 1664525u + 1013904223u;
  return (uint32_t)(((uint64_t)(seed >> 8) * below) >> 24);
}

#endif
