/* What the benches in C share: numbers of 64 bits, one after the other, and the time in nanoseconds. */
#include <stdint.h>
#include <time.h>

static uint64_t state = 42;

static uint64_t draw(void) {
  state = state * 6364136223846793005u + 1442695040888963407u;
  return state ^ (state >> 29);
}

static double now(void) {
  struct timespec t;
  clock_gettime(CLOCK_MONOTONIC, &t);
  return (double)t.tv_sec * 1e9 + (double)t.tv_nsec;
}
