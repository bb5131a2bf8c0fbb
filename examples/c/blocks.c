/* Mixes a block of samples into another, and prints it as decimals. Samples have 14 fraction bits: 16384 is 1.0. */
#include "fixed.h"
#include <stdio.h>

enum { FRAC = 14, COUNT = 4 };

static int print_block(const int16_t *block) {
  char text[16];
  size_t length;
  for (size_t i = 0; i < COUNT; i++) {
    if (fixed_i16_print(block[i], FRAC, 4, FIXED_NEAREST_EVEN, text, sizeof text, &length) != FIXED_OK) return 1;
    printf("%s\n", text);
  }
  return 0;
}

int main(void) {
  int16_t block[COUNT] = {8192, 24576, -16384, 28672};        /* 0.5, 1.5, -1, 1.75 */
  const int16_t others[COUNT] = {8192, 16384, -24576, 16384}; /* 0.5, 1, -1.5, 1 */
  fixed_i16 gain;
  size_t place = 0;
  /* The gain is read from text: 0.75. */
  if (fixed_i16_parse("0.75", 4, FRAC, FIXED_NEAREST_EVEN, &gain) != FIXED_OK) return 1;
  if (fixed_i16_scale_block(block, COUNT, gain.bits, FRAC, FIXED_SATURATING, &place) != FIXED_OK) return 1;
  /* The checked sum stops at 1.125 + 1, which does not fit. */
  int16_t checked[COUNT];
  for (size_t i = 0; i < COUNT; i++) checked[i] = block[i];
  if (fixed_i16_add_block(checked, COUNT, others, COUNT, FIXED_CHECKED, &place) != FIXED_OUT_OF_RANGE) return 1;
  printf("stopped at %d\n", (int)place);
  /* The saturating one holds it at the largest number, just below 2. */
  if (fixed_i16_add_block(block, COUNT, others, COUNT, FIXED_SATURATING, &place) != FIXED_OK) return 1;
  return print_block(block);
}
