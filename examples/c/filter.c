/* A filter: eight taps that add up to 1, over samples that step from 0 to 1 and back. Samples are units of 2^-16 and
 * taps of 2^-30. The first eight samples come one by one, and the others in a block. */
#include "fixed.h"
#include <stdio.h>

#define TAPS 8

static const int32_t taps[TAPS] = {26843546, 80530637, 187904819, 241591910, 241591910, 187904819, 80530637, 26843546};

/* The output at a sample, which joins the past ones: the sum of the products of taps and samples. */
static int32_t pushed(int32_t past[TAPS], int32_t sample) {
  int32_t output;
  size_t tap = 0;
  int32_t code = fixed_i32_filter(taps, TAPS, past, TAPS, sample, 16, 30, 16, &output, &tap);
  if (code != FIXED_OK) {
    fprintf(stderr, "no output at tap %lu: code %d\n", (unsigned long)tap, (int)code);
    exit(1);
  }
  return output;
}

int main(void) {
  int32_t past[TAPS] = {0}, output[8];
  const int32_t input[8] = {0};
  size_t sample, tap;
  for (int t = 0; t < 8; t++) printf("%d\n", (int)pushed(past, 65536));
  if (fixed_i32_filter_block(taps, TAPS, past, TAPS, input, 8, output, 8, 16, 30, 16, &sample, &tap) != FIXED_OK) return 1;
  for (int t = 0; t < 8; t++) printf("%d\n", (int)output[t]);
  return 0;
}
