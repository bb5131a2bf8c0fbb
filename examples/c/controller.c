/* A controller's step: the gain's multiple of the error, rounded down, plus the bias, and held at the ends of the
 * format. Errors, biases and outputs are units of 2^-8, gains of 2^-12. */
#include "fixed.h"
#include <stdio.h>

static int16_t output(int16_t error, int16_t gain, int16_t bias) {
  fixed_i16 moved;
  if (fixed_i16_mul_add(error, gain, bias, 12, &moved) != FIXED_OK) exit(1);
  return fixed_i16_saturating(moved);
}

int main(void) {
  const int16_t gain = 14336, bias = 1280; /* 3.5 and 5 */
  printf("%d\n", output(2560, gain, bias));
  printf("%d\n", output(12800, gain, bias));
  printf("%d\n", output(-12800, gain, bias));

  /* The time that the way at that speed takes, where there is a speed. */
  fixed_i16 time;
  printf("%d\n", (int)fixed_i16_div(2560, 512, 8, &time));
  printf("%d\n", fixed_i16_strict(time));
  printf("%d\n", (int)fixed_i16_div(2560, 0, 8, &time));

  /* The same where the speed is known to within a unit: the least and the greatest time. */
  fixed_i16_interval times;
  printf("%d\n", (int)fixed_i16_div_in(2560, 2560, 511, 513, 8, &times));
  printf("%d to %d\n", times.low, times.high);

  /* The level of a signal in decades: that of 100 is 2. A signal of 0 has none. */
  int16_t decades;
  printf("%d\n", (int)fixed_i16_log10(25600, 8, &decades));
  printf("%d\n", decades);
  printf("%d\n", (int)fixed_i16_log10(0, 8, &decades));
  return 0;
}
