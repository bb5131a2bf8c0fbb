/* A mixer: two tracks are added and held at the ends of the format, and a third joins through a fader. Samples are
 * units of 2^-15. */
#include "fixed.h"
#include <stdio.h>

/* The sum, held at the ends. A sum has no code, since it asks for nothing. */
static int16_t mixed(int16_t a, int16_t b) {
  fixed_i16 sum;
  fixed_i16_add(a, b, &sum);
  return fixed_i16_saturating(sum);
}

/* The track plus the voice through the fader, which has 12 places behind the point; held at the ends. */
static int16_t faded_in(int16_t track, int16_t voice, int16_t fader) {
  fixed_i16 sum;
  int32_t code = fixed_i16_add_prod(track, voice, fader, 15, 15, 12, &sum);
  if (code != FIXED_OK) {
    fprintf(stderr, "no sample: code %d\n", (int)code);
    exit(1);
  }
  return fixed_i16_saturating(sum);
}

int main(void) {
  int16_t both = mixed(30000, 20000);
  printf("%d\n", both);
  printf("%d\n", mixed(both, -5000));
  printf("%d\n", faded_in(-5000, 20000, 6144)); /* a fader at 1.5 */
  return 0;
}
