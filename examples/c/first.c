/* The first program of README.md. */
#include <fixed.h>
#include <stdio.h>

int main(void) {
  fixed_i32 product;
  /* 32767 times 2 with 16 fraction bits: the exact result is too large. */
  if (fixed_i32_mul(2147418112, 131072, 16, &product) != FIXED_OK) return 1;
  printf("%d %d\n", (int)fixed_i32_saturating(product), (int)fixed_i32_wrapping(product));
  return 0;
}
