/* Conversions of words to floats and back over 4,096 numbers, beside the same loop by hand, which has to answer alike.
 * bench/floats.py compiles this by gcc -O3, with the library of the loops, and runs it. Words have half of their bits
 * behind the point. */
#include "draws.h"
#include <emmintrin.h>
#include <stdio.h>
#include <stdlib.h>
#include <string.h>

#define COUNT 4096
#define PASSES 2001
#define BY_HAND __attribute__((noipa)) static

/* No loop takes a NaN, which saturating conversions refuse. */
#define NUMBER(x) ((x) < 1e30f ? (x) : 1e30f)

/* The nearest integers, ties to even. */
#define SHORT_double(u) _mm_cvtsd_si32(_mm_set_sd(u))
#define SHORT_float(u) _mm_cvtss_si32(_mm_set_ss(u))
#define LONG_double(u) _mm_cvtsd_si64(_mm_set_sd(u))
#define LONG_float(u) _mm_cvtss_si64(_mm_set_ss(u))
#define UPPER_double(u) ((u) < 0x1p63 ? (uint64_t)LONG_double(u) : (uint64_t)LONG_double((u)-0x1p63) ^ 1ull << 63)
#define UPPER_float(u) ((u) < 0x1p63f ? (uint64_t)LONG_float(u) : (uint64_t)LONG_float((u)-0x1p63f) ^ 1ull << 63)

/* At the ends of a range whose greatest number is a float, and of one whose first number beyond it is. */
#define HELD(u, most, least, CUT) CUT((u) < (least) ? (least) : (u) > (most) ? (most) : (u))
#define BELOW(u, most, least, CUT) ((u) >= (most) + 1.0 ? (most) : CUT((u) < (least) ? (least) : (u)))

/* The loops of a word and a float. UNIT is 2^frac, and numbers from LOW to below HIGH are rounded into the range. */
#define LOOPS(w, W, f, F, UNIT, ENDS, least, most, LOW, HIGH, CUT)                                                 \
  void w##_from_##f##_saturating(const F *numbers, W *results);                                                    \
  uint32_t w##_from_##f##_checked(const F *numbers, W *results);                                                   \
  void w##_to_##f(const W *numbers, F *results);                                                                   \
  BY_HAND void saturating_##w##_##f(const F *numbers, W *results) {                                                \
    for (int i = 0; i < COUNT; i++) {                                                                              \
      const F units = (F)NUMBER(numbers[i]) * (F)(UNIT);                                                           \
      results[i] = (W)ENDS(units, most, least, CUT);                                                               \
    }                                                                                                              \
  }                                                                                                                \
  BY_HAND uint32_t checked_##w##_##f(const F *numbers, W *results) {                                               \
    uint32_t refused = 0;                                                                                          \
    for (int i = 0; i < COUNT; i++) {                                                                              \
      const F units = numbers[i] * (F)(UNIT);                                                                      \
      if (units >= (F)(LOW) && units < (F)(HIGH)) results[i] = (W)CUT(units);                                      \
      else refused++;                                                                                              \
    }                                                                                                              \
    return refused;                                                                                                \
  }                                                                                                                \
  BY_HAND void out_##w##_##f(const W *numbers, F *results) {                                                       \
    for (int i = 0; i < COUNT; i++) results[i] = (F)numbers[i] / (F)(UNIT);                                        \
  }

/* One row: the least nanoseconds a number of both sides. */
#define ROW(name, R, here, by_hand)                                                                                \
  {                                                                                                                \
    static R results[COUNT], wanted[COUNT];                                                                        \
    double least = 1e18, least_by_hand = 1e18;                                                                     \
    for (int pass = 0; pass < PASSES; pass++) {                                                                    \
      double start = now();                                                                                        \
      here;                                                                                                        \
      double taken = now() - start;                                                                                \
      if (taken < least) least = taken;                                                                            \
      start = now();                                                                                               \
      by_hand;                                                                                                     \
      taken = now() - start;                                                                                       \
      if (taken < least_by_hand) least_by_hand = taken;                                                            \
    }                                                                                                              \
    if (memcmp(results, wanted, sizeof results) != 0) {                                                            \
      printf("%s: the answers differ\n", name);                                                                    \
      exit(1);                                                                                                     \
    }                                                                                                              \
    printf("%s %.4f %.4f\n", name, least / COUNT, least_by_hand / COUNT);                                          \
  }

/* The rows of floats of which all but the upper BITS of a word are drawn. */
#define IN(w, W, f, F, UNIT, BITS, more)                                                                           \
  {                                                                                                                \
    static F numbers[COUNT];                                                                                       \
    for (int i = 0; i < COUNT; i++) numbers[i] = (F)((W)draw() >> (BITS)) / (F)(UNIT);                             \
    ROW(#w "_from_" #f "_saturating" more, W, w##_from_##f##_saturating(numbers, results),                         \
        saturating_##w##_##f(numbers, wanted))                                                                     \
    ROW(#w "_from_" #f "_checked" more, W, w##_from_##f##_checked(numbers, results),                               \
        checked_##w##_##f(numbers, wanted))                                                                        \
  }

#define OUT(w, W, f, F)                                                                                            \
  {                                                                                                                \
    static W numbers[COUNT];                                                                                       \
    for (int i = 0; i < COUNT; i++) numbers[i] = (W)draw();                                                        \
    ROW(#w "_to_" #f, F, w##_to_##f(numbers, results), out_##w##_##f(numbers, wanted))                             \
  }

#define FLOATS(w, W, UNIT, ENDS_64, ENDS_32, least, most, LOW, HIGH, CUT)                                          \
  LOOPS(w, W, f64, double, UNIT, ENDS_64, least, most, LOW, HIGH, CUT##_double)                                    \
  LOOPS(w, W, f32, float, UNIT, ENDS_32, least, most, LOW, HIGH, CUT##_float)                                      \
  static void rows_##w(void) {                                                                                     \
    IN(w, W, f64, double, UNIT, 0, "")                                                                             \
    if (sizeof(W) == 8) IN(w, W, f64, double, UNIT, 22, "_near")                                                   \
    IN(w, W, f32, float, UNIT, 0, "")                                                                              \
    OUT(w, W, f64, double)                                                                                         \
    OUT(w, W, f32, float)                                                                                          \
  }

FLOATS(i8, int8_t, 0x1p4, HELD, HELD, INT8_MIN, INT8_MAX, -128.5, 127.5, SHORT)
FLOATS(i16, int16_t, 0x1p8, HELD, HELD, INT16_MIN, INT16_MAX, -32768.5, 32767.5, SHORT)
FLOATS(i32, int32_t, 0x1p16, HELD, BELOW, INT32_MIN, INT32_MAX, -2147483648.5, 2147483647.5, SHORT)
FLOATS(i64, int64_t, 0x1p32, BELOW, BELOW, INT64_MIN, INT64_MAX, -0x1p63, 0x1p63, LONG)
FLOATS(u8, uint8_t, 0x1p4, HELD, HELD, 0, UINT8_MAX, -0.5, 255.5, SHORT)
FLOATS(u16, uint16_t, 0x1p8, HELD, HELD, 0, UINT16_MAX, -0.5, 65535.5, SHORT)
FLOATS(u32, uint32_t, 0x1p16, HELD, BELOW, 0, UINT32_MAX, -0.5, 4294967295.5, LONG)
FLOATS(u64, uint64_t, 0x1p32, BELOW, BELOW, 0, UINT64_MAX, -0.5, 0x1p64, UPPER)

int main(void) {
  rows_i8(), rows_i16(), rows_i32(), rows_i64();
  rows_u8(), rows_u16(), rows_u32(), rows_u64();
  return 0;
}
