/* Each call over a block of 4,096 numbers, the dot product and a filter, beside the same loop by hand, which it has to answer
 * alike. bench/face.py compiles this by gcc -O3, and runs it. */
#include "draws.h"
#include "fixed.h"
#include <stdio.h>
#include <string.h>

#define COUNT 4096
#define PASSES 401
#define BY_HAND __attribute__((noipa)) static int32_t

/* One loop by hand. EXACT is the exact result of x and y in an integer that holds it, WRITTEN is what the loop writes of it,
 * and STOPS whether the loop stops there. */
#define LOOP(label, policy, W, WIDE, EXACT, STOPS, WRITTEN)                                                        \
  BY_HAND label##_##policy(W *block, const W *others, size_t count, W k, uint32_t frac, size_t *place) {           \
    for (size_t i = 0; i < count; i++) {                                                                           \
      const WIDE x = block[i], y = others[i], exact = (WIDE)(EXACT);                                               \
      (void)y, (void)k, (void)frac, (void)place;                                                                   \
      if (STOPS) {                                                                                                 \
        *place = i;                                                                                                \
        return FIXED_OUT_OF_RANGE;                                                                                 \
      }                                                                                                            \
      block[i] = (W)(WRITTEN);                                                                                     \
    }                                                                                                              \
    return 0;                                                                                                      \
  }

/* The three policies of a loop. */
#define LOOPS(label, W, WIDE, least, greatest, EXACT)                                                              \
  LOOP(label, saturating, W, WIDE, EXACT, 0,                                                                       \
       exact > (WIDE)(greatest) ? (greatest) : exact < (WIDE)(least) ? (least) : exact)                            \
  LOOP(label, wrapping, W, WIDE, EXACT, 0, exact)                                                                  \
  LOOP(label, checked, W, WIDE, EXACT, exact > (WIDE)(greatest) || exact < (WIDE)(least), exact)

/* One row of a policy: the least nanoseconds a number of both sides. */
#define ROW(name, W, operation, policy, number, numbers, more, ...)                                                \
  {                                                                                                                \
    double least = 1e18, least_by_hand = 1e18;                                                                     \
    const W *first = numbers, *others = more;                                                                      \
    const uint32_t policy_number = number;                                                                         \
    for (int pass = 0; pass < PASSES; pass++) {                                                                    \
      size_t place = 0, place_by_hand = 0;                                                                         \
      memcpy(block, first, sizeof block);                                                                          \
      memcpy(by_hand, first, sizeof block);                                                                        \
      double start = now();                                                                                        \
      const int32_t got = name##_##operation##_block(__VA_ARGS__, policy_number, &place);                          \
      double taken = now() - start;                                                                                \
      if (taken < least) least = taken;                                                                            \
      start = now();                                                                                               \
      const int32_t want = name##_hand_##operation##_##policy(by_hand, others, COUNT, k, frac, &place_by_hand);    \
      taken = now() - start;                                                                                       \
      if (taken < least_by_hand) least_by_hand = taken;                                                            \
      if (got != want || place != place_by_hand || memcmp(block, by_hand, sizeof block) != 0) {                    \
        printf(#name "_" #operation "_" #policy ": the answers differ\n");                                         \
        exit(1);                                                                                                   \
      }                                                                                                            \
    }                                                                                                              \
    printf(#name "_" #operation "_" #policy " %.4f %.4f\n", least / COUNT, least_by_hand / COUNT);                 \
  }

/* The rows of an operation. Checked loops take the numbers FITTING and MORE, whose results fit. */
#define POLICIES(name, W, operation, fitting, more, ...)                                                           \
  ROW(name, W, operation, saturating, FIXED_SATURATING, large, large + 1, __VA_ARGS__)                             \
  ROW(name, W, operation, wrapping, FIXED_WRAPPING, large, large + 1, __VA_ARGS__)                                 \
  ROW(name, W, operation, checked, FIXED_CHECKED, fitting, more, __VA_ARGS__)

/* The sum of the products by hand, in an integer that holds it. */
#define DOT(name, W, TOTAL)                                                                                        \
  __attribute__((noipa)) static TOTAL name##_hand_dot(const W *a, const W *b, size_t count) {                      \
    TOTAL sum = 0;                                                                                                 \
    for (size_t i = 0; i < count; i++) sum += (TOTAL)a[i] * b[i];                                                  \
    return sum;                                                                                                    \
  }                                                                                                                \
  static void dot_##name(const W *a, const W *b, uint32_t frac) {                                                  \
    double least = 1e18, least_by_hand = 1e18;                                                                     \
    for (int pass = 0; pass < PASSES; pass++) {                                                                    \
      name result = {0, 0};                                                                                        \
      double start = now();                                                                                        \
      const int32_t got = name##_dot(a, COUNT, b, COUNT, frac, &result);                                           \
      double taken = now() - start;                                                                                \
      if (taken < least) least = taken;                                                                            \
      start = now();                                                                                               \
      const TOTAL sum = name##_hand_dot(a, b, COUNT);                                                              \
      taken = now() - start;                                                                                       \
      if (taken < least_by_hand) least_by_hand = taken;                                                            \
      if (got != FIXED_OK || result.bits != (W)(sum >> frac)) {                                                    \
        printf(#name "_dot: the answers differ\n");                                                                \
        exit(1);                                                                                                   \
      }                                                                                                            \
    }                                                                                                              \
    printf(#name "_dot %.4f %.4f\n", least / COUNT, least_by_hand / COUNT);                                        \
  }

DOT(fixed_i8, int8_t, int64_t)
DOT(fixed_i16, int16_t, int64_t)
DOT(fixed_i32, int32_t, __int128)
DOT(fixed_i64, int64_t, __int128)
DOT(fixed_u8, uint8_t, uint64_t)
DOT(fixed_u16, uint16_t, uint64_t)
DOT(fixed_u32, uint32_t, unsigned __int128)
DOT(fixed_u64, uint64_t, unsigned __int128)

#define TAPS 64

/* A filter of 64 taps, by hand in an integer that holds each sum. Samples before the block are those at its front. */
#define FILTER(name, W, TOTAL)                                                                                     \
  __attribute__((noipa)) static void name##_hand_filter(const W *taps, const W *from, W *output, uint32_t down) {  \
    for (size_t i = TAPS; i < COUNT; i++) {                                                                        \
      TOTAL sum = 0;                                                                                               \
      for (size_t t = 0; t < TAPS; t++) sum += ((TOTAL)taps[t] * from[i - t]) >> down;                             \
      output[i] = (W)sum;                                                                                          \
    }                                                                                                              \
  }                                                                                                                \
  static void filter_##name(const W *from, uint32_t frac) {                                                        \
    static W taps[TAPS], past[TAPS], output[COUNT], by_hand[COUNT];                                                \
    const size_t count = COUNT - TAPS;                                                                             \
    double least = 1e18, least_by_hand = 1e18;                                                                     \
    for (int t = 0; t < TAPS; t++) taps[t] = (W)(draw() % ((W)1 << (frac - 3)));                                   \
    for (int pass = 0; pass < PASSES; pass++) {                                                                    \
      size_t sample, tap;                                                                                          \
      for (int t = 0; t < TAPS; t++) past[t] = from[TAPS - 1 - t];                                                 \
      double start = now();                                                                                        \
      const int32_t got = name##_filter_block(taps, TAPS, past, TAPS, from + TAPS, count, output + TAPS, count,    \
                                              frac, frac, frac, &sample, &tap);                                    \
      double taken = now() - start;                                                                                \
      if (taken < least) least = taken;                                                                            \
      start = now();                                                                                               \
      name##_hand_filter(taps, from, by_hand, frac);                                                               \
      taken = now() - start;                                                                                       \
      if (taken < least_by_hand) least_by_hand = taken;                                                            \
      if (got != FIXED_OK || memcmp(output, by_hand, sizeof output) != 0) {                                        \
        printf(#name "_filter_block: the answers differ\n");                                                       \
        exit(1);                                                                                                   \
      }                                                                                                            \
    }                                                                                                              \
    printf(#name "_filter_block %.4f %.4f\n", least / (double)count, least_by_hand / (double)count);               \
  }

FILTER(fixed_i8, int8_t, int32_t)
FILTER(fixed_i16, int16_t, int32_t)
FILTER(fixed_i32, int32_t, int64_t)
FILTER(fixed_i64, int64_t, __int128)
FILTER(fixed_u8, uint8_t, uint32_t)
FILTER(fixed_u16, uint16_t, uint32_t)
FILTER(fixed_u32, uint32_t, uint64_t)
FILTER(fixed_u64, uint64_t, unsigned __int128)

/* SUM holds sums, and PRODUCT products, of two numbers of the word; MORE also a product and a number. */
#define WORD(name, W, SUM, PRODUCT, MORE, least, greatest, shift)                                                  \
  LOOPS(name##_hand_neg, W, SUM, least, greatest, -x)                                                              \
  LOOPS(name##_hand_add, W, SUM, least, greatest, x + y)                                                           \
  LOOPS(name##_hand_sub, W, SUM, least, greatest, x - y)                                                           \
  LOOPS(name##_hand_mul_int, W, PRODUCT, least, greatest, x *k)                                                    \
  LOOPS(name##_hand_scale, W, PRODUCT, least, greatest, (x * k) >> frac)                                           \
  LOOPS(name##_hand_mul, W, PRODUCT, least, greatest, (x * y) >> frac)                                             \
  LOOPS(name##_hand_mul_add, W, MORE, least, greatest, ((y * k) >> frac) + x)                                      \
  LOOPS(name##_hand_convert, W, PRODUCT, least, greatest, x << (k - 1))                                             \
  static void rows_##name(void) {                                                                                  \
    static W block[COUNT], by_hand[COUNT], large[COUNT + 1], small[COUNT + 1], zeros[COUNT], above[COUNT];         \
    const uint32_t frac = sizeof(W) * 4;                                                                           \
    const W k = 3;                                                                                                 \
    for (int i = 0; i <= COUNT; i++) large[i] = (W)draw(), small[i] = (W)((W)draw() >> (shift));                   \
    /* No negative of an unsigned number fits but that of 0, and no difference from a smaller number. */           \
    const W *negated = (least) == 0 ? zeros : small, *reduced = (least) == 0 ? above : small;                      \
    for (int i = 0; i < COUNT; i++) above[i] = small[i] > small[i + 1] ? small[i] : small[i + 1];                  \
    POLICIES(name, W, neg, negated, small, block, COUNT)                                                           \
    POLICIES(name, W, add, small, small + 1, block, COUNT, others, COUNT)                                          \
    POLICIES(name, W, sub, reduced, small + 1, block, COUNT, others, COUNT)                                        \
    POLICIES(name, W, mul_int, small, small + 1, block, COUNT, k)                                                  \
    POLICIES(name, W, scale, small, small + 1, block, COUNT, k, frac)                                              \
    POLICIES(name, W, mul, small, small + 1, block, COUNT, others, COUNT, frac)                                    \
    POLICIES(name, W, mul_add, small, small + 1, block, COUNT, others, COUNT, k, frac)                             \
    POLICIES(name, W, convert, small, small + 1, block, COUNT, 2, 4, FIXED_DOWN)                                   \
    dot_##name(small, small + 1, frac);                                                                            \
    filter_##name(small, frac);                                                                                    \
  }

WORD(fixed_i8, int8_t, int32_t, int32_t, int32_t, INT8_MIN, INT8_MAX, 3)
WORD(fixed_i16, int16_t, int32_t, int32_t, int32_t, INT16_MIN, INT16_MAX, 6)
WORD(fixed_i32, int32_t, int64_t, int64_t, int64_t, INT32_MIN, INT32_MAX, 11)
WORD(fixed_i64, int64_t, __int128, __int128, __int128, INT64_MIN, INT64_MAX, 23)
WORD(fixed_u8, uint8_t, int32_t, int32_t, int32_t, 0, UINT8_MAX, 3)
WORD(fixed_u16, uint16_t, int32_t, uint32_t, int64_t, 0, UINT16_MAX, 6)
WORD(fixed_u32, uint32_t, int64_t, uint64_t, __int128, 0, UINT32_MAX, 11)
WORD(fixed_u64, uint64_t, __int128, unsigned __int128, __int128, 0, UINT64_MAX, 23)

int main(void) {
  rows_fixed_i8(), rows_fixed_i16(), rows_fixed_i32(), rows_fixed_i64();
  rows_fixed_u8(), rows_fixed_u16(), rows_fixed_u32(), rows_fixed_u64();
  return 0;
}
