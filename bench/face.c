/* Each call of the face for C in a loop over arrays, beside the same call by hand (bench/by_hand.c), which it
 * has to answer alike. bench/face.py compiles both, and runs this. */
#include "draws.h"
#include "fixed.h"
#include <stdio.h>

#define COUNT 1024
#define PASSES 2001
#define TAPS 16
#define COEFFICIENTS 8

/* Times the calls of both sides in turn, and prints the least of each in nanoseconds a call; they have to answer alike. */
#define TIMED(label, calls, here, hand)                                                                 \
  double least = 1e18, least_by_hand = 1e18, taken;                                                     \
  uint64_t check, by_hand;                                                                              \
  for (int pass = 0; pass < PASSES; pass++) {                                                           \
    taken = here;                                                                                       \
    if (taken < least) least = taken;                                                                   \
    taken = hand;                                                                                       \
    if (taken < least_by_hand) least_by_hand = taken;                                                   \
    if (check != by_hand) {                                                                             \
      printf(label ": the answers differ\n");                                                           \
      exit(1);                                                                                          \
    }                                                                                                   \
  }                                                                                                     \
  printf(label " %.3f %.3f\n", least / (calls), least_by_hand / (calls));

/* One row: the least nanoseconds a call of each side, in turn. One loop, compiled once, makes the calls of both. */
#define ROW(name, operation, W, PARAMETERS, ...)                                                        \
  int32_t hand_##name##_##operation PARAMETERS;                                                         \
  __attribute__((noipa)) static double time_##name##_##operation(                                       \
      int32_t(*call) PARAMETERS, const W *as, const W *bs, const W *cs, uint32_t frac, uint64_t *sum) { \
    name result = {0, 0};                                                                               \
    uint64_t check = 0;                                                                                 \
    const double start = now();                                                                         \
    for (int i = 0; i < COUNT; i++) {                                                                   \
      const W a = as[i], b = bs[i], c = cs[i];                                                          \
      check += (uint64_t)call(__VA_ARGS__, &result);                                                    \
      check = check * 3 + (uint64_t)result.bits + (uint64_t)result.side;                                \
      (void)a, (void)b, (void)c, (void)frac;                                                            \
    }                                                                                                   \
    *sum = check;                                                                                       \
    return now() - start;                                                                               \
  }                                                                                                     \
  static void row_##name##_##operation(const W *a, const W *b, const W *c, uint32_t frac) {             \
    TIMED(#name "_" #operation, COUNT,                                                                  \
          time_##name##_##operation(name##_##operation, a, b, c, frac, &check),                         \
          time_##name##_##operation(hand_##name##_##operation, a, b, c, frac, &by_hand))                \
  }

#define SIGNED_ROWS(name, W)                                                                                        \
  ROW(name, neg, W, (W, name *), a)                                                                                 \
  ROW(name, add, W, (W, W, name *), a, b)                                                                           \
  ROW(name, sub, W, (W, W, name *), a, b)                                                                           \
  ROW(name, dist, W, (W, W, name *), a, b)                                                                          \
  ROW(name, abs, W, (W, name *), a)                                                                                 \
  ROW(name, signum, W, (W, uint32_t, name *), a, frac)                                                              \
  ROW(name, mul, W, (W, W, uint32_t, name *), a, b, frac)                                                           \
  ROW(name, mul_int, W, (W, W, name *), a, b)                                                                       \
  ROW(name, mul_add, W, (W, W, W, uint32_t, name *), a, b, c, frac)                                                 \
  ROW(name, add_prod, W, (W, W, W, uint32_t, uint32_t, uint32_t, name *), c, a, b, frac, frac + 2, frac)            \
  ROW(name, div, W, (W, W, uint32_t, name *), a, b, frac)                                                           \
  ROW(name, div_int, W, (W, W, name *), a, b)                                                                       \
  ROW(name, recip, W, (W, uint32_t, name *), a, frac)                                                               \
  ROW(name, div_euclid, W, (W, W, uint32_t, name *), a, b, frac)                                                    \
  ROW(name, div_euclid_int, W, (W, W, uint32_t, name *), a, b >> frac, frac)                                        \
  ROW(name, rem, W, (W, W, name *), a, b)                                                                           \
  ROW(name, rem_int, W, (W, W, uint32_t, name *), a, b >> frac, frac)                                               \
  ROW(name, rem_euclid, W, (W, W, name *), a, b)                                                                    \
  ROW(name, rem_euclid_int, W, (W, W, uint32_t, name *), a, b >> frac, frac)                                        \
  ROW(name, next_multiple_of, W, (W, W, name *), a, b)                                                              \
  ROW(name, sqrt, W, (W, uint32_t, name *), a < 0 ? -(a + 1) : a, frac)                                             \
  static void rows_##name(const W *a, const W *b, const W *c, uint32_t f) {                                         \
    row_##name##_neg(a, b, c, f), row_##name##_add(a, b, c, f), row_##name##_sub(a, b, c, f);                       \
    row_##name##_dist(a, b, c, f), row_##name##_abs(a, b, c, f), row_##name##_signum(a, b, c, f);                   \
    row_##name##_mul(a, b, c, f), row_##name##_mul_int(a, b, c, f), row_##name##_mul_add(a, b, c, f);               \
    row_##name##_add_prod(a, b, c, f), row_##name##_div(a, b, c, f), row_##name##_div_int(a, b, c, f);              \
    row_##name##_recip(a, b, c, f), row_##name##_div_euclid(a, b, c, f), row_##name##_div_euclid_int(a, b, c, f);   \
    row_##name##_rem(a, b, c, f), row_##name##_rem_int(a, b, c, f), row_##name##_rem_euclid(a, b, c, f);            \
    row_##name##_rem_euclid_int(a, b, c, f), row_##name##_next_multiple_of(a, b, c, f);                             \
    row_##name##_sqrt(a, b, c, f);                                                                                  \
  }

#define UNSIGNED_ROWS(name, W)                                                                                      \
  ROW(name, add, W, (W, W, name *), a, b)                                                                           \
  ROW(name, sub, W, (W, W, name *), a, b)                                                                           \
  ROW(name, mul, W, (W, W, uint32_t, name *), a, b, frac)                                                           \
  ROW(name, div, W, (W, W, uint32_t, name *), a, b, frac)                                                           \
  ROW(name, next_power_of_two, W, (W, name *), a)                                                                   \
  static void rows_##name(const W *a, const W *b, const W *c, uint32_t f) {                                         \
    row_##name##_add(a, b, c, f), row_##name##_sub(a, b, c, f), row_##name##_mul(a, b, c, f);                       \
    row_##name##_div(a, b, c, f), row_##name##_next_power_of_two(a, b, c, f);                                       \
  }

/* The same for the calls over intervals and arrays: what one leaves is summed from the fields of `left`. */
#define MORE_ROW(name, call_name, LEFT, W, SUM, PARAMETERS, ...)                                                \
  int32_t hand_##name##_##call_name PARAMETERS;                                                                 \
  __attribute__((noipa)) static double time_##name##_##call_name(                                               \
      int32_t(*call) PARAMETERS, const W *as, const W *bs, uint32_t frac, uint64_t *sum) {                      \
    LEFT left = {0, 0};                                                                                         \
    W past[TAPS] = {0};                                                                                         \
    uint64_t check = 0;                                                                                         \
    const double start = now();                                                                                 \
    for (int i = 0; i < COUNT - TAPS; i++) {                                                                    \
      const W a = as[i], b = bs[i];                                                                             \
      check += (uint64_t)call(__VA_ARGS__);                                                                     \
      check = check * 3 + (SUM);                                                                                \
      (void)a, (void)b, (void)past;                                                                             \
    }                                                                                                           \
    *sum = check;                                                                                               \
    return now() - start;                                                                                       \
  }                                                                                                             \
  static void row_##name##_##call_name(const W *a, const W *b, uint32_t frac) {                                 \
    TIMED(#name "_" #call_name, COUNT - TAPS,                                                                   \
          time_##name##_##call_name(name##_##call_name, a, b, frac, &check),                                    \
          time_##name##_##call_name(hand_##name##_##call_name, a, b, frac, &by_hand))                           \
  }

/* Taps are numbers of the array from that of the sample on, and coefficients likewise. */
#define MORE_ROWS(name, W)                                                                                      \
  typedef struct {                                                                                              \
    W number;                                                                                                   \
    size_t place;                                                                                               \
  } name##_left;                                                                                                \
  MORE_ROW(name, mul_in, name##_interval, W, (uint64_t)left.low + (uint64_t)left.high,                          \
           (W, W, W, W, uint32_t, name##_interval *), a < b ? a : b, a < b ? b : a, b / 2, b < 0 ? 1 : b, frac, \
           &left)                                                                                               \
  MORE_ROW(name, horner, name##_left, W, (uint64_t)left.number + left.place,                                    \
           (const W *, size_t, W, uint32_t, W *, size_t *), bs + i, COEFFICIENTS, a >> 8, frac, &left.number,   \
           &left.place)                                                                                         \
  MORE_ROW(name, filter, name##_left, W, (uint64_t)left.number + left.place,                                    \
           (const W *, size_t, W *, size_t, W, uint32_t, uint32_t, uint32_t, W *, size_t *), bs + i, TAPS,      \
           past, TAPS, a >> 8, frac, frac + 2, frac, &left.number, &left.place)                                 \
  static void more_rows_##name(const W *a, const W *b, uint32_t frac) {                                         \
    row_##name##_mul_in(a, b, frac), row_##name##_horner(a, b, frac), row_##name##_filter(a, b, frac);          \
  }

SIGNED_ROWS(fixed_i32, int32_t)
SIGNED_ROWS(fixed_i64, int64_t)
UNSIGNED_ROWS(fixed_u32, uint32_t)
UNSIGNED_ROWS(fixed_u64, uint64_t)

MORE_ROWS(fixed_i32, int32_t)
MORE_ROWS(fixed_i64, int64_t)

/* Numbers of signed words alone go to the calls over intervals and arrays. */
#define NO_MORE(a, b, frac)

/* Operands of the word, of which a few are 0 and some products, sums and quotients do not fit. */
#define MEASURE(name, W, DOWN, frac, MORE)                                                    \
  do {                                                                                        \
    static W a[COUNT], b[COUNT], c[COUNT];                                                    \
    for (int i = 0; i < COUNT; i++) {                                                         \
      a[i] = (W)((W)draw() >> DOWN);                                                          \
      b[i] = (W)((W)draw() >> DOWN);                                                          \
      c[i] = (W)((W)draw() >> DOWN);                                                          \
    }                                                                                         \
    rows_##name(a, b, c, frac);                                                               \
    MORE(a, b, frac);                                                                         \
  } while (0)

int main(void) {
  MEASURE(fixed_i32, int32_t, 7, 16, more_rows_fixed_i32);
  MEASURE(fixed_i64, int64_t, 15, 32, more_rows_fixed_i64);
  MEASURE(fixed_u32, uint32_t, 7, 16, NO_MORE);
  MEASURE(fixed_u64, uint64_t, 15, 32, NO_MORE);
  return 0;
}
