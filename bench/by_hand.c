/* The calls of the face for C by hand, of the same meaning and under the same codes, for bench/face.c. It is
 * compiled alone, as the library is, so that a call is a call on both sides. */
#include "fixed.h"
#include <string.h>

typedef __int128 int128_t;
typedef unsigned __int128 uint128_t;

#define PAST(frac, N) \
  if ((frac) > (N)) return FIXED_FRACTION_PAST_WIDTH

#define BY(d) \
  if ((d) == 0) return FIXED_ZERO_DIVISOR

/* The root by the digits of the answer, from the front. */
#define ROOT(NAME, WIDE, FIRST)                            \
  static WIDE root_##NAME(WIDE x) {                        \
    WIDE r = 0, bit;                                       \
    if (x == 0) return 0;                                  \
    for (bit = (WIDE)1 << (FIRST); bit != 0; bit >>= 2) {  \
      WIDE tried = r + bit;                                \
      r >>= 1;                                             \
      if (x >= tried) {                                    \
        x -= tried;                                        \
        r += bit;                                          \
      }                                                    \
    }                                                      \
    return r;                                              \
  }

ROOT(64, uint64_t, (63 - __builtin_clzll(x)) & ~1)
ROOT(128, uint128_t, (x >> 64 ? 127 - __builtin_clzll((uint64_t)(x >> 64)) : 63 - __builtin_clzll((uint64_t)x)) & ~1)

/* Signed words of N bits, by integers of twice the width. */
#define SIGNED(name, W, U, WIDE, UWIDE, N, MIN, MAX)                                                                \
  static inline int32_t leave_##name(UWIDE bits, int32_t side, name *r) {                                           \
    r->bits = (W)bits;                                                                                              \
    r->side = side;                                                                                                 \
    return FIXED_OK;                                                                                                \
  }                                                                                                                 \
  static inline int32_t put_##name(WIDE x, name *r) {                                                               \
    return leave_##name((UWIDE)x, x > MAX ? FIXED_ABOVE : x < MIN ? FIXED_BELOW : FIXED_FITS, r);                   \
  }                                                                                                                 \
  /* A whole number, as units. */                                                                                   \
  static inline int32_t put_units_##name(WIDE q, uint32_t frac, name *r) {                                          \
    const WIDE least = frac < N ? (WIDE)MIN >> frac : 0, greatest = (WIDE)MAX >> frac;                              \
    return leave_##name((UWIDE)q << frac, q > greatest ? FIXED_ABOVE : q < least ? FIXED_BELOW : FIXED_FITS, r);    \
  }                                                                                                                 \
  /* The Euclidean quotient and remainder. */                                                                       \
  static inline WIDE quotient_##name(W a, W b) {                                                                    \
    if (b == -1) return -(WIDE)a;                                                                                   \
    return (WIDE)(a / b) - (a % b < 0 ? (b < 0 ? -1 : 1) : 0);                                                      \
  }                                                                                                                 \
  static inline W rest_##name(W a, W b) {                                                                           \
    W rest = b == -1 ? 0 : a % b;                                                                                   \
    return rest < 0 ? (W)((U)rest + (b < 0 ? 0 - (U)b : (U)b)) : rest;                                              \
  }                                                                                                                 \
  int32_t hand_##name##_neg(W a, name *r) { return put_##name(-(WIDE)a, r); }                                       \
  int32_t hand_##name##_add(W a, W b, name *r) {                                                                    \
    r->side = __builtin_add_overflow(a, b, &r->bits) ? (a < 0 ? FIXED_BELOW : FIXED_ABOVE) : FIXED_FITS;            \
    return FIXED_OK;                                                                                                \
  }                                                                                                                 \
  int32_t hand_##name##_sub(W a, W b, name *r) {                                                                    \
    r->side = __builtin_sub_overflow(a, b, &r->bits) ? (a < 0 ? FIXED_BELOW : FIXED_ABOVE) : FIXED_FITS;            \
    return FIXED_OK;                                                                                                \
  }                                                                                                                 \
  int32_t hand_##name##_dist(W a, W b, name *r) {                                                                   \
    U gap = a < b ? (U)b - (U)a : (U)a - (U)b;                                                                      \
    return leave_##name(gap, gap > (U)MAX ? FIXED_ABOVE : FIXED_FITS, r);                                           \
  }                                                                                                                 \
  int32_t hand_##name##_abs(W a, name *r) {                                                                         \
    U size = a < 0 ? 0 - (U)a : (U)a;                                                                               \
    return leave_##name(size, size > (U)MAX ? FIXED_ABOVE : FIXED_FITS, r);                                         \
  }                                                                                                                 \
  int32_t hand_##name##_signum(W a, uint32_t frac, name *r) {                                                       \
    PAST(frac, N);                                                                                                  \
    return put_units_##name((a > 0) - (a < 0), frac, r);                                                            \
  }                                                                                                                 \
  int32_t hand_##name##_mul(W a, W b, uint32_t frac, name *r) {                                                     \
    PAST(frac, N);                                                                                                  \
    return put_##name(((WIDE)a * b) >> frac, r);                                                                    \
  }                                                                                                                 \
  int32_t hand_##name##_mul_int(W a, W k, name *r) { return put_##name((WIDE)a * k, r); }                           \
  int32_t hand_##name##_mul_add(W a, W mul, W add, uint32_t frac, name *r) {                                        \
    PAST(frac, N);                                                                                                  \
    return put_##name((((WIDE)a * mul) >> frac) + add, r);                                                          \
  }                                                                                                                 \
  int32_t hand_##name##_add_prod(W c, W a, W b, uint32_t cf, uint32_t af, uint32_t bf, name *r) {                   \
    const WIDE product = (WIDE)a * b;                                                                               \
    const uint32_t both = af + bf;                                                                                  \
    UWIDE moved;                                                                                                    \
    WIDE sum;                                                                                                       \
    PAST(cf, N);                                                                                                    \
    PAST(af, N);                                                                                                    \
    PAST(bf, N);                                                                                                    \
    if (both >= cf) return put_##name((product >> (both - cf > 2 * N - 1 ? 2 * N - 1 : both - cf)) + c, r);         \
    moved = (UWIDE)product << (cf - both);                                                                          \
    if ((WIDE)moved >> (cf - both) != product || __builtin_add_overflow((WIDE)moved, (WIDE)c, &sum))                \
      return leave_##name(moved + (UWIDE)c, product > 0 ? FIXED_ABOVE : FIXED_BELOW, r);                            \
    return put_##name(sum, r);                                                                                      \
  }                                                                                                                 \
  int32_t hand_##name##_div(W a, W b, uint32_t frac, name *r) {                                                     \
    const UWIDE dividend = (UWIDE)a << frac % (2 * N);                                                              \
    PAST(frac, N);                                                                                                  \
    BY(b);                                                                                                          \
    if (b == -1) return a == MIN ? leave_##name(0 - dividend, FIXED_ABOVE, r) : put_##name(-(WIDE)dividend, r);     \
    return put_##name((WIDE)dividend / b, r);                                                                       \
  }                                                                                                                 \
  int32_t hand_##name##_div_int(W a, W k, name *r) {                                                                \
    BY(k);                                                                                                          \
    return k == -1 ? put_##name(-(WIDE)a, r) : leave_##name((UWIDE)(a / k), FIXED_FITS, r);                         \
  }                                                                                                                 \
  int32_t hand_##name##_recip(W a, uint32_t frac, name *r) {                                                        \
    UWIDE size = a < 0 ? -(WIDE)a : (WIDE)a, whole;                                                                 \
    PAST(frac, N);                                                                                                  \
    BY(a);                                                                                                          \
    if (frac < N) return put_##name(((WIDE)1 << 2 * frac) / a, r);                                                  \
    if (size == 1) return leave_##name(0, a < 0 ? FIXED_BELOW : FIXED_ABOVE, r);                                    \
    whole = ~(UWIDE)0 / size;                                                                                       \
    if (~(UWIDE)0 % size + 1 == size) whole++;                                                                      \
    return leave_##name(a < 0 ? 0 - whole : whole, a < 0 ? FIXED_BELOW : FIXED_ABOVE, r);                           \
  }                                                                                                                 \
  int32_t hand_##name##_div_euclid(W a, W b, uint32_t frac, name *r) {                                              \
    PAST(frac, N);                                                                                                  \
    BY(b);                                                                                                          \
    return put_units_##name(quotient_##name(a, b), frac, r);                                                        \
  }                                                                                                                 \
  int32_t hand_##name##_div_euclid_int(W a, W k, uint32_t frac, name *r) {                                          \
    const WIDE d = (WIDE)((UWIDE)k << frac % (2 * N));                                                              \
    WIDE q;                                                                                                         \
    PAST(frac, N);                                                                                                  \
    BY(k);                                                                                                          \
    q = (WIDE)a / d;                                                                                                \
    if ((WIDE)a - q * d < 0) q -= d < 0 ? -1 : 1;                                                                   \
    if (q > MAX || q < MIN) return leave_##name((UWIDE)q << frac, q > 0 ? FIXED_ABOVE : FIXED_BELOW, r);            \
    return put_units_##name(q, frac, r);                                                                            \
  }                                                                                                                 \
  int32_t hand_##name##_rem(W a, W b, name *r) {                                                                    \
    BY(b);                                                                                                          \
    return leave_##name(b == -1 ? 0 : (UWIDE)(a % b), FIXED_FITS, r);                                               \
  }                                                                                                                 \
  int32_t hand_##name##_rem_int(W a, W k, uint32_t frac, name *r) {                                                 \
    PAST(frac, N);                                                                                                  \
    BY(k);                                                                                                          \
    return put_##name((WIDE)a % (WIDE)((UWIDE)k << frac), r);                                                       \
  }                                                                                                                 \
  int32_t hand_##name##_rem_euclid(W a, W b, name *r) {                                                             \
    BY(b);                                                                                                          \
    return leave_##name((UWIDE)rest_##name(a, b), FIXED_FITS, r);                                                   \
  }                                                                                                                 \
  int32_t hand_##name##_rem_euclid_int(W a, W k, uint32_t frac, name *r) {                                          \
    const WIDE d = (WIDE)((UWIDE)k << frac % (2 * N));                                                              \
    WIDE rest;                                                                                                      \
    UWIDE past;                                                                                                     \
    PAST(frac, N);                                                                                                  \
    BY(k);                                                                                                          \
    rest = (WIDE)a % d;                                                                                             \
    if (rest >= 0) return put_##name(rest, r);                                                                      \
    past = (UWIDE)rest + (d < 0 ? 0 - (UWIDE)d : (UWIDE)d);                                                         \
    return leave_##name(past, past > (UWIDE)MAX ? FIXED_ABOVE : FIXED_FITS, r);                                     \
  }                                                                                                                 \
  int32_t hand_##name##_next_multiple_of(W a, W b, name *r) {                                                       \
    W rest;                                                                                                         \
    BY(b);                                                                                                          \
    rest = rest_##name(a, b);                                                                                       \
    if (b < 0) return put_##name((WIDE)a - rest, r);                                                                \
    return put_##name(rest == 0 ? a : (WIDE)a + (b - rest), r);                                                     \
  }                                                                                                                 \
  int32_t hand_##name##_sqrt(W a, uint32_t frac, name *r) {                                                         \
    PAST(frac, N);                                                                                                  \
    if (a < 0) return FIXED_NEGATIVE_ROOT;                                                                          \
    if (N == 32) return put_##name((WIDE)root_64((uint64_t)a << frac % 64), r);                                     \
    return put_##name((WIDE)root_128((uint128_t)a << frac), r);                                                     \
  }

SIGNED(fixed_i32, int32_t, uint32_t, int64_t, uint64_t, 32, INT32_MIN, INT32_MAX)
SIGNED(fixed_i64, int64_t, uint64_t, int128_t, uint128_t, 64, INT64_MIN, INT64_MAX)

/* Of unsigned words the operations that do most otherwise. */
#define UNSIGNED(name, W, WIDE, N, MAX)                                          \
  static inline int32_t put_##name(WIDE x, name *r) {                            \
    r->bits = (W)x;                                                              \
    r->side = x > MAX ? FIXED_ABOVE : FIXED_FITS;                                \
    return FIXED_OK;                                                             \
  }                                                                              \
  int32_t hand_##name##_add(W a, W b, name *r) {                                 \
    r->side = __builtin_add_overflow(a, b, &r->bits) ? FIXED_ABOVE : FIXED_FITS; \
    return FIXED_OK;                                                             \
  }                                                                              \
  int32_t hand_##name##_sub(W a, W b, name *r) {                                 \
    r->side = __builtin_sub_overflow(a, b, &r->bits) ? FIXED_BELOW : FIXED_FITS; \
    return FIXED_OK;                                                             \
  }                                                                              \
  int32_t hand_##name##_mul(W a, W b, uint32_t frac, name *r) {                  \
    PAST(frac, N);                                                               \
    return put_##name(((WIDE)a * b) >> frac, r);                                 \
  }                                                                              \
  int32_t hand_##name##_div(W a, W b, uint32_t frac, name *r) {                  \
    PAST(frac, N);                                                               \
    BY(b);                                                                       \
    return put_##name(((WIDE)a << frac) / b, r);                                 \
  }                                                                              \
  int32_t hand_##name##_next_power_of_two(W a, name *r) {                        \
    W p = a == 0 ? 0 : a - 1;                                                    \
    for (unsigned i = 1; i < N; i *= 2) p |= p >> i;                             \
    r->bits = a == 0 ? 1 : p + 1;                                                \
    r->side = r->bits == 0 ? FIXED_ABOVE : FIXED_FITS;                           \
    return FIXED_OK;                                                             \
  }

UNSIGNED(fixed_u32, uint32_t, uint64_t, 32, UINT32_MAX)
UNSIGNED(fixed_u64, uint64_t, uint128_t, 64, UINT64_MAX)

/* Calls over intervals and arrays, of signed words of N bits. */
#define SIGNED_MORE(name, W, WIDE, N, MIN, MAX)                                                                     \
  int32_t hand_##name##_mul_in(W al, W ah, W bl, W bh, uint32_t frac, name##_interval *r) {                         \
    const WIDE corners[4] = {(WIDE)al * bl, (WIDE)al * bh, (WIDE)ah * bl, (WIDE)ah * bh};                           \
    WIDE low = corners[0], high = corners[0];                                                                       \
    PAST(frac, N);                                                                                                  \
    if (al > ah || bl > bh) return FIXED_ENDS_EXCHANGED;                                                            \
    for (int i = 1; i < 4; i++) {                                                                                   \
      if (corners[i] < low) low = corners[i];                                                                       \
      if (corners[i] > high) high = corners[i];                                                                     \
    }                                                                                                               \
    low >>= frac;                                                                                                   \
    high = -(-high >> frac);                                                                                        \
    if (low < MIN || high > MAX) return FIXED_OUT_OF_RANGE;                                                         \
    r->low = (W)low;                                                                                                \
    r->high = (W)high;                                                                                              \
    return FIXED_OK;                                                                                                \
  }                                                                                                                 \
  int32_t hand_##name##_horner(const W *coefs, size_t count, W x, uint32_t frac, W *value, size_t *step) {          \
    WIDE v = 0;                                                                                                     \
    PAST(frac, N);                                                                                                  \
    if (count == 0) return FIXED_NO_ELEMENT;                                                                        \
    for (size_t i = count; i-- > 0;) {                                                                              \
      v = ((v * x) >> frac) + coefs[i];                                                                             \
      if (v < MIN || v > MAX) {                                                                                     \
        *step = i;                                                                                                  \
        return FIXED_OUT_OF_RANGE;                                                                                  \
      }                                                                                                             \
    }                                                                                                               \
    *value = (W)v;                                                                                                  \
    return FIXED_OK;                                                                                                \
  }                                                                                                                 \
  int32_t hand_##name##_filter(const W *taps, size_t count, W *past, size_t others, W sample, uint32_t of,          \
                               uint32_t cf, uint32_t sf, W *output, size_t *tap) {                                  \
    const uint32_t both = cf + sf;                                                                                  \
    WIDE sum = 0;                                                                                                   \
    PAST(of, N);                                                                                                    \
    PAST(cf, N);                                                                                                    \
    PAST(sf, N);                                                                                                    \
    if (count == 0) return FIXED_NO_ELEMENT;                                                                        \
    if (count != others) return FIXED_COUNTS_DIFFER;                                                                \
    memmove(past + 1, past, (count - 1) * sizeof *past);                                                            \
    past[0] = sample;                                                                                               \
    for (size_t i = 0; i < count; i++) {                                                                            \
      name moved;                                                                                                   \
      if (both >= of && both - of <= N) sum += ((WIDE)taps[i] * past[i]) >> (both - of);                            \
      else hand_##name##_add_prod((W)sum, taps[i], past[i], of, cf, sf, &moved), sum = moved.bits;                  \
      if (sum < MIN || sum > MAX || (!(both >= of && both - of <= N) && moved.side)) {                              \
        *tap = i;                                                                                                   \
        return FIXED_OUT_OF_RANGE;                                                                                  \
      }                                                                                                             \
    }                                                                                                               \
    *output = (W)sum;                                                                                               \
    return FIXED_OK;                                                                                                \
  }

SIGNED_MORE(fixed_i32, int32_t, int64_t, 32, INT32_MIN, INT32_MAX)
SIGNED_MORE(fixed_i64, int64_t, int128_t, 64, INT64_MIN, INT64_MAX)
