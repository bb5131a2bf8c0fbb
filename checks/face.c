/* Every pair of operands of 8 bits, for each operation of the face for C at three fractions, against a plain
 * computation in 64 bits, with each rounding; bad fractions, zero divisors and negative roots by their codes. Numbers of
 * other formats and doubles into 8 bits, and numbers of every word as doubles. Texts that are drawn, read; and each number
 * of 8 bits at each fraction as text, as printf prints it. Elementary functions of numbers of every word that are drawn,
 * beside those of long doubles; and sines and cosines of some radians and angles of some points, beside computed ones.
 * Intervals over samples of ends, and polynomials and filters and sums of products over arrays that are drawn, against
 * plain loops; each code. By every word, blocks beside single calls, and null pointers to arrays whose count is 0.
 * From the top:
 *
 *     cc -O2 -Wall -Wextra -Iinclude -o /tmp/face checks/face.c LIBRARY -lm && /tmp/face
 *
 * LIBRARY is crates/fixed_c/out/libfixed_c.a, which `rt lib` in crates/fixed_c makes, or target/release/libfixed_c.a
 * of the Cargo package in rust/c. */
#include "fixed.h"
#include <float.h>
#include <math.h>
#include <stdio.h>
#include <string.h>

static long compared;

/* A code, or a number without a bound. */
struct exact {
  int32_t code;
  int64_t number;
};

static struct exact number(int64_t x) {
  struct exact e = {FIXED_OK, x};
  return e;
}

static struct exact code(int32_t c) {
  struct exact e = {c, 0};
  return e;
}

/* What a number is without the multiples of 256 that lead past the word. */
static int64_t wrapped(int64_t x, int64_t least, int64_t greatest) {
  x %= 256;
  if (x < least) x += 256;
  return x > greatest ? x - 256 : x;
}

static void compare(const char *call, struct exact want, int32_t got, int64_t bits, int32_t side, int64_t least,
                    int64_t greatest) {
  int64_t want_bits = 77;
  int32_t want_side = 99;
  if (want.code == FIXED_OK) {
    want_bits = wrapped(want.number, least, greatest);
    want_side = want.number < least ? FIXED_BELOW : want.number > greatest ? FIXED_ABOVE : FIXED_FITS;
  }
  compared++;
  if (got != want.code || bits != want_bits || side != want_side) {
    printf("%s: code %d, bits %lld, side %d, but by plain C %d, %lld, %d\n", call, (int)got, (long long)bits, (int)side,
           (int)want.code, (long long)want_bits, (int)want_side);
    exit(1);
  }
}

static int64_t magnitude(int64_t x) { return x < 0 ? -x : x; }

static int64_t power(uint32_t places) { return (int64_t)1 << places; }

static int64_t floor_of(int64_t x, int64_t d) { return x / d - (x % d < 0); }

/* The Euclidean remainder, and its quotient. */
static int64_t least_rest(int64_t x, int64_t d) {
  int64_t rest = x % d;
  return rest < 0 ? rest + magnitude(d) : rest;
}

static int64_t euclid(int64_t x, int64_t d) { return (x - least_rest(x, d)) / d; }

static struct exact multiple(int64_t a, int64_t b) {
  int64_t x = a;
  while (x % b != 0) x += b < 0 ? -1 : 1;
  return number(x);
}

static struct exact root(int64_t a, uint32_t frac) {
  int64_t x = 0;
  if (a < 0) return code(FIXED_NEGATIVE_ROOT);
  while ((x + 1) * (x + 1) <= a * power(frac)) x++;
  return number(x);
}

static struct exact power_of_two(int64_t a) {
  int64_t x = 1;
  while (x < a) x *= 2;
  return number(x);
}

static struct exact sum_of_product(int64_t c, int64_t a, int64_t b, int32_t places) {
  return number(c + (places < 0 ? a * b * power((uint32_t)-places) : floor_of(a * b, power((uint32_t)places))));
}

/* The fractions that are tried: three, and one past the width. */
static const uint32_t fractions[] = {0, 5, 8, 9};

/* The roundings, and a number that none has. */
static const uint32_t roundings[] = {FIXED_DOWN, FIXED_TOWARD_ZERO, FIXED_NEAREST_EVEN, 3};

/* x over d, rounded, for d not 0. */
static int64_t rounded(int64_t x, int64_t d, uint32_t rounding) {
  const int64_t above = d < 0 ? -d : d, number = d < 0 ? -x : x;
  const int64_t down = floor_of(number, above), twice = 2 * (number - down * above);
  if (rounding == FIXED_DOWN) return down;
  if (rounding == FIXED_TOWARD_ZERO) return x / d;
  return down + (twice > above || (twice == above && down % 2 != 0));
}

#define PAST(f) ((f) > 8)
#define AT(f, exact) (PAST(f) ? code(FIXED_FRACTION_PAST_WIDTH) : (exact))
#define BY(d, exact) ((d) == 0 ? code(FIXED_ZERO_DIVISOR) : number(exact))
#define WITH(r, exact) ((r) == 3 ? code(FIXED_NO_ROUNDING) : (exact))

/* One call, whose result is filled with other numbers before. */
#define CALL(name, operation, exact, ...)                                                                          \
  do {                                                                                                             \
    name result;                                                                                                   \
    int32_t got;                                                                                                   \
    result.bits = 77;                                                                                              \
    result.side = 99;                                                                                              \
    got = name##_##operation(__VA_ARGS__, &result);                                                                \
    compare(#name "_" #operation, exact, got, result.bits, result.side, least, greatest);                          \
  } while (0)

#define CHECK(name, word, from, to, ONE_SIGN)                                                                      \
  static void check_##name(void) {                                                                                 \
    const int64_t least = from, greatest = to;                                                                     \
    const int64_t others[] = {from, from / 2 - 1 < from ? 1 : from / 2 - 1, 0, 3, to};                             \
    for (int64_t x = least; x <= greatest; x++) {                                                                  \
      const word a = (word)x;                                                                                      \
      CALL(name, neg, number(-x), a);                                                                              \
      for (int i = 0; i < 4; i++) {                                                                                \
        const uint32_t f = fractions[i];                                                                           \
        CALL(name, recip, AT(f, BY(x, power(2 * f) / x)), a, f);                                                   \
        CALL(name, sqrt, AT(f, root(x, f)), a, f);                                                                 \
        for (int k = 0; k < 4; k++) {                                                                              \
          const uint32_t r = roundings[k];                                                                         \
          CALL(name, recip_round, AT(f, WITH(r, BY(x, rounded(power(2 * f), x, r)))), a, f, r);                    \
        }                                                                                                          \
      }                                                                                                            \
      ONE_SIGN                                                                                                     \
      for (int64_t y = least; y <= greatest; y++) {                                                                \
        const word b = (word)y;                                                                                    \
        CALL(name, add, number(x + y), a, b);                                                                      \
        CALL(name, sub, number(x - y), a, b);                                                                      \
        CALL(name, dist, number(magnitude(x - y)), a, b);                                                          \
        CALL(name, mul_int, number(x * y), a, b);                                                                  \
        CALL(name, div_int, BY(y, x / y), a, b);                                                                   \
        CALL(name, rem, BY(y, x % y), a, b);                                                                       \
        CALL(name, rem_euclid, BY(y, least_rest(x, y)), a, b);                                                     \
        CALL(name, next_multiple_of, y == 0 ? code(FIXED_ZERO_DIVISOR) : multiple(x, y), a, b);                    \
        for (int i = 0; i < 16; i++) {                                                                             \
          const uint32_t f = fractions[i / 4], r = roundings[i % 4];                                               \
          CALL(name, mul_round, AT(f, WITH(r, number(rounded(x * y, power(f), r)))), a, b, f, r);                  \
          CALL(name, mul_add_round, AT(f, WITH(r, number(rounded(x * y, power(f), r) + 7))), a, b, 7, f, r);       \
          CALL(name, div_round, AT(f, WITH(r, BY(y, rounded(x * power(f), y, r)))), a, b, f, r);                   \
          CALL(name, div_int_round, WITH(r, BY(y, rounded(x, y, r))), a, b, r);                                    \
          for (int k = 0; k < 4; k++) {                                                                            \
            const uint32_t g = fractions[k];                                                                       \
            const int32_t by = (int32_t)(g + 5) - (int32_t)f;                                                      \
            const int64_t moved = by < 0 ? x * y * power((uint32_t)-by) : rounded(x * y, power((uint32_t)by), r);  \
            CALL(name, add_prod_round,                                                                             \
                 PAST(f) || PAST(g) ? code(FIXED_FRACTION_PAST_WIDTH) : WITH(r, number(moved + 9)), 9, a, b, f, g, \
                 5, r);                                                                                            \
          }                                                                                                        \
        }                                                                                                          \
        for (int i = 0; i < 4; i++) {                                                                              \
          const uint32_t f = fractions[i];                                                                         \
          CALL(name, mul, AT(f, number(floor_of(x * y, power(f)))), a, b, f);                                      \
          CALL(name, div, AT(f, BY(y, x * power(f) / y)), a, b, f);                                                \
          CALL(name, div_euclid, AT(f, BY(y, euclid(x, y) * power(f))), a, b, f);                                  \
          CALL(name, div_euclid_int, AT(f, BY(y, euclid(x, y * power(f)) * power(f))), a, b, f);                   \
          CALL(name, rem_int, AT(f, BY(y, x % (y * power(f)))), a, b, f);                                          \
          CALL(name, rem_euclid_int, AT(f, BY(y, least_rest(x, y * power(f)))), a, b, f);                          \
          for (int k = 0; k < 5; k++) {                                                                            \
            const int64_t z = others[k];                                                                           \
            const word c = (word)z;                                                                                \
            CALL(name, mul_add, AT(f, number(floor_of(x * y, power(f)) + z)), a, b, c, f);                         \
            for (int g = 0; g < 4; g++)                                                                            \
              for (int h = 0; h < 4; h++) {                                                                        \
                const uint32_t af = fractions[g], bf = fractions[h];                                               \
                CALL(name, add_prod,                                                                               \
                     PAST(f) || PAST(af) || PAST(bf) ? code(FIXED_FRACTION_PAST_WIDTH)                             \
                                                     : sum_of_product(z, x, y, (int32_t)(af + bf) - (int32_t)f),   \
                     c, a, b, f, af, bf);                                                                          \
              }                                                                                                    \
          }                                                                                                        \
        }                                                                                                          \
      }                                                                                                            \
    }                                                                                                              \
    check_policies_##name();                                                                                       \
  }

/* What the policies make of results on each side. */
#define POLICIES(name, word, from, to)                                                                             \
  static void check_policies_##name(void) {                                                                        \
    const name fits = {5, FIXED_FITS}, above = {6, FIXED_ABOVE}, below = {7, FIXED_BELOW};                         \
    word x = 9;                                                                                                    \
    int good = name##_checked(fits, &x) && x == 5;                                                                 \
    x = 9;                                                                                                         \
    good = good && !name##_checked(above, &x) && !name##_checked(below, &x) && x == 9;                             \
    good = good && name##_saturating(fits) == 5 && name##_saturating(above) == to;                                 \
    good = good && name##_saturating(below) == from && name##_strict(fits) == 5;                                   \
    good = good && name##_wrapping(fits) == 5 && name##_wrapping(above) == 6 && name##_wrapping(below) == 7;       \
    good = good && !name##_overflowing(fits, &x) && x == 5 && name##_overflowing(above, &x) && x == 6;             \
    if (!good || !name##_overflowing(below, &x) || x != 7) {                                                       \
      printf(#name ": a policy answers otherwise\n");                                                              \
      exit(1);                                                                                                     \
    }                                                                                                              \
  }

POLICIES(fixed_i8, int8_t, INT8_MIN, INT8_MAX)
POLICIES(fixed_u8, uint8_t, 0, UINT8_MAX)

CHECK(fixed_i8, int8_t, INT8_MIN, INT8_MAX,
      CALL(fixed_i8, abs, number(magnitude(x)), a);
      for (int i = 0; i < 4; i++) {
        const uint32_t f = fractions[i];
        CALL(fixed_i8, signum, AT(f, number(x < 0 ? -power(f) : x > 0 ? power(f) : 0)), a, f);
      })
CHECK(fixed_u8, uint8_t, 0, UINT8_MAX, CALL(fixed_u8, next_power_of_two, power_of_two(x), a);)

/* Draws, the same in each run. */
static uint64_t state = 88172645463325252u;

static int64_t draw(int64_t from, int64_t to) {
  state ^= state << 13, state ^= state >> 7, state ^= state << 17;
  return from + (int64_t)(state % (uint64_t)(to - from + 1));
}

/* Numbers of other formats and doubles, into words of 8 bits. */
#define CHECK_CONVERSIONS(name, word, from_end, to_end)                                                            \
  static void check_conversions_##name(void) {                                                                     \
    const int64_t least = from_end, greatest = to_end;                                                             \
    const uint32_t froms[] = {0, 3, 8, 20, 40, 64, 65};                                                            \
    for (int i = 0; i < 4; i++) {                                                                                  \
      const uint32_t f = fractions[i];                                                                             \
      for (int k = 0; k < 4; k++) {                                                                                \
        const uint32_t r = roundings[k];                                                                           \
        for (int64_t x = -70000; x <= 70000; x++) {                                                                \
          const double d = (double)x / 512;                                                                        \
          CALL(name, from_double, AT(f, WITH(r, number(rounded(x * power(f), 512, r)))), d, f, r);                 \
          for (int g = 0; g < 7; g++) {                                                                            \
            const uint32_t p = froms[g];                                                                           \
            const int64_t want = p >= 64 ? (r == FIXED_DOWN && x < 0 ? -1 : 0) : rounded(x * power(f), power(p), r); \
            CALL(name, convert, p > 64 ? code(FIXED_FRACTION_PAST_WIDTH) : AT(f, WITH(r, number(want))), x, p, f, r); \
            if (x < 0) continue;                                                                                   \
            CALL(name, convert_unsigned, p > 64 ? code(FIXED_FRACTION_PAST_WIDTH) : AT(f, WITH(r, number(want))),  \
                 (uint64_t)x, p, f, r);                                                                            \
          }                                                                                                        \
        }                                                                                                          \
        CALL(name, from_double, AT(f, WITH(r, code(FIXED_NOT_FINITE))), HUGE_VAL, f, r);                           \
        CALL(name, from_double, AT(f, WITH(r, code(FIXED_NOT_FINITE))), -HUGE_VAL, f, r);                          \
        CALL(name, from_double, AT(f, WITH(r, code(FIXED_NOT_FINITE))), NAN, f, r);                                \
        CALL(name, from_double, AT(f, WITH(r, number(r == FIXED_DOWN ? -1 : 0))), -5e-324, f, r);                  \
        CALL(name, from_double, AT(f, WITH(r, number(INT64_C(1) << 61))), 1e300, f, r);                            \
      }                                                                                                            \
    }                                                                                                              \
  }

CHECK_CONVERSIONS(fixed_i8, int8_t, INT8_MIN, INT8_MAX)
CHECK_CONVERSIONS(fixed_u8, uint8_t, 0, UINT8_MAX)

/* Numbers of every word as doubles: C converts an integer to the nearest double, and a power of two divides exactly. */
#define CHECK_DOUBLES(name, word, width)                                                                           \
  static void check_doubles_##name(void) {                                                                         \
    for (int tried = 0; tried < 200000; tried++) {                                                                 \
      const word a = (word)((uint64_t)draw(INT64_MIN / 4, INT64_MAX / 4) * 7 >> (tried % 64));                     \
      const uint32_t f = (uint32_t)draw(0, width + 1);                                                             \
      const int32_t want = f > width ? FIXED_FRACTION_PAST_WIDTH : FIXED_OK;                                       \
      double value = 77;                                                                                           \
      const int32_t got = name##_to_double(a, f, &value);                                                          \
      compared++;                                                                                                  \
      if (got != want || value != (want == FIXED_OK ? ldexp((double)a, -(int)f) : 77)) {                           \
        printf(#name "_to_double: code %d, %a\n", (int)got, value);                                                \
        exit(1);                                                                                                   \
      }                                                                                                            \
    }                                                                                                              \
  }

CHECK_DOUBLES(fixed_i8, int8_t, 8)
CHECK_DOUBLES(fixed_i16, int16_t, 16)
CHECK_DOUBLES(fixed_i32, int32_t, 32)
CHECK_DOUBLES(fixed_i64, int64_t, 64)
CHECK_DOUBLES(fixed_u8, uint8_t, 8)
CHECK_DOUBLES(fixed_u16, uint16_t, 16)
CHECK_DOUBLES(fixed_u32, uint32_t, 32)
CHECK_DOUBLES(fixed_u64, uint64_t, 64)

/* Digits that are drawn, and their text with a sign and a point: its number is `digits` over `10^behind`. */
struct drawn_text {
  char bytes[40];
  size_t length;
  int64_t digits, tens;
};

static struct drawn_text draw_text(void) {
  struct drawn_text text = {{0}, 0, draw(0, 99999) >> draw(0, 16), 1};
  char front[20];
  int length = snprintf(front, sizeof front, "%d", (int)text.digits);
  const int behind = (int)draw(-1, 6), is_below = draw(0, 2) == 0;
  if (is_below || draw(0, 3) == 0) text.bytes[text.length++] = is_below ? '-' : '+';
  memcpy(text.bytes + text.length, front, (size_t)length);
  text.length += (size_t)length;
  if (behind >= 0) text.bytes[text.length++] = '.';
  for (int i = 0; i < behind; i++) {
    const int64_t digit = draw(0, 9);
    text.bytes[text.length++] = (char)('0' + digit);
    text.digits = text.digits * 10 + digit, text.tens *= 10;
  }
  if (is_below) text.digits = -text.digits;
  return text;
}

/* What a call that prints has left, beside the text that is wanted or a code. */
static void compare_text(const char *call, int32_t want, const char *text, int32_t got, const char *buffer,
                         size_t length) {
  compared++;
  if (got != want || strcmp(buffer, text) != 0 || (want == FIXED_OK && length != strlen(text))) {
    printf("%s: code %d, \"%s\", but by plain C %d, \"%s\"\n", call, (int)got, buffer, (int)want, text);
    exit(1);
  }
}

/* Texts into words of 8 bits, and their numbers as texts. */
#define CHECK_TEXTS(name, word, from_end, to_end)                                                                  \
  static void check_texts_##name(void) {                                                                           \
    const int64_t least = from_end, greatest = to_end;                                                             \
    const char *const faults[] = {"", "-", ".", "1.2.3", "1,5", "1e3", "+-1", " 1"};                               \
    const int32_t codes[] = {FIXED_NO_DIGITS,       FIXED_NO_DIGITS,     FIXED_NO_DIGITS,     FIXED_TOO_MANY_POINTS, \
                             FIXED_INVALID_DIGIT,   FIXED_INVALID_DIGIT, FIXED_INVALID_DIGIT, FIXED_INVALID_DIGIT}; \
    char buffer[90], want[90];                                                                                     \
    size_t length = 0;                                                                                             \
    int32_t got = 0;                                                                                               \
    for (int tried = 0; tried < 400000; tried++) {                                                                 \
      const struct drawn_text text = draw_text();                                                                  \
      const uint32_t f = fractions[draw(0, 3)], r = roundings[draw(0, 3)];                                         \
      CALL(name, parse, AT(f, WITH(r, number(rounded(text.digits * power(f), text.tens, r)))), text.bytes,         \
           text.length, f, r);                                                                                     \
    }                                                                                                              \
    for (int i = 0; i < 8; i++) CALL(name, parse, code(codes[i]), faults[i], strlen(faults[i]), 4, FIXED_DOWN);    \
    for (int64_t x = from_end; x <= to_end; x++) {                                                                 \
      for (uint32_t f = 0; f <= 8; f++) {                                                                          \
        const double value = ldexp((double)x, -(int)f);                                                            \
        int fewest = -1;                                                                                           \
        for (int places = 12; places >= 0; places--) {                                                             \
          snprintf(want, sizeof want, "%.*f", places, value);                                                      \
          got = name##_print((word)x, f, (uint32_t)places, FIXED_NEAREST_EVEN, buffer, sizeof buffer, &length);    \
          compare_text(#name "_print", FIXED_OK, want, got, buffer, length);                                       \
          if (rint(ldexp(strtod(want, NULL), (int)f)) == (double)x) fewest = places;                               \
        }                                                                                                          \
        snprintf(want, sizeof want, "%.*f", fewest, value);                                                        \
        got = name##_print_shortest((word)x, f, buffer, sizeof buffer, &length);                                   \
        compare_text(#name "_print_shortest", FIXED_OK, want, got, buffer, length);                                \
        strcpy(buffer, "as it was");                                                                               \
        got = name##_print_shortest((word)x, f, buffer, strlen(want), &length);                                    \
        compare_text(#name "_print_shortest", FIXED_NO_ROOM, "as it was", got, buffer, length);                    \
        if (length != strlen(want)) printf(#name ": another length\n"), exit(1);                                   \
      }                                                                                                            \
    }                                                                                                              \
    strcpy(buffer, "as it was");                                                                                   \
    got = name##_print(1, 9, 65, 3, buffer, sizeof buffer, &length);                                               \
        compare_text(#name "_print", FIXED_FRACTION_PAST_WIDTH, "as it was", got, buffer, length);                 \
    got = name##_print(1, 8, 65, 3, buffer, sizeof buffer, &length);                                               \
        compare_text(#name "_print", FIXED_TOO_MANY_PLACES, "as it was", got, buffer, length);                     \
    got = name##_print(1, 8, 64, 3, buffer, sizeof buffer, &length);                                               \
        compare_text(#name "_print", FIXED_NO_ROUNDING, "as it was", got, buffer, length);                         \
  }

CHECK_TEXTS(fixed_i8, int8_t, INT8_MIN, INT8_MAX)
CHECK_TEXTS(fixed_u8, uint8_t, 0, UINT8_MAX)

/* Ends without a bound, or a code. */
struct exact_ends {
  int32_t code;
  int64_t low, high;
};

static int64_t ceiling_of(int64_t x, int64_t d) { return -floor_of(-x, d); }

/* A quotient by a divisor of either sign, rounded down. */
static int64_t floor_over(int64_t x, int64_t d) { return d < 0 ? floor_of(-x, -d) : floor_of(x, d); }

/* The ends over the corners of two intervals, where `times` is 2^f for quotients and 0 for products over 2^f. */
static struct exact_ends corners(int64_t al, int64_t ah, int64_t bl, int64_t bh, uint32_t f, int64_t times) {
  struct exact_ends e = {FIXED_OK, INT64_MAX, INT64_MIN};
  for (int i = 0; i < 4; i++) {
    const int64_t x = i & 1 ? ah : al, y = i & 2 ? bh : bl;
    const int64_t down = times ? floor_over(x * times, y) : floor_of(x * y, power(f));
    const int64_t up = times ? -floor_over(-x * times, y) : ceiling_of(x * y, power(f));
    if (down < e.low) e.low = down;
    if (up > e.high) e.high = up;
  }
  return e;
}

static struct exact_ends root_ends(int64_t low, int64_t high, uint32_t f) {
  struct exact_ends e = {FIXED_OK, root(low, f).number, root(high, f).number};
  if (e.high * e.high < high * power(f)) e.high++;
  return e;
}

static void compare_ends(const char *call, int exchanged, int32_t undefined, struct exact_ends want, int past,
                         int32_t got, int64_t low, int64_t high, int64_t least, int64_t greatest) {
  if (undefined) want.code = undefined;
  if (!undefined && (want.low < least || want.high > greatest)) want.code = FIXED_OUT_OF_RANGE;
  if (exchanged) want.code = FIXED_ENDS_EXCHANGED;
  if (past) want.code = FIXED_FRACTION_PAST_WIDTH;
  if (want.code) want.low = 77, want.high = 78;
  compared++;
  if (got != want.code || low != want.low || high != want.high) {
    printf("%s: code %d, %lld to %lld, but by plain C %d, %lld to %lld\n", call, (int)got, (long long)low,
           (long long)high, (int)want.code, (long long)want.low, (long long)want.high);
    exit(1);
  }
}

#define ENDS(name, operation, exchanged, undefined, want, past, ...)                                               \
  do {                                                                                                             \
    name##_interval result = {77, 78};                                                                             \
    const int32_t got = name##_##operation(__VA_ARGS__, &result);                                                  \
    compare_ends(#name "_" #operation, exchanged, undefined, want, past, got, result.low, result.high, least,      \
                 greatest);                                                                                        \
  } while (0)

static struct exact_ends plain_ends(int64_t low, int64_t high) {
  struct exact_ends e = {FIXED_OK, low, high};
  return e;
}

#define MOST 6

/* Compares the code, the value and the place that a call left with those of plain C. */
#define LEFT_ALIKE(label, word, value, place)                                                                      \
  compared++;                                                                                                      \
  if (got != want || value != (want == FIXED_OK ? (word)sum : 77) || place != (want == FIXED_OUT_OF_RANGE ? i : 78)) { \
    printf(label ": code %d, but by plain C %d\n", (int)got, (int)want);                                           \
    exit(1);                                                                                                       \
  }

/* Intervals between ends that are some steps apart, in order and exchanged; arrays of up to MOST numbers. */
#define CHECK_MORE(name, word, from, to)                                                                           \
  static void check_ends_##name(void) {                                                                            \
    const int64_t least = from, greatest = to, step = 15;                                                          \
    for (int64_t al = least; al <= greatest; al += step)                                                           \
      for (int64_t ah = least; ah <= greatest; ah += step) {                                                       \
        const word a = (word)al, b = (word)ah;                                                                     \
        for (int i = 0; i < 4; i++) {                                                                              \
          const uint32_t f = fractions[i];                                                                         \
          ENDS(name, sqrt_in, al > ah, al < 0 ? FIXED_NEGATIVE_ROOT : 0,                                           \
               al < 0 || al > ah || PAST(f) ? plain_ends(0, 0) : root_ends(al, ah, f), PAST(f), a, b, f);          \
        }                                                                                                          \
        for (int64_t bl = least; bl <= greatest; bl += step)                                                       \
          for (int64_t bh = least; bh <= greatest; bh += step) {                                                   \
            const word c = (word)bl, d = (word)bh;                                                                 \
            const int exchanged = al > ah || bl > bh, zero = bl <= 0 && bh >= 0;                                   \
            ENDS(name, add_in, exchanged, 0, plain_ends(al + bl, ah + bh), 0, a, b, c, d);                         \
            ENDS(name, sub_in, exchanged, 0, plain_ends(al - bh, ah - bl), 0, a, b, c, d);                         \
            for (int i = 0; i < 4; i++) {                                                                          \
              const uint32_t f = fractions[i];                                                                     \
              ENDS(name, mul_in, exchanged, 0, corners(al, ah, bl, bh, f, 0), PAST(f), a, b, c, d, f);             \
              ENDS(name, div_in, exchanged, zero ? FIXED_ZERO_DIVISOR : 0,                                         \
                   bl == 0 || bh == 0 ? plain_ends(0, 0) : corners(al, ah, bl, bh, f, power(f)), PAST(f), a, b, c, \
                   d, f);                                                                                          \
            }                                                                                                      \
          }                                                                                                        \
      }                                                                                                            \
  }                                                                                                                \
  static void check_horner_##name(void) {                                                                          \
    word coefs[MOST + 1];                                                                                          \
    for (int tried = 0; tried < 400000; tried++) {                                                                 \
      const size_t count = (size_t)draw(0, MOST);                                                                  \
      const uint32_t f = (uint32_t)draw(0, 9);                                                                     \
      const word x = (word)draw(from / (1 + (int64_t)(tried % 3)), to / (1 + (int64_t)(tried % 3)));               \
      int32_t want = PAST(f) ? FIXED_FRACTION_PAST_WIDTH : count == 0 ? FIXED_NO_ELEMENT : FIXED_OK;               \
      int64_t sum = 0;                                                                                             \
      word value = 77;                                                                                             \
      size_t step = 78, i;                                                                                         \
      int32_t got;                                                                                                 \
      for (i = 0; i < count; i++) coefs[i] = (word)draw(from / 2, to / 2);                                         \
      for (i = count; want == FIXED_OK && i-- > 0;) {                                                              \
        sum = floor_of(sum * x, power(f)) + coefs[i];                                                              \
        if (sum < from || sum > to) {                                                                              \
          want = FIXED_OUT_OF_RANGE;                                                                               \
          break;                                                                                                   \
        }                                                                                                          \
      }                                                                                                            \
      got = name##_horner(coefs, count, x, f, &value, &step);                                                      \
      LEFT_ALIKE(#name "_horner", word, value, step)                                                               \
    }                                                                                                              \
  }                                                                                                                \
  static void check_filter_##name(void) {                                                                          \
    word taps[MOST + 1], past[MOST + 1], kept[MOST + 1];                                                           \
    for (int tried = 0; tried < 400000; tried++) {                                                                 \
      const size_t count = (size_t)draw(0, MOST), other = draw(0, 9) == 0 ? (size_t)draw(0, MOST) : count;         \
      const uint32_t f = (uint32_t)draw(0, tried % 4 ? 8 : 9), g = (uint32_t)draw(0, tried % 5 ? 8 : 9);           \
      const uint32_t h = (uint32_t)draw(0, tried % 7 ? 8 : 9);                                                     \
      const word sample = (word)draw(from, to);                                                                    \
      int32_t want = PAST(f) || PAST(g) || PAST(h) ? FIXED_FRACTION_PAST_WIDTH                                     \
                     : count == 0                  ? FIXED_NO_ELEMENT                                              \
                     : count != other              ? FIXED_COUNTS_DIFFER                                           \
                                                   : FIXED_OK;                                                     \
      const int taken = want == FIXED_OK;                                                                          \
      int64_t sum = 0;                                                                                             \
      word output = 77;                                                                                            \
      size_t tap = 78, i;                                                                                          \
      int32_t got;                                                                                                 \
      for (i = 0; i <= MOST; i++) {                                                                                \
        taps[i] = (word)draw(from / (1 + tried % 8), to / (1 + tried % 8));                                        \
        past[i] = kept[i] = (word)draw(from, to);                                                                  \
      }                                                                                                            \
      for (i = other; taken && i-- > 1;) kept[i] = kept[i - 1];                                                    \
      if (taken) kept[0] = sample;                                                                                 \
      for (i = 0; want == FIXED_OK && i < count; i++) {                                                            \
        sum = sum_of_product(sum, taps[i], kept[i], (int32_t)(g + h) - (int32_t)f).number;                         \
        if (sum < from || sum > to) {                                                                              \
          want = FIXED_OUT_OF_RANGE;                                                                               \
          break;                                                                                                   \
        }                                                                                                          \
      }                                                                                                            \
      got = name##_filter(taps, count, past, other, sample, f, g, h, &output, &tap);                               \
      for (size_t k = 0; k <= MOST; k++)                                                                           \
        if (past[k] != kept[k]) got = -1;                                                                          \
      LEFT_ALIKE(#name "_filter", word, output, tap)                                                               \
    }                                                                                                              \
  }

CHECK_MORE(fixed_i8, int8_t, INT8_MIN, INT8_MAX)
CHECK_MORE(fixed_u8, uint8_t, 0, UINT8_MAX)

/* The largest root of a^2 + b^2, as a long double: exact up to words of 32 bits. */
static long double length_of(long double a, long double b) {
  long double x = floorl(sqrtl(a * a + b * b));
  while (x * x > a * a + b * b) x -= 1;
  return x;
}

/* A call leaves a whole number of units, which an exact value is rounded down to, or to which it is as near as the bound of
 * its function; or it does not fit. */
static void compare_near(const char *call, int32_t want, long double exact, long double part, int32_t got, long double left,
                         long double least, long double greatest) {
  const long double low = floorl(exact - part), high = floorl(exact + part);
  int good = got == want && left == 77;
  if (want == FIXED_OK && got == FIXED_OK) good = low <= left && left <= high;
  if (want == FIXED_OK && got == FIXED_OUT_OF_RANGE) good = left == 77 && (low < least || high > greatest);
  compared++;
  if (!good) {
    printf("%s: code %d, %.0Lf, but by long doubles %d, %.6Lf\n", call, (int)got, left, (int)want, exact);
    exit(1);
  }
}

#define NEAR(name, operation, want, exact, share, ...)                                                             \
  {                                                                                                                \
    const long double x = (exact);                                                                                 \
    word_of_##name number = 77;                                                                                    \
    const int32_t got = name##_##operation(__VA_ARGS__, &number);                                                  \
    const long double part = ldexpl(1, -18) + fabsl(share) * ldexpl(1, -54);                                       \
    compare_near(#name "_" #operation, f > bits ? FIXED_FRACTION_PAST_WIDTH : want, x, part, got,                  \
                 (long double)number, least, greatest);                                                            \
  }

/* The sine and the cosine by one call, beside two calls. */
#define BOTH(name, of_sine, of_cosine, of_both, a, f)                                                              \
  {                                                                                                                \
    word_of_##name sine = 77, cosine = 78, left_sine = 77, left_cosine = 78;                                       \
    const int32_t got = name##_##of_both(a, f, &sine, &cosine);                                                    \
    const int32_t one = name##_##of_sine(a, f, &left_sine), other = name##_##of_cosine(a, f, &left_cosine);        \
    if (one != FIXED_OK || other != FIXED_OK) left_sine = 77, left_cosine = 78;                                    \
    compared++;                                                                                                    \
    if (got != (one != FIXED_OK ? one : other) || sine != left_sine || cosine != left_cosine) {                    \
      printf(#name "_" #of_both ": code %d, %lld, %lld\n", (int)got, (long long)sine, (long long)cosine);          \
      exit(1);                                                                                                     \
    }                                                                                                              \
  }

/* Functions of numbers that are drawn. Those of 64 bits need a long double of as many. */
#define CHECK_ELEMENTARY(name, word, width, from_end, to_end)                                                      \
  typedef word word_of_##name;                                                                                     \
  static void check_elementary_##name(void) {                                                                      \
    const long double least = (long double)from_end, greatest = (long double)to_end;                               \
    const uint32_t bits = width;                                                                                   \
    for (int tried = 0; tried < 100000 && (bits < 64 || LDBL_MANT_DIG >= 64); tried++) {                           \
      const word a = (word)((draw(INT64_MIN / 4, INT64_MAX / 4) * 7) >> draw(0, 63));                              \
      const word b = (word)((draw(INT64_MIN / 4, INT64_MAX / 4) * 7) >> draw(0, 63));                              \
      const uint32_t f = (uint32_t)draw(0, width + 1);                                                             \
      const int32_t above = a > 0 ? FIXED_OK : FIXED_NOT_POSITIVE;                                                 \
      const int32_t no_angle = a == 0 && b == 0 ? FIXED_NO_ANGLE : FIXED_OK;                                       \
      const long double unit = ldexpl(1, -(int)f), of_a = (long double)a * unit, of_b = (long double)b * unit;     \
      const long double angle = 2 * acosl(-1) * fmodl(of_a, 1), logs = 64 * unit + 64 / unit;                      \
      const long double power = powl(of_a, of_b) / unit;                                                           \
      if (f <= bits && bits < 64) {                                                                                \
        const uint32_t f = 0;                                                                                      \
        NEAR(name, hypot, FIXED_OK, length_of((long double)a, (long double)b), 0.0L, a, b)                         \
      }                                                                                                            \
      NEAR(name, recip_sqrt, above, 1 / sqrtl(of_a) / unit, 1 / sqrtl(of_a) / unit, a, f)                          \
      NEAR(name, log2, above, log2l(of_a) / unit, logs, a, f)                                                      \
      NEAR(name, ln, above, logl(of_a) / unit, logs, a, f)                                                         \
      NEAR(name, log10, above, log10l(of_a) / unit, logs, a, f)                                                    \
      NEAR(name, exp2, FIXED_OK, exp2l(of_a) / unit, exp2l(of_a) / unit, a, f)                                     \
      NEAR(name, exp, FIXED_OK, expl(of_a) / unit, expl(of_a) / unit, a, f)                                        \
      NEAR(name, pow, above, power, power, a, b, f)                                                                \
      NEAR(name, sin, FIXED_OK, sinl(of_a) / unit + 0.5L, (bits < 64 ? 8192 : 1) / unit, a, f)                     \
      NEAR(name, cos, FIXED_OK, cosl(of_a) / unit + 0.5L, (bits < 64 ? 8192 : 1) / unit, a, f)                     \
      NEAR(name, sin_turns, FIXED_OK, sinl(angle) / unit + 0.5L, (bits < 64 ? 8192 : 1) / unit, a, f)              \
      NEAR(name, cos_turns, FIXED_OK, cosl(angle) / unit + 0.5L, (bits < 64 ? 8192 : 1) / unit, a, f)              \
      NEAR(name, atan2, no_angle, atan2l(of_a, of_b) / unit + 0.5L, (bits < 64 ? 16384 : 1) / unit, a, b, f)       \
      NEAR(name, atan2_turns, no_angle,                                                                            \
           atan2l(of_a, of_b) / (2 * acosl(-1)) / unit + 0.5L, (bits < 64 ? 4096 : 1) / unit, a, b, f)             \
      BOTH(name, sin, cos, sin_cos, a, f)                                                                          \
      BOTH(name, sin_turns, cos_turns, sin_cos_turns, a, f)                                                        \
    }                                                                                                              \
  }

CHECK_ELEMENTARY(fixed_i8, int8_t, 8, INT8_MIN, INT8_MAX)
CHECK_ELEMENTARY(fixed_i16, int16_t, 16, INT16_MIN, INT16_MAX)
CHECK_ELEMENTARY(fixed_i32, int32_t, 32, INT32_MIN, INT32_MAX)
CHECK_ELEMENTARY(fixed_i64, int64_t, 64, INT64_MIN, INT64_MAX)
CHECK_ELEMENTARY(fixed_u8, uint8_t, 8, 0, UINT8_MAX)
CHECK_ELEMENTARY(fixed_u16, uint16_t, 16, 0, UINT16_MAX)
CHECK_ELEMENTARY(fixed_u32, uint32_t, 32, 0, UINT32_MAX)
CHECK_ELEMENTARY(fixed_u64, uint64_t, 64, 0, UINT64_MAX)

/* A sine or a cosine of radians, or an angle in radians, beside the nearest one, which was computed by integers of 400
 * bits. */
static void compare_radians(const char *call, int32_t got, int64_t left, int64_t nearest) {
  compared++;
  if (got != FIXED_OK || left != nearest) {
    printf("%s: code %d, %lld, but %lld is nearest\n", call, (int)got, (long long)left, (long long)nearest);
    exit(1);
  }
}

#define RADIANS(name, a, f, nearest_sine, nearest_cosine)                                                          \
  {                                                                                                                \
    word_of_##name sine = 77, cosine = 78;                                                                         \
    const int32_t of_sine = name##_sin(a, f, &sine), of_cosine = name##_cos(a, f, &cosine);                        \
    compare_radians(#name "_sin", of_sine, (int64_t)sine, nearest_sine);                                           \
    compare_radians(#name "_cos", of_cosine, (int64_t)cosine, nearest_cosine);                                     \
  }

/* Among these are 355 radians, which are almost 113 half turns, and the ends of words. */
static void check_radians(void) {
  RADIANS(fixed_i8, 16, 4, 13, 9)
  RADIANS(fixed_i8, -128, 3, 2, -8)
  RADIANS(fixed_u8, 255, 8, 215, 139)
  RADIANS(fixed_i16, -32768, 12, -4052, -596)
  RADIANS(fixed_u16, 40000, 15, 30780, 11239)
  RADIANS(fixed_i32, 65536, 16, 55147, 35409)
  RADIANS(fixed_i32, -23265280, 16, 2, -65536)
  RADIANS(fixed_i32, INT32_MAX, 16, 60808, 24442)
  RADIANS(fixed_i32, INT32_MIN, 28, -265578832, -39057368)
  RADIANS(fixed_u32, 2147483648, 32, 2059117009, 3769188403)
  RADIANS(fixed_i64, -1524713390080, 32, 129469, -4294967294)
  RADIANS(fixed_i64, INT64_MIN, 0, -1, 0)
  RADIANS(fixed_i64, INT64_MAX, 16, -4251, -65398)
  RADIANS(fixed_i64, 2774851117601566901, 32, 4294967296, 0)
  RADIANS(fixed_i64, INT64_MAX, 48, 261168339838519, 104972666824542)
  RADIANS(fixed_i64, 72057594037927936, 56, 60634374617982832, 38932884214002781)
}

#define ANGLE(name, y, x, f, nearest)                                                                              \
  {                                                                                                                \
    word_of_##name number = 77;                                                                                    \
    const int32_t got = name##_atan2(y, x, f, &number);                                                            \
    compare_radians(#name "_atan2", got, (int64_t)number, nearest);                                                \
  }

/* Among these are points on each axis and beside it, and the ends of words. */
static void check_angles(void) {
  ANGLE(fixed_i8, 0, 127, 5, 0)
  ANGLE(fixed_i8, 0, -128, 5, 101)
  ANGLE(fixed_i8, 1, 0, 5, 50)
  ANGLE(fixed_i8, -128, 0, 5, -50)
  ANGLE(fixed_i8, -1, -128, 5, -100)
  ANGLE(fixed_i8, 127, -128, 4, 38)
  ANGLE(fixed_u8, 255, 1, 7, 201)
  ANGLE(fixed_u8, 255, 255, 8, 201)
  ANGLE(fixed_i16, 1, -32768, 13, 25736)
  ANGLE(fixed_i16, -32768, -32768, 13, -19302)
  ANGLE(fixed_i16, 32767, 0, 14, 25736)
  ANGLE(fixed_u16, 1, 65535, 16, 1)
  ANGLE(fixed_u16, 65535, 1, 15, 51471)
  ANGLE(fixed_i32, 65536, 65536, 16, 51472)
  ANGLE(fixed_i32, 0, -1, 16, 205887)
  ANGLE(fixed_i32, 3, 4, 28, 172738514)
  ANGLE(fixed_i32, -1, INT32_MIN, 29, -1686629713)
  ANGLE(fixed_i32, 1, INT32_MIN, 29, 1686629713)
  ANGLE(fixed_i32, INT32_MIN, INT32_MAX, 31, -1686629714)
  ANGLE(fixed_i32, 1, INT32_MAX, 31, 1)
  ANGLE(fixed_u32, 1, UINT32_MAX, 32, 1)
  ANGLE(fixed_u32, UINT32_MAX, 0, 31, 3373259426)
  ANGLE(fixed_i64, 0, -1, 56, 226375608064910089)
  ANGLE(fixed_i64, 1, INT64_MIN, 56, 226375608064910089)
  ANGLE(fixed_i64, -1, INT64_MIN, 56, -226375608064910089)
  ANGLE(fixed_i64, INT64_MIN, 0, 56, -113187804032455044)
  ANGLE(fixed_i64, 3, 4, 32, 2763816217)
  ANGLE(fixed_i64, -3, -4, 48, -703150259392684)
  ANGLE(fixed_i64, 1, 1, 56, 56593902016227522)
  ANGLE(fixed_i64, 1, INT64_MAX, 56, 0)
  ANGLE(fixed_u64, 1, 4294967296, 32, 1)
  ANGLE(fixed_u64, 5, 12, 56, 28447698233104430)
  ANGLE(fixed_u64, UINT64_MAX, 1, 56, 113187804032455044)
}

/* Blocks that are drawn, by each policy, beside the single calls. */
#define BLOCK_CALL(name, operation, single, of_block)                                                              \
  for (uint32_t policy = 0; policy < 4; policy++) {                                                                \
    size_t place = 99;                                                                                             \
    memcpy(block, first, sizeof block);                                                                            \
    const int32_t got = of_block;                                                                                  \
    int32_t want = FIXED_OK;                                                                                       \
    size_t want_place = 99;                                                                                        \
    memcpy(expected, first, sizeof block);                                                                         \
    for (size_t i = 0; i < count && want == FIXED_OK; i++) {                                                       \
      name result = {0, 0};                                                                                        \
      want = single;                                                                                               \
      if (want == FIXED_OK && policy > FIXED_CHECKED) want = FIXED_NO_POLICY;                                      \
      if (want == FIXED_OK && policy == FIXED_CHECKED && result.side != FIXED_FITS) {                              \
        want = FIXED_OUT_OF_RANGE, want_place = i;                                                                 \
      }                                                                                                            \
      if (want == FIXED_OK) {                                                                                      \
        expected[i] = policy == FIXED_SATURATING ? name##_saturating(result) : result.bits;                        \
      }                                                                                                            \
    }                                                                                                              \
    compared++;                                                                                                    \
    if (got != want || place != want_place || memcmp(block, expected, sizeof block) != 0) {                        \
      printf(#name "_" #operation "_block: code %d, place %zu, but by single calls %d, %zu\n", (int)got, place,    \
             (int)want, want_place);                                                                               \
      exit(1);                                                                                                     \
    }                                                                                                              \
  }

#define CHECK_BLOCKS(name, word, width, of_sign)                                                                   \
  static void check_blocks_##name(void) {                                                                          \
    enum { most = 37 };                                                                                            \
    word block[most], first[most], others[most], expected[most];                                                   \
    for (int tried = 0; tried < 3000; tried++) {                                                                   \
      const size_t count = (size_t)draw(1, most);                                                                  \
      const int by_bits = (int)draw(0, 63);                                                                        \
      for (size_t i = 0; i < most; i++) {                                                                          \
        first[i] = (word)(draw(INT64_MIN / 2, INT64_MAX / 2) * 2 >> by_bits);                                      \
        others[i] = (word)(draw(INT64_MIN / 2, INT64_MAX / 2) * 2 >> by_bits);                                     \
      }                                                                                                            \
      const word k = (word)draw(-3, 3);                                                                            \
      const uint32_t f = (uint32_t)draw(0, width), g = (uint32_t)draw(0, width), r = roundings[draw(0, 3)];        \
      const uint32_t bad = (uint32_t)draw(0, 9) == 0 ? width + 1 : f;                                              \
      BLOCK_CALL(name, neg, name##_neg(first[i], &result), name##_neg_block(block, count, policy, &place))         \
      BLOCK_CALL(name, mul_int, name##_mul_int(first[i], k, &result),                                              \
                 name##_mul_int_block(block, count, k, policy, &place))                                            \
      BLOCK_CALL(name, scale, name##_mul(first[i], others[0], bad, &result),                                       \
                 name##_scale_block(block, count, others[0], bad, policy, &place))                                 \
      BLOCK_CALL(name, convert, convert_##of_sign(name, first[i], bad > width ? 65 : f, g, r),                     \
                 name##_convert_block(block, count, bad, g, r, policy, &place))                                    \
      BLOCK_CALL(name, add, name##_add(first[i], others[i], &result),                                              \
                 name##_add_block(block, count, others, count, policy, &place))                                    \
      BLOCK_CALL(name, sub, name##_sub(first[i], others[i], &result),                                              \
                 name##_sub_block(block, count, others, count, policy, &place))                                    \
      BLOCK_CALL(name, mul, name##_mul(first[i], others[i], bad, &result),                                         \
                 name##_mul_block(block, count, others, count, bad, policy, &place))                               \
      BLOCK_CALL(name, mul_add, name##_mul_add(others[i], k, first[i], bad, &result),                              \
                 name##_mul_add_block(block, count, others, count, k, bad, policy, &place))                        \
      BLOCK_CALL(name, sub, FIXED_COUNTS_DIFFER,                                                                   \
                 name##_sub_block(block, count, others, count - 1, policy, &place))                                \
      of_sign##_BLOCKS(name)                                                                                       \
    }                                                                                                              \
  }

/* The sum of the products, beside single sums and products in a wider integer. */
#define CHECK_DOTS(name, word, width, down, from_end, to_end)                                                      \
  static void check_dots_##name(void) {                                                                            \
    enum { most = 37 };                                                                                            \
    const int64_t least = from_end, greatest = (int64_t)to_end;                                                    \
    word a[most], b[most];                                                                                         \
    for (int tried = 0; tried < 3000; tried++) {                                                                   \
      const size_t count = (size_t)draw(0, most);                                                                  \
      const uint32_t drawn = (uint32_t)draw(0, width + 1), f = drawn == 63 || drawn == 64 ? 62 : drawn;            \
      const int by_bits = (int)draw(down, width - 1);                                                              \
      int64_t sum = 0;                                                                                             \
      for (size_t i = 0; i < count; i++) {                                                                         \
        a[i] = (word)((word)draw(INT64_MIN / 2, INT64_MAX / 2) >> by_bits);                                        \
        b[i] = (word)((word)draw(INT64_MIN / 2, INT64_MAX / 2) >> by_bits);                                        \
        sum += (int64_t)a[i] * (int64_t)b[i];                                                                      \
      }                                                                                                            \
      const struct exact want = f > width ? code(FIXED_FRACTION_PAST_WIDTH) : number(floor_of(sum, power(f)));     \
      const struct exact differ = f > width ? want : code(FIXED_COUNTS_DIFFER);                                    \
      word bits = 77;                                                                                              \
      name result = {bits, 99};                                                                                    \
      int32_t got = name##_dot(a, count, b, count, f, &result);                                                    \
      compared++;                                                                                                  \
      if (want.code == FIXED_OK) bits = (word)want.number;                                                         \
      const int32_t side = want.code != FIXED_OK ? 99                                                              \
                           : want.number < least ? FIXED_BELOW                                                     \
                           : want.number > greatest ? FIXED_ABOVE                                                  \
                                                    : FIXED_FITS;                                                  \
      const int good = got == want.code && result.bits == bits && result.side == side;                             \
      got = name##_dot(a, count, b, count + 1, f, &result);                                                        \
      if (!good || got != differ.code || result.bits != bits || result.side != side) {                             \
        printf(#name "_dot: code %d, bits %lld, side %d\n", (int)got, (long long)result.bits, (int)result.side);   \
        exit(1);                                                                                                   \
      }                                                                                                            \
    }                                                                                                              \
  }

CHECK_DOTS(fixed_i8, int8_t, 8, 0, INT8_MIN, INT8_MAX)
CHECK_DOTS(fixed_i16, int16_t, 16, 0, INT16_MIN, INT16_MAX)
CHECK_DOTS(fixed_i32, int32_t, 32, 4, INT32_MIN, INT32_MAX)
CHECK_DOTS(fixed_i64, int64_t, 64, 36, INT64_MIN, INT64_MAX)
CHECK_DOTS(fixed_u8, uint8_t, 8, 0, 0, UINT8_MAX)
CHECK_DOTS(fixed_u16, uint16_t, 16, 0, 0, UINT16_MAX)
CHECK_DOTS(fixed_u32, uint32_t, 32, 4, 0, UINT32_MAX)
CHECK_DOTS(fixed_u64, uint64_t, 64, 36, 0, INT64_MAX)

/* A filter over a block of samples, beside as many single steps. */
#define CHECK_FILTER_BLOCKS(name, word, width)                                                                     \
  static void check_filter_blocks_##name(void) {                                                                   \
    enum { most = 20 };                                                                                            \
    word taps[most], past[most], kept[most], input[most], output[most], expected[most];                            \
    for (int tried = 0; tried < 3000; tried++) {                                                                   \
      const size_t count = (size_t)draw(0, 6), samples = (size_t)draw(0, most - 1);                                \
      const size_t past_count = count + (draw(0, 9) == 0), outputs = samples + (draw(0, 9) == 0);                  \
      const int by_bits = (int)draw(64 - width, 63);                                                               \
      for (size_t i = 0; i < most; i++) {                                                                          \
        taps[i] = (word)(draw(INT64_MIN / 2, INT64_MAX / 2) * 2 >> by_bits);                                       \
        input[i] = (word)(draw(INT64_MIN / 2, INT64_MAX / 2) * 2 >> by_bits);                                      \
        past[i] = kept[i] = input[(i + 5) % most], output[i] = expected[i] = (word)i;                              \
      }                                                                                                            \
      const uint32_t f = (uint32_t)draw(0, width), g = (uint32_t)draw(0, width);                                   \
      const uint32_t h = draw(0, 9) == 0 ? width + 1 : (uint32_t)draw(0, width);                                   \
      size_t place = 98, tap = 99, want_place = 98, want_tap = 99;                                                 \
      const int32_t got = name##_filter_block(taps, count, past, past_count, input, samples, output, outputs, f,   \
                                              g, h, &place, &tap);                                                 \
      int32_t want = h > width ? FIXED_FRACTION_PAST_WIDTH                                                         \
                     : count == 0 ? FIXED_NO_ELEMENT                                                               \
                     : past_count != count || outputs != samples ? FIXED_COUNTS_DIFFER                             \
                                                                 : FIXED_OK;                                       \
      for (size_t i = 0; i < samples && want == FIXED_OK; i++) {                                                   \
        want = name##_filter(taps, count, kept, count, input[i], f, g, h, &expected[i], &want_tap);                \
        if (want == FIXED_OUT_OF_RANGE) want_place = i;                                                            \
      }                                                                                                            \
      compared++;                                                                                                  \
      if (got != want || place != want_place || tap != want_tap || memcmp(past, kept, sizeof past) != 0 ||         \
          memcmp(output, expected, sizeof output) != 0) {                                                          \
        printf(#name "_filter_block: code %d, sample %zu, tap %zu, but by single steps %d, %zu, %zu\n", (int)got,  \
               place, tap, (int)want, want_place, want_tap);                                                       \
        exit(1);                                                                                                   \
      }                                                                                                            \
    }                                                                                                              \
  }

CHECK_FILTER_BLOCKS(fixed_i8, int8_t, 8)
CHECK_FILTER_BLOCKS(fixed_i16, int16_t, 16)
CHECK_FILTER_BLOCKS(fixed_i32, int32_t, 32)
CHECK_FILTER_BLOCKS(fixed_i64, int64_t, 64)
CHECK_FILTER_BLOCKS(fixed_u8, uint8_t, 8)
CHECK_FILTER_BLOCKS(fixed_u16, uint16_t, 16)
CHECK_FILTER_BLOCKS(fixed_u32, uint32_t, 32)
CHECK_FILTER_BLOCKS(fixed_u64, uint64_t, 64)

#define convert_SIGNED(name, x, from, to, r) name##_convert(x, from, to, r, &result)
#define convert_UNSIGNED(name, x, from, to, r) name##_convert_unsigned(x, from, to, r, &result)
#define SIGNED_BLOCKS(name) \
  BLOCK_CALL(name, abs, name##_abs(first[i], &result), name##_abs_block(block, count, policy, &place))
#define UNSIGNED_BLOCKS(name)

CHECK_BLOCKS(fixed_i8, int8_t, 8, SIGNED)
CHECK_BLOCKS(fixed_i16, int16_t, 16, SIGNED)
CHECK_BLOCKS(fixed_i32, int32_t, 32, SIGNED)
CHECK_BLOCKS(fixed_i64, int64_t, 64, SIGNED)
CHECK_BLOCKS(fixed_u8, uint8_t, 8, UNSIGNED)
CHECK_BLOCKS(fixed_u16, uint16_t, 16, UNSIGNED)
CHECK_BLOCKS(fixed_u32, uint32_t, 32, UNSIGNED)
CHECK_BLOCKS(fixed_u64, uint64_t, 64, UNSIGNED)

/* What the header states of a call to which an array is passed as null with a count of 0. */
static void compare_code(const char *call, int32_t want, int32_t got) {
  compared++;
  if (got != want) {
    printf("%s with null: code %d, but the header says %d\n", call, (int)got, (int)want);
    exit(1);
  }
}

#define CHECK_NULL(name, word)                                                                                     \
  static void check_null_##name(void) {                                                                            \
    const word taps[] = {1};                                                                                       \
    word past[] = {5}, left = 77;                                                                                  \
    size_t place = 78;                                                                                             \
    compare_code(#name "_horner", FIXED_NO_ELEMENT, name##_horner(NULL, 0, 1, 4, &left, &place));                  \
    compare_code(#name "_horner", FIXED_FRACTION_PAST_WIDTH, name##_horner(NULL, 0, 1, 65, &left, &place));        \
    compare_code(#name "_filter", FIXED_NO_ELEMENT, name##_filter(NULL, 0, NULL, 0, 1, 4, 4, 4, &left, &place));   \
    compare_code(#name "_filter", FIXED_NO_ELEMENT, name##_filter(NULL, 0, past, 1, 1, 4, 4, 4, &left, &place));   \
    compare_code(#name "_filter", FIXED_COUNTS_DIFFER, name##_filter(taps, 1, NULL, 0, 1, 4, 4, 4, &left, &place)); \
    compare_code(#name "_filter", FIXED_FRACTION_PAST_WIDTH,                                                       \
                 name##_filter(NULL, 0, NULL, 0, 1, 4, 4, 65, &left, &place));                                     \
    name answer = {1, 2};                                                                                          \
    compare_code(#name "_parse", FIXED_NO_DIGITS, name##_parse(NULL, 0, 4, FIXED_DOWN, &answer));                  \
    compare_code(#name "_print", FIXED_NO_ROOM, name##_print(8, 3, 3, FIXED_DOWN, NULL, 0, &place));               \
    compare_code(#name "_print_shortest: length", 1, (int32_t)place - 4);                                          \
    compare_code(#name "_print_shortest", FIXED_NO_ROOM, name##_print_shortest(8, 3, NULL, 0, &place));            \
    compare_code(#name "_print_shortest: length", 1, (int32_t)place);                                              \
    place = 78;                                                                                                    \
    compare_code(#name "_neg_block", FIXED_OK, name##_neg_block(NULL, 0, FIXED_CHECKED, &place));                  \
    compare_code(#name "_add_block", FIXED_OK, name##_add_block(NULL, 0, NULL, 0, FIXED_WRAPPING, &place));        \
    compare_code(#name "_add_block", FIXED_COUNTS_DIFFER, name##_add_block(past, 1, NULL, 0, 0, &place));          \
    compare_code(#name "_dot", FIXED_COUNTS_DIFFER, name##_dot(taps, 1, NULL, 0, 4, &answer));                     \
    compare_code(#name "_filter_block", FIXED_COUNTS_DIFFER,                                                       \
                 name##_filter_block(taps, 1, past, 1, taps, 1, NULL, 0, 4, 4, 4, &place, &place));                \
    compare_code(#name "_filter_block", FIXED_OK,                                                                  \
                 name##_filter_block(taps, 1, past, 1, NULL, 0, NULL, 0, 4, 4, 4, &place, &place));                \
    if (past[0] != 5 || left != 77 || place != 78 || answer.bits != 1 || answer.side != 2) {                       \
      printf(#name ": a call that returned a code has written\n");                                                 \
      exit(1);                                                                                                     \
    }                                                                                                              \
    compare_code(#name "_dot", FIXED_OK, name##_dot(NULL, 0, NULL, 0, 4, &answer));                                \
    compare_code(#name "_dot: bits", 0, (int32_t)answer.bits);                                                     \
  }

CHECK_NULL(fixed_i8, int8_t)
CHECK_NULL(fixed_i16, int16_t)
CHECK_NULL(fixed_i32, int32_t)
CHECK_NULL(fixed_i64, int64_t)
CHECK_NULL(fixed_u8, uint8_t)
CHECK_NULL(fixed_u16, uint16_t)
CHECK_NULL(fixed_u32, uint32_t)
CHECK_NULL(fixed_u64, uint64_t)

int main(void) {
  check_null_fixed_i8(), check_null_fixed_i16(), check_null_fixed_i32(), check_null_fixed_i64();
  check_null_fixed_u8(), check_null_fixed_u16(), check_null_fixed_u32(), check_null_fixed_u64();
  check_fixed_i8();
  check_fixed_u8();
  check_conversions_fixed_i8(), check_conversions_fixed_u8();
  check_doubles_fixed_i8(), check_doubles_fixed_i16(), check_doubles_fixed_i32(), check_doubles_fixed_i64();
  check_doubles_fixed_u8(), check_doubles_fixed_u16(), check_doubles_fixed_u32(), check_doubles_fixed_u64();
  check_texts_fixed_i8(), check_texts_fixed_u8();
  check_ends_fixed_i8(), check_ends_fixed_u8();
  check_elementary_fixed_i8(), check_elementary_fixed_i16(), check_elementary_fixed_i32(), check_elementary_fixed_i64();
  check_elementary_fixed_u8(), check_elementary_fixed_u16(), check_elementary_fixed_u32(), check_elementary_fixed_u64();
  check_radians();
  check_angles();
  check_blocks_fixed_i8(), check_blocks_fixed_i16(), check_blocks_fixed_i32(), check_blocks_fixed_i64();
  check_blocks_fixed_u8(), check_blocks_fixed_u16(), check_blocks_fixed_u32(), check_blocks_fixed_u64();
  check_dots_fixed_i8(), check_dots_fixed_i16(), check_dots_fixed_i32(), check_dots_fixed_i64();
  check_dots_fixed_u8(), check_dots_fixed_u16(), check_dots_fixed_u32(), check_dots_fixed_u64();
  check_filter_blocks_fixed_i8(), check_filter_blocks_fixed_i16(), check_filter_blocks_fixed_i32();
  check_filter_blocks_fixed_i64(), check_filter_blocks_fixed_u8(), check_filter_blocks_fixed_u16();
  check_filter_blocks_fixed_u32(), check_filter_blocks_fixed_u64();
  check_horner_fixed_i8(), check_horner_fixed_u8();
  check_filter_fixed_i8(), check_filter_fixed_u8();
  printf("%ld calls answer as plain C does\n", compared);
  return 0;
}
