/* The calls of the face for C, held at the ends of the format, beside the calls of libfixmath that do the same, over
 * arrays of i32 with 16 fraction bits. libfixmath rounds to the nearest number, so results of operations may differ by
 * one unit; those of its functions have no bound. bench/face.py compiles this, and runs it where libfixmath is
 * installed. */
#include "draws.h"
#include "fixed.h"
#include <libfixmath/fixmath.h>
#include <stdio.h>

#define COUNT 1024
#define PASSES 2001
#define FRAC 16

typedef double loop(const int32_t *a, const int32_t *b, int32_t *results);

#define LOOP(label, call)                                                                               \
  __attribute__((noipa)) static double label(const int32_t *as, const int32_t *bs, int32_t *results) {  \
    const double start = now();                                                                         \
    for (int i = 0; i < COUNT; i++) {                                                                   \
      const int32_t a = as[i], b = bs[i];                                                               \
      results[i] = call;                                                                                \
      (void)b;                                                                                          \
    }                                                                                                   \
    return now() - start;                                                                               \
  }

/* The result of a call of the face, whose operands have no code. */
#define HELD(name, ...)                                                    \
  static inline int32_t held_##name(int32_t a, int32_t b) {                \
    fixed_i32 result;                                                      \
    (void)b;                                                               \
    if (fixed_i32_##name(__VA_ARGS__, &result) != FIXED_OK) abort();       \
    return fixed_i32_saturating(result);                                   \
  }

/* The result of a function, for operands that have no code. */
#define NUMBER(name, ...)                                                  \
  static inline int32_t number_##name(int32_t a, int32_t b) {              \
    int32_t number;                                                        \
    (void)b;                                                               \
    if (fixed_i32_##name(__VA_ARGS__, FRAC, &number) != FIXED_OK) abort(); \
    return number;                                                         \
  }

HELD(add, a, b)
HELD(sub, a, b)
HELD(mul, a, b, FRAC)
HELD(div, a, b, FRAC)
HELD(rem, a, b)
HELD(sqrt, a, FRAC)
NUMBER(log2, a)
NUMBER(ln, a)
NUMBER(exp, a)
NUMBER(sin, a)
NUMBER(cos, a)
NUMBER(atan2, a, b)

LOOP(here_add, held_add(a, b))
LOOP(here_sub, held_sub(a, b))
LOOP(here_mul, held_mul(a, b))
LOOP(here_div, held_div(a, b))
LOOP(here_rem, held_rem(a, b))
LOOP(here_sqrt, held_sqrt(a, b))
LOOP(here_log2, number_log2(a, b))
LOOP(here_ln, number_ln(a, b))
LOOP(here_exp, number_exp(a, b))
LOOP(here_sin, number_sin(a, b))
LOOP(here_cos, number_cos(a, b))
LOOP(here_atan2, number_atan2(a, b))

LOOP(fixmath_add, fix16_sadd(a, b))
LOOP(fixmath_sub, fix16_ssub(a, b))
LOOP(fixmath_mul, fix16_smul(a, b))
LOOP(fixmath_div, fix16_sdiv(a, b))
LOOP(fixmath_rem, fix16_mod(a, b))
LOOP(fixmath_sqrt, fix16_sqrt(a))
LOOP(fixmath_log2, fix16_log2(a))
LOOP(fixmath_ln, fix16_log(a))
LOOP(fixmath_exp, fix16_exp(a))
LOOP(fixmath_sin, fix16_sin(a))
LOOP(fixmath_cos, fix16_cos(a))
LOOP(fixmath_atan2, fix16_atan2(a, b))

/* Draws the operands of a pass. Each pass has its own, since libfixmath keeps the results of its last ones. */
typedef void operands(int32_t *a, int32_t *b);

static void pair(int32_t *a, int32_t *b) {
  *a = (int32_t)draw() >> 7;
  *b = ((int32_t)draw() >> 7) | 1; /* never 0 */
}

static void above_zero(int32_t *a, int32_t *b) {
  pair(a, b);
  *a = (*a < 0 ? -*a : *a) | 1;
}

/* From -9 to 9, whose powers fit. */
static void exponent(int32_t *a, int32_t *b) {
  *a = (int32_t)(draw() % (18 << FRAC)) - (9 << FRAC);
  *b = 0;
}

/* From -pi to pi. */
static void angle(int32_t *a, int32_t *b) {
  *a = (int32_t)(draw() % 411775) - 205887;
  *b = 0;
}

static int64_t distance(int32_t a, int32_t b) {
  return a < b ? (int64_t)b - a : (int64_t)a - b;
}

/* Runs both loops in turn, and prints the least of each in nanoseconds a call, and by how many units results differ at
 * most. Ends the program if that is more than is allowed. */
static void row(const char *label, operands *drawn, loop *here, loop *fixmath, int64_t allowed) {
  static int32_t a[COUNT], b[COUNT], results[COUNT], other_results[COUNT];
  double least = 1e18, least_of_other = 1e18;
  int64_t farthest = 0;
  for (int pass = 0; pass < PASSES; pass++) {
    for (int i = 0; i < COUNT; i++) drawn(&a[i], &b[i]);
    const double taken = here(a, b, results), taken_by_other = fixmath(a, b, other_results);
    if (taken < least) least = taken;
    if (taken_by_other < least_of_other) least_of_other = taken_by_other;
    for (int i = 0; i < COUNT; i++) {
      const int64_t apart = distance(results[i], other_results[i]);
      if (apart > allowed) {
        printf("%s of %d and %d: %d, but by libfixmath %d\n", label, a[i], b[i], results[i], other_results[i]);
        exit(1);
      }
      if (apart > farthest) farthest = apart;
    }
  }
  printf("%s %.3f %.3f %lld\n", label, least / COUNT, least_of_other / COUNT, (long long)farthest);
}

int main(void) {
  row("add", pair, here_add, fixmath_add, 1);
  row("sub", pair, here_sub, fixmath_sub, 1);
  row("mul", pair, here_mul, fixmath_mul, 1);
  row("div", pair, here_div, fixmath_div, 1);
  row("rem", pair, here_rem, fixmath_rem, 1);
  row("sqrt", above_zero, here_sqrt, fixmath_sqrt, 1);
  row("log2", above_zero, here_log2, fixmath_log2, INT64_MAX);
  row("ln", above_zero, here_ln, fixmath_ln, INT64_MAX);
  row("exp", exponent, here_exp, fixmath_exp, INT64_MAX);
  row("sin", angle, here_sin, fixmath_sin, INT64_MAX);
  row("cos", angle, here_cos, fixmath_cos, INT64_MAX);
  row("atan2", pair, here_atan2, fixmath_atan2, INT64_MAX);
  return 0;
}
