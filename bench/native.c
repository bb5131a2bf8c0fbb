/* The loops of bench/runs.py by hand: filters, polynomials and intervals on plain integers. gcc -O2. */
#include "draws.h"
#include <stdio.h>
#include <stdlib.h>
#include <string.h>

#define PASSES 2001
#define SAMPLES 256
#define POINTS 4096
#define LINES 1000000
#define PAIRS 1024
#define PAIR_PASSES 501

/* A channel: its taps, its past samples, and the places by which a product moves down. */
struct channel {
  int32_t *taps, *past;
  size_t count;
  int places;
};

static struct channel channel(size_t count) {
  struct channel c = {malloc(count * 4), calloc(count, 4), count, 30 + 16 - 16};
  state = 42;
  for (size_t i = 0; i < count; i++) c.taps[i] = (int32_t)(draw() >> 40) - (1 << 23);
  return c;
}

/* The output, or the tap whose partial sum does not fit. */
__attribute__((noinline)) static int push(struct channel *c, int32_t sample, int32_t *output, size_t *tap) {
  memmove(c->past + 1, c->past, (c->count - 1) * 4);
  c->past[0] = sample;
  int32_t sum = 0;
  for (size_t i = 0; i < c->count; i++) {
    int64_t next = sum + (((int64_t)c->taps[i] * c->past[i]) >> c->places);
    if (next != (int32_t)next) {
      *tap = i;
      return 0;
    }
    sum = (int32_t)next;
  }
  *output = sum;
  return 1;
}

static void measure_push(size_t taps) {
  struct channel c = channel(taps);
  int32_t samples[SAMPLES], output = 0;
  size_t tap = 0;
  uint64_t check = 0;
  double least = 1e18;
  for (int i = 0; i < SAMPLES; i++) samples[i] = (int32_t)(draw() >> 40) - (1 << 23);
  for (int pass = 0; pass < PASSES; pass++) {
    double start = now();
    for (int i = 0; i < SAMPLES; i++) check += push(&c, samples[i], &output, &tap) ? (uint64_t)output : tap;
    double taken = now() - start;
    if (taken < least) least = taken;
  }
  printf("push %zu %.4f %llu\n", taps, least / SAMPLES / taps, (unsigned long long)check);
}

/* Horner's rule: the value, or the step whose value does not fit. */
#define HORNER(NAME, WORD, WIDE, PLACES)                                                            \
  __attribute__((noinline)) static int NAME(const WORD *coefs, size_t count, WORD x, WORD *value) { \
    WORD v = 0;                                                                                     \
    for (size_t i = count; i-- > 0;) {                                                              \
      WIDE next = (((WIDE)v * x) >> PLACES) + coefs[i];                                             \
      if (next != (WORD)next) {                                                                     \
        *value = (WORD)i;                                                                           \
        return 0;                                                                                   \
      }                                                                                             \
      v = (WORD)next;                                                                               \
    }                                                                                               \
    *value = v;                                                                                     \
    return 1;                                                                                       \
  }                                                                                                 \
  static void measure_##NAME(size_t count) {                                                        \
    static WORD coefs[64], points[POINTS];                                                          \
    uint64_t check = 0;                                                                             \
    double least = 1e18;                                                                            \
    state = 42;                                                                                     \
    for (size_t i = 0; i < count; i++) coefs[i] = (WORD)(draw() >> (64 - PLACES)) / (WORD)count;    \
    for (int i = 0; i < POINTS; i++) points[i] = (WORD)(draw() >> (64 - PLACES));                   \
    for (int pass = 0; pass < PASSES; pass++) {                                                     \
      double start = now();                                                                         \
      for (int i = 0; i < POINTS; i++) {                                                            \
        WORD value;                                                                                 \
        NAME(coefs, count, points[i], &value);                                                      \
        check += (uint64_t)value;                                                                   \
      }                                                                                             \
      double taken = now() - start;                                                                 \
      if (taken < least) least = taken;                                                             \
    }                                                                                               \
    printf(#NAME " %zu %.4f %llu\n", count, least / POINTS / count, (unsigned long long)check);     \
  }

HORNER(horner_i32, int32_t, int64_t, 30)
HORNER(horner_i64, int64_t, __int128, 60)

/* Intervals by their four corners in the double word, and None where 0 is returned. */
#define INTERVALS(WORD, WIDE, NAME, PLACES, DOWN)                                                        \
  struct NAME {                                                                                          \
    WORD lo, hi;                                                                                         \
  };                                                                                                     \
  static WIDE least_##NAME(WIDE p, WIDE q) { return p < q ? p : q; }                                     \
  static WIDE greatest_##NAME(WIDE p, WIDE q) { return p < q ? q : p; }                                  \
  static int put_##NAME(WIDE low, WIDE high, struct NAME *made) {                                        \
    made->lo = (WORD)low, made->hi = (WORD)high;                                                         \
    return low == made->lo && high == made->hi;                                                          \
  }                                                                                                      \
  __attribute__((noinline)) static int mul_in_##NAME(struct NAME a, struct NAME b, struct NAME *made) {  \
    WIDE p = (WIDE)a.lo * b.lo, q = (WIDE)a.lo * b.hi, r = (WIDE)a.hi * b.lo, s = (WIDE)a.hi * b.hi;     \
    WIDE low = least_##NAME(least_##NAME(p, q), least_##NAME(r, s));                                     \
    WIDE high = greatest_##NAME(greatest_##NAME(p, q), greatest_##NAME(r, s));                           \
    return put_##NAME(low >> PLACES, -(-high >> PLACES), made);                                          \
  }                                                                                                      \
  /* x over y, rounded down, and 1 in up where it is not exact. */                                       \
  static WIDE over_##NAME(WORD x, WORD y, WIDE *up) {                                                    \
    WIDE number = (WIDE)x * ((WIDE)1 << PLACES), quotient = number / y, rest = number - quotient * y;    \
    *up = rest != 0;                                                                                     \
    return quotient - (rest != 0 && (rest < 0) != (y < 0));                                              \
  }                                                                                                      \
  __attribute__((noinline)) static int div_in_##NAME(struct NAME a, struct NAME b, struct NAME *made) {  \
    if (b.lo <= 0 && 0 <= b.hi) return 0;                                                                \
    WIDE i, j, k, l, p = over_##NAME(a.lo, b.lo, &i), q = over_##NAME(a.lo, b.hi, &j);                   \
    WIDE r = over_##NAME(a.hi, b.lo, &k), s = over_##NAME(a.hi, b.hi, &l);                               \
    WIDE low = least_##NAME(least_##NAME(p, q), least_##NAME(r, s));                                     \
    WIDE high = greatest_##NAME(greatest_##NAME(p + i, q + j), greatest_##NAME(r + k, s + l));           \
    return put_##NAME(low, high, made);                                                                  \
  }                                                                                                      \
  static struct NAME factor_##NAME(void) {                                                               \
    int64_t low = (int64_t)(draw() >> DOWN) - ((int64_t)1 << (63 - DOWN));                               \
    int64_t high = low + (int64_t)(draw() >> (DOWN + 4));                                                \
    return (struct NAME){(WORD)low, (WORD)high};                                                         \
  }                                                                                                      \
  static struct NAME divisor_##NAME(void) {                                                              \
    int64_t low = ((int64_t)1 << PLACES) + (int64_t)(draw() >> (DOWN + 3));                              \
    int64_t high = low + (int64_t)(draw() >> (DOWN + 4));                                                \
    return draw() >> 63 ? (struct NAME){(WORD)-high, (WORD)-low} : (struct NAME){(WORD)low, (WORD)high}; \
  }

#define MEASURE_INTERVALS(CALL, NAME, PLACES)                                                      \
  static void measure_##CALL##_##NAME(void) {                                                      \
    static struct NAME pairs[PAIRS][2];                                                            \
    uint64_t check = 0;                                                                            \
    double least = 1e18;                                                                           \
    state = 42;                                                                                    \
    for (int i = 0; i < PAIRS; i++) pairs[i][0] = factor_##NAME(), pairs[i][1] = divisor_##NAME(); \
    for (int pass = 0; pass < PAIR_PASSES; pass++) {                                               \
      double start = now();                                                                        \
      for (int i = 0; i < PAIRS; i++) {                                                            \
        struct NAME made;                                                                          \
        int fits = CALL##_##NAME(pairs[i][0], pairs[i][1], &made);                                 \
        check += fits ? (uint64_t)made.lo * 3 + (uint64_t)made.hi : 1;                             \
      }                                                                                            \
      double taken = now() - start;                                                                \
      if (taken < least) least = taken;                                                            \
    }                                                                                              \
    printf(#CALL "_" #NAME " %d %.4f %llu\n", PLACES, least / PAIRS, (unsigned long long)check);   \
  }

INTERVALS(int32_t, int64_t, i32, 16, 40)
INTERVALS(int64_t, __int128, i64, 32, 17)
MEASURE_INTERVALS(mul_in, i32, 16)
MEASURE_INTERVALS(mul_in, i64, 32)
MEASURE_INTERVALS(div_in, i32, 16)
MEASURE_INTERVALS(div_in, i64, 32)

/* The texts of outputs for a script of one channel, whose first two lines are read already. */
__attribute__((noinline)) static size_t run(const char *at, const char *end, struct channel *c, char *out) {
  char *to = out;
  while (at < end) {
    at += 3; /* c0 and a space */
    int below = *at == '-';
    int64_t sample = 0;
    for (at += below; *at != '\n'; at++) sample = sample * 10 + (*at - '0');
    at++;
    int32_t output;
    size_t tap;
    if (!push(c, (int32_t)(below ? -sample : sample), &output, &tap)) exit(1);
    char digits[12], *digit = digits;
    uint32_t rest = output < 0 ? 0u - (uint32_t)output : (uint32_t)output;
    if (output < 0) *to++ = '-';
    do *digit++ = (char)('0' + rest % 10);
    while (rest /= 10);
    while (digit > digits) *to++ = *--digit;
    *to++ = '\n';
  }
  return to - out;
}

static void measure_run(size_t taps) {
  char *script = malloc(LINES * 16), *end = script;
  uint64_t check = 0;
  double least = 1e18;
  for (int sample = 0; sample < 7; sample++) {
    struct channel c = channel(taps);
    if (end == script)
      for (int i = 0; i < LINES; i++) end += sprintf(end, "c0 %d\n", (int32_t)(draw() >> 40) - (1 << 23));
    double start = now();
    char *out = malloc(LINES * 12);
    size_t length = run(script, end, &c, out);
    double taken = now() - start;
    if (taken < least) least = taken;
    check = 0;
    for (size_t i = 0; i < length; i++) check = check * 31 + (unsigned char)out[i];
    free(out);
  }
  printf("run %zu %.4f %llu\n", taps, least / LINES, (unsigned long long)check);
}

int main(int count, char **words) {
  const char *word = count > 1 ? words[1] : "";
  if (!strcmp(word, "push"))
    for (size_t taps = 16; taps <= 256; taps *= 4) measure_push(taps);
  if (!strcmp(word, "run")) measure_run(64);
  if (!strcmp(word, "horner")) measure_horner_i32(8), measure_horner_i64(8);
  if (!strcmp(word, "interval")) {
    measure_mul_in_i32(), measure_mul_in_i64();
    measure_div_in_i32(), measure_div_in_i64();
  }
}
