/* Fixed-point arithmetic for C and C++, proved.
 *
 * A number is a word of 8, 16, 32 or 64 bits, of which frac are fraction bits: its value is the word times 2^-frac. In
 * a word of n bits, frac ranges from 0 to n. The operands of an operation and its result have the same number of
 * fraction bits, unless the comment of the call says otherwise. An operand named k is an integer.
 *
 *     fixed_i32 product;
 *     if (fixed_i32_mul(98304, 131072, 16, &product) == FIXED_OK)       (1.5 times 2)
 *       use(fixed_i32_saturating(product));                             (196608, which is 3)
 *
 * A call that returns FIXED_OK has written its result. A call that returns another code has failed, and leaves the
 * result unchanged, unless its comment says otherwise. The result of an operation is the wrapped word, and the side of
 * the word's range on which the exact result lies. One of five policies makes a number of it: checked, saturating,
 * wrapping, overflowing or strict.
 *
 * Other calls compute elementary functions, whose result is a number; compute with intervals; read and write decimal
 * text; or work on arrays: on blocks, in which an operation writes each result over its operand; on the coefficients of
 * a polynomial; and on the taps of a filter. If a result does not fit, a polynomial, a filter and a checked block write
 * its index.
 *
 * Nothing checks pointers. The program must guarantee that a pointer to a result points to a whole, aligned object that
 * nothing else reads or writes during the call; it may hold anything before. An array must be aligned, have as many
 * elements as its count states, and overlap neither an array that is written nor a result. During the call nothing else
 * may write an array, nor read one that the call writes. The pointer to an array may be null if its count is 0. No call
 * allocates, locks or keeps a pointer. */
#ifndef FIXED_H
#define FIXED_H

#include <stddef.h>
#include <stdint.h>
#include <stdlib.h>

/* The version of this header, as three numbers and as text. */
#define FIXED_VERSION_MAJOR 0
#define FIXED_VERSION_MINOR 2
#define FIXED_VERSION_PATCH 0
#define FIXED_VERSION "0.2.0"

#ifdef __cplusplus
extern "C" {
#endif

/* What a call returns. */
enum {
  FIXED_OK = 0,
  FIXED_FRACTION_PAST_WIDTH = 1, /* a number of fraction bits is greater than the width of its word */
  FIXED_ZERO_DIVISOR = 2,        /* the divisor is 0, or is an interval that contains 0 */
  FIXED_NEGATIVE_ROOT = 3,       /* the operand of a square root, or its low end, is negative */
  FIXED_ENDS_EXCHANGED = 4,      /* the low end of an operand is greater than its high end */
  FIXED_OUT_OF_RANGE = 5,        /* an end, a number, a step, a partial sum or a result of a block does not fit */
  FIXED_NO_ELEMENT = 6,          /* there is no coefficient, or no tap */
  FIXED_COUNTS_DIFFER = 7,       /* two arrays have different counts: taps and past samples, or two blocks */
  FIXED_NO_ROUNDING = 8,         /* no rounding has the number */
  FIXED_NOT_FINITE = 9,          /* the double is a NaN or an infinity */
  FIXED_NO_DIGITS = 10,          /* after its sign, the text is empty or one point */
  FIXED_INVALID_DIGIT = 11,      /* after its sign, the text has a byte that is neither a digit nor a point */
  FIXED_TOO_MANY_POINTS = 12,    /* after its sign, the text has a second point */
  FIXED_TOO_MANY_PLACES = 13,    /* more than 64 digits after the point are requested */
  FIXED_NO_ROOM = 14,            /* the text and its '\0' do not fit into the buffer */
  FIXED_NO_POLICY = 15,          /* no policy of blocks has the number */
  FIXED_NOT_POSITIVE = 16,       /* the operand of recip_sqrt, log2, ln or log10, or the base of pow, is not positive */
  FIXED_NO_ANGLE = 17            /* both coordinates of a point are 0 */
};

/* How a call that takes a rounding rounds a result that lies between two units. */
enum {
  FIXED_DOWN = 0,        /* to the unit below */
  FIXED_TOWARD_ZERO = 1, /* to the unit nearer to 0 */
  FIXED_NEAREST_EVEN = 2 /* to the nearest unit, ties to even */
};

/* What a call on a block writes for an exact result that does not fit. */
enum {
  FIXED_SATURATING = 0, /* the nearest number that fits */
  FIXED_WRAPPING = 1,   /* the number that differs from it by a multiple of 2^n units */
  FIXED_CHECKED = 2     /* nothing: the block is unchanged from there on */
};

/* The side of the range of the word on which the exact result lies. */
enum {
  FIXED_FITS = 0,
  FIXED_ABOVE = 1, /* it is greater than the largest number */
  FIXED_BELOW = -1 /* it is less than the smallest number */
};

/* The result of an operation: `bits` is the wrapped word, which differs from the exact result by a multiple of 2^n
 * units, and is the exact result if that fits; `side` is FIXED_FITS, FIXED_ABOVE or FIXED_BELOW. */
#define FIXED_RESULT(name, word) \
  typedef struct name {          \
    word bits;                   \
    int32_t side;                \
  } name;

/* All numbers from `low` to `high`, both included. */
#define FIXED_INTERVAL(name, word)  \
  typedef struct name##_interval {  \
    word low;                       \
    word high;                      \
  } name##_interval;

/* The operations of every word. A call fails with FIXED_FRACTION_PAST_WIDTH if a number of fraction bits is greater
 * than the width of the word, and otherwise with FIXED_ZERO_DIVISOR if the divisor is 0. Calls that take neither always
 * return FIXED_OK. */
#define FIXED_CALLS(name, word)                                                                                    \
  /* neg writes -a, add a + b, sub a - b, and dist the magnitude of a - b. */                                      \
  int32_t name##_neg(word a, name *result);                                                                        \
  int32_t name##_add(word a, word b, name *result);                                                                \
  int32_t name##_sub(word a, word b, name *result);                                                                \
  int32_t name##_dist(word a, word b, name *result);                                                               \
  /* mul writes a b / 2^frac, rounded down, and mul_int a k, for an integer k. */                                  \
  int32_t name##_mul(word a, word b, uint32_t frac, name *result);                                                 \
  int32_t name##_mul_int(word a, word k, name *result);                                                            \
  /* Writes a mul / 2^mul_frac, rounded down, plus add. The factor mul has mul_frac fraction bits; a, add and the  \
   * result have one unit, which may be any. */                                                                    \
  int32_t name##_mul_add(word a, word mul, word add, uint32_t mul_frac, name *result);                             \
  /* Writes c plus the product of a and b, which is rounded down to the fraction bits of c. Each operand has its   \
   * own number of fraction bits, and the result has that of c. */                                                 \
  int32_t name##_add_prod(word c, word a, word b, uint32_t c_frac, uint32_t a_frac, uint32_t b_frac,               \
                          name *result);                                                                           \
  /* div writes a 2^frac / b, div_int a / k, and recip 2^(2 frac) / a, each rounded toward zero. */                \
  int32_t name##_div(word a, word b, uint32_t frac, name *result);                                                 \
  int32_t name##_div_int(word a, word k, name *result);                                                            \
  int32_t name##_recip(word a, uint32_t frac, name *result);                                                       \
  /* Both write 2^frac times a Euclidean quotient, which is an integer: that of a and b, or that of a and k        \
   * 2^frac. */                                                                                                    \
  int32_t name##_div_euclid(word a, word b, uint32_t frac, name *result);                                          \
  int32_t name##_div_euclid_int(word a, word k, uint32_t frac, name *result);                                      \
  /* rem writes a - b q, where q is the quotient of a and b, rounded toward zero. rem_int does the same with k     \
   * 2^frac in place of b. */                                                                                      \
  int32_t name##_rem(word a, word b, name *result);                                                                \
  int32_t name##_rem_int(word a, word k, uint32_t frac, name *result);                                             \
  /* Both write a Euclidean remainder, which is never negative: that of a and b, or that of a and k 2^frac. */     \
  int32_t name##_rem_euclid(word a, word b, name *result);                                                         \
  int32_t name##_rem_euclid_int(word a, word k, uint32_t frac, name *result);                                      \
  /* Writes the smallest multiple of b that is at least a if b is positive, and the largest one that is at most a  \
   * if b is negative. Fails with FIXED_ZERO_DIVISOR if b is 0. */                                                 \
  int32_t name##_next_multiple_of(word a, word b, name *result);                                                   \
  /* Writes the root of a 2^frac, rounded down. Fails with FIXED_NEGATIVE_ROOT if a is negative. */                \
  int32_t name##_sqrt(word a, uint32_t frac, name *result);

/* The operations that round, with a rounding that the caller names. A call fails with FIXED_FRACTION_PAST_WIDTH if a
 * number of fraction bits is greater than the width of the word, otherwise with FIXED_NO_ROUNDING if no rounding has
 * the number, and otherwise with FIXED_ZERO_DIVISOR if the divisor is 0. */
#define FIXED_ROUNDED_CALLS(name, word)                                                                            \
  /* mul_round writes a b / 2^frac, rounded, and mul_add_round a mul / 2^mul_frac, rounded, plus add. */           \
  int32_t name##_mul_round(word a, word b, uint32_t frac, uint32_t rounding, name *result);                        \
  int32_t name##_mul_add_round(word a, word mul, word add, uint32_t mul_frac, uint32_t rounding, name *result);    \
  /* Writes c plus the product of a and b, which is rounded to the fraction bits of c. */                          \
  int32_t name##_add_prod_round(word c, word a, word b, uint32_t c_frac, uint32_t a_frac, uint32_t b_frac,         \
                                uint32_t rounding, name *result);                                                  \
  /* div_round writes a 2^frac / b, div_int_round a / k, and recip_round 2^(2 frac) / a, each rounded. */          \
  int32_t name##_div_round(word a, word b, uint32_t frac, uint32_t rounding, name *result);                        \
  int32_t name##_div_int_round(word a, word k, uint32_t rounding, name *result);                                   \
  int32_t name##_recip_round(word a, uint32_t frac, uint32_t rounding, name *result);

/* Numbers of other formats and doubles. A call fails with FIXED_FRACTION_PAST_WIDTH if a number of fraction bits is
 * greater than the width of its word, and otherwise with FIXED_NO_ROUNDING if no rounding has the number. */
#define FIXED_CONVERSIONS(name, word)                                                                              \
  /* Both write number / 2^from in units of 2^-to, rounded, for a number of any signed word, or of any unsigned    \
   * one; `from` is at most 64, and is 0 for an integer. */                                                        \
  int32_t name##_convert(int64_t number, uint32_t from, uint32_t to, uint32_t rounding, name *result);             \
  int32_t name##_convert_unsigned(uint64_t number, uint32_t from, uint32_t to, uint32_t rounding, name *result);   \
  /* Writes the number of a double in units of 2^-frac, rounded. Fails with FIXED_NOT_FINITE if the double is a    \
   * NaN or an infinity. */                                                                                        \
  int32_t name##_from_double(double number, uint32_t frac, uint32_t rounding, name *result);                       \
  /* Writes the double that is nearest to a / 2^frac to *value, ties to even. */                                   \
  int32_t name##_to_double(word a, uint32_t frac, double *value);

/* Elementary functions, which write a number of the word to *number. Operands and results are units of 2^-frac. A call
 * fails with FIXED_FRACTION_PAST_WIDTH if frac is greater than the width of the word, otherwise with FIXED_NOT_POSITIVE
 * if the operand of a reciprocal root or a logarithm, or the base of a power, is not positive, or with FIXED_NO_ANGLE if
 * both coordinates of a point are 0, and otherwise with FIXED_OUT_OF_RANGE if the result does not fit.
 *
 * hypot and recip_sqrt write the exact result, rounded down. Logarithms and powers are rounded down, too, with these
 * exceptions:
 *
 * log2 may write one unit less if the logarithm lies less than 2^-k units above a whole number of units; frac + k is
 * 62, or 126 in words of 64 bits. The logarithm of a power of two is exact.
 *
 * exp2 may write one unit less if the power lies less than a factor of 2^(2^-k) above a whole number of units; k is 54,
 * or 117 in words of 64 bits. A power with a whole exponent is rounded down without exception.
 *
 * ln and log10 may write the next unit if the logarithm lies less than 2^-k units below it; k is 24, or 32 in words of
 * 64 bits.
 *
 * exp and pow may write the next unit if the power lies less than a factor of 2^(2^-k) below it; k is 61 for exp, and
 * 55 for pow. In words of 64 bits that may be several units: at most 6 for exp, and 355 for pow. e to the power of 0 is
 * exact.
 *
 * Sines and cosines are rounded to the nearest unit. They differ from the exact value by at most half a unit plus 2^-k;
 * k is 41, or 61 in words of 64 bits. Those of 0 are exact, and in turns those of 1/4, 1/2 and 3/4, too.
 *
 * Angles of points are rounded to the nearest unit. They differ from the exact value by at most half a unit plus 2^-k
 * radians; k is 40, or 60 in words of 64 bits. The angle 0 is exact, and in turns multiples of 1/8, too, if they are whole
 * numbers of units. */
#define FIXED_ELEMENTARY(name, word)                                                                               \
  /* Writes the root of a^2 + b^2. */                                                                              \
  int32_t name##_hypot(word a, word b, word *number);                                                              \
  /* Writes one over the root of a. */                                                                             \
  int32_t name##_recip_sqrt(word a, uint32_t frac, word *number);                                                  \
  /* These write the logarithm of a: to the base 2, e or 10. */                                                    \
  int32_t name##_log2(word a, uint32_t frac, word *number);                                                        \
  int32_t name##_ln(word a, uint32_t frac, word *number);                                                          \
  int32_t name##_log10(word a, uint32_t frac, word *number);                                                       \
  /* exp2 writes 2 to the power of a, exp e to the power of a, and pow a to the power of b. */                     \
  int32_t name##_exp2(word a, uint32_t frac, word *number);                                                        \
  int32_t name##_exp(word a, uint32_t frac, word *number);                                                         \
  int32_t name##_pow(word a, word b, uint32_t frac, word *number);                                                 \
  /* These write the sine and the cosine of an angle of a radians. */                                              \
  int32_t name##_sin(word a, uint32_t frac, word *number);                                                         \
  int32_t name##_cos(word a, uint32_t frac, word *number);                                                         \
  /* Writes both. Fails with FIXED_OUT_OF_RANGE if one of both does not fit: both are then unchanged. */           \
  int32_t name##_sin_cos(word angle, uint32_t frac, word *sine, word *cosine);                                     \
  /* These do the same with an angle of a turns: 1/4 is a right angle. */                                          \
  int32_t name##_sin_turns(word a, uint32_t frac, word *number);                                                   \
  int32_t name##_cos_turns(word a, uint32_t frac, word *number);                                                   \
  int32_t name##_sin_cos_turns(word angle, uint32_t frac, word *sine, word *cosine);                               \
  /* Writes the angle of the point (x, y) in radians, from -pi to pi. Fails with FIXED_NO_ANGLE if both are 0. */   \
  int32_t name##_atan2(word y, word x, uint32_t frac, word *number);                                               \
  /* Writes the angle of the point (x, y) in turns, from -1/2 to 1/2. Fails with FIXED_NO_ANGLE if both are 0. */  \
  int32_t name##_atan2_turns(word y, word x, uint32_t frac, word *number);

/* Decimal text. A call fails with FIXED_FRACTION_PAST_WIDTH if frac is greater than the width of the word, otherwise
 * with FIXED_TOO_MANY_PLACES if `places` is greater than 64, and otherwise with FIXED_NO_ROUNDING if no rounding has
 * the number. No text is longer than 86 bytes. */
#define FIXED_TEXTS(name, word)                                                                                    \
  /* Writes the number of a text in units of 2^-frac, rounded. The text is an optional sign and digits, with at    \
   * most one point, such as -12.5; it has `length` bytes and needs no '\0'. Each digit counts. Fails with         \
   * FIXED_NO_DIGITS if the text is empty or one point after its sign, or with the code of the first byte after    \
   * the sign that is not a digit and not the first point: FIXED_TOO_MANY_POINTS if it is a point, and otherwise   \
   * FIXED_INVALID_DIGIT. */                                                                                       \
  int32_t name##_parse(const char *text, size_t length, uint32_t frac, uint32_t rounding, name *result);           \
  /* Writes the text of a / 2^frac, rounded to `places` digits after the point, and a '\0' at the front of the     \
   * buffer, which has `size` bytes, and the length of the text, without the '\0', to *length. Fails with          \
   * FIXED_NO_ROOM if the buffer is too small: the buffer is unchanged, and the length is written. */              \
  int32_t name##_print(word a, uint32_t frac, uint32_t places, uint32_t rounding, char *buffer, size_t size,       \
                       size_t *length);                                                                            \
  /* Does the same with the shortest text that is read back as a, to the nearest, ties to even. */                 \
  int32_t name##_print_shortest(word a, uint32_t frac, char *buffer, size_t size, size_t *length);

/* Operations on intervals. The result of the operation on any number in `a` and any number in `b` lies in the result,
 * whose ends are rounded outward to the nearest numbers of the word. Ends are units of 2^-frac. A call fails with
 * FIXED_FRACTION_PAST_WIDTH if frac is greater than the width of the word, otherwise with FIXED_ENDS_EXCHANGED if a low
 * end is greater than its high end, otherwise with FIXED_ZERO_DIVISOR if 0 is in a divisor, or with FIXED_NEGATIVE_ROOT
 * if the low end of the operand of a root is negative, and otherwise with FIXED_OUT_OF_RANGE if an end of the result
 * does not fit. */
#define FIXED_INTERVAL_CALLS(name, word)                                                                           \
  int32_t name##_add_in(word a_low, word a_high, word b_low, word b_high, name##_interval *result);                \
  int32_t name##_sub_in(word a_low, word a_high, word b_low, word b_high, name##_interval *result);                \
  int32_t name##_mul_in(word a_low, word a_high, word b_low, word b_high, uint32_t frac, name##_interval *result); \
  int32_t name##_div_in(word a_low, word a_high, word b_low, word b_high, uint32_t frac, name##_interval *result); \
  int32_t name##_sqrt_in(word a_low, word a_high, uint32_t frac, name##_interval *result);

/* Calls on arrays. */
#define FIXED_ARRAY_CALLS(name, word)                                                                              \
  /* Writes the value at x of the polynomial with these coefficients, the lowest first, to *value. All numbers are \
   * units of 2^-frac. Each step, from the highest coefficient on, multiplies by x, rounds the product down, and   \
   * adds the coefficient before. Fails with FIXED_FRACTION_PAST_WIDTH if frac is greater than the width of the    \
   * word, otherwise with FIXED_NO_ELEMENT if count is 0, and otherwise with FIXED_OUT_OF_RANGE if the value of a  \
   * step does not fit: *step is then the index of the coefficient that the first such step adds. */               \
  int32_t name##_horner(const word *coefs, size_t count, word x, uint32_t frac, word *value, size_t *step);        \
  /* Puts the sample in front of the past samples, which are ordered from the newest to the oldest, drops the      \
   * oldest, and writes the output to *output: the sum of the products of taps and samples, each rounded down to   \
   * the fraction bits of the output. The output has out_frac, taps coef_frac and samples sample_frac fraction     \
   * bits. Fails with FIXED_FRACTION_PAST_WIDTH if one of these is greater than the width of the word, otherwise   \
   * with FIXED_NO_ELEMENT if there is no tap, and otherwise with FIXED_COUNTS_DIFFER if there are not as many     \
   * past samples as taps: the past samples are then unchanged. Fails with FIXED_OUT_OF_RANGE if a partial sum     \
   * does not fit: *tap is then the index of the first such tap, and the sample is in front. */                    \
  int32_t name##_filter(const word *taps, size_t taps_count, word *past, size_t past_count, word sample,           \
                        uint32_t out_frac, uint32_t coef_frac, uint32_t sample_frac, word *output, size_t *tap);   \
  /* Filters a block of samples, the oldest first, and writes the output after each to the same index of `output`: \
   * as many steps of filter. Fails with FIXED_FRACTION_PAST_WIDTH and FIXED_NO_ELEMENT as filter does, and        \
   * otherwise with FIXED_COUNTS_DIFFER if there are not as many past samples as taps, or not as many outputs as   \
   * samples: nothing is then written. Fails with FIXED_OUT_OF_RANGE if a partial sum does not fit: *sample is then\
   * the index of the first such sample, which is in front, *tap the index of its first such tap, and the outputs  \
   * from there on are unchanged. Otherwise *sample and *tap are unchanged. */                                     \
  int32_t name##_filter_block(const word *taps, size_t taps_count, word *past, size_t past_count,                  \
                              const word *input, size_t input_count, word *output, size_t output_count,            \
                              uint32_t out_frac, uint32_t coef_frac, uint32_t sample_frac, size_t *sample,         \
                              size_t *tap);                                                                        \
  /* Writes the sum of the products of two arrays, number by number, over 2^frac and rounded down once. Fails with \
   * FIXED_FRACTION_PAST_WIDTH if frac is greater than the width of the word, otherwise with FIXED_COUNTS_DIFFER if\
   * the arrays have different counts, and with FIXED_OUT_OF_RANGE only in words of 64 bits, if the sum of some    \
   * products at the front does not fit in an integer of 128 bits. */                                              \
  int32_t name##_dot(const word *a, size_t a_count, const word *b, size_t b_count, uint32_t frac, name *result);

/* Operations on blocks: arrays whose numbers have the same number of fraction bits. A call writes the result for each
 * number of the block over that number, by a policy. A call fails with FIXED_FRACTION_PAST_WIDTH if a number of
 * fraction bits is greater than the width of the word, otherwise with FIXED_NO_ROUNDING if no rounding has the number,
 * otherwise with FIXED_COUNTS_DIFFER if two blocks have different lengths, and otherwise with FIXED_NO_POLICY if no
 * policy has the number.
 *
 * With the policy FIXED_CHECKED, a call fails with FIXED_OUT_OF_RANGE at the first result that does not fit: *place is
 * then the index of that result, and the block is unchanged from there on. Otherwise *place is unchanged, and with
 * another code the block is, too. */
#define FIXED_BLOCKS(name, word)                                                                                   \
  /* For each x of the block, neg_block writes -x, mul_int_block x k, for an integer k, and scale_block x by /     \
   * 2^frac, rounded down. */                                                                                      \
  int32_t name##_neg_block(word *block, size_t count, uint32_t policy, size_t *place);                             \
  int32_t name##_mul_int_block(word *block, size_t count, word k, uint32_t policy, size_t *place);                 \
  int32_t name##_scale_block(word *block, size_t count, word by, uint32_t frac, uint32_t policy, size_t *place);   \
  /* Writes x / 2^from in units of 2^-to, rounded, for each x of the block. */                                     \
  int32_t name##_convert_block(word *block, size_t count, uint32_t from, uint32_t to, uint32_t rounding,           \
                               uint32_t policy, size_t *place);                                                    \
  /* For each x of the block and the y at its index in the other block, add_block writes x + y, sub_block x - y,   \
   * and mul_block x y / 2^frac, rounded down. */                                                                  \
  int32_t name##_add_block(word *block, size_t count, const word *others, size_t others_count, uint32_t policy,    \
                           size_t *place);                                                                         \
  int32_t name##_sub_block(word *block, size_t count, const word *others, size_t others_count, uint32_t policy,    \
                           size_t *place);                                                                         \
  int32_t name##_mul_block(word *block, size_t count, const word *others, size_t others_count, uint32_t frac,      \
                           uint32_t policy, size_t *place);                                                        \
  /* Writes x plus y by / 2^frac, which is rounded down, for each x of the block and the y at its index. */        \
  int32_t name##_mul_add_block(word *block, size_t count, const word *others, size_t others_count, word by,        \
                               uint32_t frac, uint32_t policy, size_t *place);

/* The calls that only signed words have. abs writes the magnitude of a, and abs_block that of each number of a block.
 * signum writes 2^frac if a is positive, 0 if it is 0, and -2^frac if it is negative; it fails with
 * FIXED_FRACTION_PAST_WIDTH if frac is greater than the width of the word. */
#define FIXED_SIGNED_CALLS(name, word)                                                  \
  int32_t name##_abs(word a, name *result);                                             \
  int32_t name##_abs_block(word *block, size_t count, uint32_t policy, size_t *place); \
  int32_t name##_signum(word a, uint32_t frac, name *result);

/* The call that only unsigned words have: it writes the smallest power of two that is at least a, both as bits. */
#define FIXED_UNSIGNED_CALLS(name, word) int32_t name##_next_power_of_two(word a, name *result);

/* What the strict policy runs if the exact result does not fit. A program may define it before it includes this
 * header. */
#ifndef FIXED_STOP
#define FIXED_STOP() abort()
#endif

/* The policies. Each takes the result of a call that returned FIXED_OK. Numbers are units of 2^-frac, as in that
 * call. */
#define FIXED_POLICIES(name, word, least, greatest)                                                                \
  /* checked: writes the exact result to *number and returns 1 if it fits, and otherwise returns 0. */             \
  static inline int name##_checked(name result, word *number) {                                                    \
    if (result.side != FIXED_FITS) return 0;                                                                       \
    *number = result.bits;                                                                                         \
    return 1;                                                                                                      \
  }                                                                                                                \
  /* saturating: returns the nearest number that fits. */                                                          \
  static inline word name##_saturating(name result) {                                                              \
    return result.side == FIXED_FITS ? result.bits : result.side == FIXED_ABOVE ? (greatest) : (least);            \
  }                                                                                                                \
  /* wrapping: returns the number that differs from the exact result by a multiple of 2^n units. */                \
  static inline word name##_wrapping(name result) { return result.bits; }                                          \
  /* overflowing: writes that number to *number, and returns 1 if the exact result does not fit, else 0. */        \
  static inline int name##_overflowing(name result, word *number) {                                                \
    *number = result.bits;                                                                                         \
    return result.side != FIXED_FITS;                                                                              \
  }                                                                                                                \
  /* strict: returns the exact result. Precondition: it fits; otherwise FIXED_STOP() runs. */                      \
  static inline word name##_strict(name result) {                                                                  \
    if (result.side != FIXED_FITS) FIXED_STOP();                                                                   \
    return result.bits;                                                                                            \
  }

#define FIXED_SIGNED(name, word, least, greatest) \
  FIXED_RESULT(name, word)                        \
  FIXED_INTERVAL(name, word)                      \
  FIXED_CALLS(name, word)                         \
  FIXED_ROUNDED_CALLS(name, word)                 \
  FIXED_CONVERSIONS(name, word)                   \
  FIXED_ELEMENTARY(name, word)                    \
  FIXED_TEXTS(name, word)                         \
  FIXED_INTERVAL_CALLS(name, word)                \
  FIXED_ARRAY_CALLS(name, word)                   \
  FIXED_BLOCKS(name, word)                        \
  FIXED_SIGNED_CALLS(name, word)                  \
  FIXED_POLICIES(name, word, least, greatest)

#define FIXED_UNSIGNED(name, word, greatest) \
  FIXED_RESULT(name, word)                   \
  FIXED_INTERVAL(name, word)                 \
  FIXED_CALLS(name, word)                    \
  FIXED_ROUNDED_CALLS(name, word)            \
  FIXED_CONVERSIONS(name, word)              \
  FIXED_ELEMENTARY(name, word)               \
  FIXED_TEXTS(name, word)                    \
  FIXED_INTERVAL_CALLS(name, word)           \
  FIXED_ARRAY_CALLS(name, word)              \
  FIXED_BLOCKS(name, word)                   \
  FIXED_UNSIGNED_CALLS(name, word)           \
  FIXED_POLICIES(name, word, 0, greatest)

FIXED_SIGNED(fixed_i8, int8_t, INT8_MIN, INT8_MAX)
FIXED_SIGNED(fixed_i16, int16_t, INT16_MIN, INT16_MAX)
FIXED_SIGNED(fixed_i32, int32_t, INT32_MIN, INT32_MAX)
FIXED_SIGNED(fixed_i64, int64_t, INT64_MIN, INT64_MAX)
FIXED_UNSIGNED(fixed_u8, uint8_t, UINT8_MAX)
FIXED_UNSIGNED(fixed_u16, uint16_t, UINT16_MAX)
FIXED_UNSIGNED(fixed_u32, uint32_t, UINT32_MAX)
FIXED_UNSIGNED(fixed_u64, uint64_t, UINT64_MAX)

#ifdef __cplusplus
}
#endif

#endif
