// Made by `make package` of docs/DEFINITIONS.md: changes go there.

//! # The definitions
//!
//! A reader must believe the definitions; all else is proved from them. They are in `crates/NAME/specs`, those that only
//! private functions cite in `inside/`. Numbers are unbounded integers, and texts are lists of bytes.
//!
//! ## In which order to read
//!
//! Each file cites only those before it:
//!
//! 1. Numbers: [`fixed_word/specs/Format`](crate::definitions::word_format), [`fixed_word/specs/Quotient`](crate::definitions::word_quotient) up to the equations, [`fixed_word/specs/Policies`](crate::definitions::word_policies),
//!    [`fixed_root/specs/Root`](crate::definitions::root_root), [`fixed_kernel/specs/Rounded`](crate::definitions::kernel_rounded) up to the equations, [`fixed_kernel/specs/RoundedRows`](crate::definitions::kernel_rounded_rows),
//!    [`fixed_kernel/specs/Rows`](crate::definitions::kernel_rows). Typed calls need no more, but `checked_dot_acc` also [`fixed_policy/specs/DotProduct`](crate::definitions::policy_dot_product).
//! 2. Scripts: [`fixed_word/specs/Decimal`](crate::definitions::word_decimal), `Pieces`; [`fixed_text/specs/Words`](crate::definitions::text_words); [`fixed_digits/specs/Numerals`](crate::definitions::digits_numerals); `tokens_of` of
//!    [`fixed_text/specs/Tokens`](crate::definitions::text_tokens), `Inverse`; [`fixed_script/specs/Names`](crate::definitions::script_names), `Offered`, `Text`, `Lines`;
//!    [`fixed_machine/specs/Rows`](crate::definitions::machine_rows), `Projection`, `Machine`, `Answers`; [`fixed_text/specs/Runs`](crate::definitions::text_runs); [`fixed_machine/specs/Meaning`](crate::definitions::machine_meaning).
//! 3. The program: [`fixed_stream/specs/Outside`](crate::definitions::stream_outside); [`fixed_calc/specs/CommandLine`](crate::definitions::calc_command_line), `Demo`, `Headline`, `Calls`.
//!
//! Laws such as `root_law` state that a definition meets the field's equation, and
//! often that nothing else does.
//!
//! ## How much there is to believe
//!
//! | What the public clauses reach | Lines |
//! |---|---|
//! | headline: of `calc_main` and its streams | 562 |
//! | library: of word, bits, root, logs, kernel, num, policy, strict and ops | 305 |
//! | all: of every crate | 2,407 |
//!
//! `python3 checks/definitions.py` lists them by file.
//!
//! ## Exact numbers
//!
//! a, b, c, m are operands' bits, k an integer, f the fraction bits, g and h those of factors. A row is undefined for a
//! divisor of 0, and `sqrt` for a negative a. In `div_euclid_int`, `rem_int` and `rem_euclid_int` b is `k 2^f`.
//!
//! ```text
//! neg, add, sub, mul_int     -a, a+b, a-b, ak
//! mul                        ab/2^f, rounded down
//! div, recip, div_int        2^f a/b, 2^(2f)/a, a/k, toward zero
//! mul_add                    am/2^g, rounded down, plus c
//! add_prod                   ab/2^s, rounded down, plus c, where s = g+h-f; if s is negative, it is shifted left
//! div_euclid, rem_euclid     Euclid's quotient times 2^f; remainder, from 0 to below b's magnitude
//! rem                        a-bt, t the quotient toward zero
//! next_multiple_of           the first multiple of b from a on, upward if b is positive, else downward
//! dist, abs, signum          the magnitude of a-b, of a; 2^f, 0 or -2^f
//! sqrt                       the root of 2^f a, rounded down
//! next_power_of_two          the least power of two that is at least a
//! ```
//!
//! Named roundings of the same quotients are `Down`, `Zero` (toward zero), and `Even` (to the nearest, ties to even).
//!
//! ## Elementary functions
//!
//! x is the exact result in units, and r what a call returns; the second k is for words of 64 bits:
//!
//! ```text
//! hypot, recip_sqrt      r <= x < r + 1
//! log2                   r <= x < r + 1 + 2^-k        k = 62 - f, 126 - f
//! exp2                   r <= x < (r + 1) 2^(2^-k)    k = 54, 117
//! ln, log10              r - 2^-k <= x < r + 1        k = 24, 32
//! exp, pow               r 2^-(2^-k) <= x < r + 1     k = 61 for exp, 55 for pow
//! sin, cos               r - h <= x <= r + h          h = 1/2 + 2^(f-k), k = 41, 61
//! sin_turns, cos_turns   likewise
//! atan2                  likewise                     k = 40, 60
//! ```
//!
//! In words of 64 bits, r is up to 6 units above x for `exp`, and 355 for `pow`.
//!
//! The definitions need no real numbers. A logarithm is compared by powers of whole numbers; e and 10 are powers of 2 whose
//! exponents lie between two decimals of `10^-39`, which `ln_law` and `log10_law` state. A sine is compared with each sum
//! of more than 10 terms of the series; that pi lies between its decimals is `pi_law`. Both decimals reduce an angle in
//! radians. The squares of sine and cosine have the sum 1, up to `2 * 2^-f + 4 * 2^-k`, by `cosine_law` and `radian_law`.
//! For `atan2_turns`, the point lies between the directions half a unit below and above r, up to `2^-k` times its larger
//! coordinate; k is 40, 60. For `atan2`, it does so up to `2^-k` times the coordinates' sum; k is 41, 61.
//!
//! ## The machine
//!
//! - Every operation is offered everywhere, but `abs` and `signum` only on signed words; `rem`, `rem_int` and `rem_euclid`
//!   under checked and strict; and `next_power_of_two` on unsigned words, under checked, wrapping and strict.
//! - The **cause** of a line is the first that holds: `Syntax` (no line, or not offered), `OutOfRange` (a literal does not
//!   fit, or there is no such register), `FractionMismatch` (destination and operands differ in fraction bits; the factor
//!   of `mul_add` and both of `add_prod` are free), `ZeroDivisor` and `NegativeRoot` (the row is undefined, and the policy
//!   is not checked), `Overflow` (the policy is strict, and the row does not fit).
//! - Otherwise the destination takes the result's number; at `none` it is unchanged. Registers begin at 0.

pub mod bits_digits;
pub mod block_blocks;
pub mod block_dots;
#[cfg(feature = "calc")]
pub mod calc_before;
#[cfg(feature = "calc")]
pub mod calc_calls;
#[cfg(feature = "calc")]
pub mod calc_command_line;
#[cfg(feature = "calc")]
pub mod calc_demo;
#[cfg(feature = "calc")]
pub mod calc_headline;
#[cfg(feature = "calc")]
pub mod calc_policy_laws;
#[cfg(feature = "calc")]
pub mod calc_spelled;
#[cfg(feature = "calc")]
pub mod calc_widening;
pub mod convert_convert;
pub mod convert_whole_number;
pub mod decimal_decimal;
pub mod decimal_rows;
pub mod decimal_text;
pub mod digits_numerals;
pub mod elementary_elementary_rows;
pub mod elementary_enclosed;
pub mod elementary_exp2;
pub mod elementary_log2;
pub mod elementary_recip_root;
pub mod enclosure_sets;
pub mod filter_banks;
pub mod filter_blocks;
pub mod filter_lines;
pub mod filter_outputs;
pub mod filter_replies;
pub mod filter_runs;
pub mod filter_scripts;
pub mod filter_sections;
pub mod filter_text;
pub mod float_patterns;
pub mod float_rows;
pub mod interval_containment;
pub mod interval_ends;
pub mod interval_lines;
pub mod interval_runs;
pub mod interval_text;
pub mod kernel_rounded;
pub mod kernel_rounded_rows;
pub mod kernel_row_laws;
pub mod kernel_rows;
pub mod logs_logarithm;
#[cfg(feature = "calc")]
pub mod machine_answers;
#[cfg(feature = "calc")]
pub mod machine_cap_law;
#[cfg(feature = "calc")]
pub mod machine_machine;
#[cfg(feature = "calc")]
pub mod machine_meaning;
#[cfg(feature = "calc")]
pub mod machine_projection;
#[cfg(feature = "calc")]
pub mod machine_rooms;
#[cfg(feature = "calc")]
pub mod machine_rows;
#[cfg(feature = "calc")]
pub mod machine_step;
pub mod natural_bases;
pub mod natural_exps;
pub mod natural_logs;
pub mod natural_pows;
pub mod num_shown;
pub mod num_sizes;
pub mod ops_folds;
pub mod policy_dot_product;
pub mod poly_exact;
pub mod poly_horner;
pub mod poly_lines;
pub mod poly_runs;
pub mod poly_text;
pub mod radix_bases;
pub mod root_root;
#[cfg(feature = "calc")]
pub mod script_capped;
#[cfg(feature = "calc")]
pub mod script_headers;
#[cfg(feature = "calc")]
pub mod script_lines;
#[cfg(feature = "calc")]
pub mod script_names;
#[cfg(feature = "calc")]
pub mod script_offered;
#[cfg(feature = "calc")]
pub mod script_read_pieces;
#[cfg(feature = "calc")]
pub mod script_text;
#[cfg(feature = "calc")]
pub mod script_text_laws;
#[cfg(feature = "calc")]
pub mod stream_memory;
#[cfg(feature = "calc")]
pub mod stream_outside;
pub mod table_interpolation;
pub mod text_answers;
pub mod text_decimals;
pub mod text_inverse;
pub mod text_numbers;
pub mod text_readings;
pub mod text_runs;
pub mod text_texts;
pub mod text_tokens;
pub mod text_words;
pub mod turns_angles;
pub mod turns_radian_angles;
pub mod turns_radians;
pub mod turns_series;
pub mod turns_sines;
pub mod word_decimal;
pub mod word_digit;
pub mod word_format;
pub mod word_pieces;
pub mod word_policies;
pub mod word_quotient;
pub mod word_standing;
pub mod word_ticks;
