//! Nanoseconds an element in loops over arrays, beside the same loop by hand on native operations.
//!
//!     cargo bench [WORD..]      (words of a call's name: `mul`, `checked_add`, `i16`)
//!     bench/counts              (instructions in place of nanoseconds)
//!
//! Each call runs over arrays of 4,096 numbers with half of their bits behind the point, and so does what a programmer
//! would write by hand for it. Both answers are compared first. The least of many short samples counts, taken in turn.

mod counting;
mod draws;
#[allow(dead_code)]
mod timing;

use draws::Draws;
use std::hint::black_box;
use std::time::Duration;
use timing::Timing;
use zugyelmas::Held;
use zugyelmas::prelude::*;

/// How many numbers an array has.
const LENGTH: usize = 4096;

const TIMING: Timing = Timing {
    length: LENGTH,
    samples: 201,
    sample: Duration::from_micros(20),
};

/// What was measured of a call in a word.
struct Row {
    call: &'static str,
    word: &'static str,
    goal: Option<f64>,
    ours: f64,
    by_hand: f64,
}

impl Row {
    fn ratio(&self) -> f64 {
        self.ours / self.by_hand
    }

    fn misses(&self) -> bool {
        self.goal.is_some_and(|goal| self.ratio() > goal)
    }
}

/// An answer by its bits, as the loop by hand has it.
trait Answer {
    type Bits: PartialEq;

    fn bits(&self) -> Self::Bits;
}

impl<T: Word, const F: u32> Answer for Fixed<T, F> {
    type Bits = T;

    fn bits(&self) -> T {
        self.to_bits()
    }
}

impl<A: Answer> Answer for Option<A> {
    type Bits = Option<A::Bits>;

    fn bits(&self) -> Self::Bits {
        self.as_ref().map(A::bits)
    }
}

impl<A: Answer> Answer for (A, bool) {
    type Bits = (A::Bits, bool);

    fn bits(&self) -> Self::Bits {
        (self.0.bits(), self.1)
    }
}

/// The operands and the answers of a side. Both sides lie alike in memory, since loops this short feel where their
/// arrays begin; the gaps keep the arrays from one place in their pages.
#[repr(C, align(4096))]
struct Arrays<N, R> {
    a: [N; LENGTH],
    gap_a: [u64; 40],
    b: [N; LENGTH],
    gap_b: [u64; 40],
    c: [N; LENGTH],
    gap_c: [u64; 40],
    answers: [R; LENGTH],
}

/// Three operands for each place.
type Operands<N> = [(N, N, N)];

impl<N: Copy, R> Arrays<N, R> {
    fn new(operands: &Operands<N>, f: impl Fn(N, N, N) -> R) -> Box<Self> {
        let at = |i: usize| operands[i];
        Box::new(Arrays {
            a: std::array::from_fn(|i| at(i).0),
            gap_a: [0; 40],
            b: std::array::from_fn(|i| at(i).1),
            gap_b: [0; 40],
            c: std::array::from_fn(|i| at(i).2),
            gap_c: [0; 40],
            answers: std::array::from_fn(|i| f(at(i).0, at(i).1, at(i).2)),
        })
    }

    /// One pass over the arrays.
    #[inline(never)]
    fn pass(&mut self, f: impl Fn(N, N, N) -> R) {
        let Arrays {
            a, b, c, answers, ..
        } = self;
        for (((answer, a), b), c) in answers.iter_mut().zip(a).zip(b).zip(c) {
            *answer = f(*a, *b, *c);
        }
    }
}

/// Nanoseconds an element of a call, and by hand: each the least of many samples, taken in turn. Where instructions are
/// counted, callgrind writes them, and there are none.
fn beside(by_hand: impl FnMut(), call: impl FnMut()) -> (f64, f64) {
    if counting::is_on() {
        counting::count(c"by hand", by_hand);
        counting::count(c"call", call);
        return (f64::NAN, f64::NAN);
    }
    TIMING.least(by_hand, call)
}

/// Measures a call and the loop by hand.
fn measured<N: Held<Bits = T> + Answer<Bits = T>, T: Word, R: Answer>(
    operands: &Operands<T>,
    by_hand: impl Fn(T, T, T) -> R::Bits + Copy,
    call: impl Fn(N, N, N) -> R + Copy,
) -> (f64, f64) {
    let numbers: Vec<_> = operands
        .iter()
        .map(|(a, b, c)| (N::from_bits(*a), N::from_bits(*b), N::from_bits(*c)))
        .collect();
    let mut plain = Arrays::new(operands, by_hand);
    let mut typed = Arrays::new(&numbers, call);
    let alike = plain
        .answers
        .iter()
        .zip(&typed.answers)
        .all(|(plain, typed)| *plain == typed.bits());
    assert!(alike, "both sides answer alike");
    beside(
        || black_box(&mut plain).pass(by_hand),
        || black_box(&mut typed).pass(call),
    )
}

/// Measures a call on whole slices and the loop by hand.
fn measured_slices<N: Held<Bits = T> + Answer<Bits = T>, T: Word, R: Answer>(
    operands: &Operands<T>,
    by_hand: impl Fn(&[T], &[T]) -> R::Bits,
    call: impl Fn(&[N], &[N]) -> R,
) -> (f64, f64) {
    let numbers: Vec<_> = operands
        .iter()
        .map(|(a, b, c)| (N::from_bits(*a), N::from_bits(*b), N::from_bits(*c)))
        .collect();
    let plain = Arrays::new(operands, |_, _, _| ());
    let typed = Arrays::new(&numbers, |_, _, _| ());
    let (ours, theirs) = (call(&typed.a, &typed.b), by_hand(&plain.a, &plain.b));
    assert!(ours.bits() == theirs, "both sides answer alike");
    beside(
        || drop(black_box(by_hand(black_box(&plain.a), black_box(&plain.b)))),
        || drop(black_box(call(black_box(&typed.a), black_box(&typed.b)))),
    )
}

/// The module of a word: its operands, the exact numbers and their projections by hand, and its rows.
#[rustfmt::skip]
macro_rules! word {
    ($sign:ident $word:ident, $wide:ident, $unsigned:ident, $signed:ident, $half:literal) => {
        mod $word {
            use super::*;

            type Number = Fixed<$word, $half>;

            /// All of the word's numbers.
            fn any(draws: &mut Draws) -> $word {
                draws.next() as $word
            }

            /// Numbers from one to some more in magnitude, at which no call is past the range.
            fn small(draws: &mut Draws) -> $word {
                let magnitude = ((1 << $half) + draws.next() % (1 << ($half * 3 / 2 - 1)) / 2) as $word;
                if <$word>::MIN == 0 || draws.next() % 2 == 0 {
                    magnitude
                } else {
                    (0 as $word).wrapping_sub(magnitude)
                }
            }

            fn operands(number: fn(&mut Draws) -> $word) -> Vec<($word, $word, $word)> {
                let mut draws = Draws(42);
                let mut next = || number(&mut draws);
                (0..LENGTH).map(|_| (next(), next() | 1, next())).collect()
            }

            fn mul(a: $word, b: $word) -> $wide {
                (a as $wide * b as $wide) >> $half
            }

            fn mul_add(a: $word, b: $word, c: $word) -> $wide {
                mul(a, b) + c as $wide
            }

            fn div(a: $word, b: $word) -> $wide {
                ((a as $wide) << $half) / b as $wide
            }

            fn div_euclid(a: $word, b: $word) -> $wide {
                (a as $wide).div_euclid(b as $wide) << $half
            }

            fn recip(a: $word) -> $wide {
                (1 << (2 * $half)) / a as $wide
            }

            /// The root by digits, as the Rust crate finds it.
            fn sqrt(a: $word) -> $wide {
                if a == 0 {
                    return 0;
                }
                let pairs = ($half / 2) as i32 - (a.leading_zeros() / 2) as i32;
                let mut root: $unsigned = 1 << (<$word>::BITS - 2);
                let mut next = root >> 1;
                let mut rest = ((a as $unsigned) << ($half - 2 * pairs)) - root;
                for _ in 0..$half - 1 + pairs {
                    let digit = next >> 1;
                    if root + digit <= rest {
                        rest -= root + digit;
                        root += next;
                    }
                    rest *= 2;
                    next = digit;
                }
                (root >> ($half - 1 - pairs)) as $wide
            }

            fn dist(a: $word, b: $word) -> $unsigned {
                a.abs_diff(b)
            }

            fn checked(exact: $wide) -> Option<$word> {
                <$word>::try_from(exact).ok()
            }

            fn saturating(exact: $wide) -> $word {
                exact.clamp(<$word>::MIN as $wide, <$word>::MAX as $wide) as $word
            }

            fn overflowing(exact: $wide) -> ($word, bool) {
                (exact as $word, exact as $word as $wide != exact)
            }

            fn strict(exact: $wide) -> $word {
                <$word>::try_from(exact).unwrap()
            }

            pub fn rows(rows: &mut Vec<Row>, wanted: impl Fn(&str) -> bool) {
                let (any, small) = (operands(any), operands(small));
                let roots: Vec<_> = any.iter().map(|(a, b, c)| (a & <$word>::MAX, *b, *c)).collect();
                /// One row: operands, goal, call, the loop by hand, and the call itself.
                macro_rules! row {
                    ($operands:ident, $goal:expr, $call:ident, $by_hand:expr, $ours:expr) => {
                        let word = stringify!($word);
                        if wanted(stringify!($call)) || wanted(word) {
                            let (ours, by_hand) = measured::<Number, _, _>(&$operands, $by_hand, $ours);
                            rows.push(Row { call: stringify!($call), word, goal: $goal, ours, by_hand });
                        }
                    };
                }
                /// The same of a call on whole slices.
                macro_rules! slices {
                    ($operands:ident, $call:ident, $by_hand:expr, $ours:expr) => {
                        let word = stringify!($word);
                        if wanted(stringify!($call)) || wanted(word) {
                            let (ours, by_hand) = measured_slices::<Number, _, _>(&$operands, $by_hand, $ours);
                            rows.push(Row { call: stringify!($call), word, goal: None, ours, by_hand });
                        }
                    };
                }
                row!(any, Some(1.1), wrapping_add, |a, b, _| a.wrapping_add(b), |a, b, _| a.wrapping_add(b));
                row!(any, Some(1.1), checked_add, |a, b, _| a.checked_add(b), |a, b, _| a.checked_add(b));
                row!(any, Some(1.1), overflowing_add, |a, b, _| a.overflowing_add(b), |a, b, _| a.overflowing_add(b));
                row!(any, Some(1.1), saturating_add, |a, b, _| a.saturating_add(b), |a, b, _| a.saturating_add(b));
                row!(small, None, strict_add, |a, b, _| a.checked_add(b).unwrap(), |a, b, _| a.strict_add(b));
                row!(any, Some(1.1), wrapping_sub, |a, b, _| a.wrapping_sub(b), |a, b, _| a.wrapping_sub(b));
                row!(any, Some(1.1), checked_sub, |a, b, _| a.checked_sub(b), |a, b, _| a.checked_sub(b));
                row!(any, Some(1.1), overflowing_sub, |a, b, _| a.overflowing_sub(b), |a, b, _| a.overflowing_sub(b));
                row!(any, Some(1.1), saturating_sub, |a, b, _| a.saturating_sub(b), |a, b, _| a.saturating_sub(b));
                row!(small, None, strict_sub, |a, b, _| (a.max(b)).checked_sub(a.min(b)).unwrap(),
                    |a, b, _| (a.max(b)).strict_sub(a.min(b)));
                row!(any, Some(1.1), wrapping_dist, |a, b, _| dist(a, b) as $word, |a, b, _| a.wrapping_dist(b));
                row!(any, Some(1.1), checked_dist, |a, b, _| <$word>::try_from(dist(a, b)).ok(),
                    |a, b, _| a.checked_dist(b));
                row!(any, Some(1.1), overflowing_dist,
                    |a, b, _| (dist(a, b) as $word, dist(a, b) > <$word>::MAX as $unsigned),
                    |a, b, _| a.overflowing_dist(b));
                row!(any, Some(1.1), saturating_dist,
                    |a, b, _| dist(a, b).min(<$word>::MAX as $unsigned) as $word, |a, b, _| a.saturating_dist(b));
                row!(small, None, strict_dist, |a, b, _| <$word>::try_from(dist(a, b)).unwrap(),
                    |a, b, _| a.strict_dist(b));
                row!(any, Some(1.1), wrapping_mul, |a, b, _| mul(a, b) as $word, |a, b, _| a.wrapping_mul(b));
                row!(any, Some(1.1), checked_mul, |a, b, _| checked(mul(a, b)), |a, b, _| a.checked_mul(b));
                row!(any, Some(1.1), overflowing_mul, |a, b, _| overflowing(mul(a, b)), |a, b, _| a.overflowing_mul(b));
                row!(any, Some(1.1), saturating_mul, |a, b, _| saturating(mul(a, b)), |a, b, _| a.saturating_mul(b));
                row!(small, None, strict_mul, |a, b, _| strict(mul(a, b)), |a, b, _| a.strict_mul(b));
                row!(any, Some(1.2), wrapping_mul_add, |a, b, c| mul_add(a, b, c) as $word,
                    |a, b, c| a.wrapping_mul_add(b, c));
                row!(any, Some(1.2), checked_mul_add, |a, b, c| checked(mul_add(a, b, c)),
                    |a, b, c| a.checked_mul_add(b, c));
                row!(any, Some(1.2), overflowing_mul_add,
                    |a, b, c| overflowing(mul_add(a, b, c)), |a, b, c| a.overflowing_mul_add(b, c));
                row!(any, Some(1.2), saturating_mul_add,
                    |a, b, c| saturating(mul_add(a, b, c)), |a, b, c| a.saturating_mul_add(b, c));
                row!(small, None, strict_mul_add, |a, b, c| strict(mul_add(a, b, c)), |a, b, c| a.strict_mul_add(b, c));
                row!(any, Some(1.2), wrapping_div, |a, b, _| div(a, b) as $word, |a, b, _| a.wrapping_div(b));
                row!(any, Some(1.2), checked_div,
                    |a, b, _| if b == 0 { None } else { checked(div(a, b)) }, |a, b, _| a.checked_div(b));
                row!(any, Some(1.2), overflowing_div, |a, b, _| overflowing(div(a, b)), |a, b, _| a.overflowing_div(b));
                row!(any, Some(1.2), saturating_div, |a, b, _| saturating(div(a, b)), |a, b, _| a.saturating_div(b));
                row!(small, None, strict_div, |a, b, _| strict(div(a, b)), |a, b, _| a.strict_div(b));
                row!(any, Some(1.2), wrapping_div_euclid, |a, b, _| div_euclid(a, b) as $word,
                    |a, b, _| a.wrapping_div_euclid(b));
                row!(any, Some(1.2), checked_div_euclid,
                    |a, b, _| if b == 0 { None } else { checked(div_euclid(a, b)) }, |a, b, _| a.checked_div_euclid(b));
                row!(any, Some(1.2), overflowing_div_euclid,
                    |a, b, _| overflowing(div_euclid(a, b)), |a, b, _| a.overflowing_div_euclid(b));
                row!(any, Some(1.2), saturating_div_euclid,
                    |a, b, _| saturating(div_euclid(a, b)), |a, b, _| a.saturating_div_euclid(b));
                row!(small, None, strict_div_euclid, |a, b, _| strict(div_euclid(a, b)),
                    |a, b, _| a.strict_div_euclid(b));
                row!(any, Some(1.2), checked_rem_euclid,
                    |a, b, _| if b == 0 { None } else { Some(a.wrapping_rem_euclid(b)) },
                    |a, b, _| a.checked_rem_euclid(b));
                row!(any, Some(1.2), rem_euclid, |a, b, _| a.wrapping_rem_euclid(b), |a, b, _| a.rem_euclid(b));
                row!(any, Some(1.2), strict_rem_euclid, |a, b, _| a.wrapping_rem_euclid(b),
                    |a, b, _| a.strict_rem_euclid(b));
                row!(any, Some(1.2), wrapping_recip, |_, b, _| recip(b) as $word, |_, b, _| b.wrapping_recip());
                row!(any, Some(1.2), checked_recip,
                    |_, b, _| if b == 0 { None } else { checked(recip(b)) }, |_, b, _| b.checked_recip());
                row!(any, Some(1.2), overflowing_recip, |_, b, _| overflowing(recip(b)),
                    |_, b, _| b.overflowing_recip());
                row!(any, Some(1.2), saturating_recip, |_, b, _| saturating(recip(b)), |_, b, _| b.saturating_recip());
                row!(small, None, strict_recip, |_, b, _| strict(recip(b)), |_, b, _| b.strict_recip());
                row!(roots, Some(1.0), wrapping_sqrt, |a, _, _| sqrt(a) as $word, |a, _, _| a.wrapping_sqrt());
                row!(roots, Some(1.0), checked_sqrt,
                    |a, _, _| if a < <$word>::MIN.max(0) { None } else { checked(sqrt(a)) },
                    |a, _, _| a.checked_sqrt());
                row!(roots, Some(1.0), overflowing_sqrt, |a, _, _| overflowing(sqrt(a)),
                    |a, _, _| a.overflowing_sqrt());
                row!(roots, Some(1.0), saturating_sqrt, |a, _, _| saturating(sqrt(a)), |a, _, _| a.saturating_sqrt());
                row!(roots, None, strict_sqrt, |a, _, _| strict(sqrt(a)), |a, _, _| a.strict_sqrt());
                row!(any, None, wrapping_neg, |a, _, _| a.wrapping_neg(), |a, _, _| a.wrapping_neg());
                row!(any, None, checked_neg, |a, _, _| a.checked_neg(), |a, _, _| a.checked_neg());
                row!(any, None, wrapping_shl,
                    |a, _, c| a.wrapping_shl(c as u32), |a, _, c| a.wrapping_shl(c.to_bits() as u32));
                row!(any, None, wrapping_shr,
                    |a, _, c| a.wrapping_shr(c as u32), |a, _, c| a.wrapping_shr(c.to_bits() as u32));
                row!(any, None, mean, |a, b, _| ((a as $wide + b as $wide) >> 1) as $word, |a, b, _| a.mean(b));
                macro_rules! of_sign {
                    (signed) => {
                        row!(any, None, wrapping_abs, |a, _, _| a.wrapping_abs(), |a, _, _| a.wrapping_abs());
                        row!(any, None, checked_abs, |a, _, _| a.checked_abs(), |a, _, _| a.checked_abs());
                        row!(any, None, saturating_abs, |a, _, _| a.saturating_abs(), |a, _, _| a.saturating_abs());
                        row!(any, None, wrapping_signum, |a, _, _| a.signum() << $half, |a, _, _| a.wrapping_signum());
                        row!(any, None, checked_add_mixed, |a, b, _| a.checked_add_unsigned(b as $unsigned),
                            |a, b, _| a.checked_add_unsigned(Fixed::from_bits(b.to_bits() as $unsigned)));
                        row!(any, None, saturating_sub_mixed, |a, b, _| a.saturating_sub_unsigned(b as $unsigned),
                            |a, b, _| a.saturating_sub_unsigned(Fixed::from_bits(b.to_bits() as $unsigned)));
                    };
                    (unsigned) => {
                        row!(any, None, checked_next_power_of_two,
                            |a, _, _| a.checked_next_power_of_two(), |a, _, _| a.checked_next_power_of_two());
                        row!(any, None, checked_add_mixed, |a, b, _| a.checked_add_signed(b as $signed),
                            |a, b, _| a.checked_add_signed(Fixed::from_bits(b.to_bits() as $signed)));
                    };
                }
                of_sign!($sign);
                // Products of which none passes the range, however long the slices are.
                let zeros: Vec<_> = any.iter().map(|(a, _, c)| (*a, 0, *c)).collect();
                slices!(any, sum_of_slice, |a, _| a.iter().fold(0, |sum: $word, a| sum.wrapping_add(*a)),
                    |a, _| zugyelmas::sum(a));
                slices!(any, product_of_slice, |a, _| a[1..].iter().fold(a[0], |product, a| mul(product, *a) as $word),
                    |a, _| zugyelmas::product(a));
                slices!(any, wrapping_mul_acc,
                    |a, b| a.iter().zip(b).fold(0, |sum: $word, (a, b)| sum.wrapping_add(mul(*a, *b) as $word)),
                    |a, b| {
                        let mut sum = Number::ZERO;
                        for (a, b) in a.iter().zip(b) {
                            sum.wrapping_mul_acc(*a, *b);
                        }
                        sum
                    });
                slices!(zeros, checked_dot_acc,
                    |a, b| a.iter().zip(b).try_fold(0, |sum: $word, (a, b)| checked(sum as $wide + mul(*a, *b))),
                    |a, b| {
                        let mut sum = Number::ZERO;
                        sum.checked_dot_acc(a, b).map(|()| sum)
                    });
            }
        }
    };
}

word!(signed i8, i16, u8, i8, 4);
word!(signed i16, i32, u16, i16, 8);
word!(signed i32, i64, u32, i32, 16);
word!(signed i64, i128, u64, i64, 32);
word!(unsigned u8, u16, u8, i8, 4);
word!(unsigned u16, u32, u16, i16, 8);
word!(unsigned u32, u64, u32, i32, 16);
word!(unsigned u64, u128, u64, i64, 32);

const WORDS: [&str; 8] = ["i8", "i16", "i32", "i64", "u8", "u16", "u32", "u64"];

/// A table of one figure for each call and word.
fn table(rows: &[Row], figure: impl Fn(&Row) -> String) {
    println!(
        "| Call | {} |\n|---|{}",
        WORDS.join(" | "),
        "---|".repeat(WORDS.len())
    );
    let mut calls: Vec<&str> = Vec::new();
    for row in rows {
        if !calls.contains(&row.call) {
            calls.push(row.call);
        }
    }
    for call in calls {
        let of_word = |word| {
            rows.iter()
                .find(|row| row.call == call && row.word == word)
                .map_or(String::new(), &figure)
        };
        println!("| `{call}` | {} |", WORDS.map(of_word).join(" | "));
    }
    println!();
}

fn main() {
    let words: Vec<String> = std::env::args()
        .skip(1)
        .filter(|word| !word.starts_with('-'))
        .collect();
    let wanted =
        |name: &str| words.is_empty() || words.iter().any(|word| name.contains(word.as_str()));
    let mut rows = Vec::new();
    i8::rows(&mut rows, wanted);
    i16::rows(&mut rows, wanted);
    i32::rows(&mut rows, wanted);
    i64::rows(&mut rows, wanted);
    u8::rows(&mut rows, wanted);
    u16::rows(&mut rows, wanted);
    u32::rows(&mut rows, wanted);
    u64::rows(&mut rows, wanted);
    if counting::is_on() {
        for row in rows {
            println!("{} {} {}", row.call, row.word, row.goal.unwrap_or_default());
        }
        return;
    }
    println!("Ratio to the loop by hand\n");
    table(&rows, |row| format!("{:.2}", row.ratio()));
    println!("Nanoseconds an element, and by hand\n");
    table(&rows, |row| format!("{:.2} {:.2}", row.ours, row.by_hand));
    let missed: Vec<&Row> = rows.iter().filter(|row| row.misses()).collect();
    println!(
        "Rows past their goal: {} of {}\n",
        missed.len(),
        rows.iter().filter(|row| row.goal.is_some()).count()
    );
    for row in missed {
        println!(
            "- `{}` of {}: {:.2}, goal {:.1}",
            row.call,
            row.word,
            row.ratio(),
            row.goal.unwrap_or_default()
        );
    }
}
