//! Every call that this package shares with the Rust crate `fixed`, on both sides: all pairs of 8-bit operands at every
//! fraction, and random and extreme operands of 16 to 64 bits at five fractions. It prints how many answers were
//! compared and each call that differs, and fails where another differs than those of `docs/DIFFERENCES.md`.
//!
//! A call that stops is compared where the crate's checked form has an answer, and one with a divisor or the operand of
//! a root where the row is defined.

mod tally;

use fixed::types::extra::*;
use tally::Tally;
use zugyelmas::prelude::*;

/// The operands of a call: numbers of the format, of the other sign, and of no and all fraction bits; an integer, a
/// shift and a base.
#[derive(Clone, Copy)]
struct Operands<N, O, P, M, K> {
    x: N,
    y: N,
    z: N,
    other: O,
    whole: P,
    fraction: M,
    k: K,
    by: u32,
    base: u32,
}

/// Compares calls by their names and operands, on both sides: `NAME OPERAND..;`.
macro_rules! compare {
    ($tally:ident, $signed:expr, $ours:ident, $theirs:ident: $($call:ident $($operand:ident)*;)*) => {$(
        $tally.compare(
            stringify!($call),
            $signed,
            $ours.x.$call($($ours.$operand),*),
            $theirs.x.$call($($theirs.$operand),*),
            ($ours.x, $ours.y, $ours.z, $ours.k, $ours.by),
        );
    )*};
}

/// The same of two texts of an expression, one for each side.
macro_rules! compare_each {
    ($tally:ident, $signed:expr, $at:expr; $($name:literal: $ours:expr, $theirs:expr;)*) => {$(
        $tally.compare($name, $signed, $ours, $theirs, $at);
    )*};
}

/// The calls of both signs.
macro_rules! calls_of_all {
    ($tally:ident, $signed:expr, $o:ident, $t:ident) => {
        compare!($tally, $signed, $o, $t:
            checked_neg; overflowing_neg; wrapping_neg; saturating_neg;
            checked_add y; overflowing_add y; wrapping_add y; saturating_add y;
            checked_sub y; overflowing_sub y; wrapping_sub y; saturating_sub y;
            checked_mul y; overflowing_mul y; wrapping_mul y; saturating_mul y;
            checked_div y; checked_recip; checked_rem y; checked_rem_euclid y; checked_div_euclid y;
            checked_dist y; overflowing_dist y; wrapping_dist y; saturating_dist y;
            checked_next_multiple_of y;
            checked_mul_int k; overflowing_mul_int k; wrapping_mul_int k; saturating_mul_int k;
            checked_div_int k; checked_rem_int k; checked_rem_euclid_int k; checked_div_euclid_int k;
            checked_sqrt;
            checked_shl by; overflowing_shl by; wrapping_shl by; unbounded_shl by;
            checked_shr by; overflowing_shr by; wrapping_shr by; unbounded_shr by;
            checked_mul_add y z; overflowing_mul_add y z; wrapping_mul_add y z; saturating_mul_add y z;
            checked_mul_add whole z; overflowing_mul_add whole z; wrapping_mul_add fraction z; saturating_mul_add fraction z;
            checked_add_prod y z; overflowing_add_prod y z; wrapping_add_prod y z; saturating_add_prod y z;
            checked_add_prod whole y; overflowing_add_prod whole whole;
            wrapping_add_prod fraction whole; saturating_add_prod fraction fraction;
            checked_int_log2; checked_int_log10; checked_int_log base;
            swap_bytes; reverse_bits; rotate_left by; rotate_right by;
            count_ones; count_zeros; leading_ones; leading_zeros; trailing_ones; trailing_zeros;
            is_zero; abs_diff y; mean y; round_to_zero;
            const_not; const_bitand y; const_bitor y; const_bitxor y;
        );
        if $o.y.to_bits() != 0 {
            compare!($tally, $signed, $o, $t:
                overflowing_div y; wrapping_div y; saturating_div y;
                overflowing_div_euclid y; wrapping_div_euclid y; saturating_div_euclid y;
                overflowing_next_multiple_of y; wrapping_next_multiple_of y; saturating_next_multiple_of y;
            );
        }
        if $o.x.to_bits() != 0 {
            compare!($tally, $signed, $o, $t: overflowing_recip; wrapping_recip; saturating_recip;);
        }
        if $o.k != 0 {
            compare!($tally, $signed, $o, $t:
                overflowing_div_int k; wrapping_div_int k; saturating_div_int k;
                overflowing_rem_euclid_int k; wrapping_rem_euclid_int k; saturating_rem_euclid_int k;
                overflowing_div_euclid_int k; wrapping_div_euclid_int k; saturating_div_euclid_int k;
            );
        }
        if $o.x >= Constants::ZERO {
            compare!($tally, $signed, $o, $t: overflowing_sqrt; wrapping_sqrt; saturating_sqrt;);
        }
        calls_that_stop!($tally, $signed, $o, $t:
            checked_neg => strict_neg unwrapped_neg;
            checked_add y => strict_add unwrapped_add;
            checked_sub y => strict_sub unwrapped_sub;
            checked_mul y => strict_mul unwrapped_mul;
            checked_div y => strict_div unwrapped_div;
            checked_recip => strict_recip unwrapped_recip recip;
            checked_rem y => strict_rem unwrapped_rem;
            checked_rem_euclid y => strict_rem_euclid unwrapped_rem_euclid rem_euclid;
            checked_div_euclid y => strict_div_euclid unwrapped_div_euclid div_euclid;
            checked_dist y => strict_dist unwrapped_dist dist;
            checked_next_multiple_of y => strict_next_multiple_of unwrapped_next_multiple_of next_multiple_of;
            checked_mul_int k => strict_mul_int unwrapped_mul_int;
            checked_div_int k => strict_div_int unwrapped_div_int;
            checked_rem_int k => strict_rem_int unwrapped_rem_int;
            checked_rem_euclid_int k => strict_rem_euclid_int unwrapped_rem_euclid_int rem_euclid_int;
            checked_div_euclid_int k => strict_div_euclid_int unwrapped_div_euclid_int div_euclid_int;
            checked_sqrt => strict_sqrt unwrapped_sqrt sqrt;
            checked_shl by => strict_shl unwrapped_shl;
            checked_shr by => strict_shr unwrapped_shr;
            checked_mul_add y z => strict_mul_add unwrapped_mul_add mul_add;
            checked_add_prod y z => strict_add_prod unwrapped_add_prod add_prod;
            checked_int_log2 => int_log2;
            checked_int_log10 => int_log10;
            checked_int_log base => int_log;
        );
        compare_each!($tally, $signed, ($o.x, $o.y, $o.z);
            "checked_mul_acc": { let mut n = $o.x; let done = n.checked_mul_acc($o.y, $o.z); (n, done.is_some()) },
                { let mut n = $t.x; let done = n.checked_mul_acc($t.y, $t.z); (n, done.is_some()) };
            "overflowing_mul_acc": { let mut n = $o.x; let past = n.overflowing_mul_acc($o.y, $o.z); (n, past) },
                { let mut n = $t.x; let past = n.overflowing_mul_acc($t.y, $t.z); (n, past) };
            "wrapping_mul_acc": { let mut n = $o.x; n.wrapping_mul_acc($o.y, $o.z); n },
                { let mut n = $t.x; n.wrapping_mul_acc($t.y, $t.z); n };
            "saturating_mul_acc": { let mut n = $o.x; n.saturating_mul_acc($o.y, $o.z); n },
                { let mut n = $t.x; n.saturating_mul_acc($t.y, $t.z); n };
            "to_be_bytes": i128::from($o.x.to_be_bytes() == $t.x.to_be_bytes()), 1;
            "to_le_bytes": i128::from($o.x.to_le_bytes() == $t.x.to_le_bytes()), 1;
            "!": !$o.x, !$t.x;
            "&": $o.x & $o.y, $t.x & $t.y;
            "|": $o.x | $o.y, $t.x | $t.y;
            "^": $o.x ^ $o.y, $t.x ^ $t.y;
            "<": $o.x < $o.y, $t.x < $t.y;
            "==": $o.x == $o.y, $t.x == $t.y;
        );
        operators!($tally, $signed, $o, $t:
            "+" checked_add: x + y; "-" checked_sub: x - y; "*" checked_mul: x * y; "/" checked_div: x / y;
            "%" checked_rem: x % y;
        );
        operators_by!($tally, $signed, $o, $t:
            "* integer" checked_mul_int k: *; "/ integer" checked_div_int k: /; "% integer" checked_rem_int k: %;
            "<<" checked_shl by: <<; ">>" checked_shr by: >>;
        );
    };
}

/// Calls that stop, where the crate's checked form has an answer.
macro_rules! calls_that_stop {
    ($tally:ident, $signed:expr, $o:ident, $t:ident: $($checked:ident $($operand:ident)* => $($call:ident)*;)*) => {$(
        if $t.x.$checked($($t.$operand),*).is_some() {
            calls_that_stop!(@each $tally, $signed, $o, $t, ($($operand)*): $($call)*);
        }
    )*};
    (@each $tally:ident, $signed:expr, $o:ident, $t:ident, $operands:tt: $($call:ident)*) => {$(
        calls_that_stop!(@call $tally, $signed, $o, $t, $call $operands);
    )*};
    (@call $tally:ident, $signed:expr, $o:ident, $t:ident, $call:ident ($($operand:ident)*)) => {
        compare!($tally, $signed, $o, $t: $call $($operand)*;)
    };
}

macro_rules! operators {
    ($tally:ident, $signed:expr, $o:ident, $t:ident: $($name:literal $checked:ident: x $operator:tt y;)*) => {$(
        if $t.x.$checked($t.y).is_some() {
            $tally.compare($name, $signed, $o.x $operator $o.y, $t.x $operator $t.y, ($o.x, $o.y));
        }
    )*};
}

macro_rules! operators_by {
    ($tally:ident, $signed:expr, $o:ident, $t:ident: $($name:literal $checked:ident $by:ident: $operator:tt;)*) => {$(
        if $t.x.$checked($t.$by).is_some() {
            $tally.compare($name, $signed, $o.x $operator $o.$by, $t.x $operator $t.$by, ($o.x, $o.$by));
        }
    )*};
}

/// The calls of one sign.
macro_rules! calls_of_sign {
    (signed, $tally:ident, $o:ident, $t:ident) => {
        compare!($tally, true, $o, $t:
            checked_abs; overflowing_abs; wrapping_abs; saturating_abs;
            checked_signum; overflowing_signum; wrapping_signum; saturating_signum;
            checked_add_unsigned other; overflowing_add_unsigned other;
            wrapping_add_unsigned other; saturating_add_unsigned other;
            checked_sub_unsigned other; overflowing_sub_unsigned other;
            wrapping_sub_unsigned other; saturating_sub_unsigned other;
            is_positive; is_negative; signed_bits; unsigned_abs; unsigned_dist y; cast_unsigned;
        );
        calls_that_stop!($tally, true, $o, $t:
            checked_abs => strict_abs unwrapped_abs abs;
            checked_signum => strict_signum unwrapped_signum signum;
            checked_add_unsigned other => strict_add_unsigned unwrapped_add_unsigned add_unsigned;
            checked_sub_unsigned other => strict_sub_unsigned unwrapped_sub_unsigned sub_unsigned;
        );
        if $t.x.checked_neg().is_some() {
            $tally.compare("-", true, -$o.x, -$t.x, $o.x);
        }
    };
    (unsigned, $tally:ident, $o:ident, $t:ident) => {
        compare!($tally, false, $o, $t:
            checked_next_power_of_two; wrapping_next_power_of_two;
            checked_add_signed other; overflowing_add_signed other;
            wrapping_add_signed other; saturating_add_signed other;
            checked_sub_signed other; overflowing_sub_signed other;
            wrapping_sub_signed other; saturating_sub_signed other;
            significant_bits; is_power_of_two; highest_one; cast_signed;
        );
        calls_that_stop!($tally, false, $o, $t:
            checked_next_power_of_two => strict_next_power_of_two unwrapped_next_power_of_two next_power_of_two;
            checked_add_signed other => strict_add_signed unwrapped_add_signed add_signed;
            checked_sub_signed other => strict_sub_signed unwrapped_sub_signed sub_signed;
        );
    };
}

/// The calls with a wide answer, of the fractions 2 F, n and n - 1.
macro_rules! wide_calls {
    (signed, $tally:ident, $o:ident, $t:ident, $sum:literal, $width:literal, $less:literal) => {
        let at = ($o.x, $o.y, $o.other);
        compare_each!($tally, true, at;
            "wide_mul": $o.x.wide_mul::<_, $sum>($o.y), $t.x.wide_mul($t.y);
            "wide_mul_unsigned": $o.x.wide_mul_unsigned::<_, $sum>($o.other), $t.x.wide_mul_unsigned($t.other);
        );
        if $o.y.to_bits() != 0 && ($o.y.to_bits() != -1 || $o.x != Constants::MIN) {
            compare_each!($tally, true, at; "wide_div": $o.x.wide_div::<_, $width>($o.y), $t.x.wide_div($t.y););
        }
        if $o.y.to_bits() != 0 {
            compare_each!($tally, true, at; "wide_sdiv": $o.x.wide_sdiv::<_, $less>($o.y), $t.x.wide_sdiv($t.y););
        }
        if $o.other.to_bits() != 0 {
            compare_each!($tally, true, at; "wide_div_unsigned":
                $o.x.wide_div_unsigned::<_, $width>($o.other), $t.x.wide_div_unsigned($t.other););
        }
    };
    (unsigned, $tally:ident, $o:ident, $t:ident, $sum:literal, $width:literal, $less:literal) => {
        let at = ($o.x, $o.y, $o.other);
        compare_each!($tally, false, at;
            "wide_mul": $o.x.wide_mul::<_, $sum>($o.y), $t.x.wide_mul($t.y);
            "wide_mul_signed": $o.x.wide_mul_signed::<_, $sum>($o.other), $t.x.wide_mul_signed($t.other);
        );
        if $o.y.to_bits() != 0 {
            compare_each!($tally, false, at; "wide_div": $o.x.wide_div::<_, $width>($o.y), $t.x.wide_div($t.y););
        }
        if $o.other.to_bits() != 0 {
            compare_each!($tally, false, at; "wide_sdiv_signed":
                $o.x.wide_sdiv_signed::<_, $less>($o.other), $t.x.wide_sdiv_signed($t.other););
        }
    };
    ($sign:ident, $tally:ident, $o:ident, $t:ident) => {};
}

/// Bits of 64-bit draws: extremes and small numbers often, others at random.
struct Draws(u64);

impl Draws {
    fn next(&mut self) -> u64 {
        self.0 = self.0.wrapping_mul(6364136223846793005).wrapping_add(1442695040888963407);
        self.0 ^ (self.0 >> 31)
    }

    /// The bits of an operand of so many bits.
    fn operand(&mut self, width: u32) -> u64 {
        let random = self.next();
        let size = self.next() % u64::from(width);
        match self.next() % 8 {
            0 => [0, 1, u64::MAX, 1 << (width - 1), (1 << (width - 1)) - 1, 2][(random % 6) as usize],
            1 | 2 => random >> (63 - size),
            3 => (random >> (63 - size)).wrapping_neg(),
            _ => random,
        }
    }
}

/// The operands of both sides by their bits, in a module for each format.
macro_rules! format {
    ($module:ident: $sign:ident $word:ident $other:ident, $Crate:ident $Other:ident, $frac:literal $Frac:ident, $width:literal $Width:ident $(, $sum:literal $less:literal)?) => {
        mod $module {
            use super::*;

            pub fn compare(tally: &mut Tally, bits: [u64; 7], shift: u32) {
                let [x, y, z, other, whole, fraction, k] = bits;
                let (by, base) = (shift, 2 + shift * shift);
                let ours = Operands {
                    x: Fixed::<$word, $frac>::from_bits(x as $word),
                    y: Fixed::<$word, $frac>::from_bits(y as $word),
                    z: Fixed::<$word, $frac>::from_bits(z as $word),
                    other: Fixed::<$other, $frac>::from_bits(other as $other),
                    whole: Fixed::<$word, 0>::from_bits(whole as $word),
                    fraction: Fixed::<$word, $width>::from_bits(fraction as $word),
                    k: k as $word,
                    by,
                    base,
                };
                let theirs = Operands {
                    x: fixed::$Crate::<$Frac>::from_bits(x as $word),
                    y: fixed::$Crate::<$Frac>::from_bits(y as $word),
                    z: fixed::$Crate::<$Frac>::from_bits(z as $word),
                    other: fixed::$Other::<$Frac>::from_bits(other as $other),
                    whole: fixed::$Crate::<U0>::from_bits(whole as $word),
                    fraction: fixed::$Crate::<$Width>::from_bits(fraction as $word),
                    k: k as $word,
                    by,
                    base,
                };
                let signed = <Fixed<$word, $frac> as Constants>::IS_SIGNED;
                calls_of_all!(tally, signed, ours, theirs);
                calls_of_sign!($sign, tally, ours, theirs);
                wide_calls!($sign, tally, ours, theirs $(, $sum, $width, $less)?);
            }
        }
    };
}

/// A format of 8 bits with each fraction, signed and unsigned.
macro_rules! bytes {
    ($($signed:ident $unsigned:ident $frac:literal $Frac:ident $sum:literal;)*) => {
        $(
            format!($signed: signed i8 u8, FixedI8 FixedU8, $frac $Frac, 8 U8, $sum 7);
            format!($unsigned: unsigned u8 i8, FixedU8 FixedI8, $frac $Frac, 8 U8, $sum 7);
        )*

        /// All pairs of bytes, with drawn further operands.
        fn compare_bytes(tally: &mut Tally) {
            let mut draws = Draws(1);
            for pair in 0..1 << 16 {
                let mut operand = || draws.operand(8);
                let bits = [pair >> 8, pair & 255, operand(), operand(), operand(), operand(), operand()];
                let shift = (draws.next() % 18) as u32;
                $($signed::compare(tally, bits, shift); $unsigned::compare(tally, bits, shift);)*
            }
        }
    };
}

bytes! {
    i8_0 u8_0 0 U0 0; i8_1 u8_1 1 U1 2; i8_2 u8_2 2 U2 4; i8_3 u8_3 3 U3 6; i8_4 u8_4 4 U4 8;
    i8_5 u8_5 5 U5 10; i8_6 u8_6 6 U6 12; i8_7 u8_7 7 U7 14; i8_8 u8_8 8 U8 16;
}

/// Formats of more bits at some fractions.
macro_rules! drawn {
    ($($module:ident: $sign:ident $word:ident $other:ident, $Crate:ident $Other:ident, $frac:literal $Frac:ident, $width:literal $Width:ident $(, $sum:literal $less:literal)?;)*) => {
        $(format!($module: $sign $word $other, $Crate $Other, $frac $Frac, $width $Width $(, $sum $less)?);)*

        /// Random and extreme operands, so many for each format.
        fn compare_drawn(tally: &mut Tally, count: u32) {
            let mut draws = Draws(2);
            $(for _ in 0..count {
                let bits = std::array::from_fn(|_| draws.operand($width));
                let shift = (draws.next() % (2 * $width + 2)) as u32;
                $module::compare(tally, bits, shift);
            })*
        }
    };
}

drawn! {
    i16_0: signed i16 u16, FixedI16 FixedU16, 0 U0, 16 U16, 0 15;
    i16_1: signed i16 u16, FixedI16 FixedU16, 1 U1, 16 U16, 2 15;
    i16_8: signed i16 u16, FixedI16 FixedU16, 8 U8, 16 U16, 16 15;
    i16_15: signed i16 u16, FixedI16 FixedU16, 15 U15, 16 U16, 30 15;
    i16_16: signed i16 u16, FixedI16 FixedU16, 16 U16, 16 U16, 32 15;
    i32_0: signed i32 u32, FixedI32 FixedU32, 0 U0, 32 U32, 0 31;
    i32_1: signed i32 u32, FixedI32 FixedU32, 1 U1, 32 U32, 2 31;
    i32_16: signed i32 u32, FixedI32 FixedU32, 16 U16, 32 U32, 32 31;
    i32_31: signed i32 u32, FixedI32 FixedU32, 31 U31, 32 U32, 62 31;
    i32_32: signed i32 u32, FixedI32 FixedU32, 32 U32, 32 U32, 64 31;
    i64_0: signed i64 u64, FixedI64 FixedU64, 0 U0, 64 U64;
    i64_1: signed i64 u64, FixedI64 FixedU64, 1 U1, 64 U64;
    i64_32: signed i64 u64, FixedI64 FixedU64, 32 U32, 64 U64;
    i64_63: signed i64 u64, FixedI64 FixedU64, 63 U63, 64 U64;
    i64_64: signed i64 u64, FixedI64 FixedU64, 64 U64, 64 U64;
    u16_0: unsigned u16 i16, FixedU16 FixedI16, 0 U0, 16 U16, 0 15;
    u16_1: unsigned u16 i16, FixedU16 FixedI16, 1 U1, 16 U16, 2 15;
    u16_8: unsigned u16 i16, FixedU16 FixedI16, 8 U8, 16 U16, 16 15;
    u16_15: unsigned u16 i16, FixedU16 FixedI16, 15 U15, 16 U16, 30 15;
    u16_16: unsigned u16 i16, FixedU16 FixedI16, 16 U16, 16 U16, 32 15;
    u32_0: unsigned u32 i32, FixedU32 FixedI32, 0 U0, 32 U32, 0 31;
    u32_1: unsigned u32 i32, FixedU32 FixedI32, 1 U1, 32 U32, 2 31;
    u32_16: unsigned u32 i32, FixedU32 FixedI32, 16 U16, 32 U32, 32 31;
    u32_31: unsigned u32 i32, FixedU32 FixedI32, 31 U31, 32 U32, 62 31;
    u32_32: unsigned u32 i32, FixedU32 FixedI32, 32 U32, 32 U32, 64 31;
    u64_0: unsigned u64 i64, FixedU64 FixedI64, 0 U0, 64 U64;
    u64_1: unsigned u64 i64, FixedU64 FixedI64, 1 U1, 64 U64;
    u64_32: unsigned u64 i64, FixedU64 FixedI64, 32 U32, 64 U64;
    u64_63: unsigned u64 i64, FixedU64 FixedI64, 63 U63, 64 U64;
    u64_64: unsigned u64 i64, FixedU64 FixedI64, 64 U64, 64 U64;
}

fn main() {
    let mut tally = Tally::default();
    compare_bytes(&mut tally);
    compare_drawn(&mut tally, 50_000);
    if !tally.report() {
        std::process::exit(1);
    }
}
