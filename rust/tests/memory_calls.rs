//! That no kernel and no typed call asks for memory: each is called over each word, and its requests are counted.

mod counting;

use counting::requests;
use std::fmt::Write as _;
use std::fs;
use std::hint::black_box;
use std::path::PathBuf;
use zugyelmas::kernel::*;
use zugyelmas::Castable;
use zugyelmas::prelude::*;

const ROUNDINGS: [Rounding; 3] = [Rounding::Down, Rounding::Zero, Rounding::Even];

/// Operands with two fraction bits: 9 is 2.25, 4 is 1, 5 is 1.25. The integer 3 is a divisor.
fn number<T: Word>(bits: u8) -> Fixed<T, 2> {
    let mut number = Fixed::from_bits(T::ZERO);
    for _ in 0..bits {
        number = number.wrapping_add(Fixed::from_bits(T::ONE));
    }
    number
}

fn bits<T: Word>(bits: u8) -> T {
    number::<T>(bits).to_bits()
}

fn kernels<T: Word>() {
    let (a, b, c, k) = (bits::<T>(9), bits(4), bits(5), bits(3));
    black_box([neg_of(a), add_of(a, b), sub_of(a, b), dist_of(a, b)]);
    black_box([
        mixed_add_of(a, b),
        mixed_sub_of(a, b),
        mul_of(a, b, 2),
        mul_int_of(a, k),
    ]);
    black_box([
        mul_add_of(a, b, c, 2),
        add_prod_of(c, a, b, 2, 2, 2),
        next_multiple_of_of(a, b),
    ]);
    black_box([
        div_of(a, b, 2),
        div_int_of(a, k),
        recip_of(a, 2),
        div_euclid_of(a, b, 2),
    ]);
    black_box([
        div_euclid_int_of(a, k, 2),
        rem_of(a, b),
        rem_int_of(a, k, 2),
        rem_euclid_of(a, b),
    ]);
    black_box([rem_euclid_int_of(a, k, 2), sqrt_of(a, 2)]);
    black_box([mul_nearest_of(a, b, 2), div_nearest_of(a, b, 2)]);
    black_box([
        overflowing_mul(a, b, 2),
        overflowing_div(a, b, 2),
        overflowing_mul_add(a, b, c, 2),
    ]);
    black_box(round_to_zero_of(a, 2));
    for rounding in ROUNDINGS {
        black_box([
            mul_round_of(a, b, 2, rounding),
            mul_add_round_of(a, b, c, 2, rounding),
        ]);
        black_box([
            add_prod_round_of(c, a, b, 2, 2, 2, rounding),
            div_round_of(a, b, 2, rounding),
        ]);
        black_box([
            div_int_round_of(a, k, rounding),
            recip_round_of(a, 2, rounding),
        ]);
    }
}

fn checked<T: Word>() {
    let (mut a, b, c, k) = (number::<T>(9), number::<T>(4), number::<T>(5), bits::<T>(3));
    black_box([
        a.checked_neg(),
        a.checked_recip(),
        a.checked_sqrt(),
        a.checked_shl(1),
        a.checked_shr(1),
    ]);
    black_box([
        a.checked_add(b),
        a.checked_sub(b),
        a.checked_mul(b),
        a.checked_div(b),
        a.checked_rem(b),
    ]);
    black_box([
        a.checked_rem_euclid(b),
        a.checked_div_euclid(b),
        a.checked_dist(b),
    ]);
    black_box([
        a.checked_next_multiple_of(b),
        a.checked_mul_int(k),
        a.checked_div_int(k),
    ]);
    black_box([
        a.checked_rem_int(k),
        a.checked_rem_euclid_int(k),
        a.checked_div_euclid_int(k),
    ]);
    black_box([a.checked_mul_add(b, c), a.checked_add_prod(b, c)]);
    black_box((a.checked_mul_acc(b, c), a.checked_dot_acc(&[b, c], &[c, b])));
    for rounding in ROUNDINGS {
        black_box([
            a.checked_mul_round(b, rounding),
            a.checked_div_round(b, rounding),
            a.checked_recip_round(rounding),
        ]);
        black_box([
            a.checked_div_int_round(k, rounding),
            a.checked_mul_add_round(b, c, rounding),
            a.checked_add_prod_round(b, c, rounding),
        ]);
    }
}

fn overflowing<T: Word>() {
    let (mut a, b, c, k) = (number::<T>(9), number::<T>(4), number::<T>(5), bits::<T>(3));
    black_box([
        a.overflowing_neg(),
        a.overflowing_recip(),
        a.overflowing_sqrt(),
        a.overflowing_shl(1),
    ]);
    black_box([
        a.overflowing_shr(1),
        a.overflowing_add(b),
        a.overflowing_sub(b),
        a.overflowing_mul(b),
    ]);
    black_box([
        a.overflowing_div(b),
        a.overflowing_div_euclid(b),
        a.overflowing_dist(b),
    ]);
    black_box([
        a.overflowing_next_multiple_of(b),
        a.overflowing_mul_int(k),
        a.overflowing_div_int(k),
    ]);
    black_box([
        a.overflowing_rem_euclid_int(k),
        a.overflowing_div_euclid_int(k),
    ]);
    black_box([a.overflowing_mul_add(b, c), a.overflowing_add_prod(b, c)]);
    black_box(a.overflowing_mul_acc(b, c));
    for rounding in ROUNDINGS {
        black_box([
            a.overflowing_mul_round(b, rounding),
            a.overflowing_div_round(b, rounding),
            a.overflowing_recip_round(rounding),
        ]);
        black_box([
            a.overflowing_div_int_round(k, rounding),
            a.overflowing_mul_add_round(b, c, rounding),
            a.overflowing_add_prod_round(b, c, rounding),
        ]);
    }
}

fn wrapping<T: Word>() {
    let (mut a, b, c, k) = (number::<T>(9), number::<T>(4), number::<T>(5), bits::<T>(3));
    black_box([
        a.wrapping_neg(),
        a.wrapping_recip(),
        a.wrapping_sqrt(),
        a.wrapping_shl(1),
    ]);
    black_box([
        a.wrapping_shr(1),
        a.wrapping_add(b),
        a.wrapping_sub(b),
        a.wrapping_mul(b),
    ]);
    black_box([
        a.wrapping_div(b),
        a.wrapping_div_euclid(b),
        a.wrapping_dist(b),
    ]);
    black_box([
        a.wrapping_next_multiple_of(b),
        a.wrapping_mul_int(k),
        a.wrapping_div_int(k),
    ]);
    black_box([a.wrapping_rem_euclid_int(k), a.wrapping_div_euclid_int(k)]);
    black_box([a.wrapping_mul_add(b, c), a.wrapping_add_prod(b, c)]);
    a.wrapping_mul_acc(b, c);
    black_box(a);
    for rounding in ROUNDINGS {
        black_box([
            a.wrapping_mul_round(b, rounding),
            a.wrapping_div_round(b, rounding),
            a.wrapping_recip_round(rounding),
        ]);
        black_box([
            a.wrapping_div_int_round(k, rounding),
            a.wrapping_mul_add_round(b, c, rounding),
            a.wrapping_add_prod_round(b, c, rounding),
        ]);
    }
}

fn saturating<T: Word>() {
    let (mut a, b, c, k) = (number::<T>(9), number::<T>(4), number::<T>(5), bits::<T>(3));
    black_box([
        a.saturating_neg(),
        a.saturating_recip(),
        a.saturating_sqrt(),
        a.saturating_add(b),
    ]);
    black_box([
        a.saturating_sub(b),
        a.saturating_mul(b),
        a.saturating_div(b),
    ]);
    black_box([
        a.saturating_div_euclid(b),
        a.saturating_dist(b),
        a.saturating_next_multiple_of(b),
    ]);
    black_box([
        a.saturating_mul_int(k),
        a.saturating_div_int(k),
        a.saturating_rem_euclid_int(k),
    ]);
    black_box([
        a.saturating_div_euclid_int(k),
        a.saturating_mul_add(b, c),
        a.saturating_add_prod(b, c),
    ]);
    a.saturating_mul_acc(b, c);
    black_box(a);
    for rounding in ROUNDINGS {
        black_box([
            a.saturating_mul_round(b, rounding),
            a.saturating_div_round(b, rounding),
            a.saturating_recip_round(rounding),
        ]);
        black_box([
            a.saturating_div_int_round(k, rounding),
            a.saturating_mul_add_round(b, c, rounding),
            a.saturating_add_prod_round(b, c, rounding),
        ]);
    }
}

/// The negative is that of 0, which fits an unsigned word too.
fn strict<T: Word>() {
    let (mut a, b, c, k) = (number::<T>(9), number::<T>(4), number::<T>(5), bits::<T>(3));
    black_box([
        number::<T>(0).strict_neg(),
        a.strict_recip(),
        a.strict_sqrt(),
        a.strict_shl(1),
    ]);
    black_box([
        a.strict_shr(1),
        a.strict_add(b),
        a.strict_sub(b),
        a.strict_mul(b),
        a.strict_div(b),
    ]);
    black_box([
        a.strict_rem(b),
        a.strict_rem_euclid(b),
        a.strict_div_euclid(b),
        a.strict_dist(b),
    ]);
    black_box([
        a.strict_next_multiple_of(b),
        a.strict_mul_int(k),
        a.strict_div_int(k),
    ]);
    black_box([
        a.strict_rem_int(k),
        a.strict_rem_euclid_int(k),
        a.strict_div_euclid_int(k),
    ]);
    black_box([a.strict_mul_add(b, c), a.strict_add_prod(b, c)]);
    a.strict_mul_acc(b, c);
    black_box(a);
    for rounding in ROUNDINGS {
        black_box([
            a.strict_mul_round(b, rounding),
            a.strict_div_round(b, rounding),
            a.strict_recip_round(rounding),
        ]);
        black_box([
            a.strict_div_int_round(k, rounding),
            a.strict_mul_add_round(b, c, rounding),
            a.strict_add_prod_round(b, c, rounding),
        ]);
    }
}

fn unwrapped<T: Word>() {
    let (mut a, b, c, k) = (number::<T>(9), number::<T>(4), number::<T>(5), bits::<T>(3));
    black_box([
        number::<T>(0).unwrapped_neg(),
        a.unwrapped_recip(),
        a.unwrapped_sqrt(),
        a.unwrapped_shl(1),
    ]);
    black_box([
        a.unwrapped_shr(1),
        a.unwrapped_add(b),
        a.unwrapped_sub(b),
        a.unwrapped_mul(b),
    ]);
    black_box([
        a.unwrapped_div(b),
        a.unwrapped_rem(b),
        a.unwrapped_rem_euclid(b),
    ]);
    black_box([
        a.unwrapped_div_euclid(b),
        a.unwrapped_dist(b),
        a.unwrapped_next_multiple_of(b),
    ]);
    black_box([
        a.unwrapped_mul_int(k),
        a.unwrapped_div_int(k),
        a.unwrapped_rem_int(k),
    ]);
    black_box([a.unwrapped_rem_euclid_int(k), a.unwrapped_div_euclid_int(k)]);
    black_box([a.unwrapped_mul_add(b, c), a.unwrapped_add_prod(b, c)]);
    a.unwrapped_mul_acc(b, c);
    black_box(a);
    for rounding in ROUNDINGS {
        black_box([
            a.unwrapped_mul_round(b, rounding),
            a.unwrapped_div_round(b, rounding),
            a.unwrapped_recip_round(rounding),
        ]);
        black_box([
            a.unwrapped_div_int_round(k, rounding),
            a.unwrapped_mul_add_round(b, c, rounding),
            a.unwrapped_add_prod_round(b, c, rounding),
        ]);
    }
}

fn plain<T: Word>() {
    let (a, b, c, k) = (number::<T>(9), number::<T>(4), number::<T>(5), bits::<T>(3));
    black_box([
        a + b,
        a - b,
        a * b,
        a / b,
        a % b,
        a * k,
        a / k,
        a % k,
        a.recip(),
        a.sqrt(),
    ]);
    black_box([
        a.rem_euclid(b),
        a.div_euclid(b),
        a.dist(b),
        a.next_multiple_of(b),
    ]);
    black_box([
        a.rem_euclid_int(k),
        a.div_euclid_int(k),
        a.mul_add(b, c),
        a.add_prod(b, c),
    ]);
    black_box([zugyelmas::sum(&[a, b, c]), zugyelmas::product(&[a, b, c])]);
}

fn signed<T: SignedWord>() {
    let (a, b) = (number::<T>(9), Fixed::from_bits(bits::<T>(4).to_unsigned()));
    black_box([
        a.checked_abs(),
        a.checked_signum(),
        a.checked_add_unsigned(b),
        a.checked_sub_unsigned(b),
    ]);
    black_box([a.overflowing_abs(), a.overflowing_signum()]);
    black_box([a.overflowing_add_unsigned(b), a.overflowing_sub_unsigned(b)]);
    black_box([
        a.wrapping_abs(),
        a.wrapping_signum(),
        a.wrapping_add_unsigned(b),
        a.wrapping_sub_unsigned(b),
    ]);
    black_box([a.saturating_abs(), a.saturating_signum()]);
    black_box([a.saturating_add_unsigned(b), a.saturating_sub_unsigned(b)]);
    black_box([
        a.strict_abs(),
        a.strict_signum(),
        a.strict_add_unsigned(b),
        a.strict_sub_unsigned(b),
    ]);
    black_box([a.unwrapped_abs(), a.unwrapped_signum()]);
    black_box([a.unwrapped_add_unsigned(b), a.unwrapped_sub_unsigned(b)]);
    black_box([abs_of(bits::<T>(9)), signum_of(bits::<T>(9), 2)]);
    black_box([
        -a,
        a.abs(),
        a.signum(),
        a.add_unsigned(b),
        a.sub_unsigned(b),
    ]);
}

fn unsigned<T: UnsignedWord>() {
    let (a, b) = (number::<T>(9), Fixed::from_bits(bits::<T>(4).to_signed()));
    black_box([
        a.checked_next_power_of_two(),
        a.checked_add_signed(b),
        a.checked_sub_signed(b),
    ]);
    black_box([a.overflowing_add_signed(b), a.overflowing_sub_signed(b)]);
    black_box([
        a.wrapping_next_power_of_two(),
        a.wrapping_add_signed(b),
        a.wrapping_sub_signed(b),
    ]);
    black_box([a.saturating_add_signed(b), a.saturating_sub_signed(b)]);
    black_box([
        a.strict_next_power_of_two(),
        a.strict_add_signed(b),
        a.strict_sub_signed(b),
    ]);
    black_box([
        a.unwrapped_next_power_of_two(),
        a.unwrapped_add_signed(b),
        a.unwrapped_sub_signed(b),
    ]);
    black_box(next_power_of_two_of(bits::<T>(9)));
    black_box([a.next_power_of_two(), a.add_signed(b), a.sub_signed(b)]);
}

/// Text of a number, which goes into bytes of the caller.
struct Line {
    bytes: [u8; 100],
    length: usize,
}

impl std::fmt::Write for Line {
    fn write_str(&mut self, text: &str) -> std::fmt::Result {
        let end = self.length + text.len();
        self.bytes[self.length..end].copy_from_slice(text.as_bytes());
        self.length = end;
        Ok(())
    }
}

fn text<T: Castable + Word>() {
    let mut line = Line {
        bytes: [0; 100],
        length: 0,
    };
    write!(line, "{} {:>9.3}", number::<T>(9), number::<T>(5)).expect("room");
    assert_eq!(&line.bytes[..line.length], b"2.2     1.250"); // 2.2 is read as 2.25
    assert!("2.25".parse() == Ok(number::<T>(9)));
    assert!("2.2.5".parse::<Fixed<T, 2>>().is_err());
    assert!(Fixed::checked_from_num(2.25_f64) == Some(number::<T>(9)));
    assert_eq!(number::<T>(9).to_float::<f32>(), 2.25);
}

fn all<T: Castable + Word>() {
    for calls in [
        kernels::<T>,
        checked::<T>,
        overflowing::<T>,
        wrapping::<T>,
        saturating::<T>,
    ] {
        assert_eq!(requests(calls), (0, ()));
    }
    for calls in [strict::<T>, unwrapped::<T>, plain::<T>, text::<T>] {
        assert_eq!(requests(calls), (0, ()));
    }
}

#[test]
fn no_call_over_a_signed_word_asks_for_memory() {
    for calls in [all::<i8>, all::<i16>, all::<i32>, all::<i64>] {
        calls();
    }
    for calls in [signed::<i8>, signed::<i16>, signed::<i32>, signed::<i64>] {
        assert_eq!(requests(calls), (0, ()));
    }
}

#[test]
fn no_call_over_an_unsigned_word_asks_for_memory() {
    for calls in [all::<u8>, all::<u16>, all::<u32>, all::<u64>] {
        calls();
    }
    for calls in [
        unsigned::<u8>,
        unsigned::<u16>,
        unsigned::<u32>,
        unsigned::<u64>,
    ] {
        assert_eq!(requests(calls), (0, ()));
    }
}

/// The names of the functions that a crate offers in its traits, or as functions of its own.
fn offered(krate: &str, before: &str) -> Vec<String> {
    let folder = PathBuf::from(env!("CARGO_MANIFEST_DIR"))
        .join("crates")
        .join(krate)
        .join("src");
    let mut names = Vec::new();
    for entry in fs::read_dir(folder).expect("the sources") {
        let text = fs::read_to_string(entry.expect("a source").path()).expect("its text");
        let of_traits = text
            .split("\npub trait ")
            .skip(1)
            .map(|rest| rest.split("\n}\n").next());
        let parts = if before == "pub fn " {
            vec![Some(&text[..])]
        } else {
            of_traits.collect()
        };
        for line in parts.into_iter().flatten().flat_map(str::lines) {
            if let Some(rest) = line.strip_prefix(before) {
                let end = rest.find(['(', '<']).expect("parameters");
                names.push(rest[..end].to_string());
            }
        }
    }
    names
}

/// Each typed call and each kernel stands in this file.
#[test]
fn each_call_is_counted() {
    let here = include_str!("memory_calls.rs");
    let typed =
        ["fixed_policy", "fixed_strict", "fixed_ops"].map(|krate| offered(krate, "    fn "));
    let kernels = offered("fixed_kernel", "pub fn ")
        .into_iter()
        .filter(|name| name.ends_with("_of"));
    let names: Vec<_> = typed.into_iter().flatten().chain(kernels).collect();
    assert!(names.len() > 200);
    for name in names {
        assert!(
            here.contains(&format!("{name}(")),
            "{name} is called nowhere"
        );
    }
}
