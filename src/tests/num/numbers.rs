// Made by `make package` of crates/tests_num/src/numbers.rt, which is proved: changes go there.

//! The calls of numbers, against known answers and computations in wider types.

use super::same::{all_hold, all_same};
use crate::bits::BitWord;
use crate::num::laws::order_law;
use crate::num::*;
use crate::word::{Count, Narrow, RawWord, SignedWord, Steps, UnsignedWord, Word, outcome_of};
use std::cmp::Ordering;
use std::hash::{DefaultHasher, Hash, Hasher};
use std::mem::size_of;

/// The answers of the calls of one operand that are the same for both signs, as numbers of bits.
fn bit_answers<T: BitWord, const F: u32>(x: Fixed<T, F>) -> [u64; 12] {
    [
        pattern(x.const_not()),
        pattern(x.swap_bytes()),
        pattern(x.reverse_bits()),
        pattern(x.rotate_left(3)),
        pattern(x.rotate_right(5)),
        x.count_ones() as u64,
        x.count_zeros() as u64,
        x.leading_ones() as u64,
        x.leading_zeros() as u64,
        x.trailing_ones() as u64,
        x.trailing_zeros() as u64,
        pattern(Fixed::<T, F>::from_be_bytes(x.to_be_bytes())),
    ]
}

/// The bits as a number of at least 0.
fn pattern<T: Word, const F: u32>(x: Fixed<T, F>) -> u64 {
    x.bits.to_unsigned().magnitude()
}

/// The same answers by std's calls on the byte.
fn std_answers(byte: u8) -> [u64; 12] {
    [
        (255 - byte) as u64,
        byte as u64,
        byte.reverse_bits() as u64,
        byte.rotate_left(3) as u64,
        byte.rotate_right(5) as u64,
        byte.count_ones() as u64,
        byte.count_zeros() as u64,
        byte.leading_ones() as u64,
        byte.leading_zeros() as u64,
        byte.trailing_ones() as u64,
        byte.trailing_zeros() as u64,
        byte as u64,
    ]
}

/// A byte by the calls that write and read bytes with the low one first, and by way of a sign.
fn ways(byte: u8) -> [u8; 5] {
    let x = FixedU8::<4>::from_bits(byte);
    let signed = x.cast_signed();
    let [low] = x.to_le_bytes();
    let [signed_low] = signed.to_le_bytes();
    let read: FixedU8<4> = Fixed::from_le_bytes([byte]);
    let signed_read: FixedI8<4> = Fixed::from_le_bytes([byte]);
    [
        low,
        signed_low,
        read.bits,
        signed_read.bits.cast_unsigned(),
        signed.cast_unsigned().bits,
    ]
}

fn unsigned_bit_answers(byte: u8) -> [u64; 12] {
    bit_answers(FixedU8::<4>::from_bits(byte))
}

fn signed_bit_answers(byte: u8) -> [u64; 12] {
    bit_answers(FixedI8::<4>::from_bits(byte.cast_signed()))
}

#[test]
fn bits_of_every_byte() {
    for byte in 0..=255_u8 {
        let want = std_answers(byte);
        assert!(
            unsigned_bit_answers(byte) == want,
            "of {byte} without a sign"
        );
        assert!(signed_bit_answers(byte) == want, "of {byte} with a sign");
        assert!(ways(byte) == [byte; 5], "ways of {byte}");
    }
}

/// What generic code sees of a format: zero by each name, and the order of its constants.
fn constants<N: Number>() -> [bool; 6] {
    [
        N::ZERO.is_zero(),
        N::DELTA.is_zero(),
        N::default() == N::ZERO,
        N::ZERO < N::DELTA,
        N::MIN <= N::ZERO,
        N::MAX < N::DELTA,
    ]
}

fn byte_constants() -> [[bool; 6]; 2] {
    [constants::<FixedI8<4>>(), constants::<FixedU8<8>>()]
}

fn long_constants() -> [[bool; 6]; 2] {
    [constants::<FixedI64<0>>(), constants::<FixedU64<64>>()]
}

#[test]
fn constants_of_any_format() {
    let want = [true, false, true, true, true, false];
    assert!(byte_constants() == [want; 2]);
    assert!(long_constants() == [want; 2]);
}

/// The answers of the calls on the size of a signed number.
fn signed_answers<T: SignedWord, const F: u32>(x: Fixed<T, F>) -> (bool, bool, bool, u32) {
    (
        x.is_zero(),
        x.is_positive(),
        x.is_negative(),
        x.signed_bits(),
    )
}

/// The least m of at least 1 with `-2^(m-1) <= x < 2^(m-1)`, from the top down.
fn least_signed_bits(x: i32) -> u32 {
    for m in [1_u32, 2, 3, 4, 5, 6, 7] {
        let end = 1_i32 << (m - 1);
        if -end <= x && x < end {
            return m;
        }
    }
    8
}

/// The same by comparisons in a wider type.
fn plain_signed(x: i32) -> (bool, bool, bool, u32) {
    (x == 0, x > 0, x < 0, least_signed_bits(x))
}

/// The answers of the calls on the size of an unsigned number.
fn unsigned_answers<T: UnsignedWord, const F: u32>(x: Fixed<T, F>) -> (bool, u32, bool, u64) {
    (
        x.is_zero(),
        x.significant_bits(),
        x.is_power_of_two(),
        x.highest_one().bits.magnitude(),
    )
}

/// The same by comparisons with each power of 2.
fn plain_unsigned(x: u32) -> (bool, u32, bool, u64) {
    for (place, power) in [
        (7, 128),
        (6, 64),
        (5, 32),
        (4, 16),
        (3, 8),
        (2, 4),
        (1, 2),
        (0, 1),
    ] {
        if power <= x {
            return (false, place + 1, x == power, power as u64);
        }
    }
    (true, 0, false, 0)
}

/// The answers on the size of a byte with and without a sign; then both rounded toward zero, and the magnitude.
type Sizes = ((bool, bool, bool, u32), (bool, u32, bool, u64), [i32; 3]);

fn sizes(byte: u8) -> Sizes {
    let signed = FixedI8::<4>::from_bits(byte.cast_signed());
    let unsigned = FixedU8::<4>::from_bits(byte);
    let moved = [
        signed.round_to_zero().bits as i32,
        unsigned.round_to_zero().bits as i32,
        signed.unsigned_abs().bits as i32,
    ];
    (signed_answers(signed), unsigned_answers(unsigned), moved)
}

#[test]
fn sizes_of_every_byte() {
    for byte in 0..=255_u8 {
        let (signed, unsigned) = (byte.cast_signed() as i32, byte as i32);
        let moved = [signed / 16 * 16, unsigned / 16 * 16, signed.max(-signed)];
        let (found_signed, found_unsigned, found_moved) = sizes(byte);
        assert!(
            found_signed == plain_signed(signed),
            "of {byte} with a sign"
        );
        let want = plain_unsigned(byte as u32);
        assert!(found_unsigned == want, "of {byte} without a sign");
        assert!(found_moved == moved, "of {byte}: {found_moved:?}");
    }
}

/// Shifts and means of two numbers, by their bits.
fn moved<T: BitWord, const F: u32>(x: Fixed<T, F>, y: Fixed<T, F>, by: u32) -> (T, T, T) {
    (
        x.unbounded_shl(by).bits,
        x.unbounded_shr(by).bits,
        x.mean(y).bits,
    )
}

fn moved_signed(a: i8, b: i8, by: u32) -> [i64; 3] {
    let (up, down, mean) = moved(FixedI8::<4> { bits: a }, FixedI8::<4> { bits: b }, by);
    [up as i64, down as i64, mean as i64]
}

fn moved_unsigned(a: u8, b: u8, by: u32) -> [i64; 3] {
    let (up, down, mean) = moved(FixedU8::<4> { bits: a }, FixedU8::<4> { bits: b }, by);
    [up as i64, down as i64, mean as i64]
}

#[test]
fn shifts_and_means() {
    let longest = FixedI64::<1>::MIN.mean(FixedI64::<1>::MAX).bits;
    for (what, found, wanted) in [
        ("-128 and 127 by 8", moved_signed(-128, 127, 8), [0, -1, -1]),
        ("-48 and 64 by 1", moved_signed(-48, 64, 1), [-96, -24, 8]),
        ("127 and 126 by 9", moved_signed(127, 126, 9), [0, 0, 126]),
        (
            "255 and 254 by 2",
            moved_unsigned(255, 254, 2),
            [252, 63, 254],
        ),
        ("3 and 200 by 8", moved_unsigned(3, 200, 8), [0, 0, 101]),
        ("the ends of 64 bits", [longest, 0, 0], [-1, 0, 0]),
    ] {
        assert!(found == wanted, "{what}: {found:?}");
    }
}

/// The distance of two signed numbers, by the three calls that answer it.
fn distances_of(a: i8, b: i8) -> [u8; 3] {
    let (x, y) = (FixedI8::<4> { bits: a }, FixedI8::<4> { bits: b });
    [
        x.abs_diff(y).bits,
        x.unsigned_dist(y).bits,
        y.unsigned_dist(x).bits,
    ]
}

#[test]
fn distances() {
    for (a, b, want) in [(-128, 127, 255), (-48, 64, 112), (127, 126, 1), (5, 5, 0)] {
        assert!(distances_of(a, b) == [want; 3], "of {a} and {b}");
    }
    let far = FixedU8::<4> { bits: 3 }.abs_diff(FixedU8::<4> { bits: 200 });
    let least = FixedI8::<4>::MIN.unsigned_abs();
    let unit = FixedI8::<4> { bits: -1 }.unsigned_abs();
    all_same(&[
        ("3 and 200", far.bits as i64, 197),
        ("-128", least.bits as i64, 128),
        ("-1", unit.bits as i64, 1),
    ]);
}

fn signed_bits(bits: i8) -> i64 {
    FixedI8::<4> { bits }.signed_bits() as i64
}

fn significant_bits(bits: u8) -> i64 {
    FixedU8::<4> { bits }.significant_bits() as i64
}

#[test]
fn signed_and_significant_bits() {
    let fifty = FixedU8::<4> { bits: 50 };
    let rounded = FixedI8::<4> { bits: -120 }.round_to_zero().bits;
    all_same(&[
        ("signed bits of -48", signed_bits(-48), 7),
        ("signed bits of -1", signed_bits(-1), 1),
        ("signed bits of 0", signed_bits(0), 1),
        ("signed bits of 1", signed_bits(1), 2),
        ("bits of 48", significant_bits(48), 6),
        ("bits of 1", significant_bits(1), 1),
        ("bits of 0", significant_bits(0), 0),
        ("highest one of 50", fifty.highest_one().bits as i64, 32),
        ("ones of 50", fifty.count_ones() as i64, 3),
        ("trailing zeros of 50", fifty.trailing_zeros() as i64, 1),
        ("leading zeros of 50", fifty.leading_zeros() as i64, 2),
        ("-120 toward zero", rounded as i64, -112),
    ]);
}

/// Products of twice the width.
fn wide_products() -> [i64; 3] {
    let (x, y) = (FixedI8::<2> { bits: 5 }, FixedI8::<4> { bits: 17 });
    let product: FixedI16<6> = x.wide_mul(y);
    let (x, y) = (FixedU8::<2> { bits: 5 }, FixedI8::<4> { bits: -17 });
    let signed: FixedI16<6> = x.wide_mul_signed(y);
    let (x, y) = (FixedI8::<2> { bits: -128 }, FixedU8::<4> { bits: 255 });
    let unsigned: FixedI16<6> = x.wide_mul_unsigned(y);
    [
        product.bits as i64,
        signed.bits as i64,
        unsigned.bits as i64,
    ]
}

/// Quotients of twice the width.
fn wide_quotients() -> [i64; 4] {
    let (x, y) = (FixedI8::<3> { bits: 37 }, FixedI8::<5> { bits: 1 });
    let quotient: FixedI16<6> = x.wide_div(y);
    let (x, y) = (FixedI8::<3> { bits: -37 }, FixedU8::<5> { bits: 1 });
    let unsigned: FixedI16<6> = x.wide_div_unsigned(y);
    let (x, y) = (FixedI8::<4> { bits: -128 }, FixedI8::<4> { bits: -1 });
    let least: FixedI16<7> = x.wide_sdiv(y);
    let (x, y) = (FixedU8::<4> { bits: 255 }, FixedI8::<4> { bits: -2 });
    let signed: FixedI16<7> = x.wide_sdiv_signed(y);
    [
        quotient.bits as i64,
        unsigned.bits as i64,
        least.bits as i64,
        signed.bits as i64,
    ]
}

/// A quotient and a square without a sign.
fn wide_unsigned() -> (u16, u64) {
    let (x, y) = (FixedU8::<3> { bits: 255 }, FixedU8::<5> { bits: 7 });
    let quotient: FixedU16<6> = x.wide_div(y);
    let square: FixedU64<20> = FixedU32::<10>::MAX.wide_mul(FixedU32::<10>::MAX);
    (quotient.bits, square.bits)
}

#[test]
fn wide_results() {
    let [product, by_signed, by_unsigned] = wide_products();
    let [quotient, over_unsigned, least, over_signed] = wide_quotients();
    let (unsigned, square) = wide_unsigned();
    all_same(&[
        ("5 by 17", product, 85),
        ("5 by -17", by_signed, -85),
        ("-128 by 255", by_unsigned, -32640),
        ("37 over 1", quotient, 9472),
        ("-37 over 1", over_unsigned, -9472),
        ("-128 over -1", least, 16384),
        ("255 over -2", over_signed, -16320),
        ("255 over 7", unsigned as i64, 9325),
    ]);
    assert!(square == 0xffff_fffe_0000_0001);
}

/// Both numbers joined bit by bit: and, or, exclusive or.
fn joined<T: BitWord, const F: u32>(x: Fixed<T, F>, y: Fixed<T, F>) -> [T; 3] {
    [
        x.const_bitand(y).bits,
        x.const_bitor(y).bits,
        x.const_bitxor(y).bits,
    ]
}

/// What the format of a number says of itself: the bits of 0, of the default, of the least number above 0 and of
/// the greatest; whether it has a sign; and how many bits stand before and behind the point.
fn format_of<T: Word, const F: u32>(_x: Fixed<T, F>) -> ([T; 4], bool, u32, u32) {
    let bits = [
        Fixed::<T, F>::ZERO.bits,
        Fixed::<T, F>::default().bits,
        Fixed::<T, F>::DELTA.bits,
        Fixed::<T, F>::MAX.bits,
    ];
    let behind = Fixed::<T, F>::FRAC_NBITS;
    (
        bits,
        Fixed::<T, F>::IS_SIGNED,
        Fixed::<T, F>::int_nbits(),
        behind,
    )
}

/// One and minus one, by their bits.
fn ones() -> [i32; 4] {
    [
        FixedI8::<4>::one().bits as i32,
        FixedU8::<7>::one().bits as i32,
        FixedI8::<4>::neg_one().bits as i32,
        FixedI8::<7>::neg_one().bits as i32,
    ]
}

/// The bytes of a number with the high one first, and with the low one.
fn bytes_of(bits: i16) -> [[u8; 2]; 2] {
    let x = FixedI16::<4> { bits };
    [x.to_be_bytes(), x.to_le_bytes()]
}

#[test]
fn bytes_and_constants() {
    assert!(ones() == [16, 128, -16, -128]);
    assert!(bytes_of(4660) == [[18, 52], [52, 18]]);
    let (less, zero) = (FixedI8::<4> { bits: -1 }, FixedI8::<4> { bits: 0 });
    let sizes = [size_of::<FixedI64<7>>(), size_of::<FixedU8<7>>()];
    assert!(less < zero && sizes == [8, 1], "order, and sizes {sizes:?}");
    let joined_unsigned = joined(FixedU8::<4> { bits: 12 }, FixedU8::<4> { bits: 10 });
    let joined_signed = joined(FixedI8::<4> { bits: -4 }, FixedI8::<4> { bits: 10 });
    assert!(joined_unsigned == [8, 14, 6] && joined_signed == [8, -2, -10]);
}

fn bytes_are_right() -> bool {
    format_of(FixedU8::<2> { bits: 9 }) == ([0, 0, 1, 255], false, 6, 2)
}

fn words_are_right() -> bool {
    format_of(FixedU16::<3> { bits: 9 }) == ([0, 0, 1, u16::MAX], false, 13, 3)
}

fn signed_words_are_right() -> bool {
    format_of(FixedI32::<5> { bits: 9 }) == ([0, 0, 1, i32::MAX], true, 27, 5)
}

fn longest_words_are_right() -> bool {
    format_of(FixedU64::<2> { bits: 9 }) == ([0, 0, 1, u64::MAX], false, 62, 2)
}

#[test]
fn formats() {
    all_hold(&[
        ("8 bits", bytes_are_right()),
        ("16 bits", words_are_right()),
        ("32 bits", signed_words_are_right()),
        ("64 bits", longest_words_are_right()),
    ]);
}

fn unsigned_root(steps: &mut Steps<Count>) -> FixedU8<4> {
    FixedU8::<4>::from_bits(32).sqrt_counted(steps)
}

fn signed_root(steps: &mut Steps<Count>) -> FixedI8<4> {
    FixedI8::<4>::from_bits(32).sqrt_counted(steps)
}

fn greatest_root(steps: &mut Steps<Count>) -> FixedU8<8> {
    FixedU8::<8>::from_bits(255).sqrt_counted(steps)
}

#[test]
fn counted_roots() {
    let mut steps = Steps::new(Count::new());
    let unsigned = unsigned_root(&mut steps).bits as i64;
    let first = steps.ledger().count();
    let signed = signed_root(&mut steps).bits as i64;
    let both = steps.ledger().count();
    let mut steps = Steps::new(Count::new());
    let greatest = greatest_root(&mut steps).bits as i64;
    let alone = steps.ledger().count();
    for (what, found, wanted, count, most) in [
        ("2 without a sign", unsigned, 22, first, 160),
        ("2", signed, 22, both, 320),
        ("the greatest", greatest, 255, alone, 160),
    ] {
        assert!(
            found == wanted && count <= most,
            "{what}: {found}, count {count}"
        );
    }
}

/// The number with the bits of another, and its fraction.
fn held_again<N: Number>(x: N) -> (N, u32) {
    (N::from_bits(x.to_bits()), N::FRACTION)
}

fn widened<T: Narrow>(x: T) -> T::Double {
    x.widen()
}

/// Each word with a double, as its double.
fn doubles() -> [i64; 6] {
    [
        widened(-128_i8) as i64,
        widened(-32768_i16) as i64,
        widened(-2147483648_i32),
        widened(255_u8) as i64,
        widened(65535_u16) as i64,
        widened(4294967295_u32).cast_signed(),
    ]
}

#[test]
fn through_bounds() {
    let (x, y) = (FixedI8::<4> { bits: -5 }, FixedU16::<9> { bits: 65535 });
    let exact: FixedU8<4> = exact_number(outcome_of(false, 200));
    let ((x, signed_fraction), (y, fraction)) = (held_again(x), held_again(y));
    all_same(&[
        ("signed bits", x.bits as i64, -5),
        ("their fraction", signed_fraction as i64, 4),
        ("unsigned bits", y.bits as i64, 65535),
        ("their fraction", fraction as i64, 9),
        ("an exact number", exact.bits as i64, 200),
    ]);
    assert!(doubles() == [-128, -32768, -2147483648, 255, 65535, 4294967295]);
}

/// The hash by std's hasher.
fn hash_of<N: Hash>(x: &N) -> u64 {
    let mut state = DefaultHasher::new();
    x.hash(&mut state);
    state.finish()
}

/// How two signed numbers stand, by the calls that say so, and whether the number's hash is that of its bits and
/// tells the two apart.
fn order_of(a: i8, b: i8) -> (Ordering, Option<Ordering>, [bool; 2]) {
    let (x, y) = (FixedI8::<4>::from_bits(a), FixedI8::<4>::from_bits(b));
    order_law(x, y);
    let hash = hash_of(&x);
    (
        x.cmp(&y),
        x.partial_cmp(&y),
        [hash == hash_of(&a), (hash == hash_of(&y)) == (a == b)],
    )
}

#[test]
fn order_and_hashes() {
    for (a, b, order) in [
        (-128_i8, 127, Ordering::Less),
        (-1, 0, Ordering::Less),
        (5, 5, Ordering::Equal),
        (0, -1, Ordering::Greater),
    ] {
        let (found, partial, hashes) = order_of(a, b);
        let ordered = found == order && partial == Some(order);
        assert!(ordered && hashes == [true; 2], "{a} and {b}");
    }
    let (x, y) = (FixedU64::<64>::ZERO, FixedU64::<64>::MAX);
    let hashed = hash_of(&y) == hash_of(&u64::MAX);
    assert!(x.cmp(&y) == Ordering::Less && hashed, "the longest word");
    order_law(x, y);
}
