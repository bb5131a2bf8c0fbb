// Made by `make package` of crates/tests_kernel/src/bits.rt, which is proved: changes go there.

//! The calls of words on bits and bytes, against computations on single bits and in wider types.

use super::plain::all_hold;
use crate::bits::BitWord;
use crate::word::{RawWord, Word};

/// The bits of a word as a number.
fn pattern<T: Word>(word: T) -> u64 {
    word.to_unsigned().magnitude()
}

/// The answers of the calls of one operand, each as the number of its bits.
fn answers<T: BitWord>(word: T) -> [u64; 10] {
    [
        pattern(word.not()),
        pattern(word.reverse_bits()),
        pattern(word.swap_bytes()),
        pattern(word.rotate_left(11)),
        pattern(word.rotate_right(11)),
        word.count_ones() as u64,
        word.leading_zeros() as u64,
        word.trailing_zeros() as u64,
        pattern(T::from_le_bytes(word.to_le_bytes())),
        pattern(T::from_be_bytes(word.to_be_bytes())),
    ]
}

/// One bit of a byte.
fn bit(byte: u64, place: u32) -> u64 {
    if place < 8 { (byte >> place) % 2 } else { 0 }
}

/// The byte whose bit i is the bit `from - i` or `from + i`, modulo 8.
fn moved(byte: u64, from: u8, downward: bool) -> u64 {
    let from = from as u32;
    let mut made = 0;
    for place in 0..8_u32 {
        let source = if downward {
            8 + from - place
        } else {
            from + place
        };
        made |= bit(byte, source % 8) << place;
    }
    made
}

/// How many of the bits of a byte are 0 from one end, before the first that is 1.
fn zeros(byte: u64, from_top: bool) -> u64 {
    for place in 0..8_u32 {
        if bit(byte, if from_top { 7 - place } else { place }) == 1 {
            return place as u64;
        }
    }
    8
}

/// What the calls of one operand answer for a byte.
fn wanted(byte: u64) -> [u64; 10] {
    let low = bit(byte, 0) + bit(byte, 1) + bit(byte, 2) + bit(byte, 3);
    let high = bit(byte, 4) + bit(byte, 5) + bit(byte, 6) + bit(byte, 7);
    [
        byte ^ 255,
        moved(byte, 7, true),
        byte,
        moved(byte, 5, false),
        moved(byte, 3, false),
        low + high,
        zeros(byte, true),
        zeros(byte, false),
        byte,
        byte,
    ]
}

#[test]
fn every_byte() {
    for byte in 0..=255_u8 {
        let want = wanted(byte as u64);
        assert!(answers(byte) == want, "of {byte} without a sign");
        let signed = answers(byte.cast_signed());
        assert!(signed == want, "of {byte} with a sign");
    }
}

/// The answers of the calls of two operands, each as the number of its bits.
fn pairs<T: BitWord>(a: T, b: T) -> [u64; 3] {
    [pattern(a.and(b)), pattern(a.or(b)), pattern(a.xor(b))]
}

/// Whether a word moves up and down to those words.
fn moves<T: BitWord>(word: T, by: u32, up: T, down: T) -> bool {
    by < T::BITS && word.shift_left(by) == up && word.shift_right(by) == down
}

#[test]
fn pairs_of_bytes() {
    for (a, b) in [
        (0_u8, 255_u8),
        (12, 10),
        (0b1010_1010, 0b0110_0110),
        (128, 129),
    ] {
        let wanted = [(a & b) as u64, (a | b) as u64, (a ^ b) as u64];
        assert!(pairs(a, b) == wanted, "of {a} and {b}");
        let signed = pairs(a.cast_signed(), b.cast_signed());
        assert!(signed == wanted, "of {a} and {b} with a sign");
    }
}

fn moves_byte(word: i8, by: u32, up: i8, down: i8) -> bool {
    moves(word, by, up, down)
}

/// Whether 200 moves by 3 places, without a sign.
fn moves_unsigned_byte() -> bool {
    moves(200_u8, 3, 64, 25)
}

/// Whether the greatest and the least word of 64 bits move by 63 places.
fn move_long_words() -> [bool; 2] {
    [moves(u64::MAX, 63, 1 << 63, 1), moves(i64::MIN, 63, 0, -1)]
}

#[test]
fn shifts() {
    let [greatest, least] = move_long_words();
    all_hold(
        "shift",
        &[
            ("-120 by 3", moves_byte(-120, 3, 64, -15)),
            ("-1 by 7", moves_byte(-1, 7, -128, -1)),
            ("5 by 1", moves_byte(5, 1, 10, 2)),
            ("-128 by 0", moves_byte(-128, 0, -128, -128)),
            ("200 by 3", moves_unsigned_byte()),
            ("the greatest by 63", greatest),
            ("the least by 63", least),
        ],
    );
}

#[test]
fn longer_words() {
    let written = BitWord::to_be_bytes(0x1234_i16) == [0x12, 0x34]
        && BitWord::to_le_bytes(0x1234_u16) == [0x34, 0x12]
        && BitWord::to_be_bytes(-2_i32) == [255, 255, 255, 254];
    let low_first = <u32 as BitWord>::from_le_bytes([1, 2, 3, 4]);
    let high_first = <i64 as BitWord>::from_be_bytes([255, 0, 0, 0, 0, 0, 0, 1]);
    all_hold(
        "longer word",
        &[
            ("bytes of a word", written),
            ("from bytes, low first", low_first == 0x0403_0201),
            (
                "from bytes, high first",
                high_first == -0x00ff_ffff_ffff_ffff,
            ),
            (
                "swapped bytes",
                BitWord::swap_bytes(0x1234_5678_i32) == 0x7856_3412,
            ),
            ("reversed bits", BitWord::reverse_bits(1_u64) == 1 << 63),
            (
                "rotated left",
                BitWord::rotate_left(0x8000_0001_u32, 33) == 3,
            ),
            ("rotated right", BitWord::rotate_right(1_i16, 17) == -0x8000),
            ("leading zeros", BitWord::leading_zeros(1_u16) == 15),
            ("trailing zeros", BitWord::trailing_zeros(0_i64) == 64),
        ],
    );
}
