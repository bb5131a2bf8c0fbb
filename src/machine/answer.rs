// Made by `make package` of crates/fixed_machine/src/answer.rt, which is proved: changes go there.

//! The text of an answer, written at the end of a buffer with room.

use crate::digits::decimal_before;
use crate::machine::register::{Signed, with_sign};
use crate::memory::Vec;
use crate::text::push_all;

/// The answer of a line: no value, the destination's bits, or its bits and the verdict of the overflowing policy, which
/// is true if the exact result does not fit.
#[derive(Clone, Copy, Debug, PartialEq, Eq)]
pub enum Answer {
    Absent,
    Bits(i128),
    Flagged(i128, bool),
}

/// An answer whose number is a sign and a magnitude.
#[derive(Clone, Copy, Debug, PartialEq, Eq)]
pub(crate) enum SignedAnswer {
    Absent,
    Bits(Signed),
    Flagged(Signed, bool),
}

impl SignedAnswer {
    /// Returns the answer with its number in one.
    pub(crate) fn into_answer(self) -> Answer {
        match self {
            SignedAnswer::Absent => Answer::Absent,
            SignedAnswer::Bits(bits) => Answer::Bits(with_sign(bits.below_zero, bits.magnitude)),
            SignedAnswer::Flagged(bits, verdict) => {
                Answer::Flagged(with_sign(bits.below_zero, bits.magnitude), verdict)
            }
        }
    }
}

/// How many bytes are written for an answer at once. Those after its text are removed again.
pub(crate) const SPARE: usize = 32;

/// Where the digits of a number end in its text.
const DIGITS_END: usize = 24;

/// Writes a number before what follows it, and returns where it begins.
#[inline(always)]
fn put_signed(n: Signed, text: &mut [u8; 56]) -> usize {
    let start = decimal_before(n.magnitude, text, DIGITS_END);
    // No number but 0 begins with a 0, and 0 has no minus.
    if n.below_zero && text[start] != b'0' {
        let at = start - 1;
        text[at] = b'-';
        at
    } else {
        start
    }
}

/// Adds the front of a text: all of the text is copied, and the rest removed.
#[inline(always)]
fn push_front(out: &mut Vec<u8>, text: &[u8], count: usize) {
    let end = out.len() + count;
    push_all(out, text);
    out.truncate(end);
}

/// Writes what follows a number at its place.
#[inline(always)]
fn put_tail(tail: &[u8; 8], text: &mut [u8; 56]) {
    text[DIGITS_END..DIGITS_END + 8].copy_from_slice(tail);
}

/// Adds a number, and `count` bytes of what follows it in the text.
#[inline(always)]
fn push_before(out: &mut Vec<u8>, text: &mut [u8; 56], n: Signed, count: usize) {
    let start = put_signed(n, text);
    push_front(out, &text[start..start + SPARE], DIGITS_END - start + count);
}

/// Adds a number and the first `count` bytes of `tail`.
#[inline(always)]
fn push_number(out: &mut Vec<u8>, text: &mut [u8; 56], n: Signed, tail: &[u8; 8], count: usize) {
    put_tail(tail, text);
    push_before(out, text, n, count);
}

/// Adds the text of an answer. `text` is scratch space for its number.
#[inline(always)]
pub(crate) fn push_answer(out: &mut Vec<u8>, text: &mut [u8; 56], answer: SignedAnswer) {
    match answer {
        SignedAnswer::Absent => push_all(out, b"none\n"),
        SignedAnswer::Bits(n) => push_number(out, text, n, b"\n.......", 1),
        SignedAnswer::Flagged(n, verdict) => {
            if verdict {
                push_number(out, text, n, b" true\n..", 6);
            } else {
                push_number(out, text, n, b" false\n.", 7);
            }
        }
    }
}
