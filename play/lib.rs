//! The calculator and decimal text for a page of the web, which calls them by WebAssembly.
//!
//! The page asks for room ([`request_room`]), writes a request there as text, calls [`run_script`] or
//! [`read_decimal`], and reads the reply, which is text too ([`reply`], [`reply_length`]). All arithmetic is that of
//! the proved sources. This file cuts requests into parts and puts replies together.

use std::cell::RefCell;
use zugyelmas::calc::{Cause, Line, Room, WordName, parse_line, run_in};
use zugyelmas::decimal::{DecimalError, decimal_of, exact_places, write_decimal};
use zugyelmas::memory::Global;
use zugyelmas::text::word_of;
use zugyelmas::word::{Rounding, Side, Word};

thread_local! {
    static REQUEST: RefCell<Vec<u8>> = const { RefCell::new(Vec::new()) };
    static REPLY: RefCell<String> = const { RefCell::new(String::new()) };
}

/// Returns room for a request of so many bytes, or null if there is no memory.
#[unsafe(no_mangle)]
pub extern "C" fn request_room(length: usize) -> *mut u8 {
    REQUEST.with_borrow_mut(|request| {
        request.clear();
        if request.try_reserve_exact(length).is_err() {
            return std::ptr::null_mut();
        }
        request.resize(length, 0);
        request.as_mut_ptr()
    })
}

/// Returns where the reply begins.
#[unsafe(no_mangle)]
pub extern "C" fn reply() -> *const u8 {
    REPLY.with_borrow(|reply| reply.as_ptr())
}

/// Returns how many bytes the reply has.
#[unsafe(no_mangle)]
pub extern "C" fn reply_length() -> usize {
    REPLY.with_borrow(|reply| reply.len())
}

/// Runs the request as a script. The first line of the reply is `ok`, or the cause and its line (`overflow 3`), or
/// `memory`. Each further line is the answer of a line before the cause, and the exact value of its bits.
#[unsafe(no_mangle)]
pub extern "C" fn run_script() {
    REPLY.set(REQUEST.with_borrow(|script| script_reply(script)));
}

/// Reads the request as a decimal in a format. The request is `WORD FRACTION ROUNDING TEXT`, with the rounding `down`,
/// `zero` or `even`. The reply is `fits BITS VALUE` with the exact value of the bits, or `above` or `below` if the
/// number is out of range, or else why the text is no decimal.
#[unsafe(no_mangle)]
pub extern "C" fn read_decimal() {
    let reply = REQUEST.with_borrow(|request| decimal_reply(request));
    REPLY.set(reply.unwrap_or_else(|| String::from("no request")));
}

fn script_reply(script: &[u8]) -> String {
    let Ok(mut room) = Room::for_script(Global, script) else {
        return String::from("memory\n");
    };
    let mut reply = match run_in(script, &mut room) {
        Ok(()) => String::from("ok\n"),
        Err(cause) => {
            let (name, line) = named(cause);
            format!("{name} {line}\n")
        }
    };
    let lines = script.split(|byte| *byte == b'\n').skip(1);
    let answers = String::from_utf8_lossy(room.answers());
    for (line, answer) in lines.zip(answers.lines()) {
        reply += answer;
        if let Some(value) = value_of_answer(&room, line, answer) {
            reply.push(' ');
            reply += &value;
        }
        reply.push('\n');
    }
    reply
}

/// The cause by its name, and its line.
fn named(cause: Cause) -> (&'static str, u64) {
    match cause {
        Cause::Syntax(line) => ("syntax", line),
        Cause::OutOfRange(line) => ("out-of-range", line),
        Cause::FractionMismatch(line) => ("fraction-mismatch", line),
        Cause::ZeroDivisor(line) => ("zero-divisor", line),
        Cause::NegativeRoot(line) => ("negative-root", line),
        Cause::Overflow(line) => ("overflow", line),
    }
}

/// The exact value of an answer, unless it is `none`.
fn value_of_answer(room: &Room, line: &[u8], answer: &str) -> Option<String> {
    let bits = answer.split(' ').next()?.parse().ok()?;
    let frac = room.fraction_at(destination(line)?);
    Some(exact_text(bits, frac))
}

/// The register that a line writes.
fn destination(line: &[u8]) -> Option<usize> {
    let dest = match parse_line(line)? {
        Line::Set { dest, .. }
        | Line::One { dest, .. }
        | Line::Two { dest, .. }
        | Line::Int { dest, .. }
        | Line::Three { dest, .. } => dest,
    };
    usize::try_from(dest).ok()
}

/// All digits of a number of `2^-frac` units. Each number of a word is a `u64` or an `i64`.
fn exact_text(bits: i128, frac: u32) -> String {
    match u64::try_from(bits) {
        Ok(bits) => exact_text_of(bits, frac),
        Err(_) => exact_text_of(bits as i64, frac),
    }
}

fn exact_text_of<T: Word>(bits: T, frac: u32) -> String {
    let mut buffer = [0; 86];
    let places = exact_places(bits, frac);
    let start = write_decimal(bits, frac, places, Rounding::Even, &mut buffer);
    String::from_utf8_lossy(&buffer[start..]).into_owned()
}

fn decimal_reply(request: &[u8]) -> Option<String> {
    let mut parts = request.splitn(4, |byte| *byte == b' ');
    let word = word_of(parts.next()?)?;
    let frac = std::str::from_utf8(parts.next()?).ok()?.parse().ok()?;
    let rounding = rounding_of(parts.next()?)?;
    let text = parts.next()?;
    match word {
        WordName::I8 => reading::<i8>(text, frac, rounding),
        WordName::I16 => reading::<i16>(text, frac, rounding),
        WordName::I32 => reading::<i32>(text, frac, rounding),
        WordName::I64 => reading::<i64>(text, frac, rounding),
        WordName::U8 => reading::<u8>(text, frac, rounding),
        WordName::U16 => reading::<u16>(text, frac, rounding),
        WordName::U32 => reading::<u32>(text, frac, rounding),
        WordName::U64 => reading::<u64>(text, frac, rounding),
    }
}

fn rounding_of(name: &[u8]) -> Option<Rounding> {
    match name {
        b"down" => Some(Rounding::Down),
        b"zero" => Some(Rounding::Zero),
        b"even" => Some(Rounding::Even),
        _ => None,
    }
}

/// The reply for a decimal in a word. None if there are more fraction bits than the word has bits.
fn reading<T: Word + std::fmt::Display>(
    text: &[u8],
    frac: u32,
    rounding: Rounding,
) -> Option<String> {
    if frac > T::BITS {
        return None;
    }
    Some(match decimal_of::<T>(text, frac, rounding) {
        Err(error) => String::from(why_no_decimal(error)),
        Ok(outcome) => match outcome.side {
            Side::Below => String::from("below"),
            Side::Above => String::from("above"),
            Side::Fits => {
                let bits = outcome.wrapped;
                format!("fits {bits} {}", exact_text_of(bits, frac))
            }
        },
    })
}

fn why_no_decimal(error: DecimalError) -> &'static str {
    match error {
        DecimalError::NoDigits => "no digits",
        DecimalError::InvalidDigit(_) => "invalid digit",
        DecimalError::TooManyPoints => "more than one point",
        DecimalError::Inexact => "inexact",
        DecimalError::Overflow => "overflow",
    }
}
