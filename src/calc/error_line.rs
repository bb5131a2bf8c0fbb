// Made by `make package` of crates/fixed_calc/src/error_line.rt, which is proved: changes go there.

//! The line that is written to the errors, made without allocation.

use crate::calc::short_text::ShortText;
use crate::calc::status::Status;
use crate::calc::writing::write_all;
use crate::machine::Cause;
use crate::stream::Sink;

fn cause_text(number: u64, words: &[u8]) -> ShortText {
    let mut text = ShortText::new();
    text.push(b"line ");
    text.push_number(number);
    text.push(words);
    text
}

fn plain_text(words: &[u8]) -> ShortText {
    let mut text = ShortText::new();
    text.push(words);
    text
}

fn cause_line(cause: Cause) -> ShortText {
    match cause {
        Cause::Syntax(number) => cause_text(number, b": syntax\n"),
        Cause::OutOfRange(number) => cause_text(number, b": out of range\n"),
        Cause::FractionMismatch(number) => cause_text(number, b": fraction mismatch\n"),
        Cause::ZeroDivisor(number) => cause_text(number, b": zero divisor\n"),
        Cause::NegativeRoot(number) => cause_text(number, b": negative root\n"),
        Cause::Overflow(number) => cause_text(number, b": overflow\n"),
    }
}

/// Returns the line for a status, which is empty for `Done`.
fn error_line_of(status: Status) -> ShortText {
    match status {
        Status::Done => ShortText::new(),
        Status::Script(cause) => cause_line(cause),
        Status::Usage => plain_text(b"usage: fixed_prog [demo N]\n"),
        Status::ReadFault => plain_text(b"read fault\n"),
        Status::WriteFault => plain_text(b"write fault\n"),
        Status::TooLong => plain_text(b"too long\n"),
        Status::Memory => plain_text(b"out of memory\n"),
    }
}

/// Writes the line for a status to the errors, until all of it is taken or a write is refused.
pub(crate) fn write_error_line<E: Sink>(status: Status, errors: &mut E) {
    let _told = write_all(error_line_of(status).as_bytes(), errors);
}
