// Made by `make package` of crates/fixed_poly/src/poly_script.rt, which is proved: changes go there.

//! The run of a script.

use crate::memory::Vec;
use crate::memory::{AllocError, Global};
use crate::poly::evaluation::horner_of;
#[cfg(feature = "runs")]
use crate::poly::fault::PolyFault;
#[cfg(feature = "runs")]
use crate::poly::header::{PolyHeader, read_header};
use crate::poly::reply::PolyReply;
use crate::text::{
    InWord, LineFault, Output, Run, RunFault, Tokens, fitting, open, read_only_number, read_words,
    run_lines,
};
use crate::word::{RawWord, Valued, Word};

/// The coefficients of the current polynomial, of which there are none before the first `coefs` line.
struct PolyRun<T: Word> {
    alloc: Global,
    frac: u32,
    coefs: Vec<T>,
}

/// Adds the text of a reply: the decimal of the bits, or `overflow` and the step; and a newline. Fails if memory runs
/// out.
fn append_reply<T: Word>(output: &mut Output, reply: PolyReply<T>) -> Result<(), AllocError> {
    match reply {
        PolyReply::Value(value) => output.append_word_and(value, b'\n'),
        PolyReply::Overflow(step) => {
            output.append(b"overflow ")?;
            output.append_natural(step as u64)?;
            output.append(b"\n")
        }
    }
}

impl<T: Word> PolyRun<T> {
    /// Replaces the coefficients by those that the tokens write. Fails with `LineFault::Unformed` if the tokens are
    /// malformed, and with `LineFault::Unfit` if a coefficient does not fit.
    fn take_coefs(&mut self, tokens: Tokens<'_>) -> Result<(), LineFault> {
        if tokens.is_empty() {
            return Err(LineFault::Unformed);
        }
        match read_words(self.alloc, tokens) {
            Ok(coefs) => {
                self.coefs = coefs;
                Ok(())
            }
            Err(refusal) => Err(refusal),
        }
    }

    /// Adds the text of the reply at the point that the tokens write. Fails with `LineFault::Unformed` if the tokens are
    /// malformed or there are no coefficients, and with `LineFault::Unfit` if the point does not fit.
    fn answer(&self, tokens: Tokens<'_>, output: &mut Output) -> Result<(), LineFault> {
        let Some(number) = read_only_number(tokens) else {
            return Err(LineFault::Unformed);
        };
        if self.coefs.is_empty() {
            return Err(LineFault::Unformed);
        }
        match fitting(&number) {
            Ok(x) => match append_reply(output, horner_of(&self.coefs, x, self.frac)) {
                Ok(()) => Ok(()),
                Err(_) => Err(LineFault::Wanting),
            },
            Err(refusal) => Err(refusal),
        }
    }
}

impl<T: Word> Run for PolyRun<T> {
    fn step(&mut self, bytes: &[u8], output: &mut Output) -> Result<(), LineFault> {
        let mut tokens = Tokens::new(bytes);
        let Some(name) = tokens.take() else {
            return Err(LineFault::Unformed);
        };
        if name == b"coefs".as_slice() {
            self.take_coefs(tokens)
        } else if name == b"at".as_slice() {
            self.answer(tokens, output)
        } else {
            Err(LineFault::Unformed)
        }
    }
}

impl InWord for PolyHeader {
    fn run_in<T: Word>(self, alloc: Global, lines: &[u8]) -> Result<Output, RunFault> {
        if self.frac > u128::from(T::BITS) {
            return Err(RunFault::OutOfRange(1));
        }
        let run = PolyRun::<T> {
            alloc,
            frac: self.frac as u32,
            coefs: Vec::new(alloc),
        };
        run_lines(alloc, run, lines)
    }
}

/// Runs a script of polynomials and returns what it prints. Its first line is `poly W F`: a word and a number of
/// fraction bits. `coefs N N ..`, with at least one number, replaces the polynomial by the one with these coefficients,
/// in bits, the lowest first. `at N` prints the bits of its value at the point N, in bits. If the value of a step does
/// not fit, the line prints `overflow I` instead, where I is the index of the coefficient that the first such step
/// adds.
///
/// The first faulty piece is reported by its number. `Syntax` means that the piece is malformed, has no newline, or has
/// a point before the first polynomial; an empty script is reported as piece 1. `OutOfRange` means that the number of
/// fraction bits exceeds the width, or that a coefficient or a point does not fit. Whatever the script is, the run may
/// fail with `Memory`, if memory runs out, and then returns no bytes.
///
/// # Examples
///
/// ```
/// use zugyelmas::memory::Global;
/// use zugyelmas::poly::{PolyFault, poly_run};
///
/// // 1 + x/2 + x^2/4 at 1/2, with 8 fraction bits, is 1.3125.
/// let output = poly_run(Global, b"poly i16 8\ncoefs 256 128 64\nat 128\n");
/// assert_eq!(output.expect("a script").as_bytes(), b"336\n");
/// let fault = poly_run(Global, b"poly i8 4\ncoefs 128\n").err();
/// assert_eq!(fault, Some(PolyFault::OutOfRange(2)));
/// ```
///
/// # Proved
///
/// ```text
/// ensures { IsAnswerOfRun (poly_output script.now) result }
/// ```
///
/// Definitions: [`IsAnswerOfRun`], [`poly_output`].
///
/// [`IsAnswerOfRun`]: crate::definitions::text_answers
/// [`poly_output`]: crate::definitions::poly_runs
pub fn poly_run(alloc: Global, script: &[u8]) -> Result<Output, PolyFault> {
    let Some((piece, lines)) = open(script) else {
        return Err(PolyFault::Syntax(1));
    };
    match read_header(piece) {
        Some(header) => header.word.in_word(header, alloc, lines),
        None => Err(PolyFault::Syntax(1)),
    }
}
