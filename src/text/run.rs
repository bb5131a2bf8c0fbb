// Made by `make package` of crates/fixed_text/src/run.rt, which is proved: changes go there.

//! The loop that all runs share.

use crate::memory::Global;
#[cfg(any(feature = "calc", feature = "runs"))]
use crate::text::fault::{LineFault, RunFault};
use crate::text::names::WordName;
#[cfg(any(feature = "calc", feature = "runs"))]
use crate::text::output::Output;
use crate::text::pieces::{body_of, piece_end};
use crate::word::{RawWord, Valued, Word};

/// The state of a run, which each line changes.
pub trait Run: Sized {
    /// Takes a line, without its newline: changes the state and adds what the line prints. Fails with
    /// `LineFault::Unformed` if the line is malformed, and with `LineFault::Unfit` if a number in it is out of range.
    /// Whatever the line is, it may fail with `LineFault::Wanting`, if memory runs out.
    ///
    /// # Examples
    ///
    /// ```
    /// use zugyelmas::memory::Global;
    /// use zugyelmas::text::{Output, LineFault, Run, RunFault, read_word, run_lines};
    /// struct Sum(u64);
    /// impl Run for Sum {
    ///     fn step(&mut self, bytes: &[u8], output: &mut Output) -> Result<(), LineFault> {
    ///         let number: u64 = read_word(bytes)?;
    ///         self.0 = self.0.checked_add(number).ok_or(LineFault::Unfit)?;
    ///         output.append_natural(self.0).map_err(|_| LineFault::Wanting)?;
    ///         output.append(b"\n").map_err(|_| LineFault::Wanting)
    ///     }
    /// }
    ///
    /// let (mut sum, mut output) = (Sum(1), Output::new(Global));
    /// assert_eq!(sum.step(b"2", &mut output), Ok(()));
    /// assert_eq!(output.as_bytes(), b"3\n");
    /// assert_eq!(sum.step(b"x", &mut output), Err(LineFault::Unformed));
    /// ```
    ///
    /// # Proved
    ///
    /// ```text
    /// ensures { IsStepOfLine (line self.old bytes.now) result self.new output.old output.new }
    /// ```
    ///
    /// Definitions: [`IsStepOfLine`].
    ///
    /// [`IsStepOfLine`]: crate::definitions::text_answers
    fn step(&mut self, bytes: &[u8], output: &mut Output) -> Result<(), LineFault>;
}

/// Returns the first piece of a script, without its newline, and the bytes after it. Returns `None` if the script is
/// empty or its first piece has no newline.
///
/// # Examples
///
/// ```
/// use zugyelmas::text::open;
///
/// let opened = open(b"poly i16 8\ncoefs 1\n");
/// assert_eq!(opened, Some((&b"poly i16 8"[..], &b"coefs 1\n"[..])));
/// assert_eq!(open(b"poly i16 8"), None); // no newline
/// ```
///
/// # Proved
///
/// ```text
/// ensures { MatchOption result (body (slice_index_or (pieces script.now) 0 []) ≡ None)
///     (λ found. (body (slice_index_or (pieces script.now) 0 []) ≡ Some found.0.now)
///     × (drop 1 (pieces script.now) ≡ pieces found.1.now)) }
/// ```
///
/// Definitions: [`body`], [`pieces`].
///
/// [`body`]: crate::definitions::word_pieces
/// [`pieces`]: crate::definitions::word_pieces
#[must_use]
pub fn open(script: &[u8]) -> Option<(&[u8], &[u8])> {
    if script.is_empty() {
        return None;
    }
    let end = piece_end(script);
    match body_of(&script[..end]) {
        Some(header) => Some((header, &script[end..])),
        None => None,
    }
}

/// Takes a piece as a line. A piece without a newline is malformed.
fn line_piece<R: Run>(
    run: &mut R,
    piece: &[u8],
    number: u64,
    output: &mut Output,
) -> Result<(), RunFault> {
    match body_of(piece) {
        Some(bytes) => match run.step(bytes, output) {
            Ok(()) => Ok(()),
            Err(LineFault::Unformed) => Err(RunFault::Syntax(number)),
            Err(LineFault::Unfit) => Err(RunFault::OutOfRange(number)),
            Err(LineFault::Wanting) => Err(RunFault::Memory),
        },
        None => Err(RunFault::Syntax(number)),
    }
}

/// Returns what the lines of a script print, which are the pieces from 2 on, or their first fault. Whatever the lines
/// are, it may fail with `RunFault::Memory`, if memory runs out.
///
/// # Examples
///
/// ```
/// use zugyelmas::memory::Global;
/// use zugyelmas::text::{Output, LineFault, Run, RunFault, read_word, run_lines};
/// struct Sum(u64);
/// impl Run for Sum {
///     fn step(&mut self, bytes: &[u8], output: &mut Output) -> Result<(), LineFault> {
///         let number: u64 = read_word(bytes)?;
///         self.0 = self.0.checked_add(number).ok_or(LineFault::Unfit)?;
///         output.append_natural(self.0).map_err(|_| LineFault::Wanting)?;
///         output.append(b"\n").map_err(|_| LineFault::Wanting)
///     }
/// }
///
/// let output = run_lines(Global, Sum(0), b"1\n2\n").expect("numbers");
/// assert_eq!(output.as_bytes(), b"1\n3\n");
/// let fault = run_lines(Global, Sum(0), b"1\nx\n").err();
/// assert_eq!(fault, Some(RunFault::Syntax(3))); // the header is piece 1
/// ```
///
/// # Proved
///
/// ```text
/// ensures { IsAnswerOfRun (meaning_of (lines_from (line_by R.line) run 2 (pieces lines.now))) result }
/// ```
///
/// Definitions: [`pieces`], [`lines_from`], [`meaning_of`], [`line_by`], [`IsAnswerOfRun`].
///
/// [`pieces`]: crate::definitions::word_pieces
/// [`lines_from`]: crate::definitions::text_runs
/// [`meaning_of`]: crate::definitions::text_runs
/// [`line_by`]: crate::definitions::text_readings
/// [`IsAnswerOfRun`]: crate::definitions::text_answers
pub fn run_lines<R: Run>(alloc: Global, mut run: R, lines: &[u8]) -> Result<Output, RunFault> {
    let mut output = Output::new(alloc);
    let mut at = 0;
    let mut number = 2;
    while at < lines.len() {
        let rest = &lines[at..];
        let end = piece_end(rest);
        match line_piece(&mut run, &rest[..end], number, &mut output) {
            Ok(()) => at += end,
            Err(fault) => return Err(fault),
        }
        number += 1;
    }
    Ok(output)
}

/// A header, by which a run goes on in the word that it names.
pub trait InWord {
    /// Returns what the lines after the header print in this word, or the first fault.
    ///
    /// # Examples
    ///
    /// ```
    /// use zugyelmas::memory::Global;
    /// use zugyelmas::text::{InWord, Output, RunFault, WordName};
    /// use zugyelmas::word::Word;
    /// struct Least;
    /// impl InWord for Least {
    ///     fn run_in<T: Word>(self, alloc: Global, _lines: &[u8]) -> Result<Output, RunFault> {
    ///         let mut output = Output::new(alloc);
    ///         output.append_word(T::MIN).map_err(|_| RunFault::Memory)?;
    ///         Ok(output)
    ///     }
    /// }
    ///
    /// let output = Least.run_in::<i8>(Global, b"").expect("memory");
    /// assert_eq!(output.as_bytes(), b"-128");
    /// ```
    ///
    /// # Proved
    ///
    /// ```text
    /// ensures { IsAnswerOfRun (meaning self lines.now T.SIGNED T.BITS) result }
    /// ```
    ///
    /// Definitions: [`IsAnswerOfRun`].
    ///
    /// [`IsAnswerOfRun`]: crate::definitions::text_answers
    fn run_in<T: Word>(self, alloc: Global, lines: &[u8]) -> Result<Output, RunFault>;
}

impl WordName {
    /// Returns what the lines after the header print in the word with this name, or the first fault.
    ///
    /// # Examples
    ///
    /// ```
    /// use zugyelmas::memory::Global;
    /// use zugyelmas::text::{InWord, Output, RunFault, WordName};
    /// use zugyelmas::word::Word;
    /// struct Least;
    /// impl InWord for Least {
    ///     fn run_in<T: Word>(self, alloc: Global, _lines: &[u8]) -> Result<Output, RunFault> {
    ///         let mut output = Output::new(alloc);
    ///         output.append_word(T::MIN).map_err(|_| RunFault::Memory)?;
    ///         Ok(output)
    ///     }
    /// }
    ///
    /// let output = WordName::I16.in_word(Least, Global, b"").expect("memory");
    /// assert_eq!(output.as_bytes(), b"-32768");
    /// ```
    ///
    /// # Proved
    ///
    /// ```text
    /// ensures { IsAnswerOfRun (H.meaning header lines.now (is_signed self) (width self)) result }
    /// ```
    ///
    /// Definitions: [`IsAnswerOfRun`], [`is_signed`], [`width`].
    ///
    /// [`IsAnswerOfRun`]: crate::definitions::text_answers
    /// [`is_signed`]: crate::definitions::text_words
    /// [`width`]: crate::definitions::text_words
    pub fn in_word<H: InWord>(
        self,
        header: H,
        alloc: Global,
        lines: &[u8],
    ) -> Result<Output, RunFault> {
        match self {
            WordName::I8 => header.run_in::<i8>(alloc, lines),
            WordName::I16 => header.run_in::<i16>(alloc, lines),
            WordName::I32 => header.run_in::<i32>(alloc, lines),
            WordName::I64 => header.run_in::<i64>(alloc, lines),
            WordName::U8 => header.run_in::<u8>(alloc, lines),
            WordName::U16 => header.run_in::<u16>(alloc, lines),
            WordName::U32 => header.run_in::<u32>(alloc, lines),
            WordName::U64 => header.run_in::<u64>(alloc, lines),
        }
    }
}
