// Made by `make package` of crates/fixed_filter/src/filter_script.rt, which is proved: changes go there.

//! The run of a script.

#[cfg(feature = "runs")]
use crate::filter::bank::Bank;
#[cfg(feature = "runs")]
use crate::filter::fault::FilterFault;
#[cfg(feature = "runs")]
use crate::filter::header::{FilterHeader, read_header};
use crate::filter::reply::Reply;
use crate::filter::shape::Shape;
use crate::memory::Vec;
use crate::memory::{AllocError, Global};
use crate::text::{
    InWord, LineFault, Output, Run, RunFault, Tokens, fitting, open, read_numbered,
    read_only_number, read_words, run_lines,
};
use crate::word::{RawWord, Valued, Word};

/// The bank of a run, how many samples each channel has taken, and whether any channel has taken one.
struct FilterRun<T: Word> {
    alloc: Global,
    begun: bool,
    bank: Bank<T>,
    counts: Vec<u64>,
}

/// Adds the text of the reply to a channel's sample, which has this number. Fails if memory runs out.
fn append_reply<T: Word>(
    output: &mut Output,
    channel: usize,
    number: u64,
    reply: Reply<T>,
) -> Result<(), AllocError> {
    match reply {
        Reply::Value(value) => output.append_word_and(value, b'\n'),
        Reply::Overflow(tap) => append_overflow(output, channel, number, tap),
    }
}

/// Adds the text of an overflow: the channel, the number of its sample, and the tap. Fails if memory runs out.
fn append_overflow(
    output: &mut Output,
    channel: usize,
    number: u64,
    tap: usize,
) -> Result<(), AllocError> {
    output.append(b"overflow ")?;
    output.append_natural(channel as u64)?;
    output.append(b" ")?;
    output.append_natural(number)?;
    output.append(b" ")?;
    output.append_natural(tap as u64)?;
    output.append(b"\n")
}

impl<T: Word> FilterRun<T> {
    /// Adds a channel with these taps. Fails if memory runs out. Precondition: there is a tap.
    fn add_channel(&mut self, taps: &[T]) -> Result<(), AllocError> {
        self.counts.push(0)?;
        self.bank.add_channel(taps)?;
        Ok(())
    }

    /// Adds the channel whose taps the tokens write. Fails with `LineFault::Unformed` if the tokens are malformed or a
    /// channel has taken a sample, and with `LineFault::Unfit` if a tap does not fit.
    fn take_taps(&mut self, tokens: Tokens<'_>) -> Result<(), LineFault> {
        if tokens.is_empty() || self.begun {
            return Err(LineFault::Unformed);
        }
        match read_words::<T>(self.alloc, tokens) {
            Ok(taps) => match self.add_channel(&taps) {
                Ok(()) => Ok(()),
                Err(_) => Err(LineFault::Wanting),
            },
            Err(refusal) => Err(refusal),
        }
    }

    /// Returns the index of the channel with this number, or `None` if there is no such channel.
    fn place(&self, channel: u128) -> Option<usize> {
        let count = self.bank.channels() as u128;
        if channel < count {
            Some(channel as usize)
        } else {
            None
        }
    }

    /// Gives a channel a sample, and returns the number of the sample and the reply to it. A channel takes fewer
    /// samples than a script has bytes, so the count never wraps. Precondition: the channel exists.
    fn push(&mut self, channel: usize, sample: T) -> (u64, Reply<T>) {
        let number = self.counts[channel];
        self.begun = true;
        self.counts[channel] = number.wrapping_add(1);
        let reply = self.bank.push(channel, sample);
        (number, reply)
    }

    /// Gives a channel a sample and adds the text of the reply. Precondition: the channel exists.
    fn answer(&mut self, channel: usize, sample: T, output: &mut Output) -> Result<(), LineFault> {
        let (number, reply) = self.push(channel, sample);
        match append_reply(output, channel, number, reply) {
            Ok(()) => Ok(()),
            Err(_) => Err(LineFault::Wanting),
        }
    }

    /// Gives a channel the sample that the tokens write, and adds the text of the reply. Fails with `LineFault::Unformed`
    /// if the tokens are malformed, and with `LineFault::Unfit` if the channel does not exist or the sample does not fit.
    fn take_sample(
        &mut self,
        channel: u128,
        tokens: Tokens<'_>,
        output: &mut Output,
    ) -> Result<(), LineFault> {
        let Some(number) = read_only_number(tokens) else {
            return Err(LineFault::Unformed);
        };
        let Some(place) = self.place(channel) else {
            return Err(LineFault::Unfit);
        };
        match fitting(&number) {
            Ok(sample) => self.answer(place, sample, output),
            Err(refusal) => Err(refusal),
        }
    }
}

impl<T: Word> Run for FilterRun<T> {
    fn step(&mut self, bytes: &[u8], output: &mut Output) -> Result<(), LineFault> {
        let mut tokens = Tokens::new(bytes);
        let Some(name) = tokens.take() else {
            return Err(LineFault::Unformed);
        };
        if name == b"taps".as_slice() {
            self.take_taps(tokens)
        } else {
            match read_numbered(b'c', name) {
                Some(channel) => self.take_sample(channel, tokens, output),
                None => Err(LineFault::Unformed),
            }
        }
    }
}

/// Returns what the lines after the header print, for a word and a shape, or their first fault. Precondition: each
/// number of fraction bits is at most the width.
fn run_shape<T: Word>(alloc: Global, shape: Shape, lines: &[u8]) -> Result<Output, RunFault> {
    let run = FilterRun::<T> {
        alloc,
        begun: false,
        bank: Bank::new(alloc, shape),
        counts: Vec::new(alloc),
    };
    run_lines(alloc, run, lines)
}

impl InWord for FilterHeader {
    fn run_in<T: Word>(self, alloc: Global, lines: &[u8]) -> Result<Output, RunFault> {
        let most = u128::from(T::BITS);
        if self.out > most || self.coef > most || self.sample > most {
            return Err(RunFault::OutOfRange(1));
        }
        let shape = Shape {
            out_frac: self.out as u32,
            coef_frac: self.coef as u32,
            sample_frac: self.sample as u32,
        };
        run_shape::<T>(alloc, shape, lines)
    }
}

/// Runs a script of filters and returns what it prints. Its first line is `filter W F G H`: a word, and the numbers of
/// fraction bits of outputs, taps and samples. `taps N N ..`, with at least one number, adds a channel with these taps,
/// in bits; the first channel is number 0. `cJ N` gives channel J the sample N, in bits, and prints the bits of the
/// output. If the output does not fit, the line prints `overflow J I T` instead: this is sample I of channel J, and T
/// is the first tap whose partial sum does not fit. Samples and taps are numbered from 0.
///
/// The first faulty piece is reported by its number. `Syntax` means that the piece is malformed, has no newline, or
/// adds a channel after a sample; an empty script is reported as piece 1. `OutOfRange` means that a number of fraction
/// bits exceeds the width, that a tap or a sample does not fit, or that the channel does not exist. Whatever the script
/// is, the run may fail with `Memory`, if memory runs out, and then returns no bytes.
///
/// # Examples
///
/// ```
/// use zugyelmas::filter::{FilterFault, filter_run};
/// use zugyelmas::memory::Global;
///
/// let output = filter_run(Global, b"filter i8 0 0 0\ntaps 100 1\nc0 1\nc0 2\nc0 0\n");
/// // 200 does not fit
/// assert_eq!(output.expect("a script").as_bytes(), b"100\noverflow 0 1 0\n2\n");
/// let fault = filter_run(Global, b"filter i8 0 0 0\ntaps\n").err();
/// assert_eq!(fault, Some(FilterFault::Syntax(2)));
/// ```
///
/// # Proved
///
/// ```text
/// ensures { IsAnswerOfRun (filter_output script.now) result }
/// ```
///
/// Definitions: [`IsAnswerOfRun`], [`filter_output`].
///
/// [`IsAnswerOfRun`]: crate::definitions::text_answers
/// [`filter_output`]: crate::definitions::filter_runs
pub fn filter_run(alloc: Global, script: &[u8]) -> Result<Output, FilterFault> {
    let Some((piece, lines)) = open(script) else {
        return Err(FilterFault::Syntax(1));
    };
    match read_header(piece) {
        Some(header) => header.word.in_word(header, alloc, lines),
        None => Err(FilterFault::Syntax(1)),
    }
}
