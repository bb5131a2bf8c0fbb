// Made by `make package` of crates/fixed_interval/src/interval_script.rt, which is proved: changes go there.

//! The run of a script.

#[cfg(feature = "runs")]
use crate::interval::fault::IntervalFault;
#[cfg(feature = "runs")]
use crate::interval::header::{IntervalHeader, read_header};
use crate::interval::interval::Interval;
#[cfg(feature = "runs")]
use crate::interval::line::{Request, read_line};
#[cfg(feature = "runs")]
use crate::interval::op::IntervalOp;
use crate::interval::products::mul_in;
use crate::interval::quotients::div_in;
use crate::interval::roots::sqrt_in;
use crate::interval::sums::{add_in, sub_in};
use crate::memory::Vec;
use crate::memory::{AllocError, Global};
use crate::text::{Decimal, InWord, LineFault, Output, Run, RunFault, open, run_lines, value_in};
use crate::word::{Valued, Word};

/// A run has at most this many registers.
const MOST_REGISTERS: u128 = 1_000_000;

/// The registers of a run.
struct IntervalRun<T: Word> {
    frac: u32,
    registers: Vec<Interval<T>>,
}

/// Prints an interval: both ends, separated by one space, and a newline.
fn append_ends<T: Word>(output: &mut Output, interval: &Interval<T>) -> Result<(), AllocError> {
    output.append_word_and(interval.lo(), b' ')?;
    output.append_word_and(interval.hi(), b'\n')
}

/// Returns `count` copies of an interval.
fn copies<T: Word>(
    alloc: Global,
    count: usize,
    interval: Interval<T>,
) -> Result<Vec<Interval<T>>, AllocError> {
    let mut all = Vec::new(alloc);
    all.resize(count, interval)?;
    Ok(all)
}

/// Returns `count` registers from 0 to 0.
fn zeros<T: Word>(alloc: Global, count: usize) -> Result<Vec<Interval<T>>, AllocError> {
    let registers = copies(alloc, count, Interval::zero())?;
    Ok(registers)
}

/// Returns the place of a register among `count`, or `None` if it is not one of these.
fn place_in(register: u128, count: usize) -> Option<usize> {
    if register < count as u128 {
        Some(register as usize)
    } else {
        None
    }
}

/// Returns the result of an operation on two intervals. Precondition: `frac` is at most the width.
fn made_of<T: Word>(
    op: IntervalOp,
    x: &Interval<T>,
    y: &Interval<T>,
    frac: u32,
) -> Option<Interval<T>> {
    match op {
        IntervalOp::Add => add_in(x, y),
        IntervalOp::Sub => sub_in(x, y),
        IntervalOp::Mul => mul_in(x, y, frac),
        IntervalOp::Div => div_in(x, y, frac),
    }
}

/// Returns the interval of two given ends.
fn stated<T: Word>(low: &Decimal, high: &Decimal) -> Option<Interval<T>> {
    let low = value_in(low)?;
    let high = value_in(high)?;
    Interval::new(low, high)
}

impl<T: Word> IntervalRun<T> {
    /// Returns the place of a register, or `None` if the run does not have it.
    fn place(&self, register: u128) -> Option<usize> {
        place_in(register, self.registers.len())
    }

    /// Stores an interval in a register and prints it. If there is none, prints `none`.
    fn answer(
        &mut self,
        dest: usize,
        made: Option<Interval<T>>,
        output: &mut Output,
    ) -> Result<(), LineFault> {
        match made {
            Some(interval) => match append_ends(output, &interval) {
                Ok(()) => {
                    self.registers[dest] = interval;
                    Ok(())
                }
                Err(_) => Err(LineFault::Wanting),
            },
            None => match output.append(b"none\n") {
                Ok(()) => Ok(()),
                Err(_) => Err(LineFault::Wanting),
            },
        }
    }

    /// Returns the result of an operation on two registers.
    fn of_two(&self, op: IntervalOp, a: usize, b: usize) -> Option<Interval<T>> {
        made_of(op, &self.registers[a], &self.registers[b], self.frac)
    }

    /// Returns the root of a register.
    fn root(&self, a: usize) -> Option<Interval<T>> {
        let x = &self.registers[a];
        sqrt_in(x, self.frac)
    }

    /// Carries out a request.
    fn follow(
        &mut self,
        dest: usize,
        request: Request,
        output: &mut Output,
    ) -> Result<(), LineFault> {
        match request {
            Request::Set(low, high) => match stated(&low, &high) {
                Some(interval) => self.answer(dest, Some(interval), output),
                None => Err(LineFault::Unfit),
            },
            Request::Two(op, a, b) => {
                let Some(a) = self.place(a) else {
                    return Err(LineFault::Unfit);
                };
                let Some(b) = self.place(b) else {
                    return Err(LineFault::Unfit);
                };
                let made = self.of_two(op, a, b);
                self.answer(dest, made, output)
            }
            Request::Root(a) => {
                let Some(a) = self.place(a) else {
                    return Err(LineFault::Unfit);
                };
                let made = self.root(a);
                self.answer(dest, made, output)
            }
        }
    }
}

impl<T: Word> Run for IntervalRun<T> {
    fn step(&mut self, bytes: &[u8], output: &mut Output) -> Result<(), LineFault> {
        let Some(line) = read_line(bytes) else {
            return Err(LineFault::Unformed);
        };
        match self.place(line.dest) {
            Some(dest) => self.follow(dest, line.request, output),
            None => Err(LineFault::Unfit),
        }
    }
}

impl InWord for IntervalHeader {
    fn run_in<T: Word>(self, alloc: Global, lines: &[u8]) -> Result<Output, RunFault> {
        if self.frac > u128::from(T::BITS) || self.count < 1 || self.count > MOST_REGISTERS {
            return Err(RunFault::OutOfRange(1));
        }
        let registers = match zeros(alloc, self.count as usize) {
            Ok(registers) => registers,
            Err(_) => return Err(RunFault::Memory),
        };
        let run = IntervalRun::<T> {
            frac: self.frac as u32,
            registers,
        };
        run_lines(alloc, run, lines)
    }
}

/// Runs a script of intervals and returns what it prints. Its first line is `interval W F R`: a word, a number of
/// fraction bits, and a number of registers, which are from 0 to 0 at first. `iD set LO HI` stores two ends, in bits,
/// in register D. `iD add iA iB`, `iD sub iA iB`, `iD mul iA iB`, `iD div iA iB` and `iD sqrt iA` store the result of
/// the operation, whose operands are read first. Each line prints the ends that it stores. If an operation has no
/// result, or an end of it does not fit, the line prints `none` and the register does not change.
///
/// The first faulty piece is reported by its number. `Syntax` means that the piece is malformed. `OutOfRange` means
/// that the number of fraction bits exceeds the width, that the number of registers is not from 1 to 1,000,000, that a
/// register is not one of these, or that given ends do not fit or are in the wrong order. Whatever the script is, the
/// run may fail with `Memory`, if memory runs out, and then returns no bytes.
///
/// # Examples
///
/// ```
/// use zugyelmas::interval::{IntervalFault, interval_run};
/// use zugyelmas::memory::Global;
///
/// // 1 by 3 is 5.33.. units, which is rounded outward.
/// let output = interval_run(Global, b"interval i8 4 2\ni0 set 16 16\ni1 set 48 48\ni0 div i0 i1\n");
/// assert_eq!(output.expect("a script").as_bytes(), b"16 16\n48 48\n5 6\n");
/// let fault = interval_run(Global, b"interval i8 4 1\ni0 set 48 16\n").err();
/// assert_eq!(fault, Some(IntervalFault::OutOfRange(2))); // the ends are not in order
/// ```
///
/// # Proved
///
/// ```text
/// ensures { IsAnswerOfRun (interval_output script.now) result }
/// ```
///
/// Definitions: [`IsAnswerOfRun`], [`interval_output`].
///
/// [`IsAnswerOfRun`]: crate::definitions::text_answers
/// [`interval_output`]: crate::definitions::interval_runs
pub fn interval_run(alloc: Global, script: &[u8]) -> Result<Output, IntervalFault> {
    let Some((piece, lines)) = open(script) else {
        return Err(IntervalFault::Syntax(1));
    };
    match read_header(piece) {
        Some(header) => header.word.in_word(header, alloc, lines),
        None => Err(IntervalFault::Syntax(1)),
    }
}
