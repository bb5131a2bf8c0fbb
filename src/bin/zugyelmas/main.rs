//! The calculator: the proved sources, compiled by rustc. It runs a script from standard input: its answers go to
//! standard output, and the line of what stopped it to standard error. With the words `demo N` it runs a script of
//! N lines of its own making, and writes a summary.
//!
//! usage: zugyelmas [demo N]

#![forbid(unsafe_code)]
// The code that is included is the proved source's own, in the forms of which its proofs speak.
#![allow(clippy::single_match)]

mod prog;

use prog::{StdErrors, StdSink, StdSource};
use std::process::ExitCode;
use std::{env, io};
use zugyelmas::calc;
use zugyelmas::memory::Global;

/// The words of the command line. Where one is no text, one empty word stands for them, which is no form of the
/// command.
fn words() -> Vec<String> {
    let words: Result<_, _> = env::args_os()
        .skip(1)
        .map(|word| word.into_string())
        .collect();
    words.unwrap_or_else(|_| vec![String::new()])
}

fn main() -> ExitCode {
    let mut source = StdSource::new(io::stdin().lock());
    let mut sink = StdSink::new(io::stdout().lock());
    let mut errors = StdErrors::new(io::stderr().lock());
    let status = calc::calc_main(Global, &words(), &mut source, &mut sink, &mut errors);
    ExitCode::from(status.code())
}
