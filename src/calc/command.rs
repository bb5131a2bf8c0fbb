// Made by `make package` of crates/fixed_calc/src/command.rt, which is proved: changes go there.

//! What the words of the command line request.

use crate::digits::natural_of;
use crate::memory::String;

/// A demonstration has at least this many lines.
const FEWEST: u128 = 1;

/// A demonstration has at most this many lines.
const MOST: u128 = 1_000_000;

/// What the words request.
#[derive(Clone, Copy, Debug, PartialEq, Eq)]
pub(crate) enum Command {
    /// There are no words: a script is read and run, and its answers are written.
    Script,
    /// The words are `demo N`: a script of N lines is made, run and summed up.
    Demo(u32),
}

/// Returns whether a demonstration may have so many lines.
fn is_line_count(number: u128) -> bool {
    FEWEST <= number && number <= MOST
}

/// Returns the number of lines that a word requests, or `None` if the word is not the decimal of one that is allowed.
fn lines_of(word: &[u8]) -> Option<u32> {
    let Some(number) = natural_of(word) else {
        return None;
    };
    if is_line_count(number) {
        Some(number as u32)
    } else {
        None
    }
}

/// Returns what the words request, or `None` if they are not a form of the command.
pub(crate) fn command_of(words: &[String]) -> Option<Command> {
    match words {
        [] => Some(Command::Script),
        [name, number] => {
            if name.as_bytes() != b"demo".as_slice() {
                return None;
            }
            match lines_of(number.as_bytes()) {
                Some(lines) => Some(Command::Demo(lines)),
                None => None,
            }
        }
        _ => None,
    }
}
