// Made by `make package` of crates/fixed_calc/src/summary.rt, which is proved: changes go there.

//! The summary of a demonstration.

use crate::calc::demo::demo_script;
use crate::calc::short_text::ShortText;
use crate::machine::{ScriptFault, run};
use crate::memory::{AllocError, Global};

/// So many bytes are counted at once.
const PART: usize = 60_000;

/// Returns how often a byte occurs in a text of fewer than `2^16` bytes. The count is a short word, so that the
/// compiler counts many bytes at once.
fn count_in_part(part: &[u8], byte: u8) -> u16 {
    let mut count = 0;
    for b in part {
        if *b == byte {
            count += 1;
        }
    }
    count
}

/// Returns how often a byte occurs in a text.
fn count_of(text: &[u8], byte: u8) -> usize {
    let mut count = 0;
    let mut at = 0;
    while at < text.len() {
        let end = at + (text.len() - at).min(PART);
        count += usize::from(count_in_part(&text[at..end], byte));
        at = end;
    }
    count
}

/// Returns the three lines of a summary.
fn summary_text(lines: u32, absent: usize, verdicts: usize) -> ShortText {
    let mut text = ShortText::new();
    text.push(b"lines ");
    text.push_number(u64::from(lines));
    text.push(b"\nnone ");
    text.push_number(absent as u64);
    text.push(b"\ntrue ");
    text.push_number(verdicts as u64);
    text.push(b"\n");
    text
}

/// Returns the summary of so many lines with these answers. Of all texts of answers, only `none` has an `o`, and only a
/// verdict that is true has a `t`.
fn summary_of(lines: u32, answers: &[u8]) -> ShortText {
    let absent = count_of(answers, b'o');
    let verdicts = count_of(answers, b't');
    summary_text(lines, absent, verdicts)
}

/// Makes a script of so many lines, runs it and returns the summary of its answers. Fails if memory runs out.
pub(crate) fn demo_summary(alloc: Global, lines: u32) -> Result<ShortText, AllocError> {
    let script = demo_script(alloc, lines)?;
    match run(alloc, script.as_bytes()) {
        Ok(answers) => Ok(summary_of(lines, answers.as_bytes())),
        Err(ScriptFault::Script(_)) => unreachable!(),
        Err(ScriptFault::Memory) => Err(AllocError),
    }
}
