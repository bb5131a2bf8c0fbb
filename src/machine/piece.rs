// Made by `make package` of crates/fixed_machine/src/piece.rt, which is proved: changes go there.

//! One piece of a script.

use crate::machine::answer::SignedAnswer;
use crate::machine::cause::Cause;
use crate::machine::register::Register;
use crate::machine::stepping::step_registers;
use crate::script::line_of_piece;
use crate::text::WordName;

/// Runs one piece on the registers. Returns its answer, or its cause, which leaves the registers unchanged.
pub(crate) fn read_and_step(
    word: WordName,
    registers: &mut [Register],
    piece: &[u8],
    number: u64,
) -> Result<SignedAnswer, Cause> {
    match line_of_piece(piece) {
        Some(line) => step_registers(word, registers, &line, number),
        None => Err(Cause::Syntax(number)),
    }
}
