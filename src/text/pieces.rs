// Made by `make package` of crates/fixed_text/src/pieces.rt, which is proved: changes go there.

//! Cutting a script after each newline.

use crate::text::tokens::first_place;

/// Returns where the first piece ends. Precondition: the script is not empty.
#[must_use]
pub fn piece_end(script: &[u8]) -> usize {
    match first_place(script, b'\n') {
        Some(at) => at + 1,
        None => script.len(),
    }
}

/// Returns the bytes before the newline of a piece, or `None` if the piece does not end in one.
#[must_use]
pub fn body_of(piece: &[u8]) -> Option<&[u8]> {
    match piece {
        [front @ .., b'\n'] => Some(front),
        _ => None,
    }
}
