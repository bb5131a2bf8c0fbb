// Made by `make package` of crates/fixed_script/src/piece.rt, which is proved: changes go there.

//! The line and the header of a piece, which ends in a newline.

use crate::script::header::{Header, parse_header};
use crate::script::line::{Line, parse_line};
use crate::text::body_of;

/// Returns the line of a piece, or `None` if the piece is not the text of a line and a newline.
///
/// # Examples
///
/// ```
/// use zugyelmas::script::line_of_piece;
///
/// assert!(line_of_piece(b"r0 set 5\n").is_some());
/// assert!(line_of_piece(b"r0 set 5").is_none()); // no newline
/// ```
///
/// # Proved
///
/// ```text
/// ensures { ReadsLine piece.now result }
/// ```
///
/// Definitions: [`ReadsLine`].
///
/// [`ReadsLine`]: crate::definitions::script_read_pieces
#[must_use]
pub fn line_of_piece(piece: &[u8]) -> Option<Line> {
    match body_of(piece) {
        Some(body) => parse_line(body),
        None => None,
    }
}

/// Returns the header of a piece, or `None` if the piece is not the text of a header and a newline.
///
/// # Examples
///
/// ```
/// use zugyelmas::script::header_of_piece;
///
/// assert!(header_of_piece(b"i8 4\n").is_some());
/// assert!(header_of_piece(b"i8 4").is_none()); // no newline
/// ```
///
/// # Proved
///
/// ```text
/// ensures { ReadsHeader piece.now result }
/// ```
///
/// Definitions: [`ReadsHeader`].
///
/// [`ReadsHeader`]: crate::definitions::script_read_pieces
#[must_use]
pub fn header_of_piece(piece: &[u8]) -> Option<Header<'_>> {
    match body_of(piece) {
        Some(body) => parse_header(body),
        None => None,
    }
}
