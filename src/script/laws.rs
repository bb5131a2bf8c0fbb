// Made by `make package` of crates/fixed_script/src/laws.rt, which is proved: changes go there.

//! Laws of the text. These functions do nothing: the contract of each is the law.

/// Two lines with the same text are equal, and so are two headers and two whole numbers. The pieces of a script, joined
/// in order, are the script.
///
/// # Proved
///
/// ```text
/// ensures numbers { OneWholeNumber }
/// ensures lines { OneLine }
/// ensures headers { OneHeader }
/// ensures pieces { PiecesJoin }
/// ```
///
/// Definitions: [`OneHeader`], [`OneLine`], [`OneWholeNumber`], [`PiecesJoin`].
///
/// [`OneHeader`]: crate::definitions::script_text_laws
/// [`OneLine`]: crate::definitions::script_text_laws
/// [`OneWholeNumber`]: crate::definitions::script_text_laws
/// [`PiecesJoin`]: crate::definitions::script_text_laws
pub fn text_law() {}

/// The model reads bytes as a line, or as a header, exactly if they are its text.
///
/// # Proved
///
/// ```text
/// ensures lines { ReadsLines }
/// ensures headers { ReadsHeaders }
/// ```
///
/// Definitions: [`ReadsHeaders`], [`ReadsLines`].
///
/// [`ReadsHeaders`]: crate::definitions::script_lines
/// [`ReadsLines`]: crate::definitions::script_lines
pub fn reading_law() {}
