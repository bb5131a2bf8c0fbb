//! `#[must_use]` on each public call that returns a value and changes nothing: without its result such a call does
//! nothing.

use crate::edits::{Edits, bytes};
use crate::items::{Function, Item, Part, Source};

/// The edits that mark each such call of a source.
pub fn mark(source: &Source, edits: &mut Edits) {
    for item in &source.items {
        if let Part::Function(function) = &item.part {
            if is_public(source, item, function) && is_pure(source, function) {
                let start = bytes(source, &item.place).start;
                let before = &source.text[..start];
                let indent = " ".repeat(before.len() - before.trim_end_matches(' ').len());
                edits.insert(start, &format!("#[must_use]\n{indent}"));
            }
        }
    }
}

/// Whether users call a function by its own item. An implementation of a trait has the attribute from the trait.
fn is_public(source: &Source, item: &Item, function: &Function) -> bool {
    match item.block.map(|block| &source.items[block].part) {
        Some(Part::Trait(_)) => true,
        Some(Part::Impl(Some(_), _)) => false,
        _ => function.is_public,
    }
}

/// Whether a function returns a value, and has no operand that it could change. A `Result` has the attribute itself.
fn is_pure(source: &Source, function: &Function) -> bool {
    let parameters = source.code(&function.parameters);
    let is_changed = |signs: &[&str]| signs[1] == "mut" && signs[0].starts_with(['&', '\'']);
    let result = source.code(&(function.parameters.end..function.head_end));
    let is_value = result.starts_with(&["-", ">"]) && !result.contains(&"Result");
    is_value && !parameters.windows(2).any(is_changed)
}
