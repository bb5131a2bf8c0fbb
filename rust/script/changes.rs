//! Forms that Rust writes otherwise, by a table; and derives, attributes and the names of crates.

use crate::edits::{Edits, bytes};
use crate::items::Source;
use crate::tokens::code;

/// What a source has, and what Rust has in its place.
const CHANGES: &str = include_str!("changes.txt");

/// The attributes that speak to the prover, or of what Rust does not have.
const DROPPED: [&str; 2] = ["tactic", "error"];

/// The derives that Rust does not have.
const UNKNOWN: [&str; 2] = ["Drop", "Error"];

/// The edits for forms that Rust writes otherwise.
pub fn change(source: &Source, edits: &mut Edits) {
    let rows = rows();
    let mut at = 0;
    while at < source.tokens.len() {
        let end = attribute(source, at, edits).or_else(|| form(source, at, &rows, edits));
        at = end.unwrap_or(at + 1);
    }
}

/// The rows of the table: the signs of the old form, whether a space goes with it, and the new form.
fn rows() -> Vec<(Vec<&'static str>, bool, &'static str)> {
    let columns = CHANGES
        .lines()
        .map(|line| line.split('`').collect::<Vec<_>>());
    let rows = columns.filter_map(|columns| match columns[..] {
        [_, old, _, new, _] => Some((code(old), old.ends_with(' '), new)),
        _ => None,
    });
    rows.collect()
}

/// Changes a form that begins at a token, if one does, and says where it ends.
fn form(
    source: &Source,
    at: usize,
    rows: &[(Vec<&str>, bool, &str)],
    edits: &mut Edits,
) -> Option<usize> {
    let begins = |old: &[&str]| (at..).zip(old).all(|(at, sign)| source.sign(at) == *sign);
    let (old, has_space, new) = rows.iter().find(|(old, ..)| begins(old))?;
    let end = at + old.len();
    let mut bytes = bytes(source, &(at..end));
    let goes_with_space = *has_space && source.text[bytes.end..].starts_with(' ');
    bytes.end += usize::from(goes_with_space);
    match new.is_empty() && !goes_with_space {
        true => edits.remove(source, at..end),
        false => edits.replace(bytes, new),
    }
    Some(end)
}

/// Drops an attribute or some of its derives, if one begins at a token, and says where it ends.
fn attribute(source: &Source, at: usize, edits: &mut Edits) -> Option<usize> {
    let name = at + 2 + usize::from(source.sign(at + 1) == "!");
    if source.sign(at) != "#" || source.sign(name - 1) != "[" {
        return None;
    }
    let end = source.group_end(name - 1).ok()?;
    if DROPPED.contains(&source.sign(name)) {
        edits.remove(source, at..end);
    }
    if source.sign(name) == "derive" {
        let names = source.code(&(name + 2..end - 2));
        let known = names
            .iter()
            .filter(|name| **name != "," && !UNKNOWN.contains(name));
        let mut known: Vec<&str> = known.copied().collect();
        // One that begins with Copy has its Clone by hand, and that goes.
        if known.first() == Some(&"Copy") {
            known.insert(0, "Clone");
        }
        match known.is_empty() {
            true => edits.remove(source, at..end),
            false => edits.replace(bytes(source, &(name + 2..end - 2)), &known.join(", ")),
        }
    }
    Some(end)
}
