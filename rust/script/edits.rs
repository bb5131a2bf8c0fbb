//! Changes of a source. What no edit names stays letter for letter.

use crate::items::Source;
use std::cmp::Reverse;
use std::ops::Range;

/// The changes of a source: bytes, and what is there instead.
#[derive(Default)]
pub struct Edits {
    edits: Vec<(Range<usize>, String)>,
}

impl Edits {
    pub fn replace(&mut self, bytes: Range<usize>, text: &str) {
        self.edits.push((bytes, text.to_string()));
    }

    pub fn insert(&mut self, at: usize, text: &str) {
        self.replace(at..at, text);
    }

    /// Removes tokens, with their lines where nothing else stands on them.
    pub fn remove(&mut self, source: &Source, tokens: Range<usize>) {
        let bytes = bytes(source, &tokens);
        let before = source.text[..bytes.start].trim_end_matches(' ');
        let is_whole = before.is_empty() || before.ends_with('\n');
        let bytes = match source.text[bytes.end..].starts_with('\n') {
            true if is_whole => before.len()..bytes.end + 1,
            _ => bytes,
        };
        self.replace(bytes, "");
    }

    /// The source with its changes. An edit inside of what another one replaces goes with it.
    pub fn applied(mut self, text: &str) -> String {
        // What is inserted comes first, and then what replaces most.
        self.edits
            .sort_by_key(|(bytes, _)| (bytes.start, !bytes.is_empty(), Reverse(bytes.end)));
        let mut out = String::new();
        let mut at = 0;
        for (bytes, new) in self.edits {
            if bytes.start >= at {
                out += &text[at..bytes.start];
                out += &new;
                at = bytes.end;
            }
        }
        out + &text[at..]
    }
}

/// The bytes of tokens, of which there is at least one.
pub fn bytes(source: &Source, tokens: &Range<usize>) -> Range<usize> {
    source.tokens[tokens.start].at..source.tokens[tokens.end - 1].end()
}
