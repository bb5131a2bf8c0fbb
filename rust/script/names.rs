//! The names of crates, which are modules of one crate here. The front crate `fixed` is the package itself.

use crate::edits::{Edits, bytes};
use crate::items::Source;
use crate::modules::{STRICT, place};
use crate::tokens::{Kind, Token};

/// How the names of crates are written in a crate.
pub struct Names<'a> {
    pub krate: &'a str,
    pub is_library: bool,
}

impl Names<'_> {
    /// The edits for the names of crates in paths, and in the links of docs.
    pub fn edit(&self, source: &Source, edits: &mut Edits) {
        for (at, token) in source.tokens.iter().enumerate() {
            let is_path = source.sign(at + 1) == ":" && source.sign(at + 2) == ":";
            let place = bytes(source, &(at..at + 1));
            match token.kind {
                Kind::Comment => edits.replace(place, &self.comment(token)),
                // Crates that take memory have what the proved language has by itself.
                _ if is_path && token.text == "std" && source.sign(at + 3) == "alloc" => {
                    edits.replace(bytes(source, &(at..at + 4)), "crate::memory");
                }
                _ if is_path => edits.replace(place, &self.name(token.text)),
                _ => {}
            }
        }
    }

    /// The name of a crate at the front of a path; other names stay.
    fn name(&self, name: &str) -> String {
        // The strict forms know the numbers by the module where each number has to fit.
        let numbers = if STRICT.contains(&self.krate) {
            "stopping"
        } else {
            "num"
        };
        match name.strip_prefix("fixed_") {
            Some("num") => format!("crate::{numbers}"),
            Some(other) => format!("crate::{}", place(other)),
            None => match name {
                "crate" => format!("crate::{}", place(self.krate)),
                "fixed" => "crate".to_string(),
                "std" if self.is_library => "core".to_string(),
                _ => name.to_string(),
            },
        }
    }

    fn comment(&self, comment: &Token) -> String {
        let text = comment
            .text
            .replace("](crate::", &format!("](crate::{}::", place(self.krate)));
        text.replace("](fixed_", "](crate::")
    }
}
