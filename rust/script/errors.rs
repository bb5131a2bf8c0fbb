//! What the derive of `thiserror` writes in the proved language: the message of each variant of an error.

use crate::items::Source;

/// `Display` and `Error` of each type of a file that derives `Error`. A field in a message is one without a name in an
/// enum, and one with a name in a struct.
pub fn errors(source: &Source) -> String {
    let ends = 0..source.tokens.len();
    let derives = ends.filter(|at| source.sign(*at) == "derive" && source.sign(at - 1) == "[");
    derives
        .filter_map(|derive| messages(source, derive))
        .collect()
}

/// The same of the type behind a derive, if it derives `Error`.
fn messages(source: &Source, derive: usize) -> Option<String> {
    let end = source.group_end(derive + 1).ok()?;
    if !source.code(&(derive..end)).contains(&"Error") {
        return None;
    }
    let word =
        (end..source.tokens.len()).find(|at| ["enum", "struct"].contains(&source.sign(*at)))?;
    let name = source.sign(word + 1);
    let arms: String = if source.sign(word) == "enum" {
        let end = source.group_end(word + 2).ok()?;
        (word..end).filter_map(|at| arm(source, at)).collect()
    } else {
        (end..word).find_map(|at| message_of_struct(source, at))?
    };
    Some(format!(
        "
impl core::fmt::Display for {name} {{
    fn fmt(&self, f: &mut core::fmt::Formatter<'_>) -> core::fmt::Result {{
        match self {{
{arms}        }}
    }}
}}

impl core::error::Error for {name} {{}}
"
    ))
}

/// The arm of the variant behind a message, `#[error("..")]`, whose word stands at a token.
fn arm(source: &Source, at: usize) -> Option<String> {
    if source.sign(at) != "error" || source.sign(at - 1) != "[" {
        return None;
    }
    let message = source.sign(at + 2);
    let variant = source.sign(at + 5);
    let (field, argument) = match message.contains("{0}") {
        true => ("0: field, ", ", field"),
        false => ("", ""),
    };
    Some(format!(
        "            Self::{variant} {{ {field}.. }} => write!(f, {message}{argument}),\n"
    ))
}

/// The one arm of a struct, whose message, `#[error("..")]`, has its word at a token.
fn message_of_struct(source: &Source, at: usize) -> Option<String> {
    if source.sign(at) != "error" || source.sign(at - 1) != "[" {
        return None;
    }
    let message = source.sign(at + 2);
    let named = message
        .split('{')
        .skip(1)
        .filter_map(|rest| rest.split('}').next());
    let fields: String = named.map(|field| format!("{field}, ")).collect();
    Some(format!(
        "            Self {{ {fields}.. }} => write!(f, {message}),\n"
    ))
}
