//! The library's code and docs are the proved sources', letter for letter: file by file and in order, each sign of the
//! one is a sign of the other, but for what speaks to the prover, assertions, what docs say of contracts, and the names
//! of crates. What goes is said here once more, without the script's reading of items.

use script::modules::{CALCULATOR, FIRST, INSIDE, LIBRARY, SHARED, path_of};
use script::package::{Files, unformatted};
use script::tokens::{Kind, code, tokens};
use std::collections::BTreeMap;
use std::fs;
use std::path::Path;
use std::sync::OnceLock;

/// Forms of sources, and what Rust has in their place.
const FORMS: [(&str, &str); 13] = [
    ("use std::alloc::AllocError;", ""),
    ("std::alloc", "crate::memory"),
    ("std::num::{nearest_i64_to_f32", "crate::casts::{nearest_i64_to_f32"),
    ("Valued: Copy {", "Valued: Copy + crate::sealed::Sealed {"),
    ("Binary: Copy {", "Binary: Copy + crate::sealed::Sealed {"),
    ("type Unsigned: RawWord", "type Unsigned: UnsignedWord"),
    ("type Signed: RawWord;", "type Signed: SignedWord;"),
    ("RawWord: Valued {", "RawWord: Valued + Eq + Ord + Hash {"),
    ("Run: Sized + Drop {", "Run: Sized {"),
    ("use std::marker::Model;", ""),
    ("use thiserror::Error;", ""),
    ("<W: fmt::Write>(", "("),
    ("fmt::Formatter<W>", "fmt::Formatter<'_>"),
];

/// The headings of docs that the script writes, which come last.
const HEADINGS: [&str; 4] = ["Examples", "Compile errors", "Panics", "Proved"];

/// A sign or a line of docs, and the file and the line where it stands.
struct Sign {
    text: String,
    place: String,
}

/// The signs and docs of a text, without other comments.
fn signs(path: &str, text: &str) -> Vec<Sign> {
    let (mut at, mut line) = (0, 1);
    let mut found = Vec::new();
    for token in tokens(text) {
        line += text[at..token.at].matches('\n').count();
        at = token.at;
        let place = format!("{path}:{line}");
        if token.kind != Kind::Comment {
            let text = token.text.to_string();
            found.push(Sign { text, place });
        } else if token.text.starts_with("///") || token.text.starts_with("//!") {
            let text = without_links(token.text);
            found.push(Sign { text, place });
        }
    }
    found
}

/// A line of docs without the brackets and the targets of links.
fn without_links(line: &str) -> String {
    let mut parts = line.split("](");
    let first = parts.next().unwrap_or_default().to_string();
    let rest = parts.map(|part| part.split_once(')').map_or("", |(_, rest)| rest));
    let text = rest.fold(first, |text, rest| text + rest);
    text.trim_end().replace(['[', ']'], "")
}

/// Whether signs begin with those of a text.
fn begin(signs: &[Sign], text: &str) -> bool {
    let is_first = signs
        .first()
        .is_some_and(|sign| text.starts_with(&sign.text));
    if !is_first {
        return false;
    }
    let text = code(text);
    signs.len() >= text.len() && signs.iter().zip(text).all(|(sign, text)| sign.text == text)
}

/// How many signs there are up to the first of some outside of brackets, that one among them. What has brackets ends
/// with them where `}` is one of the signs.
fn length(signs: &[Sign], ends: &[&str]) -> usize {
    let mut depth = 0;
    let last = signs.iter().position(|sign| {
        match sign.text.as_str() {
            "(" | "[" | "{" => depth += 1,
            ")" | "]" | "}" => depth -= 1,
            _ => {}
        }
        depth == 0 && ends.contains(&sign.text.as_str())
    });
    last.expect("an end") + 1
}

/// How many signs speak to the prover.
fn ghost(signs: &[Sign]) -> usize {
    let first = signs[0].text.as_str();
    match first {
        "ghost" => length(signs, &[";", ","]),
        "pub" if begin(signs, "pub ghost") => length(signs, &[";", ","]),
        "requires" | "ensures" => length(signs, &["}"]),
        "#" if ["#[tactic(", "#![tactic(", "#[error("]
            .iter()
            .any(|form| begin(signs, form)) =>
        {
            length(signs, &["]"])
        }
        "impl" => {
            let head = signs
                .iter()
                .position(|sign| sign.text == "{")
                .expect("a block");
            let of_prover = |pair: &[Sign]| begin(pair, "Clone for") || begin(pair, "Model for");
            match signs[..head].windows(2).any(of_prover) {
                true => head + length(&signs[head..], &["}"]),
                false => 0,
            }
        }
        _ => 0,
    }
}

/// The derives that Rust has, of those that begin the signs; and how many signs there are.
fn derives(signs: &[Sign]) -> (String, usize) {
    let end = length(signs, &["]"]);
    let names = signs[4..end - 2].iter().map(|sign| sign.text.as_str());
    let mut names: Vec<&str> = names
        .filter(|name| ![",", "Drop", "Error"].contains(name))
        .collect();
    if names.first() == Some(&"Copy") {
        names.insert(0, "Clone");
    }
    match names.is_empty() {
        true => (String::new(), end),
        false => (format!("#[derive({})]", names.join(", ")), end),
    }
}

/// Whether a table of the script has a file of a crate.
fn is_of(table: &[&str], krate: &str, file: &Sign) -> bool {
    let path = format!("{krate}/{}", file.text);
    table.contains(&path.as_str())
}

/// What the library has to have of each file of a crate, from one on that names others, by their paths.
fn expected(krate: &str, file: &str, out: &mut BTreeMap<String, Vec<Sign>>) {
    let path = format!("crates/fixed_{krate}/src/{file}.rt");
    let text = fs::read_to_string(&path).expect("a source");
    let source = signs(&path, &text);
    let (mut first, mut signs_of) = (first_of(krate, file), Vec::new());
    let mut at = 0;
    while at < source.len() {
        let rest = &source[at..];
        let is_module = begin(rest, "mod") && rest[2].text == ";";
        if let Some(name) = first.take_if(|_| is_module) {
            signs_of.extend(signs(&path, &format!("mod {name};")));
        }
        let is_public_module = begin(rest, "pub mod") && rest[3].text == ";";
        if is_module || is_public_module {
            expected(krate, &rest[1 + usize::from(is_public_module)].text, out);
        }
        if is_module && first_of(krate, file) == Some(&rest[1].text) {
            at += 3;
            continue;
        }
        let (text, length) = replaced(krate, rest);
        signs_of.extend(signs("", &text).into_iter().map(|sign| Sign {
            place: rest[0].place.clone(),
            ..sign
        }));
        at += length;
    }
    signs_of.extend(signs(&path, &messages(&text)));
    out.insert(path_of(&format!("{krate}/{file}")), signs_of);
}

/// What the library has of errors beside their source: the message of each variant or struct, as `thiserror` writes it.
fn messages(text: &str) -> String {
    let mut structs: String = text
        .split(", Error)]\n#[error(")
        .skip(1)
        .map(of_struct)
        .collect();
    if let Some((_, of_enum)) = text.split_once(", Error)]\npub enum ") {
        let (name, body) = of_enum.split_once(" {\n").expect("a body");
        let (variants, _) = body.split_once("\n}").expect("its end");
        let arms: String = variants.split("#[error(").skip(1).map(message).collect();
        structs.push_str(&error(name, &arms));
    }
    structs
}

/// The impls of an error, with the arms that write its message.
fn error(name: &str, arms: &str) -> String {
    let display = "fn fmt(&self, f: &mut core::fmt::Formatter<'_>) -> core::fmt::Result";
    format!(
        "impl core::fmt::Display for {name} {{ {display} {{ match self {{ {arms} }} }} }}
        impl core::error::Error for {name} {{}}"
    )
}

/// The impls of a struct, from its message on, which names its fields.
fn of_struct(text: &str) -> String {
    let (message, rest) = text.split_once(")]\npub struct ").expect("a struct");
    let (name, _) = rest.split_once(" {").expect("a body");
    let fields = message
        .split('{')
        .skip(1)
        .map(|rest| rest.split('}').next().expect("a name"));
    let fields: String = fields.map(|field| format!("{field}, ")).collect();
    error(name, &format!("Self {{ {fields}.. }} => write!(f, {message}),"))
}

/// The arm of a variant, from its message on.
fn message(variant: &str) -> String {
    let (message, rest) = variant.split_once(")]\n").expect("a message");
    let name = rest.trim().split(['(', ',']).next().expect("a name");
    match message.contains("{0}") {
        true => format!("Self::{name} {{ 0: field, .. }} => write!(f, {message}, field),"),
        false => format!("Self::{name} {{ .. }} => write!(f, {message}),"),
    }
}

/// The module that comes first in a crate, if a file begins one that has such a module.
fn first_of(krate: &str, file: &str) -> Option<&'static str> {
    let (of, name) = FIRST.split_once('/').expect("a file of a crate");
    (of == krate && file == "lib").then_some(name)
}

/// What Rust has in place of the first of some signs, and how many that are.
fn replaced(krate: &str, rest: &[Sign]) -> (String, usize) {
    let gone = ghost(rest);
    if gone > 0 {
        return (String::new(), gone);
    }
    if let Some((old, new)) = FORMS.iter().find(|(old, _)| begin(rest, old)) {
        return (new.to_string(), code(old).len());
    }
    let is_use = begin(rest, "pub use");
    match &rest[0].text {
        _ if begin(rest, "#[derive(") => derives(rest),
        _ if is_use && is_of(&INSIDE, krate, &rest[2]) => ("pub(crate)".to_string(), 1),
        _ if begin(rest, "pub mod") && is_of(&SHARED, krate, &rest[2]) => {
            ("pub(crate)".to_string(), 1)
        }
        name if begin(&rest[1..], "::") => (crate_name(krate, name), 1),
        sign => (sign.clone(), 1),
    }
}

/// The name of a crate in the library, where a path begins with one.
fn crate_name(krate: &str, name: &str) -> String {
    match name {
        "crate" => format!("crate::{krate}"),
        "std" => "core".to_string(),
        "fixed_num" if matches!(krate, "strict" | "math" | "natural" | "turns") => {
            "crate::stopping".to_string()
        }
        _ => name
            .strip_prefix("fixed_")
            .map_or(name.to_string(), |of| format!("crate::{of}")),
    }
}

/// The signs of the library, without the assertions of conditions.
fn written(path: &str, text: &str) -> Vec<Sign> {
    let all = signs(path, text);
    let mut kept = vec![true; all.len()];
    let mut at = 0;
    while at < all.len() {
        let added = added(&all[at..]);
        kept[at..at + added].fill(false);
        at += added.max(1);
    }
    let pairs = all.into_iter().zip(kept);
    pairs
        .filter(|(_, kept)| *kept)
        .map(|(sign, _)| sign)
        .collect()
}

/// Whether signs begin with what the script adds to docs: a blank line and a heading.
fn begins_docs(signs: &[Sign]) -> bool {
    let heading = signs
        .get(1)
        .and_then(|sign| sign.text.strip_prefix("/// # "));
    signs[0].text == "///" && heading.is_some_and(|heading| HEADINGS.contains(&heading))
}

/// How many signs the script adds.
fn added(signs: &[Sign]) -> usize {
    if begins_docs(signs) {
        let is_docs = |sign: &&Sign| sign.text.starts_with("///");
        return signs.iter().take_while(is_docs).count();
    }
    let cfgs = ["any(feature = \"calc\", feature = \"runs\")", "feature = \"runs\""];
    let cfgs = cfgs.map(|features| format!("#[cfg({features})]"));
    let imports = ["memory::String", "memory::Vec", "casts::CastSigned", "casts::CastUnsigned"];
    let imports = imports.map(|path| format!("use crate::{path};"));
    let attributes = ["#[track_caller]", "#[must_use]"].map(str::to_string);
    for attribute in attributes.iter().chain(&cfgs).chain(&imports) {
        if begin(signs, attribute) {
            return code(attribute).len();
        }
    }
    let is_assertion = ["const { assert!(", "assert!(", "debug_assert!("]
        .iter()
        .any(|form| begin(signs, form));
    let end = if is_assertion {
        length(signs, &[";"])
    } else {
        return 0;
    };
    let says = signs[..end]
        .iter()
        .any(|sign| sign.text.starts_with("\"precondition: "));
    if says { end } else { 0 }
}

/// A file of the package, by its path in `src`, before rustfmt. (`package.rs` tests that rustfmt makes of it what stands
/// there.)
fn text_of(path: &str) -> String {
    static FILES: OnceLock<Files> = OnceLock::new();
    let top = Path::new(env!("CARGO_MANIFEST_DIR"));
    let files = FILES.get_or_init(|| unformatted(top).expect("the sources are read"));
    files.get(&format!("src/{path}")).cloned().unwrap_or_default()
}

fn sources() -> BTreeMap<String, Vec<Sign>> {
    let mut all = BTreeMap::new();
    for krate in LIBRARY.iter().chain(&CALCULATOR) {
        expected(krate, "lib", &mut all);
    }
    all
}

/// Where a file and its source first differ.
fn difference_in(path: &str, all: &[Sign], text: &str) -> Option<String> {
    let written = written(path, text);
    let end = Sign {
        text: "the end".to_string(),
        place: String::new(),
    };
    let pairs = (0..all.len().max(written.len()))
        .map(|at| (all.get(at).unwrap_or(&end), written.get(at).unwrap_or(&end)));
    let mut differing = pairs.filter(|(source, written)| source.text != written.text);
    differing.next().map(|(source, written)| {
        format!(
            "{}: `{}`, and in {}: `{}`",
            source.place, source.text, written.place, written.text
        )
    })
}

#[test]
fn each_sign_is_that_of_the_sources() {
    for (path, all) in sources() {
        assert_eq!(difference_in(&path, &all, &text_of(&path)), None);
    }
}

/// What goes, what comes and what changes places is seen.
#[test]
fn planted_differences() {
    let sources = sources();
    let ticks = |path: &String| text_of(path).matches("steps.tick();\n").count();
    assert_eq!(sources.keys().map(ticks).sum::<usize>(), 32);
    let planted = |path: &str, old: &str, new: &str| {
        let text = text_of(path);
        assert!(text.contains(old), "{path}");
        difference_in(path, &sources[path], &text.replacen(old, new, 1)).unwrap_or_default()
    };
    let erased = planted("word/digits.rs", "steps.tick();\n", "\n");
    assert!(erased.contains("fixed_word/src/digits.rt"), "{erased}");
    let added = planted("word/digits.rs", "steps.tick();\n", "steps.tick(); steps.tick();\n");
    assert!(added.contains("fixed_word/src/digits.rt"), "{added}");
    let moved = planted("policy/mod.rs", "Checked, CheckedSigned", "CheckedSigned, Checked");
    assert!(moved.contains("fixed_policy/src/lib.rt"), "{moved}");
    let line = "    /// Returns the bits: the number in units of `2^-F`.\n";
    let docs = planted("num/format.rs", line, "");
    assert!(docs.contains("fixed_num/src/format.rt"), "{docs}");
    let cut = planted("policy/mod.rs", "};\npub use", "\npub use");
    assert!(cut.contains("fixed_policy/src/lib.rt"), "{cut}");
}

/// A strict conversion has no public clause that becomes an assertion: it stops by a line of `rust/script/added.txt`,
/// which has to hold in release builds too.
#[test]
fn strict_conversions_stop_in_every_build() {
    let text = text_of("cast/policies.rs");
    let start = text.find("fn strict_word<").expect("the function");
    let body: Vec<&str> = text[start..].lines().take(3).collect();
    assert!(
        body[1].trim_start().starts_with("assert!(outcome.side == crate::word::Side::Fits"),
        "{body:?}"
    );
}
