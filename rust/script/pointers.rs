//! Replaces the slices of exports by pointers and counts, since Rust does not state how a slice is passed to C.

use crate::edits::{Edits, bytes};
use crate::items::{Function, Item, Part, Source};
use std::collections::BTreeMap;
use std::ops::Range;

const WORDS: [&str; 8] = ["i8", "i16", "i32", "i64", "u8", "u16", "u32", "u64"];

/// The exports `fixed_WORD_NAME` that take slices, and the names of the slices.
const SLICES: [(&str, &[&str]); 15] = [
    ("parse", &["decimal"]),
    ("print", &["buffer"]),
    ("print_shortest", &["buffer"]),
    ("horner", &["coefs"]),
    ("filter", &["taps", "past"]),
    ("filter_block", &["taps", "past", "input", "output"]),
    ("neg_block", &["block"]),
    ("mul_int_block", &["block"]),
    ("scale_block", &["block"]),
    ("convert_block", &["block"]),
    ("add_block", &["block", "others"]),
    ("sub_block", &["block", "others"]),
    ("mul_block", &["block", "others"]),
    ("mul_add_block", &["block", "others"]),
    ("dot", &["a", "b"]),
];

/// The same for the exports that only signed words have.
const SIGNED_SLICES: [(&str, &[&str]); 1] = [("abs_block", &["block"])];

/// A slice that an export takes: its name, its whole parameter, its word, and whether the export writes it.
struct Slice<'a> {
    name: &'a str,
    parameter: Range<usize>,
    word: &'a str,
    is_written: bool,
}

/// Returns the source with a pointer and a count in place of each slice that an export takes. The export makes a slice
/// of them where it passes the slice on. Fails if a slice of the table is not found, or if an export takes another one.
pub fn with_pointers(files: BTreeMap<String, String>) -> Result<BTreeMap<String, String>, String> {
    let (mut changed, mut found) = (BTreeMap::new(), Vec::new());
    for (path, text) in files {
        let text = of_file(&text, &mut found)?;
        changed.insert(path, text);
    }
    let table = table();
    let missing = table.iter().find(|entry| !found.contains(entry));
    let other = found.iter().find(|entry| !table.contains(entry));
    match (missing, other) {
        (Some(entry), _) => Err(format!("fixed_c: nothing matches the slice {entry}")),
        (_, Some(entry)) => Err(format!(
            "fixed_c: a slice that is not in the table: {entry}"
        )),
        _ => Ok(changed),
    }
}

/// The same of a file. The slices that it found are added to others.
fn of_file(text: &str, found: &mut Vec<String>) -> Result<String, String> {
    let source = Source::new(text)?;
    let mut edits = Edits::default();
    for (name, function) in source.items.iter().filter_map(|item| export(&source, item)) {
        let at_export = |error| format!("fixed_c: {name}: {error}");
        for slice in slices(&source, function).map_err(at_export)? {
            change(&source, function, &slice, &mut edits).map_err(at_export)?;
            found.push(format!("{name}: {}", slice.name));
        }
    }
    Ok(edits.applied(text))
}

/// Returns the slices of the table, each after the name of its export.
fn table() -> Vec<String> {
    let of_word = |word: &str| {
        let signed: &[_] = if word.starts_with('i') { &SIGNED_SLICES } else { &[] };
        let entries = SLICES
            .iter()
            .chain(signed)
            .flat_map(|(name, slices)| slices.iter().map(move |slice| (name, slice)));
        let named = entries.map(|(name, slice)| format!("fixed_{word}_{name}: {slice}"));
        named.collect::<Vec<_>>()
    };
    WORDS.iter().flat_map(|word| of_word(word)).collect()
}

/// Returns the name and the parts of an item if it is a function that C calls.
fn export<'a, 'b>(source: &Source<'a>, item: &'b Item) -> Option<(&'a str, &'b Function)> {
    match &item.part {
        Part::Function(function) => {
            let modifiers = source.code(&(item.place.start..function.name));
            let is_export = modifiers.contains(&"extern");
            is_export.then(|| (source.sign(function.name), function))
        }
        _ => None,
    }
}

/// Returns the slices that an export takes. Fails if one has an unknown form.
fn slices<'a>(source: &Source<'a>, function: &Function) -> Result<Vec<Slice<'a>>, String> {
    let mut found = Vec::new();
    for open in (function.name..function.head_end).filter(|at| source.sign(*at) == "[") {
        let is_written = source.sign(open - 1) == "mut";
        let name = open - 3 - usize::from(is_written);
        let signs = source.code(&(name..open + 3));
        match signs[..] {
            [name_sign, ":", "&", "[", word, "]"]
            | [name_sign, ":", "&", "mut", "[", word, "]"] => found.push(Slice {
                name: name_sign,
                parameter: name..open + 3,
                word,
                is_written,
            }),
            _ => return Err(format!("a slice of no known form: {}", signs.join(" "))),
        }
    }
    Ok(found)
}

/// Replaces the parameter, and the only use of the slice in the body. Fails if the body does not use it exactly once.
fn change(
    source: &Source,
    function: &Function,
    slice: &Slice,
    edits: &mut Edits,
) -> Result<(), String> {
    let Slice { name, word, .. } = slice;
    let (pointer, call) = if slice.is_written {
        ("*mut", "slice_mut")
    } else {
        ("*const", "slice")
    };
    let mut uses = function.body.clone().filter(|at| source.sign(*at) == *name);
    let (Some(used), None) = (uses.next(), uses.next()) else {
        return Err(format!("{name} is not used once"));
    };
    let parameter = format!("{name}: {pointer} {word}, {name}_count: usize");
    edits.replace(bytes(source, &slice.parameter), &parameter);
    let whole = format!("unsafe {{ crate::{call}({name}, {name}_count) }}");
    edits.replace(bytes(source, &(used..used + 1)), &whole);
    Ok(())
}
