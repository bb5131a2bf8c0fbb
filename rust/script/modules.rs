//! Crates as modules of Rust: each file becomes an inline module where its `mod` item stood.

use crate::attributes::mark;
use crate::conditions::Known;
use crate::edits::{Edits, bytes};
use crate::erasing::Erasing;
use crate::errors::errors;
use crate::items::{Item, Part, Source};
use crate::names::Names;
use crate::pages::Pages;
use crate::traits::{Traits, imports};
use std::collections::BTreeMap;
use std::ops::Range;
use std::path::Path;
use std::fs;

/// The crates of the library, lowest first, without the `fixed_` in front.
pub const LIBRARY: [&str; 26] = [
    "word",
    "bits",
    "root",
    "logs",
    "kernel",
    "elementary",
    "convert",
    "block",
    "digits",
    "text",
    "decimal",
    "num",
    "radix",
    "float",
    "cast",
    "policy",
    "strict",
    "math",
    "natural",
    "turns",
    "ops",
    "poly",
    "filter",
    "table",
    "interval",
    "enclosure",
];

/// The crates of the calculator, lowest first.
pub const CALCULATOR: [&str; 4] = ["stream", "script", "machine", "calc"];

/// The crates with strict forms, which stop in every build where a number does not fit.
pub const STRICT: [&str; 4] = ["strict", "math", "natural", "turns"];

/// The files that the library does not offer: their public calls are made by the proved code beside them alone.
pub const INSIDE: [&str; 12] = [
    "decimal/halves",
    "decimal/literal",
    "decimal/numeral",
    "decimal/tens",
    "digits/numerals",
    "digits/written",
    "filter/sample",
    "kernel/whole",
    "kernel/wide",
    "logs/exact",
    "text/added",
    "text/pieces",
];

/// The public modules that a crate has for other proved crates. The library offers of them what their crate offers by
/// `pub use`.
pub const SHARED: [&str; 3] = [
    "elementary/exponentials",
    "elementary/logarithms",
    "elementary/wide",
];

/// The files of the guide that take memory, which the tests of the library leave out.
pub const LEFT_OUT: [&str; 2] = ["guide/arriving", "guide/desk"];

/// The files that take memory, or serve the runs that do, and so are compiled with some features.
pub const GATED: [&str; 18] = [
    "filter/bank",
    "filter/channel",
    "filter/fault",
    "filter/header",
    "filter/filter_script",
    "interval/fault",
    "interval/header",
    "interval/line",
    "interval/op",
    "interval/interval_script",
    "poly/fault",
    "poly/header",
    "poly/poly_script",
    "text/added",
    "text/fault",
    "text/numbers",
    "text/output",
    "text/run",
];

/// The file whose module comes first in its crate, so that the page of `Fixed` begins with its calls.
pub const FIRST: &str = "num/format";

/// What the proved language has by itself, for files that take memory; and the casts of words, which std has from Rust
/// 1.87 on, by their calls.
const IMPORTS: [(&str, &str, &[&str]); 4] = [
    ("String", "crate::memory::String", &[]),
    ("Vec", "crate::memory::Vec", &[]),
    ("cast_signed", "crate::casts::CastSigned", &["."]),
    ("cast_unsigned", "crate::casts::CastUnsigned", &["."]),
];

/// With which features the files of `GATED` are compiled, by their crate. The calculator needs the text that it writes.
const FEATURES: [(&str, &str); 4] = [
    ("filter", "feature = \"runs\""),
    ("interval", "feature = \"runs\""),
    ("poly", "feature = \"runs\""),
    ("text", "any(feature = \"calc\", feature = \"runs\")"),
];

/// Crates, which are folders of `top`, as files of Rust, each by its path below the folder of the package's sources.
/// Where there are pages, the docs of calls have examples, and links to definitions.
pub fn written(
    top: &Path,
    crates: &[&str],
    pages: Option<&Pages>,
) -> Result<BTreeMap<String, String>, String> {
    let mut files = BTreeMap::new();
    for krate in crates {
        gather(top, krate, root(krate), &mut files)?;
    }
    let mut modules = Modules::default();
    for (name, file) in &files {
        let module = name.replace("/lib", "").replace('/', "::");
        let source = Source::new(&file.text).map_err(|error| file.named(&error))?;
        modules
            .traits
            .read(&module, &source)
            .map_err(|error| file.named(&error))?;
        modules.sources.insert(name, (file, source));
    }
    modules.pages = pages;
    let known = Known::new();
    let mut out = BTreeMap::new();
    let is_written = |name: &&String| !LEFT_OUT.contains(&name.as_str());
    for name in files.keys().filter(is_written) {
        out.insert(path_of(name), modules.written(name, &known)?);
    }
    let mut all = LIBRARY.iter().chain(&CALCULATOR);
    let is_whole = all.all(|krate| crates.contains(krate));
    let unused = known.unused().into_iter().filter(|_| is_whole);
    let unmatched: Vec<String> = unmatched(crates, &files).chain(unused).collect();
    if unmatched.is_empty() {
        Ok(out)
    } else {
        Err(unmatched.join("\n"))
    }
}

/// Where a file of a crate stands: `num/format` in `num/format.rs`, and what a crate begins with in `num/mod.rs`.
pub fn path_of(name: &str) -> String {
    let (krate, file) = name.split_once('/').unwrap_or((name, ""));
    let folder = place(krate).replace("::", "/");
    match file {
        "adapters" => format!("{folder}.rs"),
        "lib" => format!("{folder}/mod.rs"),
        file => format!("{folder}/{file}.rs"),
    }
}

/// The module of a crate: those of tests stand in one.
pub fn place(krate: &str) -> String {
    match krate.strip_prefix("tests_") {
        Some(of) => format!("tests::{of}"),
        None if krate == "guide" => "tests::guide".to_string(),
        None => krate.to_string(),
    }
}

/// With which features a file is compiled, if it is not with each.
fn features(name: &str) -> Option<&'static str> {
    let krate = name.split('/').next().unwrap_or_default();
    let of_crate = FEATURES.iter().find(|(of, _)| *of == krate);
    of_crate.filter(|_| GATED.contains(&name)).map(|(_, features)| *features)
}

/// The folder of a crate.
fn folder(krate: &str) -> String {
    format!("fixed_{krate}").replace("fixed_tests_", "tests_")
}

/// The file in which a crate begins.
fn root(krate: &str) -> &str {
    if krate == "prog" { "adapters" } else { "lib" }
}

/// The entries of tables that name no file of the crates.
fn unmatched<'a>(
    crates: &'a [&str],
    files: &'a BTreeMap<String, File>,
) -> impl Iterator<Item = String> + 'a {
    let entries = INSIDE.iter().chain(&SHARED).chain(&LEFT_OUT).chain(&GATED);
    let of_crates = entries.filter(|entry| {
        crates
            .iter()
            .any(|krate| entry.split('/').next() == Some(krate))
    });
    let missing = of_crates.filter(|entry| !files.contains_key(**entry));
    missing.map(|entry| format!("rust/script/modules.rs: no file {entry}"))
}

/// A file of a crate.
struct File {
    path: String,
    text: String,
}

impl File {
    /// An error with the path in front of its line.
    fn named(&self, error: &str) -> String {
        format!("{}:{error}", self.path)
    }
}

/// Reads a file of a crate, with those that it names.
fn gather(
    top: &Path,
    krate: &str,
    name: &str,
    files: &mut BTreeMap<String, File>,
) -> Result<(), String> {
    let path = format!("{}/{}/src/{name}.rt", top.display(), folder(krate));
    let text = fs::read_to_string(&path).map_err(|error| format!("{path}: {error}"))?;
    let source = Source::new(&text).map_err(|error| format!("{path}:{error}"))?;
    let key = format!("{krate}/{name}");
    let is_left_out = LEFT_OUT.contains(&key.as_str());
    for item in source.items.iter().filter(|_| !is_left_out) {
        if let Part::Module(module) = item.part {
            gather(top, krate, source.sign(module), files)?;
        }
    }
    let text = text.clone();
    files.insert(key, File { path, text });
    Ok(())
}

/// The files of crates.
#[derive(Default)]
struct Modules<'a> {
    sources: BTreeMap<&'a str, (&'a File, Source<'a>)>,
    traits: Traits,
    pages: Option<&'a Pages>,
}

impl Modules<'_> {
    /// A file in Rust.
    fn written(&self, name: &str, known: &Known) -> Result<String, String> {
        let (file, source) = self
            .sources
            .get(name)
            .ok_or_else(|| format!("no file {name}"))?;
        let krate = name.split('/').next().unwrap_or_default();
        let is_library = LIBRARY.contains(&krate) || CALCULATOR.contains(&krate);
        let is_offered = is_library && !INSIDE.contains(&name);
        let erasing = Erasing {
            source,
            file: name,
            known: is_offered.then_some(known),
            offered: SHARED.contains(&name).then(|| self.offered_of(name)),
            is_strict: STRICT.contains(&krate),
            traits: &self.traits,
            pages: self.pages,
        };
        let mut edits = erasing.edits().map_err(|error| file.named(&error))?;
        if is_library {
            mark(source, &mut edits);
        }
        if is_library && !["lib", "laws"].contains(&name.rsplit('/').next().unwrap_or_default()) {
            import(source, &mut edits);
        }
        self.modules(name, &mut edits)?;
        let names = Names { krate, is_library };
        names.edit(source, &mut edits);
        let text = edits.applied(&file.text) + &errors(source);
        let (folder, name) = (folder(krate), name.rsplit('/').next().unwrap_or_default());
        let head = format!("// Made by `make package` of crates/{folder}/src/{name}.rt, which is proved: changes go there.");
        Ok(format!("{head}\n\n{}", spaced(&text)))
    }

    /// The names that a crate offers of one of its files.
    fn offered_of(&self, name: &str) -> Vec<String> {
        let (krate, module) = name.split_once('/').unwrap_or((name, ""));
        let path = format!("{krate}/{}", root(krate));
        let Some((_, source)) = self.sources.get(path.as_str()) else {
            return Vec::new();
        };
        let is_of_file = |item: &&Item| match &item.part {
            Part::Use(path) => {
                let first = source.sign(source.past_root(path.start));
                source.is_public(item.place.start) && first == module
            }
            _ => false,
        };
        let uses = source.items.iter().filter(is_of_file);
        uses.flat_map(|item| offered(source, &item.part)).collect()
    }

    /// The edits for the modules that a file names: who sees them, and with which features.
    fn modules(&self, name: &str, edits: &mut Edits) -> Result<(), String> {
        let (file, source) = &self.sources[name];
        let krate = name.split('/').next().unwrap_or_default();
        for item in &source.items {
            let (Part::Module(start) | Part::Use(Range { start, .. })) = &item.part else {
                continue;
            };
            let path = format!("{krate}/{}", source.sign(source.past_root(*start)));
            let path = path.as_str();
            let is_module = matches!(item.part, Part::Module(_));
            let is_inside = INSIDE.contains(&path) && source.is_public(item.place.start);
            let place = bytes(source, &item.place);
            if LEFT_OUT.contains(&path) {
                edits.remove(source, source.with_above(item));
                continue;
            }
            if is_inside && is_module {
                let error = source.at_line(*start, "a public module of a file that is not offered");
                return Err(file.named(&error));
            }
            if let Some(features) = features(path) {
                edits.insert(place.start, &format!("#[cfg({features})]\n"));
            }
            if is_inside || is_module && SHARED.contains(&path) {
                let public = item.place.start..item.place.start + 1;
                edits.replace(bytes(source, &public), "pub(crate)");
            }
            if is_module && path == FIRST {
                edits.insert(first_module(source), &format!("{}\n\n", source.slice(&item.place)));
                edits.remove(source, item.place.clone());
            }
        }
        Ok(())
    }
}

/// What a file imports beside what its source does, before its first import or item.
fn import(source: &Source, edits: &mut Edits) {
    let is_named = |(name, _, before): &&(&str, &str, &[&str])| {
        let is_behind = |sign| before.is_empty() || before.contains(&sign);
        let mut all = 1..source.tokens.len();
        all.any(|at| source.sign(at) == *name && is_behind(source.sign(at - 1)))
    };
    let paths = IMPORTS.iter().filter(is_named).map(|(_, path, _)| format!("use {path};\n"));
    let paths: String = paths.collect();
    let is_import = |item: &&Item| matches!(item.part, Part::Use(_));
    let is_code = |item: &&Item| !matches!(item.part, Part::Ghost);
    let mut items = source.items.iter();
    let first = items.clone().find(is_import).or_else(|| items.find(is_code));
    if let Some(first) = first.filter(|_| !paths.is_empty()) {
        let start = bytes(source, &source.with_above(first)).start;
        let gap = if is_import(&first) { "" } else { "\n" };
        edits.insert(start, &format!("{paths}{gap}"));
    }
}

/// A text in which no two blank lines follow another, and none begins or ends it or a block.
fn spaced(text: &str) -> String {
    let mut out = String::new();
    for line in text.trim().lines() {
        let is_blank = line.trim().is_empty();
        if line.trim() == "}" && out.ends_with("\n\n") {
            out.pop();
        }
        if line.trim() == "}" && out.ends_with("{\n") {
            out.pop();
            out += "}\n";
            continue;
        }
        let is_needless = out.ends_with("\n\n") || out.ends_with("{\n");
        if !(is_blank && is_needless) {
            out += line.trim_end();
            out += "\n";
        }
    }
    out
}

/// Where the first module of a file is named.
fn first_module(source: &Source) -> usize {
    let mut modules = source
        .items
        .iter()
        .filter(|item| matches!(item.part, Part::Module(_)));
    let first = modules.next().map(|item| bytes(source, &item.place).start);
    first.unwrap_or_default()
}

/// The names that an item imports.
fn offered(source: &Source, part: &Part) -> Vec<String> {
    match part {
        Part::Use(path) => {
            let (names, _) = imports(&source.code(path), &[]);
            names.into_iter().map(|(name, _)| name).collect()
        }
        _ => Vec::new(),
    }
}
