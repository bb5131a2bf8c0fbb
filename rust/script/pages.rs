//! The pages of the docs beside those of items: the guide, the definitions, and a page for each file of definitions in
//! `crates/*/specs`, to which the contracts of calls link.

use crate::examples::Examples;
use std::collections::{BTreeMap, BTreeSet};
use std::fs;

/// What the docs of a library have beside the contracts of its calls.
pub struct Pages {
    pub examples: Examples,
    pub definitions: Definitions,
}

impl Pages {
    /// The examples and definitions of crates, of which those of `with_memory` take memory.
    pub fn of(krates: &[&str], with_memory: &[&str]) -> Result<Pages, String> {
        Ok(Pages {
            examples: Examples::of(krates, with_memory)?,
            definitions: Definitions::of(krates)?,
        })
    }
}

/// The files of definitions that contracts cite.
#[derive(Default)]
pub struct Definitions {
    files: Vec<File>,
}

/// A file of definitions of a crate.
struct File {
    krate: String,
    name: String,
    text: String,
}

impl Definitions {
    /// The definitions of crates.
    pub fn of(krates: &[&str]) -> Result<Definitions, String> {
        let mut definitions = Definitions::default();
        for krate in krates {
            let folder = format!("crates/fixed_{krate}/specs");
            for name in names_in(&folder).map_err(|error| format!("{folder}: {error}"))? {
                let text = read(&format!("{folder}/{name}.antt"))?;
                definitions.add(krate, &name, &text);
            }
        }
        Ok(definitions)
    }

    /// Adds a file, unless it defines nothing.
    pub fn add(&mut self, krate: &str, name: &str, text: &str) {
        let file = File {
            krate: krate.to_string(),
            name: name.to_string(),
            text: text.to_string(),
        };
        if text.contains(" pub ") {
            self.files.push(file);
        }
    }

    /// Docs with links to the definitions of the words of a contract, as far as its source imports them.
    pub fn links(&self, source: &str, contract: &[String]) -> String {
        let is_of_word = |sign: char| sign.is_alphanumeric() || sign == '_';
        let words = contract
            .iter()
            .flat_map(|clause| clause.split(|sign| !is_of_word(sign)));
        let words: BTreeSet<&str> = words.collect();
        let cited = imports(source).filter(|(_, _, word)| words.contains(word));
        let (mut named, mut targets) = (Vec::new(), String::new());
        for (krate, name, word) in cited {
            if let Some(file) = self.file(krate, name, word) {
                named.push(format!("[`{word}`]"));
                let target = format!("crate::definitions::{}", file.module());
                targets += &format!("[`{word}`]: {target}\n");
            }
        }
        match named.is_empty() {
            true => String::new(),
            false => format!("\nDefinitions: {}.\n\n{targets}", named.join(", ")),
        }
    }

    /// The file that defines a word: that of the name in the crate, or in a lower crate, whose names the crate offers.
    fn file(&self, krate: &str, name: &str, word: &str) -> Option<&File> {
        let defining = self
            .files
            .iter()
            .filter(|file| file.name == name && file.defines(word));
        let candidates: Vec<&File> = defining.collect();
        let own = candidates.iter().find(|file| file.krate == krate);
        own.or(candidates.last()).copied()
    }

    /// The guide, the definitions and their files as files of Rust, each a module without items. Those of some crates
    /// stand where the calculator does.
    pub fn files(&self, krates: &[&str], calculator: &[&str]) -> Result<BTreeMap<String, String>, String> {
        let guide = linked(&read("docs/GUIDE.md")?, krates)?;
        let definitions = self.named(linked(&read("docs/DEFINITIONS.md")?, krates)?);
        let item = |file: &File| {
            let is_gated = calculator.contains(&file.krate.as_str());
            let gate = if is_gated { "#[cfg(feature = \"calc\")]\n" } else { "" };
            format!("{gate}pub mod {};\n", file.module())
        };
        let items: String = self.files.iter().map(item).collect();
        let mut files = BTreeMap::new();
        let mut put = |path: String, of: String, text: String| {
            let head = format!("// Made by `make package` of {of}: changes go there.\n\n");
            files.insert(path, head + &text);
        };
        put("guide/mod.rs".to_string(), "docs/GUIDE.md".to_string(), inner_docs(&guide));
        let definitions = format!("{}\n{items}", inner_docs(&definitions));
        put("definitions/mod.rs".to_string(), "docs/DEFINITIONS.md".to_string(), definitions);
        for file in &self.files {
            let of = format!("crates/fixed_{}/specs/{}.antt", file.krate, file.name);
            put(format!("definitions/{}.rs", file.module()), of, file.page());
        }
        Ok(files)
    }

    /// A page with links where it names a file of definitions, such as `fixed_kernel/specs/Rows`.
    fn named(&self, page: String) -> String {
        self.files.iter().fold(page, |page, file| {
            let name = format!("`fixed_{}/specs/{}`", file.krate, file.name);
            let link = format!("[{name}](crate::definitions::{})", file.module());
            page.replace(&name, &link)
        })
    }
}

impl File {
    fn defines(&self, word: &str) -> bool {
        self.text.contains(&format!(" pub {word} "))
    }

    /// The name of its page.
    fn module(&self) -> String {
        let words = self.name.chars().enumerate().map(|(at, letter)| {
            let separator = if at > 0 && letter.is_uppercase() {
                "_"
            } else {
                ""
            };
            format!("{separator}{}", letter.to_lowercase())
        });
        format!("{}_{}", self.krate, words.collect::<String>())
    }

    /// Its page: what the comment in front says, and the definitions.
    fn page(&self) -> String {
        let is_comment = |line: &&str| line.starts_with("--");
        let about: Vec<&str> = self.text.lines().take_while(is_comment).collect();
        let about: Vec<&str> = about.iter().map(|line| line[2..].trim()).collect();
        let rest = self.text.lines().skip(about.len());
        let code: Vec<&str> = rest.filter(|line| !line.starts_with("use ")).collect();
        let code = code.join("\n");
        let path = format!(
            "From `crates/fixed_{}/specs/{}.antt`:",
            self.krate, self.name
        );
        let text = format!(
            "{}\n\n{path}\n\n```text\n{}\n```",
            about.join("\n"),
            code.trim()
        );
        inner_docs(&text)
    }
}

/// The words that a source imports from definitions of this project, each with the crate and the file.
fn imports(source: &str) -> impl Iterator<Item = (&str, &str, &str)> {
    let uses = source.lines().filter_map(|line| {
        let path = line.trim().strip_prefix("ghost use Rattle.fixed_")?;
        let (krate, path) = path.split_once(".specs.")?;
        let (name, words) = path.strip_suffix("};")?.split_once(".{")?;
        Some((krate, name, words))
    });
    uses.flat_map(|(krate, name, words)| words.split(", ").map(move |word| (krate, name, word)))
}

/// A page of `docs/` with its links as those of the docs, and its images in it. A link that the docs do not have is an
/// error.
pub fn linked(text: &str, krates: &[&str]) -> Result<String, String> {
    let mut parts = text.split("](");
    let mut out = parts.next().unwrap_or_default().to_string();
    for part in parts {
        let (target, after) = part.split_once(')').ok_or("a link without an end")?;
        if target.ends_with(".svg") {
            let image = out.rfind("![").ok_or("an image without a mark")?;
            out.truncate(image);
            out += &read(&format!("docs/{target}"))?;
        } else {
            out += &format!("]({})", target_in_docs(target, krates)?);
        }
        out += after;
    }
    Ok(out)
}

/// What a link leads to in the docs.
fn target_in_docs(target: &str, krates: &[&str]) -> Result<String, String> {
    let (path, place) = target.split_at(target.find('#').unwrap_or(target.len()));
    let krate = path.strip_prefix("../crates/fixed_");
    let krate = krate.and_then(|path| path.strip_suffix("/README.md"));
    match (path, krate) {
        ("", _) => Ok(place.to_string()),
        ("GUIDE.md", _) => Ok(format!("crate::guide{place}")),
        ("DEFINITIONS.md", _) => Ok(format!("crate::definitions{place}")),
        ("../README.md", _) => Ok(format!("crate{place}")),
        (_, Some(krate)) if krates.contains(&krate) => Ok(format!("crate::{krate}")),
        _ if path.starts_with("https://") => Ok(target.to_string()),
        _ => Err(format!(
            "the docs of the package have no page for the link {target}"
        )),
    }
}

/// A text as the docs of the module around it.
fn inner_docs(text: &str) -> String {
    let lines = text.lines().map(|line| format!("//! {line}"));
    lines.map(|line| format!("{}\n", line.trim_end())).collect()
}

/// The names of the files of definitions in a folder, in order.
fn names_in(folder: &str) -> Result<BTreeSet<String>, std::io::Error> {
    let mut names = BTreeSet::new();
    for entry in fs::read_dir(folder)? {
        let file = entry?.file_name().to_string_lossy().into_owned();
        names.extend(file.strip_suffix(".antt").map(str::to_string));
    }
    Ok(names)
}

fn read(path: &str) -> Result<String, String> {
    fs::read_to_string(path).map_err(|error| format!("{path}: {error}"))
}
