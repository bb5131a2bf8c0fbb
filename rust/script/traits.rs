//! What the traits of the library require, by the path of module and name: an `impl` has it without saying so.

use crate::conditions::facts_of;
use crate::items::{Item, Part, Source};
use std::collections::BTreeMap;
use std::ops::Range;

/// Crates that are not the project's.
const STD: [&str; 4] = ["std", "core", "alloc", "thiserror"];

/// The traits of all files, and what each file imports or offers under which name. A path is one such as
/// `num::format::Held`.
#[derive(Default)]
pub struct Traits {
    names: BTreeMap<String, BTreeMap<String, String>>,
    traits: BTreeMap<String, Trait>,
}

/// A trait: its generic parameters, and its methods.
#[derive(Default)]
pub struct Trait {
    pub generics: Vec<String>,
    pub methods: BTreeMap<String, Method>,
}

/// The facts that a method requires, and the names of its parameters.
pub struct Method {
    pub facts: Vec<String>,
    pub parameters: Vec<String>,
}

impl Traits {
    /// Reads the traits and imports of a file.
    pub fn read(&mut self, module: &str, source: &Source) -> Result<(), String> {
        for item in &source.items {
            match &item.part {
                Part::Use(path) => {
                    let (found, _) = imports(&source.code(path), &[]);
                    let found = found
                        .into_iter()
                        .map(|(name, path)| (name, absolute(module, path)));
                    self.names
                        .entry(module.to_string())
                        .or_default()
                        .extend(found);
                }
                Part::Trait(head) => {
                    let path = format!("{module}::{}", source.sign(head.start));
                    let found = Trait {
                        generics: generics(source, head),
                        methods: methods(source, item),
                    };
                    if self.traits.insert(path, found).is_some() {
                        return Err(source.at_line(head.start, "a second trait of this name"));
                    }
                }
                _ => {}
            }
        }
        Ok(())
    }

    /// The trait that a path in a file means; nothing where it is not one of the library's.
    pub fn of_path(&self, module: &str, path: &[&str]) -> Result<Option<&Trait>, String> {
        let path: Vec<String> = path.iter().map(|name| name.to_string()).collect();
        let name = path.last().cloned().unwrap_or_default();
        let first = path
            .first()
            .and_then(|first| self.names.get(module)?.get(first));
        let mut path = match first {
            Some(first) => path[1..]
                .iter()
                .fold(first.clone(), |path, name| format!("{path}::{name}")),
            None => absolute(module, path),
        };
        // Each module that offers a name says from where.
        while let Some(from) = self.offered(&path).filter(|from| **from != path) {
            path = from.clone();
        }
        let is_foreign = STD
            .iter()
            .any(|krate| path.starts_with(&format!("{krate}::")));
        let is_known = |known: &String| known.ends_with(&format!("::{name}"));
        match self.traits.get(&path) {
            None if !is_foreign && self.traits.keys().any(is_known) => {
                Err(format!("no known trait: {path}"))
            }
            found => Ok(found),
        }
    }

    /// From where a module offers a name that it does not declare itself.
    fn offered(&self, path: &str) -> Option<&String> {
        let (module, name) = path.rsplit_once("::")?;
        let from = self.names.get(module)?.get(name);
        from.filter(|_| !self.traits.contains_key(path))
    }
}

/// A path as seen from the top, without what says that a name is of a crate.
fn absolute(module: &str, path: Vec<String>) -> String {
    let (krate, file) = module.split_once("::").unwrap_or((module, ""));
    let first = path.first().map_or("", String::as_str);
    let is_std = STD.contains(&first);
    let (place, rest) = match first {
        "crate" | "super" => (krate.to_string(), &path[1..]),
        "self" => (module.to_string(), &path[1..]),
        _ if is_std => (first.to_string(), &path[1..]),
        _ => match first.strip_prefix("fixed_") {
            Some(other) => (other.to_string(), &path[1..]),
            None if file.is_empty() => (krate.to_string(), &path[..]),
            None => (module.to_string(), &path[..]),
        },
    };
    [&[place], rest].concat().join("::")
}

/// The names that a tree of imports has, each with its path below `above`, and how many signs the tree has.
pub fn imports(signs: &[&str], above: &[String]) -> (Vec<(String, Vec<String>)>, usize) {
    let mut path = above.to_vec();
    let mut found = Vec::new();
    let mut at = 0;
    while at < signs.len() && ![",", "}"].contains(&signs[at]) {
        match signs[at] {
            ":" => at += 1,
            "{" => {
                at += 1;
                while at < signs.len() && signs[at] != "}" {
                    let (names, length) = imports(&signs[at..], &path);
                    found.extend(names);
                    at += length + usize::from(signs.get(at + length) == Some(&","));
                }
                return (found, at + 1);
            }
            "as" => {
                let name = signs
                    .get(at + 1)
                    .map_or(String::new(), |name| name.to_string());
                return (vec![(name, path)], at + 2);
            }
            "self" if at == 0 && !above.is_empty() => at += 1,
            name => {
                path.push(name.to_string());
                at += 1;
            }
        }
    }
    let name = path.last().cloned().unwrap_or_default();
    (vec![(name, path)], at)
}

/// The names of a trait's generic parameters, from behind its own name on.
fn generics(source: &Source, head: &Range<usize>) -> Vec<String> {
    let signs = source.code(head);
    match signs.get(1) {
        Some(&"<") => names_in(&signs[2..]),
        _ => Vec::new(),
    }
}

/// The names that stand first in each part of a list, up to the end of the list: the names of parameters, or the
/// arguments of a path.
pub fn names_in(signs: &[&str]) -> Vec<String> {
    let mut names = Vec::new();
    let (mut depth, mut is_name) = (0, true);
    let mut before = "";
    for sign in signs {
        match *sign {
            "<" | "(" | "[" | "{" => depth += 1,
            ">" if before == "-" => {}
            ">" | ")" | "]" | "}" if depth == 0 => break,
            ">" | ")" | "]" | "}" => depth -= 1,
            "," if depth == 0 => is_name = true,
            "const" | "mut" | "&" => {}
            name if is_name => {
                names.push(name.to_string());
                is_name = false;
            }
            _ => {}
        }
        before = sign;
    }
    names
}

/// The methods of a trait, which is an item of the source.
fn methods(source: &Source, of: &Item) -> BTreeMap<String, Method> {
    let is_inside =
        |item: &&Item| of.place.start < item.place.start && item.place.end <= of.place.end;
    let mut methods = BTreeMap::new();
    for item in source.items.iter().filter(is_inside) {
        if let Part::Function(function) = &item.part {
            let clauses = function
                .clauses
                .iter()
                .filter(|clause| source.sign(clause.start) == "requires");
            let method = Method {
                facts: clauses
                    .flat_map(|clause| facts_of(source, clause))
                    .collect(),
                parameters: names_in(&source.code(&function.parameters)[1..]),
            };
            methods.insert(source.sign(function.name).to_string(), method);
        }
    }
    methods
}
