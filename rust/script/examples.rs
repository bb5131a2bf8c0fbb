//! The examples of calls, from the tables in `rust/docs`.
//!
//! A table is a list of entries. A line at the margin names a call, such as `Fixed::mean`, and the lines below it, which
//! are indented, are the statements of its doctest. The statements below `with` come first in each entry that follows,
//! with the name of the call in place of `$`. A line that begins with `#` is a comment.
//!
//! The table of a crate has its name. `operations.txt` has the operations that are offered by several policies: each row
//! has a call with `?` in place of the policy, what is exact, and a remark:
//!
//! ```text
//! CALL is NUMBER // REMARK
//! CALL wraps to NUMBER, saturates to NUMBER // REMARK
//! CALL is undefined // REMARK
//! ```
//!
//! From these rows each call has the statements of its policy. In the table of a crate, a row `CALL panics // REMARK` is
//! a doctest of its own; so are here the rows by which a call panics in each build.

use std::cell::Cell;
use std::collections::{BTreeMap, BTreeSet};
use std::fs;
use std::io::ErrorKind;

const FOLDER: &str = "rust/docs";

/// The table of the operations.
const OPERATIONS: &str = "operations";

/// How the names of calls begin that have a policy in their names. The others are plain.
const POLICIES: [&str; 6] = [
    "checked_",
    "overflowing_",
    "wrapping_",
    "saturating_",
    "strict_",
    "unwrapped_",
];

/// How long lines with a remark are at most.
const LONGEST: usize = 85;

/// A line of doctests that panic, which no page shows. To print where a panic came from takes long.
const QUIET: &str = "# std::panic::set_hook(Box::new(|_| {}));";

/// The entries of tables, and which of them are used.
#[derive(Default)]
pub struct Examples {
    entries: BTreeMap<String, Entry>,
}

/// What a table has below the name of a call.
struct Entry {
    setup: Vec<String>,
    rows: Vec<String>,
    is_used: Cell<bool>,
}

/// What a row says of the exact result of a call.
enum Exact<'a> {
    Fits(&'a str),
    /// It does not fit: the wrapped number, and the nearest that fits, if any call saturates.
    Past(&'a str, Option<&'a str>),
    Undefined,
}

/// What a row says of a call.
enum Reply {
    /// A statement that returns.
    Returns(String),
    /// The call panics in each build.
    Panics(String),
    /// Something that differs between builds, or that the row does not say.
    Unsaid,
}

impl Examples {
    /// The tables of crates, those of what takes memory in `with_memory`, and that of the operations.
    pub fn of(krates: &[&str], with_memory: &[&str]) -> Result<Examples, String> {
        let mut examples = Examples::default();
        for table in krates.iter().chain([&OPERATIONS]) {
            examples.read(table, &text_of(table)?)?;
        }
        for krate in BTreeSet::from_iter(with_memory) {
            examples.read(krate, &text_of(&format!("{krate}_memory"))?)?;
        }
        Ok(examples)
    }

    /// Reads a table.
    pub fn read(&mut self, table: &str, text: &str) -> Result<(), String> {
        let (mut setup, mut rest) = (Vec::new(), text);
        while let Some((name, below)) = next_name(rest) {
            let (rows, after) = indented(below);
            rest = after;
            if name == "with" {
                setup = rows;
                continue;
            }
            let entry = Entry {
                setup: setup.clone(),
                rows,
                is_used: Cell::new(false),
            };
            let path = format!("{table}::{name}");
            if entry.rows.is_empty() || self.entries.insert(path.clone(), entry).is_some() {
                return Err(format!("{path}: an example is empty or stands twice"));
            }
        }
        Ok(())
    }

    /// The docs with the example of a public call, such as `Fixed::mean`, of a crate. A law needs none.
    pub fn docs(&self, krate: &str, path: &str) -> Result<String, String> {
        if path.ends_with("_law") {
            return Ok(String::new());
        }
        let (owner, name) = path.rsplit_once("::").unwrap_or(("", path));
        let path = format!("{krate}::{path}");
        let doctests = match self.entries.get(&path) {
            Some(entry) => entry.doctests(name, None)?,
            None => self.of_operation(owner, name, &path)?,
        };
        Ok(format!("\n# Examples\n\n{}", doctests.join("\n")))
    }

    /// The doctests of a call that is an operation by a policy. Functions of a crate are none.
    fn of_operation(&self, owner: &str, name: &str, path: &str) -> Result<Vec<String>, String> {
        let (policy, operation) = policy_of(name);
        let entry = self.entries.get(&format!("{OPERATIONS}::{operation}"));
        let entry = entry.filter(|_| !owner.is_empty());
        let entry = entry.ok_or_else(|| format!("{FOLDER} has no example of {path}"))?;
        entry.doctests(name, Some(policy))
    }

    /// An error where an entry was not used.
    pub fn end(&self) -> Result<(), String> {
        match self.entries.iter().find(|(_, entry)| !entry.is_used.get()) {
            Some((path, _)) => Err(format!("{FOLDER}: no public call is {path}")),
            None => Ok(()),
        }
    }
}

impl Entry {
    /// What comes before the statements of a call.
    fn setup_of(&self, name: &str) -> Vec<String> {
        let lines = self.setup.iter().map(|line| line.replace('$', name));
        lines.collect()
    }

    /// The doctests of a call: one for what it returns, and one for each panic. An operation has a policy.
    fn doctests(&self, name: &str, policy: Option<&str>) -> Result<Vec<String>, String> {
        self.is_used.set(true);
        let setup = self.setup_of(name);
        let hidden = setup.iter().map(|line| format!("# {line}"));
        let hidden: Vec<String> = hidden.chain([QUIET.to_string()]).collect();
        let mut returning = [setup, vec![String::new()]].concat();
        let mut panicking = Vec::new();
        for row in &self.rows {
            let (code, remark) = row.split_at(row.find(" // ").unwrap_or(row.len()));
            match reply_of(code, policy).ok_or_else(|| format!("{name}: {row}"))? {
                Reply::Returns(code) => returning.push(remarked(&code, remark)),
                Reply::Panics(call) => {
                    let stops = vec![remarked(&format!("{call};"), remark)];
                    panicking.push(block("should_panic", &[hidden.clone(), stops].concat()));
                }
                Reply::Unsaid => {}
            }
        }
        Ok([vec![block("", &returning)], panicking].concat())
    }
}

/// The text of a table, which is empty where there is no such file.
fn text_of(table: &str) -> Result<String, String> {
    let path = format!("{FOLDER}/{table}.txt");
    match fs::read_to_string(&path) {
        Err(error) if error.kind() == ErrorKind::NotFound => Ok(String::new()),
        read => read.map_err(|error| format!("{path}: {error}")),
    }
}

/// The first name at the margin of a table, and what is below it.
fn next_name(text: &str) -> Option<(&str, &str)> {
    let mut rest = text;
    while let Some((line, below)) = rest.split_once('\n') {
        rest = below;
        if !line.is_empty() && !line.starts_with('#') {
            return Some((line, below));
        }
    }
    None
}

/// The indented lines in front of a text, without their indent, and the rest.
fn indented(text: &str) -> (Vec<String>, &str) {
    let lines: Vec<&str> = text
        .split_inclusive('\n')
        .take_while(|line| line.starts_with("    "))
        .collect();
    let length = lines.iter().map(|line| line.len()).sum();
    let rows = lines.iter().map(|line| line[4..].trim_end().to_string());
    (rows.collect(), &text[length..])
}

/// The policy in the name of a call, and the operation.
fn policy_of(name: &str) -> (&str, &str) {
    let mut policies = POLICIES.iter();
    let begins = policies.find_map(|policy| Some((*policy, name.strip_prefix(policy)?)));
    begins.unwrap_or(("", name))
}

/// The call of a row, and what its exact result is.
fn exact_of(code: &str) -> Option<(&str, Exact<'_>)> {
    if let Some(call) = code.strip_suffix(" is undefined") {
        Some((call, Exact::Undefined))
    } else if let Some((call, numbers)) = code.split_once(" wraps to ") {
        let ends = numbers.split_once(", saturates to ");
        let exact = ends.map_or(Exact::Past(numbers, None), |(wrapped, end)| {
            Exact::Past(wrapped, Some(end))
        });
        Some((call, exact))
    } else {
        let (call, number) = code.split_once(" is ")?;
        Some((call, Exact::Fits(number)))
    }
}

/// What a row says of a call, of an operation by its policy; nothing where it is of no known form.
fn reply_of(code: &str, policy: Option<&str>) -> Option<Reply> {
    let Some(policy) = policy else {
        let panics = code.strip_suffix(" panics");
        return Some(panics.map_or(Reply::Returns(code.to_string()), |call| {
            Reply::Panics(call.to_string())
        }));
    };
    let (call, exact) = exact_of(code)?;
    let call = call.replace('?', policy);
    let number = match (policy, exact) {
        ("checked_", Exact::Fits(number)) => format!("Some({number})"),
        ("checked_", _) => "None".to_string(),
        (_, Exact::Undefined) | ("strict_" | "unwrapped_", Exact::Past(..)) => {
            return Some(Reply::Panics(call));
        }
        ("overflowing_", Exact::Fits(number)) => format!("({number}, false)"),
        ("overflowing_", Exact::Past(wrapped, _)) => format!("({wrapped}, true)"),
        (_, Exact::Fits(number))
        | ("wrapping_", Exact::Past(number, _))
        | ("saturating_", Exact::Past(_, Some(number))) => number.to_string(),
        _ => return Some(Reply::Unsaid),
    };
    Some(Reply::Returns(format!("assert_eq!({call}, {number});")))
}

/// A statement with a remark behind it, or above it where the line would be too long for a page.
fn remarked(code: &str, remark: &str) -> String {
    match remark.is_empty() || code.len() + remark.len() <= LONGEST {
        true => format!("{code}{remark}"),
        false => format!("{}\n{code}", remark.trim_start()),
    }
}

/// A doctest.
fn block(kind: &str, lines: &[String]) -> String {
    format!("```{kind}\n{}\n```\n", lines.join("\n"))
}
