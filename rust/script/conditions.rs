//! The conditions of calls: what Rust tests, and says in docs, where the proved language has a proof.

use crate::items::Source;
use crate::table::Table;
use crate::tokens::code;
use std::ops::Range;

/// What docs say of the conditions `$` of a kind, and how the kind is asserted, with `$` for the test and its words.
struct Kind {
    name: &'static str,
    assertion: &'static str,
    heading: &'static str,
    sentence: &'static str,
}

const KINDS: [Kind; 5] = [
    Kind {
        name: "const",
        assertion: "const { assert!($) };",
        heading: "Compile errors",
        sentence: "Compiles only if $.",
    },
    Kind {
        name: "assert",
        assertion: "assert!($);",
        heading: "Panics",
        sentence: "Panics unless $.",
    },
    Kind {
        name: "uncounted",
        assertion: "assert!($);",
        heading: "Panics",
        sentence: "If the ledger `L` counts nothing, panics unless $. If it counts, nothing is tested, and the result has a \
            meaning only if $.",
    },
    Kind {
        name: "debug_assert",
        assertion: "debug_assert!($);",
        heading: "Panics",
        sentence: "With debug assertions, panics unless $. Without them, the result is wrapped.",
    },
    Kind {
        name: "overflow",
        assertion: "debug_assert!($);",
        heading: "Panics",
        sentence: "With debug assertions or overflow checks, panics unless $. Without both, the result is wrapped.",
    },
];

/// The fact that always holds.
const ALWAYS: &str = "Unit {0}";

/// Signs that join facts, so that what is known of a part is not known of the whole.
const JOINING: [&str; 4] = ["→", "↔", "×", "⊎"];

/// A condition: the name of its kind, its test in Rust, and the words. The test is empty where what the body calls
/// stops by itself.
#[derive(Clone, Debug, PartialEq, Eq)]
pub struct Condition {
    pub kind: String,
    pub test: String,
    pub words: String,
}

/// The known forms of facts, the bodies that stop by themselves, and the assertions that no contract requires.
pub struct Known {
    pub forms: Table,
    pub stopping: Table,
    pub added: Table,
    /// The functions that the stopping bodies call.
    called: Vec<&'static str>,
}

impl Known {
    pub fn new() -> Known {
        let stopping = Table::new("stopping.txt", include_str!("stopping.txt"));
        let called = stopping.rows().flat_map(|row| called(row[0])).collect();
        Known {
            forms: Table::new("conditions.txt", include_str!("conditions.txt")),
            stopping,
            added: Table::new("added.txt", include_str!("added.txt")),
            called,
        }
    }

    /// The condition of a fact. One that is unknown, or that nothing in a body sees, is an error, so that none is
    /// dropped unseen.
    pub fn condition(&self, fact: &str, body: &[&str]) -> Result<Condition, String> {
        let found = self.forms.find_map(|columns| {
            let name = name_in(columns[0], fact)?;
            let [kind, test, words] = <[&str; 3]>::try_from(&columns[1..]).ok()?;
            let is_constant = kind == "assert" && is_constant(name);
            Some(Condition {
                kind: if is_constant { "const" } else { kind }.to_string(),
                test: test.replace('$', name),
                words: words.replace('$', name),
            })
        });
        let condition = found.ok_or_else(|| format!("a clause of no known form: {fact}"))?;
        if condition.test.is_empty() && body != [";"] && !self.stops(body) {
            return Err(format!(
                "nothing in its body stops unless {}",
                condition.words
            ));
        }
        Ok(condition)
    }

    /// The condition that is asserted of an item beside its contract.
    pub fn added(&self, item: &str) -> Option<Condition> {
        self.added.find_map(|columns| {
            let [place, kind, test, words] = <[&str; 4]>::try_from(columns).ok()?;
            (place == item).then(|| Condition {
                kind: kind.to_string(),
                test: test.to_string(),
                words: words.to_string(),
            })
        })
    }

    /// Whether a body is one that stops by itself.
    fn stops(&self, body: &[&str]) -> bool {
        let [_, inner @ .., _] = body else {
            return false;
        };
        let stops = |columns: &[&str]| is_of_form(&code(columns[0]), inner).then_some(());
        self.stopping.find_map(stops).is_some()
    }

    /// Whether bodies that stop by themselves call a function of this name, which is no method.
    pub fn is_called(&self, name: &str) -> bool {
        self.called.contains(&name)
    }

    /// The rows that nothing matched.
    pub fn unused(&self) -> Vec<String> {
        let tables = [&self.forms, &self.stopping, &self.added];
        tables.iter().flat_map(|table| table.unused()).collect()
    }
}

/// The functions that a body calls, without methods and what is called by a path.
fn called(body: &'static str) -> Vec<&'static str> {
    let signs = [vec!["{"], code(body)].concat();
    let calls = signs
        .windows(3)
        .filter(|signs| signs[2] == "(" && ![".", ":"].contains(&signs[0]));
    calls.map(|signs| signs[1]).collect()
}

/// Whether a body is of a form: `(…)` has any arguments from which nothing returns early, and `…` behind a name has
/// the rest of the name.
fn is_of_form(form: &[&str], body: &[&str]) -> bool {
    match (form, body) {
        ([], []) => true,
        (["(", "…", form @ ..], ["(", ..]) => {
            let end = arguments(body);
            let (inner, rest) = body.split_at(end);
            let is_early = |sign: &&str| ["return", "?"].contains(sign);
            !inner.iter().any(is_early) && is_of_form(form, rest)
        }
        ([name, "…", form @ ..], [sign, body @ ..]) => {
            sign.starts_with(name) && is_of_form(form, body)
        }
        ([name, form @ ..], [sign, body @ ..]) => name == sign && is_of_form(form, body),
        _ => false,
    }
}

/// How many signs stand before the bracket that closes the first.
fn arguments(signs: &[&str]) -> usize {
    let mut depth = 0;
    let close = signs.iter().position(|sign| {
        depth += match *sign {
            "(" | "[" | "{" => 1,
            ")" | "]" | "}" => -1,
            _ => 0,
        };
        depth == 0
    });
    close.unwrap_or(signs.len())
}

fn is_constant(name: &str) -> bool {
    let is_capital = |sign: char| sign.is_ascii_uppercase() || sign == '_';
    !name.is_empty() && name.chars().all(is_capital)
}

/// What stands in a fact where its form has `$` for a name or `…` for the rest; nothing where it has neither.
fn name_in<'a>(form: &str, fact: &'a str) -> Option<&'a str> {
    let (before, after) = form.split_once(['$', '…']).unwrap_or((form, ""));
    let name = fact.strip_prefix(before)?.strip_suffix(after)?;
    let is_of_name = |sign: char| sign.is_alphanumeric() || "_.".contains(sign);
    let is_name = name.chars().all(is_of_name) && name.is_empty() != form.contains('$');
    let is_rest = form.ends_with('…') && is_one_fact(name);
    (is_name || is_rest).then_some(name)
}

/// Whether the rest of a fact has no part that is joined to what stands before it.
fn is_one_fact(rest: &str) -> bool {
    let mut depth = 0;
    code(rest).into_iter().all(|sign| {
        match sign {
            "(" | "[" | "{" => depth += 1,
            ")" | "]" | "}" => depth -= 1,
            _ => {}
        }
        depth > 0 || !JOINING.contains(&sign)
    })
}

/// The facts of a clause `requires NAME { FACT }`, or of an operator's `can_NAME = { λ a b. FACT × FACT }`.
pub fn facts_of(source: &Source, clause: &Range<usize>) -> Vec<String> {
    let sign_at = |sign: &str, mut range: Range<usize>| range.find(|at| source.sign(*at) == sign);
    let open = sign_at("{", clause.clone()).unwrap_or(clause.end);
    let close = source.group_end(open).map_or(clause.end, |end| end - 1);
    let operands = sign_at("λ", open + 1..open + 2).and_then(|lambda| sign_at(".", lambda..close));
    let start = operands.unwrap_or(open) + 1;
    let mut depth = 0;
    let parts = (start..close).filter(|at| {
        match source.sign(*at) {
            "(" | "[" | "{" => depth += 1,
            ")" | "]" | "}" => depth -= 1,
            _ => {}
        }
        depth == 0 && source.sign(*at) == "×"
    });
    let ends: Vec<usize> = parts.chain([close]).collect();
    let starts = [start].into_iter().chain(ends.iter().map(|end| end + 1));
    let words = |fact: Range<usize>| {
        source
            .slice(&fact)
            .split_whitespace()
            .collect::<Vec<_>>()
            .join(" ")
    };
    starts
        .zip(&ends)
        .map(|(start, end)| words(start..*end))
        .filter(|fact| fact != ALWAYS)
        .collect()
}

/// The assertions of conditions, each on a line of its own.
pub fn assertions(conditions: &[Condition], indent: &str) -> String {
    let tested = conditions
        .iter()
        .filter(|condition| !condition.test.is_empty());
    let line = |condition: &Condition| {
        let Condition { test, words, .. } = condition;
        let kind = KINDS.iter().find(|kind| kind.name == condition.kind);
        let assertion = kind.map_or("compile_error!($);", |kind| kind.assertion);
        let said = format!("{test}, \"precondition: {words}\"");
        format!("\n{indent}    {}", assertion.replace('$', &said))
    };
    tested.map(line).collect()
}

/// The contract of a call as docs: when it does not compile, when it panics, and what is proved of it.
pub fn docs(contract: &[String], conditions: &[Condition]) -> String {
    let mut text = String::new();
    let mut above = "";
    for kind in &KINDS {
        let those = conditions
            .iter()
            .filter(|condition| condition.kind == kind.name);
        let words: Vec<&str> = those.map(|condition| condition.words.as_str()).collect();
        if !words.is_empty() && kind.heading != above {
            text += &format!("\n# {}\n", kind.heading);
            above = kind.heading;
        }
        if !words.is_empty() {
            text += &format!("\n{}\n", kind.sentence.replace('$', &words.join(", and ")));
        }
    }
    text + &format!("\n# Proved\n\n```text\n{}\n```\n", contract.join("\n"))
}

/// A text as docs of an item behind an indent.
pub fn doc_lines(text: &str, indent: &str) -> String {
    let lines = text.lines().map(|line| format!("/// {line}"));
    let on_a_line = |line: String| format!("{}\n{indent}", line.trim_end());
    lines.map(on_a_line).collect()
}
