//! A proved source as Rust: contracts, ghost items and what speaks to the prover go, code and docs stay letter for
//! letter. The contract of a public call joins its docs, and its conditions are asserted before its body.

use crate::changes::change;
use crate::conditions::{Condition, Known, assertions, doc_lines, docs, facts_of};
use crate::edits::{Edits, bytes};
use crate::items::{Function, Item, Part, Source};
use crate::pages::Pages;
use crate::tokens::Kind;
use crate::traits::{Trait, Traits, names_in};
use std::ops::Range;

/// The traits whose implementations go: in the proved language a `Clone` may fail, and `Model` speaks to the prover.
const GOING: [&str; 2] = ["Clone", "Model"];

/// Reads a source.
pub struct Erasing<'a> {
    pub source: &'a Source<'a>,
    /// The file, such as `num/format`.
    pub file: &'a str,
    /// The known conditions of public calls. Where there are none, contracts go.
    pub known: Option<&'a Known>,
    /// The functions that the file offers, unless it offers each that is public.
    pub offered: Option<Vec<String>>,
    /// Whether calls stop in every build.
    pub is_strict: bool,
    pub traits: &'a Traits,
    /// The examples and definitions of public calls, where their docs have any.
    pub pages: Option<&'a Pages>,
}

impl Erasing<'_> {
    /// The edits that make Rust of the source. An error names the line.
    pub fn edits(&self) -> Result<Edits, String> {
        let mut edits = Edits::default();
        self.account()?;
        for item in &self.source.items {
            let done = match &item.part {
                Part::Ghost => self.ghost(item, &mut edits),
                Part::Function(function) => self.function(item, function, &mut edits),
                Part::Impl(Some(path), of) if self.goes(path) => {
                    self.remove(item, path, of, &mut edits)
                }
                _ => Ok(()),
            };
            done.map_err(|message| self.source.at_line(item.place.start, &message))?;
        }
        change(self.source, &mut edits);
        Ok(edits)
    }

    /// Each clause, wherever it stands, is one that a function was read with.
    fn account(&self) -> Result<(), String> {
        let functions = self.functions().map(|(_, function)| function);
        let read: Vec<usize> = functions
            .flat_map(|function| &function.clauses)
            .map(|clause| clause.start)
            .collect();
        let lost = (0..self.source.tokens.len()).find(|at| {
            ["requires", "ensures"].contains(&self.source.sign(*at)) && !read.contains(at)
        });
        match lost {
            Some(at) => Err(self.source.at_line(at, "a clause of no function")),
            None => Ok(()),
        }
    }

    fn functions(&self) -> impl Iterator<Item = (&Item, &Function)> {
        self.source
            .items
            .iter()
            .filter_map(|item| match &item.part {
                Part::Function(function) => Some((item, function)),
                _ => None,
            })
    }

    /// Whether an implementation goes.
    fn goes(&self, path: &Range<usize>) -> bool {
        GOING.contains(&self.source.slice(path))
    }

    /// An implementation goes. Where it is of `Clone`, the type derives it in Rust, as it derives `Copy` first.
    fn remove(
        &self,
        item: &Item,
        path: &Range<usize>,
        of: &Range<usize>,
        edits: &mut Edits,
    ) -> Result<(), String> {
        let name = self.source.last_name(of);
        let is_copied = self.source.items.iter().any(|other| {
            let above = self.source.code(&(other.above..other.place.start));
            let head = self.source.code(&other.place);
            let is_type = head
                .windows(2)
                .any(|pair| ["struct", "enum"].contains(&pair[0]) && pair[1] == name);
            is_type
                && above
                    .windows(3)
                    .any(|signs| signs == ["derive", "(", "Copy"])
        });
        if self.source.slice(path) == "Clone" && !is_copied {
            return Err(format!(
                "a Clone by hand of {name}, which does not derive Copy first"
            ));
        }
        edits.remove(self.source, self.source.with_above(item));
        Ok(())
    }

    /// Whether a block has a function of this name.
    fn has_function(&self, block: Option<usize>, name: &str) -> bool {
        let mut functions = self.functions();
        functions
            .any(|(item, function)| item.block == block && self.source.sign(function.name) == name)
    }

    /// The name of a ghost item.
    fn ghost_name(&self, ghost: &Item) -> &str {
        let signs = self.source.code(&ghost.place);
        let name = signs
            .iter()
            .position(|sign| *sign == "ghost")
            .map_or(0, |at| at + 1);
        signs.get(name).copied().unwrap_or_default()
    }

    /// A ghost item goes with what stands right above it. Docs there would be lost, and so would what an operator
    /// requires that the block does not have.
    fn ghost(&self, item: &Item, edits: &mut Edits) -> Result<(), String> {
        let range = self.source.with_above(item);
        let mut above = range.start..item.place.start;
        if self.known.is_some() && above.any(|at| self.source.tokens[at].text.starts_with("///")) {
            return Err("docs above a ghost item".to_string());
        }
        let name = self.ghost_name(item);
        let operator = name.strip_prefix("can_").filter(|_| self.known.is_some());
        if operator.is_some_and(|operator| !self.has_function(item.block, operator)) {
            return Err(format!("a clause of no function: {name}"));
        }
        edits.remove(self.source, range);
        Ok(())
    }

    /// A function with assertions of its conditions, below its contract as docs if docs stand above.
    fn function(&self, item: &Item, function: &Function, edits: &mut Edits) -> Result<(), String> {
        let path = self.source.path_of(item, function);
        let conditions = self.conditions(item, function);
        let conditions = conditions.map_err(|message| format!("{path}: {message}"))?;
        let contract = self.contract(item, function);
        let start = bytes(self.source, &item.place).start;
        let before = &self.source.text[..start];
        let indent = &" ".repeat(before.len() - before.trim_end_matches(' ').len());
        if self.is_offered(item, function) && self.has_docs(item) {
            edits.insert(
                self.docs_end(item),
                &doc_lines(&self.docs(&path, &contract, &conditions)?, indent),
            );
        }
        let name = self.source.sign(function.name);
        let is_called = self.known.is_some_and(|known| known.is_called(name));
        let is_declared = self.source.sign(function.body.start) == ";";
        if !is_declared && (!conditions.is_empty() || is_called) {
            // A call that stops names the line of its caller.
            edits.insert(start, &format!("#[track_caller]\n{indent}"));
            let open = bytes(self.source, &function.body).start + 1;
            edits.insert(open, &assertions(&conditions, indent));
        }
        self.without_clauses(function, edits);
        Ok(())
    }

    /// What the docs of a public call have beside those of its source: its example, and its contract with the definitions
    /// that it cites.
    fn docs(
        &self,
        path: &str,
        contract: &[String],
        conditions: &[Condition],
    ) -> Result<String, String> {
        let krate = self.file.split('/').next().unwrap_or_default();
        let mut text = match self.pages {
            Some(pages) => pages.examples.docs(krate, path)?,
            None => String::new(),
        };
        if !contract.is_empty() {
            text += &docs(contract, conditions);
            let definitions = self.pages.map(|pages| &pages.definitions);
            text += &definitions.map_or(String::new(), |known| {
                known.links(self.source.text, contract)
            });
        }
        Ok(text)
    }

    /// Takes out what stands between the head of a function and its body.
    fn without_clauses(&self, function: &Function, edits: &mut Edits) {
        if function.clauses.is_empty() {
            return;
        }
        let is_code = |at: &usize| self.source.tokens[*at].kind != Kind::Comment;
        let last = (function.name..function.head_end).rev().find(is_code);
        let head_end = self.source.tokens[last.unwrap_or(function.name)].end();
        let body = bytes(self.source, &function.body).start;
        let gap = if self.source.sign(function.body.start) == ";" {
            ""
        } else {
            " "
        };
        edits.replace(head_end..body, gap);
    }

    /// Whether a function is public, in a file whose calls are offered.
    fn is_offered(&self, item: &Item, function: &Function) -> bool {
        let is_public = function.is_public || self.is_of_trait(item);
        self.known.is_some() && is_public && !self.is_shared(item, function)
    }

    /// Whether a function is public for other crates alone.
    fn is_shared(&self, item: &Item, function: &Function) -> bool {
        let name = self.source.sign(function.name);
        let is_left_out = |names: &Vec<String>| !names.iter().any(|offered| offered == name);
        item.block.is_none() && self.offered.as_ref().is_some_and(is_left_out)
    }

    fn is_of_trait(&self, item: &Item) -> bool {
        let block = item.block.map(|block| &self.source.items[block].part);
        matches!(block, Some(Part::Trait(_) | Part::Impl(Some(_), _)))
    }

    /// Where the docs above an item end: before its first attribute, if one is behind them.
    fn docs_end(&self, item: &Item) -> usize {
        let is_docs = |at: &usize| self.source.tokens[*at].text.starts_with("///");
        let last = (item.above..item.place.start).rev().find(is_docs);
        self.source.tokens[last.map_or(item.place.start, |at| at + 1)].at
    }

    fn has_docs(&self, item: &Item) -> bool {
        let above = &self.source.tokens[item.above..item.place.start];
        above.iter().any(|token| token.text.starts_with("///"))
    }

    /// The ghost members that state the contract of an operator: `can_NAME` and `NAME_gives`.
    fn members<'b>(&'b self, item: &'b Item, names: Vec<String>) -> impl Iterator<Item = &'b Item> {
        let beside = self
            .source
            .items
            .iter()
            .filter(|other| item.block.is_some() && other.block == item.block);
        let ghosts = beside.filter(|other| matches!(other.part, Part::Ghost));
        ghosts.filter(move |ghost| names.iter().any(|name| self.ghost_name(ghost) == name))
    }

    /// The contract of a function as its source states it.
    fn contract(&self, item: &Item, function: &Function) -> Vec<String> {
        let name = self.source.sign(function.name);
        let names = vec![format!("can_{name}"), format!("{name}_gives")];
        let ghosts = self.members(item, names).map(|ghost| &ghost.place);
        ghosts
            .chain(&function.clauses)
            .map(|clause| self.stated(clause))
            .collect()
    }

    /// A clause as docs state it.
    fn stated(&self, clause: &Range<usize>) -> String {
        let text = self.source.slice(clause);
        let text = text
            .strip_prefix("ghost ")
            .unwrap_or(text)
            .trim_end_matches(';');
        let lines = text
            .lines()
            .map(str::trim)
            .filter(|line| !line.starts_with("//"));
        lines.collect::<Vec<_>>().join("\n    ")
    }

    /// The conditions of a function, if it is offered, and of one that has an assertion beside its contract.
    fn conditions(&self, item: &Item, function: &Function) -> Result<Vec<Condition>, String> {
        let name = self.source.sign(function.name);
        let Some(known) = self.known else {
            return Ok(Vec::new());
        };
        let mut conditions = Vec::new();
        if self.is_offered(item, function) {
            let body = self.source.code(&function.body);
            for fact in self.facts(item, function, name)? {
                conditions.push(known.condition(&fact, &body)?);
            }
        }
        conditions.extend(known.added(&format!("{}::{name}", self.file)));
        let is_strict = self.is_strict
            || ["strict_", "unwrapped_"]
                .iter()
                .any(|policy| name.starts_with(policy));
        for condition in &mut conditions {
            if is_strict && condition.kind == "debug_assert" {
                condition.kind = "assert".to_string();
            }
        }
        Ok(conditions)
    }

    /// The facts that a function requires: its own, or those of its operator, or else those of its trait.
    fn facts(&self, item: &Item, function: &Function, name: &str) -> Result<Vec<String>, String> {
        let ghosts = self
            .members(item, vec![format!("can_{name}")])
            .map(|ghost| &ghost.place);
        let own = function
            .clauses
            .iter()
            .filter(|clause| self.source.sign(clause.start) == "requires");
        let clauses: Vec<&Range<usize>> = ghosts.chain(own).collect();
        if clauses
            .iter()
            .any(|clause| self.source.sign(clause.start + 1) == "*")
        {
            return Err("a clause that speaks of memory".to_string());
        }
        if !clauses.is_empty() {
            return Ok(clauses
                .iter()
                .flat_map(|clause| facts_of(self.source, clause))
                .collect());
        }
        match item.block.map(|block| &self.source.items[block].part) {
            Some(Part::Impl(Some(path), _)) => self.facts_of_trait(path, function, name),
            _ => Ok(Vec::new()),
        }
    }

    /// The facts that a trait requires of an implementation, whose names have to be those that the facts speak of.
    fn facts_of_trait(
        &self,
        path: &Range<usize>,
        function: &Function,
        name: &str,
    ) -> Result<Vec<String>, String> {
        let signs = self.source.code(path);
        let end = signs
            .iter()
            .position(|sign| *sign == "<")
            .unwrap_or(signs.len());
        let names: Vec<&str> = signs[..end]
            .iter()
            .copied()
            .filter(|sign| *sign != ":")
            .collect();
        let module = self.file.replace("/lib", "").replace('/', "::");
        let Some(of_trait) = self.traits.of_path(&module, &names)? else {
            return Ok(Vec::new());
        };
        let Some(method) = of_trait
            .methods
            .get(name)
            .filter(|method| !method.facts.is_empty())
        else {
            return Ok(Vec::new());
        };
        let parameters = names_in(&self.source.code(&function.parameters)[1..]);
        if parameters != method.parameters {
            return Err(format!(
                "parameters {parameters:?}, and in the trait {:?}",
                method.parameters
            ));
        }
        self.same_generics(of_trait, &signs[end..])?;
        Ok(method.facts.clone())
    }

    /// The arguments of a trait have to be named as its parameters are.
    fn same_generics(&self, of_trait: &Trait, arguments: &[&str]) -> Result<(), String> {
        let arguments = names_in(arguments.get(1..).unwrap_or_default());
        match arguments == of_trait.generics {
            true => Ok(()),
            false => Err(format!(
                "arguments {arguments:?}, and in the trait {:?}",
                of_trait.generics
            )),
        }
    }
}
