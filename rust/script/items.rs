//! The items of a source: functions with their contracts, blocks with items of their own, and what is ghost.

use crate::tokens::{Kind, Token, tokens};
use std::ops::Range;

/// A source as tokens, and what they are. Ranges are those of tokens.
pub struct Source<'a> {
    pub text: &'a str,
    pub tokens: Vec<Token<'a>>,
    pub items: Vec<Item>,
}

/// An item, without the comments and attributes above it, and the block that it stands in.
pub struct Item {
    /// Where the comments and attributes above it begin.
    pub above: usize,
    pub place: Range<usize>,
    pub block: Option<usize>,
    pub part: Part,
}

/// What an item is.
pub enum Part {
    Ghost,
    Function(Function),
    /// `trait NAME<..> {`: the name and what is behind it.
    Trait(Range<usize>),
    /// `impl<..> TRAIT for TYPE {`: the trait, if there is one, and the type.
    Impl(Option<Range<usize>>, Range<usize>),
    /// `mod NAME;`: the name.
    Module(usize),
    /// `use PATH;`: the path.
    Use(Range<usize>),
    Other,
}

/// A function, by the places of its parts.
pub struct Function {
    pub name: usize,
    pub is_public: bool,
    pub parameters: Range<usize>,
    /// Where its head ends, before clauses and body.
    pub head_end: usize,
    pub clauses: Vec<Range<usize>>,
    /// The braces of the body, or the semicolon of a declaration.
    pub body: Range<usize>,
}

/// An error at a token.
pub struct Fault {
    pub token: usize,
    pub message: String,
}

fn fault<T>(token: usize, message: &str) -> Result<T, Fault> {
    let message = message.to_string();
    Err(Fault { token, message })
}

impl<'a> Source<'a> {
    /// Reads a source.
    pub fn new(text: &'a str) -> Result<Source<'a>, String> {
        let (tokens, items) = (tokens(text), Vec::new());
        let mut source = Source {
            text,
            tokens,
            items,
        };
        let read = source.read(0..source.tokens.len(), None);
        read.map_err(|fault| source.at_line(fault.token, &fault.message))?;
        Ok(source)
    }

    /// A message with the line of a token in front.
    pub fn at_line(&self, token: usize, message: &str) -> String {
        let before = self
            .tokens
            .get(token)
            .map_or(self.text.len(), |token| token.at);
        let line = self.text[..before].matches('\n').count() + 1;
        format!("{line}: {message}")
    }

    /// The text of a token, which is empty for a comment and behind the last one.
    pub fn sign(&self, token: usize) -> &'a str {
        let found = self.tokens.get(token);
        found
            .filter(|token| token.kind != Kind::Comment)
            .map_or("", |token| token.text)
    }

    /// The text from the first to the last token of a range.
    pub fn slice(&self, range: &Range<usize>) -> &'a str {
        match self.tokens.get(range.clone()) {
            Some([first, .., last]) => &self.text[first.at..last.end()],
            Some([only]) => only.text,
            _ => "",
        }
    }

    /// The tokens of a range that are no comments.
    pub fn code(&self, range: &Range<usize>) -> Vec<&'a str> {
        let signs = range.clone().map(|token| self.sign(token));
        signs.filter(|sign| !sign.is_empty()).collect()
    }

    /// The name of a function behind that of the trait or type whose block it stands in: `Checked::checked_mul`.
    pub fn path_of(&self, item: &Item, function: &Function) -> String {
        let name = self.sign(function.name);
        match item.block.map(|block| &self.items[block].part) {
            Some(Part::Trait(of)) => format!("{}::{name}", self.sign(of.start)),
            Some(Part::Impl(Some(of), _) | Part::Impl(None, of)) => {
                format!("{}::{name}", self.last_name(of))
            }
            _ => name.to_string(),
        }
    }

    /// The last name of a path, without its arguments.
    pub fn last_name(&self, path: &Range<usize>) -> &'a str {
        let is_path = |at: &usize| self.is_word(*at) || self.sign(*at) == ":";
        let names = path.clone().take_while(is_path);
        names
            .filter(|at| self.is_word(*at))
            .last()
            .map_or("", |at| self.sign(at))
    }

    /// An item with the comments and attributes above it, up to a blank line or what speaks of the whole file.
    pub fn with_above(&self, item: &Item) -> Range<usize> {
        let is_apart = |at: &usize| {
            let (before, token) = (&self.tokens[at - 1], &self.tokens[*at]);
            let between = &self.text[before.end()..token.at];
            between.matches('\n').count() > 1 || before.text.starts_with("//!")
        };
        let first = (item.above + 1..=item.place.start).rev().find(is_apart);
        first.unwrap_or(item.above)..item.place.end
    }

    /// Reads the items of a range.
    fn read(&mut self, range: Range<usize>, block: Option<usize>) -> Result<(), Fault> {
        let mut at = range.start;
        while at < range.end {
            let above = at;
            at = self.past_attributes(at)?;
            if at >= range.end {
                break;
            }
            let (part, end) = self.part(at, range.end)?;
            let inner = self.inner(&part, at, end);
            let place = at..end;
            self.items.push(Item {
                above,
                place,
                block,
                part,
            });
            if let Some(inner) = inner {
                self.read(inner, Some(self.items.len() - 1))?;
            }
            at = end;
        }
        Ok(())
    }

    /// What an item is, and where it ends.
    fn part(&self, start: usize, end: usize) -> Result<(Part, usize), Fault> {
        let is_public = self.is_public(start);
        let shown = self.past_visibility(start)?;
        let keyword = self.past_modifiers(shown);
        match self.sign(keyword) {
            "fn" if self.is_word(keyword + 1) => self.function(keyword + 1, is_public),
            "trait" => self.trait_part(keyword),
            "impl" => self.impl_part(keyword),
            "mod" if self.sign(keyword + 2) == ";" => Ok((Part::Module(keyword + 1), keyword + 3)),
            _ => match self.sign(shown) {
                "ghost" => Ok((Part::Ghost, self.past(&[";", ","], shown, end)?)),
                "use" => {
                    let last = self.past(&[";"], shown, end)?;
                    Ok((Part::Use(shown + 1..last - 1), last))
                }
                "struct" | "enum" | "union" | "mod" => self.braced(shown, end),
                "const" | "static" | "type" => Ok((Part::Other, self.past(&[";"], shown, end)?)),
                _ => Ok((Part::Other, self.past(&[";", ",", "}"], start, end)?)),
            },
        }
    }

    /// A type or a module, up to its braces or its semicolon.
    fn braced(&self, start: usize, end: usize) -> Result<(Part, usize), Fault> {
        match self.head_end(start)? {
            open if self.sign(open) == "{" => Ok((Part::Other, self.group_end(open)?)),
            _ => Ok((Part::Other, self.past(&[";"], start, end)?)),
        }
    }

    fn trait_part(&self, keyword: usize) -> Result<(Part, usize), Fault> {
        let open = self.head_end(keyword)?;
        Ok((Part::Trait(keyword + 1..open), self.group_end(open)?))
    }

    fn impl_part(&self, keyword: usize) -> Result<(Part, usize), Fault> {
        let open = self.head_end(keyword)?;
        let mut start = keyword + 1;
        if self.sign(start) == "<" {
            start = self.angles_end(start)?;
        }
        let mut at = start;
        while at < open && !["for", "where"].contains(&self.sign(at)) {
            at = self.next(at)?;
        }
        let part = match self.sign(at) {
            "for" => Part::Impl(Some(start..at), at + 1..open),
            _ => Part::Impl(None, start..at),
        };
        Ok((part, self.group_end(open)?))
    }

    fn function(&self, name: usize, is_public: bool) -> Result<(Part, usize), Fault> {
        let mut at = name + 1;
        if self.sign(at) == "<" {
            at = self.angles_end(at)?;
        }
        let parameters = at..self.group_end(at)?;
        let head_end = self.head_end(at)?;
        let mut clauses = Vec::new();
        let mut body = head_end;
        while is_clause(self.sign(body)) {
            let end = self.clause_end(body)?;
            clauses.push(body..end);
            body = self.past_comments(end);
        }
        let end = match self.sign(body) {
            ";" => body + 1,
            "{" => self.group_end(body)?,
            _ => return fault(body, "a function without an end"),
        };
        let body = body..end;
        let function = Function {
            name,
            is_public,
            parameters,
            head_end,
            clauses,
            body,
        };
        Ok((Part::Function(function), end))
    }

    /// Where a clause ends: a word, perhaps `*`, perhaps a name, and braces.
    fn clause_end(&self, start: usize) -> Result<usize, Fault> {
        let mut at = start + 1;
        at += usize::from(self.sign(at) == "*");
        at += usize::from(self.is_word(at));
        match self.sign(at) {
            "{" => self.group_end(at),
            _ => fault(start, "a clause without braces"),
        }
    }

    /// Where the head of an item ends: before its first clause, its braces or its semicolon.
    fn head_end(&self, start: usize) -> Result<usize, Fault> {
        let mut at = start;
        while at < self.tokens.len()
            && !["{", ";", "}"].contains(&self.sign(at))
            && !is_clause(self.sign(at))
        {
            at = self.next(at)?;
        }
        Ok(at)
    }

    /// The items inside of an item, if it has braces for some.
    fn inner(&self, part: &Part, start: usize, end: usize) -> Option<Range<usize>> {
        let is_block = match part {
            Part::Trait(_) | Part::Impl(..) => true,
            Part::Other => ["struct", "enum", "union", "mod"].iter().any(|word| {
                let shown = self.past_visibility(start).unwrap_or(start);
                self.sign(shown) == *word
            }),
            _ => false,
        };
        let open = self.head_end(start).ok()?;
        (is_block && self.sign(open) == "{").then_some(open + 1..end - 1)
    }

    /// Where something ends that ends behind one of these signs, or at `end`. Groups are one sign.
    fn past(&self, signs: &[&str], start: usize, end: usize) -> Result<usize, Fault> {
        let mut at = start;
        while at < end {
            let sign = self.sign(at);
            at = match sign {
                "(" | "[" | "{" => self.group_end(at)?,
                _ => at + 1,
            };
            if signs.contains(&sign) || sign == "{" && signs.contains(&"}") {
                break;
            }
        }
        Ok(at)
    }

    /// What is behind a token, or behind the brackets that begin with it.
    fn next(&self, at: usize) -> Result<usize, Fault> {
        match self.sign(at) {
            "(" | "[" | "{" => self.group_end(at),
            "<" => self.angles_end(at),
            _ => Ok(at + 1),
        }
    }

    /// Where brackets end that open at a token.
    pub fn group_end(&self, open: usize) -> Result<usize, Fault> {
        let mut depth = 0;
        for at in open..self.tokens.len() {
            match self.sign(at) {
                "(" | "[" | "{" => depth += 1,
                ")" | "]" | "}" => depth -= 1,
                _ => {}
            }
            if depth == 0 {
                return Ok(at + 1);
            }
        }
        fault(open, "brackets without an end")
    }

    /// Where angle brackets end that open at a token. The sign of an arrow is none.
    fn angles_end(&self, open: usize) -> Result<usize, Fault> {
        let mut at = open + 1;
        while at < self.tokens.len() && self.sign(at) != ">" {
            at = match self.sign(at) {
                "-" if self.sign(at + 1) == ">" => at + 2,
                _ => self.next(at)?,
            };
        }
        Ok(at + 1)
    }

    /// Whether an item that begins at a token is public.
    pub fn is_public(&self, start: usize) -> bool {
        self.sign(start) == "pub" && self.sign(start + 1) != "("
    }

    /// What is behind `crate::` or `self::` at the front of a path.
    pub fn past_root(&self, path: usize) -> usize {
        match self.sign(path) {
            "crate" | "self" => path + 3,
            _ => path,
        }
    }

    fn past_comments(&self, start: usize) -> usize {
        let is_comment = |at: &usize| {
            self.tokens
                .get(*at)
                .is_some_and(|token| token.kind == Kind::Comment)
        };
        (start..).find(|at| !is_comment(at)).unwrap_or(start)
    }

    /// What is behind the comments and attributes at a token.
    fn past_attributes(&self, start: usize) -> Result<usize, Fault> {
        let at = self.past_comments(start);
        let bracket = at + 1 + usize::from(self.sign(at + 1) == "!");
        match (self.sign(at), self.sign(bracket)) {
            ("#", "[") => self.past_attributes(self.group_end(bracket)?),
            _ => Ok(at),
        }
    }

    fn past_visibility(&self, start: usize) -> Result<usize, Fault> {
        match (self.sign(start), self.sign(start + 1)) {
            ("pub", "(") => self.group_end(start + 1),
            ("pub", _) => Ok(start + 1),
            _ => Ok(start),
        }
    }

    /// What is behind the words and the string that may stand before `fn`, `trait` and `impl`.
    fn past_modifiers(&self, start: usize) -> usize {
        let is_modifier = |at: usize| {
            let is_text = self
                .tokens
                .get(at)
                .is_some_and(|token| token.kind == Kind::Text);
            is_text || ["const", "async", "unsafe", "extern", "default"].contains(&self.sign(at))
        };
        (start..).find(|at| !is_modifier(*at)).unwrap_or(start)
    }

    fn is_word(&self, at: usize) -> bool {
        self.tokens
            .get(at)
            .is_some_and(|token| token.kind == Kind::Word)
    }
}

fn is_clause(sign: &str) -> bool {
    ["requires", "ensures"].contains(&sign)
}
