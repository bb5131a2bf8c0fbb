//! Sources as tokens, so that a brace, a quote or a word inside a comment, a string or a character is never taken for
//! code.

/// What a token is. Docs are comments too.
#[derive(Clone, Copy, PartialEq, Eq, Debug)]
pub enum Kind {
    Comment,
    /// A string or a character.
    Text,
    /// A name, a number or a lifetime.
    Word,
    Sign,
}

/// A token, and the byte of the source at which it begins.
#[derive(Clone, Copy, Debug)]
pub struct Token<'a> {
    pub kind: Kind,
    pub text: &'a str,
    pub at: usize,
}

impl Token<'_> {
    /// The byte behind the token.
    pub fn end(&self) -> usize {
        self.at + self.text.len()
    }
}

/// The tokens of a source, in order. Only white space lies between them.
pub fn tokens(source: &str) -> Vec<Token<'_>> {
    let mut found = Vec::new();
    let mut rest = source.trim_start();
    while !rest.is_empty() {
        let (kind, length) = first(rest);
        let (text, after) = rest.split_at(length);
        let at = source.len() - rest.len();
        found.push(Token { kind, text, at });
        rest = after.trim_start();
    }
    found
}

/// The tokens of a source that are no comments, as texts.
pub fn code(source: &str) -> Vec<&str> {
    let all = tokens(source).into_iter();
    let code = all.filter(|token| token.kind != Kind::Comment);
    code.map(|token| token.text).collect()
}

/// The kind and the length of the first token of a text that begins with one.
fn first(rest: &str) -> (Kind, usize) {
    if rest.starts_with("//") {
        return (Kind::Comment, rest.find('\n').unwrap_or(rest.len()));
    }
    if rest.starts_with("/*") {
        return (Kind::Comment, block_comment(rest));
    }
    if let Some(length) = string(rest).or_else(|| character(rest)) {
        return (Kind::Text, length);
    }
    let name = rest.strip_prefix('\'').unwrap_or(rest);
    match word(name) {
        0 => (Kind::Sign, rest.chars().next().map_or(0, char::len_utf8)),
        length => (Kind::Word, rest.len() - name.len() + length),
    }
}

/// The length of a name or a number at the front. Names in contracts may end in primes.
fn word(text: &str) -> usize {
    let end = text.find(|sign: char| !sign.is_alphanumeric() && sign != '_');
    let length = end.unwrap_or(text.len());
    let primes = text[length..].len() - text[length..].trim_start_matches('\'').len();
    if length == 0 { 0 } else { length + primes }
}

/// The length of a comment at the front that is closed by a sign of its own, and in which others may stand.
fn block_comment(text: &str) -> usize {
    let (mut depth, mut at) = (0, 0);
    while at < text.len() {
        let step = match &text.as_bytes()[at..] {
            [b'/', b'*', ..] => 1,
            [b'*', b'/', ..] => -1,
            _ => 0,
        };
        depth += step;
        at += if step == 0 { 1 } else { 2 };
        if depth == 0 {
            break;
        }
    }
    at
}

/// The length of a string at the front, if there is one: `".."`, `b".."`, `c".."`, `r#".."#` and so on.
fn string(text: &str) -> Option<usize> {
    let marked = text.trim_start_matches(['b', 'c', 'r']);
    let letters = &text[..text.len() - marked.len()];
    let quoted = marked.trim_start_matches('#');
    let hashes = &marked[..marked.len() - quoted.len()];
    let inner = quoted.strip_prefix('"')?;
    let end = match letters {
        "r" | "br" | "cr" => inner.find(&format!("\"{hashes}")),
        "" | "b" | "c" if hashes.is_empty() => closed(inner, '"'),
        _ => return None,
    };
    let length = end.map_or(inner.len(), |end| end + 1 + hashes.len());
    Some(text.len() - inner.len() + length)
}

/// The length of a character at the front, if there is one. What has no quote behind it is a lifetime or a prime.
fn character(text: &str) -> Option<usize> {
    let inner = text
        .strip_prefix("b'")
        .or_else(|| text.strip_prefix('\''))?;
    let mut signs = inner.chars();
    let is_escaped = signs.next()? == '\\';
    let is_closed = is_escaped || signs.next() == Some('\'');
    let end = closed(inner, '\'').filter(|_| is_closed)?;
    Some(text.len() - inner.len() + end + 1)
}

/// Where the first quote stands that no `\` is before.
fn closed(text: &str, quote: char) -> Option<usize> {
    let mut is_escaped = false;
    text.char_indices().find_map(|(at, sign)| {
        let is_end = sign == quote && !is_escaped;
        is_escaped = sign == '\\' && !is_escaped;
        is_end.then_some(at)
    })
}
