"""The tokens of a Rattle source: its code, without comments, contracts and ghost items.

A token is a name, a number, a text, a character, a lifetime or a sign, with the line on which it begins. Signs are
single characters, but for those of `SIGNS`. A source may be incomplete: a bracket without its partner ends with it.
"""
import re
from collections import namedtuple

Token = namedtuple("Token", "kind text line")

SIGNS = ["..=", "...", "..", "::", "->", "=>", "==", "!=", "<=", ">="]
PATTERN = re.compile(
    r"""
    (?P<space>\s+|//[^\n]*)
    | (?P<block>/\*)
    | (?P<text>[bc]?r(?P<hashes>\#*)".*?"(?P=hashes) | [bc]?"(?:\\.|[^"\\])*")
    | (?P<character>b?'(?:\\(?:x[0-9a-fA-F]{2}|u\{[^}]*\}|.)|[^'\\\n])')
    | (?P<lifetime>'[^\W\d]\w*)
    | (?P<number>\d\w*(?:\.\d\w*)?)
    | (?P<name>(?:r\#)?[^\W\d]\w*)
    | (?P<sign>%s|.)
    """
    % "|".join(map(re.escape, SIGNS)),
    re.X | re.S,
)
PARTNERS = {")": "(", "]": "[", "}": "{"}


def end_of_comment(source, at):
    """Where the block comment that begins there ends, with those inside it."""
    depth = 0
    for mark in re.compile(r"/\*|\*/").finditer(source, at):
        depth += 1 if mark.group() == "/*" else -1
        if depth == 0:
            return mark.end()
    return len(source)


def all_tokens(source):
    found = []
    at, line = 0, 1
    while at < len(source):
        match = PATTERN.match(source, at)
        end = end_of_comment(source, at) if match.lastgroup == "block" else match.end()
        if match.lastgroup not in ("space", "block"):
            found.append(Token(match.lastgroup, match.group(), line))
        line += source.count("\n", at, end)
        at = end
    return found


def closers(tokens):
    """The index of each opening bracket's partner; the end of the source where there is none."""
    ends = {}
    still_open = []
    for at, token in enumerate(tokens):
        if token.kind == "sign" and token.text in PARTNERS.values():
            still_open.append(at)
        elif token.kind == "sign" and token.text in PARTNERS:
            if still_open and tokens[still_open[-1]].text == PARTNERS[token.text]:
                ends[still_open.pop()] = at
    return ends | {at: len(tokens) for at in still_open}


def end_of_ghost(tokens, ends, at):
    """Where a ghost item ends: behind its `;` or `,`, or before the bracket that closes what it stands in."""
    while at < len(tokens) and tokens[at].text not in PARTNERS:
        if tokens[at].text in (";", ","):
            return at + 1
        at = ends.get(at, at) + 1
    return at


def end_of_clause(tokens, ends, at):
    """Where a clause that begins there ends; there itself where none does."""
    brace = at + 1
    while brace < len(tokens) and (tokens[brace].text == "*" or tokens[brace].kind == "name"):
        brace += 1
    is_clause = brace < len(tokens) and tokens[brace].text == "{"
    return ends[brace] + 1 if is_clause else at


def tokens_of(source):
    """The tokens of the code."""
    tokens = all_tokens(source)
    ends = closers(tokens)
    kept = []
    at = 0
    while at < len(tokens):
        end = at
        if tokens[at].text == "ghost":
            end = end_of_ghost(tokens, ends, at)
        elif tokens[at].text in ("requires", "ensures"):
            end = end_of_clause(tokens, ends, at)
        if end == at:
            kept.append(tokens[at])
        at = max(end, at + 1)
    return kept
