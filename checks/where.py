#!/usr/bin/env python3
"""Lists the files in which an operation, a word, a policy or a run occurs.

    python3 checks/where.py NAME               each file that mentions NAME, by kind of file
    python3 checks/where.py NEW --like OLD     each file that mentions OLD, and neither mentions NEW nor has a
                                               counterpart whose path names NEW

A file mentions a name in every spelling: `next_multiple_of`, `NextMultipleOf`, `next-multiple-of`. The name may have
affixes, such as those of `checked_mul`, `mul_of` and `fixed_i32_mul`, but no other words: `mul_add` does not mention
`mul`. Only a word, such as `i32`, may be any part of a name. The path of a file counts as text of it.
"""
import argparse
import re
import sys
from pathlib import Path

TOP = Path(__file__).resolve().parent.parent
SKIPPED = {".git", "out", "target", "__pycache__"}
WORDS = {f"{sign}{width}" for sign in "iu" for width in (8, 16, 32, 64)}
POLICIES = {"checked", "overflowing", "wrapping", "saturating", "strict", "unwrapped"}
AFFIXES = WORDS | POLICIES | {"exact", "fixed", "in", "law", "memory", "of", "quick", "round", "rounded", "run", "runs"}
TOKEN = re.compile(r"[A-Za-z][A-Za-z0-9_-]*")
PART = re.compile(r"[A-Z]?[a-z0-9]+|[A-Z0-9]+(?![a-z])")

# The kinds of files, in the order in which they are listed. The first pattern that the path matches counts.
KINDS = [
    ("tests", r"crates/tests_|rust/tests/|checks/test_"),
    ("code", r"crates/[^/]+/src/"),
    ("definitions", r"crates/[^/]+/specs/"),
    ("proofs", r"crates/[^/]+/proofs/"),
    ("wrong bodies", r"crates/[^/]+/must-fail/"),
    ("pages", r".*\.md$"),
    ("scripts and tables", r""),
]


def files():
    """The text of each file of the repository, by its path."""
    found = {}
    for path in sorted(TOP.rglob("*")):
        place = path.relative_to(TOP)
        if path.is_file() and not SKIPPED & set(place.parts):
            try:
                found[str(place)] = path.read_text()
            except UnicodeDecodeError:
                pass
    return found


def parts(token):
    """The words of a name, in small letters."""
    return tuple(part.lower() for part in PART.findall(token))


def is_name(token, name):
    """Whether a token is the name, perhaps with affixes, or has the word."""
    words, size = parts(token), len(name)
    if WORDS.issuperset(name):
        return name[0] in words
    return any(words[at:at + size] == name and AFFIXES.issuperset(words[:at] + words[at + size:])
               for at in range(len(words) - size + 1))


def mentions(path, text, name):
    return any(is_name(token, name) for token in set(TOKEN.findall(f"{path}\n{text}")))


def kind_of(path):
    return next(kind for kind, pattern in KINDS if re.match(pattern, path))


def where(texts, name):
    """The files that mention a name."""
    name = parts(name)
    return [path for path, text in texts.items() if mentions(path, text, name)]


def lacking(texts, new, old):
    """The files that mention the old name, but for those that the new one has too."""
    has_new = set(where(texts, new))
    places = {path: {path, path.replace(old, new), path.replace(old.upper(), new.upper())} for path in where(texts, old)}
    return [path for path in places if not has_new & places[path]]


def listing(paths):
    """The files by kind, each kind under a line with its count."""
    for kind, _ in KINDS:
        group = [path for path in paths if kind_of(path) == kind]
        if group:
            yield f"{kind}: {len(group)}"
            yield from (f"    {path}" for path in group)


def main():
    parser = argparse.ArgumentParser(description=__doc__.split("\n")[0])
    parser.add_argument("name")
    parser.add_argument("--like", metavar="OLD", help="list what mentions OLD and not NAME")
    arguments = parser.parse_args()
    texts = files()
    known = arguments.like or arguments.name
    if not where(texts, known):
        print(f"no file mentions {known}")
        return 1
    found = lacking(texts, arguments.name, arguments.like) if arguments.like else where(texts, known)
    print("\n".join(listing(found)), end="\n" if found else "")
    return 0


if __name__ == "__main__":
    sys.exit(main())
