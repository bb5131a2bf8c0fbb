#!/usr/bin/env python3
"""Finds functions and lemmas that are equal but for names.

    python3 checks/twice.py            silent with status 0 where each find is allowed and each allowance is needed;
                                       otherwise it names each that is not, and ends with 1
    python3 checks/twice.py --all      each find, the allowed ones too

A find is two or more functions of crates/fixed*/src, or lemmas of crates/fixed*/proofs/*.antt, that are equal after
their names are replaced in the order of their first use. Contracts, visibility and comments do not count. In functions
the names of what is called, fields, types and paths stay; in lemmas those that a file imports from std. Functions of
fewer than 25 signs and lemmas of fewer than 40 are not compared, since they are alike by chance.

checks/twice.txt lists what is allowed: a line with a reason, then indented patterns. A find is allowed if each of its
places, such as `fixed_word/src/words.rt: to_wide`, matches a pattern of one reason.
"""
import re
import sys
from collections import defaultdict
from fnmatch import fnmatchcase
from pathlib import Path

from ending import ended

TOP = Path(__file__).resolve().parent.parent
CRATES = TOP / "crates"
ALLOWED = Path(__file__).resolve().parent / "twice.txt"
LEAST = {".rt": 25, ".antt": 40}

RUST = re.compile(r"\"(?:[^\"\\]|\\.)*\"|'(?:[^'\\]|\\.)'|[A-Za-z_]\w*|\d[\w.]*|[^\s\w]")
KEPT = set("""as break const continue crate else enum false fn for if impl in let loop match mod move mut pub ref return
self static struct super trait true type unsafe use where while bool char i8 i16 i32 i64 i128 isize str u8 u16 u32 u64
u128 usize""".split())
FUNCTION = re.compile(r"^( *)(?:pub(?:\([\w ]+\))? )?(?:const )?fn (\w+)", re.M)

ANTT = re.compile(r"[^\s(){}\[\],;.:]+|[(){}\[\],;.:]")
ANTT_KEPT = set("→ ≡ λ = × ∷ ∙ + * - ^ < ≤ ↔ ¬ in let ap refl sym if then else with where module unfolding".split())
LEMMA = re.compile(r"^( *)(?:pub )?([^\s(){}:]+) : ")
SKIPPED = re.compile(r" *(?:--|use |pub use |mod |pub mod |unfolding |abbrev |syntax |infix)")


# ---- functions


def functions(text):
    """The name and the text of each function with a body, without contracts, comments and attributes."""
    lines = re.sub(r"//.*", "", text).split("\n")
    for at, line in enumerate(lines):
        match = FUNCTION.match(line)
        if not match:
            continue
        indent, name = match.groups()
        head = []
        while at < len(lines) and lines[at].strip() and not re.match(r" *(?:requires|ensures|ghost)\b", lines[at]):
            head.append(lines[at])
            at += 1
            if head[-1].rstrip().endswith(("{", ";")):
                break
        while at < len(lines) and not re.match(rf"{indent}\{{|{indent}\}}", lines[at]) and not head[-1].endswith("{"):
            at += 1
        body = []
        if at < len(lines) and lines[at] == indent + "{}":
            continue
        while at < len(lines) and lines[at] != indent + "}":
            body.append(lines[at])
            at += 1
        if body:
            yield name, re.sub(r"^ *(?:pub(?:\([\w ]+\))? )?", "", "\n".join(head + body))


def shape_of_function(text):
    """The signs of a function, its names replaced in the order of their first use."""
    signs = RUST.findall(re.sub(r",(\s*[)\]}])", r"\1", text))
    numbers = {}
    shape = []
    for at, sign in enumerate(signs):
        before, after = signs[at - 1:at], "".join(signs[at + 1:at + 3])
        is_name = re.match(r"[a-z_]\w*$|[A-Z]\d?$", sign) and sign not in KEPT
        is_used = before in (["."], [":"]) or after.startswith("::") or (after.startswith("(") and before != ["fn"])
        if is_name and not is_used:
            sign = numbers.setdefault(sign, f"#{len(numbers)}")
        shape.append(sign)
    return tuple(shape)


# ---- lemmas


def lemmas(text):
    """The name and the text of each lemma: its type and its equations."""
    block, name, indent = [], None, ""
    for line in [*text.split("\n"), ""]:
        match = LEMMA.match(line)
        if name and (not line.strip() or (match and len(match.group(1)) <= len(indent))):
            yield name, "\n".join(block)
            block, name = [], None
        if name and not SKIPPED.match(line):
            block.append(line)
        elif match and not SKIPPED.match(line):
            indent, name = match.groups()
            block = [line]


def from_std(text):
    """The names that a file imports from std."""
    return {name for names in re.findall(r"^use Rattle\.std\..*?\{(.*)\}", text, re.M) for name in names.split(", ")}


def shape_of_lemma(text, kept):
    numbers = {}
    shape = []
    for sign in ANTT.findall(text):
        if re.search(r"[^\W\d_]", sign) and sign not in kept and sign not in ANTT_KEPT:
            sign = numbers.setdefault(sign, f"#{len(numbers)}")
        shape.append(sign)
    return tuple(shape)


# ---- finds


def shapes(path, text):
    """The name and the shape of each function or lemma of a file."""
    if path.suffix == ".rt":
        return [(name, shape_of_function(part)) for name, part in functions(text)]
    kept = from_std(text)
    return [(name, shape_of_lemma(part, kept)) for name, part in lemmas(text)]


def finds(files):
    """The places of each find, of files by path."""
    places = defaultdict(list)
    for path, text in files.items():
        for name, shape in shapes(path, text):
            if len(shape) >= LEAST[path.suffix]:
                places[path.suffix, shape].append(f"{path}: {name}")
    return [group for group in places.values() if len(group) > 1]


def sources():
    paths = [*CRATES.glob("fixed*/src/*.rt"), *CRATES.glob("fixed*/proofs/*.antt")]
    return {path.relative_to(CRATES): path.read_text() for path in sorted(paths)}


def allowances(text):
    """The patterns under each reason."""
    found = {}
    for line in text.splitlines():
        if line.startswith("    "):
            found[reason].append(line.strip())
        elif line.strip():
            reason = line.strip()
            found[reason] = []
    return found


def reason_for(group, allowed):
    """The reason that allows a find, if one does."""
    for reason, patterns in allowed.items():
        if all(any(fnmatchcase(place, pattern) for pattern in patterns) for place in group):
            return reason
    return None


def faults(groups, allowed):
    used = set()
    for group in groups:
        reason = reason_for(group, allowed)
        used.add(reason)
        if reason is None:
            yield "equal but for names:\n" + "\n".join(f"    {place}" for place in group)
    yield from (f"checks/twice.txt: nothing is found for: {reason}" for reason in allowed if reason not in used)


def main():
    groups = finds(sources())
    allowed = allowances(ALLOWED.read_text()) if ALLOWED.exists() else {}
    return ended(faults(groups, {} if "--all" in sys.argv[1:] else allowed))


if __name__ == "__main__":
    sys.exit(main())
