#!/usr/bin/env python3
"""Lists the definitions of crates/*/specs that the public clauses reach, file by file, and counts their lines.

    python3 checks/definitions.py            lists and counts
    python3 checks/definitions.py --check    silent with status 0 where each definition stands in its place and the
                                             counts of docs/DEFINITIONS.md are those counted; otherwise it names each
                                             that is not so and ends with 1

A definition is reached where a clause cites it, or the body of a definition that is reached; `do` cites `>>=`. What the
public clauses of any crate reach has its place outside of specs/inside/; what private functions alone cite, or proofs
alone, inside.

A count is of lines without imports, comments and blank lines. There are three: of what the clauses of `calc_main`
reach, with those of the traits that bound its source and its sinks; of what the public clauses of the library's crates
reach; and of what the public clauses of all crates reach. Types that the sources declare are not counted.

Public are the clauses of functions and of types that a crate offers, of the members of traits that it offers, and of
impls whose type and trait it does not keep to itself. A program offers nothing: there the items marked `pub` count. A
ghost member of an impl whose name ends in `_law` holds a proof, and cites nothing that is to be believed.

Names are read as the files import them, so this is a reading by names and not by types.
"""
import re
import sys
from collections import namedtuple
from pathlib import Path

TOP = Path(__file__).resolve().parent.parent
CRATES = TOP / "crates"
PAGE = TOP / "docs" / "DEFINITIONS.md"
LIBRARY = ["word", "bits", "root", "logs", "kernel", "num", "policy", "strict", "ops"]

# A place is a module and a name in it. A definition has the place's file, its text, how many lines it has, and what its
# file imports: the places of names. A constructor has the text of its type's name and no lines of its own.
Definition = namedtuple("Definition", "path text lines imports")

# An item of a source: whether it is public, its name, and the text of its clauses.
Item = namedtuple("Item", "is_public name clauses")

NAME = re.compile(r"(?<![^\s(){}\[\],;:λ∷→≡×])[^\s(){}\[\],;.:λ∷→≡×]+")
DEFINED = re.compile(r"(?:abbrev |unfoldable )?(?:pub )?(?:record |data )?([^\s(]+)")
FIRST_LINE = re.compile(r"(?:abbrev |unfoldable |pub |record |data )|\S+ : ")
CONSTRUCTOR = re.compile(r"\s+(\S+) :")
IMPLIED = {"do": "◌>>=◌"}
SKIPPED = ("use ", "pub use ", "mod ", "pub mod ", "infix")
VISIBLE = r"(?:pub(?:\([\w ]+\))? )?"


def crates():
    """The crates that have definitions, by name."""
    return sorted(folder.name for folder in CRATES.iterdir() if (folder / "specs").is_dir())


# ---- definitions


def module_of(crate, path):
    parts = path.relative_to(CRATES / crate / "specs").with_suffix("").parts
    return ".".join(["Rattle", crate, "specs", *parts])


def imported(text):
    """The place of each name that a text imports."""
    places = {}
    for module, names in re.findall(r"\buse ((?:Rattle|crate)[\w.]*)\.\{([^}]*)\}", text):
        for entry in names.split(","):
            name, _, alias = entry.strip().partition(" as ")
            places[alias or name] = (module, name)
    return places


def pieces_of(text):
    """The lines of each definition: those from its first line on, without comments, imports and blank lines."""
    pieces = []
    for line in text.split("\n"):
        if not line.strip() or line.lstrip().startswith("--") or line.startswith(SKIPPED):
            continue
        if FIRST_LINE.match(line):
            pieces.append([line])
        elif pieces:
            pieces[-1].append(line)
    return pieces


def constructors(lines):
    """The names of the constructors of a data type, which stand one in a line."""
    if not re.match(r"(?:pub )?data ", lines[0]):
        return []
    return [match.group(1) for match in map(CONSTRUCTOR.match, lines[1:]) if match]


def definitions_in(crate, path):
    text = path.read_text()
    module = module_of(crate, path)
    imports = imported(text)
    found = {}
    for lines in pieces_of(text):
        name = DEFINED.match(lines[0]).group(1)
        found[module, name] = Definition(path, "\n".join(lines), len(lines), imports)
        for constructor in constructors(lines):
            found[module, constructor] = Definition(path, name, 0, imports)
    return found


def all_definitions():
    found = {}
    for crate in crates():
        for path in sorted((CRATES / crate / "specs").rglob("*.antt")):
            found |= definitions_in(crate, path)
    return found


def offered_modules():
    """The modules that a crate offers again under its own name, each with the module that they are."""
    modules = {}
    for crate in crates():
        library = (CRATES / crate / "specs" / "Lib.antt").read_text()
        for module in re.findall(r"^pub use (Rattle[\w.]+)$", library, re.M):
            modules[f"Rattle.{crate}.specs.{module.rpartition('.')[2]}"] = module
    return modules


class Reading:
    """All definitions, and what a text cites of them."""

    def __init__(self):
        self.definitions = all_definitions()
        self.again = offered_modules()

    def place(self, module, name):
        """The place of a definition, by the module from which it is imported; None where there is none."""
        place = (self.again.get(module, module), name)
        return place if place in self.definitions else None

    def cited(self, text, imports, module=None):
        """The places that a text cites, by what its file imports or its module defines."""
        found = set()
        for word in NAME.findall(text):
            for name in (word, f"◌{word}◌", IMPLIED.get(word)):
                found.add(self.place(*imports.get(name, (module, name))))
        return found - {None}

    def reached(self, places):
        """The places that these reach."""
        seen = set()
        left = list(places)
        while left:
            place = left.pop()
            if place not in seen:
                seen.add(place)
                definition = self.definitions[place]
                left += self.cited(definition.text, definition.imports, place[0])
        return seen

    def lines(self, places):
        return sum(self.definitions[place].lines for place in places)


# ---- sources


def bared(text):
    """A source without comments and attributes."""
    text = re.sub(r"[ \t]*//[^\n]*", "", text)
    return re.sub(r"^[ \t]*#!?\[[^\n]*\n", "", text, flags=re.M)


def parts(text, indent):
    """The items of a text at an indent, each with what follows up to the next."""
    start = re.compile(rf"^{indent}(?=[a-z])", re.M)
    starts = [match.start() for match in start.finditer(text)] + [len(text)]
    return [text[first:last] for first, last in zip(starts, starts[1:])]


def clauses_of(part, indent):
    """What stands before a function's body; a body's brace begins a line where there is a clause, and only there."""
    body = re.search(rf"^{indent}\{{", part, re.M)
    if body:
        return part[: body.start()]
    return part if part.rstrip(" }\n").endswith(";") else ""


def is_marked_public(part):
    return bool(re.match(r"\s*pub (?!\()", part))


def name_after(keyword, part):
    match = re.match(rf'\s*{VISIBLE}(?:const |final |extern "C" )*{keyword} (\w+)', part)
    return match and match.group(1)


def bare(type_name):
    """The name of a type or trait, without its path and its parameters."""
    return re.sub(r"<.*", "", type_name).strip(" &").rpartition("::")[2]


def member_clauses(member):
    """What stands before a member's body, or a ghost member; an import has none."""
    return "" if re.match(r"\s*ghost use", member) else clauses_of(member, "    ")


class Source:
    """One file of a crate's sources, the names that the crate offers of it, and the types that the crate keeps.

    Where `offered` is None the file is offered whole.
    """

    def __init__(self, path, offered, kept):
        self.text = bared(path.read_text())
        self.imports = imported(self.text)
        self.offered = offered
        self.kept = kept

    def items(self):
        """Each function, ghost member and trait member, with its clauses."""
        for part in parts(self.text, ""):
            name = name_after("fn", part)
            if name:
                yield Item(self.is_offered(part, name), name, clauses_of(part, ""))
            elif part.startswith("impl"):
                yield from self.impl_items(part)
            elif re.match(rf"{VISIBLE}(?:trait|struct|enum) ", part):
                yield from self.type_items(part)

    def is_offered(self, part, name):
        """A call for C is offered by its own name, whatever module it stands in."""
        is_named = self.offered is None or name in self.offered or part.startswith('pub extern "C" ')
        return is_marked_public(part) and is_named

    def type_items(self, part):
        """The members of a trait, a struct or an enum, which are as public as it is."""
        name = next(filter(None, (name_after(word, part) for word in ("trait", "struct", "enum"))))
        for member in parts(part, "    "):
            yield Item(self.is_offered(part, name), name, member_clauses(member))

    def impl_items(self, part):
        """The members of an impl: of a trait all alike, and of a type alone each as it is marked."""
        head = re.sub(r"^impl(?:<[^{]*?>)? ", "", part.partition("{")[0].strip())
        of_trait, between, of_type = head.rpartition(" for ")
        is_public = bare(of_type) not in self.kept and bare(of_trait) not in self.kept
        for member in parts(part, "    "):
            shown = is_public and bool(between or is_marked_public(member) or member.lstrip().startswith("ghost"))
            is_proof = re.match(r"\s*ghost \w+_law =", member)
            yield Item(shown, bare(of_type), "" if is_proof else member_clauses(member))


def offered_names(root):
    """The names that a library offers one by one, and the modules that it offers whole."""
    names = set(re.findall(r"\w+", " ".join(re.findall(r"^pub use (.*?);", root, re.M | re.S))))
    return names, set(re.findall(r"^pub mod (\w+)", root, re.M))


def declared_types(text):
    return set(re.findall(rf"^{VISIBLE}(?:struct|enum|trait) (\w+)", text, re.M))


def offered_by_file(crate):
    """The sources of a crate without its tests, each with the names that are offered of it, or None for all."""
    folder = CRATES / crate / "src"
    library = folder / "lib.rt"
    names, modules = offered_names(library.read_text()) if library.exists() else (None, set())
    paths = [path for path in sorted(folder.rglob("*.rt")) if path.stem != "tests"]
    return {path: None if path.stem in modules else names for path in paths}


def kept_types(path, offered):
    """The types and traits that a file declares and that are not offered."""
    text = path.read_text()
    if offered is None:
        return {name for name in declared_types(text) if not re.search(rf"^pub \w+ {name}\b", text, re.M)}
    return declared_types(text) - offered


def sources(crate):
    files = offered_by_file(crate)
    kept = set().union(*(kept_types(path, offered) for path, offered in files.items()))
    return [Source(path, offered, kept) for path, offered in files.items()]


def cited_by(reading, crate, is_wanted):
    """The places that the wanted items of a crate cite."""
    found = set()
    for source in sources(crate):
        for item in source.items():
            if is_wanted(item):
                found |= reading.cited(item.clauses, source.imports)
    return found


# ---- what is counted


def public_places(reading, names):
    found = set()
    for crate in names:
        found |= cited_by(reading, crate, lambda item: item.is_public)
    return reading.reached(found)


def headline_places(reading):
    call = cited_by(reading, "fixed_calc", lambda item: item.name == "calc_main")
    return reading.reached(call | cited_by(reading, "fixed_stream", lambda item: item.name in ("Source", "Sink")))


def private_places(reading):
    found = set()
    for crate in crates():
        found |= cited_by(reading, crate, lambda item: not item.is_public)
    return reading.reached(found)


def counted(reading):
    """The three counts, by the word with which docs/DEFINITIONS.md begins their lines."""
    return {
        "headline": reading.lines(headline_places(reading)),
        "library": reading.lines(public_places(reading, [f"fixed_{name}" for name in LIBRARY])),
        "all": reading.lines(public_places(reading, crates())),
    }


def citer(place, public, private):
    """Who cites a definition, in words."""
    if place in public:
        return "public clauses cite it"
    return "private functions alone cite it" if place in private else "no clause cites it"


def misplaced(reading):
    """A line for each definition that stands on the wrong side of specs/inside/."""
    public = public_places(reading, crates())
    private = private_places(reading)
    for place, definition in reading.definitions.items():
        is_inside = "inside" in definition.path.parts
        if definition.lines and is_inside == (place in public):
            side = "inside" if is_inside else "outside of specs/inside"
            yield f"{definition.path.relative_to(TOP)}: {place[1]} stands {side}: {citer(place, public, private)}"


def written_counts():
    """The counts that docs/DEFINITIONS.md states, in the rows of a table."""
    rows = re.findall(r"^\| (headline|library|all)\b.*?\| ([\d,]+) \|$", PAGE.read_text(), re.M)
    return {word: int(count.replace(",", "")) for word, count in rows}


def false_counts(reading):
    written = written_counts()
    for word, count in counted(reading).items():
        if written.get(word) != count:
            yield f"docs/DEFINITIONS.md: {word} has {written.get(word)}, and {count} lines are counted"


# ---- the listing


def listed_file(reading, path, public):
    """The lines on one file: what public clauses reach in it, and what they do not."""
    places = [place for place, found in reading.definitions.items() if found.path == path and found.lines]
    reached = [place for place in places if place in public]
    others = [place for place in places if place not in public]
    yield f"{path.relative_to(CRATES)}: {reading.lines(reached)} of {reading.lines(places)} lines"
    for title, group in (("reached", reached), ("not", others)):
        if group:
            yield f"    {title}: {' '.join(name for _, name in group)}"


def listing(reading):
    public = public_places(reading, crates())
    for path in dict.fromkeys(definition.path for definition in reading.definitions.values()):
        yield from listed_file(reading, path, public)
    for word, count in counted(reading).items():
        yield f"{word}: {count} lines"
    yield f"in specs/: {reading.lines(reading.definitions)} lines"


def main():
    reading = Reading()
    if sys.argv[1:] == ["--check"]:
        faults = [*misplaced(reading), *false_counts(reading)]
        print(*faults, sep="\n", end="\n" if faults else "")
        sys.exit(1 if faults else 0)
    print(*listing(reading), sep="\n")


if __name__ == "__main__":
    main()
