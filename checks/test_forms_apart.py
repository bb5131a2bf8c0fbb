#!/usr/bin/env python3
"""Plants each form of checks/forms_apart.txt at the end of a source, and expects checks/forms_apart.py to name it.

    python3 checks/test_forms_apart.py

Silent with status 0 where each form is named as of its class, each that runs the same is not named, and an entry of
`ALLOWED` that matches nothing is an error; otherwise it prints what is not so and ends with 1.
"""
import sys
from pathlib import Path

import forms_apart
from forms_apart import DISPLAY, TITLES, TOP, all_places, faults, places_in

FORMS = Path(__file__).resolve().parent / "forms_apart.txt"

# Forms are planted in a file with allowed places, in one with traits, and in one that ends in an impl.
FILES = [DISPLAY, "crates/fixed_word/src/word.rt", "crates/fixed_filter/src/bank.rt"]


def planted_forms():
    """Each form with its class and what it is."""
    for part in FORMS.read_text().split("\n= ")[1:]:
        head, _, form = part.partition("\n")
        name, _, what = head.partition(": ")
        yield name, what, form


def said_with(path, form, places):
    """What the check says with a form at the end of that file, beside the places in the others."""
    source = (TOP / path).read_text() + form
    others = [place for place in places if place[0] != path]
    return list(faults([*others, *places_in(path, source)]))


def wrong_forms(path, places):
    """A line for each form that the check does not judge as it should."""
    for name, what, form in planted_forms():
        said = said_with(path, form, places)
        if name == "same" and said:
            yield f"{path}: named, though it runs the same: {what}: {said[0]}"
        elif name != "same" and not any(f": {TITLES[name]}: " in line for line in said):
            yield f"{path}: not named as {TITLES[name]}: {what}"


def wrong_entries(places):
    """A line for each entry whose place may go without a word."""
    for entry in forms_apart.ALLOWED:
        left = [place for place in places if (place[0], place[1], place[3]) != (entry.path, entry.form, entry.line)]
        if not list(faults(left)):
            yield f"{entry.path}: nothing is said where no line is {entry.line!r}"


def classes_without_a_form():
    planted = {name for name, _, _ in planted_forms()}
    return [f"no form of the class {name} is planted" for name in TITLES if name not in planted]


def main():
    places = all_places()
    wrong = [line for path in FILES for line in wrong_forms(path, places)]
    wrong += [*wrong_entries(places), *classes_without_a_form()]
    print(*wrong, sep="\n", end="\n" if wrong else "")
    sys.exit(1 if wrong else 0)


if __name__ == "__main__":
    main()
