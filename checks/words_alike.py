#!/usr/bin/env python3
"""Checks that the exports of fixed_c are one text for all eight words.

    python3 checks/words_alike.py

The files of signed words have to be signed_8.rt and signed_8_functions.rt with the width exchanged, and those of unsigned
words likewise unsigned_8.rt and unsigned_8_functions.rt, letter by letter, but for the bytes of texts. Both files of
unsigned_8 have to be those of signed_8 with the word exchanged, item by item and in order, but for the imports of contracts,
the conversion of a word to its value, and the calls that one sign alone has.
Silent with status 0 if so; otherwise it names each place that differs and ends with 1.
"""
import re
import sys
from itertools import zip_longest
from pathlib import Path

TOP = Path(__file__).resolve().parent.parent
FOLDER = TOP / "crates/fixed_c/src"
PARTS = ["", "_functions"]
SIGNED_ALONE = ["fixed_u8_abs", "fixed_u8_signum", "fixed_u8_abs_block"]
UNSIGNED_ALONE = ["fixed_u8_next_power_of_two"]


def source(name):
    text = (FOLDER / f"{name}.rt").read_text()
    return re.sub(r"(decimal|buffer): (&(?:mut )?)\[u8\]", r"\1: \2[byte]", text)


def differing_widths(sign, part):
    """The first line of each wider word's file that is not that of 8 bits."""
    for width in ["16", "32", "64"]:
        expected = source(f"{sign}_8{part}").replace("8", width).splitlines()
        lines = zip_longest(expected, source(f"{sign}_{width}{part}").splitlines())
        for number, (want, got) in enumerate(lines, 1):
            if want != got:
                yield f"{sign}_{width}{part}.rt:{number}: other than {sign}_8{part}.rt: {got}"
                break


def as_unsigned(text):
    """The text of a signed word with the names of the unsigned one."""
    return re.sub(r"\btrue\b", "false", re.sub(r"i8\b|i8(?=_)", "u8", text).replace("I8", "U8"))


def items(text, alone):
    """The items without those of one sign alone, each without imports, conversions to values, and layout."""
    text = re.sub(r"^ghost use .*\n", "", text, flags=re.M)
    text = re.sub(r"\(λ x\. x\)\s+|\bpos\s+", "", text)
    text = re.sub(r"\((\w+)\)", r"\1", text)
    joined = [" ".join(item.split()) for item in text.split("\n\n")]
    return [item for item in joined if not any(f"fn {name}(" in item for name in alone)]


def differing_signs(part):
    """The first item of the unsigned word that is not that of the signed one."""
    signed = items(as_unsigned(source(f"signed_8{part}")), SIGNED_ALONE)
    unsigned = items(source(f"unsigned_8{part}"), UNSIGNED_ALONE)
    for want, got in zip_longest(signed, unsigned):
        if want != got:
            return [f"unsigned_8{part}.rt: other than signed_8{part}.rt: {got}"]
    return []


def main():
    wrong = []
    for part in PARTS:
        wrong += [*differing_widths("signed", part), *differing_widths("unsigned", part), *differing_signs(part)]
    print("\n".join(wrong), end="\n" if wrong else "")
    return 1 if wrong else 0


if __name__ == "__main__":
    sys.exit(main())
