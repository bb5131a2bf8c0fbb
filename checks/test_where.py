#!/usr/bin/env python3
"""Compares what checks/where.py finds with small texts whose names are known, and with files of the repository.

    python3 checks/test_where.py

Silent with status 0 where all is as expected; otherwise it prints what is not so and ends with 1.
"""
import sys

from ending import ended
from where import files, is_name, kind_of, lacking, parts, where

MENTIONS = {
    "mul": ["mul", "Mul", "checked_mul", "mul_of", "mul_round_of", "fixed_i32_mul", "exact_mul", "checked-mul", "MUL"],
    "next_multiple_of": ["NextMultipleOf", "next_multiple_of_of", "checked_next_multiple_of"],
    "poly": ["fixed_poly", "poly_run", "PolyRun", "poly_memory"],
    "i32": ["i32", "I32", "fixed_i32_mul", "I32Word"],
}
OTHERS = {
    "mul": ["mul_add", "MulAdd", "mul_int", "multiple", "checked_mul_acc"],
    "next_multiple_of": ["next_power_of_two", "multiple_of"],
    "poly": ["polynomial"],
    "i32": ["u32", "i3"],
}
TEXTS = {
    "crates/a/src/lib.rt": "fn checked_div() {} fn checked_rem() {}",
    "crates/a/proofs/checked_div/Answers.antt": "a proof",
    "crates/a/proofs/checked_rem/Answers.antt": "a proof",
    "crates/a/proofs/div_of/Answers.antt": "a proof",
    "crates/tests_a/src/lib.rt": "Op::Div",
    "docs/A.md": "`div_int` and `rem`",
}
PLACES = {
    "next_multiple_of": ["crates/fixed_kernel/specs/Rows.antt", "crates/fixed_script/specs/inside/OpGroups.antt",
                         "crates/fixed/src/kernel.rt", "checks/model.py", "checks/random_scripts.py", "docs/GUIDE.md"],
    "poly": ["crates.txt", "rust/docs/poly.txt", "crates/fixed_poly/src/poly_script.rt"],
}


def wrong():
    for name, tokens in MENTIONS.items():
        yield from (f"{token} is not found as {name}" for token in tokens if not is_name(token, parts(name)))
    for name, tokens in OTHERS.items():
        yield from (f"{token} is found as {name}" for token in tokens if is_name(token, parts(name)))
    expected = ["crates/a/proofs/div_of/Answers.antt", "crates/tests_a/src/lib.rt"]
    if lacking(TEXTS, "rem", "div") != expected:
        yield f"rem lacks {lacking(TEXTS, 'rem', 'div')}"
    kinds = [kind_of(path) for path in TEXTS]
    if kinds != ["code", "proofs", "proofs", "proofs", "tests", "pages"]:
        yield f"the kinds are {kinds}"
    texts = files()
    for name, places in PLACES.items():
        found = where(texts, name)
        yield from (f"{path}: {name} is not found" for path in places if path not in found)


if __name__ == "__main__":
    sys.exit(ended(wrong()))
