#!/usr/bin/env python3
"""Compares what checks/twice.py finds in small sources with what stands in them twice.

    python3 checks/test_twice.py

Silent with status 0 where all is as expected; otherwise it prints what is not so and ends with 1.
"""
import sys
from pathlib import Path

from ending import ended
from twice import allowances, faults, finds

CODE = """
/// What is left.
#[inline]
pub fn over<T: Word>(outcome: Outcome<T>) -> (T, bool)
    ensures { result ≡ outcome }
{
    let (word, flag) = (outcome.wrapped, outcome.side != Side::Fits);
    (word, flag)
}

pub fn law()
    ensures { (a : ℕ) → a ≡ a }
{}
"""
OTHER = CODE.replace("pub fn over", "fn pair").replace("word", "left").replace("outcome", "of").replace("T,", "A,").replace(
    "T:", "A:").replace("<T>", "<A>").replace("(T ", "(A ")
PROOF = """
use Rattle.std.proofs.Common.{ℕ, ◌≡◌, sym, mul-le}

part_of : (a p m : ℕ) → p ≤ m → a * p / m ≤ a
part_of a p m l =
    let h = mul-le a l in
    div m (omega (arith, h))
"""
FILES = {
    Path("a/src/lib.rt"): CODE,
    Path("b/src/lib.rt"): OTHER,
    Path("c/src/lib.rt"): CODE.replace("!=", "=="),
    Path("d/src/lib.rt"): CODE.replace(".side", ".wrapped"),
    Path("a/proofs/Parts.antt"): PROOF,
    Path("b/proofs/Shares.antt"): PROOF.replace("part_of", "share").replace(" h ", " e ").replace("h)", "e)"),
    Path("c/proofs/Parts.antt"): PROOF.replace("mul-le", "mul-lt"),
}
FOUND = [["a/src/lib.rt: over", "b/src/lib.rt: pair"], ["a/proofs/Parts.antt: part_of", "b/proofs/Shares.antt: share"]]


def wrong():
    found = finds(FILES)
    if found != FOUND:
        yield f"found are {found}"
    allowed = allowances("A reason\n    a/*: over\n    b/*: pair\n\nAnother one\n    ?/proofs/*: *\n")
    if list(faults(FOUND, allowed)):
        yield f"not allowed are {list(faults(FOUND, allowed))}"
    if len(list(faults(FOUND[:1], allowed))) != 1:
        yield "nothing is said of a reason that allows nothing"
    if len(list(faults(FOUND, {}))) != 2:
        yield "nothing is said of finds that no reason allows"


if __name__ == "__main__":
    sys.exit(ended(wrong()))
