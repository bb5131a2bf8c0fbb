"""Measures conversions between words and floats in loops over 4,096 numbers, as the Rattle toolchain builds them, beside the
same loops by hand (bench/floats.c), by gcc -O3.

    python3 bench/floats.py [ROUNDS]

The loops are a static library over fixed_float, which is made in a folder of its own: `rt lib` proves it, and first the
crates below, unless their folders out/ have their proofs. Nanoseconds a number; both sides run in turn, have to answer
alike, and the least counts.
"""
import shutil
import subprocess
import sys
import tempfile
from pathlib import Path

TOP = Path(__file__).resolve().parent.parent
BELOW = ["fixed_word", "fixed_root", "fixed_kernel", "fixed_convert", "fixed_float"]
WORDS = ["i8", "i16", "i32", "i64", "u8", "u16", "u32", "u64"]
FLOATS = ["f64", "f32"]

HEAD = """//! Loops over conversions.
#![tactic(auto)]

ghost use Rattle.std.specs.Float.{NotNan};

use fixed_float::{from_float_of, saturating_float_of, to_float_of};
use fixed_word::{Rounding, Side};
"""

NUMBER = """
#[inline]
fn number_FLOAT(x: FLOAT) -> FLOAT
    ensures { NotNan result }
{
    if x < 1e30 { x } else { 1e30 }
}
"""

LOOPS = """
#[unsafe(no_mangle)]
pub extern "C" fn WORD_from_FLOAT_saturating(numbers: &[FLOAT; 4096], results: &mut [WORD; 4096]) {
    for at in 0..4096 {
        results[at] = saturating_float_of(number_FLOAT(numbers[at]), FRAC, Rounding::Even);
    }
}

#[unsafe(no_mangle)]
pub extern "C" fn WORD_from_FLOAT_checked(numbers: &[FLOAT; 4096], results: &mut [WORD; 4096]) -> u32 {
    let mut refused = 0_u32;
    for at in 0..4096 {
        match from_float_of::<FLOAT, WORD>(numbers[at], FRAC) {
            Some(outcome) if outcome.side == Side::Fits => results[at] = outcome.wrapped,
            _ => refused = refused.wrapping_add(1),
        }
    }
    refused
}

#[unsafe(no_mangle)]
pub extern "C" fn WORD_to_FLOAT(numbers: &[WORD; 4096], results: &mut [FLOAT; 4096]) {
    for at in 0..4096 {
        results[at] = to_float_of(numbers[at], FRAC);
    }
}
"""


def source():
    """The loops of each word and float."""
    loops = [LOOPS.replace("WORD", word).replace("FLOAT", to).replace("FRAC", str(int(word[1:]) // 2))
             for word in WORDS for to in FLOATS]
    return HEAD + "".join([*(NUMBER.replace("FLOAT", to) for to in FLOATS), *loops])


def library(folder):
    """The static library of the loops."""
    lines = [line for line in open(TOP / "crates.txt") if line.split(":")[0] in BELOW]
    loops = folder / "crates/loops"
    (loops / "src").mkdir(parents=True)
    (loops / "src/lib.rt").write_text(source())
    (folder / "crates.txt").write_text("".join(lines) + f"loops staticlib: {' '.join(BELOW)}\n")
    for crate in BELOW:
        shutil.copytree(TOP / "crates" / crate, folder / "crates" / crate)
    subprocess.run(["rt", "lib"], cwd=loops, check=True, stdout=sys.stderr)
    return loops / "out/libloops.a"


def least_times(program, rounds):
    """The least times of both sides by the name of a row."""
    least = {}
    for _ in range(rounds):
        for line in subprocess.run([program], capture_output=True, text=True, check=True).stdout.splitlines():
            name, *both = line.split()
            times = [float(time) for time in both]
            least[name] = [min(pair) for pair in zip(times, least.get(name, times))]
    return least


def main():
    rounds = int(sys.argv[1]) if len(sys.argv) > 1 else 5
    with tempfile.TemporaryDirectory() as name:
        folder = Path(name)
        program = folder / "floats"
        made = library(folder)
        subprocess.run(["gcc", "-O3", "-std=gnu99", "-Wall", "-o", program, TOP / "bench/floats.c", made], check=True)
        print(f"{'':<28} {'here':>8} {'by hand':>10} {'ratio':>6}")
        for name, (here, by_hand) in least_times(program, rounds).items():
            print(f"{name:<28} {here:8.3f} {by_hand:10.3f} {here / by_hand:6.2f}")


main()
