"""Measures each operation of the face for C beside the same operation by hand (bench/by_hand.c), both by gcc -O2; each
call over a block, the dot product and a filter, beside its loop by hand (bench/blocks.c), by gcc -O3; and where
libfixmath is installed (Debian's libfixmath-dev), operations and functions beside those of libfixmath
(bench/fixmath.c).

    python3 bench/face.py [LIBRARY] [ROUNDS]

LIBRARY is the static library: crates/fixed_c/out/libfixed_c.a, which `rt lib` in crates/fixed_c makes, or
target/release/libfixed_c.a of the Cargo package in rust/c. Nanoseconds a call, with the call and its loop, or a number
of a block; both sides run in turn, have to answer alike, and the least counts. The last column beside libfixmath is by
how many units results differ at most: of operations by one, since libfixmath rounds otherwise, of functions by any
number.
"""
import subprocess
import sys
import tempfile
from pathlib import Path

TOP = Path(__file__).resolve().parent.parent
COMPILER = ["gcc", "-O2", "-std=gnu99", "-Wall", "-Wextra", "-I", TOP / "include"]


def built(program, inputs, flags=()):
    """The program that is compiled of a source in bench/ and linked with the other inputs."""
    subprocess.run([*COMPILER, *flags, "-o", program, TOP / f"bench/{program.name}.c", *inputs], check=True)
    return program


def least_times(program, rounds):
    """The least times of both sides by the name of a row."""
    least = {}
    for _ in range(rounds):
        done = subprocess.run([program], capture_output=True, text=True)
        if done.returncode != 0:
            sys.exit(done.stdout + done.stderr)
        for line in done.stdout.splitlines():
            name, here, other, *units = line.split()
            before = least.get(name, (float(here), float(other)))
            least[name] = min(before[0], float(here)), min(before[1], float(other)), *units
    return least


def print_table(least, other_side):
    print(f"{'':<28} {'here':>8} {other_side:>10} {'ratio':>6}")
    for name, (here, other, *units) in least.items():
        print(f"{name:<28} {here:8.3f} {other:10.3f} {here / other:6.2f}" + "".join(f"{unit:>8}" for unit in units))


def has_fixmath():
    tried = [*COMPILER, "-include", "libfixmath/fixmath.h", "-E", "-x", "c", "/dev/null"]
    return subprocess.run(tried, capture_output=True).returncode == 0


def main():
    library = Path(sys.argv[1] if len(sys.argv) > 1 else TOP / "crates/fixed_c/out/libfixed_c.a")
    rounds = int(sys.argv[2]) if len(sys.argv) > 2 else 5
    with tempfile.TemporaryDirectory() as name:
        folder = Path(name)
        by_hand = folder / "by_hand.o"
        subprocess.run([*COMPILER, "-c", "-o", by_hand, TOP / "bench/by_hand.c"], check=True)
        print_table(least_times(built(folder / "face", [by_hand, library]), rounds), "by hand")
        print()
        # A loop by hand for unsigned words tests whether a number is below 0 as well.
        blocks = built(folder / "blocks", [library], ["-O3", "-Wno-type-limits"])
        print_table(least_times(blocks, rounds), "by hand")
        if has_fixmath():
            print()
            print_table(least_times(built(folder / "fixmath", [library, "-llibfixmath"]), rounds), "libfixmath")


main()
