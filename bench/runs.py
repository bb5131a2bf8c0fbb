"""Measures filters, polynomials and intervals, compiled by rustc, beside the same loops in C (bench/native.c, gcc -O2).

    python3 bench/runs.py push|run|horner|interval [ROUNDS]

Nanoseconds a tap of `push`, a sample of `filter_run`, a step of `horner`, or a call of `mul_in` and `div_in`. Both
sides run in turn, and the least counts; that they answer alike is seen by a checksum.
"""
import subprocess
import sys
import tempfile
from pathlib import Path

TOP = Path(__file__).resolve().parent.parent


def rows(command):
    """What a side measured: by the name of each row its nanoseconds and its checksum."""
    done = subprocess.run(command, cwd=TOP, capture_output=True, text=True)
    if done.returncode != 0:
        sys.exit(done.stderr)
    found = {}
    for line in done.stdout.splitlines():
        if line.strip():
            name, size, taken, check = line.split()
            found[f"{name} {size}"] = float(taken), check
    return found


def main():
    word = sys.argv[1]
    rounds = int(sys.argv[2]) if len(sys.argv) > 2 else 3
    least = {}
    with tempfile.TemporaryDirectory() as folder:
        native = f"{folder}/native"
        subprocess.run(["gcc", "-O2", "-o", native, TOP / "bench/native.c"], check=True)
        for _ in range(rounds):
            theirs = rows([native, word])
            ours = rows(["cargo", "bench", "--offline", "--features", "runs", "--bench", "runs", "--", word])
            for name, (taken, check) in ours.items():
                if theirs[name][1] != check:
                    sys.exit(f"{name}: the answers differ")
                pair = taken, theirs[name][0]
                least[name] = tuple(map(min, least.get(name, pair), pair))
    print(f"{'':<16} {'here':>8} {'in C':>8} {'ratio':>6}")
    for name, (taken, native) in least.items():
        print(f"{name:<16} {taken:8.2f} {native:8.2f} {taken / native:6.2f}")


main()
