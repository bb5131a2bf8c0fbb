"""Compares the runs of filters, polynomials and intervals with a plain model on random scripts.

    python3 checks/random_runs.py SEED COUNT

The model is written from the pages of the crates and shares nothing with the crates; the runs are those of the example of
the Cargo package. In every third script one line is spoilt.
"""
import math
import os
import random
import re
import subprocess
import sys
from fractions import Fraction
from pathlib import Path

from model import DECIMAL, WORDS, ends

TOP = Path(__file__).resolve().parent.parent
WHOLE = rf"(?:{DECIMAL}|-[1-9][0-9]*)"
HEADS = {name: rf"{name} (\w+)((?: {DECIMAL}){{{count}}})" for name, count in
         [("filter", 3), ("poly", 1), ("interval", 2)]}
LISTS = {"filter": "taps", "poly": "coefs"}
MOST_REGISTERS = 1_000_000
ENDINGS = ["", " ", " 0", " -0", " 01", "x", " 99999999999999999999", "\t"]


class Fault(Exception):
    """The first cause."""


def floored(x, places):
    return x >> places if places >= 0 else x << -places


class Filters:
    """A bank: the samples of each channel, the newest first."""

    def __init__(self, fractions, width):
        if max(fractions) > width:
            raise Fault("OutOfRange")
        out, coef, sample = fractions
        self.places = coef + sample - out
        self.taps, self.samples = [], []

    def take_list(self, numbers):
        if any(self.samples):
            raise Fault("Syntax")
        return lambda: (self.taps.append(numbers), self.samples.append([]), "")[2]

    def take(self, line, low, high):
        found = re.fullmatch(rf"c({DECIMAL}) ({WHOLE})", line)
        if not found:
            raise Fault("Syntax")
        channel, sample = int(found[1]), int(found[2])
        if channel >= len(self.taps) or not low <= sample <= high:
            raise Fault("OutOfRange")
        own = self.samples[channel]
        own.insert(0, sample)
        total = 0
        for t, (tap, past) in enumerate(zip(self.taps[channel], own)):
            total += floored(tap * past, self.places)
            if not low <= total <= high:
                return f"overflow {channel} {len(own) - 1} {t}\n"
        return f"{total}\n"


class Polynomials:
    """The coefficients that came last."""

    def __init__(self, fractions, width):
        self.places, = fractions
        if self.places > width:
            raise Fault("OutOfRange")
        self.coefs = None

    def take_list(self, numbers):
        def kept():
            self.coefs = numbers
            return ""
        return kept

    def take(self, line, low, high):
        found = re.fullmatch(rf"at ({WHOLE})", line)
        if not found or self.coefs is None:
            raise Fault("Syntax")
        x, value = int(found[1]), 0
        if not low <= x <= high:
            raise Fault("OutOfRange")
        for i in reversed(range(len(self.coefs))):
            value = floored(value * x, self.places) + self.coefs[i]
            if not low <= value <= high:
                return f"overflow {i}\n"
        return f"{value}\n"


def outward(numbers):
    return math.floor(min(numbers)), math.ceil(max(numbers))


class Intervals:
    """Registers, each a pair of ends."""

    LINE = re.compile(rf"i({DECIMAL}) (?:set ({WHOLE}) ({WHOLE})|(add|sub|mul|div) i({DECIMAL}) i({DECIMAL})"
                      rf"|sqrt i({DECIMAL}))")

    def __init__(self, numbers, width):
        self.places, count = numbers
        if self.places > width or not 1 <= count <= MOST_REGISTERS:
            raise Fault("OutOfRange")
        self.registers = [(0, 0)] * count

    def read(self, register):
        if int(register) >= len(self.registers):
            raise Fault("OutOfRange")
        return self.registers[int(register)]

    def made(self, op, a, b):
        """The ends, or None where there are none."""
        if op == "add":
            return a[0] + b[0], a[1] + b[1]
        if op == "sub":
            return a[0] - b[1], a[1] - b[0]
        if op == "mul":
            return outward([Fraction(x * y, 2 ** self.places) for x in a for y in b])
        if b[0] <= 0 <= b[1]:
            return None
        return outward([Fraction(x * 2 ** self.places, y) for x in a for y in b])

    def root(self, a):
        if a[0] < 0:
            return None
        low, high = (number << self.places for number in a)
        root = math.isqrt(high)
        return math.isqrt(low), root if root * root == high else root + 1

    def take(self, line, low, high):
        found = self.LINE.fullmatch(line)
        if not found:
            raise Fault("Syntax")
        dest, first, second, op, a, b, radicand = found.groups()
        self.read(dest)
        if first:
            made = int(first), int(second)
            if not low <= made[0] <= made[1] <= high:
                raise Fault("OutOfRange")
        else:
            made = self.made(op, self.read(a), self.read(b)) if op else self.root(self.read(radicand))
        if made is None or made[0] < low or high < made[1]:
            return "none\n"
        self.registers[int(dest)] = made
        return f"{made[0]} {made[1]}\n"


MODELS = {"filter": Filters, "poly": Polynomials, "interval": Intervals}


def line_of(state, name, line, low, high):
    if name in LISTS and re.fullmatch(rf"{LISTS[name]}(?: {WHOLE})+", line):
        numbers = [int(token) for token in line.split(" ")[1:]]
        keep = state.take_list(numbers)
        if not all(low <= number <= high for number in numbers):
            raise Fault("OutOfRange")
        return keep()
    return state.take(line, low, high)


def model(name, script):
    """What a run prints, or its fault."""
    pieces = script.split("\n")
    at, out = 1, []
    try:
        found = re.fullmatch(HEADS[name], pieces[0])
        if not found or found[1] not in WORDS or len(pieces) == 1:
            raise Fault("Syntax")
        signed, width = WORDS[found[1]]
        low, high = ends(signed, width)
        state = MODELS[name]([int(number) for number in found[2].split()], width)
        for at, line in enumerate(pieces[1:-1], 2):
            out.append(line_of(state, name, line, low, high))
        if pieces[-1]:
            at = len(pieces)
            raise Fault("Syntax")
    except Fault as fault:
        return f"{fault}({at})\n"
    return "".join(out)


def number(rnd, low, high, width):
    kind = rnd.random()
    if kind < 0.15:
        return rnd.choice([low, high, 0, 1, max(low, -1)])
    size = rnd.randint(1, width)
    return min(max(rnd.getrandbits(size) * (-1 if low and rnd.random() < 0.5 else 1), low), high)


def fraction(rnd, width):
    return rnd.choice([0, 1, width // 2, width - 1, width, rnd.randint(0, width)] * 30 + [width + 1])


def listed(rnd, low, high, width):
    size = rnd.choice([4, width])
    return " ".join(str(number(rnd, low, high, size)) for _ in range(rnd.randint(1, 9)))


def filters(rnd, low, high, width):
    """The numbers of a header, the lines after it, and lines that may take the place of one."""
    count = rnd.randint(1, 4)
    lines = ["taps " + listed(rnd, low, high, width) for _ in range(count)]
    lines += [f"c{rnd.randrange(count)} {number(rnd, low, high, width)}" for _ in range(30)]
    return [fraction(rnd, width) for _ in range(3)], lines, [f"c{count} 0", lines[0]]


def polynomials(rnd, low, high, width):
    lines = ["coefs " + listed(rnd, low, high, width)]
    for _ in range(30):
        lines.append(f"at {number(rnd, low, high, width)}")
        if rnd.random() < 0.2:
            lines.append("coefs " + listed(rnd, low, high, width))
    return [fraction(rnd, width)], lines, ["at 1", "at", "coefs"]


def interval_line(rnd, registers, low, high, width):
    dest, a, b = (rnd.choice(registers) for _ in range(3))
    kind = rnd.random()
    if kind < 0.4:
        first = number(rnd, low, high, width)
        second = rnd.choice([first, number(rnd, low, high, width), min(first + rnd.getrandbits(width // 4), high)])
        return f"{dest} set {min(first, second)} {max(first, second)}"
    if kind < 0.5:
        return f"{dest} sqrt {a}"
    return f"{dest} {rnd.choice(['add', 'sub', 'mul', 'div'])} {a} {b}"


def intervals(rnd, low, high, width):
    registers = [f"i{register}" for register in range(rnd.randint(1, 6))]
    past = f"i{len(registers)}"
    lines = [interval_line(rnd, registers, low, high, width) for _ in range(40)]
    count = rnd.choice([len(registers)] * 60 + [0, MOST_REGISTERS, MOST_REGISTERS + 1])
    spoilt = [f"{past} sqrt i0", f"i0 sqrt {past}", f"i0 mul i0 {past}", f"i0 add {past} i0", f"{past} set 1 x",
              "i0 set 1 0", f"i0 set {low - 1} {high}", f"i0 set {low} {high + 1}", "i0 neg i0", "i0 sqrt i0 i0"]
    return [fraction(rnd, width), count], lines, spoilt


MAKERS = {"filter": filters, "poly": polynomials, "interval": intervals}


def script_of(rnd, name):
    word = rnd.choice(list(WORDS))
    signed, width = WORDS[word]
    numbers, lines, spoilt = MAKERS[name](rnd, *ends(signed, width), width)
    lines.insert(0, " ".join([name, word, *map(str, numbers)]))
    if rnd.random() < 1 / 3:
        place = rnd.randrange(len(lines))
        ended = lines[place] + rnd.choice(ENDINGS)
        lines[place] = rnd.choice([ended, lines[-1], lines[1], "", rnd.choice(spoilt)])
    return "\n".join(lines) + rnd.choice(["\n"] * 20 + [""])


def main():
    seed, count = int(sys.argv[1]), int(sys.argv[2])
    built = ["--quiet", "--release", "--offline", "--features", "runs", "--example", "runs"]
    subprocess.run(["cargo", "build", *built], cwd=TOP, check=True)
    program = Path(os.environ.get("CARGO_TARGET_DIR", TOP / "target")) / "release/examples/runs"
    faults = 0
    for i in range(count):
        rnd = random.Random(seed * 1_000_003 + i)
        name = rnd.choice(list(HEADS))
        script = script_of(rnd, name)
        done = subprocess.run([program, name], input=script, capture_output=True, text=True)
        got, want = done.stdout if done.returncode == 0 else done.stderr, model(name, script)
        faults += done.returncode != 0
        if got != want:
            sys.exit(f"script {i} differs:\n{script}\nwanted:\n{want}\ngot:\n{got}")
    print(f"{count} scripts agree, {faults} of them with a fault")


main()
