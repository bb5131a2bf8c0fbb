"""Compares the built program with the plain model on random scripts of 60 lines.

    python3 checks/random_scripts.py SEED COUNT [PROGRAM]

Half of the lines of operations that may name their rounding do so; small numbers, small fractions and small even
divisors come often and bring ties. In every third script one line is spoilt: something is added at its end, mostly what
no line may end in, or its registers are taken from all that there are and one that was not declared.

Every second script is short and has forms at the edge of the quick reading: registers of one, two and three digits, numbers
at both ends of the word and one past them, each policy on each operation, and in the first, a middle or the last line a 0 in
front, two spaces, a rounding, or another fault. It is run as a whole and with each of its lines as the last one, with a newline
and without.
"""
import random
import subprocess
import sys

from model import BINARY, BY_INT, DEFAULTS, ROUNDINGS, TERNARY, UNARY, WORDS, ends, is_offered, run

PARTIAL = {"recip", "sqrt", "div", "div_euclid", "rem", "rem_euclid", "next_multiple_of"}
TOTAL_POLICIES = ["checked", "saturating", "wrapping", "overflowing"]
ENDINGS = [
    "", " ", " down", " zero", " even", "  even", "even", " even ", " even even", " down zero", " zero 1", " even\t",
    " up", " nearest", " half_even", " eve", " evens", " Even", " ZERO", " dwon", " zer0", " 0", " -1", " r0", " set",
    "0",
]


def value(signed, width, rnd):
    low, high = ends(signed, width)
    kind = rnd.random()
    if kind < 0.25:
        return rnd.choice([low, high, 0, 1, high - 1, low + 1] + ([-1] if signed else []))
    if kind < 0.45:
        return rnd.randint(-17 if signed else 0, 17)
    if kind < 0.7:
        small = rnd.getrandbits(rnd.randint(1, width))
        return min(max(-small if signed and rnd.random() < 0.5 else small, low), high)
    return rnd.randint(low, high)


def line(signed, width, rnd, registers=3):
    dest, a, b = (rnd.randrange(registers) for _ in range(3))
    if rnd.random() < 0.35:
        return f"r{rnd.randrange(5)} set {value(signed, width, rnd)}"
    while True:
        op = rnd.choice(UNARY + BINARY + BY_INT + TERNARY)
        policy = rnd.choice(TOTAL_POLICIES + (["strict"] if rnd.random() < 0.05 else []))
        if is_offered(signed, policy, op):
            break
    end = rnd.choice(["", " " + rnd.choice(list(ROUNDINGS))]) if op in DEFAULTS else ""
    if op in PARTIAL and rnd.random() < 0.97:
        policy = "checked"
    if op in UNARY:
        return f"r{dest} {policy} {op} r{a}{end}"
    if op in BINARY:
        return f"r{dest} {policy} {op} r{a} r{b}{end}"
    if op in BY_INT:
        by = value(signed, width, rnd) or 3
        if rnd.random() < 0.4:
            by = rnd.choice([2, 4, 6] + ([-2, -4] if signed else []))
        return f"r{dest} {policy} {op} r{a} {by}{end}"
    factor = rnd.randrange(5)
    return f"r{dest} {policy} {op} r{a} r{factor} r{b if op == 'mul_add' else rnd.randrange(5)}{end}"


def script(rnd):
    word = rnd.choice(list(WORDS))
    signed, width = WORDS[word]
    shared = rnd.choice([0, 1, 2, width // 2, width - 1, width, rnd.randint(0, width)])
    others = [rnd.choice([0, 1, 2, width, rnd.randint(0, width)]) for _ in range(2)]
    header = " ".join([word] + [str(fraction) for fraction in [shared] * 3 + others])
    lines = [line(signed, width, rnd) for _ in range(60)]
    if rnd.random() < 1 / 3:
        place = rnd.randrange(60)
        stray = line(signed, width, rnd, 6)
        lines[place] = rnd.choice([lines[place] + rnd.choice(ENDINGS), stray])
    return "\n".join([header] + lines) + "\n"


def edge_value(signed, width, rnd):
    low, high = ends(signed, width)
    if rnd.random() < 0.03:
        return rnd.choice([low - 1, high + 1, 10**19 - 1, 10**19, -10**18, 2**64, 10**30])
    return rnd.choice([low, high, 0, 1, 2, 9, 10, 99, value(signed, width, rnd)])


def edge_line(signed, width, count, rnd):
    def register():
        past = rnd.random() < 0.01
        return f"r{count if past else rnd.choice([rnd.randrange(count), rnd.randrange(min(count, 12)), count - 1])}"

    if rnd.random() < 0.3:
        return f"{register()} set {edge_value(signed, width, rnd)}"
    op = rnd.choice(UNARY + BINARY + BY_INT + TERNARY)
    policy = rnd.choice(TOTAL_POLICIES + ["strict"])
    if (op in PARTIAL or not is_offered(signed, policy, op)) and rnd.random() < 0.95:
        policy = "checked"
    if not is_offered(signed, policy, op) and rnd.random() < 0.95:
        op = "mul"
    operands = [register() for _ in range(1 if op in UNARY + BY_INT else 3 if op in TERNARY else 2)]
    if op in BY_INT:
        operands.append(str(edge_value(signed, width, rnd) or 3))
    return " ".join([register(), policy, op] + operands)


def spoilt(text, rnd):
    """The line with a byte more, less or changed, mostly at the edge of a word, or with one of the endings."""
    if rnd.random() < 0.3:
        return text + rnd.choice(ENDINGS)
    place = rnd.choice([0, len(text)] + [i + 1 for i, letter in enumerate(text) if letter in " r"])
    more = rnd.choice(["0", "-", " ", "\t", "+", "r", "1", "\n", "\r", "-0", "_", ""])
    return text[:place] + more + text[place + (rnd.random() < 0.3):]


def edge_scripts(rnd):
    """A short script, and it with each of its lines as the last one."""
    word = rnd.choice(list(WORDS))
    signed, width = WORDS[word]
    count = rnd.choice([1, 3, 9, 10, 11, 12, 99, 100, 101, 120])
    shared = rnd.choice([0, 1, width // 2, width - 1, width])
    fractions = [shared if rnd.random() < 0.995 else rnd.randint(0, width) for _ in range(count)]
    lines = [edge_line(signed, width, count, rnd) for _ in range(rnd.randint(1, 12))]
    if rnd.random() < 0.5:
        place = rnd.choice([0, len(lines) // 2, -1])
        lines[place] = spoilt(lines[place], rnd)
    header = " ".join([word] + [str(fraction) for fraction in fractions])
    for last in range(len(lines)):
        text = "\n".join([header] + lines[: last + 1])
        yield text + "\n"
        yield text


def compare(program, text, which):
    want = run(text)
    done = subprocess.run([program], input=text.encode(), capture_output=True)
    got = (done.stdout if done.returncode == 0 else done.stderr).decode()
    if got != want or (done.returncode != 0 and done.stdout):
        sys.exit(f"script {which} differs:\n{text}\nwanted:\n{want}\ngot:\n{got}")


def main():
    seed, count = int(sys.argv[1]), int(sys.argv[2])
    program = sys.argv[3] if len(sys.argv) > 3 else "crates/fixed_prog/out/fixed_prog"
    for i in range(count):
        rnd = random.Random(seed * 1_000_003 + i)
        for text in edge_scripts(rnd) if i % 2 else [script(rnd)]:
            compare(program, text, i)
    print(f"{count} scripts agree")


main()
