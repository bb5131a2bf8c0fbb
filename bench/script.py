"""Writes a script of many lines of one operation, or of a mix of all, for measuring.

    python3 bench/script.py OPERATION LINES [WORD] [FRACTION]

OPERATION is `set`, an operation of the calculator, `mix`, or `demo`. The script is valid: no line has a
cause. `demo` is a fixed script over eight registers of `i64` with 32 fraction bits, and takes no word and
no fraction.
"""
import sys

SHAPES = {
    "one": ["neg", "recip", "sqrt", "abs", "signum"],
    "two": ["add", "sub", "mul", "div", "div_euclid", "rem", "rem_euclid", "next_multiple_of", "dist"],
    "int": ["mul_int", "div_int", "div_euclid_int", "rem_int", "rem_euclid_int"],
    "three": ["mul_add", "add_prod"],
}
# operations that a zero or a negative operand may leave without a number, or that few policies have
PARTIAL = {
    "recip", "sqrt", "next_power_of_two", "div", "div_euclid", "next_multiple_of", "rem", "rem_euclid",
    "div_int", "div_euclid_int", "rem_int", "rem_euclid_int",
}
REGISTERS = 4


def number(state):
    return (state * 6364136223846793005 + 1442695040888963407) % 2**64


def value(word, state):
    """A value of the word: numbers of many sizes, and of both signs where it is signed."""
    width = int(word[1:]) - (word[0] == "i")
    size = (state >> 13) % width + 1
    magnitude = ((state >> 20) + (number(state) >> 20) * 2**32) % 2**size
    return -magnitude if word[0] == "i" and state >> 63 else magnitude


def line(operation, state, word):
    d, a, b, c = ((state >> s) % REGISTERS for s in (33, 35, 37, 39))
    if operation == "set":
        return f"r{d} set {value(word, state)}"
    policy = ("checked", "saturating", "wrapping", "overflowing")[(state >> 41) % 4]
    if operation in PARTIAL:
        policy = "checked"
    if operation in SHAPES["one"] or operation == "next_power_of_two":
        return f"r{d} {policy} {operation} r{a}"
    if operation in SHAPES["two"]:
        return f"r{d} {policy} {operation} r{a} r{b}"
    if operation in SHAPES["int"]:
        return f"r{d} {policy} {operation} r{a} {value(word, number(state))}"
    return f"r{d} {policy} {operation} r{a} r{b} r{c}"


def demo_line(state):
    """One of eight forms of line, of registers that the state's digits name."""
    text = state >> 33
    d, a, b, form = (text // 8**place % 8 for place in range(4))
    return [
        f"r{d} set {text}",
        f"r{d} wrapping add r{a} r{b}",
        f"r{d} overflowing sub r{a} r{b}",
        f"r{d} saturating mul r{a} r{b}",
        f"r{d} checked div r{a} r{b}",
        f"r{d} wrapping mul_add r{a} r{b} r{d}",
        f"r{d} overflowing add_prod r{d} r{a} r{b}",
        f"r{d} checked sqrt r{a}",
    ][form]


def demo(lines):
    state = 1
    out = [" ".join(["i64"] + ["32"] * 8)]
    for _ in range(lines):
        state = number(state)
        out.append(demo_line(state))
    sys.stdout.write("\n".join(out) + "\n")


def main():
    operation = sys.argv[1]
    lines = int(sys.argv[2])
    if operation == "demo":
        return demo(lines)
    word = sys.argv[3] if len(sys.argv) > 3 else ("u64" if operation == "next_power_of_two" else "i64")
    fraction = sys.argv[4] if len(sys.argv) > 4 else "32"
    names = [n for names in SHAPES.values() for n in names]
    state = 1
    out = [" ".join([word] + [fraction] * REGISTERS)]
    for i in range(lines):
        state = number(state)
        # every fourth line sets a register again, so that operands stay of many sizes
        is_set = operation != "set" and i % 4 == 0
        chosen = names[(state >> 45) % len(names)] if operation == "mix" else operation
        out.append(line("set" if is_set else chosen, state, word))
    sys.stdout.write("\n".join(out) + "\n")


main()
