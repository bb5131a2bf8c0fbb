"""A plain model of the calculator, written from docs/DEFINITIONS.md and sharing nothing with the crates.

It reads a script with a valid header from standard input and writes its answers, or the fault of a line.
"""
import math
import re
import sys
from fractions import Fraction

WORDS = {f"{sign}{width}": (sign == "i", width) for sign in "iu" for width in (8, 16, 32, 64)}
POLICIES = ["checked", "saturating", "wrapping", "overflowing", "strict"]
UNARY = ["neg", "recip", "sqrt", "abs", "signum", "next_power_of_two"]
BINARY = ["add", "sub", "mul", "div", "div_euclid", "rem", "rem_euclid", "next_multiple_of", "dist"]
BY_INT = ["mul_int", "div_int", "div_euclid_int", "rem_int", "rem_euclid_int"]
TERNARY = ["mul_add", "add_prod"]

# Python's `round` takes the even one of two whole numbers that are as near.
ROUNDINGS = {"down": math.floor, "zero": math.trunc, "even": round}

# The operations that may name their rounding, with the one that they have where they name none.
DEFAULTS = {"mul": "down", "mul_add": "down", "add_prod": "down", "div": "zero", "recip": "zero", "div_int": "zero"}

DECIMAL = r"(?:0|[1-9][0-9]*)"
REGISTER, WHOLE = f" r{DECIMAL}", f" (?:{DECIMAL}|-[1-9][0-9]*)"
OPERANDS = {
    **dict.fromkeys(UNARY, REGISTER),
    **dict.fromkeys(BINARY, REGISTER * 2),
    **dict.fromkeys(BY_INT, REGISTER + WHOLE),
    **dict.fromkeys(TERNARY, REGISTER * 3),
}
SET = re.compile(f"r({DECIMAL}) set({WHOLE})")
FORMS = {
    op: re.compile(f"r({DECIMAL}) ({'|'.join(POLICIES)}) {op}({operands})"
                   + (f"(?: ({'|'.join(ROUNDINGS)}))?" if op in DEFAULTS else "()"))
    for op, operands in OPERANDS.items()
}


def ends(signed, width):
    return (-(1 << (width - 1)), (1 << (width - 1)) - 1) if signed else (0, (1 << width) - 1)


def truncated(x, d):
    quotient = abs(x) // abs(d)
    return quotient if (x < 0) == (d < 0) else -quotient


def euclidean(x, d):
    remainder = x % abs(d)
    return (x - remainder) // d, remainder


def power_over(a):
    power = 1
    while power < a:
        power *= 2
    return power


def next_multiple(a, b):
    return a + (-a) % b if b > 0 else a - a % -b


def row(op, operands, fractions, rounding):
    """The exact number of an operation, or None where it has none; the rounding is that of its line, or None."""
    a, b, c = (operands + [0, 0])[:3]
    f, g, h = (fractions + [0, 0])[:3]
    units = b << f
    places = g + h - f

    def rounded(x, d):
        return ROUNDINGS[rounding or DEFAULTS[op]](Fraction(x, d))

    total = {
        "neg": lambda: -a,
        "add": lambda: a + b,
        "sub": lambda: a - b,
        "mul": lambda: rounded(a * b, 1 << f),
        "mul_add": lambda: rounded(a * b, 1 << g) + c,
        "add_prod": lambda: a + (rounded(b * c, 1 << places) if places >= 0 else (b * c) << -places),
        "mul_int": lambda: a * b,
        "dist": lambda: abs(a - b),
        "abs": lambda: abs(a),
        "signum": lambda: ((a > 0) - (a < 0)) << f,
        "next_power_of_two": lambda: power_over(a),
    }
    by_b = {
        "div": lambda: rounded(a << f, b),
        "div_int": lambda: rounded(a, b),
        "div_euclid": lambda: euclidean(a, b)[0] << f,
        "div_euclid_int": lambda: euclidean(a, units)[0] << f,
        "rem_euclid_int": lambda: euclidean(a, units)[1],
        "next_multiple_of": lambda: next_multiple(a, b),
        "rem": lambda: a - b * truncated(a, b),
        "rem_int": lambda: a - units * truncated(a, units),
        "rem_euclid": lambda: euclidean(a, b)[1],
    }
    if op in total:
        return total[op]()
    if op in by_b:
        return None if b == 0 else by_b[op]()
    if op == "recip":
        return None if a == 0 else rounded(1 << (2 * f), a)
    return None if a < 0 else math.isqrt(a << f)


def wrap(x, low, width):
    return (x - low) % (1 << width) + low


def project(policy, number, low, high, width):
    """The value that the policy stores, and the text of the answer; a cause in place of a value that is not there."""
    fits = number is not None and low <= number <= high
    if policy == "checked":
        return (number, str(number)) if fits else (None, "none")
    if policy == "saturating":
        value = min(max(number, low), high)
        return value, str(value)
    if policy == "strict":
        return number, str(number)
    value = wrap(number, low, width)
    return value, str(value) if policy == "wrapping" else f"{value} {'false' if fits else 'true'}"


def is_offered(signed, policy, op):
    if op in ("abs", "signum"):
        return signed
    if op in ("rem", "rem_int", "rem_euclid"):
        return policy in ("checked", "strict")
    if op == "next_power_of_two":
        return not signed and policy in ("checked", "wrapping", "strict")
    return True


def read(line):
    """A line's destination, its policy or `set`, its operation, operands and rounding; None where it is no line."""
    found = SET.fullmatch(line)
    if found:
        return int(found[1]), "set", None, [found[2].strip()], None
    for op, form in FORMS.items():
        found = form.fullmatch(line)
        if found:
            return int(found[1]), found[2], op, found[3].split(), found[4] or None
    return None


def is_mismatched(op, destination, tokens, fractions):
    """Whether an operand that has to have the destination's fraction has another."""
    free = {"mul_add": [1], "add_prod": [1, 2]}.get(op, [])
    tied = [int(t[1:]) for place, t in enumerate(tokens) if t[0] == "r" and place not in free]
    return any(fractions[register] != fractions[destination] for register in tied)


def early_cause(signed, low, high, fractions, line):
    """The first cause that needs no row, or None."""
    if line is None:
        return "syntax"
    destination, policy, op, tokens, _ = line
    if policy != "set" and not is_offered(signed, policy, op):
        return "syntax"
    named = [destination] + [int(t[1:]) for t in tokens if t[0] == "r"]
    if max(named) >= len(fractions) or not all(low <= int(t) <= high for t in tokens if t[0] != "r"):
        return "out of range"
    return "fraction mismatch" if policy != "set" and is_mismatched(op, destination, tokens, fractions) else None


def cause(policy, op, number, low, high):
    if policy == "checked":
        return None
    if number is None:
        return "negative root" if op == "sqrt" else "zero divisor"
    return "overflow" if policy == "strict" and not low <= number <= high else None


def run(script):
    header, *lines, rest = script.split("\n")
    if rest:
        lines.append("")  # what no newline ends is no line
    word, *fractions = header.split(" ")
    signed, width = WORDS[word]
    low, high = ends(signed, width)
    fractions = [int(fraction) for fraction in fractions]
    registers = [0] * len(fractions)
    answers = []
    for place, text in enumerate(lines, 2):
        line = read(text)
        fault = early_cause(signed, low, high, fractions, line)
        if fault:
            return f"line {place}: {fault}\n"
        destination, policy, op, tokens, rounding = line
        if policy == "set":
            registers[destination] = int(tokens[0])
            answers.append(tokens[0])
            continue
        operands = [registers[int(t[1:])] if t[0] == "r" else int(t) for t in tokens]
        number = row(op, operands, [fractions[int(t[1:])] if t[0] == "r" else 0 for t in tokens], rounding)
        fault = cause(policy, op, number, low, high)
        if fault:
            return f"line {place}: {fault}\n"
        value, text = project(policy, number, low, high, width)
        if value is not None:
            registers[destination] = value
        answers.append(text)
    return "".join(answer + "\n" for answer in answers)


if __name__ == "__main__":
    sys.stdout.write(run(sys.stdin.read()))
