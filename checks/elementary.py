"""Compares the elementary functions with mpmath, through the calls for C: every number of 8 bits at each fraction, every
number of 16 bits at five fractions, every pair of 8 bits at three, and random numbers of wider words.

    python3 checks/elementary.py [LIBRARY] [DRAWS]     (LIBRARY: libfixed_c.so, which `make` puts into
                                                       rust/c/target/install/release)

Needs mpmath (https://mpmath.org). Prints for each function and word the number of calls, how many do not return the number
rounded as the header says it is rounded, and the largest distance of a result from the exact number, in units. Ends with
1 if a result lies outside of the bound that the header states.
"""
import ctypes
import random
import sys
from pathlib import Path

from mpmath import mp, mpf

TOP = Path(__file__).resolve().parent.parent
WORDS = {f"{sign}{bits}": (sign == "i", bits) for bits in (8, 16, 32, 64) for sign in "iu"}
FITS, OUT_OF_RANGE, NOT_POSITIVE, NO_ANGLE = 0, 5, 16, 17
mp.prec = 240


class Down:
    """Rounded down, up to a bound: the least and the most that the exact number may be, by the number of units."""

    def __init__(self, above=lambda units, frac, wide: units, below=lambda units, frac, wide: units):
        self.above, self.below = above, below

    def ends(self, units, frac, wide):
        return self.below(mpf(units), frac, wide), self.above(mpf(units) + 1, frac, wide)

    def rounded(self, exact):
        return int(mp.floor(exact))


class Nearest:
    """Rounded to the nearest, up to 2^-k, which is 2^(frac - k) units."""

    def __init__(self, narrow, wide):
        self.k = {False: narrow, True: wide}

    def ends(self, units, frac, wide):
        most = mpf("0.5") + mpf(2) ** (frac - self.k[wide])
        return units - most, units + most

    def rounded(self, exact):
        return int(mp.floor(exact + mpf("0.5")))


def factor(narrow, wide):
    return lambda frac, is_wide: mpf(2) ** (mpf(2) ** -(wide if is_wide else narrow))


# A number that no word has, for a power that is far above each range.
TOO_LARGE = mpf(2) ** 200


def power(logarithm, exponent, one):
    """The power in units of a number with this natural logarithm. One that is all but whole is whole."""
    size = logarithm * exponent
    if size > 140:
        return TOO_LARGE
    units = mp.exp(size) * one
    return mp.nint(units) if abs(units - mp.nint(units)) < mpf(2) ** -100 else units


def exact_exponential(logarithm):
    return lambda a, one, frac: power(logarithm, mpf(a) / one, one)


def any_operand(a, b=0):
    return FITS


def above_0(a, b=0):
    return FITS if a > 0 else NOT_POSITIVE


def off_origin(y, x):
    return FITS if y or x else NO_ANGLE


EXACT = Down()
LOG2 = Down(above=lambda units, frac, wide: units + mpf(2) ** -((126 if wide else 62) - frac))
EXP2 = Down(above=lambda units, frac, wide: units * factor(54, 117)(frac, wide))
LOG = Down(below=lambda units, frac, wide: units - mpf(2) ** -(32 if wide else 24))
EXP = Down(below=lambda units, frac, wide: units / factor(61, 61)(frac, wide))
POW = Down(below=lambda units, frac, wide: units / factor(55, 55)(frac, wide))

# By name: the exact number in units, the code of operands that are refused, and how the number is rounded.
ONE_OPERAND = {
    "recip_sqrt": (lambda a, one, frac: mp.sqrt(mpf(one) ** 3 / a), above_0, EXACT),
    "log2": (lambda a, one, frac: mp.log(mpf(a) / one, 2) * one, above_0, LOG2),
    "ln": (lambda a, one, frac: mp.log(mpf(a) / one) * one, above_0, LOG),
    "log10": (lambda a, one, frac: mp.log10(mpf(a) / one) * one, above_0, LOG),
    "exp2": (exact_exponential(mp.log(2)), any_operand, EXP2),
    "exp": (exact_exponential(mpf(1)), any_operand, EXP),
    "sin": (lambda a, one, frac: mp.sin(mpf(a) / one) * one, any_operand, Nearest(41, 61)),
    "cos": (lambda a, one, frac: mp.cos(mpf(a) / one) * one, any_operand, Nearest(41, 61)),
    "sin_turns": (lambda a, one, frac: mp.sinpi(2 * mpf(a % one) / one) * one, any_operand, Nearest(41, 61)),
    "cos_turns": (lambda a, one, frac: mp.cospi(2 * mpf(a % one) / one) * one, any_operand, Nearest(41, 61)),
}
TWO_OPERANDS = {
    "hypot": (lambda a, b, one, frac: mp.sqrt(mpf(a) ** 2 + mpf(b) ** 2), any_operand, EXACT),
    "atan2": (lambda y, x, one, frac: mp.atan2(y, x) * one, off_origin, Nearest(40, 60)),
    "atan2_turns": (lambda y, x, one, frac: mp.atan2(y, x) / (2 * mp.pi) * one, off_origin, Nearest(40, 60)),
    "pow": (lambda a, b, one, frac: power(mp.log(mpf(a) / one), mpf(b) / one, one), above_0, POW),
}


class Tally:
    """What came of the calls of one function in one word."""

    def __init__(self, name, word):
        self.name, self.word = name, word
        self.calls = self.misrounded = self.outside = 0
        self.worst = mpf(0)

    def judge(self, code, bits, exact, rounding, frac, of):
        is_signed, width = WORDS[self.word]
        least, most = (-(1 << width - 1), (1 << width - 1) - 1) if is_signed else (0, (1 << width) - 1)
        self.calls += 1
        rounded = rounding.rounded(exact)
        if code == OUT_OF_RANGE:
            # A number just beyond an end may have a result within it, and the reverse.
            is_well = not least < rounded < most
        else:
            low, high = rounding.ends(bits, frac, width == 64)
            is_well = code == FITS and low <= exact <= high
            self.misrounded += bits != rounded
            self.worst = max(self.worst, abs(exact - bits))
        if not is_well:
            self.outside += 1
            print(f"{self.word} {self.name}{of} with {frac}: code {code}, {bits}, and {mp.nstr(exact, 30)} is exact")

    def __str__(self):
        return f"{self.name:<12} {self.word:<4} {self.calls:>8} {self.misrounded:>6} {mp.nstr(self.worst, 8):>12}"


def c_type(word):
    is_signed, width = WORDS[word]
    return getattr(ctypes, f"c_{'int' if is_signed else 'uint'}{width}")


def function_of(library, name, word, operands, has_frac):
    call = getattr(library, f"fixed_{word}_{name}")
    kind = c_type(word)
    call.argtypes = [kind] * operands + [ctypes.c_uint32] * has_frac + [ctypes.POINTER(kind)]
    number = kind()

    def called(*arguments):
        code = call(*arguments, ctypes.byref(number))
        return code, number.value

    return called


def all_words(word):
    is_signed, width = WORDS[word]
    least = -(1 << width - 1) if is_signed else 0
    return range(least, least + (1 << width))


def drawn(word, draws):
    """Random words, of each length alike often."""
    is_signed, width = WORDS[word]
    for _ in range(draws):
        bits = random.getrandbits(width) >> random.randrange(width)
        number = bits % (1 << width - 1) if is_signed else bits
        yield -number if is_signed and random.getrandbits(1) else number


def formats(word, draws):
    """The fractions of a word, each with the operands at it."""
    width = WORDS[word][1]
    fractions = {8: range(9), 16: (0, 3, 8, 12, 15), 32: (0, 16, 28, 32), 64: (0, 32, 48, 64)}[width]
    return [(frac, all_words(word) if width <= 16 else list(drawn(word, draws))) for frac in fractions]


def one_operand(library, word, draws):
    for name, (exact_of, refused, rounding) in ONE_OPERAND.items():
        call, tally = function_of(library, name, word, 1, True), Tally(name, word)
        for frac, operands in formats(word, draws):
            for a in operands:
                code, bits = call(a, frac)
                if refused(a):
                    assert code == refused(a), (name, word, a, frac)
                else:
                    tally.judge(code, bits, exact_of(a, 1 << frac, frac), rounding, frac, (a,))
        yield tally


def two_operands(library, word, draws):
    for name, (exact_of, refused, rounding) in TWO_OPERANDS.items():
        has_frac = name != "hypot"
        call, tally = function_of(library, name, word, 2, has_frac), Tally(name, word)
        width = WORDS[word][1]
        for frac in {8: (0, 4, 7), 16: (0, 8, 15), 32: (0, 16, 28), 64: (0, 32, 48)}[width] if has_frac else (0,):
            pairs = ((a, b) for a in all_words(word) for b in all_words(word))
            for a, b in pairs if width == 8 else zip(drawn(word, draws), drawn(word, draws)):
                code, bits = call(a, b, frac) if has_frac else call(a, b)
                if refused(a, b):
                    assert code == refused(a, b), (name, word, a, b, frac)
                else:
                    tally.judge(code, bits, exact_of(a, b, 1 << frac, frac), rounding, frac, (a, b))
        yield tally


def main():
    path = sys.argv[1] if len(sys.argv) > 1 else TOP / "rust/c/target/install/release/libfixed_c.so"
    draws = int(sys.argv[2]) if len(sys.argv) > 2 else 20_000
    library = ctypes.CDLL(str(path))
    random.seed(1)
    print(f"{'function':<12} {'word':<4} {'calls':>8} {'other':>6} {'farthest':>12}")
    outside = 0
    for word in WORDS:
        for tally in (*one_operand(library, word, draws), *two_operands(library, word, draws)):
            print(tally, flush=True)
            outside += tally.outside
    sys.exit(outside > 0)


main()
