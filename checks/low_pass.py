"""Draws docs/low_pass.svg: the frequency response of a low-pass of 64 taps in two words, beside its design.

    python3 checks/low_pass.py          (draws, and says how far the words lie from the design)
    python3 checks/low_pass.py i16      (prints the script of a word)

The design is in real numbers: a sinc of cutoff 0.1 of the sample rate under a Kaiser window. The words' responses are
those of the impulse responses that `filter_run` prints, run by the example of the Cargo package.
"""
import cmath
import math
import subprocess
import sys
from pathlib import Path

from figure import Figure

TOP = Path(__file__).resolve().parent.parent
TAPS, CUTOFF, BETA = 64, 0.1, 9.0
POINTS = 600


def bessel(x):
    """I0, by its series."""
    return sum(((x / 2) ** k / math.factorial(k)) ** 2 for k in range(60))


def design():
    """The taps in real numbers, whose sum is 1."""
    taps = []
    for i in range(TAPS):
        t = i - (TAPS - 1) / 2
        window = bessel(BETA * math.sqrt(1 - (2 * t / (TAPS - 1)) ** 2)) / bessel(BETA)
        taps.append(math.sin(2 * math.pi * CUTOFF * t) / (math.pi * t) * window)
    return [tap / sum(taps) for tap in taps]


def script(word):
    """The impulse in a word of n bits: n - 1 behind the point in samples and outputs, and n in the taps."""
    bits = int(word[1:])
    taps = " ".join(str(round(tap * 2**bits)) for tap in design())
    lines = [f"filter {word} {bits - 1} {bits} {bits - 1}", f"taps {taps}", f"c0 {2 ** (bits - 1) - 1}"]
    return "\n".join(lines + ["c0 0"] * (TAPS - 1)) + "\n"


def impulse_response(word):
    """What the filter prints, as numbers."""
    built = ["--quiet", "--release", "--offline", "--features", "runs", "--example", "runs"]
    command = ["cargo", "run", *built, "--", "filter"]
    done = subprocess.run(command, cwd=TOP, input=script(word), capture_output=True, text=True, check=True)
    return [int(line) / (2 ** (int(word[1:]) - 1) - 1) for line in done.stdout.split()]


def decibels(taps, frequency):
    sum_of = sum(tap * cmath.exp(-2j * math.pi * frequency * i) for i, tap in enumerate(taps))
    return 20 * math.log10(max(abs(sum_of), 1e-12))


def main():
    frequencies = [0.5 * i / POINTS for i in range(POINTS + 1)]
    plans = {
        "design in real numbers": (design(), 'stroke="#bbb" stroke-width="5"'),
        "i16: filter i16 15 16 15": (impulse_response("i16"), 'stroke="#c50" stroke-width="1.2"'),
        "i32: filter i32 31 32 31": (impulse_response("i32"), 'stroke="#04a" stroke-width="1.2"'),
    }
    figure = Figure(
        "A low-pass of 64 taps, from what filter_run prints",
        ("frequency, in parts of the sample rate", 0, 0.5, [0, 0.1, 0.2, 0.3, 0.4, 0.5], "%.1f"),
        ("response, in decibels", -140, 5, range(-140, 1, 20), "%d"),
    )
    for name, (taps, stroke) in plans.items():
        response = [decibels(taps, f) for f in frequencies]
        figure.curve(name, zip(frequencies, response), stroke)
        past = max(level for f, level in zip(frequencies, response) if f >= 0.16)
        gain = decibels(taps, 0)
        print(f"{name}: {gain:+.5f} dB at 0, at most {past:.1f} dB from 0.16 on")
    figure.written(TOP / "docs/low_pass.svg")


if sys.argv[1:]:
    sys.stdout.write(script(sys.argv[1]))
else:
    main()
