"""Draws the root of x over 1 + x^2, computed in intervals with 5 bits behind the point, and the exact curve.

    python3 checks/band.py FIGURE

Each point is one number x; its interval is that of `interval_run`, by the example of the Cargo package. Stops where the
exact value lies outside of it.
"""
import math
import subprocess
import sys
from pathlib import Path

from figure import Figure

TOP = Path(__file__).resolve().parent.parent
PLACES = 5
UNIT = 2**PLACES
POINTS = range(0, 4 * UNIT + 1)
LINES = "i0 set {x} {x}\ni2 mul i0 i0\ni2 add i2 i1\ni3 sqrt i0\ni3 div i3 i2\n"


def bands():
    """The two ends at each point, in units."""
    script = f"interval i16 {PLACES} 4\ni1 set {UNIT} {UNIT}\n" + "".join(LINES.format(x=x) for x in POINTS)
    built = ["--quiet", "--release", "--offline", "--features", "runs", "--example", "runs"]
    command = ["cargo", "run", *built, "--", "interval"]
    done = subprocess.run(command, cwd=TOP, input=script, capture_output=True, text=True, check=True)
    return [tuple(map(int, line.split())) for line in done.stdout.splitlines()[5::5]]


def exact(x):
    return math.sqrt(x) / (1 + x * x)


def main():
    found = bands()
    for x, (low, high) in zip(POINTS, found):
        assert low <= exact(x / UNIT) * UNIT <= high, x
    figure = Figure(
        "The root of x over 1 + x^2, in intervals with 5 bits behind the point",
        ("x", 0, 4, range(0, 5), "%d"),
        ("value", 0, 0.8, [0, 0.2, 0.4, 0.6, 0.8], "%.1f"),
    )
    figure.curve("high end", [(x / UNIT, high / UNIT) for x, (_, high) in zip(POINTS, found)], 'stroke="#c33"')
    fine = [i / 400 for i in range(0, 1601)]
    figure.curve("exact", [(x, exact(x)) for x in fine], 'stroke="black"')
    figure.curve("low end", [(x / UNIT, low / UNIT) for x, (low, _) in zip(POINTS, found)], 'stroke="#33c"')
    figure.written(Path(sys.argv[1]))
    widths = [high - low for low, high in found]
    print(f"{len(found)} points, each exact value inside; intervals of {min(widths)} to {max(widths)} units")


main()
