"""Compares the guide's sine with that of a math library, and draws the difference.

    python3 checks/sine.py [FIGURE]

The sine is computed here by Horner's rule in whole numbers, as `fixed_guide::sine` defines it; the tests of
`tests_runs` compare the proved function with these numbers at five points. Prints the greatest difference
over 100,001 points of a quarter turn, and how far values lie below the polynomial's exact one. With FIGURE
it writes a drawing (SVG): the difference from the sine, and that from the exact value with the two ends
between which it is proved to lie.
"""
import math
import sys
from fractions import Fraction

PLACES = 29
UNIT = 2**PLACES
COEFFICIENTS = [0, 843312475, 0, -346764231, 0, 42651708, 0, -2329391]
UNITS = 7


def by_horner(part):
    value = 0
    for coefficient in reversed(COEFFICIENTS):
        value = (value * part >> PLACES) + coefficient
    return value


def exact(part):
    x = Fraction(part, UNIT)
    return sum(coefficient * x**power for power, coefficient in enumerate(COEFFICIENTS))


def sine(part):
    return math.sin(math.pi / 2 * part / UNIT) * UNIT


WIDTH, HEIGHT, LEFT, STEPS = 700, 220, 60, 700


def panel(top, title, most, least, every, curves):
    """Curves over a quarter turn, between two ends."""
    lines = [f'<text x="{LEFT}" y="{top - 8}">{title}</text>']
    place = lambda y: top + HEIGHT * (most - y) / (most - least)
    for y in range(least, most + 1, every):
        lines.append(f'<line x1="{LEFT}" y1="{place(y):.1f}" x2="{LEFT + WIDTH}" y2="{place(y):.1f}" stroke="#ddd"/>')
        lines.append(f'<text x="{LEFT - 8}" y="{place(y) + 4:.1f}" text-anchor="end">{y}</text>')
    for degrees in range(0, 91, 15):
        x = LEFT + WIDTH * degrees / 90
        lines.append(f'<text x="{x:.1f}" y="{top + HEIGHT + 18}" text-anchor="middle">{degrees}°</text>')
    for ys, color in curves:
        path = " ".join(f"{LEFT + WIDTH * i / STEPS:.0f},{place(y):.1f}" for i, y in enumerate(ys))
        lines.append(f'<polyline fill="none" stroke="{color}" points="{path}"/>')
    return lines


def figure(name):
    """How far values lie from the sine, and how far from the polynomial's exact value."""
    parts = [UNIT * i // STEPS for i in range(STEPS + 1)]
    found = [by_horner(part) for part in parts]
    from_sine = [value - sine(part) for value, part in zip(found, parts)]
    from_exact = [float(value - exact(part)) for value, part in zip(found, parts)]
    ends = [([0] * (STEPS + 1), "#c33"), ([-UNITS] * (STEPS + 1), "#c33")]
    lines = [f'<svg xmlns="http://www.w3.org/2000/svg" width="{LEFT + WIDTH + 20}" height="{2 * HEIGHT + 130}"'
             ' font-family="sans-serif" font-size="12">']
    lines += panel(30, "above the sine, in units of 2^-29", 400, -400, 200, [(from_sine, "black")])
    lines += panel(HEIGHT + 95, "above the polynomial's exact value, and the two ends that are proved (red)",
                   1, -8, 1, ends + [(from_exact, "black")])
    lines.append("</svg>")
    with open(name, "w") as out:
        out.write("\n".join(lines) + "\n")


def main():
    steps = 100000
    greatest, deepest = 0, 0
    for i in range(steps + 1):
        part = UNIT * i // steps
        value = by_horner(part)
        greatest = max(greatest, abs(value - sine(part)))
        if i % 10 == 0:
            short = exact(part) - value
            assert 0 <= short < UNITS, part
            deepest = max(deepest, short)
    print(f"{steps + 1} points: at most {greatest:.1f} units of 2^-29 from the sine ({greatest / UNIT:.2e}),")
    print(f"and at most {float(deepest):.2f} units below the polynomial's exact value (proved: below {UNITS})")
    if len(sys.argv) > 1:
        figure(sys.argv[1])


main()
