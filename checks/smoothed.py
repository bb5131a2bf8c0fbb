"""Draws the temperatures of examples/samples.csv and the filtered level, as the example `sensor` prints them.

    python3 checks/smoothed.py FIGURE
"""
import subprocess
import sys
from pathlib import Path

from figure import Figure

TOP = Path(__file__).resolve().parent.parent


def main():
    command = ["cargo", "run", "--quiet", "--offline", "--example", "sensor"]
    samples = (TOP / "examples/samples.csv").read_text()
    done = subprocess.run(command, cwd=TOP, input=samples, capture_output=True, text=True, check=True)
    rows = [line.split() for line in done.stdout.splitlines()]
    figure = Figure(
        "A sensor's temperatures, and the level after each",
        ("sample", 0, 50, range(0, 51, 10), "%d"),
        ("degrees Celsius", 15, 50, range(15, 51, 5), "%d"),
    )
    figure.curve("temperature", [(at, float(row[1])) for at, row in enumerate(rows)], 'stroke="#c33"')
    figure.curve("level", [(at, float(row[2])) for at, row in enumerate(rows)], 'stroke="#33c" stroke-width="2"')
    figure.written(Path(sys.argv[1]))


main()
