"""Says where the calculator's instructions go, by phase: instructions a line of a script.

    python3 bench/profile.py PROGRAM SCRIPT LINES

PROGRAM is built with the lines of its source: CARGO_PROFILE_RELEASE_DEBUG=2 cargo build --release --features calc.
Callgrind counts each instruction, and addr2line says of which function it is and into which others that one was put in
line. The first row of PHASES with a word that stands in one of their names says the phase.
"""
import re
import subprocess
import sys
import tempfile
from collections import Counter

PHASES = [
    ("the end of a piece", ["pieces::piece_end"]),
    ("names, registers and literals", ["script::", "quick::", "quick_names::"]),
    ("kernels", ["kernel::", "root::", "rows::"]),
    ("policy", ["policies::", "projected::answered", "projected::number_of"]),
    ("the answer's text", ["answer::", "buffer::", "written::", "Room::push"]),
    ("the register's store", ["stepping::store"]),
    ("tests of the line", ["::is_", "may_round", "second_of", "fraction_at"]),
    ("operands and dispatch", ["projected::", "stepping::", "quick_step::", "register::", "piece::"]),
    ("the loop", ["room_run::", "room::"]),
]


def costs_of(program, script):
    """How many instructions stand for each address of the program, and how many for what it calls."""
    with tempfile.NamedTemporaryFile() as out:
        with open(script) as source:
            words = ["valgrind", "--tool=callgrind", "--dump-instr=yes", "--compress-pos=no", "--compress-strings=no"]
            subprocess.run([*words, f"--callgrind-out-file={out.name}", program], stdin=source,
                           stdout=subprocess.DEVNULL, stderr=subprocess.DEVNULL, check=True)
        own, others, is_own, is_call = Counter(), 0, False, False
        for line in open(out.name):
            if line.startswith("ob="):
                is_own = line.strip().endswith(program.rsplit("/", 1)[-1])
            elif line.startswith("calls="):
                is_call = True
            elif line.startswith("0x") and is_call:
                # the line behind `calls=` counts what was called, which has lines of its own
                is_call = False
            elif line.startswith("0x"):
                address, _, count = line.split()[:3]
                if is_own:
                    own[address] += int(count)
                else:
                    others += int(count)
    return own, others


def names_of(program, addresses):
    """The functions of each address, from within."""
    words = ["addr2line", "-f", "-i", "-C", "-a", "-e", program]
    ran = subprocess.run(words, input="\n".join(addresses), capture_output=True, text=True, check=True)
    names = {}
    for block in re.split(r"^0x", ran.stdout, flags=re.M)[1:]:
        address, *lines = block.split("\n")
        names[int(address, 16)] = lines[0::2]
    return names


def phase_of(names):
    """The first phase of which one of the functions has a word."""
    for phase, words in PHASES:
        if any(word in name for word in words for name in names):
            return phase
    return "the rest"


def main():
    program, script, lines = sys.argv[1], sys.argv[2], int(sys.argv[3])
    own, others = costs_of(program, script)
    names = names_of(program, list(own))
    phases = Counter({"the rest": others})
    for address, count in own.items():
        phases[phase_of(names.get(int(address, 16), []))] += count
    for phase in [name for name, _ in PHASES] + ["the rest"]:
        print(f"{phase:32} {phases[phase] / lines:6.0f}")
    print(f"{'all':32} {sum(phases.values()) / lines:6.0f}")


main()
