"""Refuses each request for memory of the program in turn, on a script and on the words `demo 50`.

    python3 checks/refused_memory.py

Each run gives the status and the output of the run in which nothing is refused, or ends with 6 and has written a
prefix of that output; the script makes 6 requests, and the words 15. Prints a line a run, and ends with 1 where a run
does neither or the requests are not so many. The program runs by `rt try`,
without a proof, in about 20 seconds a run; the kit's `rt try` takes one number at a time, and fails requests for
memory alone.
"""
import subprocess
import sys
from pathlib import Path

PROGRAM = Path(__file__).resolve().parent.parent / "crates" / "fixed_prog"
SCRIPT = "u8 4 4\nr0 set 255\nr1 set 32\nr0 checked mul r0 r1\nr1 wrapping add r0 r1\n"
MEMORY_RAN_OUT = 6
MORE_THAN_ALL = 1000


def tried(refused, words, script):
    """The status and the output of a run whose request of that number is refused."""
    command = ["rt", "try", "--fail-alloc", str(refused)] + (["--"] + words if words else [])
    run = subprocess.run(command, cwd=PROGRAM, input=script, capture_output=True, text=True)
    return run.returncode, run.stdout


def is_named(run, fine):
    """Whether a run is the one without a refusal, or says that memory ran out with a prefix of its output."""
    return run == fine or (run[0] == MEMORY_RAN_OUT and fine[1].startswith(run[1]))


def all_refused(name, words, script, requests):
    """Tries each request until none is left to refuse; whether each run is named, and there are so many requests."""
    fine = tried(MORE_THAN_ALL, words, script)
    good = True
    refused = 1
    while True:
        run = tried(refused, words, script)
        good = good and is_named(run, fine)
        print(f"{name}: request {refused} refused, status {run[0]}, {len(run[1])} bytes written")
        if run == fine:
            break
        refused += 1
    made = refused - 1
    print(f"{name}: {made} requests, and {requests} are expected")
    return good and made == requests


def main():
    both = [all_refused("a script", [], SCRIPT, 6), all_refused("demo 50", ["demo", "50"], "", 15)]
    sys.exit(0 if all(both) else 1)


if __name__ == "__main__":
    main()
