"""Runs a program on a script, with words if any, and says its wall time and peak memory.

    python3 bench/run.py PROGRAM SCRIPT [WORD..]
"""
import os
import resource
import subprocess
import sys
import time


def main():
    program, script, *words = sys.argv[1:]
    start = time.time()
    with open(script) as source, open(os.devnull, "w") as sink:
        status = subprocess.run([program, *words], stdin=source, stdout=sink).returncode
    taken = time.time() - start
    peak = resource.getrusage(resource.RUSAGE_CHILDREN).ru_maxrss // 1024
    what = " ".join(words) or f"a script of {os.path.getsize(script)} bytes"
    print(f"{what}: {taken:.2f} s, {peak} MiB at most, status {status}")


main()
