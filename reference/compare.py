#!/usr/bin/env python3
"""Run the built program `target/bin/runlist` on generated inputs and compare its output, byte for byte, with the reference
(`runlist.py`). `compare.py COUNT [FIRST_SEED]` takes the inputs of COUNT seeds; `compare.py --case FILE` takes one input from
a file. A difference is printed with its seed and the first line that differs, and the comparison goes on; the exit status
is then 1."""

import subprocess
import sys
from collections import Counter
from pathlib import Path

from inputs import kind, make
from runlist import printed

PROGRAM = Path(__file__).resolve().parent.parent / "target" / "bin" / "runlist"
MOST_SECONDS = 30


def program_output(data):
    """What the program prints, with a note after it if it did not end by itself."""
    try:
        ended = subprocess.run([str(PROGRAM)], input=data, stdout=subprocess.PIPE, timeout=MOST_SECONDS)
    except subprocess.TimeoutExpired:
        return b"(not ended after %d s)\n" % MOST_SECONDS
    return ended.stdout + (b"(ended by signal %d)\n" % -ended.returncode if ended.returncode < 0 else b"")


def first_difference(expected, found):
    """Number and text of the first line in which two unequal outputs differ."""
    ours, theirs = expected.split(b"\n"), found.split(b"\n")
    at = 0
    while at < min(len(ours), len(theirs)) and ours[at] == theirs[at]:
        at += 1
    line = [repr(side[at][:200].decode("latin-1")) if at < len(side) else "nothing" for side in (ours, theirs)]
    return "line %d: reference %s, program %s" % (at + 1, line[0], line[1])


def compare(cases):
    """Compare all (name, input) pairs; print the differences and the totals; give how many differed."""
    inputs = commands = lines = differed = 0
    ends = Counter()
    for name, data in cases:
        expected = printed(data).encode()
        found = program_output(data)
        if found != expected:
            differed += 1
            print("%s: %s" % (name, first_difference(expected, found)), flush=True)
        _, done, refusal = expected.split(b"\n")[-2].split()
        inputs, commands, lines = inputs + 1, commands + int(done), lines + expected.count(b"\n")
        ends[int(refusal)] += 1
    print("%d inputs, %d commands carried out, %d lines compared; ended with refusal %s; %d differed" % (
        inputs, commands, lines, ", ".join("%d: %d" % end for end in sorted(ends.items())), differed))
    return differed


def main(arguments):
    if not PROGRAM.exists():
        sys.exit("no program at %s: build it first" % PROGRAM)
    if len(arguments) == 2 and arguments[0] == "--case":
        cases = [(arguments[1], Path(arguments[1]).read_bytes())]
    elif len(arguments) in (1, 2) and all(argument.isdigit() for argument in arguments):
        count, first = int(arguments[0]), int(arguments[1]) if len(arguments) == 2 else 0
        cases = (("seed %d (%s)" % (seed, kind(seed)), make(seed)) for seed in range(first, first + count))
    else:
        sys.exit("usage: compare.py COUNT [FIRST_SEED] | compare.py --case FILE")
    return 1 if compare(cases) else 0


if __name__ == "__main__":
    sys.exit(main(sys.argv[1:]))
