#!/usr/bin/env python3
"""Runs the built programs on firings, and compares what they print with what the second program says.

  python3 tools/compare.py 1000                 the firings of the seeds 1 to 1000, and the mask table
  python3 tools/compare.py 1 --seed 42          only the firing of seed 42, and the mask table
  python3 tools/compare.py 1000 --programs DIR  with programs that stand elsewhere than rt leaves them

`rt run` in crates/NAME proves and builds the program NAME, and leaves it in crates/NAME/out. This tool ends at the first difference,
and keeps the input that shows it in target/.
"""

import argparse
import subprocess
import sys
from collections import Counter
from itertools import zip_longest
from pathlib import Path

from firings import MAKERS, ROOT, firing
from second import expected

LONGEST_RUN = 60


def first_difference(wanted, got):
    """The first line in which two outputs differ, as a text."""
    lines = zip_longest(wanted.split(b"\n"), got.split(b"\n"))
    number, (must, does) = next((number, pair) for number, pair in enumerate(lines, 1) if pair[0] != pair[1])
    return f"line {number} must be {must!r} and is {does!r}"


def built(program, folder):
    """Where a built program is: in the folder that is given, or where rt leaves it."""
    return folder / program if folder else ROOT / "crates" / program / "out" / program


def compare(folder, program, data, name):
    """Runs a program on an input, and gives the number of lines that it printed, all as they must be."""
    run = subprocess.run([built(program, folder)], input=data, capture_output=True, timeout=LONGEST_RUN)
    wanted = expected(program, data)
    if run.stdout == wanted and run.returncode == 0:
        return wanted.count(b"\n")
    kept = ROOT / "target" / f"{program}-{name.replace(' ', '-')}.in"
    kept.parent.mkdir(exist_ok=True)
    kept.write_bytes(data)
    reason = f"it ended with {run.returncode}" if run.stdout == wanted else first_difference(wanted, run.stdout)
    sys.exit(f"{program}, {name}: {reason}; the input is {kept}")


def arguments():
    parser = argparse.ArgumentParser(description=__doc__, formatter_class=argparse.RawDescriptionHelpFormatter)
    parser.add_argument("count", type=int, help="how many firings")
    parser.add_argument("--seed", type=int, default=1, help="the first one's seed (default %(default)s)")
    parser.add_argument("--programs", type=Path, help="the one folder in which all built programs are")
    return parser.parse_args()


def main():
    given = arguments()
    for program in [*MAKERS, "masks"]:
        if not built(program, given.programs).exists():
            sys.exit(f"{built(program, given.programs)} is not there: `rt run` in crates/{program} proves and builds it")
    lines = compare(given.programs, "masks", b"", "the table")
    compared = Counter()
    for seed in range(given.seed, given.seed + given.count):
        program, kind, data = firing(seed)
        lines += compare(given.programs, program, data, f"seed {seed}, {kind}")
        compared[program] += 1
    counts = ", ".join(f"{compared[program]} of {program}" for program in MAKERS)
    print(f"{given.count} firings compared ({counts}) and the mask table: all {lines} printed lines are as they must be")


if __name__ == "__main__":
    main()
