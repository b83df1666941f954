#!/usr/bin/env python3
"""Tries programs that have to be rejected before they run, and looks for the reason.

Each file of tools/rejected is an edit of a crate, as in a crate's must-fail folder, with a fourth line: the error to expect.
`rt must-fail` counts only edits that reach the prover. These do not: a value that is used again after it was moved, or that is
let go, is refused before anything is proved.

  python3 tools/rejected.py        try each edit in a copy of the repository; `rt check` begins there with what earlier checks kept
"""

import os
import shutil
import subprocess
import sys
import tempfile
from pathlib import Path

ROOT = Path(__file__).resolve().parent.parent
COPIED = ["crates", "crates.txt"]
LEFT_OUT = shutil.ignore_patterns("must-fail", "out")


def read(edit):
    """The parts of an edit by their names."""
    return dict(line.split(": ", 1) for line in edit.read_text().splitlines())


def copy_repository(place):
    for name in COPIED:
        source = ROOT / name
        if source.is_dir():
            shutil.copytree(source, place / name, ignore=LEFT_OUT)
        else:
            shutil.copy(source, place / name)


def rejected(place, parts):
    """Whether the edited crate is refused with the one error that is expected, and what was said."""
    path = place / parts["file"]
    whole = path.read_text()
    if whole.count(parts["old"]) != 1:
        return False, f"the old text does not stand once in {parts['file']}"
    path.write_text(whole.replace(parts["old"], parts["new"]))
    crate = place / Path(*Path(parts["file"]).parts[:2])
    run = subprocess.run([os.environ.get("RT", "rt"), "check"], cwd=crate, text=True, capture_output=True)
    path.write_text(whole)
    errors = [line for line in (run.stdout + run.stderr).splitlines() if ": error" in line]
    said = "\n".join(errors)
    return run.returncode != 0 and len(errors) == 1 and f"error[{parts['error']}]" in errors[0], said


def main():
    failed = 0
    with tempfile.TemporaryDirectory() as folder:
        place = Path(folder)
        copy_repository(place)
        for edit in sorted((ROOT / "tools" / "rejected").glob("*.edit")):
            right, said = rejected(place, read(edit))
            failed += not right
            print(f"{edit.stem}: {'rejected, as it must be' if right else 'NOT REJECTED FOR THAT REASON'}\n  {said}")
    sys.exit(1 if failed else 0)


if __name__ == "__main__":
    main()
