#!/usr/bin/env python3
"""Tries the further must-fail edits: those of tools/edits, by crate, which the gate leaves out to save its time.

  python3 tools/edits.py [CRATE...]        try those of some crates, or of all, in a copy of the repository
"""

import os
import shutil
import subprocess
import sys
import tempfile
from pathlib import Path

from rejected import ROOT, copy_repository

EDITS = ROOT / "tools" / "edits"


def main(names):
    crates = names or sorted(folder.name for folder in EDITS.iterdir())
    with tempfile.TemporaryDirectory() as folder:
        place = Path(folder)
        # The copy has no must-fail folders, so that what it gets here is all that is tried.
        copy_repository(place)
        for crate in crates:
            shutil.copytree(EDITS / crate, place / "crates" / crate / "must-fail")
        return subprocess.run([os.environ.get("RT", "rt"), "must-fail", *crates], cwd=place).returncode


if __name__ == "__main__":
    sys.exit(main(sys.argv[1:]))
