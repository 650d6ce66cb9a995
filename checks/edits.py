#!/usr/bin/env python3
"""Tries the must-fail edits that the gate leaves out, those of crates/NAME/edits/: the prover must refuse each.

    python3 checks/edits.py [NAME ..]

It copies the tree as it stands, puts each crate's edits/ in the place of its must-fail/ there, and runs `rt ci` over the crates that are named, or over all that have such edits. What `rt ci` passed
on this machine is kept, so behind a gate only the edits are tried: each crate is proved once more before its edits, and a run over all takes an hour or so on four processors. The last line counts
the edits; it ends with 1 where one isn't refused, can't be applied or wasn't tried, or where a crate isn't proved.
"""
import re
import shutil
import subprocess
import sys
import tempfile
from pathlib import Path

TOP = Path(__file__).resolve().parent.parent
TOLD = re.compile(r"must-fail (\S+): (.*)")


def crates(names):
    """The crates that are named, or all, of those that have edits outside the gate."""
    folders = sorted(folder.parent for folder in (TOP / "crates").glob("*/edits"))
    known = [folder.name for folder in folders]
    unknown = [name for name in names if name not in known]
    if unknown:
        sys.exit(f"{', '.join(unknown)}: no such crate, or it has no edits outside the gate")
    return names or known


def tried(copy, names):
    """What `rt ci` says of each edit in the copy, by its crate and file, and its status. What it says is shown as it comes."""
    found = {}
    with subprocess.Popen(["rt", "ci", *names], cwd=copy, stdout=subprocess.PIPE, stderr=subprocess.STDOUT, text=True) as run:
        for line in run.stdout:
            print(line, end="", flush=True)
            told = TOLD.search(line)
            if told:
                found[told[1]] = told[2]
    return found, run.returncode


def main():
    names = crates(sys.argv[1:])
    with tempfile.TemporaryDirectory() as folder:
        copy = Path(folder) / TOP.name
        shutil.copytree(TOP, copy, symlinks=True, ignore=shutil.ignore_patterns("out", ".git", "unlanded"))
        for name in names:
            crate = copy / "crates" / name
            shutil.rmtree(crate / "must-fail", ignore_errors=True)
            (crate / "edits").rename(crate / "must-fail")
        asked = [f"{name}/{file.name}" for name in names for file in sorted((copy / "crates" / name / "must-fail").glob("*.edit"))]
        found, status = tried(copy, names)
    others = [edit for edit in asked if not found.get(edit, "").startswith("refused")]
    for edit in others:
        print(f"{edit}: {found.get(edit, 'nothing was said of it')}")
    print(f"{len(asked)} edits, {len(asked) - len(others)} of them refused")
    return 1 if others or status else 0


if __name__ == "__main__":
    sys.exit(main())
