#!/usr/bin/env python3
"""Prints what each crate costs, from bottom to top: the processor minutes of its proof, of its tests or its run, and of its must-fail edits.

    python3 bench/gate.py [NAME ..]

Without names it goes through all crates. It stands on commands that each kit has, from 13b on: `rt check`, `rt test`, `rt run` and `rt must-fail`. What is kept
in a crate's out/ costs nothing, so the figures are those of the gate in a new clone alone. Each crate has one processor, so that they are not those of a
machine under load, and the gate takes less than their sum where several provers run side by side.
"""
import resource
import subprocess
import sys
from pathlib import Path

TOP = Path(__file__).resolve().parent.parent


def crates():
    """The names in crates.txt, in order."""
    lines = (TOP / "crates.txt").read_text().splitlines()
    return [line.partition(":")[0].strip() for line in lines if line.strip() and not line.startswith("#")]


def minutes(command, folder, given=subprocess.DEVNULL):
    """The processor minutes of the command in the folder over what it is given, which ends the script where it fails."""
    def used():
        spent = resource.getrusage(resource.RUSAGE_CHILDREN)
        return spent.ru_utime + spent.ru_stime

    before = used()
    ended = subprocess.run(command, cwd=folder, stdin=given, stdout=subprocess.PIPE, stderr=subprocess.STDOUT, text=True)
    if ended.returncode:
        sys.exit(f"{' '.join(command)} in {folder.name}:\n{ended.stdout[-2000:]}")
    return (used() - before) / 60


def costs(name):
    """The minutes of the three parts of a crate, 0 where it has no such part."""
    folder = TOP / "crates" / name
    proof = minutes(["rt", "check", "--jobs", "1"], folder)
    run = 0.0
    if (folder / "src/main.rt").exists():
        for compiler in ("rattle", "llvm"):
            with open(folder / "stdin" if (folder / "stdin").exists() else "/dev/null", "rb") as given:
                run += minutes(["rt", "run", "--backend", compiler], folder, given)
    elif any("#[test]" in file.read_text() for file in (folder / "src").rglob("*.rt")):
        run = minutes(["rt", "test"], folder)
    edits = minutes(["rt", "must-fail", name], TOP) if any(folder.glob("must-fail/*.edit")) else 0.0
    return proof, run, edits


def main():
    print(f"{'proof':>7} {'tests':>7} {'edits':>7}  crate")
    sums = [0.0, 0.0, 0.0]
    for name in sys.argv[1:] or crates():
        parts = costs(name)
        sums = [total + part for total, part in zip(sums, parts)]
        print("{:7.1f} {:7.1f} {:7.1f}  {}".format(*parts, name), flush=True)
    print("{:7.1f} {:7.1f} {:7.1f}".format(*sums))


if __name__ == "__main__":
    main()
