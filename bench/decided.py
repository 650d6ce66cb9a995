#!/usr/bin/env python3
"""Prints for each program under examples/, without its formula, the share of inputs from which the command says that each run ends, that some run or each run never ends, and of which it says nothing.

    python3 bench/decided.py [FILE..]

The inputs are those from -10 to 10 for each variable, or a thousand of them by a fixed seed where they are more. The last line has the means. Nothing is asserted.
"""
import os
import sys
from pathlib import Path

TOP = Path(__file__).resolve().parent.parent
sys.path.insert(0, str(TOP / "companion"))

from command import VARIABLE, path  # noqa: E402
from questions import Question, answer  # noqa: E402
from shares import share  # noqa: E402
from timing import built  # noqa: E402
from tokens import declared  # noqa: E402


def shares(program, file):
    """The shares of a file that end and that never do."""
    result = answer(program, Question({}), file.name, file.read_bytes().decode("latin-1"))
    if result.report is None:
        sys.exit(f"{file}: {result.trouble or 'no program'}")
    return share(declared(result.text), result.report.lines("proved") + result.report.lines("ranked"), result.never)


def main(words):
    program = path() if VARIABLE in os.environ else built()
    files = [Path(word) for word in words] or sorted((TOP / "examples").glob("*.c"))
    found = [(file.name, *shares(program, file)) for file in files]
    found.append(("mean", *(sum(row[column] for row in found) / len(found) for column in (1, 2))))
    print(f"{'program':24}  {'ends':>6}  {'never':>6}  {'unknown':>7}")
    for name, ends, never in found:
        print(f"{name:24}  {ends:6.1%}  {never:6.1%}  {1 - ends - never:7.1%}")


if __name__ == "__main__":
    main(sys.argv[1:])
