#!/usr/bin/env python3
"""Prints the most memory that the built command holds, for programs that grow and under formulas that nest: in megabytes, and as ratios to that for the
smallest of the kind and to that for the one before.

    python3 bench/memory.py [PROGRAM]

PROGRAM is the command, built anew where a source is newer if none is named. What is told is the kernel's count of the pages that the process held at most; less than what this
script held itself as it began the process, some 12 MB, it doesn't tell. Nothing is asserted: C libraries differ.
"""
import os
import subprocess
import sys

from loops import line_behind
from timing import built


def tests_in_loop(tests, statements):
    """A loop with so many assignments and then so many tests, each of a variable of its own: a tree for each label, with a leaf for each way through the tests."""
    names = [f"a{number}" for number in range(tests)]
    front = "y = y + 1; " * statements
    body = "".join(f"if ({name} > 0) x = x - 1; else x = x - 2; " for name in names)
    return f"int main() {{ int x, y, {', '.join(names)}; while (x != 0) {{ {front}{body}}} }}"


def tests_behind(tests, statements):
    """The same behind a loop."""
    names = [f"a{number}" for number in range(tests)]
    front = "y = y + 1; " * statements
    body = "".join(f"if ({name} > 0) y = y + 1; " for name in names)
    return f"int main() {{ int x, y, {', '.join(names)}; while (x != 0) x = x - 1; {front}{body}}}"


MANY = tests_in_loop(5, 100)
KINDS = [
    ("5 tests in a loop of so many statements", [(str(count), [], tests_in_loop(5, count)) for count in (100, 200, 400, 800)]),
    ("so many tests in a loop of 100 statements", [(str(count), [], tests_in_loop(count, 100)) for count in (4, 5, 6, 7)]),
    ("so many tests behind a loop, and 100 statements", [(str(count), [], tests_behind(count, 100)) for count in (6, 7, 8, 9)]),
    ("so many tests of one variable behind a loop", [(str(count), [], line_behind(count)) for count in (50, 100, 200)]),
    ("formulas about 5 tests in a loop of 100", [(formula, ["--ctl", formula], MANY) for formula in ("AF exit", "AF AF exit", "A[x != 7 U AF exit]", "AG AF x <= 0")]),
]


def megabytes(binary, words, text):
    """The most memory that the command held over the text."""
    child = subprocess.Popen([binary, *words], stdin=subprocess.PIPE, stdout=subprocess.DEVNULL)
    child.stdin.write(text.encode())
    child.stdin.close()
    _, status, usage = os.wait4(child.pid, 0)
    if os.waitstatus_to_exitcode(status) not in (0, 1):
        sys.exit(f"{words} {text[:60]}: status {status}")
    return usage.ru_maxrss / 1024


def main():
    binary = sys.argv[1] if len(sys.argv) > 1 else built()
    for kind, cases in KINDS:
        print(f"{kind}\n    {'':20}  {'MB':>7}  / that of the first  / that of the one before")
        first = before = megabytes(binary, *cases[0][1:])
        for name, words, text in cases:
            most = megabytes(binary, words, text)
            print(f"    {name:20}  {most:7.1f}  {most / first:19.1f}  {most / before:24.1f}", flush=True)
            before = most
    return 0


if __name__ == "__main__":
    sys.exit(main())
