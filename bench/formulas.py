#!/usr/bin/env python3
"""Prints, for programs and formulas that grow, the time of the built command divided by that for the smallest of the kind, and by that for the one before.

So many tests in a row are asked about under `AG`, so many parts are joined or stand in each other, and formulas of some run are asked of so many free choices.
Each ratio is one of medians over several runs, less the time for an empty program. Nothing is asserted: machines differ and are shared.
"""
import sys

from timing import built, median_seconds_on

RUNS = 5


def tests(count):
    """So many tests in a row, of which the last value stays in its bounds on all runs."""
    return "int main() { int x, y; " + "".join(f"if (x > {number}) y = {number}; " for number in range(count)) + "}", "AG (y <= 1000 || x >= 0)"


def labels(count):
    """A response over so many assignments."""
    return "int main() { int x, y; " + "".join(f"y = y + {number}; " for number in range(count)) + "x = 0; }", "AG (x <= 0 || AF x == 0)"


def parts(count):
    """So many untils joined."""
    return "int main() { int x; while (x > 0) x = x - 1; }", " && ".join(["AF x <= 0"] * count)


def inside(count):
    """So many untils in each other."""
    return "int main() { int x; while (x > 0) x = x - 1; }", "AF " * count + "x <= 0"


def choices(count):
    """Some way through so many free tests."""
    return "int main() { int x, y; " + "if (?) x = x + 1; else y = y + 1; " * count + "}", "EF (exit && x > y)"


KINDS = [(tests, (12, 25, 50, 100)), (labels, (100, 300, 1000)), (parts, (4, 8, 16)), (inside, (4, 8, 16, 32)), (choices, (4, 6, 8))]


def seconds(binary, program, formula):
    return median_seconds_on([binary, "--ctl", formula], program, RUNS)


def main():
    binary = built()
    empty = seconds(binary, "int main() { }", "exit")
    print("kind       size  seconds  / that of the first  / that of the one before")
    for asked, sizes in KINDS:
        base = before = seconds(binary, *asked(sizes[0])) - empty
        for size in sizes:
            time = seconds(binary, *asked(size)) - empty
            print(f"{asked.__name__:9}  {size:4}  {time:7.3f}  {time / base:19.1f}  {time / before:24.1f}", flush=True)
            before = time
    return 0


if __name__ == "__main__":
    sys.exit(main())
