#!/usr/bin/env python3
"""Prints, for programs whose exact levels grow, the time of the built command divided by that for the smallest of the kind, and the same for the
lines of the exact part.

Each ratio is one of medians over several runs, less the time for an empty program. Nothing is asserted: machines differ and are shared.
"""
import subprocess
import sys

from timing import built, median_seconds_on

RUNS = 5


def straight(count):
    """So many assignments, and what is asked of the last."""
    body = "".join(f"a = a + {number}; " for number in range(1, count + 1))
    return "int main() { int a; " + body + "if (a > 0) a = 1; }", 2


def conditions(count):
    """So many tests of one variable in a row."""
    return "int main() { int x, y; " + "".join(f"if (x > {number}) y = y + 1; " for number in range(count)) + "}", 0


def turns(tests):
    """A loop that counts down, up to so many tests."""
    return "int main() { int x; while (x > 0) x = x - 1; }", tests


def chosen_turns(tests):
    """A loop that counts down by one of two steps, up to so many tests."""
    return "int main() { int x; while (x > 0) { if (?) x = x - 1; else x = x - 2; } }", tests


KINDS = [(straight, (100, 300, 1000)), (conditions, (2, 4, 6, 8, 10)), (turns, (1, 2, 4, 8)), (chosen_turns, (0, 1))]


def measured(binary, text, delay):
    """The median of the seconds, and the number of lines of the exact part."""
    command = [binary, "--delay", str(delay)]
    report = subprocess.run(command, input=text, capture_output=True, text=True, check=False).stdout
    return median_seconds_on(command, text, RUNS), report.split("proved:")[0].count("exactly")


def main():
    binary = built()
    empty, _ = measured(binary, "int main() { }", 0)
    print("kind           size  time / that of the first  lines / those of the first")
    for program, sizes in KINDS:
        base = None
        for size in sizes:
            seconds, lines = measured(binary, *program(size))
            base = base or (seconds - empty, max(lines, 1))
            print(f"{program.__name__:13}  {size:4}  {(seconds - empty) / base[0]:24.1f}  {lines / base[1]:26.1f}", flush=True)
    return 0


if __name__ == "__main__":
    sys.exit(main())
