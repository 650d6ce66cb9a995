#!/usr/bin/env python3
"""Prints, for loops whose bodies are 100, 300 and 1,000 assignments, the time of the built command divided by that for 100.

Each ratio is one of medians over several runs, less the time for an empty program. Nothing is asserted: machines differ and are shared.
"""
import sys

from timing import built, median_seconds_on

RUNS = 41


def program(count):
    """A loop that counts x down, with so many assignments that leave x alone before its step."""
    body = "".join(f"a = a + {number}; " for number in range(1, count + 1))
    return "int main() { int a, x; while (x > 0) { " + body + "x = x - 1; } }"


def seconds(binary, text):
    return median_seconds_on([binary], text, RUNS)


def main():
    binary = built()
    empty = seconds(binary, "int main() { }")
    base = seconds(binary, program(100)) - empty
    print("assignments  time / that of 100")
    for count in (100, 300, 1000):
        print(f"{count:11}  {(seconds(binary, program(count)) - empty) / base:6.1f}")
    return 0


if __name__ == "__main__":
    sys.exit(main())
