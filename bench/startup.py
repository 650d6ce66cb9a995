#!/usr/bin/env python3
"""Prints, for programs of 1, 4, 16 and 64 KiB, the time of ./function divided by the time of `wc -c` on the same file.

Each ratio is one of medians over several runs. Nothing is asserted: machines differ and are shared.
"""
import sys
import tempfile

from timing import SCRIPT, built, median_seconds

RUNS = 21


def program(size):
    """A program of at most `size` bytes: branches and assignments, with four labels for each 512 bytes."""
    head, part, tail = "int main() { int x; ", "if (?) x = 1%s; else { x = 2%s; ; } " % (" + x" * 60, " - x" * 60), "}"
    return head + part * ((size - len(head) - len(tail)) // len(part)) + tail


def main():
    binary = built()
    print("KiB  ./function / wc -c  (the built program alone / wc -c)")
    for kib in (1, 4, 16, 64):
        with tempfile.NamedTemporaryFile("w", suffix=".c") as file:
            file.write(program(kib * 1024))
            file.flush()
            base = median_seconds(["wc", "-c"], file.name, RUNS)
            whole = median_seconds([SCRIPT], file.name, RUNS) / base
            alone = median_seconds([binary], file.name, RUNS) / base
        print(f"{kib:3}  {whole:6.1f}  ({alone:.1f})")
    return 0


if __name__ == "__main__":
    sys.exit(main())
