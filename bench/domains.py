#!/usr/bin/env python3
"""Prints, for programs whose loops grow in number or in length, the time of the built command under each domain divided by that under boxes, and
how the time under boxes grows.

Each ratio is one of medians over several runs, less the time for an empty program. Nothing is asserted: machines differ and are shared.
"""
import sys

from loops import one_after_another, straight
from timing import built, median_seconds_on

RUNS = 5
KINDS = [(straight, (100, 300, 1000)), (one_after_another, (5, 10, 20))]


def seconds(command, text):
    return median_seconds_on(command, text, RUNS)


def main():
    binary = built()
    empty = seconds([binary], "int main() { }")
    print("kind               size  boxes / first  octagons / boxes  polyhedra / boxes")
    for program, sizes in KINDS:
        first = None
        for size in sizes:
            text = program(size)
            boxes, octagons, polyhedra = (
                seconds([binary, "--domain", domain], text) - empty for domain in ("boxes", "octagons", "polyhedra")
            )
            first = first or boxes
            print(f"{program.__name__:17}  {size:4}  {boxes / first:13.1f}  {octagons / boxes:16.1f}  {polyhedra / boxes:17.1f}", flush=True)
    return 0


if __name__ == "__main__":
    sys.exit(main())
