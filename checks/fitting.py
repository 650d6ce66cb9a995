#!/usr/bin/env python3
"""Looks for a run that leaves 32 bits though its input meets a line `fits`.

    python3 checks/fitting.py [--cases N] [--seed S] [--command PATH]

It is no part of the gate. Programs are made at random from a seed, by the maker of `fuzz.py`, and the command is asked with `--fit` from which inputs no number of a run leaves 32 bits. Inputs of 32 bits are
made at random, most of them of numbers near the ends of that range or near 0: each has to meet exactly one line. From those that meet a line `fits` runs are made, with what they choose made at random too,
and each number on the way is looked at: a variable's, an operand's, a quotient's beside what it leaves. It ends with 1 where one of them is outside, or an input meets no line or several.
"""
import argparse
import random
import subprocess
import sys

from fuzz import SECONDS, TOP, Maker, Run, met

LEAST, GREATEST = -2**31, 2**31 - 1
CORNERS = [LEAST, LEAST + 1, -2**30, -3, -2, -1, 0, 1, 2, 3, 9, 2**30, GREATEST - 1, GREATEST]
STEPS = 300
INPUTS = 30


class Outside(Exception):
    """A number that 32 bits don't hold."""


class FittingRun(Run):
    """A run that looks at each of its numbers, and in which a `?` chooses one of 32 bits."""

    def value(self, tree):
        kind, *parts = tree
        if kind == "free":
            return self.dice.choice(CORNERS)
        if kind == "range" and None in parts:
            return fitting(self.dice.choice([number for number in [-10**20, *CORNERS, 10**20] if within(number, *parts)] or [parts[0] or parts[1]]))
        if kind == "divide":
            number = self.value(parts[1])
            quotient = fitting(abs(number) // abs(parts[2]) * (1 if (number < 0) == (parts[2] < 0) else -1))
            return fitting(quotient if parts[0] == "/" else number - quotient * parts[2])
        return fitting(super().value(tree))


def within(number, low, high):
    return (low is None or low <= number) and (high is None or number <= high)


def fitting(number):
    """The number, where 32 bits hold it."""
    if not within(number, LEAST, GREATEST):
        raise Outside(number)
    return number


def lines_of(report):
    """The lines of both sections together."""
    lines = report.split("\n")
    between = lines.index("unknown:")
    return lines[1:between] + lines[between + 1:-2]


def names_of(maker):
    """The variables of `main`, and those of the functions."""
    return maker.names + [f"{function.name}.{name}" for function in maker.callees for name in function.names]


def broken(report, dice, maker, block):
    """What is wrong with a report, or None."""
    lines = lines_of(report)
    for _ in range(INPUTS):
        store = {name: dice.choice(CORNERS) if dice.random() < 0.8 else dice.randint(LEAST, GREATEST) for name in names_of(maker)}
        claims = met(lines, store)
        if len(claims) != 1:
            return f"{store} meets {claims}"
        if claims == ["fits"]:
            for _ in range(4):
                try:
                    FittingRun(dice, [store[name] for name in maker.names], STEPS).ends(block)
                except Outside as outside:
                    return f"{store} fits, and a run comes to {outside}"
    return None


def main():
    parser = argparse.ArgumentParser()
    parser.add_argument("--cases", type=int, default=500)
    parser.add_argument("--seed", type=int, default=1)
    parser.add_argument("--command", default=str(TOP / "function"))
    given = parser.parse_args()
    bad = fits = 0
    for case in range(given.cases):
        dice = random.Random(f"{given.seed} {case}")
        maker = Maker(dice)
        block, text = maker.program()
        words = ["--fit", f"--domain={dice.choice(['boxes', 'boxes', 'octagons', 'polyhedra'])}"]
        try:
            ended = subprocess.run([given.command, *words], input=text.encode(), capture_output=True, timeout=SECONDS)
        except subprocess.TimeoutExpired:
            print(f"case {case}: no answer in {SECONDS} s: {text}")
            bad += 1
            continue
        if ended.returncode not in (0, 1):
            print(f"case {case}: status {ended.returncode}: {text}")
            bad += ended.returncode != 3
            continue
        report = ended.stdout.decode()
        fits += ": fits" in report
        wrong = broken(report, dice, maker, block)
        if wrong:
            print(f"case {case}: {wrong}: {' '.join(words)}\n{text}\n{report}")
            bad += 1
    print(f"{given.cases} programs, {fits} with a line that fits, {bad} wrong")
    return 1 if bad else 0


if __name__ == "__main__":
    sys.exit(main())
