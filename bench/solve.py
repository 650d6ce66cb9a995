#!/usr/bin/env python3
"""Asks the solver about seven sets of systems: what share of each it gives up, its answers, and its time
as a ratio to that on the first set.

    python3 bench/solve.py [PROGRAM] [OTHER ..]

PROGRAM is the built program, crates/cases_cli/out/cases_cli by default (`rt run -- data/numbers` in crates/cases_cli
builds it). Of each other program, as a build of an older commit, the times are printed as parts of the
first's too. The sets are the same at each run: random numbers come from a fixed seed. The time is that of the
processor, and what it takes to read the rows is left out, as a call tells it that reads them and asks little. On the
last set a look at the rows is enough, which takes less than the reading varies by.
"""

import random
import sys

from timing import answers_of, cases, row, seconds_of


def random_systems(source):
    """1,000 systems of 10 rows over 5 places."""
    for _ in range(1000):
        yield [
            row({place: source.randint(-9, 9) or 1 for place in range(5)}, source.randint(-20, 20))
            for _ in range(10)
        ]


def chains(source):
    """200 chains x1 <= x2 <= .. <= x15, each with some 100 rows."""
    for _ in range(200):
        rows = [row({place: -1, place + 1: 1}, 0) for place in range(14)]
        while len(rows) < 100:
            low, high = sorted(source.sample(range(15), 2))
            rows.append(row({low: -1, high: 1}, source.randint(0, 50)))
        yield rows


def octagons(source):
    """20 octagon lists over 15 places with every linear part, 512 rows each."""
    for _ in range(20):
        rows = [row({place: sign}, source.randint(50, 99)) for place in range(15) for sign in (1, -1)]
        for first in range(15):
            for second in range(first):
                for sign in (1, -1):
                    for other in (1, -1):
                        rows.append(row({first: sign, second: other}, source.randint(50, 99)))
        while len(rows) < 512:
            first, second = source.sample(range(15), 2)
            rows.append(row({first: 1, second: -1}, source.randint(50, 99)))
        source.shuffle(rows)
        yield rows


def opposed(source):
    """1,000 systems of 200 rows of which two are opposed."""
    for _ in range(1000):
        rows = [
            row({place: source.randint(-9, 9) for place in source.sample(range(15), 4)} | {15: 1}, source.randint(0, 99))
            for _ in range(198)
        ]
        rows.insert(source.randrange(len(rows)), row({0: 1, 1: 2}, -1))
        rows.insert(source.randrange(len(rows)), row({0: -1, 1: -2}, 0))
        yield rows


def paths(source):
    """1,000 systems as a check of a path asks them: a region, an edge that sets a place, and the tests
    of a way through a tree, 10 rows over 5 places."""
    for _ in range(1000):
        first, second, third, fourth, fifth = source.sample(range(5), 5)
        shift = source.randint(-3, 3)
        rows = [
            row({first: 1}, source.randint(-4, 9)),
            row({first: -1}, source.randint(0, 12)),
            row({second: 1, first: -1}, shift),
            row({second: -1, first: 1}, -shift),
            row({third: 1, second: -1, fourth: source.randint(-2, 2)}, source.randint(-5, 5)),
            row({third: -1, fourth: source.randint(1, 3)}, source.randint(-5, 5)),
            row({fourth: 1, fifth: -source.randint(1, 3)}, source.randint(-4, 4)),
            row({fourth: -1, first: source.randint(-1, 1)}, source.randint(-4, 4)),
            row({fifth: 1, second: source.choice((-1, 1))}, source.randint(-6, 2)),
            row({third: -1, fifth: -1, first: source.randint(-1, 1)}, source.randint(-6, 4)),
        ]
        source.shuffle(rows)
        yield rows


def tight_octagons(source):
    """40 octagon lists over 10 places with every linear part, each tight at some store or nearly so;
    every other one has a cycle of differences that sums below 0."""
    for number in range(40):
        store = [source.randint(-50, 50) for _ in range(10)]
        parts = [{place: sign} for place in range(10) for sign in (1, -1)]
        parts += [
            {first: sign, second: other}
            for first in range(10)
            for second in range(first)
            for sign in (1, -1)
            for other in (1, -1)
        ]
        rows = [
            row(part, source.randint(0, 3) - sum(by * store[place] for place, by in part.items()))
            for part in parts
        ]
        if number % 2:
            cycle = source.sample(range(10), 5)
            for low, high in zip(cycle, cycle[1:] + cycle[:1]):
                rows.append(row({low: -1, high: 1}, store[low] - store[high] - (low == cycle[0])))
        source.shuffle(rows)
        yield rows


def few_parts(source):
    """20 systems of 2,000 rows with 24 linear parts over 6 places; a store meets every other one."""
    for number in range(20):
        parts = [{place: source.randint(-9, 9) or 1 for place in source.sample(range(6), 3)} for _ in range(24)]
        store = [source.randint(-50, 50) for _ in range(6)]
        rows = []
        for _ in range(2000):
            part = source.choice(parts)
            value = sum(by * store[place] for place, by in part.items())
            rows.append(row(part, source.randint(0, 500) - value if number % 2 else source.randint(-20, 500)))
        yield rows


def asked(program, systems):
    """The answers, and the time that they took."""
    told, seconds = timed(program, [f"decide {' and '.join(rows)}" for rows in systems])
    _, reading = timed(program, [f"boxes implies {' and '.join(rows)} of always" for rows in systems])
    return told, seconds - reading


def timed(program, calls):
    """The answers of the calls, and their time."""
    told = answers_of(program, calls)
    return told, seconds_of(program, calls, told)


def report(program, sets):
    """Prints a line for each set: what share is given up, the time, its ratio to that on the last set, the answers."""
    found = {name: asked(program, systems) for name, systems in sets}
    first = found[sets[0][0]][1]
    print(program)
    for name, (kinds, seconds) in found.items():
        given_up = sum(kind in ("wide", "too many rows") for kind in kinds) / len(kinds)
        answers = ", ".join(f"{kinds.count(kind)} {kind}" for kind in sorted(set(kinds)))
        print(f"{name:<12} given up {given_up:6.1%}  {seconds:7.3f} s  ratio {seconds / first:6.2f}  {answers}")
    return {name: seconds for name, (_, seconds) in found.items()}


def main():
    programs = sys.argv[1:] or [cases()]
    makers = [
        ("a random", random_systems),
        ("b chains", chains),
        ("c octagons", octagons),
        ("e paths", paths),
        ("f tight", tight_octagons),
        ("g few parts", few_parts),
        ("d opposed", opposed),
    ]
    sets = [(name, list(make(random.Random(7)))) for name, make in makers]
    first = report(programs[0], sets)
    for program in programs[1:]:
        seconds = report(program, sets)
        print("as parts of the first:", ", ".join(f"{name} {seconds[name] / first[name]:.2f}" for name, _ in sets))


if __name__ == "__main__":
    main()
