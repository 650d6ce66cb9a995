#!/usr/bin/env python3
"""Times the calls that trim, join, prune and widen trees, each as a ratio to a copy of a tree as large as the one that it makes.

    python3 bench/joins.py [PROGRAM]

PROGRAM is the built program, crates/cases_cli/out/cases_cli by default (`rt run -- data/numbers` in crates/cases_cli
builds it). A line of 65,521 nodes is trimmed by no row, which is a walk over the tree with the rows of its way that makes the tree anew,
and by paths of 10 and of 1,000 rows that settle nothing, no two of them with one linear part, and joined with itself; two trees of 201 nodes that
share no row are joined; a line of 4,081 nodes is pruned by a box of all stores; and a line of 4,961 nodes is
widened by one of the same rows with smaller ranks, so that the solver is asked nothing. A line of 1,000
nodes that lie on the yes sides is pruned by all stores, under boxes and under octagons: how many times as
long octagons take, which is to be 3 at most, and the memory that they take beyond boxes, 4 megabytes at most. At the end stands the memory that a join
takes which is refused, of rows with nodes on their yes sides and a tree of 2,001 nodes. The times are those of the processor, and what it takes to read
the trees is left out; what a run holds counts as no less than this script does itself, some 15 megabytes.
"""

from timing import NAMES, cases, copying, milliseconds, reading, told_of

# The variables of the rows of a line, one after the other.
PARTS = NAMES[:8]


def line(rows, rank="0"):
    """A line down the no sides, with so many rows of each of the eight variables."""
    return " ".join(f"line no {rows} {name} - k >= 0 beside end {rank} then" for name in PARTS) + " nothing"


def descending(rows):
    """A line down the yes sides whose numbers rise from the root, so that both sides of each node have members."""
    return " ".join(f"line yes {rows} {name} - k >= 0 beside end 0 then" for name in PARTS) + " nothing"


def broad(rows):
    """A line down the no sides with a node on each yes side."""
    return " ".join(f"x - {rows - number} >= 0 ? (y - {number} >= 0 ? end {number} : nothing) :" for number in range(rows)) + " nothing"


def making(program, call, trees, times):
    """What the call takes beyond reading these trees."""
    whole = milliseconds(program, f"{call} is nothing", "no", times)
    return whole - sum(reading(program, tree, times) for tree in trees)


def nodes(program, call):
    """The size of the tree that the call makes."""
    told, _, _ = told_of(program, call + "\n")
    return 2 * told.splitlines()[1].count("?") + 1


def main():
    program = cases()
    long, short, middle = line(4095), line(255), line(310)
    first, second = "line no 100 x - k >= 0 beside end x + k then nothing", "line no 100 y - k >= 0 beside end y + k then nothing"
    joined = f"line no {nodes(program, f'later {first} and {second}') // 2} x - k >= 0 beside end 0 then nothing"
    copied = {tree: copying(program, tree, times) for tree, times in ((long, 10), (short, 100), (middle, 100), (joined, 10))}
    jobs = [
        ("trim by no row", f"trim always in {long}", [long], long, 10),
        ("trim by 10 rows", f"trim many slopes 10 in {long}", [long], long, 10),
        ("trim by 1,000 rows", f"trim many slopes 1000 in {long}", [long], long, 2),
        ("either with itself", f"either {long} and {long}", [long, long], long, 10),
        ("later of two trees", f"later {first} and {second}", [], joined, 20),
        ("prune by a box", f"prune always in {short}", [short], short, 40),
        ("widen by smaller ranks", f"widen {line(310, 'k')} and {middle}", [middle, middle], middle, 40),
    ]
    for name, call, read, made, times in jobs:
        took = making(program, call, read, times)
        print(f"{name}: copy {copied[made]:.2f} ms, {took:.2f} ms, ratio {took / copied[made]:.2f}", flush=True)
    deep = descending(125)
    calls = [f"prune {domain} always in {deep}" for domain in ("", "octagons")]
    boxes, octagons = (making(program, call, [deep], 10) for call in calls)
    beyond = [told_of(program, f"{call} is nothing\n")[2] / 1e6 for call in calls]
    print(f"prune by octagons: {octagons / boxes:.1f} times as long as by boxes, {beyond[1] - beyond[0]:.1f} megabytes beyond (at most 3 times, 4 megabytes)")
    told, _, most = told_of(program, f"later {broad(60)} and line no 1000 z - k >= 0 beside end z + k then nothing\n    too large\n")
    print(f"later of too many nodes: {most / 1e6:.0f} megabytes" if told == "cases: 1 cases\n" else told)


if __name__ == "__main__":
    main()
