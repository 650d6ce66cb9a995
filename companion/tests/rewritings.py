"""Sees that what the companion shows of a report says of the same whole stores what the report says: by the elimination of Fourier and Motzkin, and by trying stores.

    python3 companion/tests/rewritings.py FILE..

takes reports, or files with an object a line whose `output` is one, as the command writes them, and ends with 1 where one is shown otherwise. The tests call `wrong_of`.
"""
import itertools
import json
import random
import re
import sys
from pathlib import Path

sys.path.insert(0, str(Path(__file__).resolve().parent.parent))

import rational  # noqa: E402
import readable  # noqa: E402
from report import parse_report  # noqa: E402
from rows import Affine  # noqa: E402

STORES = 40


def affine_of(text):
    """A function as people write it."""
    return Affine.parse(text)


def rows_of(condition):
    """The rows that a condition in the words of people stands for, read by its own few rules."""
    if condition == "always":
        return []
    found = []
    for part in condition.split(" and "):
        sides = re.split(r" (<=|>=|==|>) ", part)
        for left, sign, right in zip(sides[::2], sides[1::2], sides[2::2]):
            difference = affine_of(left).with_multiple(-1, affine_of(right))
            found += {"<=": [difference.negated()], ">=": [difference], "==": [difference, difference.negated()], ">": [difference.plus(-1)]}[sign]
    return found


def wrong_condition(rows, shown):
    """What the shown condition says otherwise than the rows."""
    back = rows_of(shown)
    for row in rows:
        if not rational.implies(back, row):
            yield f"{shown}: doesn't imply {row} >= 0"
    for row in back:
        if not rational.implies(rows, row):
            yield f"{shown}: says more than the rows"
    for place in range(len(back)):
        if not is_equality(back, place) and rational.implies(back[:place] + back[place + 1:], back[place]):
            yield f"{shown}: {back[place]} >= 0 is implied by the others"


def is_equality(rows, place):
    return rows[place].negated() in rows


def wrong_union(shown, parts):
    """What a joined condition says otherwise than those that it was joined of."""
    back = rows_of(shown)
    for part in parts:
        for row in back:
            if not rational.implies(part, row):
                yield f"{shown}: a store of a line that was joined doesn't meet it"
    if not rational.covers(back, [list(part) for part in parts]):
        yield f"{shown}: a store meets none of the lines that were joined"


def wrong_section(lines):
    """What the lines of a section are shown as that they don't say."""
    for line in lines:
        yield from wrong_condition(list(line.rows), readable.spelled_condition(line.rows))
        if line.claim.bound is not None:
            difference = readable.bound_under(line.rows, line.claim.bound).with_multiple(-1, line.claim.bound)
            if not (rational.implies(list(line.rows), difference) and rational.implies(list(line.rows), difference.negated())):
                yield f"{line.claim}: another bound is shown"
    shown = readable.joined_values(readable.joined(lines))
    taken = 0
    for one in shown:
        parts = [line.rows for line in lines if inside(line, one)]
        taken += len(parts)
        yield from wrong_union(readable.spelled_condition(one.rows), parts)
    if taken != len(lines):
        yield f"{len(lines)} lines are shown as {taken}"
    yield from wrong_stores(lines, shown)


def inside(line, one):
    """Whether a line was taken into a joined one: its stores are in it, and its bound is the same there."""
    if not all(rational.implies(list(line.rows), row) for row in one.rows):
        return False
    if line.claim.bound is None:
        return line.claim == one.claim
    difference = line.claim.bound.with_multiple(-1, one.claim.bound)
    return line.claim.kind == one.claim.kind and rational.implies(list(line.rows), difference) and rational.implies(list(line.rows), difference.negated())


def wrong_stores(lines, shown):
    """Stores, tried from a fixed seed, of which what is shown says something else than the lines."""
    names = sorted({name for line in lines for row in line.rows for name, _ in row.terms})
    dice = random.Random(len(lines))
    small = itertools.product((-1, 0, 1), repeat=min(len(names), 3))
    stores = [dict(zip(names, values)) for values in small] + [{name: dice.randint(-9, 9) for name in names} for _ in range(STORES)]
    for store in stores:
        if told(lines, store) != told(shown, store):
            yield f"at {store}: {told(shown, store)} in the place of {told(lines, store)}"


def told(lines, store):
    """What is claimed of a store, the bounds by their values."""
    met = [line.claim for line in lines if all(row.value(store) >= 0 for row in line.rows)]
    return {(claim.kind, claim.rank, claim.bound and claim.bound.value(store)) for claim in met}


def wrong_of(text):
    """What is shown of a report otherwise than it says."""
    report = parse_report(text)
    for name, lines in report.sections.items():
        if name != "explain":
            yield from (f"{name}: {wrong}" for wrong in wrong_section(lines))


def reports(path):
    """The reports of a file."""
    text = Path(path).read_text()
    outputs = [json.loads(line)["output"] for line in text.splitlines()] if path.endswith(".jsonl") else [text]
    return [output for output in outputs if "\nverdict: " in output]


def main(paths):
    wrong, count = [], 0
    for path in paths:
        for number, text in enumerate(reports(path), 1):
            count += 1
            wrong += [f"{path}, report {number}: {line}" for line in wrong_of(text)]
    print("\n".join(wrong[:20] + [f"{count} reports, {len(wrong)} shown otherwise than they say"]))
    return 1 if wrong else 0


if __name__ == "__main__":
    sys.exit(main(sys.argv[1:]))
