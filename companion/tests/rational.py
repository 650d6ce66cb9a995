"""What rows imply, by the elimination of Fourier and Motzkin: plain and slow, and apart from the simplex tableau of the companion, to judge that by."""
from math import gcd


def scaled(row):
    """A row (coefficients, constant, whether it is strict) by its least whole numbers."""
    coefficients, constant, strict = row
    common = gcd(*(abs(number) for number in coefficients.values()), abs(constant)) or 1
    return {name: number // common for name, number in coefficients.items() if number}, constant // common, strict


def as_row(function, strict=False):
    return scaled((dict(function.terms), function.constant, strict))


def is_empty(rows):
    """Whether no rational point meets the rows."""
    left = [scaled(row) for row in rows]
    while True:
        for coefficients, constant, strict in left:
            if not coefficients and (constant < 0 or strict and constant == 0):
                return True
        names = {name for coefficients, _, _ in left for name in coefficients}
        if not names:
            return False

        def cost(name, rows=left):
            above = sum(coefficients.get(name, 0) > 0 for coefficients, _, _ in rows)
            below = sum(coefficients.get(name, 0) < 0 for coefficients, _, _ in rows)
            return above * below - above - below, name

        left = eliminated(left, min(names, key=cost))


def eliminated(rows, name):
    """The rows that a point's other numbers meet exactly where some number for the name makes it meet these."""
    above = [row for row in rows if row[0].get(name, 0) > 0]
    below = [row for row in rows if row[0].get(name, 0) < 0]
    found = {}
    for row in [row for row in rows if not row[0].get(name, 0)] + [scaled(summed(one, other, name)) for one in above for other in below]:
        key = tuple(sorted(row[0].items()))
        if key not in found or (row[1], not row[2]) < (found[key][1], not found[key][2]):
            found[key] = row
    return list(found.values())


def summed(one, other, name):
    """The sum of multiples of two rows in which the name has no part."""
    first, second = -other[0][name], one[0][name]
    names = {*one[0], *other[0]} - {name}
    total = {key: first * one[0].get(key, 0) + second * other[0].get(key, 0) for key in names}
    return {key: number for key, number in total.items() if number}, first * one[1] + second * other[1], one[2] or other[2]


def implies(rows, function):
    """Whether each rational point that meets the rows, all at least 0, makes the function at least 0."""
    return is_empty([as_row(row) for row in rows] + [as_row(function.negated(), strict=True)])


def covers(rows, parts):
    """Whether each whole store that meets the rows meets all rows of one of the parts: each choice of one complement a part has no rational point.

    A part without a point in common with the rows is of no use to them.
    """
    own = [as_row(row) for row in rows]
    if is_empty(own):
        return True
    useful = [part for part in parts if not is_empty(own + [as_row(row) for row in part])]
    return bool(useful) and all(covers([*rows, row.complement()], useful[1:]) for row in useful[0])
