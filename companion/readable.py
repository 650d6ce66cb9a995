"""Conditions as people write them, and fewer lines where one condition says what several do.

Each rewriting keeps the whole stores that a condition has, and each is found by exact arithmetic. A row is left out where the others imply it over the rationals; lines are joined where one
condition is met by exactly the whole stores that meet one of theirs.
"""
import functools
import itertools
from dataclasses import dataclass, replace
from math import gcd

from report import Line
from rows import Affine, implies, is_empty

# Past so many lines of one claim none are joined: each pair is looked at. Past so many in a report its rows are spelled as they are.
MOST_JOINED, MOST_REWRITTEN = 60, 300


@dataclass(frozen=True)
class Constraint:
    """A function between two ends, either of which may be missing: with equal ends the function is that number."""

    function: Affine
    low: int | None
    high: int | None

    def rows(self):
        """The rows that say the same."""
        below = [self.function.plus(-self.low)] if self.low is not None else []
        above = [self.function.negated().plus(self.high)] if self.high is not None else []
        return below + above


def weight(row):
    """How much there is to read in a row."""
    return len(row.terms), sum(abs(number) for _, number in row.terms), abs(row.constant), str(row)


def opposite(row):
    return tuple((name, -number) for name, number in row.terms)


def equalities(rows):
    """Of the rows those whose function is 0 at each rational point that meets them all, as few as say so, simple ones first."""
    if not is_empty([], [row for row in rows if row.terms]):
        return []
    found = []
    for row in sorted((row for row in rows if implies(rows, row.negated())), key=weight):
        both = [function for other in found for function in (other, other.negated())]
        if not (implies(both, row) and implies(both, row.negated())):
            found.append(row)
    return found


def known(equal):
    """The numbers that single variables are by the equalities, where they are whole."""
    store, changed = {}, True
    while changed:
        changed = False
        for row in equal:
            left = row.fixed(store)
            if len(left.terms) == 1 and left.constant % left.terms[0][1] == 0:
                store[left.terms[0][0]] = -left.constant // left.terms[0][1]
                changed = True
    return store


@functools.cache
def reduced(rows):
    """The equalities of a condition and the rows that are left beside them, each of which the others don't imply.

    Where no rational point meets the rows they are answered as they are.
    """
    rows = list(dict.fromkeys(rows))
    if is_empty(rows):
        return [], rows
    equal = equalities(rows)
    store = known(equal)
    values = [Affine(((name, 1),), -number) for name, number in store.items()]
    others = [row.fixed(store) for row in equal]
    equal = values + [row for row in others if row.terms]
    same = [function for row in equal for function in (row, row.negated())]
    left = [divided(shortened(equal, row)) for row in rows]
    left = list(dict.fromkeys(row for row in left if row.terms))
    for row in sorted(left, key=weight, reverse=True):
        rest = [other for other in left if other != row]
        if implies(same + rest, row):
            left = rest
    return equal, left


def shortened(equal, function):
    """The function in as few terms as the equalities make of it: it has the same value wherever they hold."""
    changed = True
    while changed:
        changed = False
        for row in equal:
            for name, number in row.terms:
                if abs(number) == 1:
                    other = function.with_multiple(-number * function.coefficients().get(name, 0), row)
                    if len(other.terms) < len(function.terms):
                        function, changed = other, True
    return function


def divided(row):
    """The row by the greatest common divisor of all its numbers."""
    common = gcd(row.constant, *(number for _, number in row.terms))
    return Affine(tuple((name, number // common) for name, number in row.terms), row.constant // common) if common else row


def bound_under(rows, bound):
    """The bound in as few terms as the equalities of the condition make of it."""
    return shortened(reduced(tuple(rows))[0], bound)


def constraints(rows):
    """The condition of the rows as constraints: the same rational points meet them."""
    return paired(*reduced(tuple(rows)))


def paired(equal, left):
    """The constraints of equalities and of other rows, of which two with opposite linear parts make one."""
    left = list(left)
    found = [Constraint(Affine(row.terms, 0), -row.constant, -row.constant) for row in equal]
    while left:
        row = left.pop(0)
        partner = next((other for other in left if other.terms == opposite(row)), None)
        if partner:
            left.remove(partner)
            found.append(between(row, partner))
        else:
            found.append(Constraint(Affine(row.terms, 0), -row.constant, None))
    return sorted(found, key=order)


def between(row, partner):
    """The constraint of two rows with opposite linear parts, by the function of one variable with the sign +, or else by the one with the greater ends."""
    low, high = -row.constant, partner.constant
    function = Affine(row.terms, 0)
    if (len(row.terms) == 1 and row.terms[0][1] < 0) or (len(row.terms) > 1 and (low + high, row.terms[0][1]) < (0, 0)):
        return Constraint(function.negated(), -high, -low)
    return Constraint(function, low, high)


def order(constraint):
    """Equalities stand first, then constraints of one variable, then the others; each by its names."""
    equal = constraint.low == constraint.high
    return not equal, len(constraint.function.terms), [name for name, _ in constraint.function.terms], spelled(constraint)


def sum_of(terms, constant=0):
    """A sum, first what is added and then what is taken away, so that it begins with a sign only where it must."""
    return str(Affine(tuple(sorted(terms, key=lambda term: term[1] < 0)), constant))


def spelled_claim(claim):
    """A claim as people write it."""
    return str(replace(claim, bound=Affine(tuple(sorted(claim.bound.terms, key=lambda term: term[1] < 0)), claim.bound.constant))) if claim.bound is not None else str(claim)


def spelled(constraint):
    """A constraint as people write it."""
    terms = constraint.function.terms
    low, high = constraint.low, constraint.high
    if low is not None and high is not None and low != high:
        return f"{low} <= {sum_of(terms)} <= {high}"
    if low == high:
        return spelled_equality(terms, low)
    return spelled_row(terms, low)


def spelled_equality(terms, number):
    """`x == 1`, `x + y == 5`, `b == 2*a`: a variable with the coefficient 1 or -1 is told by the others where signs differ."""
    common = gcd(number, *(coefficient for _, coefficient in terms))
    terms, number = [(name, coefficient // common) for name, coefficient in terms], number // common
    alone = next(((name, coefficient) for name, coefficient in terms if abs(coefficient) == 1), None)
    if alone is None or len({coefficient > 0 for _, coefficient in terms}) == 1:
        sign = 1 if terms[0][1] > 0 else -1
        return f"{sum_of((name, sign * coefficient) for name, coefficient in terms)} == {sign * number}"
    name, coefficient = alone
    return f"{name} == {sum_of(((other, -coefficient * more) for other, more in terms if other != name), coefficient * number)}"


def spelled_row(terms, low):
    """`x >= 1`, `x <= 3`, `y > x`, `x <= y + 2`: each side has sums alone, and the number is added where it is above 0."""
    more = [(name, number) for name, number in terms if number > 0]
    less = [(name, -number) for name, number in terms if number < 0]
    if not less:
        return f"{sum_of(more)} >= {low}"
    if not more:
        return f"{sum_of(less)} <= {-low}"
    if low == 1:
        return f"{sum_of(more)} > {sum_of(less)}"
    if low >= 0:
        return f"{sum_of(more)} >= {sum_of(less, low)}"
    return f"{sum_of(less)} <= {sum_of(more, -low)}"


@functools.cache
def spelled_condition(rows):
    """The condition of the rows as people write it, `always` where each input meets it."""
    return " and ".join(map(spelled, constraints(rows))) or "always"


def spelled_rows(rows):
    """The same with each row as it stands, but for those that make an equation or an interval: no arithmetic is done."""
    return " and ".join(map(spelled, paired([], rows))) or "always"


def covers(rows, parts):
    """Whether each whole store that meets the rows meets one of the parts, each a list of rows: tried by splitting at their rows, of which each store misses one or meets all."""
    if is_empty(rows):
        return True
    if not parts:
        return False
    first, rest = parts[0], parts[1:]
    met = list(rows)
    for row in first:
        if not covers([*met, row.complement()], rest):
            return False
        met.append(row)
    return True


def union(one, other):
    """A condition that exactly the whole stores of the two meet, or None where none is made of their rows.

    It is looked for only where a row of the one and a row of the other are opposite, so that the two may be neighbours.
    """
    parts = {opposite(row) for row in other}
    if not any(row.terms in parts for row in one):
        return None
    hull = [row for row in one if implies(other, row)] + [row for row in other if implies(one, row)]
    hull = list(dict.fromkeys(hull))
    return tuple(hull) if covers(hull, [list(one), list(other)]) else None


def joined(lines):
    """The lines, their bounds as short as their conditions allow, with those joined that differ in their condition alone, where one condition says it."""
    lines = [Line(line.rows, replace(line.claim, bound=bound_under(line.rows, line.claim.bound))) if line.claim.bound is not None else line for line in lines]
    found = []
    for claim in dict.fromkeys(line.claim for line in lines):
        conditions = [line.rows for line in lines if line.claim == claim]
        found += [Line(rows, claim) for rows in (joined_conditions(conditions) if len(conditions) <= MOST_JOINED else conditions)]
    return found


def joined_values(lines):
    """The lines with each of them taken into another whose bound has the same value wherever its own condition is met, where one condition says both."""
    for line, other in itertools.permutations(lines if len(lines) <= MOST_JOINED else [], 2):
        if line.claim.kind == other.claim.kind and line.claim.bound is not None and is_same_bound(line, other.claim.bound):
            both = union(line.rows, other.rows)
            if both is not None:
                rest = [one for one in lines if one not in (line, other)]
                return joined_values([*rest, Line(both, other.claim)])
    return lines


def is_same_bound(line, bound):
    """Whether a bound has the value of the line's own wherever its condition is met."""
    difference = bound.with_multiple(-1, line.claim.bound)
    return implies(line.rows, difference) and implies(line.rows, difference.negated())


def joined_conditions(conditions):
    """As few conditions as joining two by two makes, of the same whole stores."""
    left, done = list(conditions), []
    while left:
        first = left.pop(0)
        for other in left:
            both = union(first, other)
            if both is not None:
                left.remove(other)
                left.insert(0, both)
                break
        else:
            done.append(first)
    return done


def without(condition, others):
    """Conditions that are met by exactly the whole stores that meet the condition and none of the others; no two of them share one."""
    pieces = [tuple(condition)]
    for other in others:
        found = []
        for piece in pieces:
            if is_empty([*piece, *other]):
                found.append(piece)
                continue
            met = list(piece)
            for row in other:
                part = [*met, row.complement()]
                if not is_empty(part):
                    found.append(tuple(part))
                met.append(row)
        pieces = found
    return pieces


def sorted_lines(lines):
    """The lines in the order of their numbers: by the lower end of each variable, then its upper one."""
    names = list(dict.fromkeys(name for line in lines for row in line.rows for name, _ in row.terms))

    def key(line):
        ends = {}
        for row in line.rows:
            if len(row.terms) == 1:
                (name, number), = row.terms
                low, high = ends.get(name, (float("-inf"), float("inf")))
                end = -row.constant / number
                ends[name] = (max(low, end), high) if number > 0 else (low, min(high, end))
        return [ends.get(name, (float("-inf"), float("inf"))) for name in names], spelled_condition(line.rows)

    return sorted(lines, key=key)
