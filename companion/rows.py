"""Rows of a report: affine functions that are at least 0, and what rows imply, by exact arithmetic over the rationals."""
import re
from dataclasses import dataclass

TERM = re.compile(r"(-?)(?:(\d+)\*)?([A-Za-z_]\w*)")


class NotInForm(ValueError):
    """A text that isn't what the command prints."""


@dataclass(frozen=True)
class Affine:
    """A sum of variables times whole numbers, and a constant. The terms stand in the order of the report, and none has the coefficient 0."""

    terms: tuple
    constant: int

    @staticmethod
    def of(coefficients, constant):
        return Affine(tuple((name, number) for name, number in coefficients.items() if number), constant)

    @staticmethod
    def parse(text):
        """The function that the command spells so, as `-3*x + y - 1`."""
        coefficients, constant = {}, 0
        for part in text.replace(" - ", " + -").split(" + "):
            if match := TERM.fullmatch(part):
                coefficients[match[3]] = int(match[2] or 1) * (-1 if match[1] else 1)
            elif re.fullmatch(r"-?\d+", part):
                constant = int(part)
            else:
                raise NotInForm(f"no affine function: {text}")
        return Affine.of(coefficients, constant)

    def coefficients(self):
        return dict(self.terms)

    def value(self, store):
        """Its value where each name that the store lacks is 0."""
        return self.constant + sum(number * store.get(name, 0) for name, number in self.terms)

    def negated(self):
        return Affine(tuple((name, -number) for name, number in self.terms), -self.constant)

    def plus(self, constant):
        return Affine(self.terms, self.constant + constant)

    def complement(self):
        """The function that is at least 0 at exactly the other whole stores."""
        return self.negated().plus(-1)

    def fixed(self, store):
        """The same with the store's numbers in the place of its names."""
        left = tuple((name, number) for name, number in self.terms if name not in store)
        return Affine(left, self.constant + sum(number * store[name] for name, number in self.terms if name in store))

    def with_multiple(self, number, other):
        """The sum of this function and so many times the other."""
        total = self.coefficients()
        for name, more in other.terms:
            total[name] = total.get(name, 0) + number * more
        return Affine.of(total, self.constant + number * other.constant)

    def __str__(self):
        parts = [(number, name if abs(number) == 1 else f"{abs(number)}*{name}") for name, number in self.terms]
        if self.constant or not parts:
            parts.append((self.constant, str(abs(self.constant))))
        text = ("-" if parts[0][0] < 0 else "") + parts[0][1]
        return text + "".join((" - " if number < 0 else " + ") + part for number, part in parts[1:])


class Tableau:
    """A simplex tableau over rows: each is a slack variable with a lower end, and the names are free (Dutertre and de Moura 2006).

    Variables are numbered, the names first. All numbers are whole: a basic variable is its row's sum over the others, divided by the denominator that all rows share (Edmonds 1967). The variables that are
    not basic are at their lower ends, a name at 0. Values are pairs, a number and how many times an arbitrarily small positive one is added: so a strict row's lower end is (c, 1).
    """

    def __init__(self, functions, strict):
        names = sorted({name for function in functions + strict for name, _ in function.terms})
        place = {name: number for number, name in enumerate(names)}
        self.free = len(names)
        self.ends = [(0, 0)] * self.free + [(-function.constant, int(number >= len(functions))) for number, function in enumerate(functions + strict)]
        self.columns = list(range(self.free))
        self.basic = list(range(self.free, len(self.ends)))
        self.rows = [[0] * self.free for _ in self.basic]
        for row, function in zip(self.rows, functions + strict):
            for name, number in function.terms:
                row[place[name]] = number
        self.denominator = 1

    def pivot(self, at, column):
        """Makes the variable of the column basic in the place of the row's."""
        gone, factor, before = self.rows[at], self.rows[at][column], self.denominator
        sign = 1 if factor > 0 else -1
        for number, row in enumerate(self.rows):
            if number != at:
                part = row[column]
                self.rows[number] = [sign * (factor * one - part * other) // before for one, other in zip(row, gone)]
                self.rows[number][column] = sign * part
        self.rows[at] = [-sign * number for number in gone]
        self.rows[at][column] = sign * before
        self.denominator = sign * factor
        self.basic[at], self.columns[column] = self.columns[column], self.basic[at]

    def is_below(self, at):
        """Whether the row's variable is below its lower end."""
        if self.basic[at] < self.free:
            return False
        low, more = self.ends[self.basic[at]]
        values = [(number, self.ends[variable]) for number, variable in zip(self.rows[at], self.columns) if number]
        whole = sum(number * end for number, (end, _) in values) - low * self.denominator
        return whole < 0 or whole == 0 and sum(number * part for number, (_, part) in values) < more * self.denominator

    def is_met(self):
        """Whether some rational point meets all rows. It ends by Bland's rule: of the variables that may be taken the first is."""
        while True:
            below = [at for at in range(len(self.rows)) if self.is_below(at)]
            if not below:
                return True
            at = min(below, key=self.basic.__getitem__)
            ways = [column for column, number in enumerate(self.rows[at]) if number > 0 or number and self.columns[column] < self.free]
            if not ways:
                return False
            self.pivot(at, min(ways, key=self.columns.__getitem__))


def is_empty(rows, strict=()):
    """Whether no rational point makes each function of the rows at least 0 and each strict one greater than 0."""
    rows, strict = list(rows), list(strict)
    if any(not row.terms and row.constant < 0 for row in rows) or any(not row.terms and row.constant <= 0 for row in strict):
        return True
    return not Tableau([row for row in rows if row.terms], [row for row in strict if row.terms]).is_met()


def implies(rows, row):
    """Whether each rational point that meets the rows meets the row."""
    if any(other.terms == row.terms and other.constant <= row.constant for other in rows):
        return True
    return is_empty(rows, [row.negated()])


def meets(rows, store):
    """Whether the store meets each of the rows."""
    return all(row.value(store) >= 0 for row in rows)
