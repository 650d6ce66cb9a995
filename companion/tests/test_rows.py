"""Rows, what they imply, and how they are written. The expected values are worked out by hand."""
import itertools
import random
import unittest

import rational
from readable import bound_under, covers, joined, joined_values, spelled_condition, union, without
from report import Claim, Line, parse_condition, parse_report
from rewritings import wrong_of
from rows import Affine, NotInForm, implies, is_empty
from running import TOP


def rows(text):
    return parse_condition(text)


class Reading(unittest.TestCase):
    def test_a_function_is_read_with_its_signs(self):
        self.assertEqual(Affine.parse("-3*x + y - 12"), Affine((("x", -3), ("y", 1)), -12))
        self.assertEqual(Affine.parse("-7"), Affine((), -7))
        self.assertEqual(Affine.parse("0"), Affine((), 0))

    def test_a_function_is_written_as_the_command_writes_it(self):
        for text in ("-3*x + y - 12", "2*x + 1", "-x", "0", "-5", "x - 9223372036854775808*y"):
            self.assertEqual(str(Affine.parse(text)), text)

    def test_what_is_no_function_is_refused(self):
        for text in ("", "x y", "2x", "x + ", "x * y", "x>0"):
            with self.assertRaises(NotInForm):
                Affine.parse(text)

    def test_a_complement_has_the_other_whole_stores(self):
        self.assertEqual(str(Affine.parse("x - 3").complement()), "-x + 2")


class Implying(unittest.TestCase):
    def test_sums_of_rows_are_implied(self):
        self.assertTrue(implies(rows("x - 1 >= 0 and -x + y >= 0"), Affine.parse("y - 1")))
        self.assertFalse(implies(rows("x - 1 >= 0 and -x + y >= 0"), Affine.parse("y - 2")))

    def test_it_is_over_the_rationals(self):
        # 2*x >= 1 is met by the half, at which x >= 1 isn't
        self.assertFalse(implies(rows("2*x - 1 >= 0"), Affine.parse("x - 1")))
        self.assertFalse(is_empty(rows("2*x - 1 >= 0 and -2*x + 1 >= 0")))

    def test_rows_that_exclude_each_other_are_empty(self):
        self.assertTrue(is_empty(rows("x - y - 1 >= 0 and y - z >= 0 and -x + z >= 0")))
        self.assertTrue(is_empty(rows("x >= 0"), [Affine.parse("-x")]))
        self.assertFalse(is_empty(rows("x >= 0"), [Affine.parse("x")]))

    def test_the_tableau_agrees_with_elimination(self):
        dice = random.Random(7)
        for _ in range(400):
            names = "abcd"[:dice.randint(1, 4)]
            functions = [Affine.of({name: dice.randint(-3, 3) for name in names}, dice.randint(-4, 4)) for _ in range(dice.randint(1, 6))]
            strict = [Affine.of({name: dice.randint(-3, 3) for name in names}, dice.randint(-4, 4)) for _ in range(dice.randint(0, 2))]
            expected = rational.is_empty([rational.as_row(row) for row in functions] + [rational.as_row(row, strict=True) for row in strict])
            self.assertEqual(is_empty(functions, strict), expected, (functions, strict))


class Spelling(unittest.TestCase):
    CASES = [
        ("always", "always"),
        ("-x + 1 >= 0 and x - 1 >= 0", "x == 1"),
        ("2*a - b >= 0 and -2*a + b >= 0", "b == 2*a"),
        ("-x + y >= 0 and x - y >= 0", "x == y"),
        ("x - y - 1 >= 0 and -x + y + 1 >= 0", "x == y + 1"),
        ("x + y - 5 >= 0 and -x - y + 5 >= 0", "x + y == 5"),
        ("2*x - 3*y - 1 >= 0 and -2*x + 3*y + 1 >= 0", "2*x - 3*y == 1"),
        ("x + 3 >= 0 and -x + 7 >= 0", "-3 <= x <= 7"),
        ("-x + y - 1 >= 0", "y > x"),
        ("-x + y - 4 >= 0", "y >= x + 4"),
        ("-x + y + 4 >= 0", "x <= y + 4"),
        ("-x + y >= 0", "y >= x"),
        ("x - 3 >= 0", "x >= 3"),
        ("-x + 3 >= 0", "x <= 3"),
        ("-x - y + 3 >= 0", "x + y <= 3"),
        ("x - y + 2 >= 0 and -x + y + 5 >= 0", "-2 <= x - y <= 5"),
        ("-x + y - 1 >= 0 and x - y + 4 >= 0", "1 <= y - x <= 4"),
        # 2*y >= x is y >= 0 where x is y
        ("x - y >= 0 and -x + y >= 0 and -x + 2*y >= 0", "x == y and y >= 0"),
        ("2*x - 3 >= 0", "2*x >= 3"),
        # of y <= -1 and x + y >= 1 comes x >= 2
        ("-y - 1 >= 0 and x + y - 1 >= 0 and x - 1 >= 0", "y <= -1 and x + y >= 1"),
        # the number of x stands where x stood
        ("-x + 1 >= 0 and x - 1 >= 0 and -x + y - 1 >= 0", "x == 1 and y >= 2"),
        ("-2*x + y >= 0 and -x + y - 1 >= 0 and 2*x - y >= 0 and x - 1 >= 0 and y - 1 >= 0", "y == 2*x and x >= 1"),
        # a circle of three rows makes all three equal
        ("x - y >= 0 and y - z >= 0 and -x + z >= 0", "x == y and x == z"),
    ]

    def test_conditions_are_written_as_people_write_them(self):
        for condition, shown in self.CASES:
            with self.subTest(condition):
                self.assertEqual(spelled_condition(rows(condition)), shown)

    def test_a_bound_is_told_in_few_terms(self):
        self.assertEqual(str(bound_under(rows("x - y >= 0 and -x + y >= 0"), Affine.parse("-2*x + 2*y + 5"))), "5")
        self.assertEqual(str(bound_under(rows("x - 3 >= 0 and -x + 3 >= 0"), Affine.parse("2*x + y"))), "y + 6")
        self.assertEqual(str(bound_under(rows("x - 3 >= 0"), Affine.parse("2*x + y"))), "2*x + y")


class Joining(unittest.TestCase):
    def test_neighbours_are_joined(self):
        self.assertEqual(union(rows("-x >= 0"), rows("x - 1 >= 0")), ())
        self.assertEqual(spelled_condition(union(rows("-x + 1 >= 0 and x - 1 >= 0"), rows("x - 2 >= 0"))), "x >= 1")

    def test_those_with_a_number_between_are_not(self):
        self.assertIsNone(union(rows("-x >= 0"), rows("x - 2 >= 0")))
        self.assertIsNone(union(rows("-x >= 0"), rows("-y >= 0")))

    def test_only_lines_of_one_claim_are_joined(self):
        one, other = Claim("within", Affine.parse("1")), Claim("within", Affine.parse("2"))
        lines = [Line(rows("-x >= 0"), one), Line(rows("x - 1 >= 0"), other), Line(rows("-x + 1 >= 0 and x - 1 >= 0"), other)]
        self.assertEqual([(spelled_condition(line.rows), str(line.claim)) for line in joined(lines)], [("x <= 0", "within 1 step"), ("x >= 1", "within 2 steps")])

    def test_a_line_is_taken_into_one_whose_bound_has_its_value(self):
        def shown(*texts):
            return [(spelled_condition(line.rows), str(line.claim)) for line in joined_values(joined([Line.parse(text) for text in texts]))]

        # 2*x is 2 where x is 1
        self.assertEqual(shown("-x + 1 >= 0 and x - 1 >= 0: within 2 steps", "x - 2 >= 0: within 2*x steps"), [("x >= 1", "within 2*x steps")])
        self.assertEqual(len(shown("-x + 1 >= 0 and x - 1 >= 0: within 3 steps", "x - 2 >= 0: within 2*x steps")), 2)
        self.assertEqual(len(shown("-x + 1 >= 0 and x - 1 >= 0: exactly 2 steps", "x - 2 >= 0: within 2*x steps")), 2)
        # 2*y is 2*x where they are the same
        self.assertEqual(shown("x - y >= 0 and -x + y >= 0: within 2*y steps", "x - y - 1 >= 0: within 2*x steps"), [("x >= y", "within 2*x steps")])

    def test_three_make_one(self):
        lines = [Line(rows(text), Claim("holds")) for text in ("-x + 2 >= 0", "x - 4 >= 0", "-x + 3 >= 0 and x - 3 >= 0")]
        self.assertEqual([line.rows for line in joined(lines)], [()])

    def test_cover_is_of_whole_stores(self):
        self.assertTrue(covers([], [rows("-x >= 0"), rows("x - 1 >= 0")]))
        self.assertFalse(covers([], [rows("-x >= 0"), rows("x - 2 >= 0")]))

    def test_what_is_left_of_a_condition(self):
        self.assertEqual([spelled_condition(piece) for piece in without(rows("x - 1 >= 0"), [rows("y >= 0")])], ["x >= 1 and y <= -1"])
        self.assertEqual(without(rows("x - 1 >= 0"), [rows("x >= 0")]), [])
        left = without(rows("x >= 0"), [rows("-x + 4 >= 0 and x - 3 >= 0")])
        self.assertEqual(sorted(spelled_condition(piece) for piece in left), ["0 <= x <= 2", "x >= 5"])

    def test_no_store_is_lost_or_taken_twice(self):
        dice = random.Random(3)

        def condition():
            return tuple(Affine.of({"x": dice.randint(-2, 2), "y": dice.randint(-2, 2)}, dice.randint(-3, 3)) for _ in range(dice.randint(1, 3)))

        for _ in range(60):
            whole, others = condition(), [condition(), condition()]
            pieces = without(whole, others)
            for x, y in itertools.product(range(-5, 6), repeat=2):
                at = {"x": x, "y": y}
                met = [all(row.value(at) >= 0 for row in part) for part in pieces]
                due = all(row.value(at) >= 0 for row in whole) and not any(all(row.value(at) >= 0 for row in other) for other in others)
                self.assertEqual(sum(met), int(due), (whole, others, at))


class Examples(unittest.TestCase):
    def test_each_report_of_an_example_is_shown_as_it_says(self):
        for path in sorted((TOP / "examples").rglob("*.report")):
            with self.subTest(path.name):
                self.assertEqual(list(wrong_of(path.read_text())), [])

    def test_a_report_with_ranks_is_read(self):
        report = parse_report("exact: not a plain program\nproved:\nranked:\n-x >= 0: ends, rank w*(0) + 21\nx - 1 >= 0: ends, rank w*(0) + 2*x + 21\nunknown:\nverdict: all inputs\n")
        self.assertEqual([str(line.claim) for line in report.lines("ranked")], ["ends, rank w*(0) + 21", "ends, rank w*(0) + 2*x + 21"])
        report = parse_report("exact: not a plain program\nproved:\nranked:\nalways: ends, rank w^2*(1) + w*(x) + -1\nunknown:\nverdict: all inputs\n")
        self.assertEqual([str(line.claim) for line in report.lines("ranked")], ["ends, rank w^2*(1) + w*(x) + -1"])
        report = parse_report("fits:\nx >= 0: fits\nunknown:\n-x - 1 >= 0: unknown\nverdict: some inputs\n")
        self.assertEqual([str(line.claim) for line in report.lines("fits")], ["fits"])

    def test_what_is_no_report_is_refused(self):
        for text in ("", "hello\n", "proved:\nx >= 0\nverdict: all inputs\n", "proved:\nx >= 0: maybe\nverdict: all inputs\n", "proved:\n", "proved:\nx > 0: holds\nverdict: all inputs\n"):
            with self.assertRaises(NotInForm):
                parse_report(text)


if __name__ == "__main__":
    unittest.main()
