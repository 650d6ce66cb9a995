"""Pictures: each input lies in the region of its claim. What is claimed of it is worked out by hand."""
import re
import unittest
from fractions import Fraction
from unittest import mock

import pictures
from running import TOP, InFolder, terminates

FOLDER = TOP / "docs/pictures"
# The pictures of docs/EXAMPLES.md: the program, its two variables, and the numbers that are shown.
DRAWN = [("steps", "x", "y", -10, 10), ("gcd", "x", "y", -10, 10), ("least_of_two", "p", "q", -10, 10), ("nearer", "x", "y", -10, 10), ("speeding_up", "q", "y", -10, 10), ("zune", "days", "year", 360, 372)]


def of_steps(x, y):
    """What is known of an input of steps.c: a turn changes x by y, and takes two steps; then the last test. Where y isn't below 0, x never falls."""
    if x <= 0:
        return "exactly 1 step"
    if x + y <= 0:
        return "exactly 3 steps"
    return "within 2*x + 1 steps" if y < 0 else "never ends (some run)"


def of_zune(days, _):
    """What is known of an input of zune.c: at day 366 no turn changes anything."""
    if days <= 365:
        return "within 2 steps"
    return "never ends (some run)" if days == 366 else "within 7 steps"


class Drawing:
    """An SVG picture, read by itself: its polygons and what the legend says of their colours."""

    def __init__(self, text, low, high):
        self.step = Fraction(420, high - low + 1)
        self.low, self.high = low, high
        self.polygons = [([tuple(map(Fraction, corner.split(","))) for corner in points.split()], fill) for points, fill in re.findall(r'<polygon points="([^"]*)" fill="([^"]*)"', text)]
        self.legend = dict(re.findall(r'<rect [^>]*height="14" fill="([^"]*)"[^>]*/>\n<text [^>]*>([^<]*)</text>', text))

    def says(self, x, y):
        """What the picture says of an input, by the polygons around its place."""
        at = 44 + (x - self.low + Fraction(1, 2)) * self.step, 44 + (self.high - y + Fraction(1, 2)) * self.step
        return {self.legend[fill] for corners, fill in self.polygons if is_around(corners, at)}


def is_around(corners, at):
    """Whether a point lies inside a convex polygon: on the same side of each of its edges."""
    sides = [(b[0] - a[0]) * (at[1] - a[1]) - (b[1] - a[1]) * (at[0] - a[0]) for a, b in zip(corners, corners[1:] + corners[:1])]
    return all(side > 0 for side in sides) or all(side < 0 for side in sides)


class AsSvg(InFolder):
    def drawn(self, program, x, y, low, high):
        path = self.folder / f"{program}.svg"
        status, out, err = terminates(f"examples/{program}.c", "--picture", x, y, str(path), "--window", str(low), str(high))
        self.assertEqual((status in (0, 1), err, out.splitlines()[-1]), (True, "", f"{path}: {x} and {y} from {low} to {high}"))
        return path.read_text()

    def test_each_input_of_steps_lies_in_the_region_of_its_claim(self):
        drawing = Drawing(self.drawn("steps", "x", "y", -10, 10), -10, 10)
        for x in range(-10, 11):
            for y in range(-10, 11):
                told = drawing.says(x, y)
                self.assertEqual(len(told), 1, (x, y))
                if of_steps(x, y):
                    self.assertEqual(told, {of_steps(x, y)}, (x, y))
                else:
                    self.assertTrue(told <= {"unknown", "never ends (some run)"}, (x, y))

    def test_so_does_each_of_zune(self):
        drawing = Drawing(self.drawn("zune", "days", "year", 360, 372), 360, 372)
        for days in range(360, 373):
            for year in range(360, 373):
                self.assertEqual(drawing.says(days, year), {of_zune(days, year)}, (days, year))

    def test_the_pages_pictures_are_these(self):
        page = (TOP / "docs/EXAMPLES.md").read_text()
        for picture in DRAWN:
            with self.subTest(picture[0]):
                program, x, y, low, high = picture
                self.assertTrue((FOLDER / f"{program}.svg").read_text() == self.drawn(*picture), f"./terminates examples/{program}.c --picture {x} {y} docs/pictures/{program}.svg --window {low} {high}")
                self.assertTrue(f"](pictures/{program}.svg)" in page)
        self.assertEqual({path.stem for path in FOLDER.iterdir()}, {picture[0] for picture in DRAWN})

    def test_a_label_stands_in_its_region(self):
        text = self.drawn("steps", "x", "y", -10, 10)
        drawing = Drawing(text, -10, 10)
        labels = re.findall(r'<text x="([^"]*)" y="([^"]*)" text-anchor="middle"(?: stroke[^>]*)?>([^<]*[a-z][^<]*)</text>', text)
        self.assertGreater(len(labels), 3)
        for x, y, says in labels:
            self.assertIn(says, {drawing.legend[fill] for corners, fill in drawing.polygons if is_around(corners, (Fraction(x), Fraction(y) - 4))})


class AsLetters(InFolder):
    def test_each_letter_is_that_of_its_claim(self):
        status, out, _ = terminates("examples/steps.c", "--picture", "x", "y", "-", "--window", "-3", "4")
        self.assertEqual(status, 1)
        lines = out[out.index("\n y\n") + 4:].splitlines()
        legend = dict(line.split("  ", 1) for line in lines[9:])
        for y, line in zip(range(4, -4, -1), lines):
            number, *row = line.split()
            self.assertEqual(int(number), y)
            for x, letter in zip(range(-3, 5), row, strict=True):
                self.assertEqual(legend[letter], of_steps(x, y), (x, y))
        self.assertEqual(lines[8], "   x from -3 to 4")

    def test_other_variables_have_the_numbers_of_at_or_0(self):
        self.write("f.c", "int main() { int x, y, z, w; while (x > z) { x = x - 1; w = w + 1; } }")
        # x is above z in x - z turns of three steps
        shown = self.run_here("f.c", "--picture", "x", "y", "-", "--at", "z=1", "--window", "0", "2")[1]
        self.assertIn("2 a a a\n1 a a a\n0 a a a\n", shown.replace("b", "a"))
        self.assertTrue(shown.endswith("where z is 1, w is 0\n"), shown)
        self.assertIn("within 3*x - 2 steps", shown[shown.index("x from"):])

    def test_what_is_left_out_is_a_point(self):
        window = pictures.Window("x", "y", 0, 1, {})
        self.assertEqual(pictures.letters([], window), "y\n1 . .\n0 . .\n  x from 0 to 1")


class Refused(InFolder):
    def refused(self, *words):
        self.write("f.c", "int main() { int x, y; }")
        status, _, err = self.run_here("f.c", *words)
        return status, err.splitlines()[-1]

    def test_names_and_files(self):
        self.assertEqual(self.refused("--picture", "x", "z", "-"), (2, "f.c: --picture x z: the program has no variable z; its variables are x, y"))
        self.assertEqual(self.refused("--picture", "x", "x", "-"), (2, "f.c: --picture x x: the names are two"))
        self.assertEqual(self.refused("--picture", "x", "y", "a.gif"), (2, "terminates: error: argument --picture: 'a.gif' is no name for a picture: it ends in .svg or .png, or is - for letters"))
        self.assertEqual(self.refused("--picture", "x", "y", "-", "--window", "5", "5"), (2, "terminates: error: --window 5 5: the second number is greater than the first, by at most 200"))
        self.assertEqual(self.refused("--picture", "x", "y", "-", "--json"), (2, "terminates: error: --picture is of one file, and stands without --json"))
        self.assertEqual(self.refused("--picture", "x", "y", "-", "--at", "y=1"), (2, "f.c: --picture x y: --at y=1 has to name other variables and numbers, and y=1 doesn't"))
        self.assertEqual(self.refused("--picture", "x", "y", "none/a.svg"), (25, "f.c: none/a.svg can't be written: No such file or directory"))

    def test_a_png_without_matplotlib_is_one_line(self):
        with mock.patch.dict("sys.modules", {"matplotlib": None}):
            self.assertEqual(self.refused("--picture", "x", "y", "a.png"), (25, "f.c: a PNG needs matplotlib, which isn't installed (Debian: python3-matplotlib); SVG and letters don't"))

    def test_a_png_with_it_is_a_picture(self):
        try:
            import matplotlib  # noqa: F401
        except ImportError:
            return
        self.assertEqual(terminates("examples/steps.c", "--picture", "x", "y", str(self.folder / "a.png"))[0], 1)
        self.assertEqual((self.folder / "a.png").read_bytes()[:8], b"\x89PNG\r\n\x1a\n")


if __name__ == "__main__":
    unittest.main()
