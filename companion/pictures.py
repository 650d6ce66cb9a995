"""Pictures of a precondition over two variables: which inputs have which claim, as SVG, as PNG, or as letters on the terminal.

Inputs are whole numbers, so each stands for the square around it: a row `e >= 0` is drawn as `e + 1/2 >= 0`, and the regions of a row and of its complement meet in a line.
"""
import re
from dataclasses import dataclass, replace
from fractions import Fraction
from html import escape

from command import NO_PICTURE, Hindered
from questions import WORDS_REFUSED
from readable import spelled_claim
from rows import is_empty, meets
from show import lines_of
from tokens import declared

COLOURS = ("#8dd3c7", "#ffffb3", "#bebada", "#fdb462", "#b3de69", "#80b1d3", "#fccde5", "#ccebc5", "#ffed6f", "#bc80bd", "#d9d9d9", "#e5c494")
NEVER, UNKNOWN, ELSE = "#fb8072", "#ffffff", "#f4f4f4"
SIZE, EDGE, LEGEND = 420, 44, 300
LETTERS = "abcdefghijklmnopqrstuvwxyz"


@dataclass(frozen=True)
class Window:
    """Which inputs are shown: two variables, each between the same ends, and numbers for the others."""

    x: str
    y: str
    low: int
    high: int
    others: dict

    def numbers(self):
        return range(self.low, self.high + 1)


@dataclass(frozen=True)
class Region:
    """The condition of a line with the other variables' numbers in it, its claim, and that claim's letter and colour."""

    rows: tuple
    says: str
    letter: str
    colour: str


def window_of(text, x, y, ends, given):
    """The window of a picture of a program: the others have the numbers that are given, or 0. Raises Hindered where a name is none of the program's."""
    names = declared(text)

    def refuse(why):
        raise Hindered(WORDS_REFUSED, f"--picture {x} {y}: {why}")

    for name in (x, y):
        if name not in names:
            refuse(f"the program has no variable {name}; its variables are {', '.join(names) or 'none'}")
    if x == y:
        refuse("the names are two")
    others = {name: 0 for name in names if name not in (x, y)}
    for part in given.split(",") if given else []:
        match = re.fullmatch(r"([A-Za-z_]\w*)=(-?\d+)", part)
        if not match or match[1] not in others:
            refuse(f"--at {given} has to name other variables and numbers, and {part} doesn't")
        others[match[1]] = int(match[2])
    return Window(x, y, *ends, others)


def regions(result, window):
    """The regions of a result, a letter and a colour for each claim."""
    lines, _ = lines_of(result)
    marks, found = {}, []
    for line in lines:
        rows = tuple(row.fixed(window.others) for row in line.rows)
        says = spelled_claim(fixed(line.claim, window))
        if says not in marks:
            marks[says] = mark(line.claim.kind, sum(other[0] not in "#?" for other in marks.values()))
        if not is_empty(rows):
            found.append(Region(rows, says, *marks[says]))
    return found


def fixed(claim, window):
    """A claim with the other variables' numbers in its bound."""
    return claim if claim.bound is None else replace(claim, bound=claim.bound.fixed(window.others))


def mark(kind, number):
    """The letter and the colour of a claim, of which so many stand before."""
    if kind in ("never", "unknown"):
        return ("#", NEVER) if kind == "never" else ("?", UNKNOWN)
    return LETTERS[number % len(LETTERS)], COLOURS[number % len(COLOURS)]


def letters(found, window):
    """The picture as text: a letter for each input, the greatest number of the second variable on top, and what the letters mean."""
    width = max(len(str(window.low)), len(str(window.high)))
    shown = [f"{window.y:>{width}}"]
    for y in reversed(window.numbers()):
        row = [next((region.letter for region in found if meets(region.rows, {window.x: x, window.y: y})), ".") for x in window.numbers()]
        shown.append(f"{y:>{width}} " + " ".join(row))
    middle = f"{window.x} from {window.low} to {window.high}"
    shown.append(" " * (width + 1) + middle)
    legend = {region.letter: region.says for region in found}
    return "\n".join(shown + [f"{letter}  {says}" for letter, says in legend.items()] + others_text(window))


def others_text(window):
    return ["where " + ", ".join(f"{name} is {number}" for name, number in window.others.items())] if window.others else []


def polygon(rows, window):
    """The corners of the part of the window that the rows, each with a half more, leave; in order around it."""
    low, high, half = Fraction(2 * window.low - 1, 2), Fraction(2 * window.high + 1, 2), Fraction(1, 2)
    corners = [(low, low), (high, low), (high, high), (low, high)]
    for row in rows:
        corners = clipped(corners, lambda point, row=row: row.value({window.x: point[0], window.y: point[1]}) + half)
    return corners


def clipped(corners, height):
    """The part of a convex polygon where an affine function is at least 0 (Sutherland and Hodgman 1974)."""
    found = []
    for one, other in zip(corners, corners[1:] + corners[:1]):
        first, second = height(one), height(other)
        if first >= 0:
            found.append(one)
        if first * second < 0:
            part = first / (first - second)
            found.append(tuple(a + part * (b - a) for a, b in zip(one, other)))
    return found


def inside(region, window):
    """The inputs of the window that meet the region's rows."""
    return [(x, y) for x in window.numbers() for y in window.numbers() if meets(region.rows, {window.x: x, window.y: y})]


def label_place(region, window, width):
    """Where a text of so many inputs' width can stand in a region: in the middle of a row that is as long, thick around it and near the region's middle; or None."""
    rows = {y: [x for x in window.numbers() if meets(region.rows, {window.x: x, window.y: y})] for y in window.numbers()}
    rows = {y: row for y, row in rows.items() if row}
    count = sum(map(len, rows.values()))
    middle = Fraction(sum(y * len(row) for y, row in rows.items()), count or 1)

    def rank(y):
        ends = [rows[y][0] + (len(rows[y]) - width) // 2, rows[y][-1] - (len(rows[y]) - width) // 2]
        thick = all(x in rows.get(other, ()) for x in ends for other in (y - 1, y + 1))
        return thick, -abs(y - middle), y

    best = max((y for y, row in rows.items() if len(row) >= width), key=rank, default=None)
    return None if best is None else (Fraction(rows[best][0] + rows[best][-1], 2), Fraction(best))


class Canvas:
    """Where inputs stand on the drawing, in its units."""

    def __init__(self, window):
        self.window, self.step = window, Fraction(SIZE, window.high - window.low + 1)

    def x(self, number):
        return EDGE + (number - self.window.low + Fraction(1, 2)) * self.step

    def y(self, number):
        return EDGE + (self.window.high - number + Fraction(1, 2)) * self.step


def figure(number):
    """A number of a drawing, to two digits behind the point."""
    return f"{float(number):.2f}".rstrip("0").rstrip(".")


def ticks(window):
    """The numbers that stand at the edges: the ends, and those between that are multiples of a round number."""
    span = window.high - window.low
    step = next(step for step in (1, 2, 5, 10, 20, 50, 100) if span / step <= 10 or step == 100)
    return [number for number in window.numbers() if number % step == 0]


def svg(found, window, title):
    """The picture as SVG. The same regions give the same bytes."""
    canvas = Canvas(window)
    parts = [f'<svg xmlns="http://www.w3.org/2000/svg" width="{SIZE + 2 * EDGE + LEGEND}" height="{SIZE + 2 * EDGE}" font-family="sans-serif" font-size="12">', f"<title>{escape(title)}</title>",
             '<defs><pattern id="unknown" width="8" height="8" patternUnits="userSpaceOnUse" patternTransform="rotate(45)"><rect width="8" height="8" fill="white"/><line x1="0" y1="0" x2="0" y2="8" stroke="#999" stroke-width="2"/></pattern></defs>',
             '<rect width="100%" height="100%" fill="white"/>', f'<rect x="{EDGE}" y="{EDGE}" width="{SIZE}" height="{SIZE}" fill="{ELSE}"/>']
    seen = [region for region in found if inside(region, window)]
    for region in seen:
        corners = " ".join(f"{figure(canvas.x(x))},{figure(canvas.y(y))}" for x, y in polygon(region.rows, window))
        parts.append(f'<polygon points="{corners}" fill="{fill(region)}" stroke="#444" stroke-width="0.7"/>')
    parts += [svg_label(region, place, canvas) for region in seen if (place := label_place(region, window, text_width(region.says, canvas)))]
    return "\n".join(parts + svg_axes(canvas) + svg_legend(seen, window) + ["</svg>", ""])


def fill(region):
    return "url(#unknown)" if region.letter == "?" else region.colour


def text_width(text, canvas):
    """How many inputs wide a text is, about."""
    return int(len(text) * Fraction(13, 2) / canvas.step) + 1


def svg_label(region, place, canvas):
    x, y = canvas.x(place[0]), canvas.y(place[1])
    halo = ' stroke="white" stroke-width="3" paint-order="stroke"' if region.letter == "?" else ""
    return f'<text x="{figure(x)}" y="{figure(y + 4)}" text-anchor="middle"{halo}>{escape(region.says)}</text>'


def svg_axes(canvas):
    """The frame, the numbers along it, and the names of the variables."""
    window, foot = canvas.window, EDGE + SIZE
    parts = [f'<rect x="{EDGE}" y="{EDGE}" width="{SIZE}" height="{SIZE}" fill="none" stroke="black"/>']
    for number in ticks(window):
        x, y = figure(canvas.x(number)), canvas.y(number)
        parts.append(f'<text x="{x}" y="{foot + 16}" text-anchor="middle" fill="#444">{number}</text>')
        parts.append(f'<text x="{EDGE - 6}" y="{figure(y + 4)}" text-anchor="end" fill="#444">{number}</text>')
    parts.append(f'<text x="{EDGE + SIZE // 2}" y="{foot + 34}" text-anchor="middle" font-style="italic">{escape(window.x)}</text>')
    parts.append(f'<text x="{EDGE}" y="{EDGE - 12}" text-anchor="middle" font-style="italic">{escape(window.y)}</text>')
    return parts


def svg_legend(seen, window):
    """Each colour with its claim, and the numbers of the other variables."""
    left, parts = 2 * EDGE + SIZE - 16, []
    for number, (says, region) in enumerate({region.says: region for region in seen}.items()):
        top = EDGE + 22 * number
        parts.append(f'<rect x="{left}" y="{top}" width="16" height="14" fill="{fill(region)}" stroke="#444" stroke-width="0.7"/>')
        parts.append(f'<text x="{left + 24}" y="{top + 12}">{escape(says)}</text>')
    return parts + [f'<text x="{left}" y="{EDGE + SIZE}" fill="#444">{escape(text)}</text>' for text in others_text(window)]


def png(found, window, title, path):
    """Draws the picture with matplotlib. Raises Hindered where it isn't installed."""
    try:
        import matplotlib
        matplotlib.use("Agg")
        from matplotlib import pyplot
        from matplotlib.patches import Patch, Polygon
    except ImportError:
        raise Hindered(NO_PICTURE, "a PNG needs matplotlib, which isn't installed (Debian: python3-matplotlib); SVG and letters don't") from None
    drawing, axes = pyplot.subplots(figsize=(8, 5), layout="constrained")
    seen = [region for region in found if inside(region, window)]
    for region in seen:
        hatch = {"hatch": "///"} if region.letter == "?" else {}
        axes.add_patch(Polygon([tuple(map(float, point)) for point in polygon(region.rows, window)], facecolor=region.colour, edgecolor="#444444", linewidth=0.7, **hatch))
        if place := label_place(region, window, text_width(region.says, Canvas(window))):
            box = {"facecolor": "white", "edgecolor": "none", "pad": 1} if hatch else None
            axes.text(float(place[0]), float(place[1]), region.says, ha="center", va="center", fontsize=8, bbox=box)
    ends = (window.low - 0.5, window.high + 0.5)
    axes.set(xlim=ends, ylim=ends, xticks=ticks(window), yticks=ticks(window), xlabel=window.x, ylabel=window.y, title=title, aspect="equal", facecolor=ELSE)
    entries = {region.says: Patch(facecolor=region.colour, edgecolor="#444444", hatch="///" if region.letter == "?" else None, label=region.says) for region in seen}
    axes.legend(handles=list(entries.values()), loc="upper left", bbox_to_anchor=(1.02, 1), frameon=False, fontsize=8, title="\n".join(others_text(window)) or None)
    drawing.savefig(path, dpi=150, metadata={"Software": None})
    pyplot.close(drawing)


def draw(result, window, path):
    """Draws the picture of a result into a file, by the name's ending, or answers it as letters where the name is a hyphen."""
    found, title = regions(result, window), result.name
    if path == "-":
        return letters(found, window)
    try:
        if path.endswith(".png"):
            png(found, window, title, path)
        else:
            with open(path, "w", encoding="utf-8", errors="backslashreplace") as file:
                file.write(svg(found, window, title))
    except OSError as error:
        raise Hindered(NO_PICTURE, f"{path} can't be written: {error.strerror}") from None
    return f"{path}: {window.x} and {window.y} from {window.low} to {window.high}"
