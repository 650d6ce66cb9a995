"""What the command writes, read back: the lines of a report, with their conditions and claims, or a fault."""
import re
from dataclasses import dataclass, field

from rows import Affine, NotInForm

SECTIONS = ("exact", "proved", "ranked", "fits", "unknown", "explain")


@dataclass(frozen=True)
class Claim:
    """What a line says of its inputs.

    `kind` is the claim's first word: `exactly` and `within` have a bound in steps, `ends` has the text of its rank, `holds`, `fits` and `unknown` have no more. The companion
    makes one more kind, `never`, of a second answer; there `runs` is `some` or `every`.
    """

    kind: str
    bound: Affine | None = None
    rank: str | None = None
    runs: str | None = None

    @staticmethod
    def parse(text):
        if match := re.fullmatch(r"(exactly|within) (.*) steps?", text):
            return Claim(match[1], Affine.parse(match[2]))
        if match := re.fullmatch(r"ends, rank (.*)", text):
            return Claim("ends", rank=match[1])
        if text in ("holds", "fits", "unknown"):
            return Claim(text)
        raise NotInForm(f"no claim: {text}")

    def __str__(self):
        if self.bound is not None:
            return f"{self.kind} {self.bound} {'step' if str(self.bound) == '1' else 'steps'}"
        if self.kind == "never":
            return f"never ends ({self.runs} run)"
        return f"ends, rank {self.rank}" if self.kind == "ends" else self.kind


@dataclass(frozen=True)
class Line:
    """A condition, as rows, and what is claimed of the inputs that meet it."""

    rows: tuple
    claim: Claim

    @staticmethod
    def parse(text):
        condition, colon, claim = text.partition(": ")
        if not colon:
            raise NotInForm(f"no line: {text}")
        return Line(parse_condition(condition), Claim.parse(claim))


@dataclass
class Report:
    """A report: its header where it has an exact part, its sections by name, and the verdict."""

    header: str | None = None
    sections: dict = field(default_factory=dict)
    explained: list = field(default_factory=list)
    verdict: str | None = None

    def lines(self, name):
        return self.sections.get(name, [])


@dataclass(frozen=True)
class Fault:
    """The first fault of a program or a formula: its number and its offset in bytes."""

    of: str
    number: int
    offset: int


def parse_condition(text):
    """The rows of a condition. Raises NotInForm where it is none."""
    if text == "always":
        return ()
    parts = text.split(" and ")
    if not all(part.endswith(" >= 0") for part in parts):
        raise NotInForm(f"no condition: {text}")
    return tuple(Affine.parse(part.removesuffix(" >= 0")) for part in parts)


def parse_report(text):
    """The report that the command wrote. Raises NotInForm where it is none."""
    report, section = Report(), None
    for line in text.splitlines():
        name = re.match(r"[a-z]*", line)[0]
        if name == "exact" and re.match(r"exact[:,] ", line):
            report.header, section = line.removesuffix(":"), "exact"
            report.sections[section] = []
        elif line == f"{name}:" and name in SECTIONS:
            section = name
            report.sections[section] = []
        elif line.startswith("verdict: "):
            report.verdict = line.removeprefix("verdict: ")
        elif section == "explain":
            report.explained.append(line)
        elif section:
            report.sections[section].append(Line.parse(line))
        else:
            raise NotInForm(f"no report: {line}")
    if report.verdict is None:
        raise NotInForm("no report: it has no verdict")
    return report


def parse_fault(text):
    """The fault that the command wrote, or None where it wrote something else."""
    match = re.fullmatch(r"(program|formula): (\d+) at (\d+)\n", text)
    return Fault(match[1], int(match[2]), int(match[3])) if match else None
