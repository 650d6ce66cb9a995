"""A file's answer as lines for people."""
import zlib

from readable import MOST_REWRITTEN, joined, joined_values, sorted_lines, spelled_claim, spelled_condition, spelled_rows
from rows import implies, meets


class Scattered(dict):
    """A store that has a number for each name, between -9 and 9."""

    def __init__(self, seed):
        super().__init__()
        self.seed = seed

    def get(self, name, _=None):
        return zlib.crc32(f"{self.seed} {name}".encode()) % 19 - 9


TRIED = [Scattered(seed) for seed in range(40)]


def same_stores(one, other):
    """Whether two conditions are met by the same rational points. Those that some store tells apart are told so without more ado."""
    if any(meets(one, store) != meets(other, store) for store in TRIED):
        return False
    return all(implies(one, row) for row in other) and all(implies(other, row) for row in one)


def merged(report):
    """The proved lines, each with the exact claim where an exact line has its condition; and the exact lines that are left."""
    proved, exact = joined(report.lines("proved")), joined(report.lines("exact"))
    found = []
    for line in proved:
        partner = next((other for other in exact if same_stores(line.rows, other.rows)), None)
        found.append(partner or line)
        exact = [other for other in exact if other is not partner]
    return joined_values(found), exact


def verdict(result, asked):
    """In one line: from which inputs the program ends, or the formula holds."""
    report, never = result.report, result.never
    yes = bool(report.lines("proved") or report.lines("ranked") or report.lines("fits"))
    unknown = bool(result.left)
    holds = "fits" if "fits" in report.sections else "holds" if asked else "ends"
    if not never and not unknown:
        return f"{holds} from all inputs"
    if not yes and not never:
        return "unknown"
    runs = {line.claim.runs for line in never}
    parts = [f"{holds} from some inputs"] if yes else []
    if never:
        where = ("all inputs" if not yes else "all others") if not unknown else "some"
        parts.append(f"never ends ({'/'.join(sorted(runs))} run) from {where}")
    return ", ".join(parts + (["unknown from the others"] if unknown else []))


def is_long(result):
    """Whether a report has so many lines that they are shown as they are."""
    return sum(map(len, result.report.sections.values())) + len(result.never) > MOST_REWRITTEN


def lines_of(result):
    """The lines to show, in groups: what is proved, what has a rank or fits, what never ends and what is left; and the exact lines of a part of these."""
    if is_long(result):
        groups = [result.report.lines(name) for name in ("proved", "ranked", "fits")]
        return [line for group in [*groups, result.never, result.left] for line in group], result.report.lines("exact")
    proved, exact = merged(result.report)
    groups = [proved, joined(result.report.lines("ranked")), joined(result.report.lines("fits")), joined(result.never), joined(result.left)]
    return [line for group in groups for line in sorted_lines(group)], sorted_lines(exact)


def condition(result, line):
    """A line's condition as it is shown."""
    return spelled_rows(line.rows) if is_long(result) else spelled_condition(line.rows)


def text(result, asked):
    """All lines of a file that has an answer."""
    if result.claim:
        return f"{result.name}: from {result.at}: {result.claim}"
    lines, exact = lines_of(result)
    shown = [f"{result.name}: {verdict(result, asked)}"]
    for prefix, group in (("  ", lines), ("  of these, ", exact)):
        shown += [f"{prefix}{condition(result, line)}: {spelled_claim(line.claim)}" for line in group]
    return "\n".join(shown + [f"  {line}" for line in result.report.explained])
