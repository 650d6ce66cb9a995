"""A file's answer as an object of JSON. docs/TERMINATES.md has the schema."""
from show import condition, verdict


def of_function(function):
    return {"coefficients": function.coefficients(), "constant": function.constant}


def of_claim(claim):
    """A claim by its kind, with what that kind has."""
    found = {"kind": claim.kind}
    if claim.bound is not None:
        found["steps"] = of_function(claim.bound)
    if claim.rank is not None:
        found["rank"] = claim.rank
    if claim.runs is not None:
        found["runs"] = claim.runs
    return found


def of_line(line, result):
    return {"condition": condition(result, line), "rows": [of_function(row) for row in line.rows], "claim": of_claim(line.claim)}


def of_fault(result):
    fault, told = result.fault, result.told
    return {"of": fault.of, "number": fault.number, "offset": fault.offset, "line": told.line, "column": told.column, "says": told.says, "word": told.word, "hint": told.hint}


def of_result(result, asked):
    """The object of a file: what isn't there is null, or an empty list."""
    report = result.report
    return {
        "file": result.name,
        "status": result.status,
        "formula": asked,
        "says": verdict(result, asked) if report else None,
        "verdict": report.verdict if report else None,
        "header": report.header if report else None,
        **{section: [of_line(line, result) for line in report.lines(section)] if report else [] for section in ("exact", "proved", "ranked", "fits", "unknown")},
        "never": [of_line(line, result) for line in result.never],
        "left": [of_line(line, result) for line in result.left],
        "at": {"input": result.at, "claim": of_claim(result.claim)} if result.claim else None,
        "changes": [{"offset": change.offset, "old": change.old, "new": change.new, "why": change.why} for change in result.changes],
        "fault": of_fault(result) if result.fault else None,
        "trouble": result.trouble,
    }
