#!/usr/bin/env python3
"""Sees that the pages agree with the code: ends with 1 and a line for each place where they don't.

- docs/ARCHITECTURE.md has the layers of crates.txt, each with its crates in their order, and names at each crate exactly the crates of the repository that it
  stands on, but for those on which another of them stands.
- Each word in backquotes that looks like a name of the code occurs in the code.
- Each program under examples/ stands once in docs/EXAMPLES.md with its report, as the files have them, and in the table on top of that page, and each one under
  examples/formulas/ with its formula too; README.md shows programs as the files have them.
- README.md, docs/TERMINATES.md and the other pages with runs show what the command and its companion write, where a built command is at hand; else the tests of the companion see to it. Their runs name
  files that are there. The recipes of docs/REPORT.md are read by bash, and do there what the page says.
- Of a fault the command and its companion say the same words.
- Each row of the table of promises in docs/PROOFS.md names functions of the code, each with clauses at it or fields of a record in its contract, and files of specs/.
- Behind the dash of each claim in docs/PROOFS.md stand functions and clauses: each function is one of the code, and each clause stands at a function that the claim
  names before it, or is a field of a record in that function's contract. Where a claim names no function, the clause is one of the heading's crates.
"""
import functools
import os
import re
import subprocess
import sys
import tempfile
from pathlib import Path

TOP = Path(__file__).resolve().parent.parent
sys.path.insert(0, str(TOP / "companion/tests"))

import shown  # noqa: E402

PAGES = ["README.md"] + [f"docs/{name}.md" for name in ("ANALYSIS", "ARCHITECTURE", "DECISIONS", "DOMAINS", "EXAMPLES", "FORMULAS", "GLOSSARY", "LANGUAGE", "PROOFS", "RELATED", "REPORT", "TERMINATES", "WORKING")]
# Words of the toolchain and of the command line, which the code doesn't spell.
ELSEWHERE = {"Answers", "Invariants", "IfErr", "IfOk", "IfSome", "MatchOption", "OnErr", "OnOk", "abbrev", "always", "certificate", "const", "continue", "enum",
             "extern", "function", "indexmap", "main", "noexec", "num_traits", "result", "start_io", "thiserror", "typedef", "unfoldable", "verdict"}


def crates():
    """The crates in order, each with the crates of the repository that it stands on."""
    found = {}
    for line in (TOP / "crates.txt").read_text().splitlines():
        if line.strip() and not line.startswith("#"):
            name, _, rest = line.partition(":")
            found[name.strip()] = rest.split()
    return {name: [other for other in rest if other in found] for name, rest in found.items()}


def not_implied(listed):
    """Of the crates that each stands on, those on which none of the others stands."""

    @functools.cache
    def below(name):
        return set(listed[name]).union(*map(below, listed[name]))

    return {name: [other for other in others if not any(other in below(third) for third in others)] for name, others in listed.items()}


def layers(lines, heading, row):
    """The headings with the crates below each."""
    found = []
    for line in lines:
        if line.startswith(heading):
            found.append((line.removeprefix(heading).strip(), []))
        elif found and (match := row.match(line)):
            found[-1][1].append(match.group(1))
    return [layer for layer in found if layer[1]]


def wrong_layers():
    """Where the map of the crates has other layers than crates.txt."""
    listed = layers((TOP / "crates.txt").read_text().splitlines(), "# ", re.compile(r"(\w+):"))
    drawn = layers((TOP / "docs/ARCHITECTURE.md").read_text().splitlines(), "### ", re.compile(r"\| `(\w+)` \|"))
    for layer in listed:
        if layer not in drawn:
            yield f"docs/ARCHITECTURE.md: no layer '{layer[0]}' of {' '.join(layer[1])}"
    if [head for head, _ in drawn] != [head for head, _ in listed]:
        yield "docs/ARCHITECTURE.md: the layers are not those of crates.txt, in their order"


def wrong_rows():
    """What the map of the crates says otherwise than crates.txt."""
    listed = not_implied(crates())
    rows = {}
    for line in (TOP / "docs/ARCHITECTURE.md").read_text().splitlines():
        cells = [cell.strip() for cell in line.strip().strip("|").split("|")]
        name = cells[0].strip("`")
        if line.startswith("| `") and name in listed:
            if name in rows:
                yield f"docs/ARCHITECTURE.md: {name} has two rows"
            rows[name] = re.findall(r"`(\w+)`", cells[2])
    for name, others in listed.items():
        if name not in rows:
            yield f"docs/ARCHITECTURE.md: {name} has no row"
        elif sorted(rows[name]) != sorted(others):
            yield f"docs/ARCHITECTURE.md: {name} stands on {' '.join(others)}"


def code():
    """The text of all code, specifications and lists of the repository."""
    files = [path for kind in ("*.rt", "*.antt", "*.edit") for path in (TOP / "crates").rglob(kind) if "out" not in path.parts]
    files += [path for folder in ("bench", "examples", "checks", "companion", "companion/tests") for path in (TOP / folder).iterdir() if path.is_file()]
    names = {path.stem for path in files} | set(crates())
    return names, "\n".join(path.read_text() for path in files)


def unknown_names():
    """Words in backquotes, of at least five letters, that the code doesn't have."""
    files, text = code()
    words = set(re.findall(r"[A-Za-z_]\w*", text)) | files | ELSEWHERE
    for page in PAGES:
        path = TOP / page
        for number, line in enumerate(path.read_text().splitlines() if path.exists() else [], 1):
            for quoted in re.findall(r"`([A-Za-z_][\w:.]*)`", line):
                for word in re.split(r"::|[.:]", quoted):
                    if len(word) >= 5 and word not in words:
                        yield f"{page}:{number}: `{word}` is nowhere in the code"


def row_of(program, report):
    """An example's row in the table on top: its name, its first comment, and for which inputs the report has a bound."""
    comment = re.search(r"/\* (.*?) \*/", program.read_text(), re.DOTALL)
    says = " ".join(comment.group(1).split()) if comment else "Nothing is done."
    verdict = report.read_text().splitlines()[-1].removeprefix("verdict: ")
    return f"| {program.name} | {says} | {verdict} |"


def missing_examples():
    """Programs and reports that the page of examples doesn't show as the files have them."""
    page = (TOP / "docs/EXAMPLES.md").read_text()
    for program in sorted((TOP / "examples").glob("*.c")):
        report = program.with_suffix(".report")
        if not report.exists():
            yield f"examples/{program.name} has no report"
        elif f"```c\n{program.read_text()}```\n\n```\n{report.read_text()}```\n" not in page:
            yield f"docs/EXAMPLES.md doesn't show {program.name} with its report"
        elif row_of(program, report) not in page:
            yield f"docs/EXAMPLES.md has not the row: {row_of(program, report)}"


def missing_formulas():
    """Programs with a formula and their reports that the page of examples doesn't show as the files have them."""
    page = (TOP / "docs/EXAMPLES.md").read_text()
    for program in sorted((TOP / "examples/formulas").glob("*.c")):
        asked, report = program.with_suffix(".ctl").read_text(), program.with_suffix(".report").read_text()
        shown = f"```c\n{program.read_text()}```\n\n```\n--ctl '{asked.strip()}'\n```\n\n```\n{report}```\n"
        verdict = report.splitlines()[-1].removeprefix("verdict: ")
        in_row = asked.strip().replace("|", "\\|")
        if shown not in page:
            yield f"docs/EXAMPLES.md doesn't show formulas/{program.name} with its report"
        elif not re.search(rf"(?m)^\| {program.name} \| `{re.escape(in_row)}` \| .* \| {verdict} \|$", page):
            yield f"docs/EXAMPLES.md has no row of formulas/{program.name}"


def repeated_examples():
    """Programs that have more than one part of the page of examples, one of which then is another program's."""
    names = re.findall(r"(?m)^### (\w+\.c)$", (TOP / "docs/EXAMPLES.md").read_text())
    for name in sorted({name for name in names if names.count(name) > 1}):
        yield f"docs/EXAMPLES.md has more than one part on {name}"


def stale_examples():
    """Programs and reports that README.md shows otherwise than the files have them."""
    page = (TOP / "README.md").read_text()
    for name in re.findall(r"^\$ cat examples/(\w+)\.c$", page, re.MULTILINE):
        program = TOP / "examples" / f"{name}.c"
        report = program.with_suffix(".report")
        if f"$ cat examples/{name}.c\n{program.read_text()}$ ./function < examples/{name}.c\n{report.read_text()}" not in page:
            yield f"README.md doesn't show {name}.c with its report"


def stale_runs():
    """Runs that a page shows otherwise than they are, or on files that are not there."""
    for page, call, text in shown.runs():
        for name in re.findall(r"(?:examples|companion)/[\w/]+\.c", call):
            if not (TOP / name).exists() and f"{name}: it can't be read" not in text:
                yield f"{page.relative_to(TOP)}: there is no {name}"
    command = shown.command()
    if command:
        yield from shown.wrong(command)


def run_recipe(recipe, program, command):
    """The status of a recipe of docs/REPORT.md and what it writes, in a folder in which `program.c` and `src/given.c` are the program and `src/empty.c` ends."""
    with tempfile.TemporaryDirectory() as name:
        folder = Path(name)
        for path, text in (("program.c", program), ("src/given.c", program), ("src/empty.c", "int main() { }")):
            (folder / path).parent.mkdir(exist_ok=True)
            (folder / path).write_text(text)
        (folder / "bin").mkdir()
        (folder / "bin/function").symlink_to(Path(command).resolve())
        environment = {**os.environ, "PATH": f"{folder / 'bin'}:{os.environ['PATH']}"}
        ended = subprocess.run(["bash", "-c", recipe], cwd=folder, env=environment, stdout=subprocess.PIPE, text=True, check=False)
        return ended.returncode, ended.stdout


def differing_words():
    """What the command and its companion say otherwise of the same fault."""
    sys.path.insert(0, str(TOP / "companion"))
    import faults
    source = (TOP / "crates/fault_words/src/refusal.rt").read_text()
    bodies = {name: re.search(rf"fn {name}\(.*?\n}}\n", source, re.DOTALL)[0] for name in ("of_program", "of_formula")}
    said = {name: {int(number): words for number, words in re.findall(r'(\d+) => "(.*)"', body)} for name, body in bodies.items()}
    for number in map(int, re.search(r"([\d |]+) => of_program", bodies["of_formula"])[1].split("|")):
        said["of_formula"][number] = said["of_program"][number]
    for name, words in (("of_program", faults.OF_PROGRAMS), ("of_formula", faults.OF_FORMULAS)):
        for number in sorted(words.keys() | said[name].keys()):
            if words.get(number) != said[name].get(number):
                yield f"fault_words and companion/faults.py differ: {name} {number}"


def broken_recipes():
    """Recipes of docs/REPORT.md that bash doesn't read, or that do something else than the page says."""
    recipes = re.findall(r"```\n([^`]*\\function[^`]*)```\n", (TOP / "docs/REPORT.md").read_text())
    ends, stays, none = "int main() { int x; while (x > 0) x = x - 1; }", "int main() { int x; while (x > 0) x = x + 1; }", "int main() { @ }"
    due = [[(ends, 0, "ends from every input\n"), (stays, 0, "unknown:\nx - 1 >= 0: unknown\nverdict: some inputs\n"), (none, 0, "program: 1 at 13\n")],
           [(ends, 0, ""), (stays, 1, "src/given.c: see src/given.c.report\n"), (none, 1, "src/given.c: see src/given.c.report\n")]]
    if len(recipes) != len(due):
        yield f"docs/REPORT.md has {len(recipes)} recipes, and {len(due)} are tried"
    command = shown.command()
    for recipe, cases in zip(recipes, due):
        if subprocess.run(["bash", "-n", "-c", recipe], check=False).returncode:
            yield f"docs/REPORT.md: bash doesn't read: {recipe.splitlines()[0]}"
        for program, status, text in cases if command else []:
            if run_recipe(recipe, program, command) != (status, text):
                yield f"docs/REPORT.md: {recipe.splitlines()[0]} .. does something else on {program}"


def contracts():
    """For each function by its name the clauses at functions of that name, and the words of their contracts; for each crate the names of its functions."""
    clauses, words, owned = {}, {}, {}
    for file in (TOP / "crates").glob("*/src/**/*.rt"):
        parts = re.split(r"\bfn (\w+)", file.read_text())
        for name, rest in zip(parts[1::2], parts[2::2]):
            clauses.setdefault(name, set()).update(re.findall(r"(?:ensures|requires) (\w+) \{", rest))
            words.setdefault(name, set()).update(re.findall(r"\b[A-Z]\w+", rest))
            owned.setdefault(file.relative_to(TOP / "crates").parts[0], set()).add(name)
    return clauses, words, owned


def fields():
    """The fields of each record of specs/."""
    found = {}
    for file in (TOP / "crates").glob("*/specs/**/*.antt"):
        for name, body in re.findall(r"(?m)^ *pub record (\w+)[^\n]*(?:\n  [^\n]*where)?\n((?:(?: {2,}[^\n]*)?\n)+)", file.read_text()):
            found.setdefault(name, set()).update(re.findall(r"(?m)^ +pub (\w+) :", body))
    return found


def missing_clauses():
    """What docs/PROOFS.md names behind the dash of a claim and the code hasn't at that place."""
    clauses, words, owned = contracts()
    records = fields()
    defined = {name for file in (TOP / "crates").glob("*/specs/**/*.antt") for name in re.findall(r"(?:abbrev|unfoldable) pub (\w+)", file.read_text())}
    heads = []
    for entry in re.split(r"\n(?=- |\n|#)", (TOP / "docs/PROOFS.md").read_text()):
        text = " ".join(entry.split())
        if text.startswith("## "):
            heads = re.findall(r"`(\w+)", text)
        if not text.startswith("- ") or " — " not in text:
            continue
        named = text.rpartition(" — ")[2]
        inside = set(re.findall(r"[A-Z]\w+", named))

        def at(functions):
            """The clauses at the functions, with the fields of the records in their contracts and of those that the claim names."""
            seen = inside.union(*(words[name] for name in functions))
            return set().union(*(clauses[name] for name in functions), *(records.get(name, ()) for name in seen))

        functions, heading = set(), set().union(*(owned.get(head, ()) for head in heads))
        for word in re.findall(r"`([^`]+)`", re.sub(r"\([^()]*\)", "", named)):
            last = re.split(r"::", word)[-1].strip()
            if not re.fullmatch(r"[a-z]\w*", last) or last in owned or last == "laws":
                continue
            if last in clauses and last not in at(functions):
                functions.add(last)
            elif last not in at(functions or heading) and last not in defined:
                yield f"docs/PROOFS.md: `{word}` is no function, and no clause where it is named: {text[:80]}.."


def wrong_promises():
    """What the table of promises names and the code hasn't at that place."""
    clauses, words, owned = contracts()
    records = fields()
    table = (TOP / "docs/PROOFS.md").read_text().partition("| promise |")[2].partition("\n\n")[0]
    for line in table.splitlines()[2:]:
        promise, carried, files = (cell.strip() for cell in line.strip("|").split("|"))
        for crate, function, named in re.findall(r"`(\w+)::(\w+)`((?:[:,] `\w+`)*)", carried):
            at = clauses.get(function, set()).union(*(records.get(word, ()) for word in words.get(function, ())))
            if function not in owned.get(crate, ()):
                yield f"docs/PROOFS.md: `{crate}::{function}` is no function: {promise[:80]}.."
            for clause in set(re.findall(r"`(\w+)`", named)) - at:
                yield f"docs/PROOFS.md: `{clause}` is no clause of `{crate}::{function}`: {promise[:80]}.."
        if not re.search(r"`\w+::\w+`", carried):
            yield f"docs/PROOFS.md: no contract carries: {promise[:80]}.."
        for file in re.findall(r"`([\w/]+)`", files):
            if not (TOP / "crates" / f"{file}.antt").is_file():
                yield f"docs/PROOFS.md: crates/{file}.antt isn't there: {promise[:80]}.."


def main():
    faults = [*wrong_layers(), *wrong_rows(), *unknown_names(), *missing_examples(), *missing_formulas(), *repeated_examples(), *stale_examples(), *stale_runs(), *broken_recipes(), *differing_words(), *wrong_promises(), *missing_clauses()]
    for fault in faults:
        print(fault)
    return 1 if faults else 0


if __name__ == "__main__":
    sys.exit(main())
