#!/usr/bin/env python3
"""Sees that docs/PROOFS.md shows the headline and lists the definitions that its reader has to believe: all that `Headline`, `AnswerHeadline`, `FitHeadline`, `Form`,
`FramedHeadline` and `FramedAnswerHeadline` name, and what those name, down to the words of the standard library; and that in each file they stand first, before a line that says where they end.

The list is made of tables between two marks, one for each question that a reader may have. A row has a digest of its definitions: of their text without
comments, and of where each imported word in it comes from. So a definition that says something else is another page, though its name stayed. Where the page
isn't what the definitions give the check says so and ends with 1; with `--write` it writes these parts anew. With `--print` it writes the definitions
themselves to standard output, with their comments, each question's together and each definition before those that it names.

Words of the command line are read by the toolchain's library `clap`, whose definitions are looked up beside the command `rt` and counted too.
"""
import hashlib
import re
import shutil
import sys
from pathlib import Path

TOP = Path(__file__).resolve().parent.parent
PAGE = TOP / "docs/PROOFS.md"
LIST = ("<!-- begin: checks/believe.py -->", "<!-- end -->")
SHOWN = ("<!-- begin: the headline, by checks/believe.py -->", "<!-- end of the headline -->")
# The headline and what says it of a line, of the lines on one input, and which lines there are at all. The page shows the first seven.
ROOTS = [("function_top", file, name) for file, name in [
    ("Headline", "Headline"), ("Headline", "IsTrueText"), ("TrueLine", "TrueLine"), ("TrueLine", "IsTrueOf"),
    ("Headline", "AnswerHeadline"), ("Headline", "IsTrueAnswer"), ("Headline", "FitHeadline"), ("Form", "Form"),
    ("Framed", "FramedHeadline"), ("Framed", "FramedAnswerHeadline"),
]]
SHOWN_ROOTS = 7

# What a reader asks, with the crates whose definitions answer it.
QUESTIONS = {
    "What is claimed of a program": ("function_top", "ctl_formula", "ordinal_rank", "int_fit", "step_meaning"),
    "What a line of a report says": ("claim_line", "report_text", "line_text", "linear_cons"),
    "Which text is which program": ("call_inline", "call_meaning", "source_parse", "elaboration", "typed_expressions", "source_syntax", "concrete_syntax", "derivation", "source_lex"),
    "Which text is which formula": ("formula_parse", "normal_form", "formula_syntax", "linear_forms"),
    "Which text is which input": ("input_text", "number_parse"),
    "What the words of the command line ask": ("command_words", "clap"),
}
# Crates of the toolchain whose definitions are counted.
PORTS = ("clap",)
# What stands behind the definitions that the list names, in a file that has more.
LAST = "-- What follows has no part in the headline."

HEAD = re.compile(r"^(\s*)(?:abbrev |unfoldable )?(?:pub )?(?:abbrev |unfoldable )?(data |record )?([\w'-]+)(?: [({][^=]*)? : ")
IMPORT = re.compile(r"^\s*(?:pub )?use ([\w.]+?)(?:\.\{([^}]*)\})?(?: as (\w+))?$")
WORD = re.compile(r"[\w'-]+(?:\.[\w'-]+)*")
TYPE = re.compile(r"^pub(?:\([a-z]+\))? (?:struct|enum) (\w+)")


def without_comment(line):
    return re.sub(r"\s*--(?= |$).*", "", line)


def digest(lines):
    """Eight digits that tell the lines from others, whatever blanks they begin and end with."""
    return hashlib.sha256("\n".join(line.strip() for line in lines).encode()).hexdigest()[:8]


class Definition:
    """A definition with the constructors that it has, and the text in which it names others."""

    def __init__(self, name, at, indent, family, around):
        self.name, self.at, self.last, self.indent, self.family, self.around, self.lines = name, at, at, indent, family, around, []

    def text(self):
        return "\n".join(self.around + self.lines)

    def words(self):
        return WORD.findall(self.text())


class Module:
    """A file of definitions: what it imports, what each name that it has belongs to, and behind which line none is in the list."""

    def __init__(self, path):
        self.imports, self.aliases, self.names = {}, {}, {}
        current, around = None, []
        self.source = path.read_text().splitlines()
        self.last = self.source.index(LAST) if LAST in self.source else len(self.source)
        for at, line in enumerate(map(without_comment, self.source)):
            if not line.strip():
                continue
            if match := IMPORT.match(line):
                self.take(match)
                continue
            indent = len(line) - len(line.lstrip())
            if line.lstrip().startswith("module _"):
                around, current = [text for text in around if len(text) - len(text.lstrip()) < indent] + [line], None
                continue
            if re.match(r"\s*(?:abbrev )?mutual$", line):
                current = None
                continue
            if indent == 0:
                around = []
            inside = current and current.family and indent > current.indent
            if not inside and (match := HEAD.match(line)):
                current = Definition(match.group(3), at, indent, match.group(2), list(around))
                self.names[current.name] = current
            if current:
                current.lines.append(line)
                current.last = at
                if inside and current.family == "data " and (match := HEAD.match(line)):
                    self.names[match.group(3)] = current

    def take(self, match):
        module, names, alias = match.groups()
        if alias:
            self.aliases[alias] = module
        for name in (names or "").split(","):
            old, _, new = name.strip().partition(" as ")
            if old:
                self.imports[new or old] = (module, old)

    def origins(self, definition):
        """Where the imported words of a definition come from."""
        text, words = definition.text(), {word.partition(".")[0] for word in definition.words()}
        for name, (module, old) in sorted(self.imports.items()):
            parts = [part for part in name.split("◌") if part]
            if name in words or ("◌" in name and all(part in text for part in parts)):
                yield f"{name} is {module}.{old}"
        for alias, module in sorted(self.aliases.items()):
            if alias in words:
                yield f"{alias} is {module}"

    def shown(self, definition):
        """The lines of a definition as they stand in the file, with the comment above it."""
        first = definition.at
        while first and re.match(r"\s*(--(?! -)|(abbrev )?mutual$)", self.source[first - 1]):
            first -= 1
        return [*definition.around, *self.source[first:definition.last + 1]]


class Repository:
    """The definitions of all crates, and of those of the toolchain that are counted, read as they are named."""

    def __init__(self):
        self.modules = {}
        lines = (TOP / "crates.txt").read_text().splitlines()
        self.crates = [*PORTS, *(line.partition(":")[0].strip() for line in lines if line.strip() and not line.startswith("#"))]
        command = shutil.which("rt")
        if command is None:
            sys.exit("checks/believe.py: the toolchain's command rt isn't found, beside which its libraries stand")
        self.ports = Path(command).resolve().parent.parent / "rattle"

    def folder(self, crate):
        return (self.ports if crate in PORTS else TOP / "crates") / crate

    def module(self, crate, name):
        path = self.folder(crate) / "specs" / (name.replace(".", "/") + ".antt")
        if (crate, name) not in self.modules:
            self.modules[crate, name] = Module(path) if path.exists() else None
        return self.modules[crate, name]

    def find(self, module, name):
        """The definition that a name of a module stands for: its crate, its file and itself; or a type of the code."""
        parts = module.split(".")
        if parts[0] != "Rattle" or len(parts) < 4 or parts[1] not in self.crates or parts[2] != "specs":
            return None
        crate, rest = parts[1], parts[3:]
        if rest[0] == "Laws":
            return None
        if rest[0] == "declared":
            return None if crate in PORTS else (crate, None, next(part for part in reversed(rest) if part != "TheVariants"))
        found = self.module(crate, ".".join(rest))
        if found is None:
            return None
        if name in found.names:
            return crate, ".".join(rest), found.names[name]
        return self.find(*found.imports[name]) if name in found.imports else None

    def named_by(self, crate, file, definition):
        module = self.module(crate, file)
        for word in definition.words():
            first, _, rest = word.partition(".")
            if first in module.names and module.names[first] is not definition:
                yield crate, file, module.names[first]
            elif first in module.imports:
                found = self.find(*module.imports[first])
            elif first in module.aliases and rest:
                found = self.find(module.aliases[first], rest.split(".")[0])
            else:
                continue
            if first not in module.names and found:
                yield found

    def type_of(self, crate, name):
        """The lines of a type of the code, with its comments."""
        for path in sorted((self.folder(crate) / "src").rglob("*.rt")):
            lines = path.read_text().splitlines()
            for start, line in enumerate(lines):
                if (match := TYPE.match(line)) and match.group(1) == name:
                    end = start if line.endswith(";") else next(i for i in range(start, len(lines)) if lines[i] == "}")
                    while lines[start - 1].startswith(("///", "#[")):
                        start -= 1
                    return lines[start:end + 1]
        sys.exit(f"checks/believe.py: no type {name} in {crate}")

    def code_of_type(self, crate, name):
        """The lines of a type of the code without its comments and attributes."""
        return [line for line in self.type_of(crate, name) if line.strip() and not line.lstrip().startswith(("//", "#["))]

    def text_of(self, crate, file, item):
        """What a definition says, as lines that a digest is made of."""
        if not file:
            return self.code_of_type(crate, item)
        return [*item.around, *item.lines, *self.module(crate, file).origins(item)]


def believed(repository):
    """All that the roots name, in the order in which it is read: the definitions by crate and file, and the types of the code. The roots come first, and
    behind them what a claim says before what the other roots name; each definition stands before those that it names first."""
    roots = [(crate, file, repository.module(crate, file).names[name]) for crate, file, name in ROOTS]
    found = dict.fromkeys(roots)
    left = [other for item in sorted(roots, key=lambda item: item[1] == "TrueLine") for other in reversed(list(repository.named_by(*item)))]
    while left:
        item = left.pop()
        if item in found:
            continue
        found[item] = None
        if item[1]:
            left += reversed(list(repository.named_by(*item)))
    return list(found)


def by_file(items):
    """The items of each file, or each crate's types of the code."""
    files = {}
    for crate, file, item in items:
        files.setdefault((crate, file or ""), []).append(item)
    return files


def row(repository, crate, file, items):
    """The row of a file or of a crate's types, and how many lines they have."""
    items = sorted(items, key=lambda item: item.at if file else item)
    lines = sum(len(item.lines if file else repository.code_of_type(crate, item)) for item in items)
    names = f"{len(items)} definition{'s' * (len(items) > 1)}" if crate in PORTS else ", ".join(f"`{name}`" for name in sorted(item.name if file else item for item in items))
    path = f"{crate}/specs/{file.replace('.', '/')}"
    place = f"{path} of the toolchain" if crate in PORTS else f"`{path}`" if file else f"`{crate}`, types of the code"
    mark = digest([line for item in items for line in repository.text_of(crate, file, item)])
    return f"| {place} | {names} | {lines} | {mark} |", lines


def tables(repository, items):
    """A table for each question, in the order of the crates from the top down."""
    files = by_file(items)
    places = sorted(files, key=lambda at: (-repository.crates.index(at[0]), at[1]))
    parts, total = [], 0
    for question, crates in QUESTIONS.items():
        rows = [row(repository, *at, files[at]) for at in places if at[0] in crates]
        count = sum(lines for _, lines in rows)
        total += count
        parts += [f"**{question}** ({count} lines)\n", "| where | what | lines | digest |", "| --- | --- | --- | --- |", *(text for text, _ in rows), ""]
    left = {crate for crate, _ in places} - {crate for crates in QUESTIONS.values() for crate in crates}
    if left:
        sys.exit(f"checks/believe.py: no question is answered by {' '.join(sorted(left))}")
    return "\n".join(parts) + f"\nThese are {total} lines in {len(places)} places."


def headline(repository):
    """The headline and what it says of a line, as they stand in the files."""
    shown = []
    for crate, file, name in ROOTS[:SHOWN_ROOTS]:
        module = repository.module(crate, file)
        shown.append("\n".join(module.shown(module.names[name])))
    return "```\n" + "\n\n".join(shown) + "\n```"


def page_of_definitions(repository, items):
    """The definitions themselves, by question, each before what it names first."""
    parts = []
    for question, crates in QUESTIONS.items():
        parts.append(f"{question}\n{'=' * len(question)}")
        before = None
        for crate, file, item in items:
            if crate not in crates:
                continue
            place = f"{crate}/specs/{file.replace('.', '/')}" if file else f"{crate}, in the code"
            lines = repository.module(crate, file).shown(item) if file else repository.type_of(crate, item)
            parts.append("\n".join([f"[{place}]"] * (place != before) + lines))
            before = place
    return "\n\n".join(parts) + "\n"


def misplaced(repository, items):
    """Lines on files in which the definitions of the list aren't those before the line that says where they end."""
    for (crate, file), needed in sorted(by_file(items).items()):
        if not file or crate in PORTS:
            continue
        module = repository.module(crate, file)
        for item in sorted(set(module.names.values()), key=lambda item: item.at):
            if (item in needed) != (item.at < module.last):
                yield f"crates/{crate}/specs/{file}.antt: {item.name} stands on the wrong side of '{LAST}'"


def replaced(page, marks, text):
    """The page with this text between the marks."""
    begin, end = page.index(marks[0]), page.index(marks[1]) + len(marks[1])
    return f"{page[:begin]}{marks[0]}\n{text}\n{marks[1]}{page[end:]}"


def main():
    repository = Repository()
    items = believed(repository)
    if "--print" in sys.argv[1:]:
        print(page_of_definitions(repository, items), end="")
        return 0
    wrong = list(misplaced(repository, items))
    for line in wrong:
        print(line)
    page = PAGE.read_text()
    made = replaced(replaced(page, LIST, tables(repository, items)), SHOWN, headline(repository))
    if page == made:
        return int(bool(wrong))
    if "--write" in sys.argv[1:]:
        PAGE.write_text(made)
        return int(bool(wrong))
    print("docs/PROOFS.md: what a reader has to believe has changed; see it with checks/believe.py --write and git diff")
    return 1


if __name__ == "__main__":
    sys.exit(main())
