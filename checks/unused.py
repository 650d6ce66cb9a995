#!/usr/bin/env python3
"""Names that nothing else names: definitions of specs/, public calls, and imports.

By text alone: a name that is spelled elsewhere counts as used, an imported one if it is spelled in the file outside comments and imports. Prints each with its file, and ends with 1
where there is one. A definition that docs/WORKING.md lists as named nowhere yet counts as named.
"""
import re
import sys
from collections import defaultdict
from pathlib import Path

TOP = Path(__file__).resolve().parent.parent
HEAD = r"(?:abbrev |unfoldable )?(?:pub )?(?:abbrev |unfoldable |data |record )?"
DEFINITION = re.compile(rf"^(\s*){HEAD}([\w◌'-]+)(?: \([^=]*)? : ")
CALL = re.compile(r"^(\s*)pub (?:const )?fn (\w+)")
IMPORT = re.compile(r"^\s*(?:pub )?(?:ghost )?use (.*?)(?:(?:\.|::)\{([^}]*)\})?;?\s*$")
WORD = re.compile(r"[\w◌≡≢≤<+\-*^ℤ∷⊎↔|&×/%∣¬⊤⊥ℕ']+")
# A name before the `<` of its type parameters.
PLAIN_WORD = re.compile(r"\w+")
# What is syntax, and traits whose methods are called without their name.
SILENT = {"if◌then◌else◌", "self", "*", "NumDomain", "Rank", "Write", "Read", "Source", "Sink", "Adviser", "BufRead"}


def sources():
    return [path for path in sorted(TOP.glob("crates/*/*/**/*")) if path.suffix in (".rt", ".antt") and "out" not in path.parts]


def imported(line):
    """The names that an import brings in."""
    match = IMPORT.match(line)
    if not match:
        return []
    names = match.group(2).split(",") if match.group(2) else [re.split(r"::|\.| as ", match.group(1))[-1]]
    return [name.split(" as ")[-1].strip() for name in names]


def core(name):
    """What is written where an operator is used."""
    return name.strip("◌")


def is_named(name, text, suffix):
    """Whether the text names it: a word as a whole word, an operator anywhere."""
    if not PLAIN_WORD.match(name):
        return core(name) in text
    # Words of proofs may hold a hyphen, and a field's name stands behind a dot.
    part = r"[\w'-]" if suffix == ".antt" else r"\w"
    return re.search(rf"(?<!{part}){re.escape(name)}(?!{part})", text) is not None


def unused_imports(lines, suffix):
    # Texts in quotes go first: one of them may hold the sign of a comment.
    silent = re.compile(r'"[^"]*"|' + ("--.*" if suffix == ".antt" else "//.*"))
    rest = "\n".join(silent.sub("", line) for line in lines if not IMPORT.match(line))
    for line in lines:
        if "pub use" not in line:
            yield from (name for name in imported(line) if name not in SILENT and core(name) and not is_named(name, rest, suffix))


def definitions(path, lines):
    """What a file of specs/ defines, or the public calls of one of src/, each with the number of lines that begin its definition and its cases."""
    kind = DEFINITION if "specs" in path.parts else CALL if path.suffix == ".rt" and path.stem != "laws" else None
    for match in filter(None, map(kind.match, lines)) if kind else []:
        indent, name = match.groups()
        head = re.compile(rf"{indent}(?:{HEAD}|pub (?:const )?fn ){re.escape(name)}(?![\w'-])")
        yield name, sum(1 for line in lines if head.match(line))


def main():
    texts = {path: path.read_text(encoding="utf-8").splitlines() for path in sources()}
    named = defaultdict(int)
    for lines in texts.values():
        for line in lines:
            for word in set(WORD.findall(line)) | set(PLAIN_WORD.findall(line)):
                named[word] += 1
    lists = re.findall(r"^Named nowhere yet: .*", (TOP / "docs/WORKING.md").read_text(encoding="utf-8"), re.M)
    waiting = set(re.findall(r"`([\w']+)`", "\n".join(lists)))
    found = []
    for path, lines in texts.items():
        for name, own in dict.fromkeys(definitions(path, lines)):
            # What begins only once is a field of a record, which is named by what is told of it.
            is_field = own == 1 and "specs" in path.parts
            if named[name] <= own and not is_field and name not in waiting:
                found.append(f"{path.relative_to(TOP)}: {name} is named nowhere else")
        found += [f"{path.relative_to(TOP)}: {name} is imported for nothing" for name in unused_imports(lines, path.suffix)]
    new = list(found)
    print("\n".join(new))
    return 1 if new else 0


if __name__ == "__main__":
    sys.exit(main())
