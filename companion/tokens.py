"""Texts of programs as bytes, with their tokens: offsets are those that the command tells.

A text is kept as a string in which each character is a byte (Latin 1), so that its indices are offsets.
"""
import re
from dataclasses import dataclass

SIGNS = r"\+\+|--|\+=|-=|\*=|==|!=|<=|>=|&&|\|\||[<>=+\-*/%!(){}\[\];,?]"
SCAN = re.compile(rf"(?P<gap>[ \t\r\n\v\f]+|/\*.*?\*/|//[^\n]*)|(?P<name>[A-Za-z_]\w*)|(?P<number>\d+)|(?P<sign>{SIGNS})|(?P<other>.)", re.DOTALL | re.ASCII)


@dataclass(frozen=True)
class Token:
    """A name, a number, a sign, or another byte, and where it begins."""

    kind: str
    text: str
    offset: int

    @property
    def end(self):
        return self.offset + len(self.text)


def tokens(text):
    """The tokens of a text. What begins none is a token of one byte of the kind `other`."""
    return [Token(match.lastgroup, match[0], match.start()) for match in SCAN.finditer(text) if match.lastgroup != "gap"]


def line_of(text, offset):
    """The number of the line at the offset, from 1 on, and where that line begins and ends."""
    start = text.rfind("\n", 0, offset) + 1
    end = text.find("\n", offset)
    return text.count("\n", 0, offset) + 1, start, len(text) if end < 0 else end


def readable(text):
    """The bytes as they are shown: as UTF-8 where they are that, without what moves a cursor."""
    shown = text.encode("latin-1").decode("utf-8", "replace")
    return "".join(c if c == "\t" or c.isprintable() else "\N{REPLACEMENT CHARACTER}" for c in shown)


def declared(text):
    """The names that `main` declares in a program's text, in the order of their first declarations: a function has variables of its own."""
    found, depth, declaring = [], 0, False
    listed = tokens(text)
    listed = listed[max((at for at, token in enumerate(listed) if token.text == "main"), default=0):]
    for before, token in zip([None, *listed], listed):
        if token.text in ("(", "["):
            depth += 1
        elif token.text in (")", "]"):
            depth -= 1
            declaring = declaring and depth >= 0
        elif token.text == "int":
            declaring, depth = True, 0
        elif token.text in (";", "{", "}"):
            declaring = False
        if declaring and depth == 0 and token.kind == "name" and before and before.text in ("int", ",") and token.text not in ("int", "main", "__VERIFIER_nondet_int"):
            if token.text not in found:
                found.append(token.text)
    return found


def chooses_without_bounds(text):
    """Whether some assignment may put any of infinitely many numbers into a variable: then a configuration has infinitely many successors.

    Only the right side of an assignment or an initialiser matters: a test has two outcomes, and the value of a `return` isn't looked at.
    """
    depth = None
    for token in tokens(text):
        if depth is None:
            depth = 0 if token.text in ("=", "+=", "-=", "*=") else None
        elif token.text in ("(", "["):
            depth += 1
        elif token.text in (")", "]"):
            depth = depth - 1 if depth else None
        elif token.text == ";":
            depth = None
        elif token.text in ("?", "__VERIFIER_nondet_int", "inf"):
            return True
    return False
