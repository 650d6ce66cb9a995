"""Faults of programs and formulas in words: where, what, and for the usual causes what to write instead.

The numbers and places are those of docs/LANGUAGE.md and docs/FORMULAS.md.
"""
import re
from dataclasses import dataclass

from tokens import line_of, readable, tokens

OF_PROGRAMS = {
    1: "no token of the language begins here",
    2: "this number is above 9223372036854775807",
    3: "this comment has no end",
    4: "no program goes on like this",
    5: "this name isn't declared here",
    6: "this name is declared already",
    7: "a truth value stands where a number is needed",
    8: "this range is upside down, or an end has the wrong infinity",
    9: "this is the sixteenth variable, and 15 may be declared",
    10: "this is nested more than 64 levels deep",
    11: "this expression has more than 256 operators",
    12: "this is the 1,024th statement that takes a step",
    13: "this test comes down to more than 64 conjunctions, or its negation does",
    14: "the text goes on past 65,536 bytes",
    17: "this stands in no body of a loop",
    18: "this divisor is 0",
    19: "a return stands where nothing follows, with a value exactly where one is given",
    20: "this function has another number of parameters",
}
OF_FORMULAS = {
    1: "no token of formulas begins here",
    2: "this number is above 9223372036854775807",
    3: "this comment has no end",
    4: "no formula goes on like this",
    5: "no variable has this name",
    10: "this is nested more than 64 levels deep",
    11: "the formula has more than 64 operators, or its normal form more than 256",
    14: "the formula goes on past 4,096 bytes",
    16: "a side of this comparison isn't affine, or a number of it doesn't fit 128 bits",
}

TYPES = ("unsigned", "signed", "long", "short", "char", "float", "double", "size_t", "int32_t", "uint32_t", "int64_t", "uint64_t", "_Bool", "__int128")
QUALIFIERS = ("const", "static", "volatile", "register", "inline", "auto")
ASSUMPTIONS = ("assume", "__VERIFIER_assume", "assume_abort_if_not")
JUMPS = ("goto", "switch", "case", "default")
ENDS = ("name", "number")


@dataclass(frozen=True)
class Told:
    """A fault in words: the line and column count from 1 on, in characters."""

    line: int
    column: int
    says: str
    word: str
    shown: str
    hint: str | None

    def text(self, name):
        """As editors read it: the file, the line, the column and what is wrong; then the line with a mark under the place, and a hint."""
        word = f": {self.word}" if self.word else ""
        lead = re.sub(r"[^\t]", " ", self.shown[:self.column - 1])
        lines = [f"{name}:{self.line}:{self.column}: {self.says}{word}", f"  {self.shown}", f"  {lead}^"]
        return "\n".join(lines + ([f"  {self.hint}"] if self.hint else []))


class Place:
    """A place in a text, with the tokens around it."""

    def __init__(self, text, offset):
        self.text, self.offset = text, offset
        listed = tokens(text)
        self.before = [token for token in listed if token.end <= offset]
        self.at = next((token for token in listed if token.offset <= offset < token.end), None)
        self.behind = [token for token in listed if token.offset > offset]

    def last(self, number=1):
        """The word so many tokens before the place, or nothing."""
        return self.before[-number].text if len(self.before) >= number else ""

    def word(self):
        return self.at.text if self.at else ""

    def rest(self):
        """The text from the place to the end of its line."""
        return self.text[self.offset:line_of(self.text, self.offset)[2]]


def tell(fault, text, names=()):
    """The fault of a text in words. The text's characters are bytes; the names are those that a formula may use."""
    place = Place(text, fault.offset)
    number, start, end = line_of(text, fault.offset)
    says = (OF_PROGRAMS if fault.of == "program" else OF_FORMULAS).get(fault.number, f"fault {fault.number}")
    if not text[fault.offset:].strip() and fault.number == 4:
        word = "the end of the text"
    elif place.at and place.at.kind == "other":
        word = readable(place.rest())[:1]
    else:
        word = readable(place.word())
    hint = formula_hint(fault, place, names) if fault.of == "formula" else hint_for(fault, place)
    return Told(number, len(readable(text[start:fault.offset])) + 1, says, word, readable(text[start:end].rstrip("\r")), hint)


def hint_for(fault, place):
    """What to write instead in a program, for the usual causes, or None."""
    hints = {1: byte_hint, 4: token_hint, 5: name_hint, 6: again_hint, 7: truth_hint, 8: range_hint, 17: jump_hint, 19: return_hint, 20: arguments_hint}
    return hints[fault.number](place) if fault.number in hints else None


def byte_hint(place):
    """Of a byte that begins no token, or that runs on behind a number."""
    byte, rest = place.text[place.offset], place.rest()
    if place.text.startswith("\xef\xbb\xbf") and place.offset == 0:
        return "the file begins with a byte order mark: save it without one"
    if byte == "#":
        name = (re.match(r"#\s*(\w*)", rest)[1] or "these")
        if name in ("if", "ifdef", "ifndef", "else", "elif", "endif", "undef"):
            return "conditions of the preprocessor aren't read: keep one of the ways, and take the lines with # out"
        return "definitions of the preprocessor aren't read: write what the name stands for" if name == "define" else "lines of the preprocessor aren't read: take this line out"
    if byte in "xX" and place.text[place.offset - 1] == "0":
        number = re.match(r"[xX]([0-9a-fA-F]+)", rest)
        return "a number is written in decimal" + (f": {int(number[1], 16)}" if number else "")
    if byte.isdigit():
        return "a number begins with no 0"
    if byte in "uUlL" and place.offset and place.text[place.offset - 1].isdigit():
        return "a number has no suffix: take it out"
    return {":": "there is no c ? a : b, no label and no case: write if and else", '"': "there are no strings", "'": "there are no characters: write a number",
            ".": "there are no fractions and no fields: all numbers are whole", "&": "there are no addresses and no operators on bits; and is &&",
            "|": "there are no operators on bits; or is ||", "^": "there are no operators on bits", "~": "there are no operators on bits"}.get(byte)


def token_hint(place):
    """Of a token that no program goes on with."""
    word, last = place.word(), place.last()
    if not place.before:
        return "a program is int main() { .. }" if not word else "a program begins with int main() {, and variables are declared inside it"
    if last in TYPES or word in TYPES:
        return f"the only type is int, of whole numbers without bounds: write int for {last if last in TYPES else word}"
    if last in QUALIFIERS or word in QUALIFIERS:
        return f"take {last if last in QUALIFIERS else word} out"
    if last in JUMPS or word in JUMPS:
        return "there is no goto and no switch: write if, while, break and continue"
    if word == "bool" or last == "bool":
        return "bool is no type here: write int, with 1 for true and 0 for false; behind typedef enum {false, true} bool; this is done for you"
    for of_group in (bracket_hint, declaration_hint, operator_hint, missing_hint):
        if hint := of_group(place):
            return hint
    return None


def bracket_hint(place):
    """Of a `(` or a `[` behind a name."""
    word, last = place.word(), place.last()
    is_name = bool(place.before) and place.before[-1].kind == "name"
    if word == "[" and is_name:
        return "there are no arrays: write a variable for each element that matters"
    if word != "(" or not is_name:
        return None
    return library_hint(last) or f"a call is a statement of its own, {last}(..);, y = {last}(..); or int y = {last}(..);: keep its value in a variable"


def library_hint(name):
    """Of a function that some file of competitions or of the library has, and no text here."""
    if name in ASSUMPTIONS:
        return "there is no assume: write if (c) { .. } around what follows it"
    if name in ("assert", "__VERIFIER_assert"):
        return "there is no assert: take it out, or ask by --ctl whether it holds"
    if name.startswith("__VERIFIER_nondet_"):
        return "the only choice of a number is __VERIFIER_nondet_int(), without bounds, or ?; a range is written [0, 255]"
    return None


def declaration_hint(place):
    """Of what stands outside `main`, in its parentheses, or behind a type."""
    word, last = place.word(), place.last()
    inside = any(token.text == "main" for token in place.before)
    if last == "(" and place.last(2) == "main":
        return "main has no parameters: write int main(), and declare argc inside it"
    if not inside and word == ";" and last == ")":
        return "there are no prototypes: a function stands above those that call it, and none calls itself"
    if not inside and place.last(2) == "int" and word in (";", "=", ",", "["):
        return "variables are declared inside a function"
    if not inside and last == "extern":
        return "of functions elsewhere only extern int __VERIFIER_nondet_int(void); is read: take the declaration out"
    if not inside:
        return "only int main() { .. } is read: take out what stands in front of it, and declare variables inside"
    if word == "*" and last in ("int", ","):
        return "there are no pointers"
    return None


def operator_hint(place):
    """Of operators that the language hasn't, and of the sides of those that it has."""
    word, last = place.word(), place.last()
    behind = place.behind[0].text if place.behind else ""
    if word in ("/", "%") and behind == "=" or word == "<" and behind in ("<", "<=") and place.before[-1].kind == "name":
        return "of assignments there are =, +=, -= and *=: write the operation out"
    if word == "/" or last in ("/", "%"):
        return "what divides is a number: to divide by a variable, subtract it in a loop"
    if word == last and word in ("<", ">"):
        return "there are no operators on bits: multiply or divide by 2"
    if word == "?" or last == "?" and word not in (")", ";", ","):
        return "there is no c ? a : b: write if and else"
    if word == "=" and len(place.before) > 1 and place.last(2) in ("=", "(", "&&", "||", "==") or word == "=" and last == ")":
        return "an assignment is a statement of its own; to compare write =="
    if word in ("++", "--") and (place.last(2) not in (";", "{", "}", ")", "else", "do")):
        return "++ and -- stand alone, as a statement: take them out of the expression"
    if last in ("if", "while", "for", "main"):
        return f"a ( is missing behind {last}"
    if word in ("and", "or", "not"):
        return "write " + {"and": "&&", "or": "||", "not": "!"}[word]
    if word == "==" and len(place.before) > 1 and place.last(2) in (";", "{", "}"):
        return "to assign write ="
    if word == "int" and last == "(":
        return "there are no casts: take it out"
    return None


def missing_hint(place):
    """Of a token before which something is missing."""
    word, previous = place.word(), place.before[-1]
    line_here, _, _ = line_of(place.text, place.offset)
    line_before, _, _ = line_of(place.text, previous.offset)
    ends = previous.kind in ENDS or previous.text in (")", "]", "++", "--", "?")
    if ends and (line_before < line_here or word == "}") and previous.text not in ("else", "do") and word != "{":
        return f"is a ; missing at the end of line {line_before}?"
    opened = sum(token.text == "{" for token in place.before) - sum(token.text == "}" for token in place.before)
    if word in (";", "{", "}") and open_parentheses(place) > 0:
        return "is a ) missing in front of this?"
    if not word:
        return f"{opened} {'{ is' if opened == 1 else '{ are'} open: is a }} missing?" if opened > 0 else None
    if previous.text == "}" and opened == 0 and word in ("int", "void"):
        return "main is the last function: the others stand above it"
    if previous.text == "}" and opened == 0:
        return "main ends here: is there a } too much?"
    return None


def open_parentheses(place):
    """How many parentheses of the statement at the place are open there."""
    count = 0
    for token in reversed(place.before):
        if token.text in ("{", "}", ";"):
            return count
        count += (token.text == "(") - (token.text == ")")
    return count


def name_hint(place):
    """Of a name outside its scope."""
    word = place.word()
    if word in ("INT_MAX", "INT_MIN", "UINT_MAX", "LONG_MAX", "NULL"):
        return "numbers have no bounds here: write the number that is meant"
    if re.search(rf"(?m)^\s*#\s*define\s+{word}\b", place.text):
        return "definitions of the preprocessor aren't read: write what the name stands for"
    if place.behind and place.behind[0].text == "(":
        return library_hint(word) or f"no function {word} ends above: write it there, or take the call out"
    if any(token.text == word for token in place.before):
        return "its declaration stands in a block that has ended, or behind this place: declare it at the start of main"
    return f"write int {word}; at the start of main"


def again_hint(place):
    """Of a name that is declared again."""
    word = place.word()
    first = next(token for token in place.before if token.text == word)
    line, _, _ = line_of(place.text, first.offset)
    return f"its first declaration is in line {line}: take this one out, or give it another name; behind the first one's block int {word} = 0; declares the same variable again"


def truth_hint(place):
    """Of a truth value in the place of a number."""
    if re.match(r"[^;&|=]*?(<=?|>=?)[^;&|=]*?(<=?|>=?)", place.rest()) and place.last() == "(":
        return "comparisons don't chain: for a < b < c write a < b && b < c"
    return "to keep a truth value write if (c) x = 1; else x = 0;"


def range_hint(_):
    return "a range is [least, greatest], as [0, 10] or [-inf, 5]"


def return_hint(place):
    """Of a `return` of a function, or of its `}` where one is missing."""
    if place.word() == "}":
        return "write return e; in front of this, or void in front of the function"
    behind = [token.text for token in place.behind]
    end = behind.index(";") + 1 if ";" in behind else len(behind)
    if behind[end:end + 1] == ["else"] or behind[end:end + 2] == ["}", "else"]:
        return "take the else behind this out: what follows an if that returns needs none"
    return "something follows this: keep the value in a variable, and return it behind that; a function void f(..) returns none"


def arguments_hint(place):
    return f"give {place.word()} as many arguments as it has parameters"


def jump_hint(place):
    return f"take the {place.word()} out, or end the program by return;"


def formula_hint(fault, place, names):
    """The same of formulas."""
    word, last = place.word(), place.last()
    if fault.number == 4 and not place.before and not word:
        return "a formula is AF exit, AG x >= 0 or A[x > 0 U x == 0], for example"
    if fault.number == 1 and place.text[place.offset] == ":" or fault.number == 4 and word in ("{", "}"):
        return "parentheses are ( and ): AF (x == 1)"
    if fault.number == 4 and (last == "-" and word == ">" or last == "=" and word == ">"):
        return "for f -> g write !(f) || g"
    name = next((part for part in (word, last) if part in ("F", "G", "X")), None)
    if fault.number in (4, 5) and name:
        return f"a formula of CTL says of which runs: A{name} for all, E{name} for some"
    if fault.number == 4 and word == "=":
        return "to compare write =="
    if fault.number == 5:
        return f"the program's variables are {', '.join(names)}" if names else "the program has no variables"
    if fault.number == 16:
        return "of each product one factor has no variable"
    return None
