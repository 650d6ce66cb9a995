"""Texts as people have them: what files of the competitions have and the language hasn't, in its words.

Each change keeps the length of the text and its lines, so that places stay, and each one is told. A text that needs none is handed on as it is.
"""
import re
from dataclasses import dataclass

from statements import most_open, needless_elses
from tokens import line_of, readable, tokens

CHOICE = "__VERIFIER_nondet_int"
DECLARED_ELSEWHERE = re.compile(r"__VERIFIER_\w+|__assert\w*|abort|assert|exit|reach_error|printf|assume_abort_if_not|assume")
BOOL = ("typedef", "enum", "{", "false", ",", "true", "}", "bool", ";")
NUMBER_BEFORE = ("=", "+=", "-=", "*=", "==", "!=", "<", "<=", ">", ">=", "+", "-", "*")
NUMBER_BEHIND = ("==", "!=", "<", "<=", ">", ">=", "+", "-", "*", "/", "%")
MOST_LEVELS = 64
LEFT_OUT = ("include", "pragma", "line", "warning", "ident")


@dataclass(frozen=True)
class Change:
    """What stands from an offset on, what is put there, as long, and why. Of a choice that is taken away, with a step that then isn't counted, the variable."""

    offset: int
    old: str
    new: str
    why: str
    of: str | None = None


def blank(old):
    """Blanks in its place, with its lines."""
    return re.sub(r"[^\n]", " ", old)


def changed(text, changes):
    """The text with the changes made."""
    for change in changes:
        text = text[:change.offset] + change.new + text[change.offset + len(change.old):]
    return text


def told(name, text, changes):
    """A line for each change, with its place."""
    for change in sorted(changes, key=lambda change: change.offset):
        line, start, _ = line_of(text, change.offset)
        column = len(readable(text[start:change.offset])) + 1
        new = " ".join(change.new.split())
        old = readable(" ".join(change.old.split()))
        yield f"{name}:{line}:{column}: {change.why}: {old}" + (f" -> {new}" if new else "")


def changes_for(text, inputs):
    """What is changed of a text: directives, declarations, `bool` and an `else` that nothing needs where it has them, and with `inputs` the choices at the front of `main`."""
    found = []
    for kind in [directives, declarations, truth_values, elses, *[front_choices] * inputs]:
        found += kind(changed(text, found))
    return found


def directives(text):
    """Lines of the preprocessor that say nothing of the program's meaning: all but conditions, and definitions of names that the text has elsewhere."""
    found = []
    for match in re.finditer(r"(?m)^[ \t]*#((?:[^\n]*\\\r?\n)*[^\n]*)", text):
        mark = text.index("#", match.start())
        if not any(token.offset == mark for token in tokens(text)):
            continue
        words = match[1].split()
        if not words or words[0] in LEFT_OUT or words[0].isdigit() or defines_in_vain(text, words):
            old = match[0][mark - match.start():].rstrip("\r")
            found.append(Change(mark, old, blank(old), "a line of the preprocessor is left out"))
    return found


def defines_in_vain(text, words):
    """Whether the words of a line of the preprocessor define a name that the text has nowhere else."""
    if len(words) < 2 or words[0] != "define":
        return False
    name = re.match(r"\w*", words[1])[0]
    return sum(token.text == name for token in tokens(text)) == 1


def declarations(text):
    """Declarations of functions that the text has, and of known ones that the competitions' files have, but for the one that the language reads."""
    parts = list(outermost(tokens(text)))
    defined = {name_of([token.text for token in part]) for part in parts if part[-1].text == "}"}
    found = []
    for part in parts:
        begin, end = part[0].offset, part[-1].end
        if is_declaration([token.text for token in part], defined):
            found.append(Change(begin, text[begin:end], blank(text[begin:end]), "a declaration is left out"))
    return found


def outermost(listed):
    """What stands outside of all braces, each as its tokens up to its `;` or to the `}` of its body."""
    part, depth = [], 0
    for token in listed:
        part.append(token)
        depth += (token.text == "{") - (token.text == "}")
        if depth <= 0 and (token.text == ";" or token.text == "}" and part[0].text != "typedef"):
            yield part
            part, depth = [], 0


def name_of(words):
    """What stands in front of the first `(`, or nothing where there is none."""
    return words[words.index("(") - 1] if "(" in words[1:] else ""


def is_declaration(words, defined):
    """Whether the words declare a function that is among these, or a known one otherwise than the language reads it."""
    if words[-2:] != [")", ";"] or "=" in words:
        return False
    name = name_of(words)
    if name == CHOICE:
        return words[:4] != ["extern", "int", CHOICE, "("] or words[4:-2] not in ([], ["void"])
    return name in defined or bool(DECLARED_ELSEWHERE.fullmatch(name))


def truth_values(text):
    """Behind the typedef of `bool`: the type becomes `int`, and `true` and `false` in the place of a number 1 and 0."""
    listed = tokens(text)
    words = [token.text for token in listed]
    at = next((i for i in range(len(words)) if tuple(words[i:i + len(BOOL)]) == BOOL), None)
    if at is None:
        return []
    found = []
    for place in range(at + len(BOOL), len(listed)):
        token, before = listed[place], words[place - 1]
        behind = words[place + 1] if place + 1 < len(words) else ""
        if token.text == "bool":
            found.append(Change(token.offset, "bool", "int ", "a truth value is kept as a number"))
        elif token.text in ("true", "false") and (before in NUMBER_BEFORE or behind in NUMBER_BEHIND):
            new = ("1" if token.text == "true" else "0").ljust(len(token.text))
            found.append(Change(token.offset, token.text, new, "a truth value is kept as a number"))
    return found


def elses(text):
    """Each `else` of a function behind a part that always returns, where something follows the `if`: the language reads that without it."""
    found = []
    for part in outermost(tokens(text)):
        words = [token.text for token in part]
        if words[-1] == "}" and name_of(words) not in ("", "main") and most_open(words) <= MOST_LEVELS:
            try:
                places = list(needless_elses(words, words.index("{"), False))
            except (ValueError, IndexError, RecursionError):
                continue
            found += [Change(part[place].offset, "else", " " * len("else"), "an else behind a return is left out") for place in places]
    return found


def statements(listed):
    """The statements of the front of `main`, each as its tokens: declarations and assignments up to the first that is neither."""
    words = [token.text for token in listed]
    at = next((i for i in range(len(words)) if words[i] == "main"), len(words))
    at = next((i for i in range(at, len(words)) if words[i] == "{"), len(words)) + 1
    while at < len(words):
        end = next((i for i in range(at, len(words)) if words[i] in (";", "{", "}")), len(words))
        is_simple = end < len(words) and words[end] == ";" and (words[at] == "int" or listed[at].kind == "name" and words[at + 1] == "=")
        if not is_simple or words[at] in ("if", "while", "for", "do", "return"):
            return
        yield listed[at:end]
        at = end + 1


def parts(statement):
    """The parts of a declaration, or an assignment as its only one: each the tokens from its name on."""
    if statement[0].text != "int":
        return [statement]
    found, depth = [[]], 0
    for token in statement[1:]:
        depth += (token.text in ("(", "[")) - (token.text in (")", "]"))
        if token.text == "," and depth == 0:
            found.append([])
        else:
            found[-1].append(token)
    return found


def chosen_first(text):
    """The variables whose numbers `main` chooses at its front, so that they could be inputs."""
    return list(dict.fromkeys(change.of for change in front_choices(text)))


def front_choices(text):
    """At the front of `main` assignments of a choice: without them the variable is an input, and the choice its number.

    One of them may be left out where its variable is declared and no statement that is kept before it has that: then it might as well stand first.
    """
    found, kept, known = [], set(), set()
    for statement in statements(tokens(text)):
        declares = statement[0].text == "int"
        for part in parts(statement):
            if not part or part[0].kind != "name":
                return found
            name, value = part[0].text, [token.text for token in part[2:]]
            is_choice = value in ([CHOICE, "(", ")"], ["?"], ["[", "-", "inf", ",", "inf", "]"])
            known |= {name} if declares else set()
            if is_choice and name in known and name not in kept:
                first = part[1] if declares else part[0]
                end = part[-1].end if declares else text.index(";", part[-1].end) + 1
                old = text[first.offset:end]
                found.append(Change(first.offset, old, blank(old), f"{name} is an input", of=name))
            elif len(part) > 1:
                kept.update(token.text for token in part)
    return found
