#!/usr/bin/env python3
"""Looks for a program, a damaged text, a formula or words on which the command crashes, hangs or answers out of form, or on which a run breaks a printed claim.

    python3 checks/fuzz.py [--cases N] [--seed S] [--command PATH]

It is no part of the gate. Texts are made at random from a seed: programs, half of them with functions, of which every third is damaged by a byte or two, rows of words of the language, bytes, and long
programs up to the limits and past them. Of the words of the command line some are none, and some have a formula, which may be damaged or long too. Each answer comes within
60 seconds and 8 MB of stack, it has a status with its text, and on standard error nothing but words on a refusal, with its line and column; a report has, for each of some inputs, exactly one line of `proved`, `ranked` and
`unknown` together and at most one of the exact part; and, of a program without a formula, some runs from the input, with what they choose made at random, end within each bound that
its lines claim. A second run of the command gives the same bytes. It ends with 1 where something fell short. What formulas mean is looked at by `formulas.py`, what `--fit` claims by `fitting.py`.
"""
import argparse
import random
import re
import resource
import subprocess
import sys
import time
from dataclasses import dataclass
from pathlib import Path

TOP = Path(__file__).resolve().parent.parent
USAGE = b"usage: function ["
NAMES = ["x", "y", "z", "n", "a_1"]
STACK = 8 * 2**20
PIECES = """int main ( ) { } ; , x y n = == + - * / % ++ -- += < <= > >= != ! && || if else while do for return break continue ? true false 0 1 2 9223372036854775807
9223372036854775808 [ ] inf -inf extern __VERIFIER_nondet_int void // /* */ & | @""".split()
FORMULA_PIECES = "A E U W AX EX AF EF AG EG [ ] ( ) ! && || x y n exit true false == != < <= > >= + - * 0 1 7 9223372036854775807 9223372036854775808 @ ; ?".split()
WORDS = ["--delay", "--domain", "--ctl", "--fit", "--refine", "0", "8", "9", "02", "-1", "boxes", "octagons", "polyhedra", "discs", "--help", "--", "-", "", "x", "--ctl=exit", "AF exit", "exit"]
COMPARISONS = {"<": int.__lt__, "<=": int.__le__, ">": int.__gt__, ">=": int.__ge__, "==": int.__eq__, "!=": int.__ne__}
SECONDS = 60
LONGEST_RUN = 2000
SHOWN = 2000


@dataclass(frozen=True)
class Function:
    """A function: whether it gives a value, its variables, the parameters first, the places of those declared without initialiser, and its statements."""

    name: str
    valued: bool
    names: list
    parameters: int
    free: list
    block: list


class Maker:
    """Makes programs, as trees of tuples, and their texts: `main`, or a function that calls some of those before it."""

    def __init__(self, dice, most=len(NAMES), callees=(), is_main=True):
        self.dice, self.callees, self.is_main = dice, list(callees), is_main
        self.names = NAMES[:dice.randint(1, most)]

    def number(self):
        return self.dice.choice([0, 1, 1, 2, 3, 5, 10, 100, 2**31, 2**63 - 1] if self.dice.random() < 0.05 else [0, 1, 1, 1, 2, 3, 7])

    def expression(self, depth):
        kind = self.dice.random()
        if depth == 0 or kind < 0.4:
            return self.dice.choice([("number", self.number()), ("name", self.dice.randrange(len(self.names)))])
        if kind < 0.45:
            return ("free",)
        if kind < 0.5:
            low = self.dice.randint(-5, 5)
            return ("range", self.dice.choice([None, low]), self.dice.choice([None, low + self.dice.randint(0, 5)]))
        if kind < 0.57:
            return ("divide", self.dice.choice("/%"), self.expression(depth - 1), self.dice.choice([-3, -1, 1, 2, 2, 3, 10]))
        return ("pair", self.dice.choice("+++---*"), self.expression(depth - 1), self.expression(depth - 1))

    def test(self, depth):
        kind = self.dice.random()
        if depth and kind < 0.25:
            return (self.dice.choice(["and", "or"]), self.test(depth - 1), self.test(depth - 1))
        if depth and kind < 0.3:
            return ("not", self.test(depth - 1))
        if kind < 0.4:
            return ("free",)
        if kind < 0.43:
            return ("truth", self.dice.random() < 0.5)
        return ("compare", self.dice.choice(list(COMPARISONS)), self.expression(1), self.expression(1))

    def statement(self, depth, in_loop):
        kind = self.dice.random()
        if depth and kind < 0.2:
            return ("if", self.test(1), self.block(depth - 1, in_loop), self.block(depth - 1, in_loop))
        if depth and kind < 0.4:
            return (self.dice.choice(["while", "do"]), self.test(1), self.block(depth - 1, True))
        if kind < 0.45:
            return self.dice.choice([("skip",)] + [("return",)] * self.is_main + [("break",), ("continue",)] * in_loop)
        if self.callees and kind < 0.6:
            return self.call(self.dice.choice(self.callees))
        if kind < 0.7:
            place = self.dice.randrange(len(self.names))
            return ("set", place, ("pair", self.dice.choice("+--"), ("name", place), ("number", self.dice.choice([1, 1, 2]))))
        return ("set", self.dice.randrange(len(self.names)), self.expression(2))

    def call(self, function):
        target = self.dice.randrange(len(self.names)) if function.valued and self.dice.random() < 0.8 else None
        return ("call", target, function, [self.expression(1) for _ in range(function.parameters)])

    def block(self, depth, in_loop):
        return [self.statement(depth, in_loop) for _ in range(self.dice.randint(0, 3))]

    def closing(self, valued, returns, depth):
        """Statements that end a function, by a `return` on each way where it gives a value or they have to return."""
        before, kind = [self.statement(1, False) for _ in range(self.dice.randint(0, 1))], self.dice.random()
        if depth and kind < 0.3:
            return [*before, ("if", self.test(1), self.closing(valued, returns, depth - 1), self.closing(valued, returns, depth - 1))]
        if depth and kind < 0.6:
            return [*before, ("guard", self.test(1), self.closing(valued, True, depth - 1)), *self.closing(valued, returns, depth - 1)]
        if valued:
            return [*before, ("give", self.expression(1))]
        return [*before, *[("give", None)] * (returns or self.dice.random() < 0.5)]

    def function(self, name):
        valued, parameters = self.dice.random() < 0.6, self.dice.randint(0, len(self.names))
        free = [place for place in range(parameters, len(self.names)) if self.dice.random() < 0.5]
        first = [("declare", place, ("number", self.number())) for place in range(parameters, len(self.names)) if place not in free]
        return Function(name, valued, self.names, parameters, free, first + self.closing(valued, False, 2))

    def text(self, tree):
        kind, *parts = tree
        if kind in ("number", "name", "free", "truth"):
            return {"number": lambda n: str(n), "name": lambda i: self.names[i], "free": lambda: "?", "truth": lambda t: str(t).lower()}[kind](*parts)
        if kind == "range":
            return f"[{'-inf' if parts[0] is None else parts[0]}, {'inf' if parts[1] is None else parts[1]}]"
        if kind == "divide":
            return f"({self.text(parts[1])}) {parts[0]} {parts[2]}"
        if kind in ("pair", "compare"):
            return f"({self.text(parts[1])} {parts[0]} {self.text(parts[2])})"
        if kind in ("and", "or"):
            return f"({self.text(parts[0])} {'&&' if kind == 'and' else '||'} {self.text(parts[1])})"
        return f"!{self.text(parts[0])}" if kind == "not" else self.statement_text(kind, parts)

    def statement_text(self, kind, parts):
        if kind in ("set", "declare"):
            return f"{'int ' * (kind == 'declare')}{self.names[parts[0]]} = {self.text(parts[1])};"
        if kind == "call":
            return f"{'' if parts[0] is None else self.names[parts[0]] + ' = '}{parts[1].name}({', '.join(map(self.text, parts[2]))});"
        if kind == "give":
            return "return;" if parts[0] is None else f"return {self.text(parts[0])};"
        if kind == "guard":
            return f"if ({self.text(parts[0])}) {self.block_text(parts[1])}"
        if kind == "if":
            return f"if ({self.text(parts[0])}) {self.block_text(parts[1])} else {self.block_text(parts[2])}"
        if kind == "while":
            return f"while ({self.text(parts[0])}) {self.block_text(parts[1])}"
        if kind == "do":
            return f"do {self.block_text(parts[1])} while ({self.text(parts[0])});"
        return ";" if kind == "skip" else f"{kind};"

    def block_text(self, block):
        return "{ " + " ".join(map(self.text, block)) + " }"

    def function_text(self, function):
        parameters = ", ".join(f"int {name}" for name in function.names[:function.parameters])
        free = "".join(f"int {function.names[place]}; " for place in function.free)
        return f"{'int' if function.valued else 'void'} {function.name}({parameters}) {{ {free}{' '.join(map(self.text, function.block))} }} "

    def program(self, functions=("f", "g")):
        """A program that has some of these functions, in half of the cases: the statements of `main`, and the text."""
        texts = []
        for name in functions[:self.dice.choice([0, 0, 1, 2])]:
            maker = Maker(self.dice, 3, self.callees, False)
            self.callees.append(maker.function(name))
            texts.append(maker.function_text(self.callees[-1]))
        block = [self.statement(2, False) for _ in range(self.dice.randint(1, 5))]
        return block, f"{''.join(texts)}int main() {{ int {', '.join(self.names)}; {' '.join(map(self.text, block))} }}"

    def long_program(self):
        """A program of one part many times over, at the limits or near them, as a text."""
        times = self.dice.choice([15, 16, 62, 63, 64, 65, 255, 256, 257, 340, 1021, 1022, 1023, 1024, 9000])
        body = {
            "in a row": lambda: "{ x = x - 1; " + "; " * times + "}",
            "nested": lambda: f"{self.dice.choice(['if (x > 0) ', 'while (x > 0) ', '{ ', 'if (?) ; else '])}" * times + "x = x - 1;",
            "a sum": lambda: "x = x" + self.dice.choice([" + y", " - 1", " * 2"]) * times + ";",
            "a test": lambda: "while (x > 0" + self.dice.choice([" && y != 1", " || y > 2", " && x > y"]) * (times % 9) + ") x = x - 1;",
            "in a loop": lambda: "while (x > 0) { " + self.dice.choice(["x = x - 1; ", "if (?) x = x - 1; ", "y = y + x; "]) * (times % 70) + "}",
            "loops": lambda: self.dice.choice(["while (x > 0) x = x - 1; ", "do x = x + 1; while (x < 9); "]) * (times % 25),
            "names": lambda: f"int {', '.join(f'v{i}' for i in range(times))};",
        }
        return f"int main() {{ int x, y; {body[self.dice.choice(list(body))]()} }}"

    def formula(self, depth):
        """A formula, as a text and as a tree."""
        kind = self.dice.random()
        if depth == 0 or kind < 0.25:
            if self.dice.random() < 0.25:
                return self.dice.choice([("exit", ("exit",)), ("true", ("const", True)), ("!exit", ("not", ("exit",)))])
            op, place, number = self.dice.choice(list(COMPARISONS)), self.dice.randrange(len(self.names)), self.dice.randint(-2, 4)
            return f"{self.names[place]} {op} {number}", ("row", op, place, number)
        if kind < 0.4:
            (a, f), (b, g), op = self.formula(depth - 1), self.formula(depth - 1), self.dice.choice(["and", "or"])
            return f"({a} {'&&' if op == 'and' else '||'} {b})", (op, f, g)
        if kind < 0.5:
            a, f = self.formula(depth - 1)
            return f"!({a})", ("not", f)
        every = self.dice.random() < 0.6
        mark = "A" if every else "E"
        a, f = self.formula(depth - 1)
        if kind < 0.6:
            return f"{mark}X ({a})", ("next", every, f)
        if kind < 0.75:
            return f"{mark}F ({a})", ("until", every, ("const", True), f)
        if kind < 0.88:
            return f"{mark}G ({a})", ("weak", every, f, ("const", False))
        b, g = self.formula(depth - 1)
        op = self.dice.choice("UW")
        return f"{mark}[{a} {op} {b}]", ("until" if op == "U" else "weak", every, f, g)

    def long_formula(self):
        """A formula of one part many times over, at the limits or near them, as a text."""
        times, part = self.dice.choice([5, 6, 7, 31, 32, 63, 64, 65]), self.formula(0)[0]
        return self.dice.choice([
            lambda: "&&".join([part] * times),
            lambda: " || ".join([f"AX {part}"] * times),
            lambda: self.dice.choice(["AX ", "EF ", "!", "AG "]) * times + f"({part})",
            lambda: f"!A[{part} U " * (times % 8) + part + "]" * (times % 8),
            lambda: "(" * times + part + ")" * times,
            lambda: f"x{' + x' * times} >= 0",
            lambda: part + " " * self.dice.choice([4000, 4096, 4097, 9000]),
        ])()


class Jump(Exception):
    """A break, a continue or a return on its way, or a run that is longer than it may be."""


class Run:
    """One run of a program, which counts its steps and chooses at random."""

    def __init__(self, dice, store, most):
        self.dice, self.store, self.left = dice, list(store), most

    def step(self):
        if self.left == 0:
            raise Jump("long")
        self.left -= 1

    def value(self, tree):
        kind, *parts = tree
        if kind == "number":
            return parts[0]
        if kind == "name":
            return self.store[parts[0]]
        if kind == "free":
            return self.dice.choice([-10**20, -7, -1, 0, 1, 2, 9, 10**20])
        if kind == "range":
            low = parts[0] if parts[0] is not None else (parts[1] or 0) - self.dice.choice([0, 1, 50])
            high = parts[1] if parts[1] is not None else low + self.dice.choice([0, 1, 50])
            return self.dice.randint(min(low, high), high)
        if kind == "divide":
            number = self.value(parts[1])
            quotient = abs(number) // abs(parts[2]) * (1 if (number < 0) == (parts[2] < 0) else -1)
            return quotient if parts[0] == "/" else number - quotient * parts[2]
        left, right = self.value(parts[1]), self.value(parts[2])
        return {"+": left + right, "-": left - right, "*": left * right}[parts[0]]

    def holds(self, tree):
        kind, *parts = tree
        if kind == "free":
            return self.dice.random() < 0.5
        if kind == "truth":
            return parts[0]
        if kind == "not":
            return not self.holds(parts[0])
        if kind in ("and", "or"):
            both = [self.holds(part) for part in parts]
            return all(both) if kind == "and" else any(both)
        return COMPARISONS[parts[0]](self.value(parts[1]), self.value(parts[2]))

    def asks(self, test):
        self.step()
        return self.holds(test)

    def block(self, block):
        for statement in block:
            self.statement(*statement)

    def statement(self, kind, *parts):
        if kind in ("if", "guard"):
            if self.asks(parts[0]):
                self.block(parts[1])
            elif kind == "if":
                self.block(parts[2])
        elif kind in ("while", "do"):
            self.loop(kind, *parts)
        elif kind == "call":
            self.call(*parts)
        else:
            self.step()
            if kind == "give":
                raise Jump(kind, parts[0] and self.value(parts[0]))
            if kind in ("set", "declare"):
                value = self.value(parts[1])
                self.store[parts[0]] = value
            elif kind != "skip":
                raise Jump(kind)

    def call(self, target, function, arguments):
        """A call, with a store of its own: a step for each parameter, and for each variable that is any number at first."""
        store = [0] * len(function.names)
        for place, argument in enumerate(arguments):
            self.step()
            store[place] = self.value(argument)
        for place in function.free:
            self.step()
            store[place] = self.value(("free",))
        outer, self.store = self.store, store
        try:
            self.block(function.block)
        except Jump as jump:
            if jump.args[0] != "give":
                raise
            if target is not None:
                outer[target] = jump.args[1]
        self.store = outer

    def loop(self, kind, test, body):
        asked = kind == "do" or self.asks(test)
        while asked:
            try:
                self.block(body)
            except Jump as jump:
                if jump.args[0] == "break":
                    return
                if jump.args[0] != "continue":
                    raise
            asked = self.asks(test)

    def ends(self, block):
        """Whether it ends within the steps that it may take."""
        try:
            self.block(block)
        except Jump as jump:
            return jump.args[0] != "long"
        return True


def affine(text, store):
    """The value of a printed affine function."""
    total = 0
    for sign, size, name in re.findall(r"(?:^|([+-]) )(-?\d*)\*?([A-Za-z_][\w.]*)?", text):
        if size or name:
            number = -1 if size == "-" else int(size or 1)
            total += (-number if sign == "-" else number) * (store[name] if name else 1)
    return total


def sections(report):
    """The lines of the exact part, and those of the other sections together."""
    lines = report.split("\n")
    proved, unknown = lines.index("proved:"), lines.index("unknown:")
    return lines[1:proved], [line for line in lines[proved + 1:unknown] if line != "ranked:"] + lines[unknown + 1:-2]


def met(lines, store):
    """The claims of the lines whose conditions the input meets."""
    claims = []
    for line in lines:
        condition, _, claim = line.partition(": ")
        if condition == "always" or all(affine(row.removesuffix(" >= 0"), store) >= 0 for row in condition.split(" and ")):
            claims.append(claim)
    return claims


class Store(dict):
    """An input, whose numbers are chosen when they are asked for."""

    def __init__(self, dice):
        super().__init__()
        self.dice = dice

    def __missing__(self, name):
        self[name] = self.dice.choice([-10**12, -9, -2, -1, 0, 1, 2, 3, 9, 40, 10**12])
        return self[name]


def broken(report, dice, maker, block):
    """What is wrong with a report, or None; of a program whose statements are given also with its bounds."""
    exact, others = sections(report)
    for _ in range(8):
        store = Store(dice)
        numbers = [store[name] for name in maker.names]
        first, second = met(exact, store), met(others, store)
        if len(first) > 1 or len(second) != 1:
            return f"{dict(store)} meets {first} and {second}"
        for claim in first + second:
            bound = re.fullmatch(r"(?:exactly|within) (.*) steps?", claim)
            most = affine(bound.group(1), store) if bound else -1
            ranks = re.fullmatch(r"ends, rank w\*\((.*)\) \+ (.*)", claim)
            if bound and most < 0 or ranks and any(affine(part, store) < 0 for part in ranks.groups()):
                return f"{dict(store)}: {claim} is below 0"
            if bound and block is not None and most <= LONGEST_RUN and not all(Run(dice, numbers, most).ends(block) for _ in range(4)):
                return f"{dict(store)}: a run takes more than {most} steps"
    return None


def are_refused(words):
    """Whether the words are none of the command line: options, each at most once, with their values, all of them text. A value is the next word,
    unless that begins with a hyphen and has more than it, or stands behind `=`; a lone `--` ends the options. `--refine` and `--fit` have no
    value; `--ctl` doesn't stand with `--refine`, and with `--fit` nothing but `--domain` does."""
    asked = {b"--domain": [b"boxes", b"octagons", b"polyhedra"], b"--delay": [b"%d" % number for number in range(9)], b"--ctl": None, b"--refine": [], b"--fit": []}
    given = set()
    try:
        b" ".join(words).decode()
    except UnicodeDecodeError:
        return True
    while words:
        word, *words = words
        if word == b"--":
            return bool(words) or are_apart(given)
        name, is_given, value = word.partition(b"=")
        if name not in asked:
            return True
        given.add(name)
        if name in (b"--refine", b"--fit") and not is_given:
            asked.pop(name)
            continue
        if not is_given:
            if not words or words[0].startswith(b"-") and words[0] != b"-":
                return True
            value, *words = words
        values = asked.pop(name)
        if values is not None and value not in values:
            return True
    return are_apart(given)


def are_apart(given):
    """Whether two of these options don't stand together."""
    return given >= {b"--ctl", b"--refine"} or (b"--fit" in given and bool(given - {b"--fit", b"--domain"}))


def formula_in(words):
    """The formula among words that aren't refused."""
    for at, word in enumerate(words):
        if word == b"--ctl":
            return words[at + 1]
        if word.startswith(b"--ctl="):
            return word.removeprefix(b"--ctl=")
    return None


def out_of_form(words, text, formula, ended):
    """What is wrong with a status and what was written for it, or None."""
    status, written = ended.returncode, ended.stdout
    if bool(ended.stderr) == (status in (0, 1)) or (ended.stderr and not ended.stderr.startswith(b"function: ")):
        return f"status {status}, and {ended.stderr[:60]!r} on standard error"
    if are_refused(words):
        return None if (status, written[:len(USAGE)], written[-1:]) == (2, USAGE, b"\n") else "refused words without the usage line"
    if status in (0, 1):
        verdict = b"verdict: all inputs\n" if status == 0 else b"verdict: some inputs\n"
        if not written.startswith(b"fits:\n" if b"--fit" in words else b"exact" if formula is None else b"proved:\n"):
            return "a report that begins otherwise"
        return None if written.endswith(b"\n" + verdict) else "a status without its verdict"
    kind, most = (b"program", len(text)) if status == 3 else (b"formula", len(formula or b""))
    fault = re.fullmatch(kind + rb": (\d+) at (\d+)\n", written) if status in (3, 4 if formula is not None else 3) else None
    if not fault or int(fault.group(2)) > most:
        return f"status {status} with {written[:60]!r}"
    name, refused = (b"<stdin>", text) if status == 3 else (b"--ctl", formula)
    before = refused[:int(fault.group(2))]
    place = b"function: %s:%d:%d: " % (name, before.count(b"\n") + 1, len(before) - before.rfind(b"\n"))
    return None if ended.stderr.startswith(place) else f"{place!r} isn't told on standard error: {ended.stderr[:60]!r}"


def damaged(text, dice, pieces):
    """The text with a byte or two taken out, put in or changed, or a piece put in."""
    for _ in range(dice.randint(1, 2)):
        place, byte = dice.randrange(len(text) + 1), dice.choice([bytes([dice.randrange(1, 256)]), dice.choice(pieces).encode()])
        text = text[:place] + dice.choice([byte, b"", byte + text[place:place + 1]]) + text[place + 1:]
    return text


def formula_of(maker, dice):
    """The bytes of a formula, or of what is none."""
    kind = dice.random()
    if kind < 0.05:
        return " ".join(dice.choice(FORMULA_PIECES) for _ in range(dice.randint(0, 12))).encode()
    text = (maker.long_formula() if kind < 0.1 else maker.formula(dice.randint(0, 3))[0]).encode()
    return damaged(text, dice, FORMULA_PIECES) if kind > 0.8 else text


def words_of(maker, dice):
    """Some words, and the formula among them."""
    if dice.random() < 0.04:
        words = [dice.choice(WORDS).encode() for _ in range(dice.randint(1, 5))]
        return words, None if are_refused(words) else formula_in(words)
    if dice.random() < 0.1:
        return [b"--fit", *([b"--domain", dice.choice([b"boxes", b"octagons", b"polyhedra"])] if dice.random() < 0.4 else [])], None
    formula = formula_of(maker, dice) if dice.random() < 0.4 else None
    options = [[b"--ctl=" + formula] if formula.startswith(b"-") else [b"--ctl", formula]] if formula is not None else []
    if dice.random() < 0.4:
        options.append([b"--domain", dice.choice([b"boxes", b"octagons", b"polyhedra"])])
    if dice.random() < 0.3:
        options.append([b"--delay", str(dice.randint(0, 4)).encode()])
    if formula is None and dice.random() < 0.2:
        options.append([b"--refine"])
    dice.shuffle(options)
    return [word for option in options for word in option], formula


def text_of(number, maker, dice):
    """The statements of a program, where it is one that wasn't damaged, and the bytes of the text."""
    if number % 100 == 1:
        return None, bytes(dice.randrange(256) for _ in range(dice.choice([0, 1, 10, 100, 70000])))
    if number % 25 == 2:
        return None, " ".join(dice.choice(PIECES) for _ in range(dice.randint(0, 80))).encode()
    if number % 25 == 7:
        text = maker.long_program().encode()
        return None, damaged(text, dice, PIECES) if dice.random() < 0.3 else text
    block, source = maker.program()
    return (None, damaged(source.encode(), dice, PIECES)) if number % 3 == 0 else (block, source.encode())


def case(number, seed, command):
    """What falls short in a case, or None."""
    dice = random.Random(f"{seed} {number}")
    maker = Maker(dice)
    block, text = text_of(number, maker, dice)
    words, formula = words_of(maker, dice)
    try:
        ended, again = [subprocess.run([command, *words], input=text, capture_output=True, timeout=SECONDS, check=False) for _ in range(2)]
    except subprocess.TimeoutExpired:
        return text, words, f"no answer in {SECONDS} seconds"
    why = out_of_form(words, text, formula, ended)
    if (ended.returncode, ended.stdout) != (again.returncode, again.stdout):
        why = "two answers"
    if not why and ended.returncode in (0, 1) and b"--fit" not in words:
        why = broken(ended.stdout.decode(), dice, maker, block if formula is None else None)
    return (text, words, why) if why else None


def main():
    asked = argparse.ArgumentParser()
    asked.add_argument("--cases", type=int, default=2000)
    asked.add_argument("--seed", default="0")
    asked.add_argument("--command", default=TOP / "crates/function_cli/out/function_cli")
    asked = asked.parse_args()
    resource.setrlimit(resource.RLIMIT_STACK, (STACK, STACK))
    found, slowest = 0, (0, 0)
    for number in range(asked.cases):
        begun = time.monotonic()
        short = case(number, asked.seed, asked.command)
        slowest = max(slowest, (time.monotonic() - begun, number))
        if short:
            found += 1
            text, words, why = short
            print(f"case {number}: {why}\n  words {str(words)[:SHOWN]}\n  text {text.decode(errors='replace')[:SHOWN]}", flush=True)
    print(f"{asked.cases} cases, {found} of them fall short; the slowest is {slowest[1]}, with {slowest[0]:.1f} s for both runs")
    return 1 if found else 0


if __name__ == "__main__":
    sys.exit(main())
