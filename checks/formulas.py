#!/usr/bin/env python3
"""Looks for a program and a formula of CTL on which a printed claim is false, by an interpreter of both that knows nothing of the analysis.

    python3 checks/formulas.py [--cases N] [--seed S] [--command PATH]

It is no part of the gate. Programs and formulas are made at random from a seed. For each of some inputs the report has exactly one line that is met; where that line claims
something, the formula is worked out from the definitions over all next states, to a depth and a number of states, and where it is found to be false the case falls short: an
until within as many steps as the line says, any other formula as far as the depth tells. Of a `?` or a range without an end some numbers are tried, and only for formulas that
speak of all runs alone. It ends with 1 where something fell short, and counts beside that for how many inputs of programs without loops a formula that holds is claimed.
"""
import argparse
import random
import re
import subprocess
import sys

from fuzz import COMPARISONS, SECONDS, TOP, Maker, affine, met, sections

DEPTH = 40
MOST_STATES = 4000
LARGEST = 10**30


class TooMany(Exception):
    """More states, or larger numbers, than are looked at."""


# ---- programs

def has_loop(block):
    """Whether a loop stands in the block."""
    return any(s[0] in ("while", "do") or s[0] == "if" and (has_loop(s[2]) or has_loop(s[3])) for s in block)


def is_unbounded(tree):
    """Whether a number is chosen among infinitely many."""
    if isinstance(tree, (list, tuple)):
        if tuple(tree[:1]) == ("set",) and tree[2] == ("free",) or tuple(tree[:1]) == ("range",) and None in tree[1:]:
            return True
        if tuple(tree[:1]) in (("pair",), ("compare",), ("divide",)) and ("free",) in tree:
            return True
        return any(is_unbounded(part) for part in tree)
    return False


def values(tree, store):
    """The numbers that an expression may have; of infinitely many some."""
    kind, *parts = tree
    if kind == "number":
        return {parts[0]}
    if kind == "name":
        return {store[parts[0]]}
    if kind == "free":
        return {-100, -1, 0, 1, 7}
    if kind == "range":
        low = parts[0] if parts[0] is not None else (parts[1] or 0) - 3
        high = parts[1] if parts[1] is not None else low + 3
        return set(range(min(low, high), high + 1))
    if kind == "divide":
        found = set()
        for number in values(parts[1], store):
            quotient = abs(number) // abs(parts[2]) * (1 if (number < 0) == (parts[2] < 0) else -1)
            found.add(quotient if parts[0] == "/" else number - quotient * parts[2])
        return found
    both = [(a, b) for a in values(parts[1], store) for b in values(parts[2], store)]
    return {{"+": a + b, "-": a - b, "*": a * b}[parts[0]] for a, b in both}


def outcomes(tree, store):
    """The truth values that a test may have."""
    kind, *parts = tree
    if kind == "free":
        return {True, False}
    if kind == "truth":
        return {parts[0]}
    if kind == "not":
        return {not one for one in outcomes(parts[0], store)}
    if kind in ("and", "or"):
        both = [(a, b) for a in outcomes(parts[0], store) for b in outcomes(parts[1], store)]
        return {a and b if kind == "and" else a or b for a, b in both}
    return {COMPARISONS[parts[0]](a, b) for a in values(parts[1], store) for b in values(parts[2], store)}


def front(todo):
    """The list with what takes no step replaced: a `do` is its body and then its loop."""
    while todo and todo[0][0] == "do":
        todo = (*todo[0][2], ("again", todo[0][1], todo[0][2]), *todo[1:])
    return todo


def successors(state):
    """The next states; a final one has itself."""
    todo, store = state
    if not todo:
        return [state]
    (kind, *parts), rest = todo[0], todo[1:]
    if kind == "set":
        return [(front(rest), store[:parts[0]] + (value,) + store[parts[0] + 1:]) for value in sorted(values(parts[1], store))]
    if kind == "if":
        return [(front((*(parts[1] if one else parts[2]), *rest)), store) for one in sorted(outcomes(parts[0], store))]
    if kind in ("while", "again"):
        again = ("again", parts[0], parts[1])
        return [(front((*parts[1], again, *rest) if one else rest), store) for one in sorted(outcomes(parts[0], store))]
    if kind in ("break", "continue"):
        at = next(i for i, s in enumerate(rest) if s[0] == "again")
        return [(front(rest[at + (kind == "break"):]), store)]
    return [((), store) if kind == "return" else (front(rest), store)]


def frozen(tree):
    """The tree with tuples for lists, so that it is a key."""
    return tuple(map(frozen, tree)) if isinstance(tree, (list, tuple)) else tree


# ---- formulas, as trees

def normal(f, turned=False):
    """The normal form of a formula or of its negation."""
    kind, *parts = f
    if kind == "not":
        return normal(parts[0], not turned)
    if kind in ("const", "row", "exit"):
        return ("not", f) if turned else f
    if kind in ("and", "or"):
        return ({"and": "or", "or": "and"}[kind] if turned else kind, normal(parts[0], turned), normal(parts[1], turned))
    if kind == "next":
        return ("next", parts[0] != turned, normal(parts[1], turned))
    if not turned:
        return (kind, parts[0], normal(parts[1]), normal(parts[2]))
    refuted = normal(parts[2], True)
    return ({"until": "weak", "weak": "until"}[kind], not parts[0], refuted, ("and", normal(parts[1], True), refuted))


def asks_for_some(f):
    """Whether a normal form speaks of some run."""
    return f[0] in ("next", "until", "weak") and not f[1] or any(asks_for_some(part) for part in f[1:] if isinstance(part, tuple))


class Truth:
    """What formulas are worked out to be: true, false, or None where the depth doesn't tell."""

    def __init__(self, loops):
        self.loops, self.known, self.ahead = loops, {}, {}

    def of(self, f, state):
        key = (f, state)
        if key not in self.known:
            self.known[key] = self.worked_out(f, state)
        return self.known[key]

    def worked_out(self, f, state):
        kind, *parts = f
        if kind == "const":
            return parts[0]
        if kind == "row":
            return COMPARISONS[parts[0]](state[1][parts[1]], parts[2])
        if kind == "exit":
            return not state[0]
        if kind == "not":
            one = self.of(parts[0], state)
            return None if one is None else not one
        if kind in ("and", "or"):
            return together(kind == "and", [self.of(part, state) for part in parts])
        if kind == "next":
            return together(parts[0], [self.of(parts[1], one) for one in self.next(state)])
        found = self.within(f, DEPTH, state)
        # (without loops each run has ended by then, and stays)
        return None if self.loops and found is (kind == "weak") else found

    def next(self, state):
        if state not in self.ahead:
            if len(self.ahead) > MOST_STATES:
                raise TooMany
            self.ahead[state] = successors(state)
            if any(abs(number) > LARGEST for _, store in self.ahead[state] for number in store):
                raise TooMany
        return self.ahead[state]

    def within(self, f, steps, state):
        """An until or weak until by that many steps."""
        key = (f, steps, state)
        if key not in self.known:
            if len(self.known) > 60 * MOST_STATES:
                raise TooMany
            kind, every, keep, goal = f
            now = self.of(goal, state)
            if steps == 0:
                self.known[key] = True if kind == "weak" else now
            elif now is True:
                self.known[key] = True
            else:
                kept = self.of(keep, state)
                behind = False if kept is False else together(every, [self.within(f, steps - 1, one) for one in self.next(state)])
                self.known[key] = together(False, [now, together(True, [kept, behind])])
        return self.known[key]


def together(every, found):
    """Whether all, or some, of them are true."""
    if (not every) in found:
        return not every
    return None if None in found else every


# ---- cases

def inputs(dice, maker):
    """Some inputs."""
    return [tuple(dice.randint(-4, 6) for _ in maker.names) for _ in range(8)]


def case(number, seed, command, counts):
    """What falls short in a case, or None."""
    dice = random.Random(f"formulas {seed} {number}")
    maker = Maker(dice)
    maker.names = maker.names[:3]
    block, source = maker.program(functions=())
    text, tree = maker.formula(2)
    f = normal(tree)
    words = [f"--ctl={text}"]
    words += dice.choice([[], [], ["--delay", "0"], ["--delay", "4"], ["--domain", "octagons"]])
    try:
        ended = subprocess.run([command, *words], input=source.encode(), capture_output=True, timeout=SECONDS, check=False)
    except subprocess.TimeoutExpired:
        return source, words, f"no answer in {SECONDS} seconds"
    report = ended.stdout.decode()
    if ended.returncode not in (0, 1):
        return None if report.startswith(("program: ", "formula: 11 at 0")) else (source, words, f"status {ended.returncode} with {report[:60]!r}")
    if not report.startswith("proved:\n"):
        return source, words, "a report of a formula begins otherwise"
    if asks_for_some(f) and is_unbounded(block):
        return None
    lines = sections(report)[1]
    for store in inputs(dice, maker):
        named = dict(zip(maker.names, store))
        claims = met(lines, named)
        if len(claims) != 1:
            return source, words, f"{named} meets {claims}"
        why = broken(f, (front(frozen(block)), store), claims[0], named, counts, has_loop(block))
        if why:
            return source, words, why
    return None


def broken(f, state, claim, named, counts, loops):
    """Why the claim is false of the state, or None."""
    truth = Truth(loops)
    try:
        bound = re.fullmatch(r"within (.*) steps?", claim)
        if (bound is not None) != (f[0] == "until") and claim != "unknown":
            return f"{named}: a claim of another kind: {claim}"
        if bound:
            most = affine(bound.group(1), named)
            if most < 0 or most <= DEPTH and truth.within(f, most, state) is False:
                return f"{named}: false: {claim}"
            return None
        holds = truth.of(f, state)
        if claim == "holds" and holds is False:
            return f"{named}: false: {claim}"
        if not loops and holds:
            counts["true"] += 1
            counts["claimed"] += claim != "unknown"
    except (TooMany, RecursionError):
        pass
    return None


def main():
    asked = argparse.ArgumentParser()
    asked.add_argument("--cases", type=int, default=2000)
    asked.add_argument("--seed", default="0")
    asked.add_argument("--command", default=TOP / "crates/function_cli/out/function_cli")
    asked = asked.parse_args()
    counts = {"true": 0, "claimed": 0}
    found = [short for number in range(asked.cases) if (short := case(number, asked.seed, asked.command, counts))]
    for text, words, why in found:
        print(f"{why}\n  words {words}\n  text {text}")
    print(f"{asked.cases} cases, {len(found)} of them fall short; without loops {counts['claimed']} of {counts['true']} inputs at which a formula holds are claimed")
    return 1 if found else 0


if __name__ == "__main__":
    sys.exit(main())
