#!/usr/bin/env python3
"""Runs the largest programs and trees in 8 MB of stack, and lists the functions that recurse, with the stack that a call of each takes.

    python3 checks/stack.py [--least] [--frames] [--command PATH] [--cases PATH]

It is no part of the gate. The programs are such as have the most statements, the deepest nesting or the longest expressions that are read; the trees are the lines of
`long_tests`, which `cases_cli` is told as files. Each is run as every compiler built the programs, with the largest stack that a machine commonly gives, and has to end as it
does with more. With `--least` it looks for the least stack that each run needs, and with `--frames` it lists, by `objdump`, the cycles of calls in the command: for each
function the bytes of one call. It ends with 1 where a run ends otherwise.
"""
import argparse
import math
import re
import resource
import subprocess
import sys
import tempfile
from pathlib import Path

TOP = Path(__file__).resolve().parent.parent
LONG_TESTS = TOP / "crates/long_tests/src/trees.rt"
STACK = 8 * 2**20
MOST = 512 * 2**20
SECONDS = 300


def tests_of_many_rows(tests, rows):
    """Tests in a row, each of so many rows, of which no two have the same linear part: so a tree has a line of them all."""
    parts = (f"{a}*x > {total - a}*y" for total in range(2, 200) for a in range(1, total) if math.gcd(a, total - a) == 1)
    return " ".join(f"if ({' || '.join(next(parts) for _ in range(rows))}) return;" for _ in range(tests))


PROGRAMS = [
    ("1,023 skips", [], "; " * 1023),
    ("65,000 skips", [], ";" * 65000),
    ("1,000 assignments", [], "x = x + 1; " * 1000),
    ("340 tests in a row", [], " ".join(f"if (x > {k}) y = {k};" for k in range(340))),
    ("340 tests of two variables", [], " ".join(f"if (x > {k}*y) z = {k};" for k in range(340))),
    ("62 tests in each other", [], "if (x > y) " * 62 + "x = 1;"),
    ("63 blocks in each other", [], "{" * 63 + "x = 1;" + "}" * 63),
    ("60 loops in each other", [], "while (x > y) " * 60 + "x = x - 1;"),
    ("250 loops in a row", [], "while (x > 0) x = x - 1; " * 250),
    ("a sum of 257", [], "x = x" + " + y" * 256 + ";"),
    ("60 parentheses in each other", [], "x = " + "(" * 60 + "x" + ")" * 60 + ";"),
    ("60 signs in front of a name", [], "x = " + "- " * 60 + "x;"),
    ("1,000 assignments in front of a loop", [], "y = 0; " * 1000 + "while (x > 0) x = x - 1;"),
    ("a loop of 1,000 assignments", [], "while (x > 0) { x = x - 1; " + "y = y; " * 999 + "}"),
    ("a loop of 1,000 sums", [], "while (x > 0) { x = x + y; " + "y = y; " * 999 + "}"),
    ("a formula of 64 signs", ["--ctl", "!" * 63 + "exit"], "x = 1;"),
    ("a formula of 63 nexts", ["--ctl", "AX " * 63 + "exit"], "x = 1;"),
    ("a formula of 64 conjunctions", ["--ctl", "&&".join(["true"] * 65)], "x = 1;"),
    ("200 assignments on some way", ["--ctl", "EF x > 5"], "x = x + 1; " * 200),
    ("200 assignments on every way", ["--ctl", "AG x > 5"], "x = x + 1; " * 200),
    ("a line of 2,048 rows on every way", ["--ctl", "AF x > 7"], tests_of_many_rows(32, 64) + " x = x + 1;"),
]


def run(words, text, stack):
    """How a run with that much stack ends: its status and what it wrote."""
    def limit():
        resource.setrlimit(resource.RLIMIT_STACK, (stack, stack))
    ended = subprocess.run(words, input=text, capture_output=True, timeout=SECONDS, preexec_fn=limit, check=False)
    return ended.returncode, ended.stdout


def least(words, text, wanted):
    """The least stack with which the run ends so, up to a tenth."""
    low, high = 2**16, MOST
    while high > low * 1.1:
        between = int((low * high) ** 0.5)
        low, high = (low, between) if run(words, text, between) == wanted else (between, high)
    return high


def long_cases():
    """The calls of `long_tests` with their answers."""
    source = LONG_TESTS.read_text()
    for call, answer in re.findall(r'\(\s*"([^"]*)",\s*"([^"]*)",?\s*\)', source):
        call = call.replace("LONGEST", "line SIDE 32767 x - k >= 0 beside end k").replace("LONGER", "line SIDE 32768 x - k >= 0 beside end k")
        for side in ["yes", "no"] if "SIDE" in call else [""]:
            yield call.replace("SIDE", side), answer


def runs(command, cases, folder):
    """A name, the statuses that it may have, the words and the text of each run."""
    for built in built_of(command):
        for name, words, statements in PROGRAMS:
            yield f"{built.name}: {name}", (0, 1, 3), [built, *words], f"int main() {{ int x, y, z; {statements} }}".encode()
    for built in built_of(cases):
        for number, (call, answer) in enumerate(long_cases()):
            file = folder / f"{number}.cases"
            file.write_text(f"{call}\n    {answer}\n")
            yield f"{built.name}: {call}", (0,), [built, file], b""


def built_of(program):
    """The program as each compiler built it."""
    return [built for built in (Path(program), Path(f"{program}.by-rattle")) if built.exists()]


def frames(program):
    """For each function of a program the bytes of stack that a call takes, and the functions that it calls."""
    taken, calls, name, probed = {}, {}, None, False
    for line in subprocess.run(["objdump", "-d", "--no-show-raw-insn", "-M", "intel", program], capture_output=True, text=True, check=True).stdout.splitlines():
        if begun := re.match(r"[0-9a-f]+ <(.*)>:$", line):
            name = begun.group(1)
            taken[name], calls[name] = 8, set()
        elif name and (did := re.match(r"\s*[0-9a-f]+:\s+(\S+)\s*(.*)", line)):
            action, on = did.groups()
            # (a large frame is taken in a loop down to r11, of which one round is written)
            if action == "lea" and (whole := re.match(r"r11,\[rsp-0x([0-9a-f]+)\]", on)):
                taken[name] += int(whole.group(1), 16)
                probed = True
            elif action == "sub" and on.startswith("rsp,0x"):
                taken[name] += 0 if probed else int(on.split(",")[1], 16)
                probed = False
            taken[name] += 8 if action == "push" else 0
            if action in ("call", "jmp") and (to := re.search(r"<(.*)>$", on)):
                to = re.sub(r"\+0x[0-9a-f]+$", "", to.group(1))
                calls[name] |= {to} if action == "call" or to != name else set()
    return taken, calls


def cycles(calls):
    """The sets of functions that call each other round about."""
    reached = {}
    for name in calls:
        found, left = set(), [name]
        while left:
            new = [to for to in calls.get(left.pop(), ()) if to not in found and to in calls]
            found.update(new)
            left += new
        reached[name] = found
    return {frozenset(to for to in reached[name] if name in reached[to]) for name in calls if name in reached[name]}


def main():
    asked = argparse.ArgumentParser()
    asked.add_argument("--least", action="store_true")
    asked.add_argument("--frames", action="store_true")
    asked.add_argument("--command", default=TOP / "crates/function_cli/out/function_cli")
    asked.add_argument("--cases", default=TOP / "crates/cases_cli/out/cases_cli")
    asked = asked.parse_args()
    short, count = 0, 0
    with tempfile.TemporaryDirectory() as folder:
        for name, statuses, words, text in runs(asked.command, asked.cases, Path(folder)):
            count += 1
            wanted = run(words, text, MOST)
            fits = wanted[0] in statuses and run(words, text, STACK) == wanted
            short += not fits
            need = f", needs {least(words, text, wanted) / 2**20:.1f} MB" if asked.least and wanted[0] in statuses else ""
            if need or not fits:
                print(f"{name}: status {wanted[0]}{'' if fits else ', but not so in 8 MB'}{need}", flush=True)
    for program in built_of(asked.command) if asked.frames else []:
        taken, calls = frames(program)
        for cycle in sorted(cycles(calls), key=lambda cycle: -sum(taken[name] for name in cycle)):
            print(f"{program.name}: {sum(taken[name] for name in cycle)}: " + ", ".join(f"{name} {taken[name]}" for name in sorted(cycle)))
    print(f"{count} runs, {short} of them end otherwise in 8 MB")
    return 1 if short else 0


if __name__ == "__main__":
    sys.exit(main())
