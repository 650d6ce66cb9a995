#!/usr/bin/env python3
"""Runs the command on each program under examples/, with its formula where it has one, and sees that it prints the report beside it and ends with the status of its
verdict, and that it takes its words and tells refusals on standard error: ends with 1 and a line for each that it doesn't.

The command is built first where its binary is missing or older than a source.
"""
import subprocess
import sys
from pathlib import Path

TOP = Path(__file__).resolve().parent.parent

USAGE = "usage: function [--ctl TEXT] [--domain boxes|octagons|polyhedra] [--delay N] [--at TEXT] [--explain] [--demo N] [--fit] [--refine]\n"

# Words, a text, the status, what is written, and what standard error tells.
CALLS = [
    (["--help"], "int main() { }", 2, USAGE, "function: --help isn't an option\n"),
    (["--domain", "discs"], "int main() { }", 2, USAGE, "function: --domain takes boxes, octagons or polyhedra\n"),
    (["--ctl"], "int main() { }", 2, USAGE, "function: --ctl takes the text of a formula\n"),
    (["--explain", "--delay=9", "--json"], "int main() { }", 2, USAGE, "function: --delay=9 isn't an option\n"),
    (["--explain", "--delay", "3", "--delay", "3"], "int main() { }", 2, USAGE, "function: --delay can't stand beside the words before it\n"),
    (["--fit", "--delay", "3"], "int main() { }", 2, USAGE, "function: --delay can't stand beside the words before it\n"),
    (["--explain", "--demo", "3"], "", 2, USAGE, "function: --demo can't stand beside the words before it\n"),
    (["--at", "x = 5"], "int main() { int x; }", 2, USAGE, "function: --at takes a number for each variable of the program, each once, as x=1,y=-2\n"),
    (["--ctl", "EG z >= 1"], "int main() { int x; }", 4, "formula: 5 at 3\n", "function: --ctl:1:4: no variable has this name (5)\n  EG z >= 1\n     ^\n"),
    (["--ctl=-x >= 0", "--domain", "octagons"], "int main() { int x; }", 1,
     "proved:\n-x >= 0: holds\nunknown:\nx - 1 >= 0: unknown\nverdict: some inputs\n", ""),
    (["--delay", "0"], "int main() { int x; while (x > 0) x = x - 1; }", 0,
     "exact, 0 tests:\nproved:\n-x >= 0: within 1 step\nx - 1 >= 0: within 2*x + 1 steps\nunknown:\nverdict: all inputs\n", ""),
    (["--fit"], "int main() { int x; x = x + 1; }", 1,
     "fits:\n-x + 2147483646 >= 0 and x + 2147483648 >= 0: fits\nunknown:\n-x + 2147483647 >= 0 and x - 2147483647 >= 0: unknown\nverdict: some inputs\n", ""),
    (["--domain", "octagons"], "int main() { int x, y; y = ?; x = ?; if (x >= y) if (y >= 3) if (x < 3) while (?) ; }", 0,
     "exact: not a plain program\nproved:\nalways: within 5 steps\nunknown:\nverdict: all inputs\n", ""),
    ([], "int main() { @ }", 3, "program: 1 at 13\n", "function: <stdin>:1:14: no token of the language begins here (1)\n  int main() { @ }\n               ^\n"),
    ([], "int main() {\n\tint x; /* \u00e4 */ x = y;\r\n}", 3, "program: 5 at 34\n",
     "function: <stdin>:2:22: this name isn't declared here (5)\n  \tint x; /* \u00e4 */ x = y;\n  \t                   ^\n"),
    ([], "int main() { int x;\n  x = 1 \x1b[2J\n", 3, "program: 1 at 28\n", "function: <stdin>:2:9: no token of the language begins here (1)\n    x = 1 ?[2J\n          ^\n"),
    ([], "int main() { int x; " + "x = 0; " * 30 + "x = y; " + "x = 0; " * 30 + "}", 3, "program: 5 at 234\n",
     "function: <stdin>:1:235: this name isn't declared here (5)\n  " + ("x = 0; " * 14 + "x = ")[-100:] + ("y; " + "x = 0; " * 9)[:60] + "\n  " + " " * 100 + "^\n"),
    ([], " " * 65_537, 3, "program: 14 at 65536\n", "function: <stdin>:1:65537: the text goes on past 65,536 bytes (14)\n  " + " " * 101 + "\n  " + " " * 100 + "^\n"),
    ([], "int main() { int x; " + "x = 0; " * 1000 + "while (x > 0) x = x - 1; }", 0,
     "exact, 2 tests:\nalways: exactly 1001 steps\nproved:\nalways: within 1001 steps\nunknown:\nverdict: all inputs\n", ""),
]


def run(words, text):
    ended = subprocess.run([TOP / "function", *words], input=text, stdout=subprocess.PIPE, stderr=subprocess.PIPE, check=False)
    return ended.returncode, ended.stdout, ended.stderr


def main():
    subprocess.run([TOP / "function"], input=b"int main() { }", stdout=subprocess.DEVNULL, check=False)
    wrong = []
    for program in sorted((TOP / "examples").rglob("*.c")):
        report, asked = program.with_suffix(".report").read_bytes(), program.with_suffix(".ctl")
        words = ["--ctl", asked.read_text().strip()] if asked.exists() else []
        status = 0 if report.endswith(b"verdict: all inputs\n") else 1
        if run(words, program.read_bytes()) != (status, report, b""):
            wrong.append(f"{program.relative_to(TOP)}: another report or status")
    for words, text, status, written, told in CALLS:
        if run(words, text.encode()) != (status, written.encode(), told.encode()):
            wrong.append(f"{' '.join(words)} on {text[:60]}: another answer or status")
    print("\n".join(wrong), end="\n" if wrong else "")
    return 1 if wrong else 0


if __name__ == "__main__":
    sys.exit(main())
