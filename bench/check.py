#!/usr/bin/env python3
"""Times the check of families of trees: milliseconds of processor time, and ratios to a tenth as many labels and to a copy of a tree with as many nodes.

    python3 bench/check.py [PROGRAM]

PROGRAM is the built program, crates/cases_cli/out/cases_cli by default (`rt run -- data/numbers` in crates/cases_cli builds it). A family is for a line of
100 or 1,000 labels, each but the end with an assignment and a tree of one row and two leaves. `check` drops nothing;
in `fall` a claim at the end is wrong, and all the others that rest on it fall in one round. What it takes to read the program and the family, and to check as many
leaves of what is true everywhere, is left out. At last a loop of three labels has trees of 100 or 400 leaves, one for each value of its variable, of which each
round drops one a label. Nothing is asserted of times: machines differ and are shared.
"""
import sys

from timing import cases, copying, milliseconds, told_of

# Where the truth holds, and where the end is.
PARTS = "with all atom 0 with at 0 end 0"


# Each job, with how many steps the claim at the end promises where x is at most 0, and how many leaves of so many labels are dropped.
JOBS = {"check": (1, lambda labels: 0), "fall": (0, lambda labels: 2 * labels - 3)}


def beyond(program, body, family, rest, dropped, times):
    """What it takes to check the family beyond the rest, a family for what is true everywhere."""
    told, _, _ = told_of(program, f"check all true until exit over {body} {PARTS} claims {family}\n")
    if told.count("gives up") != dropped:
        sys.exit(f"not {dropped} leaves dropped: {told[-1000:]}")
    answer = "nothing is given up" if dropped == 0 else told[told.index("gives up"):].splitlines()[0]
    whole = milliseconds(program, f"first all true until exit over {body} {PARTS} claims {family}", answer, times)
    return whole - milliseconds(program, f"first true over {body} {PARTS} claims {rest}", "nothing is given up", times)


def checking(program, job, labels):
    """What the job takes at so many labels. Where x is at most 0 the rank is the number of steps to the end, and else x more."""
    last, dropped = JOBS[job]
    body = "int x; " + "x = x - 1; " * (labels - 1)
    family = [f"at {labels - steps} x - 1 >= 0 ? step x + {steps} : step {last if steps == 1 else steps}" for steps in range(1, labels)]
    rest = [f"at {label} x - 1 >= 0 ? atom x - x : atom 0" for label in range(1, labels)]
    return beyond(program, body, " ".join(["at 0 now 0", *family]), " ".join(["at 0 atom 0", *rest]), dropped(labels), 5000 // labels)


def falling(program, leaves):
    """What one check takes whose leaves fall one by one. Of those of the two labels of the loop all fall but the one to which no store comes."""
    rows = f"line no {leaves - 1} x - k >= 0 beside"
    family = f"at 0 now 0 at 1 {rows} step 2*x + 1 then step 0 at 2 {rows} step 2*x then step 0"
    rest = f"at 0 atom 0 at 1 {rows} atom 0 then atom 0 at 2 {rows} atom 0 then atom 0"
    return beyond(program, "int x; while (x > 0) x = x - 1;", family, rest, 2 * leaves - 1, 5)


def main():
    program = cases()
    copy = copying(program, "line no 1500 x - k >= 0 beside end 0 then nothing", 50)
    print("job      100 labels (ms)   1,000 labels (ms)   ratio   1,000 / copy")
    for job in JOBS:
        few, many = checking(program, job, 100), checking(program, job, 1000)
        print(f"{job:6}   {few:15.3f}   {many:17.3f}   {many / few:5.1f}   {many / copy:12.1f}", flush=True)
    few, many = falling(program, 100), falling(program, 400)
    print(f"leaves that fall one by one: {few:.0f} ms at 100, {many / few:.1f} times as much at 400")
    return 0


if __name__ == "__main__":
    sys.exit(main())
