#!/usr/bin/env python3
"""Prints, for four kinds of programs that grow and that need ranks by linear programs, the time of the built command divided by that for the smallest of the kind, by that for the one before,
and by that of the same program with `--delay 1`, for which no linear program is asked.

Each ratio is one of medians over several runs, less the time for an empty program. Nothing is asserted: machines differ and are shared.
"""
import sys

from timing import built, median_seconds_on

RUNS = 5


def heads(count):
    """So many loops in a row, each of which moves its number over to the next."""
    names = [f"x{number}" for number in range(count + 1)]
    loops = "".join(f"while ({a} > 0) {{ {a} = {a} - 1; {b} = {b} + 1; }} " for a, b in zip(names, names[1:]))
    return f"int main() {{ int {', '.join(names)}; {loops}}}"


def moves(count):
    """A loop with so many ways through it: x falls, or it rises and y falls."""
    ways = "".join("if (?) { x = x + 1; y = y - 1; } else " for _ in range(count - 1))
    return "int main() { int x, y; while (x > 0 && y > 0) { " + ways + "x = x - 1; } }"


def variables(count):
    """A loop that goes on as long as a sum of so many variables is above 0, of which one falls."""
    names = [f"x{number}" for number in range(count)]
    ways = "".join(f"if (?) {name} = {name} - 1; else " for name in names[1:])
    return f"int main() {{ int {', '.join(names)}; while ({' + '.join(names)} > 0) {{ {ways}x0 = x0 - 1; }} }}"


def in_a_row(count):
    """So many loops in a row, and where b is above 0 one more in the middle that has no bound."""
    loops = ["for (i = 0; i < n; i = i + 1) ; "] * count
    loops.insert(count // 2, "if (b > 0) while (?) ; ")
    return f"int main() {{ int i, n, b; {''.join(loops)}}}"


KINDS = [(heads, (2, 4, 8, 12)), (moves, (4, 8, 16, 30)), (variables, (2, 4, 8, 15)), (in_a_row, (2, 5, 12, 30))]


def seconds(command, text):
    return median_seconds_on(command, text, RUNS)


def main():
    binary = built()
    empty = seconds([binary], "int main() { }")
    print("kind         size  time / that of the first  / that of the one before  / that without linear programs")
    for program, sizes in KINDS:
        base = before = seconds([binary], program(sizes[0])) - empty
        for size in sizes:
            time = seconds([binary], program(size)) - empty
            without = seconds([binary, "--delay", "1"], program(size)) - empty
            print(f"{program.__name__:11}  {size:4}  {time / base:24.1f}  {time / before:24.1f}  {time / without:30.1f}", flush=True)
            before = time
    return 0


if __name__ == "__main__":
    sys.exit(main())
