#!/usr/bin/env python3
"""Prints, for nine kinds of programs that grow and whose loops are left to sweeps and hints, the time of the built command divided by that for the
smallest of the kind, and by that for the one before.

Each ratio is one of medians over several runs, less the time for an empty program. Nothing is asserted: machines differ and are shared.
"""
import sys

from timing import built, median_seconds_on

RUNS = 5


def straight(count):
    """A loop whose body is so many assignments."""
    body = "".join(f"a = a + {number}; " for number in range(1, count + 1))
    return "int main() { int a, x; while (x != 0) { " + body + "x = x - 1; } }"


def choices(count):
    """A loop whose body makes so many choices."""
    return "int main() { int x, y; while (x != 0) { " + "if (?) y = y + 1; " * count + "x = x - 1; } }"


def leaving(count):
    """A loop that may be left at so many places."""
    return "int main() { int x; while (x > 0) { " + "if (?) break; " * count + "x = x - 1; } }"


def one_after_another(count):
    """So many loops in a row."""
    return "int main() { int i; " + "for (i = 0; i < 10; i++) ; " * count + "}"


def nested(count):
    """So many loops in each other."""
    names = [f"x{depth}" for depth in range(count)]
    front = "".join(f"{name} = 10; while ({name} > 0) {{ {name} = {name} - 1; " for name in names)
    return f"int main() {{ int {', '.join(names)}; " + front + "} " * count + "}"


def tests_behind(count):
    """A loop with so many tests behind it, each of a variable of its own and with two assignments."""
    names = [f"a{number}" for number in range(count)]
    tests = "".join(f"if ({name} > 0) {{ y = 1; y = 2; }} " for name in names)
    return f"int main() {{ int x, y, {', '.join(names)}; while (x != 0) x = x - 1; {tests}}}"


def line_behind(count):
    """A loop with so many tests of one variable behind it."""
    tests = "".join(f"if (x > {number}) y = y + {number}; " for number in range(count))
    return "int main() { int x, y, z; while (z != 0) z = z - 1; " + tests + "}"


def loops_in_a_row(count):
    """So many loops in a row, each of which counts one of ten variables down and changes two others."""
    names = [f"v{number}" for number in range(10)]
    loops = ""
    for number in range(count):
        own, up, down = (names[(number + apart) % 10] for apart in (0, 3, 7))
        loops += f"while ({own} > 0) {{ {own} = {own} - 1; {up} = {up} + 1; if ({down} > {number % 5}) {down} = {down} - 1; else {up} = {up} + 2; }} "
    return f"int main() {{ int {', '.join(names)}; {loops}}}"


def long_front(count):
    """So many assignments and tests of two variables in turn, without a loop."""
    return "int main() { int x, y; " + "".join(f"x = x + {number}; if (x > y) y = y + 1; " for number in range(count)) + "}"


KINDS = [
    (straight, (100, 300, 1000)), (choices, (2, 4, 6, 8)), (leaving, (100, 300, 500)), (one_after_another, (1, 5, 20)), (nested, (1, 2, 3)), (tests_behind, (6, 8, 9, 10)),
    (line_behind, (50, 100, 200)), (loops_in_a_row, (2, 5, 10)), (long_front, (25, 50, 100)),
]


def seconds(binary, text):
    return median_seconds_on([binary], text, RUNS)


def main():
    binary = built()
    empty = seconds(binary, "int main() { }")
    print("kind               size  time / that of the first  / that of the one before")
    for program, sizes in KINDS:
        base = before = seconds(binary, program(sizes[0])) - empty
        for size in sizes:
            time = seconds(binary, program(size)) - empty
            print(f"{program.__name__:17}  {size:4}  {time / base:24.1f}  {time / before:24.1f}", flush=True)
            before = time
    return 0


if __name__ == "__main__":
    sys.exit(main())
