#!/usr/bin/env python3
"""Times the calls of octagons over fifteen places: microseconds of processor time, and parts of what it takes to close one and let it meet a row.

    python3 bench/octagons.py [PROGRAM]

PROGRAM is the built program, crates/cases_cli/out/cases_cli by default (`rt run -- data/numbers` in crates/cases_cli builds it). A state is made of 15
or 60 rows of two places. `meet` is a row that a closed octagon meets, `join` and `widen` take all stores into it, and `close` is a row that
a widened one meets, which is closed first. What it takes to read the rows and to make the states is left out. Nothing is asserted: machines differ and are shared.
"""
import sys

from timing import answers_of, cases, row, seconds_of

PLACES = 15
TIMES = 200

# How often a call comes in a line.
CALLS = 100


def numbered(number):
    """A number plus or minus the number at a place, and plus or minus that at another one, which go by the number."""
    first = number % PLACES
    second = (first + 1 + number % (PLACES - 1)) % PLACES
    return row({first: 1 - number % 2 * 2, second: 1 - number // 2 % 2 * 2}, 1000 + number % 89)


def rows(first, count):
    """So many rows, from a number on."""
    return " and ".join(numbered(number) for number in range(first, first + count))


def microseconds(program, asked, state, domain="octagons"):
    """What it takes to make the state and to ask of it whether its members meet the first of the rows."""
    call = f"{domain} implies {asked} of {state}"
    return seconds_of(program, [call] * TIMES, answers_of(program, [call]) * TIMES) / TIMES * 1e6


def main():
    program = cases()
    asked, all_stores = numbered(0), microseconds(program, numbered(0), "always")
    making = all_stores - microseconds(program, asked, "always", "boxes")
    print("rows   close (us)   meet / close   join / close   widen / close")
    for count in (15, 60):
        own, other, more = rows(0, count), rows(1, count), rows(count, CALLS)
        one, open_one = (microseconds(program, asked, state) for state in (own, f"{own} widen {other}"))
        close = microseconds(program, asked, f"{own} widen {other} meet {asked}") - open_one
        reading = microseconds(program, more, "always") - all_stores
        meet = (microseconds(program, asked, f"{own} meet {more}") - one - reading) / CALLS
        join, widen = ((microseconds(program, asked, own + f" {word} always" * CALLS) - one) / CALLS - making for word in ("join", "widen"))
        print(f"{count:4}   {close:10.1f}   {meet / close:12.3f}   {join / close:12.3f}   {widen / close:13.3f}", flush=True)
    return 0


if __name__ == "__main__":
    sys.exit(main())
