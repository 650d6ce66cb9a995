"""What the timings of the command and of single layers share."""
import functools
import os
import statistics
import subprocess
import sys
import tempfile
import time

TOP = os.path.join(os.path.dirname(os.path.abspath(__file__)), "..")
SCRIPT = os.path.join(TOP, "function")

# How often each file of cases is tried, of which the least time counts.
RUNS = 5

# The names that lines have for the sixteen places.
NAMES = ["x", "y", "z", *(f"x{place}" for place in range(3, 15)), "k"]


def built():
    """The path of the command, built anew where a source is newer."""
    subprocess.run([SCRIPT], input=b"int main() { }", stdout=subprocess.DEVNULL, check=True)
    return os.path.join(TOP, "crates", "function_cli", "out", "function_cli")


def cases():
    """The path of the program that makes the calls of lines: the first word of the command line, or where `rt run -- data/numbers` in crates/cases_cli builds it."""
    return sys.argv[1] if len(sys.argv) > 1 else os.path.join(TOP, "crates", "cases_cli", "out", "cases_cli")


def row(coefficients, constant):
    """The row in which each place has its coefficient, as a line says it."""
    terms = [f"{number}*{NAMES[place]}" for place, number in coefficients.items() if number]
    return " + ".join(terms + [str(constant)]) + " >= 0"


def told_of(program, text):
    """What the program prints of the cases, the processor seconds that it takes, and the most bytes that it holds."""
    with tempfile.NamedTemporaryFile("w") as file:
        file.write(text)
        file.flush()
        child = subprocess.Popen([program, file.name], stdout=subprocess.PIPE, text=True)
        told = child.stdout.read().replace(file.name, "cases")
        _, status, usage = os.wait4(child.pid, 0)
        child.returncode = os.waitstatus_to_exitcode(status)
    return told, usage.ru_utime + usage.ru_stime, usage.ru_maxrss * 1024


def answers_of(program, calls):
    """The answer of each call, where each is one line."""
    told, _, _ = told_of(program, "".join(f"{call}\n" for call in calls))
    return told.splitlines()[1:-1:2]


def seconds_of(program, calls, answers):
    """The processor seconds of the calls, which have these answers: the least of some runs, with what a file without cases takes left out."""
    text = "".join(f"{call}\n    {answer}\n" for call, answer in zip(calls, answers))
    return least(program, text, len(calls)) - least(program, "", 0)


def least(program, text, count):
    """The least processor seconds of some runs over so many cases, each of which has its answer."""
    best = float("inf")
    for _ in range(RUNS):
        told, seconds, _ = told_of(program, text)
        if told != f"cases: {count} cases\n":
            sys.exit(f"another answer: {told[-1000:]}")
        best = min(best, seconds)
    return best


def milliseconds(program, call, answer, times):
    """What one call takes, which is made so many times."""
    return seconds_of(program, [call] * times, [answer] * times) / times * 1e3


@functools.cache
def reading(program, tree, times):
    """What it takes to read the tree, which has a leaf of rank 0 where x is as large as it may be."""
    return milliseconds(program, f"leaf at most of {tree}", "end 0", times)


def copying(program, tree, times):
    """What it takes to copy the tree: half of what it takes to do that twice."""
    twice = milliseconds(program, f"copies {tree}", "yes", times)
    return (twice - 2 * milliseconds(program, f"distinct {tree}", "yes", times) + reading(program, tree, times)) / 2


def median_seconds(command, path, runs):
    """The median of so many runs of the command over the file as its input. Each ends with a report."""
    times = []
    for _ in range(runs):
        with open(path, "rb") as text:
            start = time.perf_counter()
            status = subprocess.run(command, stdin=text, stdout=subprocess.DEVNULL, check=False).returncode
            if status not in (0, 1):
                sys.exit(f"{path}: status {status}")
            times.append(time.perf_counter() - start)
    return statistics.median(times)


def median_seconds_on(command, text, runs):
    """The same over the text."""
    with tempfile.NamedTemporaryFile("w", suffix=".c") as file:
        file.write(text)
        file.flush()
        return median_seconds(command, file.name, runs)
