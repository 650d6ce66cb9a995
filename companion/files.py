"""Several files, side by side: which they are, their answers in order, a progress bar and a table at the end."""
import os
import sys
import time
from concurrent.futures import ThreadPoolExecutor
from pathlib import Path

from command import NOT_READ
from questions import Result, answer
from shares import share
from show import verdict
from tokens import declared


def below(folder):
    """The .c files below a folder, in the order of their names. Raises OSError where it can't be read."""
    found = []

    def refuse(error):
        raise error

    for place, folders, names in os.walk(folder, onerror=refuse):
        folders.sort()
        found += [os.path.join(place, name) for name in names if name.endswith(".c")]
    return sorted(found)


def listed(words, recursive):
    """The files that the words name, each with the trouble that there was with a folder, or None."""
    found = []
    for word in words or ["-"]:
        if word != "-" and os.path.isdir(word):
            if not recursive:
                found.append((word, "it is a folder: -r takes the .c files below it"))
                continue
            try:
                inside = below(word)
            except OSError as error:
                found.append((word, f"it can't be read: {error.strerror}"))
                continue
            found += [(path, None) for path in inside] or [(word, "no .c file is below it")]
        else:
            found.append((word, None))
    return found


def read(name):
    """A file's bytes as characters. Raises OSError where it can't be read."""
    data = sys.stdin.buffer.read() if name == "-" else Path(name).read_bytes()
    return data.decode("latin-1")


def look_at(program, question, name, trouble, seconds):
    """What is known of one file, and how long it took."""
    shown, start = ("<stdin>" if name == "-" else name), time.monotonic()
    if trouble is None:
        try:
            text = read(name)
        except OSError as error:
            trouble = f"it can't be read: {error.strerror}"
    result = Result(shown, NOT_READ, trouble=trouble) if trouble else answer(program, question, shown, text, seconds)
    result.seconds = time.monotonic() - start
    return result


def look_at_all(program, question, named, seconds, jobs):
    """The answers on the files in their order, each as soon as it and those before it are there."""
    with ThreadPoolExecutor(jobs or os.cpu_count() or 1) as pool:
        yield from pool.map(lambda file: look_at(program, question, *file, seconds), named)


class Progress:
    """A bar on standard error while several files are looked at, where that is a terminal."""

    WIDTH = 30

    def __init__(self, total):
        self.total, self.done, self.shown = total, 0, total > 1 and sys.stderr.isatty()
        self.draw()

    def clear(self):
        """Takes the bar away, so that a line can be written."""
        if self.shown:
            sys.stderr.write("\r\x1b[K")
            sys.stderr.flush()

    def draw(self):
        if self.shown and self.done < self.total:
            full = self.WIDTH * self.done // self.total
            sys.stderr.write(f"\r[{'#' * full}{'.' * (self.WIDTH - full)}] {self.done} of {self.total}")
            sys.stderr.flush()

    def step(self):
        self.done += 1
        self.draw()


def cells(result, asked):
    """A row of the table: the file, the verdict, the shares of the sample that end and that never do, and the time."""
    seconds = f"{result.seconds:.2f} s"
    if result.report is None:
        says = str(result.claim) if result.claim else (f"{result.fault.of}: fault {result.fault.number}" if result.fault else result.trouble)
        return result.name, says, "-", "-", seconds
    report = result.report
    ends = report.lines("proved") + report.lines("ranked") + report.lines("fits")
    shares = share(declared(result.text), ends, result.never)
    return (result.name, verdict(result, asked), *(f"{100 * part:.0f}%" for part in shares), seconds)


def table(results, asked):
    """The table of several files, with a line that counts them."""
    rows = [("file", "verdict", "claimed", "never", "time"), *(cells(result, asked) for result in results)]
    widths = [max(len(row[column]) for row in rows) for column in range(5)]
    lines = ["  ".join(cell.rjust(width) if column > 1 else cell.ljust(width) for column, (cell, width) in enumerate(zip(row, widths))).rstrip() for row in rows]
    whole = sum(result.status == 0 for result in results)
    part = sum(result.status == 1 for result in results)
    return "\n".join([*lines, f"{len(results)} files: {whole} whole, {part} in part or unknown, {len(results) - whole - part} without an answer"])
