#!/usr/bin/env python3
"""Refuses the command its allocations in turn, one a run, and then all memory past a limit: each run ends with status 7 and nothing written, or with the report.

    python3 checks/memory.py [--command PATH] [PROGRAM ..]

It is no part of the gate, and needs a C compiler. Without programs it takes five small ones with the reports that they are to have, and seven of the examples, three of them
with their formula; and then three larger ones under limits on all memory, which count the stack too: 70 limits in steps of 0.1 MB around the least one that does. It ends with 1
where a run ends otherwise.
"""
import argparse
import os
import resource
import subprocess
import sys
import tempfile
from pathlib import Path

TOP = Path(__file__).resolve().parent.parent
EXAMPLES = ["empty", "branches", "countdown", "steps", "formulas/some_sum", "formulas/settles", "formulas/keeps_on"]

# Statements, words, the status, and the lines of the report.
REPORTS = [
    ("", [], 0, "exact, 2 tests: / always: exactly 0 steps / proved: / always: within 0 steps / unknown: / verdict: all inputs"),
    ("int x; while (x > 0) x = x - 1;", [], 0,
     "exact, 2 tests: / -x + 1 >= 0 and x - 1 >= 0: exactly 3 steps / -x >= 0: exactly 1 step / proved: / -x >= 0: within 1 step / "
     "x - 1 >= 0: within 2*x + 1 steps / unknown: / verdict: all inputs"),
    ("int x; while (x != 0) x = x - 1;", [], 1,
     "exact, 2 tests: / -x + 1 >= 0 and x - 1 >= 0: exactly 3 steps / -x >= 0 and x >= 0: exactly 1 step / proved: / "
     "-x + 1 >= 0 and x - 1 >= 0: within 3 steps / -x >= 0 and x >= 0: within 1 step / x - 2 >= 0: within 2*x + 1 steps / unknown: / "
     "-x - 1 >= 0: unknown / verdict: some inputs"),
    ("int x; x = 1;", ["--ctl", "AF AG x == 1"], 0,
     "proved: / -x + 1 >= 0 and x - 1 >= 0: within 0 steps / -x >= 0: within 1 step / x - 2 >= 0: within 1 step / unknown: / verdict: all inputs"),
    ("int x; x = 1;", ["--ctl", "AX AX x == 1"], 0, "proved: / always: holds / unknown: / verdict: all inputs"),
]

# Words and statements for the limits on all memory.
LIMITED = [
    ("1,023 skips", [], "; " * 1023),
    ("100 tests in a row", ["--ctl", "AG x > 5"], " ".join(f"if (x > {k}) y = {k};" for k in range(100))),
    ("a sum of 257", [], "x = x" + " + y" * 256 + ";"),
]
MEGABYTE = 2**20
LIMITS = 70

# In front of the C library's calls: the one with the number in REFUSE gives nothing, and at the end the number of calls goes to standard error.
SHIM = r"""
#include <stdio.h>
#include <stdlib.h>
#include <errno.h>
extern void *__libc_malloc(size_t), *__libc_calloc(size_t, size_t), *__libc_realloc(void *, size_t), *__libc_memalign(size_t, size_t);
static long calls, refuse = -1;
static int refused(void) {
    if (refuse < 0) {
        const char *number = getenv("REFUSE");
        refuse = number ? atol(number) : 0;
    }
    return ++calls == refuse;
}
void *malloc(size_t size) { return refused() ? NULL : __libc_malloc(size); }
void *calloc(size_t count, size_t size) { return refused() ? NULL : __libc_calloc(count, size); }
void *realloc(void *at, size_t size) { return refused() ? NULL : __libc_realloc(at, size); }
void *aligned_alloc(size_t to, size_t size) { return refused() ? NULL : __libc_memalign(to, size); }
int posix_memalign(void **at, size_t to, size_t size) {
    if (refused()) return ENOMEM;
    *at = __libc_memalign(to, size);
    return *at ? 0 : ENOMEM;
}
__attribute__((destructor)) static void tell(void) { dprintf(2, "calls %ld\n", calls); }
"""


def run(command, shim, words, text, refuse):
    """The status, what was written, and the number of allocations of a run without the one of that number; 0 refuses none."""
    ended = subprocess.run([command, *words], input=text, capture_output=True, check=False, env={**os.environ, "LD_PRELOAD": shim, "REFUSE": str(refuse)})
    told = ended.stderr.rpartition(b"calls ")[2]
    return ended.returncode, ended.stdout, int(told) if told.strip().isdigit() else 0


def wrong(command, shim, name, words, text, wanted):
    """A line for each run that ends otherwise. Where no report is wanted the one that is written with all memory is."""
    status, report, count = run(command, shim, words, text, 0)
    if wanted not in (None, (status, report)):
        yield f"{name}: with all memory status {status} and {report!r}"
    without = 0
    for refuse in range(1, count + 1):
        answer = run(command, shim, words, text, refuse)[:2]
        without += answer == (7, b"")
        if answer not in ((7, b""), (status, report)):
            yield f"{name}: without allocation {refuse} of {count}: status {answer[0]}, {len(answer[1])} bytes"
    print(f"{name}: {count} allocations, want of memory without {without} of them")


def within(command, words, text, limit):
    """The status and what was written of a run with so much memory, the stack's included."""
    def set_limit():
        resource.setrlimit(resource.RLIMIT_AS, (limit, limit))
    ended = subprocess.run([command, *words], input=text, capture_output=True, check=False, preexec_fn=set_limit)
    return ended.returncode, ended.stdout


def least(command, words, text, report):
    """The least limit with which the report comes, up to 0.1 MB."""
    low, high = MEGABYTE, 4096 * MEGABYTE
    while high - low > MEGABYTE // 10:
        between = (low + high) // 2
        low, high = (low, between) if within(command, words, text, between) == report else (between, high)
    return high


def wrong_within(command, name, words, text):
    """A line for each limit around the least one at which the run ends otherwise. Limits are left out at which the system doesn't start the command."""
    report = within(command, words, text, 4096 * MEGABYTE)
    need = least(command, words, text, report)
    tried = 0
    for step in range(LIMITS):
        limit = need + MEGABYTE // 20 - step * MEGABYTE // 10
        if limit < MEGABYTE or within(command, ["--at"], b"", limit)[0] not in (2, 7):
            break
        tried += 1
        answer = within(command, words, text, limit)
        if answer not in ((7, b""), report):
            yield f"{name}: with {limit / MEGABYTE:.2f} MB: status {answer[0]}, {len(answer[1])} bytes"
    print(f"{name}: needs {need / MEGABYTE:.1f} MB, {tried} limits tried")


def cases(programs):
    """A name, words, a text, and the status and the report that are wanted, for each case."""
    for statements, words, status, lines in [] if programs else REPORTS:
        text = f"int main() {{ {statements} }}" if statements else "int main() { }"
        yield " ".join([text, *words]), words, text.encode(), (status, "".join(f"{line}\n" for line in lines.split(" / ")).encode())
    for program in programs or [TOP / f"examples/{name}.c" for name in EXAMPLES]:
        asked = program.with_suffix(".ctl")
        yield program.name, ["--ctl", asked.read_text().strip()] if asked.exists() else [], program.read_bytes(), None


def main():
    asked = argparse.ArgumentParser()
    asked.add_argument("--command", default=TOP / "crates/function_cli/out/function_cli")
    asked.add_argument("programs", nargs="*", type=Path)
    asked = asked.parse_args()
    with tempfile.TemporaryDirectory() as folder:
        source, shim = Path(folder) / "refusing.c", Path(folder) / "refusing.so"
        source.write_text(SHIM)
        subprocess.run(["cc", "-O1", "-shared", "-fPIC", "-o", shim, source], check=True)
        found = [line for case in cases(asked.programs) for line in wrong(asked.command, str(shim), *case)]
    for name, words, statements in [] if asked.programs else LIMITED:
        found += wrong_within(asked.command, name, words, f"int main() {{ int x, y; {statements} }}".encode())
    print("\n".join(found), end="\n" if found else "")
    return 1 if found else 0


if __name__ == "__main__":
    sys.exit(main())
