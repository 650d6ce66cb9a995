"""Sees that the pages show what the command and its companion write: each run on them is made again, in the folder of the repository.

    python3 companion/tests/shown.py [--write]

ends with 1 and a line for each run that is shown otherwise; with `--write` it writes the runs anew. Of times only the form is compared. Runs that build something are left out.
"""
import os
import re
import shlex
import subprocess
import sys
from concurrent.futures import ThreadPoolExecutor
from pathlib import Path

TOP = Path(__file__).resolve().parents[2]
PAGE = TOP / "docs/TERMINATES.md"
PAGES = [TOP / "README.md", *(TOP / "docs" / f"{name}.md" for name in ("FORMULAS", "LANGUAGE", "REPORT")), PAGE]
BUILDS = ("rt ", "./install", "ln ")
VARIABLE = "TERMINATES_COMMAND"
BLOCK = re.compile(r"```\n(\$ .*?)```\n", re.DOTALL)


def command():
    """The built command's path, or None where there is none or a source is newer."""
    if VARIABLE in os.environ:
        return os.environ[VARIABLE]
    built = TOP / "crates/function_cli/out/function_cli"
    if not built.exists():
        return None
    sources = [path for kind in ("*.rt", "*.antt", "crates.txt") for path in (TOP / "crates").rglob(kind) if "out" not in path.parts] + [TOP / "crates.txt"]
    return str(built) if all(path.stat().st_mtime <= built.stat().st_mtime for path in sources) else None


def calls(block):
    """The calls of a block, each with what it is shown to write; those that build something aren't among them."""
    parts = re.split(r"(?m)^\$ (.*)\n", block)
    return [(call, text) for call, text in zip(parts[1::2], parts[2::2]) if not call.startswith(BUILDS)]


def written(call, path):
    """What a call writes, standard error with standard output, as on a terminal. The built command stands for `./function`, which would look whether it is up to date."""
    call = re.sub(r"\./function(?= |$)", lambda _: shlex.quote(path), call)
    environment = {**os.environ, VARIABLE: path, "PYTHONUNBUFFERED": "1"}
    return subprocess.run(["bash", "-c", call], cwd=TOP, env=environment, stdout=subprocess.PIPE, stderr=subprocess.STDOUT, text=True, check=False).stdout


def settled(text):
    """A text with its times as one."""
    return re.sub(r" +\d+\.\d\d s\b", " - s", text)


def anew(page, path):
    """The page with its runs made again."""

    def block(match):
        if not calls(match[1]):
            return match[0]
        shown = []
        for call, text in calls(match[1]):
            now = written(call, path)
            shown.append(f"$ {call}\n{text if settled(text) == settled(now) else now}")
        return "```\n" + "".join(shown) + "```\n"

    return BLOCK.sub(block, page)


def wrong(path):
    """A line for each run that a page shows otherwise."""
    listed = list(runs())
    with ThreadPoolExecutor(os.cpu_count() or 1) as pool:
        answers = list(pool.map(lambda run: written(run[1], path), listed))
    for (page, call, text), answer in zip(listed, answers):
        if settled(answer) != settled(text):
            yield f"{page.relative_to(TOP)}: {call} writes something else (companion/tests/shown.py --write)"


def runs():
    """The page, the call and the text of each run."""
    for page in PAGES:
        for match in BLOCK.finditer(page.read_text()):
            yield from ((page, call, text) for call, text in calls(match[1]))


def main(words):
    path = command()
    if path is None:
        print("no built command is at hand")
        return 1
    if words == ["--write"]:
        for page in PAGES:
            page.write_text(anew(page.read_text(), path))
        return 0
    faults = list(wrong(path))
    print("\n".join(faults), end="\n" if faults else "")
    return 1 if faults else 0


if __name__ == "__main__":
    sys.exit(main(sys.argv[1:]))
