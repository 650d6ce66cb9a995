"""Runs the proved command, and tells what hindered it."""
import os
import subprocess
import time
from dataclasses import dataclass
from pathlib import Path

HERE = Path(__file__).resolve().parent
VARIABLE = "TERMINATES_COMMAND"

# Statuses of the companion's own. Those of the command, 0 to 7, stay as they are.
NOT_READ = 20
NOT_BUILT = 21
KILLED = 22
PAST_LIMIT = 23
NOT_UNDERSTOOD = 24
NO_PICTURE = 25


class Hindered(Exception):
    """Why there is no answer, in one line, and the companion's status for it."""

    def __init__(self, status, why):
        super().__init__(why)
        self.status = status


@dataclass(frozen=True)
class Answer:
    """What the command ended with and wrote."""

    status: int
    text: str


class Deadline:
    """When the time that a file has is over; without a limit it never is."""

    def __init__(self, seconds=None):
        self.seconds = seconds
        self.end = None if seconds is None else time.monotonic() + seconds

    def left(self):
        return None if self.end is None else max(0.0, self.end - time.monotonic())


def path():
    """Where the command is: where the environment says, or where this repository builds it. Raises Hindered where it isn't built."""
    named = os.environ.get(VARIABLE)
    found = Path(named) if named else HERE.parent / "crates/function_cli/out/function_cli"
    if not found.is_file() or not os.access(found, os.X_OK):
        how = f"{VARIABLE} names it" if named else "./function builds and proves it"
        raise Hindered(NOT_BUILT, f"the command isn't built: there is no program {found} ({how})")
    return str(found)


def ask(program, words, text, deadline):
    """The command's answer to the words and the text, whose characters are bytes. Raises Hindered where it is killed or runs past the deadline."""
    try:
        ended = subprocess.run([program, *words], input=text.encode("latin-1"), stdout=subprocess.PIPE, stderr=subprocess.DEVNULL, timeout=deadline.left(), check=False)
    except subprocess.TimeoutExpired:
        raise Hindered(PAST_LIMIT, f"no answer within {deadline.seconds:g} seconds") from None
    except OSError as error:
        raise Hindered(NOT_BUILT, f"the command can't be run: {error.strerror}") from None
    if ended.returncode < 0:
        raise Hindered(KILLED, f"the command was killed by signal {-ended.returncode}")
    return Answer(ended.returncode, ended.stdout.decode("latin-1"))
