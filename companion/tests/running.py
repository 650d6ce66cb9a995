"""How the tests run the companion, and stand-ins for a command that ends badly."""
import contextlib
import io
import os
import stat
import subprocess
import sys
import tempfile
import unittest
from pathlib import Path
from unittest import mock

import program

TOP = Path(__file__).resolve().parents[2]
VARIABLE = "TERMINATES_COMMAND"


def build():
    """Builds the command as `./function` does, and names it to what is run from here on, unless another is named."""
    if VARIABLE not in os.environ:
        subprocess.run([TOP / "function"], input=b"int main() { }", stdout=subprocess.DEVNULL, check=True)
        os.environ[VARIABLE] = str(TOP / "crates/function_cli/out/function_cli")


def spawned(*words, text="", folder=TOP, command=None):
    """The status of a call as a process of its own, and what it wrote to standard output and standard error."""
    environment = {**os.environ, **({VARIABLE: str(command)} if command else {}), "COLUMNS": "200"}
    data = text if isinstance(text, bytes) else text.encode()
    ended = subprocess.run([sys.executable, TOP / "companion", *words], input=data, capture_output=True, cwd=folder, env=environment, check=False)
    return ended.returncode, ended.stdout.decode(), ended.stderr.decode()


def terminates(*words, text="", folder=TOP, command=None):
    """The same in this process, which takes less time."""
    data = text if isinstance(text, bytes) else text.encode()
    out, err, before = io.StringIO(), io.StringIO(), os.getcwd()
    given = mock.patch.object(sys, "stdin", io.TextIOWrapper(io.BytesIO(data)))
    environment = mock.patch.dict(os.environ, {"COLUMNS": "200", **({VARIABLE: str(command)} if command else {})})
    with given, environment, contextlib.redirect_stdout(out), contextlib.redirect_stderr(err):
        os.chdir(folder)
        try:
            status = program.main([str(word) for word in words])
        except SystemExit as ended:
            status = ended.code
        finally:
            os.chdir(before)
    return status, out.getvalue(), err.getvalue()


class InFolder(unittest.TestCase):
    """A test with a folder of its own."""

    maxDiff = None

    def setUp(self):
        holder = tempfile.TemporaryDirectory()
        self.addCleanup(holder.cleanup)
        self.folder = Path(holder.name)

    def write(self, name, text):
        path = self.folder / name
        path.parent.mkdir(parents=True, exist_ok=True)
        path.write_bytes(text if isinstance(text, bytes) else text.encode())
        return path

    def stand_in(self, script):
        """A command that is this script of sh."""
        path = self.write("stand_in", f"#!/bin/sh\n{script}\n")
        path.chmod(path.stat().st_mode | stat.S_IXUSR)
        return path

    def run_here(self, *words, **more):
        return terminates(*words, folder=self.folder, **more)
