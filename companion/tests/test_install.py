"""`./install` puts both programs and both manual pages where they belong. The program that it installs is a stand-in here."""
import os
import shutil
import subprocess
import unittest

from running import TOP, VARIABLE, InFolder

REPORT = "exact, 0 tests:\\nproved:\\nalways: within 4 steps\\nunknown:\\nverdict: all inputs\\n"


class Install(InFolder):
    def setUp(self):
        super().setUp()
        tree = self.folder / "tree"
        shutil.copytree(TOP / "companion", tree / "companion", ignore=shutil.ignore_patterns("tests", "__pycache__"))
        (tree / "docs").mkdir()
        shutil.copy(TOP / "docs/function.1", tree / "docs")
        shutil.copy(TOP / "install", tree)
        for name, text in (("function", "exit 2"), ("crates/function_cli/out/function_cli", f"printf '{REPORT}'")):
            self.write(f"tree/{name}", f"#!/bin/sh\n{text}\n").chmod(0o755)

    def install(self, *words):
        environment = {**os.environ, "HOME": str(self.folder / "home")}
        ended = subprocess.run([self.folder / "tree/install", *words], cwd=self.folder, env=environment, capture_output=True, text=True, check=False)
        return ended.returncode, ended.stdout, ended.stderr

    def run_at(self, path):
        environment = {name: value for name, value in os.environ.items() if name != VARIABLE}
        return subprocess.run([path], cwd="/", env=environment, input=b"int main() { }", capture_output=True, check=False).stdout.decode()

    def test_both_programs_and_both_pages(self):
        placed = ["bin/ends", "bin/terminates", "share/man/man1/ends.1", "share/man/man1/terminates.1"]
        self.assertEqual(self.install("a prefix", "ends"), (0, "".join(f"a prefix/{place}\n" for place in placed), ""))
        for place in placed:
            self.assertTrue((self.folder / "a prefix" / place).is_file())
        pages = [(self.folder / "a prefix" / place).read_text() for place in placed[2:]]
        self.assertFalse(any("@NAME@" in page for page in pages))
        self.assertIn("ends(1)", pages[1])

    def test_the_companion_runs_the_program_beside_it_also_by_a_link(self):
        self.install("prefix", "ends")
        (self.folder / "link").symlink_to(self.folder / "prefix/bin/terminates")
        shown = "<stdin>: ends from all inputs\n  always: within 4 steps\n"
        self.assertEqual([self.run_at(self.folder / path) for path in ("prefix/bin/terminates", "link")], [shown, shown])

    def test_a_link_that_stands_there_is_replaced_and_not_written_through(self):
        self.write("prefix/bin/function", "old")
        (self.folder / "prefix/bin/terminates").symlink_to("function")
        self.assertEqual(self.install("prefix")[0], 0)
        self.assertEqual((self.folder / "prefix/bin/function").read_text(), (self.folder / "tree/crates/function_cli/out/function_cli").read_text())

    def test_without_words_it_goes_below_the_home_folder(self):
        self.assertEqual(self.install()[0], 0)
        self.assertTrue((self.folder / "home/.local/bin/function").is_file())

    def test_words_that_are_none(self):
        self.assertEqual(self.install("--help")[0], 0)
        for words in (["-x"], [""], ["prefix", ""], ["prefix", "a/b"], ["prefix", "terminates"], ["prefix", "a", "b"], ["tree/install"]):
            with self.subTest(words):
                status, out, err = self.install(*words)
                self.assertEqual((status, out), (64, ""))
                self.assertIn("usage: ./install", err)
        self.assertFalse((self.folder / "prefix").exists())


if __name__ == "__main__":
    unittest.main()
