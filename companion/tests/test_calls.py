"""Calls of the program: its words, its files, its statuses, and that nothing of other files is lost."""
import json
import os
import subprocess
import sys
import unittest
from io import StringIO
from unittest import mock

from files import Progress
from running import TOP, InFolder, spawned

ENDS = "int main() { int x; while (x > 0) x = x - 1; }\n"
STEPS = "int main() { int x, y; while (x > 0) x = x + y; }\n"
FOR_EVER = "int main() { int x; while (x > 0) x = x + 1; }\n"
# Each input ends, but in as many steps as are chosen.
CHOSEN = "int main() { int x; x = ?; while (x > 0) x = x - 1; }\n"
# Nothing is read of a choice: no run that gets in ends.
EACH = "int main() { int x, y; while (x > 0) y = ?; }\n"
# Where y is above 5 no run that gets in ends.
SPLIT = "int main() { int x, y; while (x > 0) { x = x - 1; if (y > 5) x = x + 2; } }\n"


class OneFile(InFolder):
    def test_bounds_and_exact_numbers_of_steps(self):
        # x - 1 turns of two steps each and the last test; where x is 1 that is 3
        self.write("f.c", ENDS)
        self.assertEqual(self.run_here("f.c"), (0, "f.c: ends from all inputs\n  x <= 0: exactly 1 step\n  x >= 1: within 2*x + 1 steps\n  of these, x == 1: exactly 3 steps\n", ""))

    def test_standard_input_is_read_without_a_file_and_for_a_hyphen(self):
        shown = "<stdin>: ends from all inputs\n  x <= 0: exactly 1 step\n  x >= 1: within 2*x + 1 steps\n  of these, x == 1: exactly 3 steps\n"
        self.assertEqual(self.run_here(text=ENDS), (0, shown, ""))
        self.assertEqual(self.run_here("-", text=ENDS), (0, shown, ""))

    def test_some_run_never_ends(self):
        self.write("f.c", FOR_EVER)
        self.assertEqual(self.run_here("f.c"), (1, "f.c: ends from some inputs, never ends (some run) from all others\n  x <= 0: exactly 1 step\n  x >= 1: never ends (some run)\n", ""))

    def test_no_run_ends_where_numbers_are_chosen_without_bounds(self):
        self.write("f.c", EACH)
        self.assertEqual(self.run_here("f.c"), (1, "f.c: ends from some inputs, never ends (every run) from all others\n  x <= 0: within 1 step\n  x >= 1: never ends (every run)\n", ""))

    def test_runs_of_every_length_are_not_runs_for_ever(self):
        # each run ends, though there are runs of every length
        self.write("f.c", CHOSEN)
        self.assertEqual(self.run_here("f.c"), (0, "f.c: ends from all inputs\n  always: ends, rank w*(1) + 1\n", "f.c: main chooses x first, and no bound can speak of that; --inputs takes it as an input\n"))

    def test_the_second_question_can_be_left_out(self):
        self.write("f.c", FOR_EVER)
        self.assertEqual(self.run_here("f.c", "--ends-only"), (1, "f.c: ends from some inputs, unknown from the others\n  x <= 0: exactly 1 step\n  x >= 1: unknown\n", ""))

    def test_a_formula(self):
        # 0 steps where x is 1 already, and else the assignment
        self.write("f.c", "int main() { int x; x = 1; }\n")
        self.assertEqual(self.run_here("f.c", "--ctl", "AF AG x == 1"), (0, "f.c: holds from all inputs\n  x <= 0: within 1 step\n  x == 1: within 0 steps\n  x >= 2: within 1 step\n", ""))
        self.assertEqual(self.run_here("f.c", "--ctl=-x >= 0"), (1, "f.c: holds from some inputs, unknown from the others\n  x <= 0: holds\n  x >= 1: unknown\n", ""))

    def test_the_words_are_handed_on(self):
        # with one test of a loop only the inputs that fail it at once are exact
        self.write("f.c", ENDS)
        self.assertEqual(self.run_here("f.c", "--delay=1", "--domain", "octagons")[1], "f.c: ends from all inputs\n  x <= 0: exactly 1 step\n  x >= 1: within 2*x + 1 steps\n")

    def test_refine_is_handed_on_with_the_first_question_alone(self):
        self.write("f.c", SPLIT)
        ends, goes_on = "  x <= 0: exactly 1 step\n", "  x >= 1 and y >= 6: never ends (some run)\n"
        self.assertEqual(self.run_here("f.c", "--delay=1"),
                         (1, f"f.c: ends from some inputs, never ends (some run) from some, unknown from the others\n{ends}{goes_on}  x >= 1 and y <= 5: unknown\n", ""))
        self.assertEqual(self.run_here("f.c", "--delay=1", "--refine"),
                         (1, f"f.c: ends from some inputs, never ends (some run) from all others\n{ends}  x >= 1 and y <= 5: within 4*x + 1 steps\n{goes_on}", ""))

    def test_an_exact_line_stands_for_a_proved_one_only_where_their_conditions_mean_the_same(self):
        def told(exact):
            report = f"exact, 2 tests:\\n{exact}: exactly 3 steps\\nproved:\\nx - 2000 >= 0 and y - 1 >= 0: within 3 steps\\nunknown:\\nverdict: all inputs\\n"
            return self.run_here(command=self.stand_in(f"printf '{report}'"), text=ENDS)[1].splitlines()[1:]

        # y >= 1 and x >= 2000 give x + y >= 2001
        self.assertEqual(told("x + y - 2001 >= 0 and x - 2000 >= 0 and y - 1 >= 0"), ["  x >= 2000 and y >= 1: exactly 3 steps"])
        for exact, shown in (("x - 1000 >= 0 and y - 1 >= 0", "x >= 1000 and y >= 1"), ("x - 3000 >= 0 and y - 1 >= 0", "x >= 3000 and y >= 1")):
            self.assertEqual(told(exact), ["  x >= 2000 and y >= 1: within 3 steps", f"  of these, {shown}: exactly 3 steps"])

    def test_a_long_report_is_shown_row_by_row(self):
        def told(count):
            lines = "".join(f"-x + {number} >= 0 and x - {number} >= 0 and y - 1 >= 0 and y - 2 >= 0: within {number} steps\\n" for number in range(2, count + 2))
            return self.run_here(command=self.stand_in(f"printf 'exact: not a plain program\\nproved:\\n{lines}unknown:\\nverdict: all inputs\\n'"), text=ENDS)[1].splitlines()

        self.assertEqual(told(2), ["<stdin>: ends from all inputs", "  x == 2 and y >= 2: within 2 steps", "  x == 3 and y >= 2: within 3 steps"])
        self.assertEqual(told(301)[:2], ["<stdin>: ends from all inputs", "  x == 2 and y >= 1 and y >= 2: within 2 steps"])
        self.assertEqual(len(told(301)), 302)

    def test_an_option_more_is_a_line_of_a_table(self):
        report = "fits:\\nx >= 0: fits\\nunknown:\\n-x - 1 >= 0: unknown\\nverdict: some inputs\\n"
        command = self.stand_in(f"[ \"$*\" = --fit ] && printf '{report}'; exit 1")
        self.assertEqual(self.run_here("--fit", command=command, text=ENDS), (1, "<stdin>: fits from some inputs, unknown from the others\n  x >= 0: fits\n  x <= -1: unknown\n", ""))

    def test_one_input(self):
        self.write("f.c", STEPS)
        self.assertEqual(self.run_here("f.c", "--at", "x=10,y=-1"), (0, "f.c: from x=10,y=-1: within 21 steps\n", ""))
        self.write("g.c", FOR_EVER)
        self.assertEqual(self.run_here("g.c", "--at", "x=3"), (1, "g.c: from x=3: never ends (some run)\n", ""))
        self.assertEqual(self.run_here("g.c", "--at", "x=3", "--ends-only"), (1, "g.c: from x=3: unknown\n", ""))


class Words(InFolder):
    def refused(self, *words, text=STEPS):
        status, out, err = self.run_here(*words, text=text)
        self.assertEqual((status, out), (2, ""))
        return err.splitlines()[-1]

    def test_a_wrong_word_is_told(self):
        self.assertEqual(self.refused("--fast"), "terminates: error: unrecognized arguments: --fast")
        self.assertEqual(self.refused("--domain", "discs"), "terminates: error: argument --domain: 'discs' is no domain: choose one of boxes, octagons, polyhedra")
        self.assertEqual(self.refused("--delay", "9"), "terminates: error: argument --delay: '9' is no digit from 0 to 8")
        self.assertEqual(self.refused("--timeout", "soon"), "terminates: error: argument --timeout: 'soon' is no number of seconds above 0")
        self.assertEqual(self.refused("--jobs", "0"), "terminates: error: argument --jobs: '0' is no number from 1 to 9999")
        self.assertEqual(self.refused("--delay", "1", "--delay", "2"), "terminates: error: argument --delay: stands twice")
        self.assertEqual(self.refused("--refine", "--ctl", "AF exit"), "terminates: error: --refine is about the end of each run, and --ctl asks about a formula: take one of them")
        self.assertEqual(self.refused("--ctl"), "terminates: error: argument --ctl: expected one argument")
        self.assertEqual(self.refused("--inputs", "--as-is"), "terminates: error: --inputs changes a text, and --as-is hands it on unchanged: take one of them")

    def test_what_is_wrong_with_an_input_is_told(self):
        self.assertEqual(self.refused("--at", "x=3"), "<stdin>: --at x=3: a number for y is missing")
        self.assertEqual(self.refused("--at", "x=3,z=1"), "<stdin>: --at x=3,z=1: the program has no variable z; its variables are x, y")
        self.assertEqual(self.refused("--at", "x = 3,y=1"), "<stdin>: --at x = 3,y=1: x = 3 isn't a name, = and a number; the program's variables are x, y")
        self.assertEqual(self.refused("--at", "x=3,x=4,y=1"), "<stdin>: --at x=3,x=4,y=1: x stands twice")
        self.assertEqual(self.refused("--at", "x=3", text="int main() { }"), "<stdin>: --at x=3: the program has no variables")
        self.assertEqual(self.refused("--at", "x=9223372036854775808,y=0"), "<stdin>: --at x=9223372036854775808,y=0: a number is greater than 9223372036854775807 in size, or is spelled -0")

    def test_help_and_version(self):
        status, out, _ = self.run_here("--help")
        self.assertEqual(status, 0)
        self.assertIn("claims nothing of its own", " ".join(out.split()))
        self.assertEqual(self.run_here("--version"), (0, "terminates 1\n", ""))

    def test_the_manual_page_has_each_word(self):
        page = (TOP / "companion/terminates.1").read_text().replace("\\-", "-")
        words = {word for word in self.run_here("--help")[1].replace(",", " ").replace("[", " ").replace("]", " ").split() if word.startswith("-") and word != "-"}
        self.assertEqual({word for word in words if word not in page}, set())
        self.assertGreater(len(words), 12)


class Trouble(InFolder):
    def test_a_file_that_is_not_there(self):
        self.assertEqual(self.run_here("none.c"), (20, "", "none.c: it can't be read: No such file or directory\n"))

    def test_a_folder_without_r(self):
        (self.folder / "sub").mkdir()
        self.assertEqual(self.run_here("sub"), (20, "", "sub: it is a folder: -r takes the .c files below it\n"))
        self.assertEqual(self.run_here("-r", "sub"), (20, "", "sub: no .c file is below it\n"))

    def test_a_command_that_is_not_built(self):
        status, out, err = self.run_here(command=self.folder / "none", text=ENDS)
        self.assertEqual((status, out), (21, ""))
        self.assertTrue(err.startswith(f"terminates: the command isn't built: there is no program {self.folder / 'none'}"), err)
        self.assertEqual(len(err.splitlines()), 1)

    def test_a_command_that_is_killed(self):
        self.assertEqual(self.run_here(command=self.stand_in("kill -9 $$"), text=ENDS), (22, "", "<stdin>: the command was killed by signal 9\n"))

    def test_a_command_that_runs_past_the_limit(self):
        self.assertEqual(self.run_here("--timeout", "0.2", command=self.stand_in("exec sleep 30"), text=ENDS), (23, "", "<stdin>: no answer within 0.2 seconds\n"))

    def test_an_answer_that_is_not_understood(self):
        self.assertEqual(self.run_here(command=self.stand_in("echo hello"), text=ENDS), (24, "", "<stdin>: the command's answer isn't understood: no report: hello\n"))
        self.assertEqual(self.run_here(command=self.stand_in("exit 70"), text=ENDS), (24, "", "<stdin>: the command's answer isn't understood: status 70\n"))

    def test_the_statuses_of_streams_and_memory_stay(self):
        for status, why in ((5, "the command couldn't read"), (6, "the command couldn't write"), (7, "the command ran out of memory")):
            self.assertEqual(self.run_here(command=self.stand_in(f"exit {status}"), text=ENDS), (status, "", f"<stdin>: {why}\n"))

    def test_a_program_that_cannot_be_run(self):
        self.assertEqual(self.run_here(command=self.write_program("no program\x00"), text=ENDS), (21, "", "<stdin>: the command can't be run: Exec format error\n"))

    def write_program(self, text):
        path = self.write("odd", text)
        path.chmod(0o755)
        return path


class Terminal(StringIO):
    def isatty(self):
        return True


class SeveralFiles(InFolder):
    def test_each_file_has_its_answer_and_a_row_of_the_table(self):
        self.write("a.c", ENDS)
        self.write("b.c", "int main() { @ }\n")
        self.write("d.c", FOR_EVER)
        status, out, err = self.run_here("a.c", "b.c", "c.c", "d.c")
        self.assertEqual(status, 20)
        self.assertEqual(err, "b.c:1:14: no token of the language begins here: @\n  int main() { @ }\n               ^\nc.c: it can't be read: No such file or directory\n")
        shown, table = out.split("\n\n")
        self.assertEqual(shown, "a.c: ends from all inputs\n  x <= 0: exactly 1 step\n  x >= 1: within 2*x + 1 steps\n  of these, x == 1: exactly 3 steps\n"
                                "d.c: ends from some inputs, never ends (some run) from all others\n  x <= 0: exactly 1 step\n  x >= 1: never ends (some run)")
        # of the inputs from -10 to 10, 11 of 21 are at most 0
        rows = [line.split("  ") for line in table.splitlines()]
        self.assertEqual([[cell.strip() for cell in row if cell][:-1] for row in rows[1:-1]],
                         [["a.c", "ends from all inputs", "100%", "0%"], ["b.c", "program: fault 1", "-", "-"],
                          ["c.c", "it can't be read: No such file or directory", "-", "-"], ["d.c", "ends from some inputs, never ends (some run) from all others", "52%", "48%"]])
        self.assertEqual(rows[-1], ["4 files: 1 whole, 1 in part or unknown, 2 without an answer"])

    def test_folders_are_taken_with_r_in_the_order_of_names(self):
        for name in ("sub/b.c", "sub/a.c", "sub/deep/c.c", "sub/d.txt"):
            self.write(name, ENDS)
        _, out, _ = self.run_here("-r", "sub", "--json")
        self.assertEqual([json.loads(line)["file"] for line in out.splitlines()], ["sub/a.c", "sub/b.c", "sub/deep/c.c"])

    def test_order_is_that_of_the_files_however_long_each_takes(self):
        slow = self.stand_in("read line; case $line in *slow*) sleep 0.4 ;; esac; printf 'exact: not a plain program\\nproved:\\nalways: within 1 step\\nunknown:\\nverdict: all inputs\\n'")
        self.write("slow.c", "// slow\n")
        self.write("fast.c", "// fast\n")
        for jobs in ("1", "2"):
            _, out, _ = self.run_here("slow.c", "fast.c", "--jobs", jobs, command=slow)
            self.assertEqual(out.splitlines()[:4], ["slow.c: ends from all inputs", "  always: within 1 step", "fast.c: ends from all inputs", "  always: within 1 step"])

    def test_one_file_past_its_limit_loses_nothing_of_the_others(self):
        slow = self.stand_in("read line; case $line in *slow*) exec sleep 30 ;; esac; printf 'exact: not a plain program\\nproved:\\nalways: within 1 step\\nunknown:\\nverdict: all inputs\\n'")
        for name in ("a", "b"):
            self.write(f"{name}.c", "// fast\n")
        self.write("aa.c", "// slow\n")
        status, out, err = self.run_here("a.c", "aa.c", "b.c", "--timeout", "3", command=slow)
        self.assertEqual((status, err), (23, "aa.c: no answer within 3 seconds\n"))
        self.assertIn("3 files: 2 whole, 0 in part or unknown, 1 without an answer", out)

    def test_the_second_question_has_what_is_left_of_the_time(self):
        report = "exact: not a plain program\\nproved:\\nunknown:\\nalways: unknown\\nverdict: some inputs\\n"
        slow = self.stand_in(f"case $1 in --ctl*) exec sleep 30 ;; esac; printf '{report}'; exit 1")
        self.assertEqual(self.run_here("--timeout", "3", command=slow, text=STEPS), (23, "<stdin>: unknown\n  always: unknown\n", "<stdin>: whether runs never end: no answer within 3 seconds\n"))

    def test_a_bar_shows_on_a_terminal_alone(self):
        self.write("a.c", ENDS)
        self.write("b.c", ENDS)
        self.assertEqual(self.run_here("a.c", "b.c")[2], "")
        with mock.patch.object(sys, "stderr", Terminal()) as screen:
            bar = Progress(2)
            bar.step()
            bar.clear()
        self.assertEqual(screen.getvalue(), "\r[" + "." * 30 + "] 0 of 2\r[" + "#" * 15 + "." * 15 + "] 1 of 2\r\x1b[K")


class AsAProcess(InFolder):
    def test_names_and_texts_that_the_terminal_cannot_show(self):
        self.write("gr\u00f6\u00dfer.c", "int main() { \u00e9 }")
        with mock.patch.dict(os.environ, {"PYTHONIOENCODING": "ascii"}):
            self.assertEqual(spawned("gr\u00f6\u00dfer.c", folder=self.folder)[::2],
                             (3, "gr\\xf6\\xdfer.c:1:14: no token of the language begins here: \\xe9\n  int main() { \\xe9 }\n               ^\n"))

    def test_the_script_runs(self):
        self.write("f.c", ENDS)
        self.assertEqual(spawned("f.c", folder=self.folder)[0], 0)

    def test_a_reader_that_goes_away(self):
        read, write = os.pipe()
        os.close(read)
        try:
            ended = subprocess.run([sys.executable, TOP / "companion"], input=ENDS.encode(), stdout=write, stderr=subprocess.PIPE, check=False)
        finally:
            os.close(write)
        self.assertEqual((ended.returncode, ended.stderr), (141, b""))


class Objects(InFolder):
    def test_an_object_has_all_that_a_report_has(self):
        self.write("f.c", FOR_EVER)
        status, out, err = self.run_here("f.c", "--json")
        self.assertEqual((status, err), (1, ""))
        at_most_0 = {"condition": "x <= 0", "rows": [{"coefficients": {"x": -1}, "constant": 0}]}
        at_least_1 = {"condition": "x >= 1", "rows": [{"coefficients": {"x": 1}, "constant": -1}]}
        one = {"coefficients": {}, "constant": 1}
        self.assertEqual(json.loads(out), {
            "file": "f.c", "status": 1, "formula": None, "says": "ends from some inputs, never ends (some run) from all others", "verdict": "some inputs", "header": "exact, 2 tests",
            "exact": [{**at_most_0, "claim": {"kind": "exactly", "steps": one}}], "proved": [{**at_most_0, "claim": {"kind": "within", "steps": one}}], "ranked": [], "fits": [],
            "unknown": [{**at_least_1, "claim": {"kind": "unknown"}}], "never": [{**at_least_1, "claim": {"kind": "never", "runs": "some"}}], "left": [],
            "at": None, "changes": [], "fault": None, "trouble": None})

    def test_a_fault_has_its_line_and_column(self):
        self.write("f.c", "int main() {\n  unsigned int x;\n}\n")
        found = json.loads(self.run_here("f.c", "--json")[1])
        self.assertEqual((found["status"], found["verdict"], found["proved"]), (3, None, []))
        self.assertEqual({key: found["fault"][key] for key in ("of", "number", "offset", "line", "column", "word")}, {"of": "program", "number": 4, "offset": 24, "line": 2, "column": 12, "word": "int"})

    def test_one_input_and_trouble(self):
        self.write("f.c", STEPS)
        found = json.loads(self.run_here("f.c", "--json", "--at", "x=10,y=-1")[1])
        self.assertEqual(found["at"], {"input": "x=10,y=-1", "claim": {"kind": "within", "steps": {"coefficients": {}, "constant": 21}}})
        found = json.loads(self.run_here("none.c", "--json")[1])
        self.assertEqual((found["status"], found["trouble"]), (20, "it can't be read: No such file or directory"))


if __name__ == "__main__":
    unittest.main()
