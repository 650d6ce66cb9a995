"""Texts as people have them: what is changed, what isn't, and what programs written as the competitions write them are told."""
import itertools
import re
import unittest
from pathlib import Path

from command import Deadline, ask, path
from questions import Question, answer
from running import InFolder
from texts import changed, changes_for
from tokens import chooses_without_bounds, declared, tokens

FAMILIES = Path(__file__).resolve().parent / "families"
CHOICE = "__VERIFIER_nondet_int()"


def after(text, inputs=True):
    return changed(text, changes_for(text, inputs))


def squeezed(text):
    """A text without its blanks, as far as they mean nothing."""
    return " ".join(token.text for token in tokens(text))


class Inputs(unittest.TestCase):
    CASES = [
        # assignments at the front become inputs
        (f"int main() {{ int x, y; x = {CHOICE}; y = ?; while (x > y) x--; }}", "int main() { int x, y; while (x > y) x--; }"),
        (f"int main() {{ int x = {CHOICE}, y = [-inf, inf]; ; }}", "int main() { int x, y; ; }"),
        # so does one behind a statement that hasn't its variable
        (f"int main() {{ int i = 0; int n = {CHOICE}; while (i < n) i++; }}", "int main() { int i = 0; int n; while (i < n) i++; }"),
        # but none whose variable was read or set before
        (f"int main() {{ int x, y; y = x; x = {CHOICE}; }}", None),
        (f"int main() {{ int x = 3; x = {CHOICE}; }}", None),
        # nor a choice in a range, behind a test, or in a sum
        ("int main() { int x = [0, 9]; }", None),
        (f"int main() {{ int x; if (x > 0) x = {CHOICE}; }}", None),
        (f"int main() {{ int x; ; x = {CHOICE}; }}", None),
        (f"int main() {{ int x = {CHOICE} + 1; }}", None),
        (f"int main() {{ int x; {{ x = {CHOICE}; }} }}", None),
        (f"int main() {{ int x; x += {CHOICE}; }}", None),
        # nor one of a name that isn't declared: its fault stays
        (f"int main() {{ x = {CHOICE}; int x; }}", None),
        # in a comment nothing is changed
        (f"int main() {{ int x; /* x = {CHOICE}; */ while (x > 0) x--; }}", None),
    ]

    def test_choices_at_the_front(self):
        for text, due in self.CASES:
            with self.subTest(text):
                self.assertEqual(squeezed(after(text)), squeezed(due or text))
                self.assertEqual(changes_for(text, False), [])

    def test_each_change_keeps_length_and_lines(self):
        texts = [text for text, _ in self.CASES] + [path.read_text() for path in FAMILIES.glob("*.c")]
        for text in texts:
            new = after(text)
            self.assertEqual([len(line) for line in text.split("\n")], [len(line) for line in new.split("\n")])
            for change in changes_for(text, True):
                self.assertEqual((text[change.offset:change.offset + len(change.old)], len(change.old)), (change.old, len(change.new)))

    def test_a_changed_text_needs_no_more(self):
        for path in FAMILIES.glob("*.c"):
            self.assertEqual(changes_for(after(path.read_text()), True), [], path.name)


class Directives(unittest.TestCase):
    def test_lines_without_a_meaning_are_left_out(self):
        self.assertEqual(after("#include <a.h>\n  # pragma once\n#define N 3 \\\n  + 4\n# 1 \"f.c\"\n#\nint main() { }"), " " * 14 + "\n  " + " " * 13 + "\n" + " " * 13 + "\n" + " " * 5 + "\n" + " " * 9 + "\n \nint main() { }")

    def test_those_that_have_one_stay(self):
        for text in ("#if 0\nint main() { ; }\n#endif\n", "#define N 3\nint main() { int x = N; }", "#define x y\nint main() { int x; }", "#error no\nint main() { }", "#undef N\nint main() { }"):
            self.assertEqual(after(text), text)

    def test_a_hash_in_a_comment_is_no_line_of_the_preprocessor(self):
        for text in ("/*\n# include <a.h>\n*/ int main() { }", "int main() { } // # include"):
            self.assertEqual(after(text), text)


class Declarations(InFolder):
    READ = "extern int __VERIFIER_nondet_int(void); extern int __VERIFIER_nondet_int(); int main() { }"

    def test_known_ones_are_left_out(self):
        for text in ("extern void abort(void);", "extern void __VERIFIER_assume(int);", "int __VERIFIER_nondet_int();", "void reach_error();", "extern int printf(const char *, ...);",
                     "extern void __assert_fail(const char *a, const char *b, unsigned int c, const char *d);"):
            self.assertEqual(after(text + " int main() { }"), " " * len(text) + " int main() { }")

    def test_those_of_functions_that_the_text_has_are_left_out(self):
        for before, declared_first, behind in [("", "int f(int);", " int f(int a) { return a; } int main() { }"), ("", "extern void f(void);", " void f() { { ; } } int main(void) { f(); }"),
                                               ("int f(int a) { return a; }", "int g(int a, int);", "int g(int b, int c) { return f(b); } int main() { }"),
                                               ("typedef enum {false, true} bool; ", "int main(void);", " int main() { }"), ("int g() { return 1; } ", "int f(int a);", " int main() { } int f(int a) { return a; }")]:
            with self.subTest(declared_first):
                self.assertEqual(after(before + declared_first + behind), before + " " * len(declared_first) + behind)

    def test_others_stay(self):
        for text in (self.READ, "extern int twice(int); int main() { }", "int f() { } int main() { }", "int x; int main() { }", "int main() { int abort; }", "int x = abort(); int main() { }",
                     "int main() { f(1); } int g() { }", "int f(int); int main() { int f; }", "(); int main() { }", "int f(", "} f(); {", ");"):
            self.assertEqual(after(text), text)

    def test_a_program_with_them_is_read(self):
        self.write("f.c", "int less(int a);\n\nint less(int a) {\n  return a - 1;\n}\n\nint main(void) {\n  int x;\n  while (x > 0)\n    x = less(x);\n}\n")
        self.assertEqual(self.run_here("f.c"), (0, "f.c: ends from all inputs\n  x <= 0: exactly 1 step\n  x == 1: exactly 4 steps\n  x >= 2: within 3*x + 1 steps\n", "f.c: 1 place of the text was changed (--show-text shows them)\n"))


class Elses(InFolder):
    CASES = [
        # one behind a part that always returns, where something follows
        ("int f(int a) { if (a > 0) return 1; else if (a < 0) return 2; return 3; }", "int f(int a) { if (a > 0) return 1; if (a < 0) return 2; return 3; }"),
        ("int f(int a) { if (a) { ; { return 1; } } else { a = 2; } return a; }", "int f(int a) { if (a) { ; { return 1; } } { a = 2; } return a; }"),
        ("int f(int a) { { if (a) { if (a > 2) return 1; else return 2; } else if (a < 1) return 2; else a = 3; ; } return a; }",
         "int f(int a) { { if (a) { if (a > 2) return 1; else return 2; } if (a < 1) return 2; a = 3; ; } return a; }"),
        ("void f(int a) { while (a > 0) { do a = a - 1; while (a > 9); } if (a) return; else a = 2; for (; a > 0;) a = a - 1; }",
         "void f(int a) { while (a > 0) { do a = a - 1; while (a > 9); } if (a) return; a = 2; for (; a > 0;) a = a - 1; }"),
        # not where nothing follows, where the part may go on, or where the if is itself a part
        ("int f(int a) { if (a > 0) return 1; else if (a < 0) return 2; else return 3; }", None),
        ("int f(int a) { if (a > 0) { if (a > 1) return 1; } else return 2; return 3; }", None),
        ("int f(int a) { if (a > 0) if (a > 1) return 1; else a = 2; return 3; }", None),
        ("int f(int a) { while (a > 0) if (a > 1) return 1; else a = 2; return 3; }", None),
        # nor past the levels of the language
        ("int f(int a) { " + "{ " * 20000 + "if (a) return 1; else ; return 2; " + "} " * 20000 + "}", None),
        ("int f(int a) { " + "if (a) " * 9000 + "return 1; else ; return 2; }", None),
        ("int f(int a) { " + "if (a) return 1; else " * 5000 + "; return 2; }", None),
        # nor in a text that is none
        ("int f(int a) { if (a > 0 return 1; else a = 2; return 3; }", None),
        ("int f(int a) { if (a > 0) return 1 else }", None),
        ("int f(int a) { do return 1; else a = 2 }", None),
    ]

    def test_needless_ones_are_left_out(self):
        for text, due in self.CASES:
            with self.subTest(text):
                self.assertEqual(squeezed(after(text + " int main() { }")), squeezed((due or text) + " int main() { }"))

    def test_those_of_main_stay(self):
        text = "int main() { int x; if (x > 0) return 1; else x = 2; x = 3; }"
        self.assertEqual(after(text), text)

    def test_a_function_with_them_is_read(self):
        self.write("f.c", "int sign(int a) {\n  if (a > 0)\n    return 1;\n  else if (a < 0)\n    return -1;\n  return 0;\n}\nint main() {\n  int x, y;\n  y = sign(x);\n}\n")
        self.assertEqual(self.run_here("f.c", "--show-text"), (0, "f.c:4:3: an else behind a return is left out: else\nf.c: ends from all inputs\n  always: within 4 steps\n  of these, x <= 0: exactly 4 steps\n  of these, x >= 1: exactly 3 steps\n", ""))


class TruthValues(unittest.TestCase):
    TYPEDEF = "typedef enum {false, true} bool; "

    def test_behind_the_typedef_they_are_numbers(self):
        cases = [("int main() { bool c; c = true; }", "int main() { int c; c = 1; }"), ("int main() { bool c = false, d = true; }", "int main() { int c = 0, d = 1; }"),
                 ("int main() { bool c; while (c == true) c = false; }", "int main() { int c; while (c == 1) c = 0; }"), ("int main() { bool c; if (true != c) ; }", "int main() { int c; if (1 != c) ; }"),
                 ("int main() { while (true) ; }", None), ("int main() { int x; if (x > 0 && true || !false) ; }", None), ("int main() { return true; }", None)]
        for text, due in cases:
            with self.subTest(text):
                self.assertEqual(squeezed(after(self.TYPEDEF + text)), squeezed(self.TYPEDEF + (due or text)))

    def test_without_it_they_stay(self):
        text = "int main() { bool c; c = true; }"
        self.assertEqual(after(text), text)


class Looking(InFolder):
    def test_names_stand_in_the_order_of_their_declarations(self):
        self.assertEqual(declared("extern int __VERIFIER_nondet_int(void); int main(void) { int b, a = [0, 3], c = (1 + b); for (int i = 0; i < 3; i++) { int b2; } int a; }"), ["b", "a", "c", "i", "b2"])
        self.assertEqual(declared("int main() { }"), [])

    def test_those_of_functions_are_their_own(self):
        self.assertEqual(declared("int f(int a, int b) { int c = a; return c; } void g() { int d; } int main() { int e = f(1, 2), x; g(); }"), ["e", "x"])
        self.write("f.c", "void down(int n) { while (n > 0) n = n - 1; } int main() { int x; down(x); }")
        self.assertEqual(self.run_here("f.c", "--at", "x=3"), (0, "f.c: from x=3: within 8 steps\n", ""))
        self.assertEqual(self.run_here("f.c", "--at", "n=3")[2], "f.c: --at n=3: the program has no variable n; its variables are x\n")

    def test_only_an_assignment_chooses_without_bounds(self):
        for text, due in (("x = ?;", True), ("x = y + __VERIFIER_nondet_int();", True), ("x = [0, inf];", True), ("x = [-inf, 3] + 1;", True), ("int x = ?, y;", True), ("x += ?;", True),
                          ("for (x = ?; x > 0; x--) ;", True), ("x = [0, 9];", False), ("if (?) x = 1;", False), ("while (x == ?) x = 2;", False), ("if (__VERIFIER_nondet_int() > 3) x = 1;", False),
                          ("for (x = 1; ?; x = x - 1) ;", False), ("int x = 1, y; while (?) ;", False), ("x = 1; /* = ? */", False), ("return ?;", False), ("x = (1); if (?) ;", False)):
            with self.subTest(text):
                self.assertEqual(chooses_without_bounds("int main() { " + text + " }"), due)


class Shown(InFolder):
    def test_each_change_is_told(self):
        self.write("f.c", f"#include <a.h>\nint main() {{\n  int x;\n  x = {CHOICE};\n  while (x > 0) x = x - 1;\n}}\n")
        status, out, err = self.run_here("f.c", "--inputs", "--show-text")
        self.assertEqual((status, out.splitlines()[:3], err),
                         (0, ["f.c:1:1: a line of the preprocessor is left out: #include <a.h>", "f.c:4:3: x is an input: x = __VERIFIER_nondet_int();", "f.c: ends from all inputs"], ""))
        status, out, err = self.run_here("f.c", "--inputs")
        self.assertEqual((out.splitlines()[0], err), ("f.c: ends from all inputs", "f.c: 2 places of the text were changed, of which 1 took a step that isn't counted now (--show-text shows them)\n"))

    def test_without_the_word_no_bound_is_known(self):
        self.write("f.c", f"int main() {{\n  int x;\n  x = {CHOICE};\n  while (x > 0) x = x - 1;\n}}\n")
        self.assertEqual(self.run_here("f.c"), (0, "f.c: ends from all inputs\n  always: ends, rank w*(1) + 1\n", "f.c: main chooses x first, and no bound can speak of that; --inputs takes it as an input\n"))
        self.write("f.c", f"int main() {{\n  int y, x = {CHOICE};\n  y = {CHOICE};\n  while (x > y) x = x - 1;\n}}\n")
        self.assertEqual(self.run_here("f.c")[2], "f.c: main chooses x, y first, and no bound can speak of that; --inputs takes them as inputs\n")

    def test_as_is_changes_nothing(self):
        self.write("f.c", "#include <a.h>\nint main() { }\n")
        self.assertEqual(self.run_here("f.c")[0], 0)
        self.assertEqual(self.run_here("f.c", "--as-is")[0], 3)

    def test_a_place_behind_a_change_stays(self):
        self.write("f.c", "#include <a.h>\nextern void abort(void);\nint main() { abort(); }\n")
        self.assertEqual(self.run_here("f.c")[2].splitlines()[1], "f.c:3:14: this name isn't declared here: abort")


def never(*_):
    return False


def ever(*_):
    return True


class Families(unittest.TestCase):
    """Programs in the form of the competitions' files. By hand: the variables that are inputs, from which of them each run ends, and from which of them that is told at least."""

    ENDS = {
        "break_out": ("x", ever, ever), "chosen_in_loop": ("x", ever, ever), "constant_first": ("n", ever, ever), "counts_down": ("x", ever, ever), "counts_up": ("i n", ever, ever),
        "do_while": ("x", ever, ever), "double_step": ("x y", ever, lambda x, y: x < y), "equal_twice": ("x y", ever, lambda x, y: x != y or x <= 0), "euclid": ("x y", ever, lambda x, y: x <= 0 or y <= 0 or x == y),
        "flag_in_loop": ("x", ever, ever), "flag_negated": ("x", ever, ever), "for_loop": ("n", ever, ever), "guarded_step": ("x y", ever, ever), "halving": ("x", ever, ever), "includes": ("x", ever, ever),
        "nested_for": ("n", ever, never), "never_stops": ("x", lambda x: x <= 0, lambda x: x <= 0), "nondet_main_void": ("a b", ever, ever),
        "odd_jump": ("x", lambda x: x >= 0 and x % 2 == 0, lambda x: x == 0), "phases": ("x y", ever, lambda x, y: x <= 0 or y < 0), "plus_plus": ("x z", ever, ever), "prototypes": ("x", ever, ever),
        "ranges": ("i j", ever, ever), "stays_at_ten": ("x", lambda x: x <= 10, lambda x: x <= 10), "step_of_y": ("x y", lambda x, y: x < 0 or y < 0, lambda x, y: x < 0 or y < 0), "swap": ("x y", ever, ever),
        "two_flags": ("n", ever, ever), "two_variables": ("x y", ever, lambda x, y: x <= 0 or y <= 0), "up_and_down": ("x", ever, ever),
    }
    # From which inputs a run that never ends is told at least, where there is one.
    NEVER = {"never_stops": lambda x: x >= 1, "stays_at_ten": lambda x: x >= 11, "odd_jump": lambda x: x < 0 or x == 1}
    REFUSED = {"array_use": (10, 10, "there are no arrays"), "assumes": (7, 5, "there is no assume"), "unsigned_one": (10, 14, "write int for unsigned")}

    def told(self, name):
        return answer(path(), Question({}, inputs=True), name, (FAMILIES / f"{name}.c").read_text())

    def test_what_is_told_of_each_input(self):
        for name, (names, ends, due) in self.ENDS.items():
            with self.subTest(name):
                result = self.told(name)
                self.assertIsNone(result.trouble or result.told)
                for values in itertools.product(range(-4, 13, 1 if len(names) == 1 else 3), repeat=len(names.split())):
                    store = dict(zip(names.split(), values))
                    yes = any(all(row.value(store) >= 0 for row in line.rows) for line in result.report.lines("proved"))
                    no = any(all(row.value(store) >= 0 for row in line.rows) for line in result.never)
                    self.assertFalse(yes and not ends(*values), store)
                    self.assertFalse(no and ends(*values), store)
                    self.assertTrue(yes or not due(*values), store)
                    self.assertTrue(no or not self.NEVER.get(name, never)(*values), store)

    def test_no_file_is_read_without_being_listed(self):
        self.assertEqual({path.stem for path in FAMILIES.glob("*.c")}, {*self.ENDS, *self.REFUSED})

    def test_what_is_refused_is_told_in_words(self):
        for name, (line, column, hint) in self.REFUSED.items():
            with self.subTest(name):
                told = self.told(name).told
                self.assertEqual((told.line, told.column), (line, column))
                self.assertIn(hint, told.hint)

    def test_the_command_reads_them_so_only_with_the_changes(self):
        # 3 of them need no change but that of their inputs; without it they end by a rank, with no bound by the input
        result = answer(path(), Question({}, as_is=True), "counts_down", (FAMILIES / "counts_down.c").read_text())
        self.assertEqual(([line.claim.kind for line in result.report.lines("ranked")], result.left), (["ends"], []))
        self.assertEqual(ask(path(), [], (FAMILIES / "two_flags.c").read_text(), Deadline()).status, 3)
        self.assertTrue(re.match(r"program: \d+ at \d+", ask(path(), [], (FAMILIES / "includes.c").read_text(), Deadline()).text))


if __name__ == "__main__":
    unittest.main()
