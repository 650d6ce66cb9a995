"""Faults in words, as the command finds them: where, what, and what to write instead. Lines and columns are counted by hand."""
import unittest

from faults import OF_FORMULAS, OF_PROGRAMS
from running import TOP, InFolder


def inside(text):
    """A program with the text as its second line."""
    return "int main() {\n" + text + "\n}\n"


class OfPrograms(InFolder):
    # The second line, the column of the fault, what is said of it, the word there, and a part of the hint.
    USUAL = [
        ("unsigned int x;", 10, "no program goes on like this", "int", "write int for unsigned"),
        ("  bool c;", 3, "no program goes on like this", "bool", "write int, with 1 for true"),
        ("int a[10];", 6, "no program goes on like this", "[", "there are no arrays"),
        ("int x; x = f(3);", 12, "this name isn't declared here", "f", "no function f ends above"),
        ("int x; x = 1 + f(3);", 17, "no program goes on like this", "(", "a call is a statement of its own"),
        ("int x = f(3) + 1;", 14, "no program goes on like this", "+", None),
        ("int x = f(3);", 9, "this name isn't declared here", "f", "no function f ends above"),
        ("int x; x = 0x10;", 13, "no token of the language begins here", "x10", "in decimal: 16"),
        ("int x; int x;", 12, "this name is declared already", "x", "its first declaration is in line 2"),
        ("int x; assume(x > 0);", 8, "this name isn't declared here", "assume", "write if (c) { .. } around"),
        ("int x; __VERIFIER_assume(x > 0);", 8, "this name isn't declared here", "__VERIFIER_assume", "write if (c) { .. } around"),
        ("long x;", 6, "no program goes on like this", "x", "write int for long"),
        ("int x; x = 010;", 13, "no token of the language begins here", "010", "begins with no 0"),
        ("int x; x = 10u;", 14, "no token of the language begins here", "u", "no suffix"),
        ("int x, y; x = y ? 1 : 2;", 21, "no token of the language begins here", ":", "there is no c ? a : b"),
        ("int x, *p;", 8, "no program goes on like this", "*", "there are no pointers"),
        ("int x, y; x = x / y;", 19, "no program goes on like this", "y", "what divides is a number"),
        ("int x; if (x = 3) ;", 14, "no program goes on like this", "=", "to compare write =="),
        ("int x; x = x++;", 13, "no program goes on like this", "++", "stand alone"),
        ("goto out;", 6, "no program goes on like this", "out", "there is no goto"),
        ("const int n = 3;", 7, "no program goes on like this", "int", "take const out"),
        ("int x; x = x << 1;", 15, "no program goes on like this", "<", "no operators on bits"),
        ("int x; x /= 2;", 10, "no program goes on like this", "/", "there are =, +=, -= and *="),
        ("printf(\"a\");", 8, "no token of the language begins here", "\"", "there are no strings"),
        ("x = 1;", 1, "this name isn't declared here", "x", "write int x; at the start of main"),
        ("{ int y; } y = 1;", 12, "this name isn't declared here", "y", "declare it at the start of main"),
        ("int x; x = x > 1;", 12, "a truth value stands where a number is needed", "x", "if (c) x = 1; else x = 0;"),
        ("int x; x = [3, 1];", 12, "this range is upside down, or an end has the wrong infinity", "[", "[least, greatest]"),
        ("break;", 1, "this stands in no body of a loop", "break", "take the break out"),
        ("int x; while (0 < x < 5) ;", 15, "a truth value stands where a number is needed", "0", "a < b && b < c"),
        ("int x; while (x > 0 and x < 3) ;", 21, "no program goes on like this", "and", "write &&"),
        ("int x; x == 3;", 10, "no program goes on like this", "==", "to assign write ="),
        ("int x; x = (int) 3;", 13, "no program goes on like this", "int", "there are no casts"),
        ("int x; x = 2 * (x + 1;", 22, "no program goes on like this", ";", "is a ) missing"),
        ("int x; if (x) then x = 1;", 20, "no program goes on like this", "x", None),
        ("int x; if x > 0 ;", 11, "no program goes on like this", "x", "a ( is missing behind if"),
    ]

    def refused(self, text, *words):
        self.write("f.c", text)
        status, out, err = self.run_here(*words, "f.c")
        self.assertEqual(out, "")
        return status, err

    def test_usual_causes_have_their_place_and_a_hint(self):
        for line, column, says, word, hint in self.USUAL:
            with self.subTest(line):
                status, err = self.refused(inside(line))
                first, shown, mark, *advice = err.splitlines()
                self.assertEqual((status, first, shown, mark, len(advice)), (3, f"f.c:2:{column}: {says}: {word}", f"  {line}", "  " + " " * (column - 1) + "^", int(hint is not None)))
                self.assertIn(hint or "", "".join(advice))

    def test_a_missing_semicolon_is_told_where_it_belongs(self):
        self.assertEqual(self.refused("int main() {\n  int x;\n  x = x - 1\n  x = 2;\n}\n"),
                         (3, "f.c:4:3: no program goes on like this: x\n    x = 2;\n    ^\n  is a ; missing at the end of line 3?\n"))

    def test_what_stands_outside_main(self):
        for text, place, hint in [("int main(int argc, char **argv) { }", "f.c:1:10", "main has no parameters"), ("int x;\nint main() { }", "f.c:1:6", "variables are declared inside"),
                                  ("int f(int x);\nint main() { }", "f.c:1:13", "there are no prototypes"), ("int main() { }\nvoid f() { }", "f.c:2:1", "the others stand above it"), ("void main() { }", "f.c:1:6", "int main() { .. }"),
                                  ("int f() { }\nint main() { }", "f.c:1:11", "return e; in front of this"), ("int f(int a) { while (a) return 1; return a; }\nint main() { }", "f.c:1:26", "return it behind that"),
                                  ("int f(int a) { if (a > 0) { return 1; } else if (a < 0) return 2; return 3; }\nint main() { }", "f.c:1:29", "take the else behind this out"),
                                  ("int f(int a) { return a; }\nint main() { f(); }", "f.c:2:14", "as many arguments"),
                                  ("#include <stdio.h>\nint main() { }", "f.c:1:1", "take this line out"), ("#define N 3\nint main() { }", "f.c:1:1", "write what the name stands for"),
                                  ("\xef\xbb\xbfint main() { }".encode("latin-1"), "f.c:1:1", "byte order mark"), ("int main() { } }", "f.c:1:16", "a } too much")]:
            with self.subTest(text):
                status, err = self.refused(text, "--as-is")
                self.assertEqual((status, err.split(": ")[0]), (3, place))
                self.assertIn(hint, err)

    def test_the_end_of_the_text(self):
        self.assertEqual(self.refused(""), (3, "f.c:1:1: no program goes on like this: the end of the text\n  \n  ^\n  a program is int main() { .. }\n"))
        status, err = self.refused("int main() { int x; x = 1;")
        self.assertEqual((status, err.splitlines()[0], err.splitlines()[-1]), (3, "f.c:1:27: no program goes on like this: the end of the text", "  1 { is open: is a } missing?"))

    def test_the_other_numbers(self):
        many = "".join(f"int v{number}; " for number in range(16))
        texts = {2: "int main() { int x; x = 9223372036854775808; }", 3: "int main() { } /*", 9: "int main() { " + many + "}",
                 10: "int main() { int x; x = " + "(" * 64 + "1" + ")" * 64 + "; }", 11: "int main() { int x; x = 1" + " + 1" * 257 + "; }", 12: "int main() { " + ";" * 1024 + " }",
                 13: "int main() { int x; while (" + " && ".join(["x != 1"] * 7) + ") ; }", 14: " " * 65537, 18: "int main() { int x; x = x / 0; }", 19: "void f() { return 1; } int main() { }",
                 20: "void f() { } int main() { f(1); }"}
        columns = {2: 25, 3: 16, 9: 14 + len(many) - 5, 10: 25 + 63, 11: 25 + 1 + 4 * 256 + 1, 12: 14 + 1023, 13: 21, 14: 65537, 18: 29, 19: 12, 20: 27}
        for number, text in texts.items():
            with self.subTest(number):
                status, err = self.refused(text)
                self.assertEqual((status, err[:60].startswith(f"f.c:1:{columns[number]}: {OF_PROGRAMS[number]}"[:60])), (3, True), err[:100])

    def test_tabs_and_letters_of_other_scripts_keep_the_mark_in_its_column(self):
        status, err = self.refused("int main() {\n\tint x; /* gr\u00f6\u00dfer */ x = @;\n}\n")
        self.assertEqual((status, err), (3, "f.c:2:26: no token of the language begins here: @\n  \tint x; /* gr\u00f6\u00dfer */ x = @;\n  \t" + " " * 24 + "^\n"))

    def test_line_ends_of_windows(self):
        self.assertEqual(self.refused("int main() {\r\n  int x\r\n  x = 1;\r\n}\r\n")[1],
                         "f.c:3:3: no program goes on like this: x\n    x = 1;\n    ^\n  is a ; missing at the end of line 2?\n")

    def test_each_number_of_the_pages_has_words(self):
        def numbers(page):
            heads = [line for line in (TOP / "docs" / page).read_text().splitlines() if line[:3].strip("| ").isdigit() or line.startswith("| 1")]
            return {int(number) for line in heads for number in line.split("|")[1].split(",")}

        self.assertEqual(set(OF_PROGRAMS), numbers("LANGUAGE.md"))
        self.assertEqual(set(OF_FORMULAS), numbers("FORMULAS.md"))


class OfFormulas(InFolder):
    # The formula, the column, what is said, and a part of the hint.
    CASES = [
        ("AF z == 1", 4, OF_FORMULAS[5] + ": z", "variables are x"),
        ("AF{exit: true}", 8, OF_FORMULAS[1] + ": :", "parentheses"),
        ("AG{x >= 0}", 3, OF_FORMULAS[4] + ": {", "parentheses"),
        ("F x == 0", 3, OF_FORMULAS[4] + ": x", "AF for all"),
        ("x >= 0 -> AF exit", 9, OF_FORMULAS[4] + ": >", "!(f) || g"),
        ("x = 3", 3, OF_FORMULAS[4] + ": =", "write =="),
        ("x * x > 3", 1, OF_FORMULAS[16] + ": x", "no variable"),
        ("", 1, OF_FORMULAS[4] + ": the end of the text", "AG x >= 0"),
        ("x > 9223372036854775808", 5, OF_FORMULAS[2] + ": 9223372036854775808", None),
        ("!" * 65 + "exit", 65, OF_FORMULAS[10] + ": !", None),
        (" " * 4097, 4097, OF_FORMULAS[14], None),
    ]

    def test_faults_of_formulas(self):
        self.write("f.c", "int main() { int x; }")
        for text, column, says, hint in self.CASES:
            with self.subTest(text):
                status, out, err = self.run_here(f"--ctl={text}", "f.c")
                lines = err.splitlines()
                self.assertEqual((status, out, lines[0]), (4, "", f"formula:1:{column}: {says}"))
                self.assertEqual(len(lines), 4 if hint else 3)
                self.assertIn(hint or "", lines[-1])


if __name__ == "__main__":
    unittest.main()
