"""The pages show what the command and the companion write, and docs/TERMINATES.md has each of its words and statuses."""
import json
import re
import unittest

import command
import shown
from running import TOP, terminates


class Page(unittest.TestCase):
    maxDiff = None

    def test_each_run_is_shown_as_it_is(self):
        self.assertEqual(list(shown.wrong(shown.command())), [])
        self.assertGreater(len(shown.BLOCK.findall(shown.PAGE.read_text())), 8)

    def test_each_word_has_a_place_on_the_page(self):
        page = shown.PAGE.read_text()
        words = set(re.findall(r"--[a-z-]+", terminates("--help")[1])) - {"--help", "--version"}
        self.assertGreater(len(words), 12)
        self.assertEqual({word for word in words if word not in page}, set())

    def test_each_status_of_its_own_is_listed(self):
        own = {value for name, value in vars(command).items() if name.isupper() and isinstance(value, int)}
        for page, form in ((shown.PAGE.read_text(), r"(?m)^\| (2\d) \|"), ((TOP / "companion/terminates.1").read_text(), r"(?m)^\.B (2\d)$")):
            self.assertEqual({int(number) for number in re.findall(form, page)}, own)

    def test_each_field_of_an_object_is_listed(self):
        fields = set(json.loads(terminates("--json", "examples/once.c")[1]))
        table = shown.PAGE.read_text().split("| field | what it holds |")[1].split("\n\n")[0]
        self.assertEqual({name for row in table.splitlines() if row.startswith("| `") for name in re.findall(r"`(\w+)`", row.split("|")[1])}, fields)


if __name__ == "__main__":
    unittest.main()
