"""The words of the command line. Those that the command knows are handed on as they come, and a wrong one is told."""
import argparse
import re
from dataclasses import dataclass

VERSION = "1"
MOST_WIDE = 200
DOMAINS = ("boxes", "octagons", "polyhedra")
CLAIMS_NOTHING = "It claims nothing of its own: it runs the proved command, reads its lines and shows them. What is a theorem is what the command writes (docs/PROOFS.md)."


@dataclass(frozen=True)
class HandedOn:
    """An option of the command: its name, the word for its value or None where it is a flag, how a value is checked, and its help; and whether it asks something else than if each run ends."""

    name: str
    value: str | None
    check: object
    help: str
    asks: bool = False


def domain(text):
    if text not in DOMAINS:
        raise argparse.ArgumentTypeError(f"{text!r} is no domain: choose one of {', '.join(DOMAINS)}")
    return text


def delay(text):
    if not re.fullmatch("[0-8]", text):
        raise argparse.ArgumentTypeError(f"{text!r} is no digit from 0 to 8")
    return text


HANDED_ON = (
    HandedOn("ctl", "TEXT", str, "from which inputs does this formula of CTL hold? (docs/FORMULAS.md)", asks=True),
    HandedOn("domain", "NAME", domain, f"what is kept of the stores: {', '.join(DOMAINS)}"),
    HandedOn("delay", "N", delay, "a digit from 0 to 8: how long the exact part is, and when bounds are guessed"),
    HandedOn("at", "INPUT", str, "what is claimed of one input, as x=1,y=-2"),
    HandedOn("fit", None, None, "from which inputs do all numbers of its runs fit the 32 bits of C's int? --domain alone stands beside it", asks=True),
    HandedOn("refine", None, None, "split regions in which a guess at a bound fails; stands without --ctl"),
)


def seconds(text):
    try:
        number = float(text)
    except ValueError:
        number = 0.0
    if not 0 < number < 1e9:
        raise argparse.ArgumentTypeError(f"{text!r} is no number of seconds above 0")
    return number


def count(text):
    if not re.fullmatch("[1-9][0-9]{0,3}", text):
        raise argparse.ArgumentTypeError(f"{text!r} is no number from 1 to 9999")
    return int(text)


class Once(argparse.Action):
    """Keeps the value of an option that stands once."""

    def __call__(self, _parser, namespace, value, option_string=None):
        if getattr(namespace, self.dest) is not None:
            raise argparse.ArgumentError(self, "stands twice")
        setattr(namespace, self.dest, True if self.nargs == 0 else value)


def picture_file(text):
    if text != "-" and not text.endswith((".svg", ".png")):
        raise argparse.ArgumentTypeError(f"{text!r} is no name for a picture: it ends in .svg or .png, or is - for letters")
    return text


def end(text):
    if not re.fullmatch("0|-?[1-9][0-9]{0,5}", text):
        raise argparse.ArgumentTypeError(f"{text!r} is no number of at most six digits")
    return int(text)


class Picture(argparse.Action):
    """Reads the words of a picture: two names and a file."""

    def __call__(self, _parser, namespace, values, option_string=None):
        try:
            setattr(namespace, self.dest, (values[0], values[1], picture_file(values[2])))
        except argparse.ArgumentTypeError as error:
            raise argparse.ArgumentError(self, str(error)) from None


def parser():
    """The parser of the command line."""
    found = argparse.ArgumentParser(
        prog="terminates", allow_abbrev=False, epilog=CLAIMS_NOTHING,
        description="Shows from which inputs a program ends, within how many steps, and from which some run never ends.")
    found.add_argument("files", metavar="FILE", nargs="*", help="programs; - or none is standard input")
    found.add_argument("--version", action="version", version=f"terminates {VERSION}")
    for option in HANDED_ON:
        if option.value is None:
            found.add_argument(f"--{option.name}", action=Once, nargs=0, help=option.help)
        else:
            found.add_argument(f"--{option.name}", action=Once, metavar=option.value, type=option.check, help=option.help)
    found.add_argument("-r", "--recursive", action="store_true", help="take folders, and each .c file below them")
    found.add_argument("--jobs", metavar="N", type=count, help="how many files are looked at side by side (all processors)")
    found.add_argument("--timeout", metavar="SECONDS", type=seconds, help="how long the command may take on a file")
    found.add_argument("--ends-only", action="store_true", help="leave out the second question, whether runs never end")
    found.add_argument("--inputs", action="store_true", help="take the numbers that main chooses first as its inputs")
    found.add_argument("--as-is", action="store_true", help="hand each text on unchanged")
    found.add_argument("--show-text", action="store_true", help="show each change of a text")
    found.add_argument("--picture", metavar=("X", "Y", "FILE"), nargs=3, action=Picture, help="draw the regions over two variables, into a .svg or .png file, or for - as letters; --at fixes others, which are 0 else")
    found.add_argument("--window", metavar=("LOW", "HIGH"), nargs=2, type=end, default=(-10, 10), help="which numbers a picture shows (-10 10)")
    found.add_argument("--json", action="store_true", help="write an object for each file (docs/TERMINATES.md)")
    return found


def handed_on(words):
    """The options for the command that were given, by their names."""
    return {option.name: value for option in HANDED_ON if (value := getattr(words, option.name)) is not None}


def asks_otherwise(given):
    """Whether one of the options that were given asks something else than if each run ends."""
    return any(option.asks and option.name in given for option in HANDED_ON)


def parse(words):
    """The words as argparse reads them. Ends the program with 2, and says which word is wrong."""
    found = parser()
    read = found.parse_args(words)
    if read.inputs and read.as_is:
        found.error("--inputs changes a text, and --as-is hands it on unchanged: take one of them")
    if read.fit and any(getattr(read, name) is not None for name in ("ctl", "delay", "at")):
        found.error("--fit asks one question, and of these options takes --domain alone")
    if read.refine and read.ctl is not None:
        found.error("--refine is about the end of each run, and --ctl asks about a formula: take one of them")
    if read.picture and (len(read.files) > 1 or read.recursive or read.json):
        found.error("--picture is of one file, and stands without --json")
    if not 0 < read.window[1] - read.window[0] <= MOST_WIDE:
        found.error(f"--window {read.window[0]} {read.window[1]}: the second number is greater than the first, by at most {MOST_WIDE}")
    return read
