"""What is asked of the command about one text: whether each run ends, and, where that stays unknown, whether some run or each run goes on for ever."""
import re
from dataclasses import dataclass, field

from command import NOT_UNDERSTOOD, Deadline, Hindered, ask
from faults import tell
from readable import joined, without
from report import Claim, Line, Report, parse_fault, parse_report
from rows import NotInForm
from texts import changed, changes_for
from tokens import chooses_without_bounds, declared

WORDS_REFUSED = 2
REFUSALS = {5: "the command couldn't read", 6: "the command couldn't write", 7: "the command ran out of memory"}

# The second question where the first stays unknown. With a number chosen without bounds a configuration has infinitely many successors; there `!AF exit` says only that there
# are runs of every length (docs/FORMULAS.md), and `AG !exit` that no run ends.
SOME_RUN, EVERY_RUN = "!AF exit", "AG !exit"
# Past so many pairs of a line of the first answer and one of the second, the unknown lines stay as they are.
MOST_TAKEN = 2000


@dataclass
class Result:
    """What is known of one file.

    `never` are lines of the second answer, and `left` what is unknown after both. With `--at` there is a claim in the place of a report. Where there is neither, `trouble` says why, and of a fault
    `told` has its words; where the second question alone got no answer there are both, a report or a claim and the trouble.
    """

    name: str
    status: int
    text: str = ""
    changes: list = field(default_factory=list)
    report: Report | None = None
    never: list = field(default_factory=list)
    left: list = field(default_factory=list)
    at: str | None = None
    claim: Claim | None = None
    fault: object = None
    told: object = None
    trouble: str | None = None
    seconds: float = 0.0


@dataclass(frozen=True)
class Question:
    """What is asked of each file: the words that are handed on by their names, whether the second question is asked where the first leaves something unknown, and how the text is changed."""

    handed_on: dict
    both: bool = True
    inputs: bool = False
    as_is: bool = False

    def words(self, **more):
        """The words for the command, with more of them. A flag has the value True, and an option that is left out None."""
        return [f"--{name}" if value is True else f"--{name}={value}" for name, value in {**self.handed_on, **more}.items() if value is not None]


def answer(program, question, name, text, seconds=None):
    """What is known of a text, within so many seconds."""
    changes = [] if question.as_is else changes_for(text, question.inputs)
    result = Result(name, 0, changed(text, changes), changes)
    deadline = Deadline(seconds)
    try:
        first = ask(program, question.words(), result.text, deadline)
        result.status = first.status
        read_first(result, question, first.text)
        if question.both and is_open(result):
            read_second(result, program, question, deadline)
    except Hindered as hindered:
        result.status, result.trouble = hindered.status, second_or(result, str(hindered))
    except NotInForm as error:
        result.status, result.trouble = NOT_UNDERSTOOD, second_or(result, f"the command's answer isn't understood: {error}")
    return result


def second_or(result, why):
    """Why there is no answer, and that it is the second one where the first is there."""
    return f"whether runs never end: {why}" if result.report or result.claim else why


def is_open(result):
    """Whether something is unknown after the first answer."""
    if result.claim:
        return result.claim.kind == "unknown"
    return bool(result.report and result.report.lines("unknown"))


def read_first(result, question, written):
    """Reads the answer to the first question."""
    if fault := parse_fault(written):
        result.fault = fault
        asked = question.handed_on.get("ctl", "").encode("utf-8", "surrogateescape").decode("latin-1")
        result.told = tell(fault, result.text if fault.of == "program" else asked, declared(result.text))
    elif result.status == WORDS_REFUSED:
        result.trouble = refused_words(question, result.text)
    elif result.status in REFUSALS:
        result.trouble = REFUSALS[result.status]
    elif result.status not in (0, 1):
        raise NotInForm(f"status {result.status}")
    elif "at" in question.handed_on:
        result.at, result.claim = question.handed_on["at"], Claim.parse(written.rstrip("\n"))
    else:
        result.report = parse_report(written)
        result.left = result.report.lines("unknown")


def refused_words(question, text):
    """Which word the command refused. The others were looked at before."""
    if "at" not in question.handed_on:
        return "the command refused the words " + " ".join(question.words())
    given, names = question.handed_on["at"], declared(text)
    listed = ", ".join(names)
    if not names:
        return f"--at {given}: the program has no variables"
    parts = [re.fullmatch(r"([A-Za-z_]\w*)=(-?(?:0|[1-9]\d*))", part) for part in given.split(",")]
    if not all(parts):
        wrong = next(part for part, match in zip(given.split(","), parts) if not match)
        return f"--at {given}: {wrong or 'nothing'} isn't a name, = and a number; the program's variables are {listed}"
    named = [match[1] for match in parts]
    for name in named:
        if name not in names:
            return f"--at {given}: the program has no variable {name}; its variables are {listed}"
        if named.count(name) > 1:
            return f"--at {given}: {name} stands twice"
    missing = [name for name in names if name not in named]
    if missing:
        return f"--at {given}: a number for {', '.join(missing)} is missing"
    return f"--at {given}: a number is greater than 9223372036854775807 in size, or is spelled -0"


def read_second(result, program, question, deadline):
    """Asks the second question, and takes what it answers from the unknown lines."""
    every = chooses_without_bounds(result.text)
    words = question.words(ctl=EVERY_RUN if every else SOME_RUN, refine=None)
    second = ask(program, words, result.text, deadline)
    if second.status not in (0, 1):
        raise NotInForm(f"status {second.status} of the second question")
    claim = Claim("never", runs="every" if every else "some")
    if result.claim:
        result.claim = claim if second.status == 0 else result.claim
        return
    result.never = [Line(line.rows, claim) for line in parse_report(second.text).lines("proved")]
    conditions = [line.rows for line in joined(result.never)]
    if len(result.left) * len(conditions) <= MOST_TAKEN:
        result.left = [Line(rows, line.claim) for line in result.left for rows in without(line.rows, conditions)]
