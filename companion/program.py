"""What `terminates` does: reads its words, looks at the files, and writes what is known of each."""
import json
import sys

import objects
import pictures
import show
import words
from command import Hindered, path
from files import Progress, listed, look_at_all, table
from questions import Question
from texts import chosen_first, told


def say(text, stream=None):
    """Writes a line at once, so that lines of both streams stand in their order."""
    stream = stream or sys.stdout
    stream.write(text + "\n")
    stream.flush()


def say_changes(result, every):
    """Tells what was changed of the text: each change, or how many there are."""
    original = result.text
    for change in reversed(result.changes):
        original = original[:change.offset] + change.old + original[change.offset + len(change.old):]
    lines = list(told(result.name, original, result.changes))
    if every:
        for line in lines:
            say(line)
    elif lines:
        left_out = sum(change.of is not None for change in result.changes)
        steps = f", of which {left_out} took a step that isn't counted now" if left_out else ""
        say(f"{result.name}: {len(lines)} {'place of the text was' if len(lines) == 1 else 'places of the text were'} changed{steps} (--show-text shows them)", sys.stderr)


def say_result(result, read):
    """Writes what is known of a file."""
    if read.json:
        say(json.dumps(objects.of_result(result, read.ctl), ensure_ascii=True))
        return
    say_changes(result, read.show_text)
    if result.told:
        say(result.told.text(result.name if result.fault.of == "program" else "formula"), sys.stderr)
    if result.report or result.claim:
        say(show.text(result, read.ctl))
        if read.picture:
            say_picture(result, read)
    if result.trouble:
        say(f"{result.name}: {result.trouble}", sys.stderr)
    elif lacks_bound(result) and not read.inputs and (chosen := chosen_first(result.text)):
        say(f"{result.name}: main chooses {', '.join(chosen)} first, and no bound can speak of that; --inputs takes {'it as an input' if len(chosen) == 1 else 'them as inputs'}", sys.stderr)


def lacks_bound(result):
    """Whether an input is left without a bound: something is unknown, or ends by a rank."""
    return bool(result.left or (result.report and result.report.lines("ranked")))


def say_picture(result, read):
    """Draws the picture that is asked for, or tells why there is none."""
    x, y, path_of_picture = read.picture
    try:
        say(pictures.draw(result, pictures.window_of(result.text, x, y, read.window, read.at), path_of_picture))
    except Hindered as hindered:
        result.status = hindered.status
        say(f"{result.name}: {hindered}", sys.stderr)


def main(given):
    """Ends with the command's status, with one of the companion's own, or with the greatest of several files."""
    read = words.parse(given)
    try:
        program = path()
    except Hindered as hindered:
        say(f"terminates: {hindered}", sys.stderr)
        return hindered.status
    handed_on = words.handed_on(read)
    if read.picture:
        handed_on.pop("at", None)
    question = Question(handed_on, not (read.ends_only or words.asks_otherwise(handed_on)), read.inputs, read.as_is)
    named = listed(read.files, read.recursive)
    if any(name == "-" for name, _ in named) and sys.stdin.isatty():
        say("terminates: it reads a program from the terminal, up to its end (Ctrl-D)", sys.stderr)
    progress, results = Progress(len(named)), []
    for result in look_at_all(program, question, named, read.timeout, read.jobs):
        results.append(result)
        progress.clear()
        say_result(result, read)
        progress.step()
    if len(results) > 1 and not read.json:
        say("\n" + table(results, read.ctl))
    return max(result.status for result in results)
