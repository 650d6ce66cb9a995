"""Statements of a program's text, as its words have them: where each ends, and which of a function always return."""


def behind(words, at, opens, closes):
    """The place behind the bracket that closes the one at a place."""
    depth = 0
    for place in range(at, len(words)):
        depth += (words[place] == opens) - (words[place] == closes)
        if depth == 0:
            return place + 1
    raise ValueError(f"no {closes}")


def most_open(words):
    """How many braces are open at most."""
    depth = most = 0
    for word in words:
        depth += (word == "{") - (word == "}")
        most = max(most, depth)
    return most


def part_of(words, at):
    """Where the first part of the `if` at a place begins, and the place behind it."""
    first = behind(words, at + 1, "(", ")")
    return first, end_of(words, first)


def end_of(words, at):
    """The place behind the statement that begins at a place."""
    if words[at] == "{":
        return behind(words, at, "{", "}")
    if words[at] == "if":
        _, end = part_of(words, at)
        return end_of(words, end + 1) if words[end] == "else" else end
    if words[at] in ("while", "for"):
        return end_of(words, behind(words, at + 1, "(", ")"))
    return words.index(";", end_of(words, at + 1) if words[at] == "do" else at) + 1


def inside(words, at):
    """Where the statements begin that stand in the braces at a place."""
    here = at + 1
    while words[here] != "}":
        yield here
        here = end_of(words, here)


def returns(words, at):
    """Whether the statement at a place always returns."""
    if words[at] == "{":
        last = list(inside(words, at))[-1:]
        return bool(last) and returns(words, last[0])
    if words[at] == "if":
        first, end = part_of(words, at)
        return words[end] == "else" and returns(words, first) and returns(words, end + 1)
    return words[at] == "return"


def needless_elses(words, at, followed):
    """The places of each `else` behind a part that always returns, in the statement at a place, where something follows in its braces or doesn't: what stands behind such an `if` is its `else` anyway."""
    if words[at] == "{":
        places = list(inside(words, at))
        for place in places:
            yield from needless_elses(words, place, place != places[-1])
    if words[at] == "if":
        first, end = part_of(words, at)
        yield from needless_elses(words, first, False)
        if words[end] == "else":
            is_needless = followed and returns(words, first)
            if is_needless:
                yield end
            yield from needless_elses(words, end + 1, is_needless)
