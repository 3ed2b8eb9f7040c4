"""Where a value stands in a JSON text, for the tools beside this one."""

import json
import re

BLANKS = re.compile(r"[ \t\r\n]*")
DECODER = json.JSONDecoder()


def behind_blanks(text, at):
    return BLANKS.match(text, at).end()


def children(text, at):
    """The steps from the object or list that begins at `at`, each with the place in the text where its value begins."""
    step, close, at = 0, {"{": "}", "[": "]"}.get(text[at]), behind_blanks(text, at + 1)
    while close is not None and text[at] != close:
        name = step
        if close == "}":
            name, at = DECODER.raw_decode(text, at)
            at = behind_blanks(text, behind_blanks(text, at) + 1)
        yield name, at
        _, at = DECODER.raw_decode(text, at)
        at = behind_blanks(text, at)
        if text[at] == ",":
            at = behind_blanks(text, at + 1)
        step += 1


def offset_of(text, place):
    """Where the value at a place begins; where a step isn't there, that of the value around it. A name that comes twice
    is the last one."""
    at = behind_blanks(text, 0)
    for step in place:
        found = [there for name, there in children(text, at) if name == step]
        if not found:
            break
        at = found[-1]
    return at


def line_of(text, place):
    """The line of that value, from 1."""
    return text.count("\n", 0, offset_of(text, place)) + 1


def lines_below(text, place):
    """The line of each value in the list or object at a place."""
    line, before = 1, 0
    for _, at in children(text, offset_of(text, place)):
        line, before = line + text.count("\n", before, at), at
        yield line


def place_of(pointer):
    """The steps of a pointer as ffm writes it."""
    return tuple(int(step) if step.isdigit() else step for step in pointer.split("/")[1:])
