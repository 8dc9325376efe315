"""A program of register calls, one a line: read with every fault named by its line, and run on a timer."""

import re
from typing import NamedTuple

from . import library
from .lists import Fault, ListFaults
from .refusals import Refused
from .text import entry_label

MOST_BYTE = 255
MOST_DIGITS = 20
WORDS_SHOWN = 40
COMMENT = re.compile(r"(?:^|\s)#.*")
NUMBER = re.compile(r"[0-9]+|0[xX][0-9a-fA-F]+")

# What stands behind the first word of each call, and the most that a number of it can be.
ARGUMENTS = {
    "fresh": {},
    "read": {"address": MOST_BYTE},
    "write": {"address": MOST_BYTE, "value": MOST_BYTE},
    "event": {},
    "serve": {},
    "report": {"task": MOST_BYTE, "ticks": library.MOST_TICKS},
    "line": {},
}


class ProgramFaults(ListFaults):
    """All faults of a program, by line."""

    kind, more = "program", "docs/FORMATS.md has the format"


class Step(NamedTuple):
    """A call of a program: its line, from 1, as it stands there without its comment, its word and its numbers."""

    line: int
    text: str
    call: str
    numbers: tuple


class Done(NamedTuple):
    """A step that was made: what it answered, in words, and the registers and the interrupt line after it."""

    step: Step
    answer: str
    registers: tuple
    line_on: bool


def _shown(text):
    return repr(text if len(text) <= WORDS_SHOWN else text[:WORDS_SHOWN] + "…")


def _number(name, text, most):
    """The number in a word, decimal or in hexadecimal with 0x; or a fault in words."""
    if not NUMBER.fullmatch(text):
        raise ValueError(f"{name} {_shown(text)} is not a whole number")
    number = int(text, 16 if text[:2] in ("0x", "0X") else 10) if len(text) <= MOST_DIGITS else most + 1
    if number > most:
        raise ValueError(f"{name} {text[:WORDS_SHOWN]} is above {most}")
    return number


def _task(names, text, most):
    """The number of a task that is called by its name, perhaps in quotes as in a listing, or by its number."""
    for name in (text, text[1:-1].replace('""', '"') if text[:1] == text[-1:] == '"' else text):
        if name in names:
            return names.index(name)
    if NUMBER.fullmatch(text):
        return _number("task", text, most)
    raise ValueError(f"no transfer is called {_shown(text)}")


def _words(call, rest):
    """What stands behind the call's word; the name of a task may have blanks in it."""
    if call == "report" and len(rest.split()) > 2:
        return rest.strip().rsplit(None, 1)
    return rest.split()


def _step(line, text, names):
    """The call in a line, or a fault in words."""
    word, _, rest = text.partition(" ")
    call = word.lower()
    if call not in ARGUMENTS:
        raise ValueError(f"{_shown(word)} is no register call: {', '.join(ARGUMENTS)}")
    wanted, words = ARGUMENTS[call], _words(call, rest)
    if len(words) != len(wanted):
        needs = " and ".join(wanted) or "nothing"
        raise ValueError(f"behind {call} stands {needs}, not {_shown(rest.strip())}")
    numbers = []
    for (name, most), given in zip(wanted.items(), words):
        numbers.append(_task(names, given, most) if name == "task" else _number(name, given, most))
    return Step(line, text, call, tuple(numbers))


def _text(data):
    try:
        return data.decode("utf-8-sig")
    except UnicodeDecodeError as reason:
        line = data[: reason.start].count(b"\n") + 1
        raise ProgramFaults([Fault(line, "the text is not UTF-8: save the program as UTF-8")]) from reason


def read(data, request):
    """The steps of a program, or all its faults; tasks are called as in the request."""
    names = [task.name for task in request.tasks]
    steps, faults = [], []
    for line, text in enumerate(re.split("\r\n|\n|\r", _text(data)), 1):
        text = COMMENT.sub("", text).replace("\t", " ").strip()
        if text:
            try:
                steps.append(_step(line, text, names))
            except ValueError as fault:
                faults.append(Fault(line, str(fault)))
    if faults:
        raise ProgramFaults(faults)
    return tuple(steps)


def _served(request, timer):
    """What a serving answers, in words."""
    due = timer.due
    labels = [entry_label(request, entry) for entry in timer.serve()]
    return " ".join(labels) or ("no entries" if due else "no frame due")


def _answer(request, timer, step):
    """What a step answers, in words; the number of a refusal is an answer too."""
    try:
        if step.call == "read":
            return f"0x{timer.read(*step.numbers):02X}"
        if step.call == "serve":
            return _served(request, timer)
        if step.call == "line":
            return "on" if timer.line else "off"
        getattr(timer, step.call)(*step.numbers)
        return ""
    except Refused as refused:
        return f"refused {refused.number}: {refused.words}"


def run(steps, request, timer):
    """Makes each step on the timer."""
    for step in steps:
        answer = _answer(request, timer, step)
        yield Done(step, answer, timer.registers, timer.line)
