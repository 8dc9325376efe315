"""Numbers in the cells of a list, as people and workbooks write them."""

import re

from .faults import WORDS_SHOWN, shown

MOST_NUMBER = 65_535

# What stands in a cell that says nothing.
NOTHING = ("", "-", "–", "—", "n/a", "n.a.", "na")
ERRORS = ("#n/a", "#ref!", "#name?", "#value!", "#div/0!", "#num!", "#null!")

DIGITS = re.compile(r"[0-9]+")
WITH_ZEROS = re.compile(r"([0-9]+)[.,](0+)")
THOUSANDS = re.compile(r"[0-9]{1,3}(?:[.,'’\s][0-9]{3})+(?:[.,]0*)?")
FRACTION = re.compile(r"[0-9]*[.,][0-9]+")
WITH_UNIT = re.compile(r"([0-9]+(?:[.,][0-9]+)?)\s*[a-zA-Zµμ%]+")
LINE_BREAK = "\n"


def is_nothing(text):
    return text.casefold() in NOTHING


def is_error(text):
    """Whether a cell is what a workbook writes for a formula that has no value."""
    return text.casefold() in ERRORS


def _marked(text):
    """Words about a number with a mark between its digits."""
    whole = re.sub(r"\D", "", text)
    both = WITH_ZEROS.fullmatch(text)
    if both:
        return f"{shown(text)} can be read as {both.group(1)} and as {whole}: write it without the mark"
    return f"{shown(text)} has a mark or a blank between its digits: write it without"


def _wrong(text):
    """Why a cell is no whole number, in words."""
    if LINE_BREAK in text:
        return f"{shown(text)} has a line break in it: write it in one line"
    if is_error(text):
        return f"{shown(text)} is an error of the workbook: mend the formula"
    if THOUSANDS.fullmatch(text):
        return _marked(text)
    if FRACTION.fullmatch(text):
        return f"{shown(text)} is not a whole number: a tick cannot be cut"
    unit = WITH_UNIT.fullmatch(text)
    if unit:
        return f"{shown(text)} has a unit: write the number of ticks alone"
    return f"{shown(text)} is not a whole number"


def whole(text, most=MOST_NUMBER):
    """The whole number in a cell, or a ValueError with words: `2.0` and `2,0` are 2."""
    zeros = WITH_ZEROS.fullmatch(text)
    if zeros and len(zeros.group(2)) != 3:
        text = zeros.group(1)
    if not DIGITS.fullmatch(text):
        raise ValueError(_wrong(text))
    digits = text.lstrip("0") or "0"
    if len(digits) > len(str(MOST_NUMBER)) or int(digits) > most:
        raise ValueError(f"{text[:WORDS_SHOWN]} is above {most}")
    return int(digits)
