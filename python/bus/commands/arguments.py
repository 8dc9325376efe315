"""Arguments that several subcommands take. A list is always `list` and a table `table`: a refusal names their files."""

import argparse
import re

from .. import library
from ..text import is_c_name
from ..why import SECONDS

MOST_DIGITS = len(str(library.MOST_TRIES))


def whole_number(least, most):
    """A kind of argument: a whole number within these bounds."""

    def parsed(text):
        if text.isascii() and text.isdigit() and len(text) <= MOST_DIGITS and least <= int(text) <= most:
            return int(text)
        raise argparse.ArgumentTypeError(f"{text!r} is no number from {least} to {most}")

    return parsed


TICKS = whole_number(0, library.MOST_TICKS)
ANY_TICK = whole_number(0, 10**MOST_DIGITS - 1)

MOST_SECONDS = 86_400


def seconds(text):
    """A kind of argument: seconds, also parts of one."""
    if re.fullmatch(r"[0-9]{1,5}(\.[0-9]{1,6})?", text) and 0 < float(text) <= MOST_SECONDS:
        return float(text)
    raise argparse.ArgumentTypeError(f"{text!r} is no number of seconds above 0 and up to {MOST_SECONDS}")


def add_list(parser, dest="list", metavar="LIST", **more):
    parser.add_argument(dest, metavar=metavar, help="a list (CSV) or a request file", **more)


def add_table(parser):
    parser.add_argument("table", metavar="TABLE", help="a table file")


def add_task(parser):
    parser.add_argument("task", metavar="TASK", help="the transfer: its name, or its number from 0 on")


def add_output(parser, metavar, help):
    parser.add_argument("-o", dest="output", metavar=metavar, help=help)


def add_svg(parser, help):
    parser.add_argument("--svg", metavar="FILE", help=help)


def _c_name(text):
    if not is_c_name(text):
        raise argparse.ArgumentTypeError(f"{text!r} is no name for an array in C: letters, digits and _, no keyword")
    return text


def add_printing(parser):
    """How a table is printed, and its picture."""
    parser.add_argument("--plain", action="store_true", help="print the lines of the program `plan`, with names")
    in_c = "print the table as a C array in place of the listing"
    parser.add_argument("--c", metavar="NAME", type=_c_name, help=in_c)
    add_svg(parser, "write the picture")


def add_tries(parser, default=None, of="the search"):
    allowed = f"how many tries {of} may make ({'as many as it takes' if default is None else default})"
    kind = whole_number(0, library.MOST_TRIES)
    parser.add_argument("--tries", metavar="N", type=kind, default=default, help=allowed)


def add_seconds(parser):
    limit = f"end with what was found after so many seconds ({SECONDS})"
    parser.add_argument("--seconds", metavar="N", type=seconds, default=SECONDS, help=limit)
