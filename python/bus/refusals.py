"""Every refusal is one row: its number, what it speaks of, its details, and its words and advice as in docs/FORMATS.md.

A number that is new is a row here and, if there is more to say than the words, a function in details.py. The enum of
include/bus.h has the words too; the tests compare all three.
"""

from typing import Callable, NamedTuple, Optional

from . import details
from .errors import Error

# The argument of the command whose file a refusal speaks of. NO_ONE: no file. Where there are two, join.py names them.
LIST, TABLE, NO_ONE = "list", "table", ""


class Refusal(NamedTuple):
    """A row: the number, what it speaks of, what can be said about the case, when it is given, and what to do."""

    number: int
    speaks_of: str
    details: Optional[Callable]
    words: str
    advice: str


ROWS = (
    Refusal(
        1, LIST, details.cut_bytes,
        "the request's bytes end inside a section or before its count",
        "the file was cut: write it again, whole",
    ),
    Refusal(
        2, LIST, details.said_tasks,
        "no task, or more than 16",
        "leave the list to 16 tasks, or split it over two buses",
    ),
    Refusal(
        3, LIST, details.first_task_fault,
        "a transfer breaks 1 ≤ length ≤ deadline ≤ period or phase < period",
        "correct that transfer: its length fits its deadline, the deadline its period, and the phase is below the"
        " period",
    ),
    Refusal(
        4, LIST, details.said_pairs,
        "more than 16 pairs",
        "drop pairs that follow from others",
    ),
    Refusal(
        5, LIST, details.first_pair_fault,
        "a pair does not name two transfers of the request, the one with the lower number first, or they have"
        " different periods",
        "number the tasks so that the earlier one has the lower number, as the command does with a list; give both the"
        " same period",
    ),
    Refusal(
        6, LIST, details.bytes_too_many,
        "bytes follow the last section",
        "the counts are too small, or the file has something appended",
    ),
    Refusal(
        7, LIST, details.periods,
        "the cycle, the least common multiple of all periods, is above 10,000 ticks",
        "choose periods that share factors: 20 and 40 instead of 20 and 41",
    ),
    Refusal(
        8, LIST, details.job_counts,
        "more than 128 jobs in a cycle",
        "longer periods, or periods that share factors",
    ),
    Refusal(
        9, LIST, details.longest_and_shortest,
        "no frame length is plausible: none divides the cycle into at most 256 rows, holds the longest transfer with"
        " its silent ticks and lies whole in each window of every transfer",
        "if the longest transfer is long against the shortest deadline, shorten it or cut it (`bus cut`), relax the"
        " deadline, ask for fewer silent ticks, or move a phase: a window that opens where a frame begins has room for"
        " the longest one; if 256 rows are too few, choose periods that share factors, so that the cycle gets shorter,"
        " or longer deadlines",
    ),
    Refusal(
        10, LIST, details.asked_for,
        "some length is plausible, so each window by itself holds a frame, and yet none of all placings keeps windows,"
        " capacity and order",
        "less load, fewer silent ticks, later deadlines, other phases or fewer pairs; no other placing would do",
    ),
    Refusal(
        11, NO_ONE, None,
        "the buffer is shorter than the table, than the joined or cut request, or than the records of a timeline",
        "lend 7 + F + 2·(number of jobs) bytes for a table; 519 are always enough, 164 for a request, and 8 for each"
        " job of a timeline, 1,024 for any",
    ),
    Refusal(
        12, TABLE, details.table_length,
        "bytes that are not a table",
        "the file was cut or is something else",
    ),
    Refusal(
        13, TABLE, details.table_sizes,
        "the table's cycle is not the request's, or its frame length is not plausible: too short for a transfer, or"
        " some window holds no whole frame of that length",
        "the table belongs to another request, or the request was changed: plan again",
    ),
    Refusal(
        14, TABLE, details.plan_breaches,
        "the table does not describe a plan of the request",
        "plan again; the table was edited or belongs to another request",
    ),
    Refusal(
        15, NO_ONE, None,
        "the state's row is none of the table",
        "the state belongs to another table: begin with a fresh one",
    ),
    Refusal(
        16, LIST, details.no_such_task,
        "there is no such task: the number of a report, or of the task whose phases are counted, is none of the"
        " request",
        "name a task of the list, by its name or its number from 0 on",
    ),
    Refusal(
        17, LIST, details.third_section,
        "the request's third section has a count above 1, or more than 15 silent ticks are asked for; judged after 5"
        " and before 6",
        "write `01` and a number from 0 to 15, or leave the section out; what the line needs beyond 15 ticks can be"
        " added to every length",
    ),
    Refusal(
        18, NO_ONE, details.tasks_in_both,
        "two requests that are joined have more than 16 tasks together",
        "leave the two to 16 tasks together, or give the second board a bus of its own",
    ),
    Refusal(
        19, LIST, details.pairs_too_many,
        "the request that is made by joining or cutting would have more than 16 pairs",
        "drop pairs that follow from others",
    ),
    Refusal(
        20, NO_ONE, details.silent_in_both,
        "two requests that are joined have different silent ticks",
        "the boards share one line: give both the silent ticks that the line needs, in a list by a line `silent,TICKS`",
    ),
    Refusal(
        21, NO_ONE, details.badly_asked,
        "a one-off transfer is asked for with length 0, from a tick after its last, or until a tick after the second"
        " cycle",
        "ask for 1 tick or more, and until a tick that is not before the first; every later cycle is like the first"
        " two: from C, take whole cycles off both ticks, as the command does",
    ),
    Refusal(
        22, TABLE, details.no_room,
        "no frame between the two ticks leaves enough unused time for the one-off transfer and its silent ticks",
        "ask for a longer time or a shorter transfer, or send it in parts, each asked for from the end of the frame"
        " before; where a whole cycle has no frame for it, no other has: plan with less load",
    ),
    Refusal(
        23, LIST, details.tries_allowed,
        "the search needs more tries than are allowed; whether there is a plan is not known",
        "plan without a limit: `bus plan` without `--tries`, `bus.plan(request)` in a notebook, `bus_decide` from C; or"
        " allow more tries; or make the search shorter: put transfers that are alike, with the same length, period,"
        " deadline and phase and in no other pair, in order by pairs, down the list, which changes no table",
    ),
    Refusal(
        24, LIST, details.no_such_cut,
        "the transfer to be cut is not one of the list, or its first piece has not from 1 tick to one less than its"
        " length",
        "name a transfer of the list, and give the first piece at least 1 tick and leave at least 1 for the second",
    ),
    Refusal(
        25, LIST, None,
        "a task is to be cut where there are 16 tasks already",
        "leave the list to 15 tasks before one is cut",
    ),
    Refusal(
        26, LIST, details.no_such_step,
        "there is no such job; or it is lifted already, or put without being lifted; or a table is written while a job"
        " is lifted; or the draft's frame length, loads or frames break the rules",
        "name a job as the listing does, `camera.0`; lift it before it is put, and put every lifted job before the"
        " table is written; start a draft whose bytes were changed otherwise again from its table",
    ),
    Refusal(
        27, LIST, details.outside_the_window,
        "the frame is outside the job's window: it begins before the release or ends after the due time",
        "name a frame of the window; frames are counted from time 0, so a carried job, with a `+` in the listing,"
        " stands in the frame that is its row's number plus the number of rows",
    ),
    Refusal(
        28, TABLE, details.no_place,
        "the row would exceed the frame length, or a pair would be out of order with a job that is placed",
        "name another frame of the window; or first move a job out of that row, or the other job of the pair",
    ),
    Refusal(
        29, NO_ONE, None,
        "the timer has no register at the address, which is above 7",
        "read and write the bytes 0 to 7",
    ),
    Refusal(
        30, LIST, details.no_such_pair,
        "the two tasks of a heater link are no pair of the request",
        "name the two transfers of a pair, that of the command first; in a list a pair is a line"
        " `before,COMMAND,REPLY`",
    ),
)

REFUSALS = {row.number: row for row in ROWS}

# A refusal that leaves open whether there is a table; all others are a proved no.
NOT_KNOWN = {23}


def row(number):
    """The row of a number, or one that says that there is none."""
    unknown = "a number that this command has no words for", "look it up in docs/FORMATS.md"
    return REFUSALS.get(number) or Refusal(number, LIST, None, *unknown)


class Refused(Error):
    """The library refused: its number, the number's words, what can be done, and what in the list it speaks of.

    `source` names the list or table where there are two. `tries` has the tries that planning made. `request` is what
    was refused, if it could be read.
    """

    def __init__(self, number, about="", source="", tries=0):
        self.number = number
        self.words, self.advice = row(number).words, row(number).advice
        self.about = about
        self.source = source
        self.tries = tries
        self.request = None
        super().__init__(number, about, source, tries)

    @classmethod
    def of(cls, number, source="", tries=0, **asked):
        """The refusal with the details of its row, from all that was asked, by the names that details.py has."""
        tell = row(number).details
        refused = cls(number, tell(**asked) if tell else "", source, tries)
        refused.request = asked.get("request")
        return refused

    def record(self):
        """The refusal as plain values."""
        told = {"number": self.number, "words": self.words, "about": self.about, "advice": self.advice}
        return {**told, "file": self.source, "tries": self.tries}

    def __str__(self):
        source = f"{self.source}: " if self.source else ""
        about = f"\n{self.about}" if self.about else ""
        return f"{source}refused {self.number}: {self.words}{about}\nwhat to do: {self.advice}"
