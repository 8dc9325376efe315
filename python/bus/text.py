"""What the command prints, with names: a table's listing, its flight, its bytes in C, a frame with unused time, how
far apart starts can be, which phases fit, the registers of a timer, the frames of a heater link, and a timeline."""

import csv
import io
import re
import textwrap
from typing import Optional

from .accepted import RequestLike, TableLike
from .amounts import counted, percent
from .dispatcher import served
from .sources import both

PLAIN_NAME = re.compile(r"[^\s\"+@]+")
KEYWORDS = frozenset(
    "auto break case char const continue default do double else enum extern float for goto if inline int long register"
    " restrict return short signed sizeof static struct switch typedef union unsigned void volatile while".split()
)


def quoted(name):
    """A name as one word: with blanks, quotes, + or @ in it, it stands in quotes as in CSV."""
    return name if PLAIN_NAME.fullmatch(name) else '"' + name.replace('"', '""') + '"'


def entry_label(request, entry):
    """A transfer as the listing has it: its name, its job and + if it is carried."""
    return f"{quoted(request.tasks[entry.task].name)}.{entry.job}{'+' if entry.carry else ''}"


def busy(request, row):
    """The ticks of a row's transfers, or of a timeline's, silent ones not counted."""
    return sum(request.tasks[entry.task].length for entry in row)


def sizes(table):
    return f"frame {table.frame} cycle {table.cycle} rows {len(table.rows)}"


def listing(request: RequestLike, table: TableLike) -> str:
    """The lines of the program `plan`, with names: the sizes, then for each row its number, busy ticks and entries."""
    request, table = both(request, table)
    lines = [sizes(table)]
    for number, row in enumerate(table.rows):
        lines.append(" ".join([str(number), str(busy(request, row)), *(entry_label(request, entry) for entry in row)]))
    return "\n".join(lines) + "\n"


def _closing(request, table):
    """The sizes, the load, and what + means where it stands."""
    used = sum(map(request.used, table.rows))
    sizes = f"frame {table.frame}, cycle {table.cycle}, {counted(len(table.rows), 'row')}"
    carried = any(entry.carry for row in table.rows for entry in row)
    mark = "; +: a job of the cycle before" if carried else ""
    return f"{sizes}, load {percent(used / table.cycle)} ({used} of {counted(table.cycle, 'tick')}){mark}\n"


ROW_HEADER = ("row", "first tick", "busy", "silent", "unused", "transfers")


def aligned(request: RequestLike, table: TableLike, width: Optional[int] = None) -> str:
    """The table for people: below the names of the columns a line for each row, then the sizes and the load.

    With a width, transfers that do not fit into it go on in further lines.
    """
    request, table = both(request, table)
    lines = []
    for number, row in enumerate(table.rows):
        used, ticks = request.used(row), busy(request, row)
        lines.append((number, number * table.frame, ticks, used - ticks, table.frame - used))
    numbers = [ROW_HEADER[:-1], *(tuple(map(str, line)) for line in lines)]
    widths = [max(map(len, column)) for column in zip(*numbers)]
    heads = ["  ".join(map(str.rjust, line, widths)) for line in numbers]
    names = [[ROW_HEADER[-1]], *([entry_label(request, entry) for entry in row] for row in table.rows)]
    text = "".join(map(_beside, heads, names, [width] * len(heads)))
    return text + _closing(request, table)


def _beside(head, words, width):
    """The words behind a head, in as many lines as they need."""
    if width is None:
        return "  ".join([head, " ".join(words)]).rstrip() + "\n"
    room = max(width - len(head) - 2, 20)
    lines = textwrap.wrap(" ".join(words), room, break_long_words=False, break_on_hyphens=False) or [""]
    gap = " " * len(head)
    return "".join(f"{head if at == 0 else gap}  {line}".rstrip() + "\n" for at, line in enumerate(lines))


def flight(request: RequestLike, table: TableLike, cycles: int) -> str:
    """The lines of the program `fly`, with names: what the dispatcher serves in so many cycles."""
    request, table = both(request, table)
    return flight_lines(request, served(table, cycles))


def flight_lines(request, frames):
    """A line for each served frame."""
    lines = []
    for frame in frames:
        names = (f"{quoted(request.tasks[entry.task].name)}.{entry.job}@{entry.cycle}" for entry in frame.entries)
        lines.append(" ".join([f"frame {frame.number} start {frame.start}", *names]))
    return "\n".join(lines) + "\n"


def free_frame(request, frame):
    """A frame with its ticks, then its row with its used and unused ticks and its entries."""
    labels = (entry_label(request, entry) for entry in frame.entries)
    row = " ".join([f"row {frame.row} used {frame.used} unused {frame.unused}", *labels])
    return f"frame {frame.number} start {frame.start} end {frame.end}\n{row}\nsend from tick {frame.send}\n"


def free_frame_lines(frames):
    """A line for each frame below the names of the columns."""
    lines = [("frame", "start", "end", "row", "used", "unused", "send from")]
    for one in frames:
        numbers = (one.number, one.start, one.end, one.row, one.used, one.unused, one.send)
        lines.append(tuple(map(str, numbers)))
    return _columns(lines)


def _columns(lines):
    """Lines of as many words each, one below the other."""
    widths = [max(map(len, column)) for column in zip(*lines)]
    return "".join("  ".join(map(str.ljust, line, widths)).rstrip() + "\n" for line in lines)


def spacings(records):
    """A line for each task below the names of the columns: what any table gives, and what this one."""
    lines = [("name", "ticks apart in any table", "in this table")]
    for one in records:
        any_table, this_table = f"{one.bound_least} to {one.bound_most}", f"{one.least} to {one.most}"
        lines.append((quoted(one.name), any_table, this_table))
    return _columns(lines)


TIMELINE_HEADER = ("name", "job", "release", "due", "frame")


def timeline_lines(request, records):
    """A line for each job below the names of the columns, then the ticks of all transfers."""
    lines = [TIMELINE_HEADER]
    lines += [(quoted(request.tasks[one.task].name), *map(str, one[1:])) for one in records]
    return f"{_columns(lines)}busy {busy(request, records)}\n"


def timeline_csv(request, records):
    """The same as CSV, for other tools; without the last line."""
    out = io.StringIO()
    writer = csv.writer(out, lineterminator="\n")
    writer.writerow(TIMELINE_HEADER)
    writer.writerows((request.tasks[one.task].name, *one[1:]) for one in records)
    return out.getvalue()


def _message(message):
    """The bit of a command or a reply, and whether it was lost."""
    return "-" if message is None else f"{message.bit}{' lost' if message.lost else ''}"


def exchanges(records, heater):
    """A line for each frame of a heater link below the names of the columns, and one for all of them."""
    lines = [("frame", "start", "command", "reply", "toggled", "answered")]
    for one in records:
        told = ("yes" if done else "-" for done in (one.toggled, one.answered))
        lines.append((str(one.frame.number), str(one.frame.start), _message(one.command), _message(one.reply), *told))
    under_way = ", its answer still to come" if heater.under_way else ""
    state = "on" if heater.on else "off"
    return f"{_columns(lines)}toggles {heater.toggles}, answered {heater.answered}, heater {state}{under_way}\n"


def answer_word(answer):
    """What planning a phase comes to, 0 being a table."""
    return f"refused {answer}" if answer else "table"


def answer_words(answer, tries):
    """The same with the reason, where so many tries were allowed."""
    reasons = {
        9: ", no frame length is plausible",
        10: ", some frame length is plausible, but there is no plan",
        23: f", more than {tries:,} tries are needed",
    }
    return answer_word(answer) + reasons.get(answer, "")


def phase_range(run):
    """The phases of a run."""
    return str(run.first) if run.first == run.last else f"{run.first} to {run.last}"


def phase_lines(request, found):
    """How many phases of a task come to each answer, and below the names of the columns a line for each run."""
    task = request.tasks[found.task]
    wide = len(str(task.period))
    lines = [f"{quoted(task.name)}: {counted(task.period, 'phase')}, its own is {task.phase}"]
    lines += [f"{count:{wide}}  {answer_words(answer, found.tries)}" for answer, count in found.counts.items()]
    ranges = ["phases", *map(phase_range, found.runs)]
    answers = ["answer"]
    for run in found.runs:
        own = ", its own phase" if run.first <= task.phase <= run.last else ""
        answers.append(f"{answer_word(run.answer)}{own}")
    first = max(map(len, ranges))
    lines += [f"{phases:{first}}  {answer}" for phases, answer in zip(ranges, answers)]
    return "\n".join(lines) + "\n"


def _bits(byte, *names):
    """The names of the bits that are set in a byte, from bit 0 on."""
    return ", ".join(name for bit, name in enumerate(names) if byte >> bit & 1)


def register_words(registers, line_on):
    """What the eight bytes say, and the interrupt line."""
    control, status, row, row_high, overruns, overruns_high, *_ = registers
    return "; ".join([
        _bits(control, "run", "enable") or "control 0",
        _bits(status, "frame due", "overrun", "frame missed") or "status 0",
        f"row {row + 256 * row_high}",
        f"overruns {overruns + 256 * overruns_high}",
        f"line {'on' if line_on else 'off'}",
    ])


def registers(made):
    """Two lines for each step of a program: its line, the call and what it answered; the registers and their words."""
    lines = []
    for done in made:
        answer = f": {done.answer}" if done.answer else ""
        lines.append(f"{done.step.line} {done.step.text}{answer}")
        lines.append(f"    {bytes(done.registers).hex(' ').upper()}  {register_words(done.registers, done.line_on)}")
    return "".join(f"{line}\n" for line in lines)


def is_c_name(name):
    return bool(re.fullmatch(r"[A-Za-z_][A-Za-z0-9_]*", name)) and name not in KEYWORDS


def printable(text):
    """Text without control characters, also those that turn the direction of writing."""
    return "".join(letter if letter.isprintable() else "?" for letter in text)


def _comment(text):
    """Text that neither ends a C comment nor begins another."""
    return "/* " + printable(text).replace("*/", "* /").replace("/*", "/ *") + " */"


def _in_hex(data):
    return " ".join(f"0x{byte:02X}," for byte in data)


def c_array(request: RequestLike, table: TableLike, name: str) -> str:
    """The table's bytes as a C array, a line for each row with its entries beside it."""
    request, table = both(request, table)
    data = bytes(table)
    lines = ["#include <stdint.h>", "", _comment(f"Bus table: {sizes(table)}")]
    lines += [f"const uint8_t {name}[{len(data)}] = {{", f"    {_in_hex(data[:7])}"]
    at = 7
    for number, row in enumerate(table.rows):
        end = at + 1 + 2 * len(row)
        labels = " ".join([f"row {number}:", *(entry_label(request, entry) for entry in row)])
        lines.append(f"    {_in_hex(data[at:end])} {_comment(labels)}")
        at = end
    return "\n".join([*lines, "};", ""])
