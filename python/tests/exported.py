"""Lists as workbooks export them: one request in many forms, drawn by a seed."""

import csv
import io

from bus import request as requests
from bus.lists import HEADER

SEPARATORS = (",", ";", "\t")
UNITS = ("", " (ticks)", " [ticks]", "(Ticks)", " [ tick ]", "\n(ticks)")
OTHERS = ("Board", "Comment", "#", "Owner (initials)", "Rev", "")
NOTES = ("", "x", "see page 3, below", 'the "new" one', "two\nlines", "-", "7")
TITLES = (["Bus of the second satellite"], ["Transfers, as agreed", "", "rev 3"], ["Name of the list:", "bus A"])
COMMENTS = ("# by hand", "# a, b; c", '"# in quotes, with commas"', "#", "   # indented")
NOTHING = ("", "-", "n/a", "N/A", "–", "  ")
LETTERS = "abcXYZ 019_-+@/.äß,;'\"#µ"
ENCODINGS = ("utf-8", "utf-8-sig", "utf-16", "utf-16-le", "utf-16-be", "marked-be", "cp1252")


def name(draw, taken):
    """A name that is not taken; also with what must stand in quotes."""
    while True:
        text = "".join(draw.choice(LETTERS) for _ in range(draw.randint(1, 12))).strip()
        if text.strip("-_") and text.casefold() not in ("before", "silent") and text not in taken:
            return text


def named(draw, request):
    """The request with names of all kinds."""
    names = []
    for _ in request.tasks:
        names.append(name(draw, names))
    return requests.named(request, names)


def _number(draw, number):
    return draw.choice((f"{number}", f" {number} ", f"{number}.0", f"{number},0", f"{number}.00", f"0{number}"))


def _optional(draw, number, default):
    return draw.choice(NOTHING) if number == default and draw.random() < 0.8 else _number(draw, number)


def _cells(draw, task, column):
    return {
        "name": task.name,
        "length": _number(draw, task.length),
        "period": _number(draw, task.period),
        "deadline": _optional(draw, task.deadline, task.period),
        "phase": _optional(draw, task.phase, 0),
    }.get(column) if column in HEADER else draw.choice(NOTES)


def _columns(draw, request):
    """The columns in some order, others among them, and none that says nothing, perhaps."""
    columns = list(HEADER)
    for column, says in (
        ("deadline", any(task.deadline != task.period for task in request.tasks)),
        ("phase", any(task.phase for task in request.tasks)),
    ):
        if not says and draw.random() < 0.5:
            columns.remove(column)
    columns += draw.sample(OTHERS, draw.randint(0, 3))
    draw.shuffle(columns)
    return columns


def _heading(draw, column):
    if column not in HEADER:
        return column
    word = draw.choice((column, column.upper(), column.title(), f" {column} "))
    return word + (draw.choice(UNITS) if column != "name" else "")


def _rows(draw, request, columns):
    """The lines below the header: transfers in their order, and the other lines anywhere among them."""
    names = [task.name for task in request.tasks]
    rows = [[_cells(draw, task, column) for column in columns] for task in request.tasks]
    more = [["before", names[a], names[b]] for a, b in request.pairs]
    if request.silent or draw.random() < 0.2:
        more.append(["Silent", _number(draw, request.silent)])
    at = 0
    for row in more:  # in their order, since that of the pairs is kept
        at = draw.randint(at, len(rows))
        rows.insert(at, row)
        at += 1
    return rows


def _line(draw, cells, separator, header=False):
    out = io.StringIO()
    quoting = draw.choice((csv.QUOTE_MINIMAL, csv.QUOTE_ALL))
    csv.writer(out, delimiter=separator, lineterminator="\r\n", quoting=quoting).writerow(cells)
    text = out.getvalue()[:-2]
    return f'"{cells[0]}"{text[len(cells[0]):]}' if text.startswith("#") and not header else text


def _is_utf_8(data):
    try:
        return bool(data.decode())
    except UnicodeDecodeError:
        return False


def _encoded(draw, text):
    name = draw.choice(ENCODINGS)
    if name == "marked-be":
        return b"\xfe\xff" + text.encode("utf-16-be")
    if name == "cp1252" and _is_utf_8(text.encode(name)):
        return text.encode("utf-8")
    return text.encode(name)


def exported(draw, request):
    """The bytes of some list of the request."""
    separator = draw.choice(SEPARATORS)
    columns = _columns(draw, request)
    lines = [f"sep={separator}"] if draw.random() < 0.2 else []
    lines += [_line(draw, title, separator) for title in draw.sample(TITLES, draw.randint(0, 2))]
    lines.append(_line(draw, [_heading(draw, column) for column in columns], separator, header=True))
    for row in _rows(draw, request, columns):
        lines.append(_line(draw, row + [""] * draw.randint(0, 2), separator))
        if draw.random() < 0.1:
            lines.append(draw.choice((*COMMENTS, "", separator * 3, f"---{separator}---")))
    end = draw.choice(("\n", "\r\n", "\r"))
    return _encoded(draw, end.join(lines) + draw.choice(("", end, end * 3)))
