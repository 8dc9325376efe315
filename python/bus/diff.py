"""What is different between two lists, or between two tables: added, taken away, changed and moved.

Transfers are told apart by their names. A table has none: its tasks are numbers, unless a list names them.
"""

import difflib
from typing import Any, Dict, NamedTuple, Optional, Tuple, Union

from . import library, lists, table as tables
from .accepted import RequestLike, TableLike
from .request import Request, numbered
from .sources import REQUEST, Given, bytes_of, given
from .table import Table
from .text import quoted

NUMBERS = ("length", "period", "deadline", "phase")
SIZES = ("frame", "cycle", "rows")


class Diff(NamedTuple):
    """What the new one has and the old has not; what it has no longer; what has other numbers, each with the old and
    the new; and what stands elsewhere, from its old place to its new. Each item is a plain record."""

    kind: str
    added: Tuple[Dict[str, Any], ...]
    gone: Tuple[Dict[str, Any], ...]
    changed: Tuple[Dict[str, Any], ...]
    moved: Tuple[Dict[str, Any], ...]

    @property
    def same(self) -> bool:
        """Whether nothing is different."""
        return not (self.added or self.gone or self.changed or self.moved)


def _change(what, name, old, new):
    return {"what": what, "name": name, "old": old, "new": new}


# ---- two requests ----


def _tasks(request):
    """The tasks by name; of a name that stands twice, which a list cannot have, the first."""
    found = {}
    for number, task in enumerate(request.tasks):
        found.setdefault(task.name, (number, task))
    return found


def _pairs(request):
    names = [task.name for task in request.tasks]
    return list(dict.fromkeys((names[first], names[second]) for first, second in request.pairs))


def _out_of_order(old, new):
    """The names of both whose order is another: as few as can be."""
    matcher = difflib.SequenceMatcher(None, old, new, autojunk=False)
    stay = {name for block in matcher.get_matching_blocks() for name in old[block.a : block.a + block.size]}
    return [name for name in old if name not in stay]


def _of_requests(old: Request, new: Request) -> Diff:
    before, after = _tasks(old), _tasks(new)
    both = [name for name in before if name in after]
    changed = [
        _change(number, name, getattr(before[name][1], number), getattr(after[name][1], number))
        for name in both
        for number in NUMBERS
        if getattr(before[name][1], number) != getattr(after[name][1], number)
    ]
    if old.silent != new.silent:
        changed.append(_change("silent", "", old.silent, new.silent))
    order = _out_of_order(both, [name for name in after if name in before])
    moved = [_change("place", name, before[name][0], after[name][0]) for name in order]
    old_pairs, new_pairs = _pairs(old), _pairs(new)
    return Diff(
        "list",
        (*_new_tasks(after, before), *_new_pairs(new_pairs, old_pairs)),
        (*_new_tasks(before, after), *_new_pairs(old_pairs, new_pairs)),
        tuple(changed),
        tuple(moved),
    )


def _new_tasks(these, those):
    for name, (_, task) in these.items():
        if name not in those:
            yield {"what": "transfer", **vars(task)}


def _new_pairs(these, those):
    for first, second in these:
        if (first, second) not in those:
            yield {"what": "before", "first": first, "second": second}


# ---- two tables ----


def _jobs(table, names):
    """For each job, by its task's name, the row and whether it is carried."""
    return {
        (names(entry.task), entry.job): {"row": number, "carry": entry.carry}
        for number, row in enumerate(table.rows)
        for entry in row
    }


def _of_tables(old: Table, new: Table, request: Optional[Request]) -> Diff:
    def names(task):
        known = request is not None and task < len(request.tasks)
        return request.tasks[task].name if known else numbered(task)

    sizes = [(table.frame, table.cycle, len(table.rows)) for table in (old, new)]
    changed = [_change(what, "", was, now) for what, was, now in zip(SIZES, *sizes) if was != now]
    before, after = _jobs(old, names), _jobs(new, names)
    moved = [
        {"what": "job", "name": name, "job": job, "old": before[name, job], "new": place}
        for (name, job), place in after.items()
        if (name, job) in before and before[name, job] != place
    ]
    return Diff("table", _new_jobs(after, before), _new_jobs(before, after), tuple(changed), tuple(moved))


def _new_jobs(these, those):
    return tuple({"what": "job", "name": key[0], "job": key[1], **at} for key, at in these.items() if key not in those)


# ---- either ----


def read(source: Union[RequestLike, TableLike]) -> Union[Request, Table]:
    """A request or a table. Bytes that are both are taken for a request."""
    if isinstance(source, (Given, Request)):
        return given(source).request
    if isinstance(source, Table):
        return source
    data = bytes_of(source, f"{REQUEST}, or a table in one of these ways")
    if lists.is_list(data) or not library.unreadable(data) or library.no_table(data):
        return given(data).request
    return tables.decode(data)


def diff(
    old: Union[RequestLike, TableLike], new: Union[RequestLike, TableLike], request: Optional[RequestLike] = None
) -> Diff:
    """What is different between two requests, or between two tables. A request names the jobs of tables."""
    before, after = read(old), read(new)
    if isinstance(before, Table) != isinstance(after, Table):
        raise ValueError("one is a list or a request and the other a table: give two of a kind")
    if isinstance(before, Table):
        return _of_tables(before, after, None if request is None else given(request).request)
    return _of_requests(before, after)


# ---- in words ----


def _thing(item):
    """Something that was added or taken away."""
    if item["what"] == "before":
        return f"before {quoted(item['first'])} {quoted(item['second'])}"
    if item["what"] == "job":
        return f"job {quoted(item['name'])}.{item['job']}{'+' if item['carry'] else ''} in row {item['row']}"
    numbers = ", ".join(f"{number} {item[number]}" for number in NUMBERS)
    return f"transfer {quoted(item['name'])}: {numbers}"


def _row(place):
    return f"row {place['row']}{' (carried)' if place['carry'] else ''}"


def _move(item):
    if item["what"] == "job":
        return f"job {quoted(item['name'])}.{item['job']}: {_row(item['old'])} to {_row(item['new'])}"
    return f"transfer {quoted(item['name'])}: number {item['old']} to {item['new']}"


def words(found: Diff) -> str:
    """A line for each difference, and one that says so if there is none."""
    lines = [f"added    {_thing(item)}" for item in found.added]
    lines += [f"gone     {_thing(item)}" for item in found.gone]
    for item in found.changed:
        name = f"{quoted(item['name'])} " if item["name"] else ""
        lines.append(f"changed  {name}{item['what']}: {item['old']} to {item['new']}")
    lines += [f"moved    {_move(item)}" for item in found.moved]
    return "".join(f"{line}\n" for line in lines or [f"no difference: the same {found.kind}"])
