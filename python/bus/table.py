"""A table as records, and its bytes as docs/FORMATS.md has them. Only conversion: the library judges."""

import struct
from dataclasses import dataclass, field, replace
from typing import Dict, Iterator, NamedTuple, Optional, Tuple

from .amounts import counted
from .request import Request

CARRY = 128


class Entry(NamedTuple):
    """A job in a row; a carried one is of the cycle before."""

    task: int
    job: int
    carry: bool = False


Row = Tuple[Entry, ...]


@dataclass(frozen=True, repr=False)
class Table:
    """The frame length, the cycle and the rows, each a tuple of entries. Going through a table gives its rows.

    `tries` has the tries of the search that found the table; a table that was read has none. `request` is the one that
    the table was planned or checked for, if it was; with it a notebook shows the table as a picture.
    """

    frame: int
    cycle: int
    rows: Tuple[Row, ...]
    tries: int = field(default=0, compare=False, repr=False)
    request: Optional[Request] = field(default=None, compare=False, repr=False)

    def __bytes__(self) -> bytes:
        rows = b"".join(bytes([len(row)]) + b"".join(map(_entry_bytes, row)) for row in self.rows)
        return struct.pack("<B3H", 2, self.frame, self.cycle, len(self.rows)) + rows

    def __iter__(self) -> Iterator[Row]:
        return iter(self.rows)

    def __len__(self) -> int:
        return len(self.rows)

    def __repr__(self) -> str:
        jobs = counted(sum(map(len, self.rows)), "job")
        return f"<bus.Table: frame {self.frame}, cycle {self.cycle}, {counted(len(self.rows), 'row')}, {jobs}>"

    def _repr_svg_(self) -> Optional[str]:
        """The picture, for a notebook."""
        from .drawing import inside
        from .picture import picture

        return None if self.request is None else inside(picture(self.request, self))

    def frames(self) -> Dict[Tuple[int, int], int]:
        """The frame, counted from time 0, of each job: a number for every (task, job)."""
        count = len(self.rows)
        return {
            (entry.task, entry.job): number + count * entry.carry
            for number, row in enumerate(self.rows)
            for entry in row
        }


def _entry_bytes(entry):
    return bytes([entry.task, entry.job + CARRY * entry.carry])


def entries_of(data: bytes) -> Row:
    """Pairs of a task byte and a job byte as entries."""
    return tuple(Entry(task, job % CARRY, job >= CARRY) for task, job in zip(data[::2], data[1::2]))


def decode(data: bytes) -> Table:
    """The table in bytes that the library can read."""
    _, frame, cycle, count = struct.unpack_from("<B3H", data)
    rows, at = [], 7
    for _ in range(count):
        end = at + 1 + 2 * data[at]
        rows.append(entries_of(data[at + 1 : end]))
        at = end
    return Table(frame, cycle, tuple(rows))


def of(table: Table, request: Request, tries: int = 0) -> Table:
    """The table with the request that it is for, and the tries of its search."""
    return replace(table, request=request, tries=tries)
