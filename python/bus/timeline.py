"""Every job of a cycle with its window and its frame, as the library tells them of a table that it accepts."""

import struct
from typing import NamedTuple, Tuple

from . import library
from .accepted import RequestLike, TableLike
from .refusals import Refused
from .sources import content, given

RECORD = struct.Struct("<2B3H")


class Record(NamedTuple):
    """A job: its task and number, the ticks of its window, and its frame, counted from time 0. A carried job stands
    in a frame of the next cycle, and its due time is after the end of its own."""

    task: int
    job: int
    release: int
    due: int
    frame: int


def timeline(request: RequestLike, table: TableLike) -> Tuple[Record, ...]:
    """A record for each job of the cycle, by release and then by task."""
    data, request = given(request)
    table = content(table)
    answer, records = library.timeline(data, table)
    if answer < 0:
        raise Refused.of(-answer, data=data, request=request, table=table)
    return tuple(map(Record._make, RECORD.iter_unpack(records)))
