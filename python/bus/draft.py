"""A table changed by hand, a job at a time: the library's draft in its 770 bytes."""

import struct
from typing import Dict, Optional, Tuple, Union

from . import library, table as tables
from .accepted import RequestLike, TableLike, TaskLike, whole
from .names import job_place
from .refusals import Refused
from .sources import content, given
from .table import Table

FRAMES_AT, LOADS_AT = 2, 258
LIFTED = 65_535

JobLike = Union[str, Tuple[TaskLike, int]]


class Draft:
    """A draft that starts from a table, which the library accepts for the request.

    Request and table may be given as to `check`. A job is called by its task and its number, as `camera.0`, `5.0` or
    `("camera", 0)`. What the library refuses leaves the draft as it was.
    """

    def __init__(self, request: RequestLike, table: TableLike):
        self._data, self.request = given(request)
        table = content(table)
        answer, self.state = library.draft_start(self._data, table)
        if answer < 0:
            raise Refused.of(-answer, data=self._data, request=self.request, table=table)

    @property
    def frame(self) -> int:
        """The frame length."""
        return struct.unpack_from("<H", self.state)[0]

    @property
    def loads(self) -> Tuple[int, ...]:
        """The ticks that each row uses, silent ones included."""
        return struct.unpack_from(f"<{self.request.cycle // self.frame}H", self.state, LOADS_AT)

    def frames(self) -> Dict[Tuple[int, int], Optional[int]]:
        """The frame, counted from time 0, of each (task, job) in planning order; None while the job is lifted."""
        jobs = self.request.jobs()
        frames = struct.unpack_from(f"<{len(jobs)}H", self.state, FRAMES_AT)
        return {(job.task, job.number): None if at == LIFTED else at for job, at in zip(jobs, frames)}

    def _take(self, answer, **asked):
        """Refuses what the library refused."""
        if answer < 0:
            raise Refused.of(-answer, data=self._data, request=self.request, draft=self, **asked)

    def lift(self, job: JobLike) -> None:
        """Takes a job out of its frame."""
        place = job_place(self.request, job)
        answer, state = library.draft_lift(self._data, place, self.state)
        self._take(answer, place=place, called=job)
        self.state = state

    def put(self, job: JobLike, frame: int) -> None:
        """Puts a lifted job into a frame, counted from time 0."""
        frame = whole("a frame", frame, 0, library.MOST_FRAME)
        place = job_place(self.request, job)
        answer, state = library.draft_put(self._data, place, frame, self.state)
        self._take(answer, place=place, called=job, frame=frame)
        self.state = state

    def write(self) -> Table:
        """The table of the draft; no job may be lifted."""
        answer, written = library.draft_write(self._data, self.state)
        self._take(answer)
        return tables.of(tables.decode(written), self.request)
