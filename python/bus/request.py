"""A team's request as records, and its bytes as docs/FORMATS.md has them. Only conversion: the library judges."""

import math
import struct
from dataclasses import dataclass, field, replace
from typing import Iterable, List, NamedTuple, Tuple

from .amounts import counted


# So many tasks are named where a request is shown in a line.
MOST_NAMED = 4


@dataclass(frozen=True)
class Task:
    """A periodic transfer. In the papers its numbers are C, T, D and P."""

    name: str
    length: int
    period: int
    deadline: int
    phase: int = 0


class Job(NamedTuple):
    """One run of a task within the cycle."""

    task: int
    number: int
    release: int
    due: int


@dataclass(frozen=True, repr=False)
class Request:
    """Tasks in their order, pairs of task numbers (the earlier one first), and the silent ticks after every transfer.

    `lines` has the line of each task in the list that the request was read from, if it was, and `notes` what was
    noticed there: columns that were not read, another order of the tasks.
    """

    tasks: Tuple[Task, ...]
    pairs: Tuple[Tuple[int, int], ...] = ()
    silent: int = 0
    lines: Tuple[int, ...] = field(default=(), compare=False, repr=False)
    notes: Tuple[str, ...] = field(default=(), compare=False, repr=False)

    def __repr__(self) -> str:
        names = ", ".join(task.name for task in self.tasks[:MOST_NAMED])
        more = ", …" if len(self.tasks) > MOST_NAMED else ""
        counts = f"{counted(len(self.tasks), 'task')} ({names}{more}), {counted(len(self.pairs), 'pair')}"
        return f"<bus.Request: {counts}, {counted(self.silent, 'silent tick')}>"

    def __bytes__(self) -> bytes:
        numbers = [(task.length, task.period, task.deadline, task.phase) for task in self.tasks]
        try:
            records = b"".join(struct.pack("<4H", *four) for four in numbers)
            pairs = bytes(number for pair in self.pairs for number in pair)
            third = bytes([1, self.silent]) if self.silent else b""
            return bytes([len(self.tasks)]) + records + bytes([len(self.pairs)]) + pairs + third
        except (struct.error, ValueError, TypeError) as reason:
            raise ValueError(f"the request does not fit into a request file: {reason}") from reason

    @property
    def cycle(self) -> int:
        """The least common multiple of all periods, H in the papers."""
        return math.lcm(*(task.period for task in self.tasks))

    @property
    def load(self) -> float:
        """The share of the bus that the transfers ask for, silent ticks included."""
        cycle = self.cycle
        return sum((task.length + self.silent) * (cycle // task.period) for task in self.tasks) / cycle

    def used(self, row: Iterable) -> int:
        """The ticks that a row's entries use, carried ones too, each with the silent ticks after it."""
        return sum(self.tasks[entry.task].length + self.silent for entry in row)

    def jobs(self) -> List[Job]:
        """Every job of the cycle in planning order: by release, then by task."""
        cycle = self.cycle
        jobs = []
        for number, task in enumerate(self.tasks):
            for j in range(cycle // task.period):
                release = task.phase + j * task.period
                jobs.append(Job(number, j, release, release + task.deadline))
        return sorted(jobs, key=lambda job: (job.release, job.task))

    def place(self, number: int) -> str:
        """A task's name and, if it is known, its line: 'gyro (line 2)'."""
        line = f" (line {self.lines[number]})" if self.lines else ""
        return f"{self.tasks[number].name}{line}"


def numbered(number: int) -> str:
    """The name of a task that has none but its number."""
    return f"task{number}"


def named(request: Request, names: Iterable[str]) -> Request:
    """The request with these names for its tasks."""
    return replace(request, tasks=tuple(replace(task, name=name) for task, name in zip(request.tasks, names)))


def decode(data: bytes) -> Request:
    """The request in bytes that the library can read. Its tasks are named task0, task1 and so on."""
    count = data[0]
    tasks = tuple(Task(numbered(i), *struct.unpack_from("<4H", data, 1 + 8 * i)) for i in range(count))
    at = 1 + 8 * count
    pairs = tuple((data[k], data[k + 1]) for k in range(at + 1, at + 1 + 2 * data[at], 2))
    third = data[at + 1 + 2 * data[at] :]
    return Request(tasks, pairs, third[1] if len(third) > 1 else 0)
