"""What a subcommand answers, and how it is printed: as words for people, or with --json as one record.

The `run` of a subcommand prints nothing. It gives an Answer, and `show` prints it.
"""

import dataclasses
import json
from typing import Any, NamedTuple

from . import files

# The exit status: answered; refused; wrong use, or a file that cannot be read or written; the answer is not known.
ANSWERED, REFUSED, FAILED, UNKNOWN = range(4)
STATUS = {ANSWERED: "answered", REFUSED: "refused", FAILED: "failed", UNKNOWN: "unknown"}

# Arguments that name a file to write; '-' is standard output.
OUTPUTS = ("output", "svg")


class Answer(NamedTuple):
    """The record for --json, the same as words for people, whole lines or nothing, and the exit status.

    The record is a dict. Its values may be records: `plain` makes dicts of them.
    """

    record: dict
    words: str
    status: int = ANSWERED


def plain(value: Any) -> Any:
    """The value in what JSON knows: records are dicts, tuples are lists, bytes are hexadecimal."""
    if hasattr(value, "_asdict"):
        return plain(value._asdict())
    if dataclasses.is_dataclass(value):
        shown = [field.name for field in dataclasses.fields(value) if field.repr]
        return {name: plain(getattr(value, name)) for name in shown}
    if isinstance(value, dict):
        return {str(key): plain(each) for key, each in value.items()}
    if isinstance(value, (tuple, list)):
        return [plain(each) for each in value]
    return bytes(value).hex() if isinstance(value, (bytes, bytearray)) else value


def taken(asked):
    """Whether a file that is written is standard output, which then has nothing else."""
    return any(getattr(asked, name, None) == "-" for name in OUTPUTS)


def as_json(answer, subcommand):
    """The record as JSON, with the subcommand and the status in front."""
    head = {"command": subcommand, "status": STATUS[answer.status]}
    return json.dumps({**head, **plain(answer.record)}, indent=2, ensure_ascii=False) + "\n"


def show(answer, asked):
    """Prints an answer as it is asked for."""
    if getattr(asked, "json", False):
        files.print_out(as_json(answer, asked.subcommand))
    elif answer.words and not taken(asked):
        files.print_out(answer.words)
