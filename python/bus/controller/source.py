"""The two files of a controller, and the file by which they are compared, made from the templates."""

import hashlib
import string
import zlib
from pathlib import Path
from typing import NamedTuple

from ..request import Request
from ..table import Table
from ..text import c_array, printable
from ..version import __version__
from .c_names import task_names

TEMPLATES = Path(__file__).parent / "templates"
ARRAY_HEAD = "#include <stdint.h>\n\n"


def _in_comment(text):
    """Text that neither ends a C comment nor begins another."""
    return printable(text).replace("*/", "* /").replace("/*", "/ *")


def _hex(data):
    return ", ".join(f"0x{byte:02X}" for byte in data)


def _filled(template, **values):
    return string.Template((TEMPLATES / template).read_text(encoding="utf-8")).substitute(values)


class Controller(NamedTuple):
    """What is written: the prefix of all names, the list's title and its file's bytes, the request and its table."""

    name: str
    title: str
    source: bytes
    request: Request
    table: Table

    @property
    def header_name(self):
        return f"{self.name}_bus.h"

    @property
    def code_name(self):
        return f"{self.name}_bus.c"

    def _common(self):
        """What several files say."""
        return {
            "name": self.name,
            "NAME": self.name.upper(),
            "title": _in_comment(self.title),
            "version": __version__,
        }

    def enumerators(self):
        """The name of each task in the enum."""
        return [f"{self.name.upper()}_TASK_{name}" for name in task_names(task.name for task in self.request.tasks)]

    def _enum_lines(self):
        for number, (name, task) in enumerate(zip(self.enumerators(), self.request.tasks)):
            numbers = f"length {task.length}, period {task.period}, deadline {task.deadline}, phase {task.phase}"
            yield f"    {name} = {number}, /* {_in_comment(task.name)}: {numbers} */"

    def header(self):
        """The text of the header."""
        table = bytes(self.table)
        return _filled(
            "bus.h",
            **self._common(),
            list_sha256=hashlib.sha256(self.source).hexdigest(),
            table_sha256=hashlib.sha256(table).hexdigest(),
            list_crc32=f"{zlib.crc32(self.source):08X}",
            table_crc32=f"{zlib.crc32(table):08X}",
            frame=self.table.frame,
            cycle=self.table.cycle,
            rows=len(self.table.rows),
            tasks=len(self.request.tasks),
            silent=self.request.silent,
            table_bytes=len(table),
            enumerators="\n".join(self._enum_lines()),
        )

    def code(self, compared):
        """The text of the code; its first lines say how it was compared."""
        return _filled(
            "bus.c",
            **self._common(),
            compared="\n".join(f" * {line}" for line in compared),
            table=c_array(self.request, self.table, f"{self.name}_table").removeprefix(ARRAY_HEAD),
            lengths=", ".join(str(task.length) for task in self.request.tasks),
        )

    def subject(self):
        """The text by which the comparison calls the controller."""
        return _filled(
            "subject.c",
            **self._common(),
            request_bytes=_hex(bytes(self.request)),
            table_bytes=_hex(bytes(self.table)),
            enumerators=", ".join(self.enumerators()),
        )


def subjects(names):
    """The text of the file that lists the controllers of a program."""
    lines = ['#include "states.h"', *(f"extern const struct subject {name}_subject;" for name in names)]
    lines += ["const struct subject *const subjects[] = {", *(f"    &{name}_subject," for name in names), "};"]
    return "\n".join([*lines, f"const size_t subject_count = {len(names)};", ""])
