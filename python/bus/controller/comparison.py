"""A controller's files, compiled by the host's C compiler and compared with the proved library."""

import ctypes
import hashlib
import os
import shutil
import subprocess
import tempfile
from pathlib import Path
from typing import NamedTuple

from .. import library
from ..version import __version__
from .source import subjects

HARNESS = Path(__file__).parent / "harness"
COMPILERS = ("cc", "gcc", "clang")
SECONDS = 120


class Different(Exception):
    """What was written is not what the library does, or cannot be compiled: a fault of the command."""


class Compared(NamedTuple):
    """How many states of next_frame were compared, how many calls in all, and the library's SHA-256."""

    states: int
    calls: int
    library: str

    def lines(self):
        """What the first lines of the C file say."""
        return [
            f"Compared with the proved library before it was written: next_frame in {self.states:,} states",
            "(rows 0 to 65,535, with the mark of the first cycle set, clear and neither), and with all others",
            f"{self.calls:,} calls. No difference.",
            f"The library: Wethlak {__version__}, libbus.so with SHA-256",
            self.library,
        ]


NOT_COMPARED = [
    "NOT compared with the proved library: `bus c` found no C compiler on the path. Write it anew where",
    "there is one.",
]


def compiler():
    """The path of the host's C compiler, or None."""
    return next(filter(None, map(shutil.which, COMPILERS)), None)


def library_path():
    """The file of the library that is loaded."""
    return os.path.realpath(library.load()._name)


def _in_c(argument):
    """An argument of a call as C declares it."""
    if argument.types == library.POINTER_AND_LENGTH:
        return f"{'' if argument.size else 'const '}uint8_t *{argument.name}, size_t {argument.name}_len"
    return f"uint{8 * ctypes.sizeof(*argument.types)}_t {argument.name}"


def prototypes():
    """The text of a header with the library's calls, from their rows: a wheel has no include/bus.h."""
    calls = (f"int32_t {call.name}({', '.join(map(_in_c, call.arguments))});" for call in library.CALLS)
    return "\n".join(["#include <stddef.h>", "#include <stdint.h>", *calls, ""])


def _run(command, folder):
    """Standard output of a command that ends with 0."""
    try:
        done = subprocess.run(command, cwd=folder, capture_output=True, timeout=SECONDS, stdin=subprocess.DEVNULL)
    except subprocess.TimeoutExpired as reason:
        raise Different(f"`{' '.join(command)}` did not end in {SECONDS} seconds") from reason
    if done.returncode != 0:
        said = (done.stdout + done.stderr).decode("utf-8", "replace").strip()
        raise Different(f"`{' '.join(command)}` ended with {done.returncode}:\n{said}")
    return done.stdout.decode("utf-8", "replace")


def _write(folder, made, header, code):
    """The files of the comparison, by name."""
    texts = {
        made.header_name: header,
        made.code_name: code,
        "subject.c": made.subject(),
        "subjects.c": subjects([made.name]),
        "prototypes.h": prototypes(),
    }
    for name, text in texts.items():
        Path(folder, name).write_text(text, encoding="utf-8")
    return [name for name in texts if name.endswith(".c")]


def compare(made, header, code):
    """Compares a controller's two texts with the library, and tells how, or raises Different.

    There must be a compiler.
    """
    with tempfile.TemporaryDirectory() as folder:
        linked = library_path()
        sources = [*_write(folder, made, header, code), str(HARNESS / "states.c"), str(HARNESS / "both.c")]
        found = [f"-I{HARNESS}", "-I."]
        path = [linked, f"-Wl,-rpath,{os.path.dirname(linked)}"]
        _run([compiler(), "-std=c99", "-O1", *found, *sources, *path, "-o", "both"], folder)
        words = _run([os.path.join(folder, "both")], folder).split()
    return Compared(int(words[1]), int(words[2]), hashlib.sha256(Path(linked).read_bytes()).hexdigest())
