"""The proved library as a file that can be loaded: found, and built the first time.

One process builds at a time; the others wait for it. A build is ended with all that it started.
"""

import contextlib
import errno
import fcntl
import os
import re
import shutil
import signal
import subprocess
import sys
import time
from pathlib import Path

from . import guard
from .errors import Error
from .progress import Line, tell

# A wheel has the library in it. In the repository it is built from libbus.a, and that from the crates, by the archiver.
PACKAGED = Path(__file__).with_name("libbus.so")
ROOT = Path(__file__).resolve().parents[2]
CRATES = ROOT / "crates.txt"
ARCHIVER = "tools/libbus"
ARCHIVE = ROOT / "target" / "staticlib" / "libbus.a"
SHARED = ROOT / "target" / "python" / "libbus.so"
LOG = SHARED.with_name("build.log")
LOCK = SHARED.with_name("build.lock")
LIBRARY = "bus_c"

SECONDS_BETWEEN_SIGNS = 30
SECONDS_BETWEEN_LOOKS = 1
LINES_SHOWN = 8
ELSEWHERE = "let BUS_LIBRARY name a libbus.so that was built elsewhere"
# What a check prints at its end: its crate, and each crate that it took as proved.
DONE = re.compile(r"^(?:crate|library) (\w+): ", re.MULTILINE)


class NotBuilt(Error):
    """The library is not there and could not be made; the text says what to do."""


class CannotBuild(NotBuilt):
    """What building needs is missing here: why, and what to do. An older library, if there is one, will do."""

    def __init__(self, why, advice):
        self.why = why
        super().__init__(f"the library is not built, and {why}: {advice}")


def _time_of(path):
    return path.stat().st_mtime if path.exists() else 0.0


def _newest_source():
    return max((_time_of(path) for path in (ROOT / "crates").glob("*/src/**/*.rt")), default=0.0)


def crates_of(name, text):
    """The crate and all that it stands on, by the text of crates.txt."""
    below = {}
    for line in text.splitlines():
        crate, colon, others = line.partition("#")[0].partition(":")
        if colon:
            below[crate.split()[0]] = others.split()
    found, open_ones = set(), [name]
    while open_ones:
        crate = open_ones.pop()
        if crate in below and crate not in found:
            found.add(crate)
            open_ones += below[crate]
    return found


def _far(begin):
    """How far the build is, by what `rt` has printed so far."""
    crates = crates_of(LIBRARY, CRATES.read_text(encoding="utf-8")) if CRATES.exists() else set()
    done = crates.intersection(DONE.findall(LOG.read_text(encoding="utf-8", errors="replace")))
    seconds = f"{time.monotonic() - begin:.0f} seconds so far"
    if not done or not done < crates:
        return seconds
    return f"crate {len(done) + 1} of {len(crates)}, {seconds}"


class _Signs(Line):
    """How far a build is: on a terminal in one line that is written anew, elsewhere in a line now and then."""

    def __init__(self):
        super().__init__()
        self.begin = self.last = time.monotonic()

    def __call__(self):
        if self.terminal:
            self.show("building the library: ", _far(self.begin))
        elif time.monotonic() - self.last >= SECONDS_BETWEEN_SIGNS:
            self.last = time.monotonic()
            tell(f"still at it: {_far(self.begin)}")


def _end(started):
    with contextlib.suppress(ProcessLookupError):
        os.killpg(started.pid, signal.SIGKILL)
    started.wait()


def _waited(started, signs):
    """The status of what was started. Whatever ends this process ends it too, with all its children."""
    try:
        while True:
            try:
                return started.wait(SECONDS_BETWEEN_LOOKS)
            except subprocess.TimeoutExpired:
                signs()
    except BaseException:
        _end(started)
        raise
    finally:
        started.stdin.close()


def _run(command, lock):
    """Runs a command with its output in the log, and tells how far it is. The lock is kept until it has ended."""
    begin = time.monotonic()
    guarded = [sys.executable, "-I", guard.__file__, *command]
    with open(LOG, "w", encoding="utf-8") as log, _Signs() as signs:
        pipes = {"stdin": subprocess.PIPE, "stdout": log, "stderr": log}
        started = subprocess.Popen(guarded, cwd=ROOT, start_new_session=True, pass_fds=[lock.fileno()], **pipes)
        status = _waited(started, signs)
    if status != 0:
        last = LOG.read_text(encoding="utf-8", errors="replace").splitlines()[-LINES_SHOWN:]
        raise NotBuilt("\n".join([f"`{' '.join(command)}` failed; the end of {LOG}:", *last]))
    return time.monotonic() - begin


def _prove(lock):
    """Makes libbus.a, which proves every function of the library."""
    if shutil.which("rt") is None:
        why = "the Rattle toolchain `rt`, which builds it, is not on the path"
        raise CannotBuild(why, f"install it, or {ELSEWHERE}")
    tell(f"building the library by `{ARCHIVER}`, which proves every function of it: 3 to 5 minutes the first time")
    tell(f"done in {_run([ARCHIVER], lock):.0f} seconds")


def _link(lock):
    """Makes libbus.so from libbus.a, under another name first, so that nobody loads a half one."""
    compiler = shutil.which("cc") or shutil.which("gcc")
    if compiler is None:
        raise CannotBuild("no C compiler, `cc` or `gcc`, is on the path to link it", "install gcc")
    new = SHARED.with_name(f"libbus.{os.getpid()}.so")
    whole = ["-Wl,--whole-archive", str(ARCHIVE), "-Wl,--no-whole-archive"]
    seconds = _run([compiler, "-shared", "-o", str(new), *whole], lock)
    os.replace(new, SHARED)
    tell(f"linked {SHARED.relative_to(ROOT)} from {ARCHIVE.relative_to(ROOT)} in {seconds:.1f} seconds")


@contextlib.contextmanager
def _locked():
    """The lock of the build, once no other process has it."""
    try:
        LOCK.parent.mkdir(parents=True, exist_ok=True)
        lock = open(LOCK, "ab")
    except OSError as reason:
        why = f"{LOCK.parent}, where it is built, cannot be written ({reason.strerror})"
        advice = f"copy the repository to a folder that you may write to, or {ELSEWHERE}"
        raise CannotBuild(why, advice) from reason
    with lock:
        try:
            fcntl.flock(lock, fcntl.LOCK_EX | fcntl.LOCK_NB)
        except BlockingIOError:
            tell("the library is being built by another `bus`: waiting for it; Ctrl-C ends the waiting")
            fcntl.flock(lock, fcntl.LOCK_EX)
        yield lock


def _up_to_date(sources):
    return _time_of(SHARED) >= max(sources, _time_of(ARCHIVE)) > 0.0


def _build():
    """Brings libbus.so up to date with libbus.a, and that with the library's sources."""
    sources = _newest_source()
    if _up_to_date(sources):
        return
    with _locked() as lock:
        if _up_to_date(sources):
            return
        if _time_of(ARCHIVE) < sources or not ARCHIVE.exists():
            _prove(lock)
        _link(lock)


def build():
    """The path of the library: that of a wheel, or the one in the repository, up to date if it can be."""
    if PACKAGED.exists():
        return PACKAGED
    if not (ROOT / "crates").exists() and not SHARED.exists():
        raise NotBuilt(f"the command was installed without its library: install it again, or {ELSEWHERE}")
    try:
        _build()
    except CannotBuild as reason:
        if not SHARED.exists():
            raise
        tell(f"the library is older than its sources and is used as it is, since {reason.why}")
    except OSError as reason:
        room = "make room, or " if reason.errno == errno.ENOSPC else ""
        raise NotBuilt(f"the library cannot be built: {reason}: {room}{ELSEWHERE}") from reason
    return SHARED
