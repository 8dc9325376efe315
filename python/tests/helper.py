"""What several test files share."""

import fcntl
import io
import os
import pty
import random
import re
import select
import shlex
import signal
import struct
import subprocess
import sys
import tempfile
import termios
import threading
import unittest
from pathlib import Path
from unittest import mock

import bus
from bus import child, search

ROOT = Path(__file__).resolve().parents[2]
EXAMPLES = ROOT / "examples"
ANSWERS = Path(__file__).resolve().parent / "answers"
COMMAND = [sys.executable, str(ROOT / "bus")]

# Seconds that are over only if something hangs, and seconds in which all is done that is done at once, however busy the
# machine is. What a test ends at once would go on for far longer.
HANGS = 1800
AT_ONCE = 30

# The line that tells of long work. On a busy machine any work may be long.
SIGN = re.compile("^bus: .*; Ctrl-C stops it, and nothing is written before it ends\n", re.MULTILINE)


def example(name):
    return (EXAMPLES / name).read_bytes()


def request(*tasks, pairs=(), silent=0):
    """A request of tasks given as (C, T, D, P), named as those of a request file are."""
    return bus.Request(tuple(bus.Task(f"task{i}", *task) for i, task in enumerate(tasks)), tuple(pairs), silent)


def pigeons(count):
    """So many jobs that fill a frame each, and a frame too few: the search is long from 11 on, without end from 16."""
    return request(*[(13, 13 * (count - 1), 13 * (count - 1), 0)] * count)


# What is told of a list that asks for more than all the time, before any search; of 16 pigeons.
OVERLOAD = "bus: the transfers ask for 107 % of the time: more than there is\n"


def seeded_request(draw, silent=False):
    """Some request that can be read; nothing is said about its plans."""
    periods = [draw.randint(1, draw.choice((12, 400, 10_000, 65_535))) for _ in range(draw.randint(1, 3))]
    tasks = []
    for _ in range(draw.randint(1, 16)):
        period = draw.choice(periods)
        length = draw.randint(1, period)
        tasks.append((length, period, draw.randint(length, period), draw.randrange(period)))
    equal = [(a, b) for b in range(len(tasks)) for a in range(b) if tasks[a][1] == tasks[b][1]]
    pairs = [draw.choice(equal) for _ in range(draw.randint(0, 16))] if equal else []
    return request(*tasks, pairs=pairs, silent=draw.randint(1, 15) if silent else 0)


def damaged(draw, data):
    """The bytes with one to three changes anywhere."""
    data = bytearray(data)
    for _ in range(draw.randint(1, 3)):
        at = draw.randrange(len(data)) if data else 0
        kind = draw.randrange(4)
        if kind == 0 and data:
            data[at] = draw.randrange(256)
        elif kind == 1:
            data.insert(at, draw.randrange(256))
        elif kind == 2 and data:
            del data[at]
        else:
            del data[at:]
    return bytes(data)


def stored(name):
    """The stored answers: for each request its line's words and those of the lines that follow."""
    groups = []
    for line in (ANSWERS / name).read_text(encoding="ascii").splitlines():
        words = line.split(" ")
        if words[0] == "request":
            groups.append((words, []))
        else:
            groups[-1][1].append(words)
    return groups


def unhex(word):
    return b"" if word == "-" else bytes.fromhex(word)


class Case(unittest.TestCase):
    """A test with a folder of its own."""

    def setUp(self):
        folder = tempfile.TemporaryDirectory()
        self.addCleanup(folder.cleanup)
        self.folder = Path(folder.name)
        self.draw = random.Random(15)

    def file(self, name, content):
        path = self.folder / name
        path.write_bytes(content if isinstance(content, bytes) else content.encode())
        return str(path)

    def run_bus(self, *words, stdin=b"", **more):
        """Status, standard output and standard error of the command, without the sign of long work."""
        done = subprocess.run([*COMMAND, *map(str, words)], input=stdin, capture_output=True, timeout=HANGS, **more)
        return done.returncode, done.stdout.decode(), SIGN.sub("", done.stderr.decode())

    def answered(self, *words, **more):
        status, out, err = self.run_bus(*words, **more)
        self.assertEqual((status, err), (0, ""))
        return out

    def failed(self, status, *words, says=(), **more):
        """The command ends with the status, prints no answer, and standard error has these words."""
        ended, out, err = self.run_bus(*words, **more)
        self.assertEqual((ended, out), (status, ""), err)
        for text in says:
            self.assertIn(text, err)
        return err

    def refused(self, number, call, *arguments):
        with self.assertRaises(bus.Refused) as caught:
            call(*arguments)
        self.assertEqual(caught.exception.number, number)
        return caught.exception

    def interrupted(self, asks, call):
        """Ctrl-C while a process of its own works on what it was asked, the last of so many times: the call raises
        KeyboardInterrupt, and no process is left."""
        ask, left = child.Worker.ask, [None] * asks

        def stop(*_):
            raise KeyboardInterrupt

        def asked(worker, *words):
            ask(worker, *words)
            left.pop()
            if not left:
                signal.setitimer(signal.ITIMER_REAL, 0.3)

        child.kept.end()
        self.addCleanup(signal.signal, signal.SIGALRM, signal.signal(signal.SIGALRM, stop))
        with mock.patch.object(child.Worker, "ask", asked), self.assertRaises(KeyboardInterrupt):
            call()
        self.assertEqual(children(os.getpid()), [])

    def names_in_folder(self):
        return sorted(os.listdir(self.folder))


def running(pid):
    """Whether the process is there and not just a remainder."""
    try:
        with open(f"/proc/{pid}/stat", encoding="ascii", errors="replace") as file:
            return file.read().rsplit(")", 1)[1].split()[0] != "Z"
    except OSError:
        return False


def as_from_a_terminal():
    """A process that a shell starts in the background ignores Ctrl-C, and what it starts does too."""
    for number in (signal.SIGINT, signal.SIGTERM):
        signal.signal(number, signal.SIG_DFL)
    signal.pthread_sigmask(signal.SIG_SETMASK, ())


def children(pid):
    """The processes that the main thread of a process has started and that it has not waited for, the oldest first."""
    with open(f"/proc/{pid}/task/{pid}/children", encoding="ascii") as file:
        return [int(word) for word in file.read().split()]


class Screen(io.StringIO):
    """What is written to a terminal of so many columns: the line that is seen after each writing."""

    def __init__(self, columns=80):
        super().__init__()
        self.columns = columns
        self.seen = []

    def isatty(self):
        return True

    def fileno(self):
        return 2

    def flush(self):
        shown = ""
        for part in self.getvalue().split("\r"):
            shown = part + shown[len(part) :]
        self.seen.append(shown.rstrip(" "))


def with_this_terminal():
    """The terminal that is standard error sends its Ctrl-C to the process."""
    as_from_a_terminal()
    fcntl.ioctl(2, termios.TIOCSCTTY, 0)


class Terminal(Case):
    """What is told to a person at a terminal."""

    def seen(self, columns, signs, told):
        """The lines that are seen, one after the other, when these signs are told so."""
        screen = Screen(columns)
        size = mock.patch.object(os, "get_terminal_size", lambda _: os.terminal_size((columns, 24)))
        with size, mock.patch.object(sys, "stderr", screen), signs() as telling:
            for arguments in told:
                telling(*arguments)
        return screen.seen

    def on_a_terminal(self, *words, columns=200):
        """The command with a terminal as its standard error; the process and the terminal's other end."""
        ours, theirs = pty.openpty()
        fcntl.ioctl(theirs, termios.TIOCSWINSZ, struct.pack("4H", 24, columns, 0, 0))
        command = [*COMMAND, *map(str, words)]
        pipes = {"stdin": subprocess.DEVNULL, "stdout": subprocess.PIPE, "stderr": theirs}
        started = subprocess.Popen(command, **pipes, start_new_session=True, preexec_fn=with_this_terminal)
        os.close(theirs)
        self.addCleanup(os.close, ours)
        self.addCleanup(started.communicate)
        self.addCleanup(started.kill)
        return started, ours

    def read(self, terminal, wanted=None):
        """What comes from the terminal, until it ends or the wanted pattern is there."""
        received = b""
        while wanted is None or not re.search(wanted, received.decode(errors="replace")):
            self.assertTrue(select.select([terminal], [], [], HANGS)[0], received)
            try:
                received += os.read(terminal, 4096)
            except OSError:
                break
        return received.decode(errors="replace")

    def told_of_short_work(self, status, *words):
        """What the command prints, and what it tells on a terminal. Where it tells of long work it is tried again: on a
        busy machine short work may take long."""
        for _ in range(5):
            started, terminal = self.on_a_terminal(*words)
            told = self.read(terminal)
            out, _ = started.communicate(timeout=HANGS)
            self.assertEqual(started.returncode, status)
            if "Ctrl-C stops it" not in told:
                break
        return out, told


def typed(*words):
    """The command as a person types it, with files of any name."""
    return shlex.join(["bus", *map(str, words)])


def without_culprits(told):
    """What is told of a refusal, without those to blame: they are named only where they are known in an instant."""
    return re.sub(r"to blame: [^;]*; ", "", told)


def seldom():
    """Work that is short tells nothing, however busy the machine is."""
    return mock.patch.object(search, "SECONDS_BETWEEN_SIGNS", HANGS)


def delayed(seconds_of):
    """Calls in a process of their own are made late: by the seconds that the function says of name and arguments, and
    never where it says None."""
    ask = child.Worker.ask

    def late(worker, *call):
        worker.waits = True
        seconds = seconds_of(*call)
        if seconds is not None:
            threading.Timer(seconds, ask, (worker, *call)).start()

    return mock.patch.object(child.Worker, "ask", late)
