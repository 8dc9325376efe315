"""Planning without a limit: the stored requests that 10,000,000 tries leave open, words, and signs of a long decision."""

import os
import re
import signal
import subprocess
import time
from unittest import mock

import bus
from bus import child, library, progress, search
from tests.helper import AT_ONCE, COMMAND, EXAMPLES, HANGS, ROOT, Case, Terminal
from tests.helper import as_from_a_terminal, children, pigeons, running, seldom, unhex

LONG, LAST = EXAMPLES / "long-search.req", EXAMPLES / "last-try.req"
LEFT_OPEN = ROOT / "tests" / "left-open.txt"
LINE = "deciding whether there is a plan"

# A request that was bred to be decided slowly: minutes.
SLOW = unhex(
    "107a008208d2070000a2008208820800009c008208820800009300820882080000a9008208820800009f00c30cc30c000076"
    "008208e407d6026c0082085308d6028a008208fd07ac05850082088208ac058900820882080000980082088208d602660082"
    "088208d6029f00820846080000730082083108d6029a008208bd07ac0500"
)


def planned(data, **limit):
    """The answer and the table's bytes that a notebook gets."""
    try:
        table = bus.plan(data, **limit)
    except bus.Refused as refused:
        return -refused.number, b""
    return len(bytes(table)), bytes(table)


def left_open():
    """The stored requests, each with the answer and the table."""
    lines = [line.split() for line in LEFT_OPEN.read_text("ascii").splitlines()]
    return [(unhex(request), (int(answer), unhex(table))) for _, request, answer, table in lines]


class Stored(Case):
    def test_left_open(self):
        """By the library's call, and some as a notebook and the command get them."""
        requests = left_open()
        self.assertGreaterEqual(len(requests), 200)
        for place, (request, expected) in enumerate(requests):
            with self.subTest(request=request.hex()):
                self.assertEqual(library.decide(request), expected)
                if place % 10 == 0:
                    self.assertEqual(planned(request), expected)
                if place % 40 == 0:
                    self.by_command(request, *expected)

    def by_command(self, request, answer, table):
        """What 10,000,000 tries leave open the command decides, and writes."""
        source, out = self.file("open.req", request), self.folder / "open.table"
        self.failed(3, "plan", source, "--tries", bus.TRIES, says=["refused 23: "])
        if answer < 0:
            self.failed(1, "plan", source, "-o", out, says=[f"refused {-answer}: "])
            return
        self.answered("plan", source, "-o", out)
        self.assertEqual(out.read_bytes(), table)
        self.assertEqual(self.answered("check", source, out), "accepted\n")
        self.assertEqual(self.answered("fly", source), self.answered("fly", source, out))
        self.assertEqual(self.answered("timeline", source), self.answered("timeline", source, out))


class Calls(Case):
    def test_no_tries_are_counted(self):
        self.assertEqual(bus.plan(LAST).tries, 0)
        self.assertEqual(bus.plan(LAST), bus.plan(LAST, tries=bus.TRIES))
        self.assertEqual(self.refused(10, bus.plan, LONG).tries, 0)

    def test_as_with_a_limit(self):
        """Every example comes to what its search comes to."""
        for path in sorted(EXAMPLES.glob("*.req")):
            if path != LONG:
                self.assertEqual(planned(path), planned(path, tries=bus.TRIES), path.name)
        self.assertEqual(planned(LONG), planned(LONG, tries=library.MOST_TRIES))

    def test_at_once(self):
        """Searches that would take from a second to longer than anyone waits."""
        begin = time.monotonic()
        for words in (["plan"], ["fly"], ["timeline"]):
            self.failed(1, *words, LONG, says=[f"{LONG}: refused 10: ", "what to do: "])
        for count in (13, 16):
            self.refused(10, bus.plan, pigeons(count))
        self.assertLess(time.monotonic() - begin, AT_ONCE)

    def test_limits_are_kept(self):
        """With --tries the search has its limit, whatever a decision would come to."""
        for name in ("plan", "fly", "timeline"):
            self.failed(3, name, LONG, "--tries", 1000, says=["refused 23: ", "1,000 tries are allowed"])
        self.refused(23, lambda: bus.plan(LONG, tries=1000))

    def test_told_that_it_is_under_way(self):
        """A decision cannot tell how far it is. This one is made when it was told of three times."""
        told, calls, ask = [], [], child.Worker.ask

        def late(worker, *call):
            worker.waits = True
            calls.append((worker, *call))

        def tell(used):
            told.append(used)
            if len(told) == 3:
                ask(*calls.pop())

        with mock.patch.object(search, "SECONDS_BETWEEN_SIGNS", 0.05), mock.patch.object(child.Worker, "ask", late):
            self.refused(10, lambda: bus.plan(LONG, tell=tell))
        self.assertGreaterEqual(len(told), 3)
        self.assertEqual(set(told), {None})

    def test_told_only_if_long(self):
        told = []
        with seldom():
            self.refused(10, lambda: bus.plan(LONG, tell=told.append))
        self.assertEqual(told, [])

    def test_interrupted_in_a_notebook(self):
        self.interrupted(1, lambda: bus.plan(SLOW))


class Signs(Terminal):
    def test_line(self):
        """The line tells the time that has gone by, takes the place of the one before, and is gone at the end."""
        with mock.patch.object(time, "monotonic", mock.Mock(side_effect=[5, 6.02, 7.04, 64.9, 3605, 40000])):
            told = self.seen(200, progress.Deciding, [(None,)] * 5)
        times = ["1 s", "2 s", "60 s", "60 min", "11 h"]
        self.assertEqual(told, [*(f"bus: {LINE}, {gone} so far; Ctrl-C stops it" for gone in times), ""])
        self.assertEqual(self.seen(200, progress.Deciding, []), [])

    def test_ctrl_c(self):
        """After about a second the line is there, then it tells of more seconds; Ctrl-C takes it away at once."""
        source = self.file("slow.req", SLOW)
        for name in ("plan", "fly"):
            started, terminal = self.on_a_terminal(name, source)
            received = self.read(terminal, r", (\d+) s so far.*, (?!\1 s)\d+ s so far")
            (child,) = children(started.pid)
            begin = time.monotonic()
            os.write(terminal, b"\x03")
            received += self.read(terminal)
            self.assertEqual(started.communicate(timeout=HANGS)[0], b"")
            self.assertEqual(started.returncode, -signal.SIGINT)
            self.assertLess(time.monotonic() - begin, AT_ONCE)
            self.assertFalse(running(child))
            seconds = [int(gone) for gone in re.findall(rf"\rbus: {LINE}, (\d+) s so far; Ctrl-C stops it", received)]
            self.assertGreater(len(set(seconds)), 1)
            self.assertEqual(sorted(seconds), seconds)
            self.assertRegex(received, r"\r +\rbus: stopped\r\n$")
            self.assertEqual(self.names_in_folder(), ["slow.req"])

    def test_not_on_a_terminal(self):
        """One line, once, however long the decision is; nothing is written."""
        words = [*COMMAND, "plan", self.file("slow.req", SLOW), "-o", str(self.folder / "table")]
        started = subprocess.Popen(words, stderr=subprocess.PIPE, preexec_fn=as_from_a_terminal)
        self.addCleanup(started.kill)
        line = f"bus: {LINE}; Ctrl-C stops it, and nothing is written before it ends\n"
        self.assertEqual(started.stderr.readline().decode(), line)
        time.sleep(2.5)
        started.send_signal(signal.SIGINT)
        _, err = started.communicate(timeout=HANGS)
        self.assertEqual(err.decode(), "bus: stopped\n")
        self.assertEqual(self.names_in_folder(), ["slow.req"])

    def test_short_decisions_say_nothing(self):
        for path, status in ((EXAMPLES / "p1.req", 0), (LONG, 1)):
            self.assertNotIn("deciding", self.told_of_short_work(status, "plan", path)[1])
