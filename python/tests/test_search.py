"""A long search: Ctrl-C, or the end of the command, ends it at once and leaves nothing behind."""

import os
import signal
import subprocess
import time

import bus
from bus import search
from bus.library import MOST_TRIES
from tests.helper import AT_ONCE, COMMAND, HANGS, OVERLOAD, Case, as_from_a_terminal, children, pigeons, running, seldom


class Searches(Case):
    def start(self):
        """A search without end, begun; the process and that of its search."""
        source = self.file("long.req", bytes(pigeons(16)))
        words = ["plan", source, "--tries", str(MOST_TRIES)]
        words += ["-o", str(self.folder / "table"), "--svg", str(self.folder / "svg")]
        started = subprocess.Popen(
            [*COMMAND, *words], stdout=subprocess.PIPE, stderr=subprocess.PIPE, preexec_fn=as_from_a_terminal
        )
        self.addCleanup(started.kill)
        self.assertEqual(started.stderr.readline().decode(), OVERLOAD)
        line = started.stderr.readline().decode()
        self.assertEqual(line, "bus: searching for a plan; Ctrl-C stops it, and nothing is written before it ends\n")
        (child,) = children(started.pid)
        return started, child

    def ends(self, started, child, number):
        begin = time.monotonic()
        out, err = started.communicate(timeout=HANGS)
        self.assertLess(time.monotonic() - begin, AT_ONCE)
        self.assertEqual((started.returncode, out), (-number, b""))
        while running(child):
            self.assertLess(time.monotonic() - begin, AT_ONCE)
            time.sleep(0.01)
        self.assertEqual(self.names_in_folder(), ["long.req"])
        return err.decode()

    def test_ctrl_c(self):
        started, child = self.start()
        started.send_signal(signal.SIGINT)
        self.assertEqual(self.ends(started, child, signal.SIGINT), "bus: stopped\n")

    def test_ended_from_outside(self):
        started, child = self.start()
        started.kill()
        self.ends(started, child, signal.SIGKILL)

    def test_search_ended_from_outside(self):
        """The search alone is ended: the command says so and has no answer."""
        started, child = self.start()
        os.kill(child, signal.SIGKILL)
        out, err = started.communicate(timeout=HANGS)
        self.assertEqual((started.returncode, out), (2, b""))
        self.assertIn("before it had an answer", err.decode())

    def test_in_a_notebook(self):
        """In the second call, behind the one that has few tries."""
        self.interrupted(2, lambda: bus.plan(pigeons(16), tries=MOST_TRIES))

    def test_told_only_if_long(self):
        told = []
        with seldom():
            self.refused(10, lambda: bus.plan(pigeons(4), tell=told.append))
            self.refused(23, lambda: bus.plan(pigeons(16), tries=2 * bus.TRIES, tell=told.append))
        self.assertEqual((told, search.SECONDS_BETWEEN_SIGNS), ([], 1.0))
