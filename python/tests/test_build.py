"""The library is built once, by one process at a time, and a build ends with all that it started."""

import os
import re
import shlex
import shutil
import signal
import subprocess
import sys
import time
import unittest

from bus import build
from tests.helper import COMMAND, EXAMPLES, HANGS, ROOT, Case, as_from_a_terminal, running
from tests.test_command import TEAM_TABLE

TEAM = str(EXAMPLES / "team.csv")
ARCHIVE = ROOT / "target" / "staticlib" / "libbus.a"
COPY = f"/bin/mkdir -p crates/bus_c/out && /bin/cp {shlex.quote(str(ARCHIVE))} crates/bus_c/out/libbus_c.a"


class FirstTime(Case):
    """A copy of the command in a folder without a library, and a tool that stands in for `rt`."""

    def setUp(self):
        super().setUp()
        if not ARCHIVE.exists():
            self.skipTest("no libbus.a to stand in for the built one")
        shutil.copy(ROOT / "bus", self.folder)
        shutil.copy(ROOT / "crates.txt", self.folder)
        ignore = shutil.ignore_patterns("__pycache__")
        shutil.copytree(ROOT / "python" / "bus", self.folder / "python" / "bus", ignore=ignore)
        source = self.folder / "crates" / "bus_c" / "src"
        source.mkdir(parents=True)
        (source / "lib.rt").write_text("")
        (self.folder / "tools").mkdir()
        shutil.copy(ROOT / build.ARCHIVER, self.folder / build.ARCHIVER)
        self.tools = self.folder / "path"
        self.tools.mkdir()
        for name in ("cc", "gcc", "ld", "as", "sh", "dirname", "mkdir", "cp", "mv"):
            if shutil.which(name):
                os.symlink(shutil.which(name), self.tools / name)

    def rt(self, body):
        """`rt lib` in the crate of the library, which does this in the folder of the copy."""
        path = self.tools / "rt"
        called = f'[ "$(pwd -P) $*" = {shlex.quote(str((self.folder / "crates" / "bus_c").resolve()))}" lib" ] || exit 9'
        path.write_text(f"#!/bin/sh\n{called}\ncd ../..\n{body}\n")
        path.chmod(0o755)

    def start(self, *words):
        pipes = {"stdout": subprocess.PIPE, "stderr": subprocess.PIPE, "text": True}
        command = [COMMAND[0], str(self.folder / "bus"), *words]
        started = subprocess.Popen(command, env={"PATH": str(self.tools)}, preexec_fn=as_from_a_terminal, **pipes)
        self.addCleanup(started.kill)
        return started

    def run_to_the_end(self, *words):
        started = self.start(*words)
        out, err = started.communicate(timeout=HANGS)
        return started.returncode, out, err

    def wait_for(self, there):
        begin = time.monotonic()
        while not there():
            self.assertLess(time.monotonic() - begin, HANGS)
            time.sleep(0.02)

    def number_in(self, name):
        """The number that a tool has written to a file."""
        path = self.folder / name
        self.wait_for(lambda: path.exists() and path.read_text().strip())
        return int(path.read_text())


class Once(FirstTime):
    def test_two_at_once(self):
        """The second says that it waits, and both answer; `rt` and the linker ran once."""
        self.rt(f"echo built >> calls; while [ ! -e go ]; do /bin/sleep 0.05; done; {COPY}")
        first = self.start("plan", TEAM)
        self.wait_for((self.folder / "calls").exists)
        second = self.start("plan", TEAM)
        line = second.stderr.readline()
        waiting = "waiting for it; Ctrl-C ends the waiting"
        self.assertEqual(line, f"bus: the library is being built by another `bus`: {waiting}\n")
        (self.folder / "go").touch()
        told = []
        for started in (first, second):
            out, err = started.communicate(timeout=HANGS)
            self.assertEqual((started.returncode, out), (0, TEAM_TABLE), err)
            told.append(err)
        self.assertEqual((self.folder / "calls").read_text(), "built\n")
        self.assertEqual([text.count("linked ") for text in told], [1, 0])

    def test_many_at_once(self):
        self.rt(f"echo built >> calls; /bin/sleep 1; {COPY}")
        started = [self.start("plan", TEAM) for _ in range(4)]
        answers = [one.communicate(timeout=HANGS)[0] for one in started]
        self.assertEqual(answers, [TEAM_TABLE] * 4)
        self.assertEqual((self.folder / "calls").read_text(), "built\n")


class Ended(FirstTime):
    """`rt` with a child of its own, that would run for long; both are gone when the command is."""

    def under_way(self):
        self.rt('/bin/sleep 600 & echo $! > child; echo $$ > rt; wait')
        started = self.start("plan", TEAM)
        return started, [self.number_in("rt"), self.number_in("child")]

    def gone(self, pids):
        self.wait_for(lambda: not any(map(running, pids)))

    def test_ctrl_c(self):
        started, pids = self.under_way()
        started.send_signal(signal.SIGINT)
        _, err = started.communicate(timeout=HANGS)
        self.assertEqual(started.returncode, -signal.SIGINT)
        self.assertTrue(err.endswith("bus: stopped\n"), err)
        self.gone(pids)

    def test_ended_from_outside(self):
        """Also where the command cannot do anything any more."""
        for number in (signal.SIGTERM, signal.SIGKILL):
            with self.subTest(number):
                started, pids = self.under_way()
                started.send_signal(number)
                started.communicate(timeout=HANGS)
                self.assertEqual(started.returncode, -number)
                self.gone(pids)
                for name in ("rt", "child"):
                    (self.folder / name).unlink()

    def test_the_next_one_builds(self):
        """A build that was ended leaves no lock behind."""
        started, pids = self.under_way()
        started.kill()
        started.communicate(timeout=HANGS)
        self.gone(pids)
        self.rt(COPY)
        self.assertEqual(self.run_to_the_end("plan", TEAM)[:2], (0, TEAM_TABLE))


class Signs(FirstTime):
    def test_crates(self):
        """The crates that the library stands on, and itself."""
        text = "# a comment\narith:\ncursor:\nrequest: cursor\nplan: request io\nbus: request arith # more\nbus_c staticlib: bus\n"
        self.assertEqual(build.crates_of("bus_c", text), {"bus_c", "bus", "request", "arith", "cursor"})
        crates = build.crates_of(build.LIBRARY, (ROOT / "crates.txt").read_text(encoding="utf-8"))
        self.assertLessEqual({"bus_c", "bus", "planner", "arith"}, crates)
        self.assertNotIn("plan", crates)

    def test_how_far(self):
        """By the lines that `rt` prints: so many crates are proved, and the next one is at work."""
        total = len(build.crates_of(build.LIBRARY, (ROOT / "crates.txt").read_text(encoding="utf-8")))
        told = "echo 'library arith: modules loaded=73 checked=0'; echo 'statements core: modules loaded=248 checked=0'"
        told += "; echo 'crate cursor: modules loaded=139 checked=139'; echo 'fn request::read: proved'"
        self.rt(f"{told}; while [ ! -e go ]; do /bin/sleep 0.05; done; {COPY}")
        module = self.folder / "python" / "bus" / "build.py"
        text = module.read_text(encoding="utf-8")
        module.write_text(text.replace("SECONDS_BETWEEN_SIGNS = 30", "SECONDS_BETWEEN_SIGNS = 1"), encoding="utf-8")
        started = self.start("plan", TEAM)
        sign = re.compile(rf"bus: still at it: crate 3 of {total}, \d+ seconds so far\n")
        self.assertTrue(any(sign.fullmatch(line) for line in started.stderr))
        (self.folder / "go").touch()
        out, err = started.communicate(timeout=HANGS)
        self.assertEqual((started.returncode, out), (0, TEAM_TABLE), err)


class Older(FirstTime):
    def built(self):
        self.rt(COPY)
        self.assertEqual(self.run_to_the_end("plan", TEAM)[0], 0)

    def test_without_the_toolchain(self):
        """A library that is older than its sources is used, with a warning; without any the command says so."""
        self.built()
        (self.tools / "rt").unlink()
        for path in (self.folder / "target").rglob("libbus.*"):
            os.utime(path, (1, 1))
        status, out, err = self.run_to_the_end("plan", TEAM)
        self.assertEqual((status, out), (0, TEAM_TABLE))
        why = "the Rattle toolchain `rt`, which builds it, is not on the path"
        self.assertEqual(err, f"bus: the library is older than its sources and is used as it is, since {why}\n")
        (self.folder / "target" / "python" / "libbus.so").unlink()
        (self.folder / "target" / "staticlib" / "libbus.a").unlink()
        status, out, err = self.run_to_the_end("plan", TEAM)
        self.assertEqual((status, out), (2, ""))
        self.assertIn(f"bus: the library is not built, and {why}: install it, or let BUS_LIBRARY name", err)

    def test_without_the_compiler(self):
        self.built()
        for name in ("cc", "gcc"):
            (self.tools / name).unlink(missing_ok=True)
        os.utime(self.folder / "target" / "python" / "libbus.so", (1, 1))
        status, out, err = self.run_to_the_end("plan", TEAM)
        self.assertEqual((status, out), (0, TEAM_TABLE))
        self.assertIn("is used as it is, since no C compiler, `cc` or `gcc`, is on the path to link it\n", err)

    def test_a_library_of_another_time(self):
        """One that lacks a call is not loaded, and the words say which."""
        code = self.file("old.c", "int bus_plan(void) { return 0; }\n")
        library = self.folder / "old.so"
        subprocess.run(["gcc", "-shared", "-fPIC", "-o", library, code], check=True)
        environment = {**os.environ, "BUS_LIBRARY": str(library)}
        says = [f"bus: the library {library} is too old for this command: ", "undefined symbol", ": build it anew"]
        self.failed(2, "plan", TEAM, env=environment, says=says)


class Folder(FirstTime):
    def fails(self, path):
        status, out, err = self.run_to_the_end("plan", TEAM)
        self.assertEqual((status, out), (2, ""))
        self.assertIn(f"bus: the library is not built, and {path}, where it is built, cannot be written (", err)
        self.assertIn("): copy the repository to a folder that you may write to, or let BUS_LIBRARY name", err)

    def test_no_folder(self):
        self.rt(COPY)
        (self.folder / "target").write_text("a file")
        self.fails(self.folder / "target" / "python")

    @unittest.skipIf(os.geteuid() == 0, "the superuser may write everything")
    def test_without_the_right(self):
        self.rt(COPY)
        os.chmod(self.folder, 0o500)
        self.addCleanup(os.chmod, self.folder, 0o700)
        self.fails(self.folder / "target" / "python")

    def test_installed_without_a_library(self):
        shutil.rmtree(self.folder / "crates")
        status, out, err = self.run_to_the_end("plan", TEAM)
        self.assertEqual((status, out), (2, ""))
        self.assertIn("bus: the command was installed without its library: install it again, or let BUS_LIBRARY", err)


class Modes(Case):
    def test_mode_is_kept(self):
        """A file that is replaced keeps its mode; a new one has that of any new file."""
        table = self.folder / "t"
        self.answered("plan", TEAM, "-o", table)
        plain = self.folder / "plain"
        plain.touch()
        self.assertEqual(table.stat().st_mode, plain.stat().st_mode)
        for mode in (0o600, 0o640, 0o664, 0o755):
            table.chmod(mode)
            self.answered("plan", TEAM, "-o", table)
            self.assertEqual(table.stat().st_mode & 0o7777, mode)


class Guard(Case):
    def test_status(self):
        """What the command ends with is handed on."""
        from bus import guard

        for status in (0, 3):
            words = [sys.executable, "-I", guard.__file__, "sh", "-c", f"exit {status}"]
            started = subprocess.Popen(words, stdin=subprocess.PIPE, start_new_session=True)
            self.assertEqual(started.wait(HANGS), status)
            started.stdin.close()
