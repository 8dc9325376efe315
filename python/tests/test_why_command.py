"""`bus why` from end to end: stored stories, ends by time, JSON, pictures, and the last lines of refusals."""

import io
import json
import os
import shlex
import signal
import sys
import time
from unittest import mock

import bus
from bus import asking, child, command, core, hint, library, progress, search
from bus.why_text import why_lines
from tests.helper import ANSWERS, AT_ONCE, EXAMPLES, HANGS, Case, Terminal
from tests.helper import children, delayed, request, seldom, typed
from tests.small_lists import PLANNER, All, at_percent, small_list
from tests.test_decide import SLOW

P5, CROWDED, TEAM = EXAMPLES / "p5.csv", EXAMPLES / "crowded.csv", EXAMPLES / "team.csv"
OVERLOADED = request((11, 20, 20, 0), (11, 20, 20, 0))


class Stories(Case):
    """What the command prints of the bench sheet's refusals, stored."""

    def refused_here(self, *words):
        """What is told of a refusal, with time enough for the culprits however busy the machine is."""
        out, err = (io.TextIOWrapper(io.BytesIO(), encoding="utf-8", write_through=True) for _ in range(2))
        with mock.patch.object(sys, "stdout", out), mock.patch.object(sys, "stderr", err):
            with mock.patch.object(hint, "SECONDS", 30.0):
                self.assertEqual(command.main([str(word) for word in words]), command.REFUSED)
        self.assertEqual(out.buffer.getvalue(), b"")
        return err.buffer.getvalue().decode()

    def test_stored(self):
        for name in ("p2.csv", "p5.csv", "p10.req", "p11.req", "p12-long.req", "crowded.csv"):
            with self.subTest(name):
                printed = (ANSWERS / "why" / f"{name}.txt").read_text(encoding="utf-8")
                self.assertEqual(self.answered("why", EXAMPLES / name, "--seconds", HANGS), printed)

    def test_p5(self):
        """The slowest transceiver, and a change of one transfer without one: both have a table, a step less none."""
        found = bus.why(P5)
        by_kind = {change.kind: change for change in reversed(found.changes)}
        speed = by_kind["speed"]
        self.assertEqual((speed.new, PLANNER.answer(speed.request)), (80, 0))
        self.assertEqual(PLANNER.answer(at_percent(found.request, 81)), 10)
        first = found.changes[0]
        self.assertEqual((first.kind, first.words), ("cut", "cut camera (line 4) in two, of 5 and 5 ticks"))
        self.assertEqual(PLANNER.answer(first.request), 0)
        self.assertEqual(PLANNER.answer(by_kind["length"].request), 0)

    def test_two_that_fight_for_one_frame(self):
        """At 45 % load the two transfers and their lines are named, by every subcommand that plans."""
        self.assertAlmostEqual(bus.read_request(CROWDED).load, 0.45)
        found = bus.why(CROWDED)
        self.assertEqual(found.core.lines, core.Lines((2, 3), (), False))
        named = "to blame: camera (line 4) and downlink (line 5), which alone have no table;"
        for name in ("plan", "fly", "timeline", "room"):
            err = self.refused_here(name, CROWDED)
            self.assertIn(named, err)
            self.assertTrue(err.endswith(f"; `{typed('why', CROWDED)}` tells what would do\n"), err)

    def test_too_much_load_at_once(self):
        """110 % is told as such, and what would do."""
        path = self.file("much.req", bytes(OVERLOADED))
        begin = time.monotonic()
        out = self.answered("why", path)
        self.assertLess(time.monotonic() - begin, AT_ONCE)
        self.assertRegex(out, "^refused 10, load 110 %, more than there is: ")
        err = self.refused_here("plan", path)
        self.assertIn("110 % of the time: more than there is", err)
        self.assertIn("to blame: task0 and task1, which alone have no table; `bus why ", err)


class Ended(Case):
    def slow(self, quick):
        """The library, but slow from the question on that has this number."""
        self.asked += 1
        return 0.15 if self.asked > quick else 0

    def setUp(self):
        super().setUp()
        child.kept.end()
        self.addCleanup(child.kept.end)

    def none_left(self):
        """No process is left but those that are kept for the next call."""
        child.kept.end()
        self.assertEqual(children(os.getpid()), [])

    def test_end_by_time(self):
        """What was found is told, the rest is undecided and never refused."""
        for seconds, quick in ((0.4, 0), (0.4, 8), (0.4, 60), (0.05, 0)):
            self.asked = 0
            with delayed(lambda *_, quick=quick: self.slow(quick)), mock.patch.object(asking, "QUICK_TRIES", 0):
                begin = time.monotonic()
                found = bus.why(P5, seconds=seconds)
                self.assertLess(time.monotonic() - begin, AT_ONCE)
            self.assertTrue(found.ended)
            for change in found.changes:
                self.assertEqual(PLANNER.answer(change.request), 0)
            for finding in found.findings:
                if finding.decided and not finding.changes:
                    for each in All(found.request).of(finding):
                        self.assertNotEqual(PLANNER.answer(each), 0, finding)
            self.assertIn("undecided", why_lines(found))

    def test_a_long_question_is_ended(self):
        """A question without end is ended, stays undecided, and the next one is answered."""
        wanted, other = bytes(bus.read_request(P5)), bytes(bus.read_request(TEAM))

        stuck = delayed(lambda _, data: None if data == wanted else 0)
        with stuck, mock.patch.object(asking, "QUICK_TRIES", 0), asking.Asking(HANGS) as ask:
            self.assertEqual(ask.answer(other), 0)
            with mock.patch.object(asking, "SHARE", 1 / HANGS):
                self.assertIsNone(ask.answer(wanted))
            self.assertEqual((ask.answer(other), ask.answer(bytes(bus.read_request(CROWDED)))), (0, 10))
            so_far = ask.questions
            self.assertEqual((ask.answer(wanted), ask.questions, ask.over), (None, so_far, False))
        self.none_left()

    def test_signs_of_one_long_question(self):
        told = []
        with child.worker() as worker:
            worker.started()
        stuck = delayed(lambda *_: None)
        often = mock.patch.object(search, "SECONDS_BETWEEN_SIGNS", 0.05)
        with stuck, often, mock.patch.object(asking, "QUICK_TRIES", 0):
            with asking.Asking(4.0, lambda *far: told.append(far)) as ask:
                self.assertIsNone(ask.answer(bytes(bus.read_request(P5))))
        self.assertGreater(len(told), 1)
        self.assertEqual({questions for questions, _ in told}, {1})

    def test_ended_from_outside(self):
        """The child is ended: that is told, and there is no answer."""
        with mock.patch.object(asking, "QUICK_TRIES", 0), self.assertRaises(bus.SearchEnded):
            with asking.Asking(60) as ask:
                self.assertEqual(ask.answer(bytes(bus.read_request(P5))), 10)
                (worker,) = children(os.getpid())
                os.kill(worker, signal.SIGKILL)
                ask.answer(bytes(bus.read_request(TEAM)))
        self.none_left()

    def test_few_tries_and_the_exact_call_agree(self):
        """With few tries allowed, with none and with many, the answers are the same."""
        lists = [small_list(self.draw) for _ in range(200)]
        answers = []
        for tries in (0, asking.QUICK_TRIES, library.MOST_TRIES):
            with mock.patch.object(asking, "QUICK_TRIES", tries), asking.Asking(60) as ask:
                answers.append([ask.answer(each) for each in lists])
        self.assertEqual(answers[0], answers[1])
        self.assertEqual(answers[1], answers[2])

    def test_command(self):
        status, out, err = self.run_bus("why", P5, "--seconds", "0.000001")
        self.assertEqual((status, err), (3, ""))
        said = "undecided: whether the list has a table was not decided in 1e-06 s; `--seconds N` allows more\n"
        self.assertEqual(out, said)


class Signs(Terminal):
    def test_told_only_if_long(self):
        told = []
        with seldom():
            bus.why(P5, tell=lambda *far: told.append(far))
        self.assertEqual(told, [])
        with mock.patch.object(search, "SECONDS_BETWEEN_SIGNS", 0.001):
            bus.why(P5, tell=lambda *far: told.append(far))
        asked = [far[0] for far in told]
        self.assertTrue(asked and asked == sorted(asked))

    def test_on_a_terminal(self):
        """A list that takes long: the line moves, and Ctrl-C takes it away at once."""
        started, terminal = self.on_a_terminal("why", self.file("slow.req", SLOW), "--seconds", "60")
        sign = r"asking the library: [\d,]+ questions, \d+ of 60 s; Ctrl-C stops it"
        received = self.read(terminal, rf"{sign}.*{sign}")
        begin = time.monotonic()
        os.write(terminal, b"\x03")
        received += self.read(terminal)
        self.assertEqual((started.communicate(timeout=HANGS)[0], started.returncode), (b"", -signal.SIGINT))
        self.assertLess(time.monotonic() - begin, AT_ONCE)
        self.assertRegex(received, sign)
        self.assertRegex(received, r"\r +\rbus: stopped\r\n$")

    def test_line(self):
        seen = self.seen(200, lambda: progress.Questions(10), [(1234, 2.2)])
        self.assertEqual(seen, ["bus: asking the library: 1,234 questions, 2 of 10 s; Ctrl-C stops it", ""])
        with mock.patch.object(sys, "stderr", io.StringIO()) as elsewhere, progress.Questions(10) as signs:
            signs(1234, 2.2)
        self.assertEqual(elsewhere.getvalue(), "")


class Command(Case):
    def test_json(self):
        """The same as the records."""
        told = json.loads(self.answered("why", P5, "--json"))
        found = bus.why(P5)
        self.assertEqual(told["number"], 10)
        self.assertEqual([each["words"] for each in told["changes"]], [change.words for change in found.changes])
        self.assertEqual(told["core"]["lines"], {"tasks": [0, 1, 2], "pairs": [], "silent": False})
        first = told["changes"][0]["request"]
        self.assertEqual([task["name"] for task in first["tasks"]], ["gyro", "star", "camera/1", "camera/2"])
        told = json.loads(self.answered("why", TEAM, "--table", EXAMPLES / "p4.table", "--json"))
        self.assertEqual((told["number"], told["sizes"]["cycle"], told["sizes"]["wanted"]), (13, 24, 80))

    def test_list_with_a_suggestion(self):
        """Each suggestion is written as a list that is planned, and as a request file."""
        changes = bus.why(P5).changes
        for number, change in enumerate(changes, 1):
            for name in ("mended.csv", "mended.req"):
                out = self.folder / name
                self.answered("why", P5, "--list", out, "--take", number)
                self.assertEqual(bytes(bus.read_request(out)), bytes(change.request))
                self.answered("plan", out)
        self.answered("why", P5, "--list", self.folder / "first.csv")
        self.assertEqual(bytes(bus.read_request(self.folder / "first.csv")), bytes(changes[0].request))

    def test_wrong_use(self):
        out = self.folder / "out.csv"
        for words, says in (
            (["--take", "2"], "name a file by --list"),
            (["--table", EXAMPLES / "p4.table", "--list", out], "leave out --table"),
            (["--list", out, "--take", "0"], "'0' is no number from 1 to 999"),
            (["--seconds", "0"], "'0' is no number of seconds"),
            (["--seconds", "x"], "'x' is no number of seconds"),
        ):
            self.failed(2, "why", P5, *words, says=[says])
        status, _, err = self.run_bus("why", P5, "--list", out, "--take", "99")
        self.assertEqual((status, out.exists()), (2, False))
        self.assertRegex(err, r"no list is written: suggestion 99 is asked for, and there are \d+\n")
        status, _, err = self.run_bus("why", EXAMPLES / "p11.req", "--svg", self.folder / "x.svg")
        self.assertEqual((status, self.names_in_folder()), (2, []))

    def test_not_refused(self):
        told = "not refused: the list has a table; `bus room` tells what is left\n"
        self.assertEqual(self.answered("why", TEAM), told)
        for option, says in (("--list", "no list is written"), ("--svg", "no picture is written")):
            status, out, err = self.run_bus("why", TEAM, option, self.folder / "out")
            self.assertEqual((status, out, self.names_in_folder()), (2, told, []))
            self.assertIn(says, err)

    def test_nothing_would_do(self):
        """Two transfers that need a change each: nothing is suggested, and what would not do is told."""
        wanted = request((4, 7, 5, 0), (3, 14, 6, 0), (7, 14, 7, 13), pairs=[(1, 2)], silent=2)
        found = bus.why(wanted)
        self.assertEqual((found.number, found.changes, found.ended), (9, (), False))
        self.assertIn("\nno single change would do\nwhat would not do by itself", why_lines(found))

    def test_faults_of_a_list(self):
        path = self.file("bad.csv", "name,length,period,deadline,phase\na,2,20,30,\n")
        self.failed(1, "why", path, says=["line 2: deadline 30 is longer than the period 20"])
        self.failed(1, "why", self.file("bad.req", b"\x11"), says=["refused 2: "])
        self.refused(3, bus.why, request((0, 20, 20, 0)))


class LastLines(Case):
    """Refusals of every subcommand name the one that tells more."""

    def test_each(self):
        table = self.file("t.table", bytes(bus.plan(TEAM)))
        wrong, long, no_list = EXAMPLES / "p4.table", EXAMPLES / "p12-long.req", EXAMPLES / "p2.csv"
        for words, path in (
            (["plan", long], long), (["plan", EXAMPLES / "p11.req"], EXAMPLES / "p11.req"), (["fly", no_list], no_list),
            (["phases", long, "0"], long), (["room", no_list], no_list), (["spacing", long, table], long),
            (["check", long, table], long), (["timeline", no_list], no_list),
        ):
            err = self.failed(1, *words)
            self.assertTrue(err.endswith(f"`{typed('why', path)}` tells what would do\n"), err)
        for words in (
            ["check", TEAM, wrong], ["fly", TEAM, wrong], ["spacing", TEAM, wrong], ["timeline", TEAM, wrong],
            ["move", TEAM, wrong, "gyro.0", "0"], ["one-off", TEAM, wrong, "--length", "1"], ["room", TEAM, wrong],
            ["timer", TEAM, wrong, EXAMPLES / "driver.calls"], ["heater", TEAM, wrong, "gyro", "sun"],
        ):
            last = f"     `{typed('why', TEAM, '--table', wrong)}` tells every rule that is broken"
            self.assertEqual(self.failed(1, *words).splitlines()[-1], last, words)
        err = self.failed(3, "plan", TEAM, "--tries", "1")
        self.assertIn(f"     `{typed('why', TEAM)}` tells whether there is a table", err.splitlines()[-1])
        err = self.failed(1, "one-off", TEAM, table, "--length", "20")
        last = f"     `{typed('room', TEAM, table)}` tells the longest transfer that has a frame"
        self.assertEqual(err.splitlines()[-1], last)

    def test_what_it_names_can_be_typed(self):
        """The command in the last line tells why."""
        err = self.failed(1, "plan", EXAMPLES / "p2.csv")
        words = shlex.split(err.rsplit("`", 2)[1])
        self.assertEqual(words[:2], ["bus", "why"])
        self.assertIn("refused 9, load 92 %: ", self.answered(*words[1:]))

    def test_culprits_only_if_quick(self):
        """A library that is slow: the line is there without them."""
        refused = self.refused(10, bus.plan, CROWDED)
        for seconds, named in ((0.0, False), (30.0, True)):
            with mock.patch.object(hint, "SECONDS", seconds):
                self.assertEqual("camera (line 4) and downlink (line 5)" in hint.culprits(refused), named)
        self.assertEqual(hint.SECONDS, 0.2)


class Picture(Case):
    def test_core(self):
        svg = self.folder / "core.svg"
        self.answered("why", CROWDED, "--svg", svg)
        text = svg.read_text(encoding="utf-8")
        self.assertEqual(text, bus.crowd(bus.why(CROWDED).core, "crowded.csv: core"))
        self.assertIn('class="stretch" data-begin="20" data-end="40" data-asked="24"', text)
        self.assertIn("fullest: 24 of 20 ticks, 120 %", text)
        self.assertEqual(text.count('class="job"'), 2)
