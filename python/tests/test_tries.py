"""The limit on tries: answers and counts beside the second implementation's, words, and signs of a long search."""

import os
import re
import signal
import subprocess
import time
from unittest import mock

import bus
from bus import details, library, progress, search
from tests.helper import AT_ONCE, COMMAND, EXAMPLES, HANGS, OVERLOAD, Case, Terminal
from tests.helper import as_from_a_terminal, pigeons, request, stored, unhex

LONG, LAST = EXAMPLES / "long-search.req", EXAMPLES / "last-try.req"
WITHOUT_END = 10**15


def planned(data, tries):
    """The answer, the table's bytes and the count of tries that a notebook gets."""
    try:
        table = bus.plan(data, tries=tries)
    except bus.Refused as refused:
        return -refused.number, b"", refused.tries
    return len(bytes(table)), bytes(table), table.tries


class Stored(Case):
    def test_stored_answers(self):
        """By the library's call, and as a notebook gets them."""
        numbers = set()
        for words, lines in stored("tries.txt"):
            data = unhex(words[1])
            for _, allowance, answer, count, table in lines:
                expected = int(answer), unhex(table), int(count)
                with self.subTest(request=words[1], allowance=allowance):
                    self.assertEqual(library.plan(data, int(allowance)), expected)
                    self.assertEqual(planned(data, int(allowance)), expected)
                numbers.add(min(int(answer), 0))
        self.assertLessEqual({0, -9, -10, -23}, numbers)


class Calls(Case):
    def test_as_many_as_the_programs(self):
        """The tries that the proved programs allow; the example needs just these."""
        self.assertEqual(bus.TRIES, 10_000_000)
        self.assertEqual(bus.plan(LAST, tries=bus.TRIES).tries, bus.TRIES)
        refused = self.refused(23, lambda: bus.plan(LAST, tries=bus.TRIES - 1))
        self.assertEqual(refused.tries, bus.TRIES - 1)
        self.assertEqual(self.refused(23, lambda: bus.plan(LONG, tries=bus.TRIES)).tries, bus.TRIES)

    def test_more_are_allowed(self):
        """A search that goes on behind the first call, to its end or to its own limit."""
        refused = self.refused(10, lambda: bus.plan(LONG, tries=library.MOST_TRIES))
        self.assertEqual(refused.tries, 100_272_922)
        refused = self.refused(23, lambda: bus.plan(LONG, tries=30_000_000))
        self.assertEqual(refused.tries, 30_000_000)

    def test_a_table_is_the_same_however_it_was_found(self):
        table = bus.plan(EXAMPLES / "p1.req", tries=bus.TRIES)
        self.assertEqual(table.tries, 5)
        read = bus.check(EXAMPLES / "p1.req", table)
        self.assertEqual((read, read.tries), (table, 0))

    def test_no_number_of_tries(self):
        for tries in (-1, 2**64):
            with self.assertRaisesRegex(ValueError, "from 0 to 18446744073709551615"):
                bus.plan(LAST, tries=tries)

    def test_told_how_far(self):
        """The first call ends with 23; then the speed is known, and what is told never passes what is allowed."""
        told = []
        with mock.patch.object(search, "SECONDS_BETWEEN_SIGNS", 0.02):
            self.refused(23, lambda: bus.plan(pigeons(16), tries=60_000_000, tell=told.append))
        known = [number for number in told if number is not None]
        self.assertGreater(len(known), 1)
        self.assertEqual(known, sorted(known))
        self.assertTrue(0 < known[0] and known[-1] <= 60_000_000, known)
        self.assertEqual(told, [None] * (len(told) - len(known)) + known)


class Words(Case):
    def test_refused(self):
        says = [
            f"{LONG}: refused 23: the search needs more tries than are allowed",
            "10,000,000 tries are allowed; alike are task0, task1, task2 and 8 more",
            "what to do: plan without a limit: `bus plan` without `--tries`",
        ]
        self.failed(3, "plan", LONG, "--tries", bus.TRIES, says=says)
        self.failed(3, "fly", LONG, "--tries", bus.TRIES, says=says)
        self.failed(3, "plan", LAST, "--tries", "9999999", says=["refused 23: ", "9,999,999 tries are allowed\n"])
        self.failed(1, "plan", LONG, "--tries", "200000000", says=["refused 10: "])

    def test_transfers_that_are_alike(self):
        """The largest set of them is named, without those that stand in a pair already."""
        twins, three = [(1, 20, 20, 0)] * 2, [(2, 20, 20, 0)] * 3
        for tasks, pairs, alike in (
            ([(1, 20, 20, 0), (1, 20, 20, 1)], [], ""),
            (twins + three, [], "; alike are task2, task3, task4"),
            (twins + three, [(2, 3)], "; alike are task0, task1"),
            (twins + three, [(1, 2)], "; alike are task3, task4"),
            (twins + three, [(0, 1), (2, 3), (3, 4)], ""),
        ):
            said = details.tries_allowed(request=request(*tasks, pairs=pairs), allowed=1000)
            self.assertEqual(said, f"1,000 tries are allowed{alike}")

    def test_what_the_command_allows(self):
        """Without --tries every search is long enough."""
        listed = self.answered("plan", LAST, "--plain").replace(" task", " ")
        self.assertEqual(listed, LAST.with_suffix(".txt").read_text("ascii"))
        self.assertEqual(self.answered("plan", LAST, "--tries", library.MOST_TRIES), self.answered("plan", LAST))
        self.assertEqual(self.answered("fly", LAST, "--tries", bus.TRIES), self.answered("fly", LAST))
        self.failed(1, "plan", EXAMPLES / "p2.req", "--tries", "0", says=["refused 9: "])
        self.failed(3, "plan", EXAMPLES / "p1.req", "--tries", "0", says=["refused 23: ", "0 tries are allowed"])

    def test_wrong_use(self):
        says = ["argument --tries: ", " is no number from 0 to 18446744073709551615", "--help` has an example"]
        for number in ("-1", "1.5", "x", "", "10,000", "٣", str(2**64), "9" * 30):
            self.failed(2, self.draw.choice(("plan", "fly")), LAST, f"--tries={number}", says=says)
        self.failed(2, "plan", LAST, "--tries", says=["usage: bus plan"])
        table = self.file("t", bytes(bus.plan(EXAMPLES / "p1.req")))
        self.failed(2, "fly", EXAMPLES / "p1.req", table, "--tries", "9", says=["with a table nothing is searched"])


class Signs(Terminal):
    def told(self, columns, allowance, used):
        return self.seen(columns, lambda: progress.Progress(allowance), [(number,) for number in used])

    def test_line(self):
        """Each line takes the place of the one before, whichever is longer, and none is left."""
        begin, end = "bus: searching for a plan", "; Ctrl-C stops it"
        told = self.told(200, 10**9, [None, 123_456, 123_456_789, 9_876])
        self.assertEqual(told, [
            f"{begin}{end}",
            f"{begin}, about 123,000 of 1,000,000,000 tries used{end}",
            f"{begin}, about 123,000,000 of 1,000,000,000 tries used{end}",
            f"{begin}, about 9,870 of 1,000,000,000 tries used{end}",
            "",
        ])
        self.assertEqual(self.told(80, 10**9, []), [])

    def test_narrow_terminals(self):
        """The line never wraps; a terminal that does not know its width has 80 columns."""
        for columns in (1, 2, 10, 40, 79, 80):
            for line in self.told(columns, library.MOST_TRIES, [None, 10**9, None]):
                self.assertLess(len(line), columns)
        self.assertEqual(len(self.told(0, library.MOST_TRIES, [10**9])[0]), 79)

    def numbers(self, received):
        found = re.findall(r"\rbus: searching for a plan, about ([\d,]+) of ([\d,]+) tries used", received)
        return [tuple(int(number.replace(",", "")) for number in pair) for pair in found]

    def test_ctrl_c(self):
        """After about a second the line is there, a second later it tells of more; Ctrl-C takes it away at once."""
        source = self.file("long.req", bytes(pigeons(16)))
        started, terminal = self.on_a_terminal("plan", source, "--tries", WITHOUT_END)
        received = self.read(terminal, "tries used.*tries used.*tries used")
        begin = time.monotonic()
        os.write(terminal, b"\x03")
        received += self.read(terminal)
        self.assertEqual(started.communicate(timeout=HANGS)[0], b"")
        self.assertEqual(started.returncode, -signal.SIGINT)
        self.assertLess(time.monotonic() - begin, AT_ONCE)
        used = self.numbers(received)
        self.assertGreaterEqual(len(used), 3)
        self.assertEqual(sorted(set(used)), used)
        self.assertEqual({allowed for _, allowed in used}, {WITHOUT_END})
        self.assertRegex(received, r"\r +\rbus: stopped\r\n$")

    def searched(self, source, tries):
        """What is seen of a search that needs more tries than these."""
        started, terminal = self.on_a_terminal("plan", source, "--tries", tries)
        received = self.read(terminal)
        out, _ = started.communicate(timeout=HANGS)
        self.assertEqual((started.returncode, out), (3, b""))
        return received

    def test_to_the_end(self):
        """A search so long that a line is there, by the speed of this machine: it is gone before the refusal."""
        source = self.file("long.req", bytes(pigeons(16)))
        for tries in (500_000_000 * 3**times for times in range(6)):
            received = self.searched(source, tries)
            used = self.numbers(received)
            if used:
                break
        self.assertGreater(len(used), 0)
        self.assertTrue(all(0 < number <= allowed == tries for number, allowed in used), used)
        last = received.rsplit("Ctrl-C stops it", 1)[1]
        self.assertRegex(last, rf"^ *\r +\rbus: {re.escape(source)}: refused 23: ")
        self.assertIn(f"{tries:,} tries are allowed", last)

    def test_not_on_a_terminal(self):
        """One line, once, however long the search is."""
        source = self.file("long.req", bytes(pigeons(16)))
        words = [*COMMAND, "plan", source, "--tries", str(WITHOUT_END)]
        started = subprocess.Popen(words, stderr=subprocess.PIPE, preexec_fn=as_from_a_terminal)
        self.addCleanup(started.kill)
        line = "bus: searching for a plan; Ctrl-C stops it, and nothing is written before it ends\n"
        for told in (OVERLOAD, line):
            self.assertEqual(started.stderr.readline().decode(), told)
        time.sleep(2.5)
        started.send_signal(signal.SIGINT)
        _, err = started.communicate(timeout=HANGS)
        self.assertEqual(err.decode(), "bus: stopped\n")

    def test_short_searches_say_nothing(self):
        out, told = self.told_of_short_work(0, "plan", EXAMPLES / "p1.req", "--tries", bus.TRIES)
        self.assertEqual((out[:8], told), (b"row  fir", ""))
