"""Overruns counted by task: needs a library whose state has a count for each task."""

import bus
from tests import test_stored_answers
from tests.helper import EXAMPLES, Case


class StoredCounts(test_stored_answers.Stored):
    """The stored answers once more, with the counts of all 16 tasks behind each report."""

    def compare_counts(self, flight, words):
        self.assertEqual(",".join(map(str, flight.counts)), words[5])


class Counts(Case):
    def test_each_task_has_its_own(self):
        flight = bus.Dispatcher(bus.plan(EXAMPLES / "p1.req"), EXAMPLES / "p1.req")
        for task, ticks in ((0, 6), (2, 11), (2, 12), (1, 5)):
            flight.report(task, ticks)
        self.assertEqual(flight.counts, (1, 0, 2) + (0,) * 13)
        flight.next_frame()
        self.assertEqual(flight.counts, (1, 0, 2) + (0,) * 13)
        self.refused(16, flight.report, 3, 100)

    def test_counts_stop(self):
        """From 65,534 on a count rises once more and then stays."""
        flight = bus.Dispatcher(bus.plan(EXAMPLES / "p1.req"), EXAMPLES / "p1.req")
        flight.state = flight.state[:7] + b"\xfe\xff" + flight.state[9:]
        for count in (65_535, 65_535):
            flight.report(2, 11)
            self.assertEqual(flight.counts, (0, 0, count) + (0,) * 13)
