"""The calls for a notebook beside the stored answers of the second implementation."""

import bus
from bus import library, sources
from tests.helper import Case, stored, unhex


def fields(request):
    """What was read from a request, in the words of the stored answers."""
    tasks = (f"task {t.length},{t.period},{t.deadline},{t.phase}" for t in request.tasks)
    pairs = (f"pair {a},{b}" for a, b in request.pairs)
    return " ".join([*tasks, *pairs, f"silent {request.silent}"]).split(" ")


def number_of(call, *arguments):
    """0 and the answer of a call, or the number of its refusal, negated, and nothing."""
    try:
        return 0, call(*arguments)
    except bus.Refused as refused:
        return -refused.number, None


class Stored(Case):
    """The answers about requests; the class for those with a third section names another file."""

    source = "plain.txt"

    def compare_reading(self, words):
        data = unhex(words[1])
        number, read = number_of(sources.request_in, data)
        self.assertEqual(fields(read) if read else ["refused", str(-number)], words[2:])
        self.assertEqual(library.unreadable(data), -number)

    def compare_plan(self, data, words):
        answer, table = number_of(bus.plan, data)
        if int(words[1]) < 0:
            self.assertEqual(answer, int(words[1]))
        else:
            self.assertEqual(bytes(table), unhex(words[2]))
        return table

    def compare_check(self, data, words):
        table = unhex(words[1])
        for call in (bus.check, bus.rewrite):
            number, answer = number_of(call, data, table)
            self.assertEqual(number, int(words[2]))
            if number == 0:
                self.assertEqual(bytes(answer), table)

    def compare_next(self, flight, words):
        frame = flight.next_frame()
        served = [(entry.task, entry.job + 128 * entry.carry) for entry in frame.entries]
        expected = unhex(words[2])
        self.assertEqual(served, list(zip(expected[::2], expected[1::2])))
        self.assertEqual((str(flight.row), str(int(flight.first_cycle))), (words[4], words[6]))

    def compare_report(self, flight, words):
        number, _ = number_of(flight.report, int(words[1]), int(words[2]))
        self.assertEqual(number, int(words[3]))
        self.compare_counts(flight, words)

    def compare_counts(self, flight, words):
        """Which task overran is compared in test_counts_by_task."""

    def test_stored_answers(self):
        for words, lines in stored(self.source):
            data, flight = unhex(words[1]), None
            with self.subTest(request=words[1]):
                self.compare_reading(words)
                for line in lines:
                    if line[0] == "plan":
                        table = self.compare_plan(data, line)
                        flight = bus.Dispatcher(table, data) if table else None
                    elif line[0] == "check":
                        self.compare_check(data, line)
                    elif line[0] == "next":
                        self.compare_next(flight, line)
                    else:
                        self.compare_report(flight, line)
