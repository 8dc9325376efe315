"""Reading and writing request and table bytes, beside the library's reading of the same bytes."""

import bus
from bus import library, sources, table as tables
from tests.helper import EXAMPLES, Case, damaged, request, seeded_request, stored, unhex


class Requests(Case):
    def lengths_agree(self, read, data):
        """A report of C ticks is no overrun, one of C + 1 is; a task beyond the last is refused with 16."""
        fresh = library.fresh_state()
        for number, task in enumerate(read.tasks):
            self.assertEqual(library.report(data, number, task.length, fresh), (0, fresh))
            self.assertNotEqual(library.report(data, number, task.length + 1, fresh), (0, fresh))
        self.assertEqual(library.report(data, len(read.tasks), 0, fresh), (-16, fresh))

    def test_written_and_read(self):
        for _ in range(300):
            drawn = seeded_request(self.draw)
            data = bytes(drawn)
            self.assertEqual(sources.request_in(data), drawn)
            self.lengths_agree(drawn, data)

    def test_damaged(self):
        """What the library can read is read; the rest has the library's number, and words about the place."""
        numbers = set()
        for _ in range(1500):
            data = damaged(self.draw, bytes(seeded_request(self.draw)))
            number = library.unreadable(data)
            numbers.add(number)
            if number:
                refused = self.refused(number, sources.request_in, data)
                self.assertTrue(refused.about, data.hex())
            else:
                self.lengths_agree(sources.request_in(data), data)
        self.assertLessEqual({0, 1, 2, 3, 4, 5}, numbers)

    def test_cycle_and_jobs(self):
        """H and the jobs that pictures and words speak of: the table of a plan has this H and just these jobs."""
        planned = 0
        for words, lines in stored("plain.txt"):
            if int(lines[0][1]) > 0:
                read, table = sources.request_in(unhex(words[1])), sources.table_in(unhex(lines[0][2]))
                self.assertEqual(read.cycle, table.cycle)
                frames = table.frames()
                self.assertEqual({(job.task, job.number) for job in read.jobs()}, set(frames))
                for job in read.jobs():
                    start = frames[job.task, job.number] * table.frame
                    self.assertTrue(job.release <= start and start + table.frame <= job.due)
                planned += 1
        self.assertGreater(planned, 20)

    def test_numbers_that_do_not_fit(self):
        for wrong in (request((70_000, 70_000, 70_000, 0)), request((1, 2, 2, -1)), request((1, 2, 2, 0), silent=256)):
            with self.assertRaises(ValueError):
                bytes(wrong)


class Tables(Case):
    def rows_agree(self, table, data):
        """Row for row the entries that the library serves behind the first cycle; no row beyond the last."""
        for number, row in enumerate(table.rows):
            state = bytes([number % 256, number // 256, 0]) + bytes(61)
            answer, _, entries = library.next_frame(data, state)
            self.assertEqual(tables.entries_of(entries[: 2 * answer]), row)
        beyond = len(table.rows)
        state = bytes([beyond % 256, beyond // 256, 0]) + bytes(61)
        self.assertEqual(library.next_frame(data, state)[0], -15)

    def test_stored_tables(self):
        """Every stored table, and each with some damage."""
        read = 0
        for _, lines in stored("plain.txt") + stored("silent.txt"):
            for words in lines:
                if words[0] == "check":
                    for data in (unhex(words[1]), damaged(self.draw, unhex(words[1]))):
                        number = library.no_table(data)
                        if number:
                            self.assertEqual(number, 12)
                            self.refused(12, sources.table_in, data)
                        else:
                            table = sources.table_in(data)
                            self.assertEqual(bytes(table), data)
                            self.rows_agree(table, data)
                            read += 1
        self.assertGreater(read, 100)

    def test_sizes(self):
        table = bus.plan(EXAMPLES / "p1.req")
        self.assertEqual((table.frame, table.cycle, len(table.rows)), (20, 40, 2))
        self.assertEqual(table.rows[1], (bus.Entry(0, 1), bus.Entry(1, 1)))
