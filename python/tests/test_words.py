"""The words of the command beside docs/FORMATS.md, include/bus.h and what the library refuses."""

import itertools
import re

from bus import library, refusals, words
from tests.helper import ROOT, Case, request


def reading(*tasks, pairs=()):
    return library.unreadable(bytes(request(*tasks, pairs=pairs)))


class Words(Case):
    def test_refusals_are_those_of_formats(self):
        """Every number of the document has its words here, and no other has."""
        text = (ROOT / "docs" / "FORMATS.md").read_text(encoding="utf-8").split("## Refusals", 1)[1]
        lines = re.findall(r"^\| (\d+) \| (.*) \| (.*) \|$", text, re.MULTILINE)
        rows = [(str(row.number), row.words, row.advice) for row in refusals.ROWS]
        self.assertEqual(sorted(lines), sorted(rows))

    def test_refusals_are_those_of_the_header(self):
        """The comment above each name of the enum has the same words; 99 is no refusal of a row."""
        text = (ROOT / "include" / "bus.h").read_text(encoding="utf-8")
        names = re.search(r"^enum bus_refusal \{\n(.*?)^\};", text, re.MULTILINE | re.DOTALL).group(1)
        told = re.findall(r"/\*(.*?)\*/\s+BUS_\w+ = (\d+)", names, re.DOTALL)
        found = [(int(number), " ".join(words.replace("\n     *", " ").split())) for words, number in told]
        self.assertEqual(found, [(row.number, row.words.replace("≤", "<=")) for row in refusals.ROWS])

    def test_sizes_are_those_of_the_header(self):
        text = (ROOT / "include" / "bus.h").read_text(encoding="utf-8")
        sizes = {name: int(value) for name, value in re.findall(r"#define BUS_(\w+)_BYTES (\d+)", text)}
        self.assertLessEqual({"STATE", "ENTRIES", "TABLE"}, set(sizes))
        self.assertEqual(sizes, {name: getattr(library, f"{name}_BYTES") for name in sizes})

    def test_task_faults_are_the_library_s(self):
        """For every task with small numbers: there are words exactly if the library says 3."""
        for task in itertools.product(range(5), repeat=4):
            self.assertEqual(bool(words.task_faults(*task)), reading(task) == 3, task)

    def test_pair_faults_are_the_library_s(self):
        tasks = [(1, 4, 4, 0), (1, 4, 4, 0), (1, 8, 8, 0), (1, 4, 4, 0)]
        names, periods = ["a", "b", "c", "d"], [task[1] for task in tasks]
        for pair in itertools.product(range(4), repeat=2):
            faults = words.pair_faults(*pair, names, periods)
            self.assertEqual(bool(faults), reading(*tasks, pairs=[pair]) == 5, pair)

    def test_counts_are_the_library_s(self):
        task = (1, 4, 4, 0)
        most, pairs = words.MOST_TASKS, words.MOST_PAIRS
        self.assertEqual([reading(*[task] * count) for count in (0, 1, most, most + 1)], [2, 0, 0, 2])
        self.assertEqual([reading(task, task, pairs=[(0, 1)] * count) for count in (pairs, pairs + 1)], [0, 4])

    def test_a_number_without_words(self):
        refused = refusals.Refused(98)
        self.assertIn("refused 98", str(refused))
