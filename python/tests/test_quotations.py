"""What stands in double quotes in comments and documents, beside the words of the papers 01 and 02."""

import tempfile
import unittest
from pathlib import Path

from tests.quotations import FOLDER, PAPERS, QUOTED, ROOT, drift, faults, of_file, of_papers, quotations

TEXT = (ROOT / QUOTED).read_text(encoding="utf-8")
FOUND = list(quotations(ROOT))

beside_the_papers = unittest.skipUnless(all((FOLDER / name).is_file() for name in PAPERS.values()), "the papers are not beside the repository")

# A sentence of R-3, and the comments that a file of each kind may have.
SENTENCE = "the capacity test uses that load, f and the job's own C + g alone"
KINDS = {
    "crates/searcher/specs/Arrays.antt": "{}\n-- {}\n",
    "crates/searcher/proofs/Laws.antt": "{}\n  -- {}\n",
    "crates/searcher/src/lib.rt": "{}\n// {}\n",
    "crates/searcher/must-fail/cost_of_another_job.edit": "{1}\n{0}",
    "README.md": "{}\n- {}\n",
    "docs/landings/R-03.md": "{}\n{}\n",
    "tests/README.md": "{}\n| {} | |\n",
    "python/bus/__init__.py": "{}\n# {}\n",
    "python/bus/draft.py": '{}\n\ndef last():\n    """{} """\n',
    "tests/src/simulate.rs": "{}\n    /// {}\n",
    "include/bus.h": "{}\n/*\n * {}\n */\n",
}


class Quotations(unittest.TestCase):
    maxDiff = None

    def test_words(self):
        self.assertEqual(list(faults(ROOT)), [])

    def test_no_sentence_is_left_over(self):
        self.assertEqual(drift(TEXT, of_file(TEXT), FOUND), [])

    @beside_the_papers
    def test_sentences(self):
        self.assertEqual(drift(TEXT, of_papers(FOLDER), FOUND), [])


class Changed(unittest.TestCase):
    """Copies of files, changed: what is no quotation in them is found."""

    def setUp(self):
        folder = tempfile.TemporaryDirectory()
        self.addCleanup(folder.cleanup)
        self.root = Path(folder.name)
        self.copied(QUOTED)

    def write(self, place, text):
        path = self.root / place
        path.parent.mkdir(parents=True, exist_ok=True)
        path.write_text(text, encoding="utf-8")

    def copied(self, place, *pairs):
        """The texts that are found once the file is copied and changed so."""
        text = (ROOT / place).read_text(encoding="utf-8")
        for old, new in pairs:
            self.assertEqual(text.count(old), 1, f"{place}: {old}")
            text = text.replace(old, new)
        self.write(place, text)
        return [fault.split(": ", 1)[1] for fault in faults(self.root)]

    def planted(self, words):
        """The texts that are found with this comment in a file: for each kind of file, with its place."""
        for place, form in KINDS.items():
            self.write(place, form.format((ROOT / place).read_text(encoding="utf-8"), words))
        found = {place: [] for place in KINDS}
        for fault in faults(self.root):
            place, text = fault.split(": ", 1)
            found[place.rsplit(":", 1)[0]].append(text)
        return found

    def test_same(self):
        self.assertEqual(self.copied("crates/flight/specs/Flight.antt"), [])
        self.assertEqual(self.copied("docs/READING.md"), [])

    def test_spec(self):
        place = "crates/flight/specs/Flight.antt"
        found = self.copied(place, ("a frame start[s] g ticks", "a frame startTime[s] g ticks"), ("had ended by that start", "had ended by that startTime"))
        self.assertEqual(len(found), 2)
        self.assertIn("each later entry of a frame startTime[s] g ticks after the one before ended", found)

    def test_second_line_of_a_comment(self):
        found = self.copied("crates/timeline_listing/specs/Printed.antt", ("-- line, fields in that order with", "-- line, fields in any order with"))
        self.assertEqual(len(found), 1)
        self.assertIn("the records one a line, fields in any order with single spaces", found[0])

    def test_document(self):
        self.assertEqual(self.copied("docs/READING.md", ("one try is one job tested", "one try is one task tested")), ["one try is one task tested in one frame of its window"])

    def test_rust(self):
        self.assertEqual(self.copied("tests/tests/timer.rs", ('"Bytes 2 to 7 ignore writes."', '"Bytes 2 to 6 ignore writes."')), ["Bytes 2 to 6 ignore writes."])

    def test_the_papers_words(self):
        for words in (SENTENCE, f"T{SENTENCE[1:]}.", "the capacity test uses .. C + g alone", "[Here] the capacity test [then] uses that load", "C + g alone.."):
            self.assertEqual(self.planted(f'"{words}"'), {place: [] for place in KINDS}, words)

    def test_other_words(self):
        changed = ("load", "weight"), ("own C", "C"), ("uses that", "use that"), ("alone", "alon"), ("the capacity", "he capacity"), ("C + g", "c + g")
        left_out = "the job's own .. the capacity test", "uses [that load] f and", "..", "", "perhaps", "test uses that load, .. In capacity"
        for words in [*(SENTENCE.replace(*pair) for pair in changed), *left_out]:
            self.assertEqual(self.planted(f'"{words}"'), {place: [words] for place in KINDS}, words)

    def test_source(self):
        for source in ("R-3:", "R-3", "02:", "02, 3:", "R-2 and"):
            self.assertEqual(self.planted(f'{source} "{SENTENCE}"'), {place: [] for place in KINDS}, source)
        for source in ("R-2:", "R-30", "01:", "01's", "01, 5:"):
            self.assertEqual(self.planted(f'{source} "{SENTENCE}"'), {place: [SENTENCE] for place in KINDS}, source)

    def test_mark_without_a_partner(self):
        self.assertEqual(self.planted(f'"{SENTENCE}" and "'), {place: [""] for place in KINDS})

    def test_code(self):
        self.assertEqual(self.planted('`print("perhaps")`'), {place: [] for place in KINDS})
        self.assertEqual(self.copied("docs/GUIDE.md", ("    import bus\n", '    import bus\n    print("perhaps")\n')), [])

    def test_quoted_sentence(self):
        self.assertEqual(self.copied("crates/join/specs/Joined.antt"), [])
        self.assertEqual(len(self.copied(QUOTED, ("with numbers raised by the first's n", "with numbers moved by the first's n"))), 2)

    def test_sentence_left_over(self):
        line = "The answer holds the length.\n"
        self.assertEqual(TEXT.count(line), 1)
        changed = TEXT.replace(line, line + "Nothing is quoted of this.\n")
        self.assertEqual(drift(changed, of_file(changed), FOUND), ["-Nothing is quoted of this."])

    @beside_the_papers
    def test_word_of_a_sentence(self):
        """A word that nothing quotes is another one."""
        changed = TEXT.replace("and the common g.", "and the larger g.")
        self.assertEqual(len(drift(changed, of_papers(FOLDER), FOUND)), 2)

    @beside_the_papers
    def test_sentence_missing(self):
        changed = TEXT.replace("Report moves no row.\n", "")
        self.assertEqual(drift(changed, of_papers(FOLDER), FOUND), ["+Report moves no row."])


if __name__ == "__main__":
    unittest.main()
