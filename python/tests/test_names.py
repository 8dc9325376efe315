"""Every name in the documents is that of something, and stands in the file that it is given with; in the notes on landings at their own commits."""

import io
import re
import subprocess
import tarfile
import tempfile
import unittest
from pathlib import Path

from tests.names import Names, faults

ROOT = Path(__file__).resolve().parents[2]
NAMES = Names(ROOT)
DOCUMENTS = ["docs/MODEL.md", "docs/DECISIONS.md", "docs/READING.md", "docs/ARCHITECTURE.md", "tests/README.md"]


def git(*words):
    return subprocess.run(["git", "-C", str(ROOT), *words], capture_output=True, check=False).stdout


class Documents(unittest.TestCase):
    maxDiff = None

    def test_names(self):
        for document in DOCUMENTS:
            with self.subTest(document):
                self.assertEqual(faults(NAMES, NAMES.text(document)), [], "names.py says how a name is given, and lists what is none")

    def planted(self, document, old, new, *found):
        """What is found where the document has other words in one place."""
        text = NAMES.text(f"docs/{document}.md")
        self.assertEqual(text.count(old), 1, f"{document}: {old}")
        self.assertEqual(faults(NAMES, text.replace(old, new)), list(found))

    def test_name_that_is_gone(self):
        self.planted("MODEL", "`cycle/Cycle` jobs_in, job_of.", "`cycle/Cycle` jobs_in, job_made.", "job_made does not stand in cycle/Cycle")
        self.planted("MODEL", "(well_asked)", "(asked_well)", "asked_well stands in no file of its paragraph")
        self.planted("DECISIONS", "`busy_ticks`", "`ticks_busy`", "`ticks_busy` is nothing that exists")
        self.planted("ARCHITECTURE", "CutExact (the statement)", "CutWhole (the statement)", "CutWhole does not stand in Exactly.antt")
        self.planted("ARCHITECTURE", "`cycle/Cycle.planned`", "`cycle/Cycle.sorted`", "`cycle/Cycle.sorted`: specs/ has no such name")
        self.planted("READING", "must-fail/leaves_time_for_d`", "must-fail/no_time`", "`flight/must-fail/no_time` is nothing that exists")

    def test_name_in_the_wrong_file(self):
        self.planted("MODEL", "`planner/Outcome` outcome_by", "`planner/Moved` outcome_by", "outcome_by does not stand in planner/Moved")
        fields = [f"{field} is no field of IsPlan" for field in ("not_early", "not_late")]
        self.planted("MODEL", "`model/Plan` InWindow: not_early", "`model/Plan` IsPlan: not_early", *fields)
        self.planted("MODEL", "(well_asked)", "(gcd_of)", "gcd_of stands in no file of its paragraph")
        self.planted("DECISIONS", "`cursor/specs/Padded.antt`", "`cursor/specs/Range.antt`", "`padded` does not stand in cursor/specs/Range.antt")
        self.planted("ARCHITECTURE", "(`Testing` of `searcher/", "(`Testing` of `sweep/", "`Testing` does not stand in sweep/specs/Arrays.antt")
        self.planted("ARCHITECTURE", "`not_early` of `InWindow`", "`not_early` of `IsPlan`", "`not_early` does not stand in IsPlan")
        self.planted("READING", "`model/specs/Plan` IsPlan", "`model/specs/Chosen` IsPlan", "IsPlan does not stand in model/specs/Chosen")

    def test_function_in_the_wrong_crate(self):
        wrong = "src/ has no such function, struct or module"
        self.planted("MODEL", "`searcher::may_stand`", "`planner::may_stand`", f"`planner::may_stand`: {wrong}")
        self.planted("DECISIONS", "`plan_rules::rules_kept`", "`checker::rules_kept`", f"`checker::rules_kept`: {wrong}")
        self.planted("ARCHITECTURE", "`cut::cut(request, task, ", "`cut::cut(task, request, ", f"`cut::cut(task, request, first, out)`: {wrong}")
        found = [f"`{name}` does not stand in arith" for name in ("tied_jobs", "is_crowded", "may")]
        self.planted("ARCHITECTURE", "of `prune` `tied_jobs`", "of `arith` `tied_jobs`", *found)

    def test_file_that_is_not_there(self):
        self.planted("MODEL", "`model/Within` Within.", "`model/Inside` Within.", "`model/Inside` is nothing that exists")
        self.planted("DECISIONS", "packaging/wheels.py`", "packaging/wheel.py`", "`python/packaging/wheel.py` is nothing that exists")
        self.planted("ARCHITECTURE", "`PhaseCycle.antt`", "`PhaseRing.antt`", "`PhaseRing.antt` is nothing that exists")
        self.planted("READING", "`tests/tests/stack.rs`", "`tests/tests/heap.rs`", "`tests/tests/heap.rs` is nothing that exists")

    def test_command(self):
        self.planted("DECISIONS", "`bus spacing`", "`bus distance`", "`bus distance` is nothing that exists")
        self.planted("DECISIONS", "`--plain`", "`--bare`", "`--bare` is nothing that exists")
        self.planted("ARCHITECTURE", "`sources.listening`", "`sources.hearing`", "`sources.hearing` is nothing that exists")


class Landings(unittest.TestCase):
    """Each note by the tree of its own commit; what it says was before it, by the tree before."""

    def tree(self, commit):
        """The names of a commit."""
        folder = tempfile.TemporaryDirectory()
        self.addCleanup(folder.cleanup)
        with tarfile.open(fileobj=io.BytesIO(git("archive", commit))) as tar:
            tar.extractall(folder.name)
        return Names(Path(folder.name))

    def found(self, number, text):
        """What is wrong in a note on R-number, by neither tree."""
        commit = re.search(rf"^(\w+) R-{number}: ", git("log", "--format=%H %s").decode(), re.MULTILINE)
        if not commit or not git("rev-parse", "--verify", f"{commit.group(1)}~1"):
            self.skipTest("the history of this clone does not reach the commit")
        found = faults(self.tree(commit.group(1)), text)
        before = faults(self.tree(f"{commit.group(1)}~1"), text) if found else []
        return [fault for fault in found if fault in before]

    def test_names(self):
        for note in sorted((ROOT / "docs" / "landings").glob("R-*.md")):
            with self.subTest(note.stem):
                self.assertEqual(self.found(int(note.stem[2:]), note.read_text(encoding="utf-8")), [])

    def test_name_of_another_time(self):
        text = NAMES.text("docs/landings/R-10.md")
        self.assertEqual(text.count("`IsUp`"), 1)
        self.assertEqual(self.found(10, text.replace("`IsUp`", "`IsLifted`")), ["`IsLifted` is nothing that exists"])


if __name__ == "__main__":
    unittest.main()
