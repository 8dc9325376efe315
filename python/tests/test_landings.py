"""The notes on the landings: the times that they give are those that docs/landings/measure took, of the landings' own trees."""

import importlib.machinery
import importlib.util
import shutil
import subprocess
import tempfile
import unittest
from pathlib import Path

FOLDER = Path(__file__).resolve().parents[2] / "docs" / "landings"


def script():
    """The script as a module; it measures nothing when it is loaded."""
    loader = importlib.machinery.SourceFileLoader("measure", str(FOLDER / "measure"))
    module = importlib.util.module_from_spec(importlib.util.spec_from_loader("measure", loader))
    loader.exec_module(module)
    return module


MEASURE = script()


def stale(folder):
    """The documents that do not give the times of times.txt."""
    return [path.name for path, text, wanted in MEASURE.documents(MEASURE.measured(folder), folder) if text != wanted]


class Times(unittest.TestCase):
    def test_every_tree_was_measured(self):
        self.assertEqual(list(MEASURE.measured()), ["base"] + [f"R-{number}" for number in range(1, 15)])

    def test_documents(self):
        self.assertEqual(stale(FOLDER), [])

    def test_changed_figures_are_found(self):
        with tempfile.TemporaryDirectory() as name:
            folder = Path(name) / "landings"
            shutil.copytree(FOLDER, folder)
            for document, planted in (("README.md", "R-04.md"), ("R-09.md", "| after (")):
                text = (folder / document).read_text()
                line = next(line for line in text.splitlines() if planted in line)
                (folder / document).write_text(text.replace(line, line.replace(" min ", " min 1")))
            self.assertEqual(stale(folder), ["README.md", "R-09.md"])

    def test_of_the_landings_own_trees(self):
        try:
            trees = MEASURE.trees()
        except (OSError, subprocess.CalledProcessError):
            trees = {}
        if "R-14" not in trees:
            self.skipTest("the history is not here")
        for name, (commit, _, edits) in MEASURE.measured().items():
            with self.subTest(name):
                self.assertTrue(trees[name].startswith(commit[:7]) or commit.startswith(trees[name][:7]))
                self.assertEqual(MEASURE.edits(commit), edits)


if __name__ == "__main__":
    unittest.main()
