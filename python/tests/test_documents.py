"""The documents: what their examples print, the ends of their links, and the groups of the crates."""

import pkgutil
import re
import subprocess
import sys
from pathlib import Path

import bus
from tests.helper import EXAMPLES, ROOT, Case

TYPED = ["README.md", "docs/GUIDE.md"]
DOCUMENTS = ["README.md", "docs", "tests/README.md", "bench/RESULTS.md"]
TEAM = EXAMPLES / "team.csv"


def text_of(document):
    return (ROOT / document).read_text(encoding="utf-8")


def blocks(document):
    """The blocks of indented lines, without the indentation."""
    found = re.findall(r"^(?:    .*\n)+", text_of(document), re.MULTILINE)
    return [re.sub("^    ", "", block, flags=re.MULTILINE) for block in found]


def examples(document):
    """Each line behind a `$` and what is printed below it."""
    for block in blocks(document):
        for part in re.split(r"^\$ ", block, flags=re.MULTILINE)[1:] if block.startswith("$ ") else ():
            yield part.split("\n", 1)


def anchor(heading):
    """What a link calls a heading."""
    return re.sub(r"[^\w -]", "", heading.lower()).replace(" ", "-")


class Typed(Case):
    def in_a_folder(self, name):
        """A folder in which the lines can be typed as in the root of the repository."""
        folder = self.folder / name
        folder.mkdir()
        (folder / "examples").symlink_to(EXAMPLES)
        script = folder / "bus"
        script.write_text(f'#!/bin/sh\nexec "{sys.executable}" "{ROOT / "bus"}" "$@"\n', encoding="utf-8")
        script.chmod(0o755)
        return folder

    def test_examples(self):
        """In the order of each document, since later ones use what earlier ones wrote."""
        for document in TYPED:
            folder = self.in_a_folder(Path(document).stem)
            both = {"stdout": subprocess.PIPE, "stderr": subprocess.STDOUT, "text": True, "encoding": "utf-8"}
            for line, printed in examples(document):
                with self.subTest(f"{document}: {line}"):
                    done = subprocess.run(["sh", "-c", line], cwd=folder, timeout=60, **both)
                    self.assertEqual(done.stdout, printed)
        self.assertEqual((self.folder / "README" / "team.svg").read_bytes(), (EXAMPLES / "team.svg").read_bytes())

    def test_every_story_is_there(self):
        """Each of these is shown by an example of the guide, and the head of README.md by one of its own."""
        shown = {line.split()[1] for line, _ in examples("docs/GUIDE.md")}
        stories = "plan why cut room join one-off spacing move diff phases timeline timer c heater"
        self.assertEqual(shown, set(stories.split()))
        self.assertEqual([line.split()[1] for line, _ in examples("README.md")], ["plan", "why"])

    def test_the_list(self):
        for document in TYPED:
            self.assertIn(TEAM.read_text(encoding="utf-8"), blocks(document))

    def test_figures_in_words(self):
        """The spacing of another deadline and phase, which the guide tells in a sentence."""
        closer = self.file("closer.csv", TEAM.read_text().replace("magnet,4,40,,", "magnet,4,40,20,20"))
        magnet = bus.spacing(closer, bus.plan(closer))[3]
        told = f"with a deadline of 20 and a phase of 20 they are from {magnet.least} to {magnet.most}."
        self.assertIn(told, " ".join(text_of("docs/GUIDE.md").split()))


class Links(Case):
    def test_links(self):
        """Each link between the documents has a file at its end, and a heading where it names one."""
        for path in sorted(path for name in DOCUMENTS for path in [ROOT / name, *(ROOT / name).rglob("*.md")]):
            if path.is_dir():
                continue
            for link in re.findall(r"\]\(([^)]+)\)", path.read_text(encoding="utf-8")):
                with self.subTest(f"{path.name}: {link}"):
                    name, _, part = link.partition("#")
                    end = path.parent / name if name else path
                    self.assertTrue(end.exists())
                    if part:
                        headings = re.findall(r"^#+ (.+)$", end.read_text(encoding="utf-8"), re.MULTILINE)
                        self.assertIn(part, map(anchor, headings))


class Architecture(Case):
    def test_crates(self):
        """docs/ARCHITECTURE.md has the groups of crates.txt, and in each the same crates in the same order."""
        listed, groups = {}, re.split(r"^# (\w+): .*\n", text_of("crates.txt"), flags=re.MULTILINE)[1:]
        for name, lines in zip(groups[::2], groups[1::2]):
            listed[name] = re.findall(r"^(\w+)(?: staticlib)?:", lines, re.MULTILINE)
        self.assertEqual(sum(map(len, listed.values())), len(list((ROOT / "crates").iterdir())))
        layers = text_of("docs/ARCHITECTURE.md").split("## Layers\n")[1].split("\n## ")[0]
        told = {}
        for part in layers.split("\n### ")[1:]:
            cells = re.findall(r"^\| (`[^|]*) \|", part, re.MULTILINE)
            told[part.split("\n")[0]] = re.findall(r"`(\w+)`", " ".join(cells))
        self.assertEqual(list(told.items()), list(listed.items()))

    def test_modules(self):
        """docs/ARCHITECTURE.md has a row for every module of the command, and for no other."""
        part = text_of("docs/ARCHITECTURE.md").split("## The command for people\n")[1].split("\n## ")[0]
        told = re.findall(r"`(\w+)`", " ".join(re.findall(r"^\| (`[^|]*) \|", part, re.MULTILINE)))
        self.assertEqual(sorted(told), sorted(module.name for module in pkgutil.iter_modules(bus.__path__)))
