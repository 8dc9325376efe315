"""The quotations of the papers 01 and 02: every text in double quotes in a comment, in what is said of an edit that must be refused, and in a document.
Each is held against docs/quoted.txt, which has the sentences that something is quoted of.

A quotation is words that follow each other in one section of a paper: of the paper or request that stands right in front of it, where one does. `..` stands
for words left out, and brackets hold what is put in, as in start[s]. White space and the marks of Markdown do not count. The case of the first letter is free,
and so is one punctuation mark at the end. What stands in backquotes is code and no quotation; outside of the crates also what stands in fences or is indented
by four.

`python3 -m tests.quotations [FOLDER]` makes docs/quoted.txt anew from the papers in the folder."""

import ast
import difflib
import io
import re
import sys
import tokenize
from pathlib import Path

ROOT = Path(__file__).resolve().parents[2]
FOLDER = ROOT.parent / "shared" / "docs"
PAPERS = {"01": "01-scope.md", "02": "02-change-requests.md"}
QUOTED = "docs/quoted.txt"

HEAD = """\
The sentences of the papers 01 and 02 of which something is quoted in this repository: each whole,
under its heading, in the order of the papers, without the marks of Markdown. A line is a sentence
or a row of a table. Where no empty line stands between two, the second follows the first in the
paper. python/tests/test_quotations.py compares every quotation with these lines, and these lines
with the papers. `python3 -m tests.quotations`, in the folder python, makes this file anew.
"""


class Section:
    """What stands under one heading of a paper. Each line is a sentence, with whether it follows the line before in the same paragraph; the first is the
    heading."""

    def __init__(self, paper, lines):
        self.paper, self.lines, self.text, self.ends = paper, lines, "", []
        for follows, line in lines:
            self.text += (" " if follows else "\n") + line
            self.ends.append(len(self.text))

    def holds(self, quotation):
        """The numbers of the lines in which the quotation stands, its parts one behind the other; none if it does not."""
        at, numbers = 0, set()
        if quotation.source not in (None, self.paper, self.lines[0][1].split(". ")[0]):
            return numbers
        for part in quotation.parts:
            found = part.search(self.text, at)
            if not found:
                return set()
            at = found.end()
            numbers |= {n for n, end in enumerate(self.ends) if found.start() < end and (n == 0 or at > self.ends[n - 1] + 1)}
        return numbers

    def only(self, numbers):
        """The section with these lines alone, and its heading."""
        return Section(self.paper, [(follows and n - 1 in numbers, line) for n, (follows, line) in enumerate(self.lines) if n == 0 or n in numbers])


class Quotation:
    """A text in double quotes at a place; `source` is the paper or request in front of it. Each part is a pattern that begins and ends with whole words."""

    def __init__(self, place, source, text):
        self.place, self.source, self.text, self.parts = place, source, plain(text), []
        for part in re.split(r"\.\.+|…", re.sub(r" ?\[[^]]*\]|(?<!\.)[.,;:]$", "", self.text)):
            part = part.strip()
            if part:
                first = re.escape(part[0]) if self.parts else f"(?i:{re.escape(part[0])})"
                before = r"(?<![\w'-])" if part[0].isalnum() else ""
                behind = r"(?![\w'-]|[.,]\d)" if part[-1].isalnum() else ""
                self.parts.append(re.compile(before + first + re.escape(part[1:]) + behind))


def plain(text):
    return " ".join(re.sub(r"[*`]", "", text).split())


def sentences(paragraph):
    """The sentences of a paragraph of Markdown. A row of a table is one, with a bar between its cells."""
    if paragraph.startswith("|"):
        return [plain(row.strip("| ")) for row in paragraph.splitlines() if re.search(r"\w", row)]
    return re.split(r"(?<=[.!?])(?<!\.\.) ", plain(re.sub(r"(?m)^- ", "", paragraph)))


def section(paper, title, paragraphs):
    return Section(paper, [(False, plain(title)), *((n > 0, line) for lines in paragraphs for n, line in enumerate(lines))])


def of_papers(folder):
    """The sections of the papers. A heading is a line of its own, or in bold at the front of a paragraph."""
    for paper, name in PAPERS.items():
        parts = re.split(r"(?m)^(?:#+ |\*\*)([^*\n]+)(?:\*\*)?", (folder / name).read_text(encoding="utf-8"))
        for title, body in zip(parts[1::2], parts[2::2]):
            yield section(paper, title, map(sentences, re.split(r"\n\s*\n", body.strip())))


def of_file(text):
    """The sections of docs/quoted.txt."""
    for part in re.split(r"(?m)^# ", text)[1:]:
        paper, *parts = re.split(r"(?m)^## (.*)$", part)
        for title, body in zip(parts[::2], parts[1::2]):
            yield section(paper.strip(), title, (lines.splitlines() for lines in re.split(r"\n\n+", body.strip("\n"))))


def made(sections, quotations):
    """docs/quoted.txt for these quotations. What stands in several sentences is taken from one that is there for a longer quotation, else from the first."""
    sections = list(sections)
    kept = [set() for _ in sections]
    for one in sorted(quotations, key=lambda one: (-len(one.text), one.text, one.source or "")):
        if not any(numbers and place.only(numbers).holds(one) for place, numbers in zip(sections, kept)):
            for place, numbers in zip(sections, kept):
                held = place.holds(one)
                if held:
                    numbers |= held
                    break
    lines, paper = [HEAD.rstrip()], None
    for place, numbers in zip(sections, kept):
        if numbers:
            lines += [] if place.paper == paper else [f"\n# {place.paper}"]
            lines += [f"\n## {place.lines[0][1]}"]
            lines += [("" if follows else "\n") + line for follows, line in place.only(numbers).lines[1:]]
            paper = place.paper
    return "\n".join(lines) + "\n"


def blocks(lines):
    """The runs of lines that are not empty, each with the number of its first line."""
    start, run = 0, []
    for n, line in enumerate([*lines, ""], 1):
        if line.strip():
            start, run = start if run else n, [*run, line]
        elif run:
            yield start, "\n".join(run)
            run = []


def without_code(lines):
    """The lines, empty ones in place of code: what stands in fences, or behind an empty line and is indented by four."""
    fenced, code, empty = False, False, True
    for line in lines:
        if line.lstrip().startswith("```"):
            fenced, line = not fenced, ""
        code = line.startswith("    ") and (empty or code)
        empty = not line.strip()
        yield "" if fenced or code else line


def comments(mark, text):
    """The comments of a file; those of lines that follow each other are one."""
    lines = text.splitlines()
    alone = [re.match(rf"\s*{mark}[/!]?(.*)", line) for line in lines]
    yield from blocks(m.group(1) if m else "" for m in alone)
    for n, line in enumerate(lines):
        behind = None if alone[n] else re.search(rf"\s{mark}\s(.*)", line)
        if behind:
            yield n + 1, behind.group(1)


def of_antt(text):
    return comments("--", text)


def of_rt(text):
    return comments("//", text)


def of_edit(text):
    """What is said of an edit: the lines in front of the file that it changes."""
    return blocks(re.split(r"(?m)^file:", text)[0].splitlines())


def of_markdown(text, start=1):
    return ((start + n - 1, block) for n, block in blocks(without_code(text.splitlines())))


def of_rust(text):
    for start, block in comments("//", text):
        yield from of_markdown(block, start)


def of_python(text):
    lines = [""] * len(text.splitlines())
    for token in tokenize.generate_tokens(io.StringIO(text).readline):
        if token.type == tokenize.COMMENT:
            lines[token.start[0] - 1] = token.string.lstrip("#")
    yield from blocks(lines)
    for node in ast.walk(ast.parse(text)):
        if isinstance(node, (ast.Module, ast.ClassDef, ast.FunctionDef, ast.AsyncFunctionDef)) and ast.get_docstring(node):
            yield from of_markdown(ast.get_docstring(node), node.body[0].lineno)


def of_c(text):
    """The comments of a file in C; none begins or ends in a string."""
    for found in re.finditer(r'"(?:\\.|[^"\\])*"|/\*(.*?)\*/|//([^\n]*)', text, re.DOTALL):
        comment = found.group(1) or found.group(2) or ""
        yield from of_markdown(re.sub(r"(?m)^ \* ?", "", comment), text.count("\n", 0, found.start()) + 1)


FILES = (
    (of_antt, "crates/*/specs/**/*.antt", "crates/*/proofs/**/*.antt"),
    (of_rt, "crates/*/src/**/*.rt"),
    (of_edit, "crates/*/must-fail/*.edit"),
    (of_markdown, "*.md", "docs/**/*.md", "tests/*.md", "bench/*.md"),
    (of_python, "bus", "python/look", "python/**/*.py"),
    (of_rust, "tests/*.rs", "tests/src/**/*.rs", "tests/tests/**/*.rs"),
    (of_c, "include/*.h", "examples/*.c", "tests/*.[ch]", "bench/*.[ch]", "python/bus/**/*.[ch]"),
)


def quotations(root):
    """What stands in double quotes. A mark without a partner is an empty text."""
    for prose, *patterns in FILES:
        for path in sorted({path for pattern in patterns for path in root.glob(pattern)}):
            for start, block in prose(path.read_text(encoding="utf-8")):
                for found in re.finditer(r'`[^`]*`|"([^"]*)("?)', block):
                    if found.group(2) is not None:
                        place = f"{path.relative_to(root)}:{start + block.count(chr(10), 0, found.start())}"
                        source = re.search(r"\b(01|02|R-\d+)(?:'s)?[:,]?\s(?:\d+:?\s)?$", block[: found.start()])
                        yield Quotation(place, source and source.group(1), found.group(1) if found.group(2) else "")


def faults(root):
    """What stands in double quotes and is no quotation."""
    sections = list(of_file((root / QUOTED).read_text(encoding="utf-8")))
    for one in quotations(root):
        if not any(place.holds(one) for place in sections):
            yield f"{one.place}: {one.text}"


def drift(text, sections, found):
    """Where docs/quoted.txt with this text is not what these sections and quotations make it."""
    lines = difflib.unified_diff(text.splitlines(), made(sections, found).splitlines(), lineterm="", n=0)
    return [line for line in lines if re.match(r"[+-](?!--|\+\+)", line)]


if __name__ == "__main__":
    new = made(of_papers(Path(sys.argv[1]) if sys.argv[1:] else FOLDER), quotations(ROOT))
    (ROOT / QUOTED).write_text(new, encoding="utf-8")
