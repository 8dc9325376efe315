"""The names in the documents, each looked up in the repository as it is.

A name that is given with a file stands in that very file. It is given in one of two ways: the file and then the names, parted by commas, with or without
code quotes, as in `model/Plan` IsPlan, PairsKept, or with the fields of a record behind a colon; or the names in code quotes, 'of' and the file, as in
`slot` of `model/specs/Plan.antt`. A file of specs/ is `crate/File`, `crate/specs/File` or `crate/specs/File.antt`, and `File.antt` where its crate was named
before in the same paragraph, point or row. `crate::module::function` and `crate/File.name` say themselves where they stand.

Any other name in code quotes is something that exists. A name without them stands in a file that its paragraph, point or row names: a word with a capital
inside or a dash, words alone in brackets, and what is called a statement. Where no file is named, it exists somewhere."""

import re
from functools import cache, cached_property

from tests.believed import INNER, Spec

WORD = re.compile(r"[A-Za-z_][\w-]*")
LOOK = r"(?:[a-z]+[A-Z]\w*|[A-Z][a-z]+[A-Z]\w*|[A-Za-z]+(?:-[A-Za-z]+)+|[a-z]+(?:_[a-z]+)+)(?![\w-])"
ITEM = r"(?:%s|[A-Za-z]\w+(?=[,;:.)]| \(| \||$))" % LOOK
LIST = re.compile(r" (%s(?:, %s)*)(?:: (%s(?:, %s)*))?" % (ITEM, ITEM, ITEM, ITEM))
PLAIN = re.compile(r"(?<![\w/.-])%s(?!/|\.\w)" % LOOK)
BRACKETS = re.compile(r"(?<!\w)\(([A-Za-z]\w[\w-]*(?:[,;] [A-Za-z]\w[\w-]*)*)\)")
STATEMENT = re.compile(r"((?:[A-Z]\w*, )*[A-Z]\w*) \(the statements?\)")
SPECS = re.compile(r"(?:crates/)?([a-z]\w*)/(?:specs/)?([A-Z]\w*(?:/[A-Z]\w*)*)(?:\.antt)?")
ALONE = re.compile(r"([A-Z]\w*(?:/[A-Z]\w*)*)\.antt")
INSIDE = re.compile(r"([a-z]\w*)/([A-Z]\w*)\.([\w-]+)")
CALL = re.compile(r"((?:\w+::)+\w+)(?:\((.*)\))?")
EDIT = re.compile(r"(\w+)/must-fail(?:/(\w+))?")

# What stands in code quotes and is no name of the repository: words, and whole texts.
OTHERS = {
    "a word of the language": "requires ensures pub self statement met cond lem ac unfolding Result Option Ok Err",
    "a name of its libraries, or of C": "libc memcpy memset PROGMEM",
    "another tool, or a word or a file of one": "rt gcc g++ cargo sha256sum pcfiledir",
    "what is built": "libbus.a target/python/libbus.so py3-none-manylinux_2_17_x86_64",
    "a name in somebody's list, or a word of one": "camera camera/1 camera/2 cells-2 task.job #REF! before from",
    "how a name is written": "crate/File crate/specs/File.antt File.antt crates/crate/specs/File.antt crate::module::function "
    "Capital small_with_underscores Invariants.antt Answers.antt",
}
NO_NAMES = {word for words in OTHERS.values() for word in words.split()}
TEXTS = re.compile(
    r"[^A-Za-z]+"  # bytes, figures, signs
    r"|(?:rt|pip|python3?|cargo|import|refused|busy|let|ghost) .+"  # what is typed or printed, and forms of the language
    r"|&.+|\(λ .+|\w+ = \w+|[\w-]+=.+"  # expressions
    r"|n of them, from i on"
)
APPLIED = re.compile(r"([\w-]+)(?:(?: [\w-]+)+|\(.*\)|: .+|!)")

# Words with a dash or a capital inside that are no names.
ENGLISH = set("one-off next-frame exactly-once depth-first cut-off hang-up m-th ctrl-c prefers-color-scheme kib typeerror undefined-behaviour".split())


def blocks(text):
    """The paragraphs, points and rows of a document, each in one line; without what is indented as code."""
    found, ended, code = [], True, False
    for line in text.splitlines():
        code = line.startswith("    ") and (code or ended)
        if not line.strip() or code:
            ended = True
        elif ended or re.match(r"- |\d+\. |\||#", line):
            found, ended = [*found, line.strip()], False
        else:
            found[-1] += " " + line.strip()
    return found


@cache
def declared(text):
    """The names that a file of specs/ or proofs/ declares, each with its fields or constructors, which are names too."""
    found = {}
    for name, one in Spec((), text).names.items():
        inner = set(INNER.findall(one.text)) if re.search(r"\b(?:record|data) %s\b" % re.escape(one.name), one.text) else set()
        found[name] = inner
        found.update((field, set()) for field in inner if field not in found)
    return found


class Names:
    """The names of a repository."""

    def __init__(self, root):
        self.root, self.files = root, {}
        self.crates = {path.name for path in (root / "crates").iterdir()}

    def text(self, path):
        return (self.root / path).read_text(encoding="utf-8")

    def file(self, path):
        """What a file of specs/ or proofs/ declares; none if there is no such file."""
        if path not in self.files:
            self.files[path] = declared(self.text(path)) if (self.root / path).is_file() else None
        return self.files[path]

    def spec(self, crate, module):
        return self.file(f"crates/{crate}/specs/{module}.antt")

    @cached_property
    def sources(self):
        """What src/ declares, for each crate and each of its modules; of functions the parameters."""
        found = {}
        for path in self.root.glob("crates/*/src/**/*.rt"):
            crate, _, *modules = path.relative_to(self.root / "crates").with_suffix("").parts
            names = dict.fromkeys(re.findall(r"\b(?:struct|enum|const|mod) (\w+)", self.text(path)))
            for name, parameters in re.findall(r"\bfn (\w+)(?:<[^(]*>)?\(([^)]*)\)", self.text(path)):
                names[name] = re.findall(r"(\w+): ", parameters)
            found.setdefault(crate, {})["" if modules == ["lib"] else "::".join(modules)] = names
        return found

    def called(self, path, parameters):
        """Whether there is a function, struct or module of that path, with these parameters if some are told."""
        crate, *modules, name = path.split("::")
        names = self.sources.get(crate, {}).get("::".join(modules), {})
        if parameters is not None:
            return names.get(name) == parameters.split(", ")
        return name in names or "::".join([*modules, name]) in self.sources.get(crate, {})

    def stated(self, name):
        """All that stands in specs/ and proofs/ of a crate."""
        found = {}
        for path in [path for kind in ("specs", "proofs") for path in (self.root / "crates" / name / kind).rglob("*.antt")]:
            found.update(self.file(str(path.relative_to(self.root))))
        return found

    def crate(self, name):
        """All that stands in a crate."""
        return {**{one: set() for names in self.sources.get(name, {}).values() for one in names}, **self.stated(name)}

    @cached_property
    def subcommands(self):
        """Those of `bus`; before each had a module of its own, they stood in one."""
        modules = [*self.root.glob("python/bus/commands/*.py")]
        wanted = r'^NAME = "(.+)"' if modules else r'^ *"([\w-]+)",$'
        return {name for path in modules or self.root.glob("python/bus/command.py") for name in re.findall(wanted, self.text(path), re.MULTILINE)}

    @cached_property
    def anything(self):
        """Every name of the repository."""
        return self.outside.union(*map(self.stated, self.crates))

    @cached_property
    def outside(self):
        """The names of all but what stands in specs/ and proofs/."""
        found = {name for modules in self.sources.values() for names in modules.values() for name in names} | self.crates
        found |= {path.stem for kind in ("specs/*.antt", "src/*.rt", "must-fail/*.edit") for path in self.root.glob(f"crates/*/{kind}")}
        for path in self.root.glob("python/bus/**/*.py"):
            found.add(path.parent.name if path.stem == "__init__" else path.stem)
            for names in re.findall(r"^ *(?:def|class) (\w+)|^(?: +self\.)?(\w+) =|^    (\w+): \w|\"(--[\w-]+)\"", self.text(path), re.MULTILINE):
                found |= set(names)
        header = re.sub(r"/\*.*?\*/", "", self.text("include/bus.h"), flags=re.DOTALL)
        return found | self.rust | set(re.findall(r"[A-Za-z_]\w*", header)) | {path.name for path in self.root.iterdir()}

    @cached_property
    def rust(self):
        """The names of the tests from outside."""
        found = set()
        for path in [*self.root.glob("tests/src/**/*.rs"), *self.root.glob("tests/tests/**/*.rs")]:
            found |= {path.stem, *re.findall(r"\b(?:fn|struct|enum|trait|const|static|mod|macro_rules!) (\w+)", self.text(path))}
        return found

    @cached_property
    def records(self):
        """The records and data of specs/ with their fields and constructors, of all that have one name."""
        found = {}
        for path in self.root.glob("crates/*/specs/**/*.antt"):
            for name, inner in self.file(str(path.relative_to(self.root))).items():
                found.setdefault(name, set()).update(inner)
        return {name: inner for name, inner in found.items() if inner}

    def is_path(self, code):
        """Whether a path leads to something, from the root or a folder below, or to an edit of a crate, as `planner/ten_for_all`; NAME and * are any crate."""
        code = re.sub(r"NAME|\*", "arith", code).rstrip("/")
        folders = ("", "crates", "crates/arith", "python/bus", "python/tests", "tests", "tests/src", "tests/tests", "examples")
        paths = [f"{folder}/{code}{end}" for folder in folders for end in ("", ".py")]
        return any((self.root / path.lstrip("/")).exists() for path in [*paths, f"crates/{code.replace('/', '/must-fail/', 1)}.edit"])

    def in_python(self, code):
        """Whether it is a function or class of python/bus, as in `sources.given`, or one that `import bus` offers, as in `bus.plan`."""
        module, _, name = code.partition(".")
        path, said = ("python/bus/__init__.py", r'"%s"') if module == "bus" else (f"python/bus/{module}.py", r"(?:def|class) %s\b")
        return bool(name) and (self.root / path).exists() and re.search(said % re.escape(name), self.text(path)) is not None

    def exists(self, code):
        """Whether what stands in code quotes, given with no file, is something."""
        if code in self.anything or TEXTS.fullmatch(code):
            return True
        if code.startswith("bus "):
            return code.split()[1] in self.subcommands
        if code.startswith("--"):
            return code.split()[0] in self.anything
        ending = re.fullmatch(r"(\w+)\.\.|(?:\.\.|-)(\w+)", code)
        if ending:
            begin, end = ending.groups()
            return any(name.startswith(begin) if begin else name.endswith(end) for name in self.anything)
        applied = APPLIED.fullmatch(code)
        if applied:
            return applied.group(1) in self.anything
        return ("/" in code or "." in code) and (self.is_path(code) or self.in_python(code))


class Place:
    """What names may be given with: what it is called, the names in it, and what may stand between it and the first of them."""

    def __init__(self, called, names, between):
        self.called, self.names, self.between = called, names, between


class Block:
    """A paragraph, point or row: `wrong` is what is wrong in it."""

    def __init__(self, names, text):
        self.names, self.owner, self.files, self.wrong = names, None, [], []
        self.parts = text.split("`")
        self.places = [self.place(i) if i % 2 and self.parts[i] not in NO_NAMES else None for i in range(len(self.parts))]
        for i in range(1, len(self.parts), 2):
            self.quoted(i)
        for i in range(0, len(self.parts), 2):
            self.plain(i)

    def place(self, i):
        """The file, the folder of edits, the crate of a function or the crate that stands in these code quotes, if it is one."""
        code, names = self.parts[i], self.names
        alone, specs, edit = ALONE.fullmatch(code), SPECS.fullmatch(code), EDIT.fullmatch(code)
        if alone or (specs and specs.group(1) in names.crates):
            return self.of_specs(code, alone, specs)
        if edit and edit.group(1) in names.crates:
            edits = {path.stem: set() for path in (names.root / "crates" / edit.group(1) / "must-fail").glob("*.edit")}
            return Place(code, edits, (" ", ", ")) if edit.group(2) in {None, *edits} else None
        if re.fullmatch(r"\w+/(?:proofs/.+\.antt|src/.+\.rt)", code) and names.is_path(code):
            crate, kind, *rest = code[: code.rindex(".")].split("/")
            found = names.file(f"crates/{code}") if kind == "proofs" else {name: set() for name in names.sources[crate]["::".join(rest)]}
            return Place(code, found, (" ",))
        if CALL.fullmatch(code):
            return Place(code, names.crate(code.split("::")[0]), (", ",)) if code.split("::")[0] in names.crates else None
        if code[:1].isupper() and self.parts[i - 1] == " of " and code in names.records:
            return Place(code, names.records[code], (" ",))
        if code in names.crates and self.parts[i - 1].endswith("of "):
            return Place(code, names.crate(code), (" ", ": "))
        return None

    def of_specs(self, code, alone, specs):
        if specs:
            self.owner = specs.group(1)
        elif self.owner is None:
            owners = [path.parts[-3 - code.count("/")] for path in self.names.root.glob(f"crates/*/specs/{code}")]
            self.owner = owners[0] if len(owners) == 1 else None
        found = self.names.spec(self.owner, (specs or alone).groups()[-1])
        if found is None:
            return None
        self.files.append(found)
        return Place(code, found, (" ", ": "))

    def given(self, i):
        """The place that a name in code quotes is given with: the one before it, with at most names between, or else the one behind 'of'."""
        at = i - 1
        while at > 0:
            if self.places[at - 1]:
                if self.parts[at] in self.places[at - 1].between:
                    return self.places[at - 1]
                break
            if self.parts[at] not in (", ", " and ", ", and "):
                break
            at -= 2
        at = i + 1
        while at + 1 < len(self.parts) and self.parts[at] in (", ", " and ", ", and ") and not self.places[at + 1]:
            at += 2
        return self.places[at + 1] if at + 1 < len(self.parts) and self.parts[at] == " of " else None

    def quoted(self, i):
        code, names = self.parts[i], self.names
        call, inside = CALL.fullmatch(code), INSIDE.fullmatch(code)
        if code in NO_NAMES:
            return
        if call:
            if not names.called(*call.groups()) and not set(code.split("::")) <= names.rust:
                self.wrong.append(f"`{code}`: src/ has no such function, struct or module")
        elif inside and inside.group(1) in names.crates and inside.group(3) != "antt":
            if inside.group(3) not in (names.spec(*inside.groups()[:2]) or ()):
                self.wrong.append(f"`{code}`: specs/ has no such name")
        elif not self.places[i]:
            place = self.given(i) if WORD.fullmatch(code) else None
            if place and code not in place.names:
                self.wrong.append(f"`{code}` does not stand in {place.called}")
            elif not place and not names.exists(code):
                self.wrong.append(f"`{code}` is nothing that exists")

    def plain(self, i):
        """Names without code quotes: the list behind a file, and words that look like a name."""
        text, place, seen = self.parts[i], self.places[i - 1] if i else None, set()
        listed = LIST.match(text) if place and place.between == (" ", ": ") else None
        if listed:
            names, fields = listed.group(1).split(", "), (listed.group(2) or "").split(", ")
            seen = {*names, *fields}
            self.wrong += [f"{name} does not stand in {place.called}" for name in names if name not in place.names]
            self.wrong += [f"{field} is no field of {names[-1]}" for field in fields if field and field not in place.names.get(names[-1], ())]
        words = {*PLAIN.findall(text), *(word for group in STATEMENT.findall(text) for word in group.split(", "))}
        if self.files:
            words |= {word for group in BRACKETS.findall(text) for word in re.split("[,;] ", group)}
        for word in sorted(words - seen):
            if word.lower() not in ENGLISH and not any(word in file for file in self.files) and not self.elsewhere(word):
                self.wrong.append(f"{word} stands in no file of its paragraph")

    def elsewhere(self, word):
        return word in self.names.anything if not self.files else "_" in word and word in self.names.outside


def faults(names, text):
    """What is wrong in a document, in its order."""
    return [fault for block in blocks(text) for fault in Block(names, block).wrong]
