"""What the statements of crate `claims` rest on: the definitions that they name and those that these name, by the file of specs/ that each stands in; and
the maps, specs/Lib.antt, which list the modules of a crate under four headings.

A definition is what is marked `abbrev` or `unfoldable`, a `record` or a `data`: its type and its body count. All else is a lemma: its type counts, if a
statement names it. A contract counts by its `requires` and `ensures`. Names of the kit's libraries and of structs in src/ end the search.

`python3 -m tests.believed` counts the definitions, by demand: the lines of docs/ARCHITECTURE.md under 'What a reader must believe'."""

import re
from pathlib import Path

BELIEVED, TYPES, THEOREMS, LAWS = HEADINGS = ("To be believed", "How answers stand in types", "Theorems", "Laws")

OF = {"1": "demand 1", "2": "demand 2", "3": "demand 3", "after": "what came after"}

TOKEN = re.compile(r"[^\s(){};,@]+|[(){};]")
MARKS = {"abbrev", "unfoldable", "pub"}
BINDERS = re.compile(r"[({]\s*([^(){}:;]+?)\s+:\s")
LAMBDA = re.compile(r"λ\s*([^.()]*?)\.(?=\s|$)")
LET = re.compile(r"\blet\s+(?:\(([^()]*)\)|(\S+))")
INNER = re.compile(r"^\s+(?:pub )?(\S+) :(?=\s)", re.MULTILINE)
FIELD = re.compile(r"([{;]\s*)[^\s(){};,@.]+\s+=(?=\s)")
USE = re.compile(r"^(pub )?(?:unfoldable )?(?:pub )?(?:ghost )?use ([^\s{};]+?)(?:\.(\{[^}]*\}|\*))?(?: as (\S+?))?;?\s*$", re.MULTILINE)
STATEMENT = re.compile(r"Rattle\.(\S+)\.Statement\.statement")


class Declaration:
    """A name of a file of specs/: what counts of it is `text`; `bound` are the names that mean something else in it; `lines` of code say it."""

    def __init__(self, file, name, definition, text, lines=0):
        self.file, self.name, self.definition, self.text, self.lines, self.bound = file, name, definition, text, lines, set()


class File:
    """The names that a file declares and brings in."""

    def __init__(self, place, text):
        self.place, self.uses, self.globs, self.aliases, self.names = place, {}, [], {}, {}
        text = re.sub(r"(?m)(^|\s)(--|//).*$", "", text)
        for _, path, names, alias in USE.findall(text):
            if names == "*":
                self.globs.append(path)
            elif names:
                for name in names.strip("{}").split(","):
                    self.uses[name.strip()] = path
            else:
                self.aliases[alias or path.split(".")[-1]] = path
        self.text = USE.sub("", text)


class Spec(File):
    """A file of specs/ with its declarations."""

    def __init__(self, place, text):
        super().__init__(place, text)
        sections, last = [], None
        for indent, chunk in self.chunks():
            sections = [s for s in sections if s[0] < indent]
            words = chunk.split()
            if words[0] == "module":
                sections.append((indent, chunk))
            elif words[0] not in ("unfolding", "mod", "infixl", "infixr", "infix", "mutual") and words[:2] != ["pub", "mod"]:
                last = self.declare(chunk, words, "\n".join(s[1] for s in sections), last)

    def chunks(self):
        """The declarations and `module _` lines, each with its indent: what stands deeper belongs to the one above."""
        level, found = [0], []
        for line in self.text.splitlines():
            if not line.strip():
                continue
            indent = len(line) - len(line.lstrip())
            while indent < level[-1]:
                level.pop()
            if indent == level[-1]:
                found.append([indent, line])
            else:
                found[-1][1] += "\n" + line
            if re.match(r"\s*module _", found[-1][1]) and found[-1][1].rstrip().endswith(" where"):
                level.append(found[-1][0] + 2)
        return found

    def declare(self, chunk, words, section, last):
        marks = [w for w in words[:3] if w in MARKS]
        words = words[len(marks):]
        if words[0] in ("record", "data"):
            last = self.new(words[1], True, section + "\n" + chunk, chunk)
            if words[0] == "data":
                for name in INNER.findall(chunk):
                    self.names[name] = last
        elif ":" in words[1:2] or (words[1:2] and words[1][0] == "{" and words[2] == ":"):
            last = self.new(words[0], bool({"abbrev", "unfoldable"} & set(marks)), section + "\n" + chunk.split(" :", 1)[1], chunk)
            last.bound |= bound(section + "\n" + chunk)
        elif last and last.definition and " =" in chunk:
            left, right = chunk.split(" =", 1)
            last.text += "\n" + right
            last.lines += len(chunk.splitlines())
            last.bound |= bound(right) | {w for w in TOKEN.findall(left) if w != last.name}
        return last

    def new(self, name, definition, text, chunk):
        self.names[name] = Declaration(self, name, definition, text, len(chunk.splitlines()))
        self.names[name].bound |= bound(text)
        return self.names[name]


def bound(text):
    """The names that a text binds: parameters, variables of λ and let, fields, and what stands in a `where`. A field whose own type has its name binds it
    behind that type alone: there the name is that of a definition."""
    _, *parts = INNER.split(text)
    found = {name for name, said in zip(parts[::2], parts[1::2]) if name not in TOKEN.findall(re.split(rf"\n\s*{re.escape(name)}(?=\s)", said)[0])}
    for group in BINDERS.findall(text) + LAMBDA.findall(text):
        found |= set(group.split())
    for several, one in LET.findall(text):
        found |= {one} | {name.strip() for name in several.split(",")}
    return found - {"pub"}


class Contract(Declaration):
    """What a function of src/ asks and says."""

    def __init__(self, file, name):
        head = re.search(r"fn %s\b(.*?)\n\{" % name, file.text, re.DOTALL).group(1)
        clauses = re.sub(r"(?m)^(    (?:requires|ensures)) \w+ \{", r"\1 {", head[re.search(r"\n    (requires|ensures)", head).start():])
        super().__init__(file, name, False, clauses)
        self.bound = bound(clauses) | set(re.findall(r"(\w+): ", head)) | {"result"}


class Repository:
    """The files of all crates, read when they are asked for."""

    def __init__(self, root):
        self.root, self.files = root, {}
        self.claims = self.module("claims", ["Claims"])
        self.contracts = self.module("claims", ["Claims", "Contracts"])

    def module(self, crate, parts):
        """The file of specs/ with that path; none for what stands elsewhere."""
        path = self.root / "crates" / crate / "specs" / ("/".join(parts) + ".antt")
        if path not in self.files:
            self.files[path] = Spec((crate, ".".join(parts)), path.read_text(encoding="utf-8")) if path.exists() else None
        return self.files[path]

    def contract(self, crate, parts):
        *modules, name = parts
        path = self.root / "crates" / crate / "src" / (("/".join(modules) or "lib") + ".rt")
        if path not in self.files:
            self.files[path] = File((crate, "src"), path.read_text(encoding="utf-8"))
        return Contract(self.files[path], name)

    def at(self, path, inside):
        """What a path names, from a file: a file of specs/, or none."""
        if not path.startswith("Rattle."):
            return self.module(inside.place[0], inside.place[1].split(".") + path.split("."))
        crate, kind, *parts = path[len("Rattle."):].split(".")
        return self.module(crate, parts) if kind == "specs" else None

    def find(self, file, word):
        """The declaration that a word of a file names, if it is one of the repository; of a projection, as in `no_task.c`, what it is of."""
        statement = STATEMENT.fullmatch(word)
        if statement:
            crate, _, *parts = statement.group(1).split(".")
            return self.contract(crate, parts)
        if "." in word:
            head, name = word.split(".", 1)
            path = file.aliases.get(head) or next((p for g in file.globs for p in [self.at(g, file).aliases.get(head)] if p), None)
            if path:
                target = self.at(path, file)
                return self.find(target, name) if target else None
            word = head
        if isinstance(file, Spec) and word in file.names:
            return file.names[word]
        if word in file.uses:
            target = self.at(file.uses[word], file)
            return self.find(target, word) if target else None
        for glob in file.globs:
            target = self.at(glob, file)
            if word in target.uses:
                return self.find(target, word)
        return None

    def named(self, declaration):
        """The declarations that count of one."""
        text = FIELD.sub(r"\1", declaration.text)
        for word in set(TOKEN.findall(text)):
            found, head = None, word.split(".", 1)[0]
            if head and head not in declaration.bound:
                found = self.find(declaration.file, word.rstrip("."))
            elif word in declaration.bound:
                found = self.find(declaration.file, word)
                found = found if found and found.name != word and found.definition else None
            if found:
                yield found

    def rests_on(self, roots=None, pinned=()):
        """What some statements, else all of `claims`, rest on, each with what named it. What is pinned is reached, and the search ends there."""
        reached = dict.fromkeys(roots or [*self.claims.names.values(), *self.contracts.names.values()])
        queue = list(reached)
        while queue:
            one = queue.pop()
            for other in self.named(one):
                if other not in reached and (other.definition or isinstance(other, Contract)):
                    reached[other] = one
                    if other not in pinned:
                        queue.append(other)
        return reached

    def believed(self):
        """The modules of each crate with a definition that `claims` rests on, and one of these definitions with what named it."""
        found = {}
        for one, by in self.rests_on().items():
            crate, module = one.file.place
            if one.definition and crate != "claims":
                found.setdefault(crate, {})[module] = f"{one.name}, named by {by.name}"
        return found

    def cited(self):
        """The lemmas by which `claims` closes its promises."""
        found = (self.find(self.claims, word.rstrip(".")) for word in set(TOKEN.findall(self.claims.text)) if word[0] != ".")
        return {one for one in found if one and not one.definition and one.file.place[0] != "claims"}

    def promises(self):
        """The names of the promises: fields of the records of `claims`, and what it states alone."""
        fields = (INNER.findall(one.text) for one in self.claims.names.values() if one.definition and one.text.lstrip().startswith("pub record"))
        alone = (one.name for one in self.claims.names.values() if not one.definition)
        return {name for names in fields for name in names} | set(alone)

    def promise(self, name):
        """The statement of a promise: a field of a record of `claims`, or what it states alone."""
        for one in self.claims.names.values():
            field = re.search(r"^  pub %s :\s(.*?)(?=^  pub |\Z)" % re.escape(name), one.text, re.DOTALL | re.MULTILINE)
            if field and one.definition:
                said = Declaration(self.claims, name, False, field.group(1))
                said.bound = bound(field.group(1))
                return said
        return self.claims.names[name]

    def by_demand(self):
        """The promises of each demand and of each request of customers, from the table of theorems; `after` is what came after them."""
        text = (self.root / "docs" / "ARCHITECTURE.md").read_text(encoding="utf-8").split("| promise |")[1].split("\n\n")[0]
        found = {}
        for line in text.splitlines()[2:]:
            of, _, promises, _ = line.strip("| ").split(" | ")
            found.setdefault(of, set()).update(re.findall(r"`(\S+?)`", promises))
        return found

    def pins(self):
        """The definitions that a promise determines, from the table of docs/ARCHITECTURE.md: each with the promises that do."""
        text = (self.root / "docs" / "ARCHITECTURE.md").read_text(encoding="utf-8").split("| determined |")[1].split("\n\n")[0]
        found = {}
        for line in text.splitlines()[2:]:
            names, promises, _ = line.strip("| ").split(" | ")
            for crate, module, name in re.findall(r"`(\w+)/(\w+)\.(\S+?)`", names):
                found[self.module(crate, [module]).names[name]] = re.findall(r"`(\S+?)`", promises)
        return found

    def counts(self):
        """By demand, and of all: how many definitions and lines are to be believed; and how many more if nothing that is determined is left unread."""
        pinned = self.pins()
        roots = {OF.get(of, of): [self.promise(name) for name in names] for of, names in self.by_demand().items()}
        for of, some in [*roots.items(), ("all together, each once", None)]:
            whole, ending = ({one for one in self.rests_on(some, stop) if one.definition and one.file.place[0] != "claims"} for stop in ((), pinned))
            needed = ending - set(pinned)
            yield of, *size(needed), *size(whole - needed)

    def maps(self):
        """For each crate the heading that each module stands under."""
        return {path.parts[-3]: headed(path.read_text(encoding="utf-8")) for path in self.root.glob("crates/*/specs/Lib.antt")}

    def in_contracts(self):
        """The modules that a contract of any function brings in."""
        found = set()
        for path in self.root.glob("crates/*/src/**/*.rt"):
            for crate, module in re.findall(r"ghost use Rattle\.(\w+)\.specs\.(\w+)", path.read_text(encoding="utf-8")):
                found.add((crate, module))
        return found

    def faults(self):
        """Where a map says otherwise than what is reached, in words."""
        believed, theorems, in_contracts = self.believed(), {one.file.place for one in self.cited()}, self.in_contracts()
        for crate, modules in sorted(self.maps().items()):
            files = {path.stem for path in (self.root / "crates" / crate / "specs").glob("*.antt")} - {"Lib"}
            for module in files ^ set(modules):
                yield f"{crate}: {module} has a line or a file, and not both"
            for module, heading in modules.items():
                if crate == "claims":
                    continue
                reached = believed.get(crate, {}).get(module)
                if heading is None:
                    yield f"{crate}: {module} stands under no heading"
                elif reached and heading not in (BELIEVED, TYPES):
                    yield f"{crate}: {module} stands under '{heading}', and claims rests on it: {reached}"
                elif not reached and heading == BELIEVED:
                    yield f"{crate}: {module} stands under '{BELIEVED}', and claims rests on none of its definitions"
                elif not reached and heading == TYPES and (crate, module) not in in_contracts:
                    yield f"{crate}: {module} stands under '{TYPES}', and no contract names it"
                elif heading in (THEOREMS, LAWS) and ((crate, module) in theorems) != (heading == THEOREMS):
                    yield f"{crate}: {module} stands under '{heading}'"
                elif heading in (BELIEVED, TYPES):
                    lemmas = [one.name for one in self.module(crate, [module]).names.values() if not one.definition]
                    if lemmas:
                        yield f"{crate}: {module} stands under '{heading}' and has the lemma {lemmas[0]}"


def size(definitions):
    return len(definitions), sum(one.lines for one in definitions)


def headed(text):
    heading, found = None, {}
    for line in text.splitlines():
        if line.startswith("-- ") and line[3:].rstrip(":") in HEADINGS:
            heading = line[3:].rstrip(":")
        elif line.startswith("pub mod "):
            found[line.split()[-1]] = heading
    return found


def line(row):
    """A row of counts as docs/ARCHITECTURE.md has it."""
    return "| " + " | ".join(f"{cell:,}" if isinstance(cell, int) else cell for cell in row) + " |"


if __name__ == "__main__":
    print("\n".join(map(line, Repository(Path(__file__).resolve().parents[2]).counts())))
