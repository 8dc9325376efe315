#!/usr/bin/env python3
"""Brings the crates' own definitions and lemmas to snake case, as this Rattle spells them: gcdOf and gcd-comm become gcd_of and gcd_comm.

usage: snake_names.py [--check] [FOLDER]

FOLDER is the repository's top, by default the current folder. Run it once, right after the kit's port.py. It writes the .antt and .rt files below
crates/. Names that a file takes from another library, generated names in proof folders, types, modules, functions of src/ and strings stay. In
comments a name is respelled where it is spelled as in code. Names that would fall together in one file are printed, and --check writes nothing.
"""
import glob
import os
import re
import sys

NAME = r"[^\s(){}\[\],;.λ`\"|:=]+"
TOKEN = re.compile(NAME)
DECLARED = re.compile(r"^ *(?:(?:pub|abbrev|unfoldable|private|opaque|let|module _) )*\(?(" + NAME + r") :(?: |$)")
USE = re.compile(r"^(?:pub |ghost )*use ([^\s{;]+?)(?:\.\{([^}]*)\}|;|$| as )", re.M)
# Names of the older library that words of our own were made of, and words for which the plain rule would not do.
WORDS = {
    "getD": "get_or",
    "Written-out": "WrittenOut",
    "next-frame": "next_frame_call",
    "draft-of": "is_draft_of",
    # types
    "numberIs": "NumberIs",
    "lengthIs": "LengthIs",
    "bufferIs": "BufferIs",
    "triesAre": "TriesAre",
}
# Lemmas that port.py gave the name that a definition gets here.
EARLIER = {os.path.join("flight_in_c", "specs", "InC.antt"): {"sent_back": "sent_back_lem", "all_seen": "all_seen_lem"}}
# Lemmas with a dash that would have the name of a definition: they end in _lem. main() fills it.
LEMMAS = set()


def snake(name):
    if name in WORDS:
        return WORDS[name]
    if name in LEMMAS:
        return name.lower().replace("-", "_") + "_lem"
    n = name.replace("getD", "get_or")
    if re.match(r"P\d+(?:-|$)", n):
        n = "p" + n[1:]
    if re.match(r"[A-Z]", n):
        return n
    n = re.sub(r"(?<=[a-z0-9'])(?=[A-Z])", "_", n)
    return n.lower().replace("-", "_") if re.search(r"[A-Z-]", n) else n


def is_candidate(token):
    if not re.match(r"[A-Za-z]", token) or token[0].isupper() and not re.match(r"P\d+-", token) and token not in WORDS:
        return False
    return bool(re.search(r"[A-Z]|[a-z0-9'₀-₉]-[a-zA-Z0-9]", token)) and snake(token) != token


def split(text, kind):
    """Yields pairs (code, comment or string) of a text, in order."""
    mark = r"--[^\n]*|\"(?:[^\"\\\n]|\\.)*\"" if kind == "antt" else r"//[^\n]*|b?\"(?:[^\"\\]|\\.)*\""
    at = 0
    for m in re.finditer(mark, text):
        if m.group().startswith("--") and m.start() and not re.match(r"[\s(){}\[\],;]", text[m.start() - 1]):
            continue
        yield text[at : m.start()], m.group()
        at = m.end()
    yield text[at:], ""


def files(top):
    for kind in ("antt", "rt"):
        for p in sorted(glob.glob(os.path.join(top, "crates", "*", "**", "*." + kind), recursive=True)):
            if "/out/" not in p:
                yield p, kind


def is_walk(path):
    """A proof folder of a function has names that Rattle makes."""
    return bool(re.search(r"/proofs/.+/[^/]+$", path))


def foreign(text, own):
    """The names that a file takes from libraries that are not this repository's."""
    found = set()
    for m in USE.finditer(text):
        crate = re.match(r"Rattle\.(\w+)\.", m.group(1))
        if not (crate and crate.group(1) in own) or ".declared." in m.group(1) or re.search(r"\.(Goals|Given|Tie|Statement|Met|Reads|Kinds|Lts)", m.group(1)):
            found |= set(re.findall(NAME, (m.group(2) or "").replace(" as ", ",")))
    return found


def declared(text, kind):
    found = set()
    for code, _ in split(text, kind):
        for line in code.splitlines():
            m = DECLARED.match(line)
            if m:
                found.add(m.group(1))
            found |= set(re.findall(r"\blet (" + NAME + r") [:=]", line))
            found |= set(re.findall(r"[({](" + NAME + r") :", line))
            for group in re.findall(r"λ ([^.\n]*)\.", line) + re.findall(r"[({]((?:" + NAME + r" )+" + NAME + r") :", line):
                found |= set(re.findall(NAME, group))
    return found


def fields(text):
    """The names of the fields of a text's records."""
    found, inside = set(), None
    for line in text.splitlines():
        depth = len(line) - len(line.lstrip())
        if inside is not None and line.strip() and depth <= inside:
            inside = None
        if re.match(r" *(?:pub )?(?:abbrev )?record ", line):
            inside = depth
        m = DECLARED.match(line)
        if m and inside is not None and depth > inside:
            found.add(m.group(1))
    return found


def lemmas(texts, own):
    """The names with a dash, of no record's field, that would become another name of the crates' own."""
    words, kept = set(), set()
    for p, (text, kind) in texts.items():
        if kind == "antt" and not is_walk(p):
            words |= {t for code, _ in split(text, kind) for t in TOKEN.findall(code)} - foreign(text, own)
            kept |= fields(text)
    others = {snake(t) for t in words if "-" not in t}
    return {t for t in words if "-" in t and is_candidate(t) and snake(t) in others and t not in kept and t not in WORDS}


def main(argv):
    check = "--check" in argv
    top = ([a for a in argv if not a.startswith("--")] or ["."])[0]
    own = set(os.listdir(os.path.join(top, "crates")))
    texts = {p: (open(p, encoding="utf-8").read(), kind) for p, kind in files(top)}
    LEMMAS.update(lemmas(texts, own))
    shared = set()
    for p, (text, kind) in texts.items():
        if kind == "antt" and not is_walk(p):
            shared |= declared(text, kind) - foreign(text, own)
    shared = {n for n in shared if is_candidate(n)}
    clashes = 0
    for p, (text, kind) in texts.items():
        outside = foreign(text, own)
        local = set()
        if kind == "antt" and not is_walk(p):
            local = {t for code, _ in split(text, kind) for t in TOKEN.findall(code) if is_candidate(t) and t not in outside}
        names = (shared | local) - outside
        used = {t for code, _ in split(text, kind) for t in TOKEN.findall(code)}
        seen = {}
        for t in used:
            seen.setdefault(snake(t) if t in names else t, set()).add(t)
        for new, olds in sorted(seen.items()):
            if len(olds) > 1:
                clashes += 1
                print(f"clash: {os.path.relpath(p, top)}: {' '.join(sorted(olds))}")
        out = []
        earlier = EARLIER.get(os.path.relpath(p, os.path.join(top, "crates")), {})
        for code, rest in split(text, kind):
            code = TOKEN.sub(lambda m: earlier.get(m.group(), m.group()), code)
            out.append(TOKEN.sub(lambda m: snake(m.group()) if m.group() in names else m.group(), code))
            if rest.startswith(("--", "//")):
                spoken = {t for t in names if t in used or re.search("[A-Z]", t)} - {"next-frame"}
                rest = re.sub(r'"[^"]*"|' + NAME, lambda m: snake(m.group()) if m.group() in spoken or m.group() in shared and m.string[m.start() - 1] == "`" else m.group(), rest)
            out.append(rest)
        new = "".join(out)
        if new != text and not check:
            with open(p, "w", encoding="utf-8") as f:
                f.write(new)
    print(f"clashes: {clashes}")
    return 0


if __name__ == "__main__":
    raise SystemExit(main(sys.argv[1:]))
