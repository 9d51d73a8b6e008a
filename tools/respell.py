#!/usr/bin/env python3
"""Writes this repository's own definitions, lemmas and locals in snake case, and renames what today's kit refuses.

usage: python3 tools/respell.py [FOLDER]     FOLDER is the top of a checkout (the folder above tools/ by default)

Files are rewritten in place: specs/, proofs/, src/ and must-fail/ of each crate, README.md and docs/.
A hyphen becomes an underscore, a prime an apostrophe. What keeps its hyphens: names of the kit's
libraries, the goals and facts that the check makes of a function, words of comments that are no
names, strings, and file names. On a page, names are what stands between backquotes or is indented.
The word `ground` is a tactic's, so the count of ground places is called `ground_places` (no proof
here uses that tactic); the method `ground` of src/ keeps its name. A word of the kit may not be
imported under another's name, so `AllByRecursion as All` becomes `AllByRecursion`.
A line `look:` names a file where a new spelling stood before, so that two names may have fallen
together: of src/ these are functions, which clauses don't see, and a definition of the same name.
A second run changes nothing.
"""

import os
import re
import sys

NAME = r"[^\W\d][\w'′]*(?:-[\w'′]+)*"
TOKEN = re.compile(NAME)
SIGNATURE = re.compile(r"^\s*(?:(?:abbrev|pub|lemma|opaque)\s+)*((?:" + NAME + r"\s+)*" + NAME + r")\s*:(?=\s|$)")
RECORD = re.compile(r"(?:pub\s+)?record\s")
CLAUSE = re.compile(r"^(" + NAME + r")(?=\s|$)")
USES = re.compile(r"\buse\s+(\w+(?:\.[\w+'′-]+)*?)\.(?:\{([^}]*)\}|(" + NAME + r")\s*(?=;|as\s|$))", re.M)
MODULE = re.compile(r"\buse\s+[\w.+'′-]+(?<!Given)(?<!Goals)\s+as\s+(" + NAME + r")")
STRING = re.compile(r'("(?:[^"\\]|\\.)*")')
COMMENT = {".antt": re.compile(r"(?<!\S)--(?=\s|$)"), ".rt": re.compile(r"//")}
CODE = re.compile(r"(```.*?```|`[^`\n]*`|^ {4}.*$)", re.S | re.M)

# Names that would fall together with another one of the same file, and what they are called now, wherever they stand.
APART = {
    "body-at": "body_index",
}

# The word of a tactic, where it is a name of a clause or a definition, and not a method that is called.
GROUND = {".antt": re.compile(r"(?<![\w'-])ground(?![\w'-])"), ".rt": re.compile(r"(?<=\.)ground(?![\w'(-])")}

ALIAS = re.compile(r"\bAllByRecursion as All\b")
ALL = re.compile(r"(?<![\w'-])All(?![\w'-])")


def own(path, crates):
    return path.startswith("Rattle.") and path.split(".")[1] in crates


def code(line, kind):
    """A line's code and its comment; a string may hold the comment's sign."""
    for m in COMMENT[kind].finditer(line):
        if line[: m.start()].count('"') % 2 == 0:
            return line[: m.start()], line[m.start() :]
    return line, ""


def spelled(name):
    return APART.get(name) or name.replace("-", "_").replace("′", "'")


def is_old(name):
    return "-" in name or "′" in name


def files(top, folder, endings):
    for at, dirs, names in os.walk(os.path.join(top, folder)):
        dirs[:] = sorted(d for d in dirs if d not in ("out", "target", ".git"))
        for name in sorted(names):
            if name.endswith(endings):
                yield os.path.join(at, name)


def read(path):
    with open(path, encoding="utf-8") as f:
        return f.read()


def place(path, top):
    """Where a file of a crate stands: 'spec', 'lemma', 'answer' (in the folder of a function), 'source' or 'edit'."""
    parts = os.path.relpath(path, top).split(os.sep)
    if parts[2] == "proofs":
        return "lemma" if len(parts) == 4 else "answer"
    return {"specs": "spec", "src": "source", "must-fail": "edit"}.get(parts[2])


def imported(text, crates):
    """The names that a file takes from the kit, those that it takes from a function's goals, and those that it gives itself."""
    kit, made, given = set(), set(), set()
    for path, many, one in USES.findall(text):
        parts = [part.split(" as ") for part in (many or one).split(",")]
        names = {w for part in parts for w in TOKEN.findall(part[0])}
        given |= {w for part in parts for w in TOKEN.findall("".join(part[1:])) if is_old(w)}
        if not own(path, crates):
            kit |= names
        elif path.endswith((".Given", ".Goals")):
            made |= names
    return kit, made, given


def declared(top):
    """The names with a hyphen or a prime that specs and lemma files of the repository declare, and which of them are fields."""
    found, fields = set(), set()
    for path in files(top, "crates", ".antt"):
        if place(path, top) in ("spec", "lemma"):
            in_record = False
            for line in read(path).split("\n"):
                said = code(line, ".antt")[0]
                if said[:1].strip():
                    in_record = bool(RECORD.match(said))
                m = SIGNATURE.match(said)
                new = {w for w in TOKEN.findall(m[1]) if is_old(w)} if m else set()
                found |= new
                fields |= new if in_record else set()
    return found, fields


def outside_strings(text, change):
    return "".join(p if i % 2 else change(p) for i, p in enumerate(STRING.split(text)))


def turn(text, wanted):
    """The text with each name for which wanted(name, what stands before it) holds in its new spelling; strings stay."""

    def names(piece):
        def new(m):
            return spelled(m[0]) if is_old(m[0]) and wanted(m[0], piece[: m.start()]) else m[0]

        return TOKEN.sub(new, piece)

    return outside_strings(text, names)


def wanted_in(path, text, top, names, fields, crates):
    """The names of a file that are to be turned, as a test of the name and of what stands before it."""
    where = place(path, top)
    kit, made, given = imported(text, crates)
    modules = tuple(MODULE.findall(text))
    goals = {m[1] for line in text.split("\n") if (m := CLAUSE.match(line))} if where == "answer" else set()

    def wanted(name, before):
        if name in kit or name in made:
            return False
        if before.endswith("."):
            return name in fields or (name in names and (where != "answer" or before[:-1].endswith(modules)))
        if name in names or name in given:
            return True
        return where in ("spec", "lemma") or (where == "answer" and name not in goals)

    return wanted, kit


def respelled(path, text, top, names, fields, crates):
    wanted, kit = wanted_in(path, text, top, names, fields, crates)
    if place(path, top) == "edit":
        return "\n".join(line if line.startswith("file:") else turn(line, wanted) for line in text.split("\n"))
    kind = ".antt" if path.endswith(".antt") else ".rt"
    renamed = ALIAS.search(text)
    out = []
    for line in ALIAS.sub("AllByRecursion", text).split("\n"):
        said, comment = code(line, kind)
        said = outside_strings(said, lambda piece: GROUND[kind].sub("ground_places", piece))
        if renamed:
            said = outside_strings(said, lambda piece: ALL.sub("AllByRecursion", piece))
        out.append(turn(said, wanted) + turn(comment, lambda name, before: name in names and name not in kit))
    return "\n".join(out)


def bare(text):
    """The names of a text that stand by themselves, and not in a path, in their order."""
    return [m[0] for m in TOKEN.finditer(text) if not text[: m.start()].endswith(".") and text[m.end() : m.end() + 1] != "."]


def together(text, new):
    """The names of the text before that another name of it has now, too."""
    stood = set(bare(text)) - {"AllByRecursion"}
    return sorted({n for o, n in zip(bare(text), bare(new)) if o != n and n in stood})


def page(text, names):
    pieces = CODE.split(text)
    return "".join(turn(p, lambda name, before: name in names) if i % 2 else p for i, p in enumerate(pieces))


def main():
    top = os.path.abspath(sys.argv[1] if len(sys.argv) > 1 else os.path.join(os.path.dirname(__file__), ".."))
    crates = set(os.listdir(os.path.join(top, "crates")))
    names, fields = declared(top)
    changed = 0
    code_files = files(top, "crates", (".antt", ".rt", ".edit"))
    pages = [*files(top, "docs", ".md"), os.path.join(top, "README.md")]
    for path in [*code_files, *pages]:
        text = read(path)
        if path.endswith(".md"):
            new = page(text, names)
        elif place(path, top):
            new = respelled(path, text, top, names, fields, crates)
            for name in together(ALIAS.sub("AllByRecursion", text), new):
                print(f"look: {os.path.relpath(path, top)}: {name} stood here before")
        else:
            continue
        if new != text:
            with open(path, "w", encoding="utf-8") as f:
                f.write(new)
            changed += 1
    print(f"respell: {len(names)} names, {changed} files")


if __name__ == "__main__":
    main()
