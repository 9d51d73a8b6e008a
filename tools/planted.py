#!/usr/bin/env python3
"""Writes the section "The code" of docs/PLANTED.md anew from what the gate printed: `tools/planted.py < LOG` at the top.

A row for each edit: the file, what is planted, and the first goal that fails, by the prover's name for it."""
import pathlib
import re
import sys

PAGE = pathlib.Path("docs/PLANTED.md")
TRIED = re.compile(r"rt: must-fail (\w+)/(\w+)\.edit: refused[^:]*: (.*)")
GOALS = (re.compile(r"\(`([^`]+)`"), re.compile(r"`([\w-]+)`"))


def first_goal(said):
    """The goal in parentheses, or else the first name in the message."""
    for goal in GOALS:
        found = goal.search(said)
        if found:
            return found.group(1)
    sys.exit(f"no goal in: {said}")


def planted(path):
    """The file that an edit changes, and its pairs of texts."""
    lines = path.read_text().splitlines()
    of = {word: [line.split(":", 1)[1].strip() for line in lines if line.startswith(word + ":")] for word in ("file", "old", "new")}
    return of["file"][0], list(zip(of["old"], of["new"]))


def cell(text):
    return "`" + text.replace("|", "\\|") + "`" if text else "nothing"


def row(crate, name, goal):
    file, pairs = planted(pathlib.Path("crates", crate, "must-fail", name + ".edit"))
    changes = "; ".join(f"{cell(old)} → {cell(new)}" for old, new in pairs)
    return f"| {file.removeprefix('src/')} | {changes} | `{goal}` |"


def main():
    tried = {}
    for line in sys.stdin:
        found = TRIED.match(line)
        if found:
            tried.setdefault(found.group(1), {})[found.group(2)] = first_goal(found.group(3))
    text = []
    for crate in (line.split(":")[0] for line in pathlib.Path("crates.txt").read_text().splitlines()):
        goals = tried.get(crate)
        if goals:
            rows = [row(crate, name, goals[name]) for name in sorted(goals)]
            text += [f"### `{crate}`: {len(goals)}", "", "| File | Planted | First goal that fails |", "|---|---|---|", *rows, ""]
    page = PAGE.read_text()
    head = page.index("### `model`: ")
    PAGE.write_text(page[:head] + "\n".join(text).rstrip("\n") + "\n")
    print(sum(map(len, tried.values())), "edits")


main()
