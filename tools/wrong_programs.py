#!/usr/bin/env python3
"""Holds docs/PROMISES.md to the must-fail edits: the page names every edit, and nothing that is no edit. Holds each edit to the
source: every text that it replaces stands there once, so that a stale edit is told before anything is proved.

Run in the repository's root. Prints one line for each difference; exit status 1 where there is one. How a name on
the page belongs to a crate is said in the page's first paragraph.
`--try` runs it on a small page and source with right and wrong edits instead, and fails unless it tells which are wrong.
"""
import pathlib
import re
import sys


def names(page):
    """Each name that the page gives to a wrong program, with the crates that may hold its edit."""
    heading = set()
    for paragraph in re.split(r"\n\s*\n|\n(?=##)", page):
        if paragraph.startswith("##"):
            heading = set(re.findall(r"\b(\w+)::", paragraph.splitlines()[0]))
        for sentence in re.split(r"(?<=\.)\s+", paragraph.strip()):
            for name in re.findall(r"`([^`]*)`", sentence) if re.match(r"Shut\s+out", sentence) else ():
                crate, slash, rest = name.partition("/")
                yield (rest, {crate}) if slash else (name, heading)


def differences(page, edits):
    """What page and edits, the latter pairs of a crate and a name, do not have in common."""
    told, unnamed = [], set(edits)
    for name, crates in names(page):
        meant = {(crate, name) for crate in crates} & edits
        unnamed -= meant
        if not meant:
            others = [crate for crate, other in sorted(edits) if other == name]
            told.append(f"{name}: no edit of {' or '.join(sorted(crates)) or 'any crate'}"
                        + (f", but of {' and '.join(others)}" if others else ""))
    return told + [f"crates/{crate}/must-fail/{name}.edit: not named" for crate, name in sorted(unnamed)]


def stale(edit, read):
    """The texts of an edit that do not stand once in their file, of which read gives the text; pairs are applied in turn."""
    told, texts, file, old = [], {}, None, None
    for line in edit.splitlines():
        kind, _, rest = line.partition(": ") if ": " in line else line.partition(":")
        if kind == "file":
            file = rest
            texts.setdefault(file, read(file))
        elif kind == "old":
            old = rest
            if texts[file].count(old) != 1:
                told.append(f"{texts[file].count(old)} times in {file}: {old.strip()}")
        elif kind == "new":
            texts[file] = texts[file].replace(old, rest)
    return told


def try_out():
    """Whether a small page and source are clean with their edits, and not with one more, one less, one in another crate, or one whose
    text is not there or is there twice."""
    edits = {("a", "one"), ("b", "two"), ("c", "three")}
    page = "## a::f, g\n\nOf `x`. Shut\nout: this (`one`); that (`b/two`). Law `y`.\n\n## c::h\n\nShut out: so (`three`).\n"
    source = "let a = 1;\nlet b = 1;\n"
    exchange = "file: f\nold: a = 1\nnew: HERE = 1\nold: b = 1\nnew: a = 1\nold: HERE\nnew: b\n"
    return (stale(exchange, {"f": source}.get) == []
            and stale("file: f\nold: = 1\nnew: = 2\n", {"f": source}.get) == ["2 times in f: = 1"]
            and stale("file: f\nold: a = 2\nnew: a = 3\n", {"f": source}.get) == ["0 times in f: a = 2"]
            and differences(page, edits) == []
            and differences(page, edits | {("a", "four")}) == ["crates/a/must-fail/four.edit: not named"]
            and differences(page, edits - {("a", "one")}) == ["one: no edit of a"]
            and differences(page, edits - {("b", "two")} | {("a", "two")})
            == ["two: no edit of b, but of a", "crates/a/must-fail/two.edit: not named"])


if sys.argv[1:] == ["--try"]:
    sys.exit(None if try_out() else "wrong_programs.py: the small page came out wrong")
paths = sorted(pathlib.Path("crates").glob("*/must-fail/*.edit"))
lines = differences(pathlib.Path("docs/PROMISES.md").read_text(), {(path.parts[1], path.stem) for path in paths})
for path in paths:
    lines += [f"{path}: {told}" for told in stale(path.read_text(), lambda file: (path.parents[1] / file).read_text())]
print("\n".join(lines) or "every wrong program is named, every name is one, and what each replaces stands once")
sys.exit(bool(lines))
