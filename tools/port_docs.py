#!/usr/bin/env python3
"""Spells the names of definitions and lemmas in README.md, CONTRIBUTING.md and docs/*.md as the port spelled them in crates/.

usage: python3 tools/port_docs.py          respells them
       python3 tools/port_docs.py --check  prints each name in backticks that no file of the repository has, and writes nothing

The table is read off the two commits that docs/PORT.md begins with: the declarations of each .antt file before and after, in their
order. Only what stands in backticks is respelled. docs/PORT.md and docs/landings are history, and keep the old names.
"""
import difflib
import pathlib
import re
import subprocess
import sys

NAME = re.compile(r"^ *(?:(?:abbrev|unfoldable|pub) +)*(?:(?:data|record) +)?«?([A-Za-z_][^\s(){}\[\],;:=«»]*)»?"
                  r"(?: +[({][^\n]*?[)}])*(?: *:(?: |$)| +where$)", re.M)
PAGES = ["README.md", "CONTRIBUTING.md", *(str(path) for path in sorted(pathlib.Path("docs").glob("*.md")) if path.name != "PORT.md")]
TOKEN = r"(?<![\w'′-])[A-Za-z][\w'′-]*"


def text_at(commit, path):
    return subprocess.run(["git", "show", f"{commit}:{path}"], capture_output=True, text=True, check=True).stdout


def files(commit):
    run = subprocess.run(["git", "ls-tree", "-r", "--name-only", commit, "crates"], capture_output=True, text=True, check=True)
    return {path for path in run.stdout.split("\n") if path.endswith(".antt")}


def plain(name):
    return re.sub(r"[-_]", "", name).lower().replace("′", "'")


def table():
    old, new = pathlib.Path("docs/PORT.md").read_text().split("\n")[:2]
    found = {}
    for path in sorted(files(old) & files(new)):
        before, after = (NAME.findall(text_at(commit, path)) for commit in (old, new))
        matched = difflib.SequenceMatcher(None, [plain(name) for name in before], [plain(name) for name in after], False)
        for _, i, k, m, n in matched.get_opcodes():
            for one, other in zip(before[i:k], after[m:n]) if k - i == n - m else ():
                if found.setdefault(one, other) != other:
                    raise SystemExit(f"{one} is {found[one]} and {other}")
    return {one: other for one, other in found.items() if one != other}


def spelled(text, names):
    def token(match):
        return names.get(match[0], match[0])
    return re.sub(r"`[^`\n]*`", lambda match: re.sub(TOKEN, token, match[0]), text)


def unknown():
    """Each word in backticks that looks like a name of the crates, and stands nowhere in the repository but on the pages."""
    run = subprocess.run(["git", "ls-files"], capture_output=True, text=True, check=True)
    rest = [path for path in run.stdout.split("\n") if path and not path.startswith("docs/") and path not in PAGES and pathlib.Path(path).is_file()]
    words = set()
    for path in rest:
        words.update(re.findall(TOKEN, pathlib.Path(path).read_text(errors="replace")), re.findall(r"[\w-]+", path))
    for page in PAGES:
        for span in re.findall(r"`([^`\n]*)`", pathlib.Path(page).read_text()):
            for name in re.findall(TOKEN, span):
                if name not in words:
                    print(f"{page}: {name}, in `{span}`")


if sys.argv[1:] == ["--check"]:
    unknown()
else:
    names = table()
    for page in PAGES:
        path = pathlib.Path(page)
        path.write_text(spelled(path.read_text(), names))
