#!/usr/bin/env python3
"""Spells the repository's own definitions and lemmas as Rattle's library does: words in snake case, types in camel case.

usage: python3 tools/port_names.py [--list]      at the top of the repository, once, after the kit's port.py; --list only prints the table

A name is the repository's own where an .antt file of crates/ declares it. `countedAt` becomes `counted_at`, `sums-append` becomes
`sums_append`, and a statement `Position-value`, which is a type, becomes `PositionValue`. A lemma that begins with a type keeps its
capital and its dash (`Blocks-fill`). Names that Rattle makes, names of src/ and exported names are left alone, and so are the answers
of proofs/F/Proof.antt, which are named after goals.
"""
import os
import re
import sys

END = r"\s(){}\[\],;:=.λ\"@→×⊎∷∙↦|?`'⌜⌝"
TOKEN = re.compile(f"[^{END}][^{END}]*'*")
DECLARED = re.compile(r"^( *)(?:(abbrev|unfoldable) +)?(?:pub +)?(?:(data|record) +)?([^\s(){}\[\],;.:=]+)(?: +[({][^\n]*?[)}])* *:(?: +(.*))?$", re.M)
OWN = {"getD": "get_or"}
# Where the plain spelling is another's already.
CHOSEN = {
    "all_digits": "all_digits_lem",
    "first_past": "first_past_lem",
    "first_above": "first_above_lem",
    "takeAll": "take_each",
    "takeAllBy": "take_each_by",
    "burst-events": "events_in_bursts",
    "burst-packets": "packets_in_bursts",
}


def files(*ends):
    for folder, dirs, names in os.walk("crates"):
        dirs[:] = sorted(d for d in dirs if d != "out")
        for name in sorted(names):
            if name.endswith(ends):
                yield os.path.join(folder, name)


def read(path):
    with open(path, encoding="utf-8") as f:
        return f.read()


def is_type(text, at):
    """Whether the declaration whose type begins at `at` has a type as its value: its signature ends in Type."""
    lines = text[at:].split("\n")
    sign = [lines[0]]
    for line in lines[1:]:
        if not line.startswith("    "):
            break
        sign.append(line)
    last = re.split("→", " ".join(sign))[-1]
    return bool(re.match(r"\s*Type\b", last))


def snake(name):
    parts = []
    for part in name.split("-"):
        for old, new in OWN.items():
            part = re.sub(rf"^{old}\b", new, part)
        parts.append(re.sub(r"(?<=[a-z0-9])([A-Z])", lambda m: "_" + m[1], part).lower() if part[:1].islower() or len(parts) else part)
    return "_".join(parts)


def camel(name):
    return "".join(p[:1].upper() + p[1:] for p in name.split("-"))


def declared():
    """Each own name that is spelled otherwise, with what it becomes."""
    table, plain = {}, set()
    for path in files(".antt"):
        text = read(path)
        for m in DECLARED.finditer(text):
            name, said = m[4], m[5] or ""
            if name.startswith("-") or not re.match(r"[A-Za-z]", name) or "◌" in name:
                continue
            if path.endswith("/Proof.antt") and (re.match(r"\s*(tie|[\w-]+-lts|lts)\.", said) or not said and "tie.Need" in text[m.end():m.end() + 60] or name.endswith("-spec") or name.endswith("_spec")):
                continue
            if not re.search(r"[A-Z-]", name[1:]) or name[0].isupper() and "-" not in name:
                if "/Proof.antt" not in path:
                    plain.add(name)
                continue
            if name[0].isupper():
                if "-" in name and (m[3] or is_type(text, m.start(5) if m[5] else m.end())):
                    table[name] = camel(name)
                continue
            new = snake(name)
            if new != name:
                table[name] = new
    # A lemma that would have its definition's name gets `_lem`.
    words = {n for n in plain} | {new for n, new in table.items() if "-" not in n}
    for n, new in table.items():
        if "-" in n and new in words:
            table[n] = new + ("_lem" if n[0].islower() else "Law")
    table.update(CHOSEN)
    return table


def library():
    """Names that some file brings in from a library."""
    found = {}
    for path in files(".antt", ".rt"):
        for m in re.finditer(r"^(?:ghost )?use ([\w+·'-]+(?:\.[\w+·'-]+)*)\.\{([^}]*)\}", read(path), re.M):
            own = m[1].split(".")
            if own[0] == "Rattle" and os.path.isdir(os.path.join("crates", own[1])):
                continue
            for name in m[2].split(","):
                found.setdefault(name.strip().split(" as ")[0], []).append(path)
    return found


def turn(text, table, code_only):
    """The text with each whole token of the table respelled; in a comment only what stands in backticks or can be no plain word."""
    out = []
    for line in text.split("\n"):
        cut = re.search(r"(?:^|\s)(--|//)(?:\s|$)", line)
        head, tail = (line[: cut.start(1)], line[cut.start(1):]) if cut else (line, "")
        head = TOKEN.sub(lambda m: table.get(m[0], m[0]), head)
        plain = lambda m: table.get(m[0], m[0]) if re.search(r"[A-Z]", m[0]) and m[0] in table else m[0]
        tail = re.sub(r"`([^`]*)`", lambda m: "`" + TOKEN.sub(lambda k: table.get(k[0], k[0]), m[1]) + "`", tail)
        tail = TOKEN.sub(plain, tail)
        out.append(head + tail)
    return "\n".join(out)


def main(argv):
    table = declared()
    lib = library()
    both = sorted(n for n in table if n in lib)
    for n in both:
        print(f"also a library's, and left: {n} ({lib[n][0]})")
        del table[n]
    if "--list" in argv:
        for n in sorted(table):
            print(n, table[n])
    seen = {}
    for n, new in table.items():
        seen.setdefault(new, []).append(n)
    for new, olds in sorted(seen.items()):
        if len(olds) > 1:
            print("fall together:", new, olds)
    changed = 0
    for path in files(".antt", ".rt", ".edit"):
        text = read(path)
        tokens = set(TOKEN.findall(re.sub(r"(?m)(?:^|\s)(--|//)\s.*$", "", text)))
        for n in sorted(tokens & table.keys()):
            if table[n] in tokens:
                print(f"meets another of its name: {path}: {n} -> {table[n]}")
        new = turn(text, table, True)
        if new != text:
            changed += 1
            if "--list" not in argv:
                with open(path, "w", encoding="utf-8") as f:
                    f.write(new)
    print(f"{len(table)} names, {changed} files")


if __name__ == "__main__":
    main(sys.argv[1:])
