"""Counts, in crates/*/src of a commit or of the tree, the forms that docs/DESIGN-PASS.md speaks of.

    python3 tools/old_forms.py [COMMIT] [--places]

A line for each count; with --places each place below it. nuvaskoe_c, which tools/boundary.py makes, is left out.
"""
import collections
import itertools
import re
import subprocess
import sys

FUNCTION = re.compile(
    r'(?ms)^( *)(?:pub )?(?:extern "C" )?fn (\w+)(?:<[^>]*>)?\((.*?)\)(?: -> ([^\n{]+?))?\n?((?:\s+(?:requires|ensures)[^\n]*\n)*)\s*\{\n(.*?)^\1\}')


def sources(commit):
    """(crate, path, text) of each file."""
    listed = ["git", "ls-tree", "-r", "--name-only", commit, "crates"] if commit else ["git", "ls-files", "crates"]
    for path in subprocess.run(listed, capture_output=True, text=True, check=True).stdout.split():
        if re.match(r"crates/\w+/src/.*\.rt$", path) and "nuvaskoe_c" not in path:
            shown = subprocess.run(["git", "show", f"{commit}:{path}"], capture_output=True, text=True, check=True).stdout if commit else open(path).read()
            yield path.split("/")[1], path, shown


def lines(files, pattern):
    for _, path, text in files:
        for number, line in enumerate(text.splitlines(), 1):
            if re.search(pattern, line):
                yield f"{path}:{number}: {line.strip()}"


def shaped(files):
    """Enums of the shape of Option or Result: two variants, one of them `Refused(Refusal)` or without a value beside one with."""
    for crate, _, text in files:
        for name, body in re.findall(r"(?m)^(?:pub )?enum (\w+) \{\n((?:    .*\n)+)\}", text):
            variants = re.findall(r"(?m)^    (\w+)(\(.*\))?", body)
            if any(v == ("Refused", "(Refusal)") for v in variants) or len(variants) == 2 and any(v[1] for v in variants):
                yield f"{crate}::{name}"


def functions(files):
    for crate, _, text in files:
        for _, name, params, _, clauses, body in FUNCTION.findall(text):
            yield crate, name, tuple(re.findall(r"(\w+): ", params)), clauses, body


def same_bodies(files):
    """Functions whose bodies differ in numbers at most."""
    found = collections.defaultdict(list)
    for crate, name, _, _, body in functions(files):
        if not crate.startswith("ffi_"):
            found[re.sub(r"\b\d[\d_]*\b", "N", re.sub(r"\s+", " ", re.sub(r"//.*", "", body)))].append(f"{crate}::{name}")
    yield from (", ".join(names) for names in found.values() if len(names) > 1)


def facts(files):
    """Parts of `requires` clauses that stand in three functions or more."""
    found = collections.defaultdict(set)
    for crate, name, _, clauses, _ in functions(files):
        for clause in re.findall(r"requires(?: \w+)? \{ (.*) \}", clauses):
            for part in clause.split(" × "):
                found[part.strip("() ")].add(f"{crate}::{name}")
    yield from (f"{fact}: {', '.join(sorted(names))}" for fact, names in found.items() if len(names) >= 3)


def together(files):
    """Groups of three parameters or more that stand together in three functions or more of a crate, no group within a larger one."""
    by_crate = collections.defaultdict(list)
    for crate, name, params, _, _ in functions(files):
        by_crate[crate].append((name, frozenset(params)))
    for crate, all_params in by_crate.items():
        groups = {a & b for (_, a), (_, b) in itertools.combinations(all_params, 2) if len(a & b) >= 3}
        groups = {g for g in groups if sum(g <= p for _, p in all_params) >= 3}
        for group in sorted((g for g in groups if not any(g < h for h in groups)), key=sorted):
            names = sorted({name for name, params in all_params if group <= params})
            yield f"{crate} ({', '.join(sorted(group))}): {', '.join(names)}"


def main():
    words = [word for word in sys.argv[1:] if word != "--places"]
    files = list(sources(words[0] if words else None))
    for title, places in [
        ("1 enums of the shape of Option or Result", shaped(files)),
        ("1 constants that number a refusal, a reason or a kind of difference",
         lines(files, r"^    number: \d+,|const (BAD_\w+|UNMEASURED): u8|^pub const (SENDER|FIELD|BLOCK|ONLY_\w+): u32")),
        ("1 answers of another kind handed on arm by arm", lines(files, r"(Refused|Err)\((\w+)\) => (\w+::)?(Refused|Err)\(\2\)")),
        ("2 functions with one body but for numbers", same_bodies(files)),
        ("3 loops by `while`", lines(files, r"^ *('\w+: )?while ")),
        ("4 conversions by a function named _in or _out", lines(files, r"fn \w+_(in|out)\(\w+: [A-Z]\w+(<.*>)?\) ->|fn event_(in|number)\(")),
        ("5 facts in three contracts or more", facts(files)),
        ("5 parameters that travel together", together(files)),
        ("7 switches on which loop to run", lines(files, r"Event::\w+ => fill\(")),
    ]:
        places = list(places)
        print(f"{title}: {len(places)}")
        if "--places" in sys.argv:
            print("".join(f"    {place}\n" for place in places), end="")


main()
