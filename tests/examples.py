#!/usr/bin/env python3
"""Runs every example that help, README.md and samples/README.md print, and compares what comes with what is printed.

An example is a command line behind `    $ `, with lines that end in a backslash continued, and the indented lines below it
are all that it writes. Help's run in an empty folder, those of the documents in a copy of the samples, whose files have to be
the same afterwards. Run in the repository's root after `make command`.
"""
import os
import pathlib
import re
import shutil
import subprocess
import sys
import tempfile

ROOT = pathlib.Path.cwd()
ENVIRONMENT = {**os.environ, "PATH": f"{ROOT / 'target/bin'}:{os.environ['PATH']}"}
DOCUMENTS = ["README.md", "samples/README.md"]


def shell(line, folder):
    """What a person sees: both outputs in one. Every example has an answer."""
    run = subprocess.run(["bash", "-c", line], cwd=folder, env=ENVIRONMENT, stdout=subprocess.PIPE, stderr=subprocess.STDOUT)
    return run.stdout.decode() + ("" if run.returncode == 0 else f"exit status {run.returncode}\n")


def examples(text):
    """(command line, what it prints), from the indented parts of a text that have a `$`."""
    line = r"    \$ ((?:.*\\\n)*.*)\n"
    printed = r"((?:(?!    \$ )(?:    .*)\n|\n(?=    (?!\$ )))*)"
    return [(command, re.sub(r"^    ", "", out, flags=re.M)) for command, out in re.findall(r"^" + line + printed, text, re.M)]


def compared(where, text, folder):
    """How many examples were run, and what differs."""
    faults = []
    found = examples(text)
    for command, printed in found:
        got = shell(command, folder)
        if got != printed:
            faults.append(f"{where}: $ {command}\nprints\n{got}and not\n{printed}")
    return len(found), faults


def contents(folder):
    return {path.relative_to(folder): path.read_bytes() for path in sorted(folder.rglob("*")) if path.is_file()}


def main():
    count, faults = 0, []
    jobs = shell("nuvaskoe help", ROOT).split("\n\n")[2]
    pages = [""] + re.findall(r"^  (\S+(?: \S+)?)  ", jobs, re.M)
    with tempfile.TemporaryDirectory() as folder:
        for page in pages:
            ran, wrong = compared(f"help {page}", shell(f"nuvaskoe help {page}", ROOT), folder)
            faults += wrong + ([] if ran else [f"help {page} has no example"])
            count += ran
    for document in DOCUMENTS:
        with tempfile.TemporaryDirectory() as folder:
            samples = pathlib.Path(shutil.copytree("samples", pathlib.Path(folder, "samples")))
            ran, wrong = compared(document, pathlib.Path(document).read_text(), folder)
            faults += wrong + ([] if ran else [f"{document} has no example"])
            if contents(samples) != contents(ROOT / "samples"):
                faults.append(f"{document}: an example writes another file than the sample")
            count += ran
    print("\n".join(faults) or f"examples.py: {count} examples print what stands below them")
    return bool(faults)


if __name__ == "__main__":
    sys.exit(main())
