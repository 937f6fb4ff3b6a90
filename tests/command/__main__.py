"""Runs target/bin/nuvaskoe on files as a person would: each job on good and bad input, each exit status.

What it answers is compared with the papers computed a second time (document01.py and document02.py), its lines with the program
`listing`, and its JSON is read by python's parser. Run as `python3 tests/command` in the repository's root after `make command`
and tools/programs.sh. Prints one line; exit status 1 with the first thing that is wrong.
"""
import pathlib
import re
import sys
import tempfile

sys.dont_write_bytecode = True  # a run leaves no files in the tree
sys.path.append(str(pathlib.Path(__file__).resolve().parent.parent))
import cards
import counts
import dials
import packed
import packets
import pairs
import runs
import traces
import usage
from run import Run

# Every function of these that is named so.
MODULES = (traces, counts, cards, packets, pairs, dials, runs, packed, usage)
CHECKS = [check for module in MODULES for name, check in vars(module).items() if name.startswith("check_")]
# The names of JSON that are none of the header's: what was read, lists of answers, and what has no name in C.
OWN_NAMES = {"file", "form", "list", "cards", "explained", "count", "lost", "discarded", "either", "marked", "offset", "kind",
             "meaning", "advice", "files", "error", "field", "name", "first_block", "second_block"}


def main():
    for check in CHECKS:
        with tempfile.TemporaryDirectory() as folder:
            check(pathlib.Path(folder))
    header = re.sub(r"/\*.*?\*/|\"[^\"]*\"", "", pathlib.Path("include/nuvaskoe.h").read_text(), flags=re.S)
    names = set(re.findall(r"\w+", header))
    assert Run.names - names == OWN_NAMES, Run.names - names ^ OWN_NAMES
    drawn = dials.renderer()
    shown = f"drawings rendered by {drawn}" if drawn else "no program to render drawings"
    print(f"command: {Run.count} runs of the command went as they should; {shown}")


if __name__ == "__main__":
    main()
