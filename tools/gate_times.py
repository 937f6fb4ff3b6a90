#!/usr/bin/env python3
"""Where the gate's time goes: its parts, and when `rt ci` came to each crate, as tables.

    rt ci | tools/gate_times.py --stamp LOG     passes on what `rt ci` prints, and writes it to LOG behind the second of each line
    tools/gate_times.py LOG PARTS               LOG is such a file, which .ci/run leaves in target/gate.log; PARTS has a line for
                                                each part of the gate: the second in which it began, and its name

`rt ci` proves several crates at a time and prints no times, so a crate's proof took at most the seconds since the last crate below it.
Its edits are tried where processors are free, so they have no time of their own here.
"""
import collections
import re
import sys
import time


def stamp(path):
    began = time.monotonic()
    with open(path, "w", encoding="utf-8") as log:
        for line in sys.stdin.buffer:
            text = line.decode(errors="replace")
            log.write(f"{time.monotonic() - began:.0f}\t{text}")
            log.flush()
            sys.stdout.write(text)
            sys.stdout.flush()


def parts(path):
    rows = [line.split(" ", 1) for line in open(path, encoding="utf-8").read().splitlines()]
    print("| Part of the gate | s |\n|---|---|")
    for (began, name), (ended, _) in zip(rows, rows[1:]):
        print(f"| {name} | {int(ended) - int(began)} |")
    print(f"| all | {int(rows[-1][0]) - int(rows[0][0])} |")


def crates(path):
    listed = [line.partition("#")[0].partition(":") for line in open("crates.txt", encoding="utf-8")]
    below = {name.split()[0]: deps.split() for name, _, deps in listed if name.strip()}
    log = open(path, encoding="utf-8").read()
    proved = {name: int(s) for s, name in re.findall(r"^(\d+)\trt: (\w+) proved$", log, re.M)}
    kept = re.findall(r"^\d+\trt: (\w+) is kept: ", log, re.M)
    edits = collections.Counter(re.findall(r"^\d+\trt: must-fail (\w+)/\S+: refused", log, re.M))
    most = {name: s - max([proved.get(dep, 0) for dep in below.get(name, [])], default=0) for name, s in proved.items()}
    print("| Crate | Proved after, s | Proof at most, s | Edits refused |\n|---|---|---|---|")
    for name in sorted(proved, key=lambda name: -most[name]):
        print(f"| {name} | {proved[name]} | {most[name]} | {edits[name]} |")
    if kept:
        print(f"| {len(kept)} kept from earlier runs | | | {sum(edits[name] for name in kept)} |")
    print(f"| all | {max(proved.values(), default=0)} | | {sum(edits.values())} |")


if sys.argv[1] == "--stamp":
    stamp(sys.argv[2])
else:
    crates(sys.argv[1])
    print()
    parts(sys.argv[2])
