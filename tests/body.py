#!/usr/bin/env python3
"""Runs target/bin/body on packets and arguments and compares what it writes with the body computed here from document 01.

Run in the repository's root after tools/programs.sh. Prints one line; exit status 1 where an output differs.
"""
import struct
import subprocess
import sys

USAGE, LONG = b"usage: body NUMBER < PACKET\n", b"too long\n"


def block(kind, specific, body):
    return struct.pack(">BBH", kind, specific, len(body) // 4) + body


def packet(blocks):
    body = b"".join(blocks)
    return struct.pack(">BBHI", 0x80, 207, (len(body) + 8) // 4 - 1, 1) + body


BODIES = [struct.pack(">IHH", 2, 37448, 0), b"", b"fourteen of another size", bytes(range(200)), b"\0" * 12]
GOOD = packet(block(kind, 7, body) for kind, body in zip((240, 99, 14, 200, 17), BODIES))
LARGEST = packet([block(9, 0, bytes(65536 - 12))])
NUMBERS = [(str(k), GOOD, body) for k, body in enumerate(BODIES)]
CASES = NUMBERS + [
    ("5", GOOD, b""), ("999999", GOOD, b""), ("000003", GOOD, BODIES[3]), ("0000003", GOOD, USAGE), ("", GOOD, USAGE),
    ("3a", GOOD, USAGE), ("-1", GOOD, USAGE), (":", GOOD, USAGE), ("0", b"", b""), ("0", GOOD[:-4], b""),
    ("0", bytes([0xA0]) + GOOD[1:], b""), ("0", LARGEST, bytes(65536 - 12)), ("0", LARGEST + b"\0", LONG), (None, GOOD, USAGE),
]


def main():
    for argument, given, wanted in CASES:
        words = [] if argument is None else [argument]
        wrote = subprocess.run(["target/bin/body", *words], input=given, capture_output=True, check=True).stdout
        if wrote != wanted:
            print(f"body {words} of {len(given)} bytes: wrote {wrote[:60]!r}, wanted {wanted[:60]!r}")
            return 1
    if subprocess.run(["target/bin/body", "0", "1"], input=GOOD, capture_output=True, check=True).stdout != USAGE:
        print("body with two arguments: no usage line")
        return 1
    print(f"body: {len(CASES) + 1} of {len(CASES) + 1} as document 01 has them")
    return 0


sys.exit(main())
