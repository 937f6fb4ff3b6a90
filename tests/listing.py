#!/usr/bin/env python3
"""Runs target/bin/listing on packets and compares what it writes with text computed here from document 01 alone, and for
blocks of type 1 by loss_rle.py from document 02, ticket 5.

Run in the repository's root after tools/programs.sh. Prints one line; exit status 1 where a text differs.
`--sample` writes crates/listing/stdin and stdout instead, `--time` prints times of large packets.
"""
import os
import pathlib
import random
import struct
import subprocess
import sys
import time

sys.dont_write_bytecode = True  # a run leaves no files in the tree
import loss_rle

PROGRAM = os.environ.get("LISTING", "target/bin/listing")
SIZES = {14: 28, 17: 12, 18: 8, 240: 8, 241: 44}


def block(kind, specific, body):
    return struct.pack(">BBH", kind, specific, len(body) // 4) + body


def packet(blocks, sender=1, first=0x80):
    body = b"".join(blocks)
    return struct.pack(">BBHI", first, 207, (len(body) + 8) // 4 - 1, sender) + body


def refusal(s):
    """The first refusal of 1 to 6 and its place, or None."""
    if len(s) < 8:
        return 1, 0
    if s[0] >> 6 != 2:
        return 2, 0
    if s[1] != 207:
        return 3, 0
    if 4 * (int.from_bytes(s[2:4], "big") + 1) != len(s):
        return 4, 0
    if s[0] & 0x20:
        return 5, 0
    at = 8
    while at < len(s):
        end = at + 4 + 4 * int.from_bytes(s[at + 2:at + 4], "big")
        if end > len(s):
            return 6, at
        at = end
    return None


def blocks_of(s):
    at = 8
    while at < len(s):
        end = at + 4 + 4 * int.from_bytes(s[at + 2:at + 4], "big")
        yield s[at], s[at + 1], s[at + 4:end]
        at = end


def figure(n):
    return {65534: "over", 65535: "none"}.get(n, str(n))


def dropped(kind, specific, body, measured):
    if len(body) != SIZES[kind]:
        return 1
    if kind in (17, 18):
        source, burst, gap = struct.unpack(">IHH", body[:8])
        if specific >> 6 == 0:
            return 2
        if any(32769 <= rate <= 65534 for rate in (burst, gap)):
            return 3
        if source not in measured:
            return 4
    return 0


def typed(kind, specific, body):
    source = body[:4].hex()
    if kind == 14:
        first, efirst, elast, interval, seconds, fraction = struct.unpack(">HIIIII", body[6:])
        return (f"meas source {source} first {first} efirst {efirst} elast {elast} "
                f"interval {interval} seconds {seconds} fraction {fraction}")
    if kind == 240:
        return f"eli source {source} index {int.from_bytes(body[4:6], 'big')}"
    if kind == 241:
        begin, end, streams, *counts = struct.unpack(">HH9I", body[4:])
        return (f"ts source {source} begin {begin} end {end} packets {(end - begin) % 65536} "
                f"streams {streams} counts {' '.join(map(str, counts))}")
    rates = [figure(n) for n in struct.unpack(f">{(len(body) - 4) // 2}H", body[4:])]
    names = ["burst", "gap", "mean", "var"][:len(rates)]
    figures = " ".join(f"{name} {rate}" for name, rate in zip(names, rates))
    return f"{'loss' if kind == 17 else 'discard'} source {source} i {specific >> 6} {figures}"


def listing(s):
    if len(s) > 65536:
        return "too long\n"
    no = refusal(s)
    if no:
        return "refused %d at %d\n" % no
    all_blocks = list(blocks_of(s))
    measured = {int.from_bytes(b[:4], "big") for kind, _, b in all_blocks if kind == 14 and len(b) == 28}
    lines = [f"ssrc {s[4:8].hex()} blocks {len(all_blocks)}"]
    for k, (kind, specific, body) in enumerate(all_blocks):
        if kind == loss_rle.RLE:
            lines.append(f"{k} {loss_rle.text(specific, body)}")
            continue
        if kind not in SIZES:
            lines.append(f"{k} unknown type {kind} bytes {len(body)}")
            continue
        reason = dropped(kind, specific, body, measured)
        lines.append(f"{k} dropped type {kind} reason {reason}" if reason else f"{k} {typed(kind, specific, body)}")
    return "".join(line + "\n" for line in lines)


def loss(source, flag, *figures):
    return block(17, flag << 6, struct.pack(">I4H", source, *figures))


def discard(source, flag, *figures):
    return block(18, flag << 6, struct.pack(">I2H", source, *figures))


def measurement(source, *fields):
    return block(14, 0, struct.pack(">IHH5I", source, 0, *fields))


def streams(source, begin, end, *counts):
    return block(241, 0, struct.pack(">IHH9I", source, begin, end, *counts))


P12 = bytes.fromhex("80CF0004 00000001 F0000002 00000002 92480000")
P12_TEXT = "ssrc 00000001 blocks 1\n0 eli source 00000002 index 37448\n"

# The five kinds, unknown blocks, each reason to drop, `over` and `none`; block 14 stands after the 17 that needs it.
SAMPLE = packet([
    loss(0xA1B2C3D4, 2, 26214, 5461, 2, 65534),
    measurement(0xA1B2C3D4, 65535, 65535, 4294967295, 48000, 3, 2147483648),
    loss(0xA1B2C3D4, 3, 65535, 32768, 65535, 65535),
    discard(0xA1B2C3D4, 1, 0, 65535),
    block(240, 0, bytes.fromhex("00000002FFFF0000")),
    streams(0x00000003, 65535, 2, 1, 10, 20, 30, 40, 50, 60, 70, 4294967295),
    block(2, 0, bytes(range(12))),
    block(255, 7, b""),
    block(240, 0, bytes(12)),
    loss(0xA1B2C3D4, 0, 0, 0, 0, 0),
    discard(0xA1B2C3D4, 1, 32769, 0),
    loss(0x0BADCAFE, 1, 0, 0, 0, 0),
    block(1, 0, bytes(range(12))),
], sender=0xDEADBEEF)


def four_byte_blocks(size):
    return packet([block(200, 0, b"")] * ((size - 8) // 4))


def largest_lines():
    """Blocks 241 whose lines are as long as a line can be, to the most that 65,536 bytes hold."""
    return packet([streams(0xFFFFFFFF, 40000, 39999, *[0xFFFFFFFF] * 9)] * (65528 // 48))


def some_rle(rng):
    """A block of type 1, good in three of four cases: chunks up to the end, at times one of them damaged or one too many."""
    interval, chunks = rng.choice([0, 1, 15, 30, rng.randrange(100), rng.randrange(65536)]), []
    while sum(map(len, map(loss_rle.packets_of, chunks))) < interval:
        chunks.append(rng.choice([0x8000 + rng.randrange(0x8000), rng.choice([0, 0x4000]) + 1 + rng.randrange(interval) % 0x3fff, 0x4000]
                                 if interval < 100 else [0x3fff, 0x7fff]))
    if rng.random() < 0.2:
        chunks[rng.randrange(len(chunks) + 1):] = [rng.choice([0, 0x4000, 0x8000, rng.randrange(65536)])]
    chunks += [0] * (len(chunks) % 2 + 2 * rng.randrange(2))
    begin = rng.choice([0, 65530, rng.randrange(65536)])
    body = struct.pack(f">IHH{len(chunks)}H", rng.randrange(3), begin, (begin + interval) % 65536, *chunks)
    return block(1, rng.choice([0, 0, 0, 0xf0, rng.randrange(256)]), body[:rng.choice([4, 8] + [len(body)] * 20)])


def some_blocks(rng):
    def one():
        if rng.random() < 0.15:
            return some_rle(rng)
        kind = rng.choice([14, 17, 18, 240, 241, rng.randrange(256)])
        size = SIZES.get(kind, 4 * rng.randrange(5))
        if rng.random() < 0.15:
            size = 4 * rng.randrange(13)
        body = bytearray(rng.randbytes(size))
        if size >= 8:
            body[0:4] = struct.pack(">I", rng.randrange(3))
            for i in range(4, min(size, 12), 2):
                rate = rng.choice([0, 1, 32767, 32768, 32769, 65533, 65534, 65535, rng.randrange(65536)])
                if rng.random() < 0.6:
                    rate %= 32769
                body[i:i + 2] = struct.pack(">H", rate)
        return block(kind, rng.choice([0, 64, 128, 192, rng.randrange(256)]), bytes(body))
    return [one() for _ in range(rng.randrange(12))]


def cases(rng):
    yield "P12", P12
    yield "sample", SAMPLE
    yield "no blocks", packet([])
    yield "refusal 1: empty", b""
    yield "refusal 1: seven bytes", P12[:7]
    yield "refusal 2", b"\x40" + P12[1:]
    yield "refusal 3", P12[:1] + b"\xc8" + P12[2:]
    yield "refusal 4: longer", P12 + bytes(4)
    yield "refusal 4: shorter", P12[:-4]
    yield "refusal 5", b"\xa0" + P12[1:]
    yield "type 1: no packets", packet([block(1, 0, bytes(8)), block(1, 0, bytes(16))])
    yield "type 1: the most packets", packet([block(1, 0, struct.pack(">IHH6H", 5, 7, 4, *[0x3fff] * 4, 1, 0)), block(9, 0, b"")])
    yield "type 1: 65,536 bytes of chunks", packet([block(1, 0, struct.pack(">IHH", 5, 7, 7 + 32757) + b"\0\1" * 32757 + b"\0\0")])
    yield "refusal 6", packet([block(2, 0, b""), struct.pack(">BBH", 9, 0, 1)])
    yield "65,536 bytes of four-byte blocks", four_byte_blocks(65536)
    yield "65,536 bytes of the longest lines", largest_lines()
    yield "65,536 bytes, one block", packet([block(9, 0, bytes(65524))])
    yield "65,537 bytes", four_byte_blocks(65536) + b"\0"
    yield "70,000 bytes", bytes(70000)
    yield "a block 14 last, for thousands of 17",  packet([loss(7, 1, 1, 2, 3, 4)] * 4000 + [measurement(7, *[1] * 6)])
    for i in range(300):
        blocks = some_blocks(rng)
        s = bytearray(packet(blocks, rng.randrange(2 ** 32), 0x80 + rng.randrange(32)))
        if rng.random() < 0.2:
            s[rng.randrange(len(s))] ^= 1 << rng.randrange(8)
        yield f"random {i}", bytes(s)


def run(s):
    return subprocess.run([PROGRAM], input=s, stdout=subprocess.PIPE, check=True).stdout


def best_time(s):
    times = []
    for _ in range(20):
        start = time.perf_counter()
        run(s)
        times.append(time.perf_counter() - start)
    return min(times) * 1000


def main():
    if "--sample" in sys.argv:
        pathlib.Path("crates/listing/stdin").write_bytes(SAMPLE)
        pathlib.Path("crates/listing/stdout").write_text(listing(SAMPLE))
        return 0
    if "--time" in sys.argv:
        for size in (8, 16384, 32768, 65536):
            print(f"{size} bytes of four-byte blocks: {best_time(four_byte_blocks(size)):.2f} ms")
        return 0
    seed = int(os.environ.get("SEED", "7"))
    assert listing(P12) == P12_TEXT
    assert pathlib.Path("samples/p12.xr").read_bytes() == P12
    wrong = count = 0
    for name, s in cases(random.Random(seed)):
        count += 1
        got, want = run(s).decode(), listing(s)
        if got != want:
            wrong += 1
            print(f"{name}: wrote {got[:300]!r}, not {want[:300]!r}")
    print(f"listing: {count - wrong} of {count} texts agree (seed {seed})")
    return 1 if wrong else 0


if __name__ == "__main__":
    sys.exit(main())
