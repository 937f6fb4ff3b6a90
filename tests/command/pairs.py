"""compare."""
import itertools
import pathlib
import random
import re
import subprocess

import document01 as paper
import document02 as tickets
import listing
from packets import LINES, damaged
from run import COMMAND, SAMPLES, Run, refusal_of

FIVE = ("kind", "block", "field", "first", "second")
HEADER = pathlib.Path("include/nuvaskoe.h").read_text()
# The names of the fields of each type, in layout order, as the header has them; the packets that a block 241 covers are none. Loss RLE
# is compared by bytes.
NAMES = {int(kind): [name.lower() for name in re.findall(rf"NUVASKOE_FIELD_{word}_(\w+) = ", HEADER) if name != "PACKETS"]
         for word, kind in re.findall(r"NUVASKOE_BLOCK_(\w+) = (\d+)", HEADER) if word != "RLE"}
# The words that stand before them in a listing.
LISTED = {kind: {name: word for word, name in re.findall(r"(\w+) \{(\w+)", line)} for kind, line in LINES.items()}


def texts(packet):
    """The type and the line of each block."""
    blocks = paper.packet_blocks(packet)
    sources = paper.measured_sources(blocks)
    return [(kind, paper.block_text(kind, specific, body, sources)) for _, kind, specific, body in blocks]


def reading(block, name):
    """What the line of a typed block has behind the word of a field, and that word; a count is called by its name."""
    kind, text = block
    word, parts = LISTED[kind].get(name, "counts"), text.split()
    if word == "counts":
        return name, parts[parts.index(word) + 1 + NAMES[kind].index(name) - NAMES[kind].index("sync_losses")]
    return word, parts[parts.index(word) + 1]


def what(block):
    """What is said of a whole block: a typed one has the first word of its line."""
    _, text = block
    return text if text.startswith(("dropped", "unknown", "rle")) else text.split()[0]


def line_of(entry, first, second, names):
    """The line of one difference, from the lines of both packets."""
    kind, block, field, one, other = entry
    if kind == 0:
        return f"sender {one:08x} and {other:08x}"
    if kind == 1:
        name = NAMES[first[block][0]][field]
        (word, one), (_, other) = (reading(blocks[block], name) for blocks in (first, second))
        return f"block {block} {what(first[block])} {word} {one} and {other}"
    if kind == 2:
        one, other = what(first[block]), what(second[block])
        return f"block {block} {one} and {other}" if one != other else f"block {block} {one} in both, the bytes differ"
    return f"block {block} {what((first if kind == 3 else second)[block])} only in {names[kind - 3]}"


def compared(one, other, met):
    """The job on two files, in words and in JSON, beside document 02; `met` gains what its lines show."""
    packets = [path.read_bytes() for path in (one, other)]
    run, scripted = Run("compare", one, other), Run("compare", "--json", one, other)
    assert run.status == scripted.status and run.told == scripted.told, run.what
    got = scripted.json()
    for path, packet in zip((one, other), packets):
        _, no = refusal_of(paper.packet_blocks, packet)
        if no:
            assert run.told.startswith("refused {number} at {place}\n".format(**no) + f"  {path}\n"), run.what
            assert (run.status, run.out, got) == (2, b"", {"file": str(path), "refusal": no}), (run.what, run.out, got)
            met.add(("refused", path == one, no["number"]))
            return
    entries = tickets.compare(*packets)
    first, second = map(texts, packets)
    lines = [line_of(entry, first, second, (one, other)) for entry in entries]
    assert run.status == (1 if entries else 0) and run.told == "", run.what
    assert run.out.decode().splitlines() == lines, (packets, run.out, lines)
    assert got["refusal"] == {"number": 0, "place": 0} and got["files"] == [str(one), str(other)], got
    assert got["differences"] == len(entries) and [tuple(entry[name] for name in FIVE) for entry in got["list"]] == entries, got
    blocks = [Run("list", "--json", path).json()["files"][0]["list"] for path in (one, other)]
    contents = [[block[1:] for block in paper.packet_blocks(packet)] for packet in packets]
    for entry in got["list"]:
        kind, block, field = entry["kind"], entry["block"], entry["field"]
        more = {name: entry[name] for name in entry if name not in FIVE}
        if kind == 1:
            typed = first[block][0]
            assert more == {"block_type": typed, "name": NAMES[typed][field]}, entry
            met.add((typed, field))
        else:
            sides = {0: (), 2: (0, 1), 3: (0,), 4: (1,)}[kind]
            assert more == {("first_block", "second_block")[side]: blocks[side][block] for side in sides}, entry
            met.add(("kind", kind))
            if kind == 2 and contents[0][block] == contents[1][block]:
                met.add(("same bytes", contents[0][block][0]))
    met.update(word for line in lines for word in ("none", "over", "in both") if word in line)


def each_field():
    """Two packets for each field of each type, in which that field differs alone; both sources are measured."""
    front = [paper.block_bytes(14, 0, (source, 0, 0, 0, 0, 0, 0)) for source in (1, 2)]
    others = {"flag": 2, "source": 2, "burst_rate": 65535, "gap_rate": 65535, "burst_mean": 65534, "burst_variance": 65535}
    for kind, names in NAMES.items():
        for field, name in enumerate(names):
            readings = [1] * len(names)
            changed = readings[:field] + [others.get(name, 65535)] + readings[field + 1:]
            made = [(given[0], given[1:]) if kind in (17, 18) else (0, given) for given in (readings, changed)]
            yield [listing.packet(front + [paper.block_bytes(kind, *some)]) for some in made]


def measured_in_one():
    """The same 17, and the same 18, with a block 14 in the first packet alone."""
    measured = paper.block_bytes(14, 0, (1, 0, 0, 0, 0, 0, 0))
    for kind in (17, 18):
        block = paper.block_bytes(kind, 1, [1] * (len(NAMES[kind]) - 1))
        yield [listing.packet([block, *more]) for more in ([measured], [])]


def changed(blocks, rng):
    """Blocks with a bit changed in one of them, one more or one less, two exchanged, or others."""
    blocks, way = list(blocks), rng.randrange(6)
    place = rng.randrange(len(blocks) + 1)
    if way == 0 or not blocks[place:]:
        return blocks[:place] + listing.some_blocks(rng)
    if way == 1:
        return blocks[:place] + blocks[place + 1:]
    if way == 2:
        blocks[0], blocks[place] = blocks[place], blocks[0]
    if way > 3:
        block = bytearray(blocks[place])
        # Not of the length, which would be refused.
        block[rng.choice([0, 1, *range(4, len(block))])] ^= 1 << rng.randrange(8)
        blocks[place] = bytes(block)
    return blocks


def drawn(rng):
    """Two packets of which one is made from the other, in one of eight cases damaged."""
    blocks, sender = listing.some_blocks(rng), rng.randrange(2 ** 32)
    one = listing.packet(blocks, sender, 0x80 + rng.randrange(32))
    other = listing.packet(changed(blocks, rng), rng.choice([sender, sender, sender ^ 1]), 0x80 + rng.randrange(32))
    if rng.random() < 0.125:
        one, other = (rng.choice([packet, *damaged(packet, rng)]) for packet in (one, other))
    return one, other


def each_refusal(rng):
    """Every refusal beside a good packet, and beside another refusal."""
    refused = [packet for name, packet in listing.cases(rng) if name.startswith("refusal")]
    yield from ((packet, listing.P12) for packet in refused)
    yield from zip(refused, refused[1:])


def check_compare(folder):
    """All samples, a pair for each field, each refusal and each type that one packet alone can measure, and drawn pairs, each in both
    orders and one with itself: every kind is met, every field, every refusal of either packet, and the same bytes read otherwise."""
    rng, met = random.Random(6), set()
    for one, other in itertools.product(sorted(SAMPLES.glob("*.xr")), repeat=2):
        compared(one, other, met)
    east, west = folder / "east.xr", folder / "west.xr"
    for packets in [*each_field(), *measured_in_one(), *each_refusal(rng), *(drawn(rng) for _ in range(120))]:
        for path, packet in zip((east, west), packets):
            path.write_bytes(packet)
        for names in ((east, west), (west, east), (west, west)):
            compared(*names, met)
    fields = {(kind, field) for kind, names in NAMES.items() for field in range(len(names))}
    kinds = {("kind", kind) for kind in (0, 2, 3, 4)}
    refused = {("refused", first, number) for first in (True, False) for number in (1, 2, 3, 4, 5, 6)}
    same = {("same bytes", 17), ("same bytes", 18)}
    assert met == fields | kinds | refused | same | {"none", "over", "in both"}, met


def check_compare_files(folder):
    """Standard input, odd names, the largest packets and larger files, a reader that goes away, a full disk."""
    p12, one, more = SAMPLES / "p12.xr", folder / "one.xr", folder / "a\nblock 0"
    assert Run("compare", "-", p12, data=listing.P12).text() == Run("compare", p12, "-", data=listing.P12).text() == ""
    one.write_bytes(listing.packet([]))
    more.write_bytes(listing.P12)
    assert Run("compare", one, more).out == f"block 0 eli only in {folder}/a\\nblock 0\n".encode()
    assert Run("compare", "-", one, data=listing.P12).out == b"block 0 eli only in standard input\n"
    for words in ((SAMPLES / "cut-off.xr", "none.xr"), ("none.xr", SAMPLES / "cut-off.xr"), (p12, "none.xr", "--json")):
        Run("compare", *words).wrong("none.xr: No such file")
    largest = listing.packet([listing.block(200, 0, b"")] * 65534)
    assert len(largest) == 262144
    one.write_bytes(largest)
    more.write_bytes(largest[:-4] + listing.block(201, 0, b""))
    assert Run("compare", one, one).text() == ""
    assert Run("compare", one, more).out == b"block 65533 unknown type 200 bytes 0 and unknown type 201 bytes 0\n"
    assert Run("compare", one, p12).out.count(b"\n") == 65534
    with subprocess.Popen([COMMAND, "compare", one, p12], stdout=subprocess.PIPE, stderr=subprocess.PIPE) as run:
        run.stdout.read(1)
        run.stdout.close()
        assert (run.wait(), run.stderr.read()) == (1, b"")
    with open("/dev/full", "wb") as full:
        for words in ((one, p12), (SAMPLES / "week-1.xr", p12), (SAMPLES / "week-1.xr", p12, "--json")):
            run = Run("compare", *words, stdout=full)
            assert run.status == 2 and "standard output" in run.told, run.what
    # What the library says of a longer file does not depend on how much longer it is.
    for longer, number in ((largest + b"\0", 4), (largest + bytes(400000), 4), (b"\x40" + largest, 2), (bytes(300000), 2)):
        more.write_bytes(longer)
        for words in ((more, one), (one, more)):
            run = Run("compare", *words)
            assert (run.status, run.out) == (2, b"") and run.told.startswith(f"refused {number} at 0\n"), run.what
    assert Run("compare", "/dev/zero", p12).told.startswith("refused 2 at 0\n  /dev/zero\n")
