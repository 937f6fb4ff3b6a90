"""dials: what is said of a block's needles, and the drawing."""
import itertools
import random
import re
import shutil
import struct
import subprocess
import xml.etree.ElementTree as xml
import zlib
from fractions import Fraction

import document01 as paper
import document02 as tickets
import listing
from packets import damaged, line_of
from run import SAMPLES, Run, refusal_of

SVG = "{http://www.w3.org/2000/svg}"
# What turns an SVG into a PNG, with the words for it.
RENDERERS = {"rsvg-convert": "{0} {1} -o {2}", "resvg": "{0} {1} {2}", "inkscape": "{0} {1} --export-type=png -o {2}"}
MEASUREMENT = bytes.fromhex("0e00000700000005") + bytes(24)
RENDERED = [(8192, 65535), (65535, 32768), (12345, 0), (32769, 1)]
RATES = [0, 1, 255, 8192, 12345, 16384, 24576, 32767, 32768, 32769, 65534, 65535]


def packet_of(*blocks):
    """A packet of these blocks."""
    body = b"".join(blocks)
    return bytes([128, 207]) + struct.pack(">HI", len(body) // 4 + 1, 1) + body


def discard(flag, burst, gap):
    return struct.pack(">BBHIHH", 18, 64 * flag, 2, 5, burst, gap)


def chosen(packet):
    """The first block 17 or 18 that is not dropped, by its number."""
    blocks = paper.packet_blocks(packet)
    sources = paper.measured_sources(blocks)
    good = (k for k, (_, kind, *rest) in enumerate(blocks) if kind in (17, 18) and paper.reason(kind, *rest, sources) == 0)
    return next(good, None)


def said(needle):
    """A decimal that is exact: fifteen binary places are fifteen decimal ones."""
    return f"{needle:.15f}".rstrip("0").rstrip(".")


def lines(needles):
    burst, gap = ("dark" if needle is None else f"lit at {said(needle)}" for needle in needles)
    return f"  burst needle  {burst}\n  gap needle    {gap}\n  lamp          {'off' if needles == tickets.DARK else 'on'}\n"


def block_asked(packet, index):
    """The number and the line of the block that is shown, and the refusal."""
    if index is None:
        index, refusal = refusal_of(chosen, packet)
        if index is None:
            return None, None, refusal
    line, refusal = refusal_of(paper.block, index, packet)
    return index, line, refusal


def check_dials(folder):
    """Words and JSON beside document 02, for blocks of samples, of damaged packets and of the cases of `listing`."""
    rng = random.Random(6)
    samples = [path.read_bytes() for path in sorted(SAMPLES.glob("*.xr"))]
    packets = samples + [some for packet in samples for _ in range(4) for some in damaged(packet, rng)]
    packets += [packet for _, packet in listing.cases(rng) if len(packet) < 300]
    packets += [packet_of(MEASUREMENT, discard(rng.randrange(4), *pair)) for pair in itertools.product(RATES, repeat=2)]
    path, met = folder / "some.xr", set()
    for packet in packets:
        path.write_bytes(packet)
        for index in (None, rng.randrange(3), rng.choice([3, 4, 5, 6, 7, 10 ** 30])):
            met.add(dials(path, packet, index))
    assert met >= {(0, "on"), (0, "off"), *((number, "off") for number in range(1, 8))}, met


def dials(path, packet, index):
    """One run; the refusal's number, and the lamp."""
    number, line, refusal = block_asked(packet, index)
    needles = tickets.DARK if number is None else tickets.needles_at(number, packet)
    words = [path] if index is None else [path, str(index)]
    what = f"block {line}" if line else "no block to show" if refusal else "no block 17 or 18 to show"
    run = Run("dials", *words)
    assert run.out.decode() == f"{path}, {what}\n{lines(needles)}", (packet, index, run.what, run.out)
    got = Run("dials", "--json", *words)
    for answer in (run, got):
        assert answer.status == (1 if refusal else 0), answer.what
        assert not refusal or answer.refused(**refusal), answer.what
    got = got.json()
    assert got["refusal"] == (refusal or {"number": 0, "place": 0}), (packet, got)
    assert ("index" in got, "block" in got) == (bool(line), bool(line)), (packet, got)
    assert not line or f"{got['index']} {line_of(got['block'])}" == line, (packet, got)
    assert got["file"] == str(path), got
    panel = [{"lit": int(needle is not None), "position": needle or 0} for needle in needles]
    assert [got["burst"], got["gap"]] == panel and got["lamp"] == int(needles != tickets.DARK), (packet, got)
    return (refusal or {"number": 0})["number"], "on" if got["lamp"] else "off"


def turned(element):
    """The angle of an element, in degrees clockwise from above."""
    return Fraction(re.fullmatch(r"rotate\((-?[\d.]+)\)", element.get("transform"))[1])


def judged(text, needles):
    """A drawing beside the needles: burst left of gap, each needle turned to its place over three quarters of a circle about
    the middle of its dial; its pin and its lamp."""
    root = xml.fromstring(text)
    assert root.tag == SVG + "svg" and [float(number) for number in root.get("viewBox").split()] == [0, 0, 560, 300]
    places = [root.find(f"{SVG}g[@id='{name}']").get("transform") for name in ("burst", "gap")]
    assert places == ["translate(140 140)", "translate(420 140)"], places
    for name, needle in zip(("burst", "gap"), needles):
        dial = root.find(f"{SVG}g[@id='{name}']")
        line = dial.find(f"{SVG}line[@id='{name}-needle']")
        marks = [(turned(mark), mark.find(SVG + "text").text) for mark in dial.findall(SVG + "g")]
        assert marks == [(Fraction(quarter, 4) * 270 - 135, word) for quarter, word in enumerate(["0", "1/4", "1/2", "3/4", "1"])]
        assert "".join(dial.find(SVG + "text").itertext()) == f"{name} {'dark' if needle is None else said(needle)}", text
        grey = len(set(re.findall("..", line.get("stroke").removeprefix("#")))) == 1
        assert grey == (needle is None), (needle, line.attrib)
        pin = turned(dial.find(f"{SVG}circle[@transform]"))
        assert -180 < pin < -135, "the pin is below the 0"
        start, tip = float(line.get("y1")), float(line.get("y2"))
        assert tip < -2 * start < 0 and line.get("x1") is line.get("x2") is None, "it points up before it is turned"
        assert turned(line) == (pin if needle is None else Fraction(needle) * 270 - 135), (needle, line.attrib)
    lamp = root.find(f"{SVG}circle[@id='lamp']").get("fill")
    on = needles != tickets.DARK
    assert (lamp == "#f2a900", lamp == "#4a4a4a") == (on, not on), lamp


def check_drawings(folder):
    """The drawing of every pair of rates, and of bad flags; some are rendered too, where a program can."""
    path, drawing, kinds = folder / "some.xr", folder / "some.svg", set()
    cases = [(1 + (burst + gap) % 3, burst, gap) for burst, gap in itertools.product(RATES, repeat=2)]
    for flag, burst, gap in cases + [(0, 0, 0), (0, 8192, 65535), (0, 65535, 8192)]:
        path.write_bytes(packet_of(discard(flag, burst, gap), MEASUREMENT))
        run = Run("dials", path, "0", "-o", drawing)
        assert f"  {drawing.stat().st_size} bytes to {drawing}\n" in run.text()
        needles = tickets.needles(18, flag, [burst, gap])
        judged(drawing.read_text(), needles)
        if flag and (burst, gap) in RENDERED:
            kinds.add(tuple(needle is None for needle in needles))
            rendered(drawing, needles)
    assert len(kinds) == 4, "each needle lit and dark beside a lit and a dark one"


def check_dark_drawing(folder):
    """Where the packet or the block is refused the drawing is dark, and no older one stays."""
    drawing = folder / "panel.svg"
    for words, refusal in [(["cut-off.xr"], 4), (["week-1.xr", "4"], 7), (["week-1.xr", "9" * 40], 7), (["p12.xr"], None),
                           (["other-box.xr", "4"], None), (["week-1.xr", "3"], None)]:
        assert Run("dials", SAMPLES / "week-1.xr", "-o", drawing).status == 0
        judged(drawing.read_text(), (4369 / 32768, 110 / 32768))
        run = Run("dials", SAMPLES / words[0], *words[1:], "-o", drawing)
        assert run.refused(refusal) if refusal else run.text()
        judged(drawing.read_text(), tickets.DARK)
    run = Run("dials", SAMPLES / "cut-off.xr", "-o", "-")
    judged(run.out, tickets.DARK)
    assert run.told.startswith(f"{SAMPLES / 'cut-off.xr'}, no block to show\n") and "\nrefused 4 at 0\n" in run.told, run.what


def check_dials_usage(folder):
    """What is no number, no file, or too much; standard input; nothing is written over."""
    week = SAMPLES / "week-1.xr"
    for word in ("x", "", "-1x", "+1", "1.0", "0x1", "٣", "-"):
        Run("dials", "--", week, word).wrong(f'K: "{word}" is no number')
    Run("dials", week, "1", "2").wrong('"2" is one word too many')
    kept = shutil.copy(week, folder)
    Run("dials", kept, "-o", kept).wrong("not written over")
    Run("dials", week, "-o", "-", "--json").wrong("standard output")
    Run("dials", folder / "none", "-o", folder / "none.svg").wrong("os error")
    Run("dials", SAMPLES / "cut-off.xr", "-o", folder).wrong("refused 4 at 0\n", "os error")
    assert "block " + "9" * 40 + "\n" in Run("dials", week, "9" * 40).refused(7)
    assert not (folder / "none.svg").exists()
    # The number of a block is no file, whatever files there are.
    (folder / "1").write_bytes(b"")
    assert Run("dials", week, "1", "-o", "1", cwd=folder).status == 0
    judged((folder / "1").read_text(), (4369 / 32768, 110 / 32768))
    data = week.read_bytes()
    assert Run("dials", "-", "2", data=data).text().startswith("standard input, block 2 discard source 51a70001 ")
    # One byte more than the largest packet.
    big = folder / "big.xr"
    big.write_bytes(bytes([128, 207, 255, 255]) + bytes(262140))
    assert Run("dials", big).text().startswith(f"{big}, no block 17 or 18 to show\n")
    big.write_bytes(big.read_bytes() + b"\0")
    Run("dials", big).refused(4)


def renderer():
    return next((name for name in RENDERERS if shutil.which(name)), None)


def pixels(png):
    """The rows of an 8-bit PNG without interlacing, a tuple for each pixel."""
    chunks, at = {}, 8
    while at < len(png):
        size, kind = struct.unpack(">I4s", png[at:at + 8])
        chunks[kind] = chunks.get(kind, b"") + png[at + 8:at + 8 + size]
        at += size + 12
    width, height, depth, colour, _, _, interlaced = struct.unpack(">IIBBBBB", chunks[b"IHDR"])
    step = {2: 3, 6: 4}[colour]
    assert (depth, interlaced) == (8, 0)
    data, rows, above = zlib.decompress(chunks[b"IDAT"]), [], bytes(width * step)
    for start in range(0, len(data), width * step + 1):
        kind, row = data[start], bytearray(data[start + 1:start + 1 + width * step])
        for i in range(len(row)):
            left, corner = (row[i - step], above[i - step]) if i >= step else (0, 0)
            near = min((left, above[i], corner), key=lambda value: abs(left + above[i] - corner - value))
            row[i] = (row[i] + [0, left, above[i], (left + above[i]) // 2, near][kind]) % 256
        rows.append([tuple(row[i:i + step]) for i in range(0, len(row), step)])
        above = row
    assert len(rows) == height
    return rows


def rendered(drawing, needles):
    """As a person sees it: on the needle, halfway, there is its colour; so on the lamp."""
    name = renderer()
    if name is None:
        return
    picture = drawing.with_suffix(".png")
    words = RENDERERS[name].format(name, drawing, picture).split(" ")
    subprocess.run(words, check=True, capture_output=True)
    rows = pixels(picture.read_bytes())

    def colour(x, y):
        return rows[round(y)][round(x)][:3]

    for x, needle in zip((140, 420), needles):
        angle = complex(0, 1) ** (((-155 if needle is None else needle * 270 - 135) - 90) / 90)
        red, green, blue = colour(x + 40 * angle.real, 140 + 40 * angle.imag)
        is_grey, is_red = red == green == blue and 100 < red < 220, red > 150 and green < 90 and blue < 90
        assert (is_grey, is_red) == (needle is None, needle is not None), (needles, red, green, blue)
    lamp = colour(280, 40)
    assert (lamp[0] > 200) == (needles != tickets.DARK), (needles, lamp)
