"""list and report."""
import pathlib
import random
import subprocess

import document01 as paper
import listing
from run import CARD, SAMPLES, Run, random_trace, settings

LISTING = str(pathlib.Path("target/bin/listing").resolve())


SPAN = {"--first": "65535", "--extended-first": "4294967295", "--extended-last": "7", "--interval": "8", "--seconds": "9",
        "--fraction": "10"}
REPORTED = {"--sender": "1", "--source": "2", "--flag": "1", **SPAN}
# The lines of typed blocks and of Loss RLE over the names of JSON; a dropped or unknown block has no fields.
LINES = {
    1: "rle source {source:08x} begin {begin} end {end} lost {lost}",
    14: "meas source {source:08x} first {first} efirst {extended_first} elast {extended_last} interval {interval} "
        "seconds {seconds} fraction {fraction}",
    17: "loss source {source:08x} i {flag} burst {burst_rate} gap {gap_rate} mean {burst_mean} var {burst_variance}",
    18: "discard source {source:08x} i {flag} burst {burst_rate} gap {gap_rate}",
    240: "eli source {source:08x} index {index}",
    241: "ts source {source:08x} begin {begin} end {end} packets {packets} streams {streams} counts {sync_losses} "
         "{sync_byte_errors} {continuity_errors} {transport_errors} {pcr_errors} {pcr_repetition_errors} "
         "{pcr_discontinuity_errors} {pts_errors}",
}


def line_of(block):
    """A block's line, made from its JSON."""
    kind, verdict, fields = block["block_type"], block["verdict"], dict(block["fields"])
    if verdict == 255:
        return f"unknown type {kind} bytes {block['length']}"
    if verdict == 254:
        assert fields["packets"] == (fields["end"] - fields["begin"]) % 65536, fields
    elif verdict:
        return f"dropped type {kind} reason {verdict}"
    for name in ("burst_rate", "gap_rate", "burst_mean", "burst_variance"):
        if name in fields:
            fields[name] = paper.figure(fields[name])
    return LINES[kind].format(**fields)


def damaged(packet, rng):
    """A packet with a bit changed, and one that is cut off."""
    changed = bytearray(packet)
    changed[rng.randrange(len(changed))] ^= 1 << rng.randrange(8)
    return [bytes(changed), packet[:rng.randrange(len(packet))]]


def check_list(folder):
    """The lines of `listing`, for samples, damaged packets and the cases of its own test; the same from JSON."""
    rng = random.Random(3)
    samples = [path.read_bytes() for path in sorted(SAMPLES.glob("*.xr"))]
    packets = samples + [some for packet in samples for _ in range(12) for some in damaged(packet, rng)]
    path = folder / "some.xr"
    for packet in packets + [packet for _, packet in listing.cases(rng)]:
        path.write_bytes(packet)
        lines = subprocess.run([LISTING], input=packet, capture_output=True, check=True).stdout.decode()
        refusal = lines if lines.startswith("refused") else ""
        for run in (Run("list", path), Run("list", "-", data=packet)):
            assert run.out.decode() == lines, (packet, run.out, lines)
            assert run.status == (1 if refusal else 2 if lines == "too long\n" else 0), run.what
            assert run.told.startswith(refusal), run.what
        if lines != "too long\n":
            got = Run("list", "--json", path).json()["files"][0]
            assert got["file"] == str(path)
            if refusal:
                made = "refused {number} at {place}\n".format(**got["refusal"])
            else:
                made = "ssrc {sender:08x} blocks {blocks}\n".format(**got)
                made += "".join(f"{k} {line_of(block)}\n" for k, block in enumerate(got["list"]))
                places = [(at, len(body)) for at, _, _, body in paper.packet_blocks(packet)]
                assert [(block["offset"], block["length"]) for block in got["list"]] == places, packet
            assert made == lines, (packet, made, lines)


def check_several(folder):
    """Several packets: a heading for each, and what is wrong with one leaves the others."""
    names = [SAMPLES / name for name in ("p12.xr", "cut-off.xr", "none.xr", "week-1.xr")]
    run = Run("list", *names)
    assert run.status == 2 and "refused 4 at 0" in run.told and "none.xr" in run.told, run.what
    parts = run.out.decode().split("==> ")
    assert len(parts) == 5 and parts[1] == f"{names[0]} <==\n{listing.P12_TEXT}\n", parts
    assert parts[4] == f"{names[3]} <==\n" + Run("list", names[3]).text(), parts
    run = Run("list", "--json", *names[:2])
    assert run.status == 1 and [packet["refusal"]["number"] for packet in run.json()["files"]] == [0, 4], run.what
    big = folder / "big.xr"
    big.write_bytes(bytes(70000))
    files = Run("list", "--json", names[2], big, names[0]).json()["files"]
    assert "No such file" in files[0]["error"] and files[2]["sender"] == 1, files
    assert files[1] == {"file": str(big), "error": "too long"}, files
    line = folder / "line\nrefused 1 at 0"
    line.write_bytes(bytes(70000))
    assert b"line\\nrefused 1 at 0 <==\n" in Run("list", line, names[0]).out


def report(trace, out, *more, data=b"", **changed):
    """A report with REPORTED, some of it changed."""
    given = {**REPORTED, **{"--" + name.replace("_", "-"): value for name, value in changed.items()}}
    return Run("report", *(word for pair in given.items() for word in pair), *more, trace, "-o", out, data=data)


def check_report(folder):
    """A packet made, and its lines beside document 01."""
    rng = random.Random(4)
    path, packet = folder / "some.trace", folder / "some.xr"
    for _ in range(30):
        trace, flag = random_trace(rng) + bytes(9), rng.choice([0, 1, 2, 3, 4, 255, 256, 10 ** 30])
        path.write_bytes(trace)
        packet.unlink(missing_ok=True)
        run = report(path, packet, *settings(2, 3, 1, 1000), sender="deadBEEF", source="0x2", flag=str(flag))
        if flag not in (1, 2, 3):
            said = f"flag {flag}\n" if flag < 255 else "flag 255 or more\n"
            assert said in run.refused(16), run.what
            assert not packet.exists()
            continue
        blocks = [LINES[14].format(source=2, **{name[2:].replace("-", "_"): number for name, number in SPAN.items()}),
                  *(paper.summary_text(event, paper.sums(trace, event, 2, 1000), 2, flag) for event in (1, 2)),
                  f"eli source 00000002 index {paper.loss(paper.LOST, 3, 1, trace).split()[5]}"]
        lines = ["ssrc deadbeef blocks 4", *(f"{k} {block}" for k, block in enumerate(blocks))]
        assert Run("list", packet).text().splitlines() == lines, (trace, lines)
        assert "80 bytes to" in run.text(), run.what


def check_report_given(folder):
    """Outputs of a report, and what is missing or wrong."""
    choir, card, none = SAMPLES / "choir.trace", ["--card", CARD], folder / "not.xr"
    out = report(choir, "-", *card)
    assert len(out.out) == 80 and "taken as bytes" in out.told, out.what
    got = report(choir, folder / "json.xr", *card, "--json").json()
    assert (got["size"], got["sender"], got["blocks"]) == (80, 1, 4), got
    assert got["settings"] == {"gmin": 16, "batch": 100, "threshold": 10, "spacing": 400}, got
    assert (folder / "json.xr").read_bytes() == out.out
    report("-", none, *card, data=b"111").refused(14)
    Run("report", *card, choir).wrong("missing: --sender, --source, --flag, --first, --extended-first, --extended-last, --interval, "
                                      "--seconds, --fraction, -o\n")
    report(choir, none).wrong("missing: --card, or --gmin, --batch, --threshold, --spacing\n")
    for name, bad in [("sender", "g"), ("sender", ""), ("source", "123456789"), ("source", "+1"), ("flag", "x"),
                      ("first", "65536"), ("interval", "4294967296"), ("seconds", "-1")]:
        report(choir, none, *card, **{name: bad}).wrong(f'--{name}: "{bad}" is ')
    assert not none.exists()
