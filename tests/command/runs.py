"""runs, and what report --runs makes."""
import os
import random
import shutil
import struct

import document01 as paper
import document02 as tickets
import listing
import loss_rle
from packets import damaged, line_of, report
from run import CARD, SAMPLES, Run, refusal_of, settings

WORD = 65536  # of sequence numbers


def digits(trace):
    """A trace as the job writes it: 60 packets in a line."""
    lines = (trace[at:at + 60] for at in range(0, len(trace), 60))
    return "".join("".join(map(str, line)) + "\n" for line in lines)


def runs(path, packet, index):
    """One run in words, in JSON and into a file, beside document 02; the refusal's number."""
    trace, refusal = refusal_of(tickets.read_out, index, packet, 65536)
    words, out = [path, str(index)], path.with_suffix(".trace")
    out.unlink(missing_ok=True)
    said, scripted, filed = Run("runs", *words), Run("runs", "--json", *words), Run("runs", *words, "-o", out)
    got = scripted.json()
    assert got["refusal"] == (refusal or {"number": 0, "place": 0}), (packet, index, got)
    if refusal:
        for run in (said, scripted, filed):
            run.refused(**refusal)
        assert said.out == b"" and not out.exists(), (packet, index)
        assert f"{path}, block {index}" in said.told, said.what
        there, _ = refusal_of(paper.block, index, packet)
        assert ("it is no good block of type 1" in said.told) == (there is not None), said.what
        assert there is None or f"{path}, block {there}\n" in said.told, said.what
        return refusal["number"]
    assert said.text() == digits(trace) == out.read_text(), (packet, index, said.out)
    line = paper.block(index, packet)
    assert filed.text() == f"{path}, block {line}\n  {out.stat().st_size} bytes to {out}\n", filed.what
    assert (got["file"], got["index"], bytes(got["trace"])) == (str(path), index, trace), got
    assert f"{index} {line_of(got['block'])}" == line, got
    return 0


def check_runs(folder):
    """The blocks of samples, of damaged packets, of the cases of `listing` and of drawn ones."""
    rng = random.Random(8)
    samples = [path.read_bytes() for path in sorted(SAMPLES.glob("*.xr"))]
    packets = samples + [some for packet in samples for _ in range(4) for some in damaged(packet, rng)]
    packets += [packet for _, packet in listing.cases(rng) if len(packet) < 300]
    packets += [listing.packet([listing.some_rle(rng), *listing.some_blocks(rng)]) for _ in range(80)]
    path, met = folder / "some.xr", set()
    for packet in packets:
        path.write_bytes(packet)
        for index in (0, rng.randrange(8), rng.choice([9, 10 ** 30])):
            met.add(runs(path, packet, index))
    assert met == {*range(8)}, met


def check_longest_runs(folder):
    """No packets, and as many as a block can have; a trace that goes on to another job."""
    path = folder / "some.xr"
    for interval, chunks in [(0, []), (0, [0] * 8), (60, [0x403c, 0]), (61, [0x003d, 0]), (65533, [0x7fff] * 4 + [1, 0])]:
        body = struct.pack(f">IHH{len(chunks)}H", 5, 9, (9 + interval) % WORD, *chunks)
        path.write_bytes(listing.packet([listing.block(1, 0, body)]))
        assert runs(path, path.read_bytes(), 0) == 0
    trace = Run("runs", path, "0").out
    told = Run("loss", "--batch", "1", "--threshold", "0", "-", data=trace).text()
    assert "65533 packets, taken as digits" in told and "packet 65532\n" in told, told


def check_runs_usage(folder):
    """What is no number, no file, or too much; standard input and output; nothing is written over."""
    week = SAMPLES / "week-4.xr"
    for words in ((), (week,)):
        Run("runs", *words).wrong("FILE and K are needed")
    for word in ("x", "", "-1x", "+1", "1.0", "0x1", "٣", "-"):
        Run("runs", "--", week, word).wrong(f'K: "{word}" is no number')
    Run("runs", week, "3", "4").wrong('"4" is one word too many')
    kept = shutil.copy(week, folder)
    Run("runs", kept, "3", "-o", kept).wrong("not written over")
    Run("runs", week, "3", "-o", "-", "--json").wrong("standard output")
    Run("runs", folder / "none", "3", "-o", folder / "none.trace").wrong("os error")
    Run("runs", week, "3", "-o", folder / "none" / "some.trace").wrong("os error")
    assert "block " + "9" * 40 + "\n" in Run("runs", week, "9" * 40).refused(7)
    trace = (SAMPLES / "break.trace").read_bytes()
    assert Run("runs", week, "3").out == Run("runs", "-", "3", data=week.read_bytes()).out == trace
    run = Run("runs", week, "3", "-o", "-")
    assert run.out == trace and run.told.startswith(f"{week}, block 3 rle source 51a70001 begin 65500 end 204 lost "), run.what
    # The number of a block is no file, whatever files there are.
    (folder / "3").write_bytes(b"")
    assert Run("runs", week, "3", "-o", "3", cwd=folder).status == 0
    assert (folder / "3").read_bytes() == trace
    # A block that is dropped, and one of another type, are named.
    path = folder / "bad.xr"
    path.write_bytes(listing.packet([listing.block(1, 0, b""), listing.block(9, 0, b"")]))
    for index, line in enumerate(("dropped type 1 reason 1", "unknown type 9 bytes 0")):
        told = Run("runs", path, str(index)).refused(7)
        assert f"{path}, block {index} {line}\n" in told and "the job `list` shows" in told, told
    # One byte more than the largest packet.
    path.write_bytes(bytes([128, 207, 255, 255]) + bytes(262141))
    Run("runs", path, "0").refused(4)


def check_report_runs(folder):
    """A report with Loss RLE: its block stands before the last, begins with the interval, and gives the trace back."""
    rng = random.Random(9)
    path, packet = folder / "some.trace", folder / "some.xr"
    for length in (9, 15, 16, 30, 31, 60, 61, rng.randrange(9, 400), rng.randrange(9, 400), 65533):
        trace = bytes(rng.choices([0, 1], [9, 1], k=length))
        path.write_bytes(trace)
        first = rng.choice([0, 7, 65535, 65536, 4294967295, rng.randrange(2 ** 32)])
        words = settings(2, 3, 1, 1000)
        plain, more = (report(path, packet, *words, *option, extended_first=str(first)) for option in ([], ["--runs"]))
        size = 80 + 12 + 4 * -(-length // 30)
        assert "  80 bytes to" in plain.text() and f"  {size} bytes to" in more.text(), more.what
        lines = Run("list", packet).text().splitlines()
        assert packet.stat().st_size == size and lines[0] == "ssrc 00000001 blocks 5", lines
        begin = first % WORD
        rle = f"3 rle source 00000002 begin {begin} end {(begin + length) % WORD} lost {sum(trace)}"
        assert lines[4] == rle and lines[5].startswith("4 eli "), lines
        written = loss_rle.block_bytes(2, begin, trace)
        assert packet.read_bytes()[-12 - len(written):-12] == written, (length, begin)
        assert Run("runs", packet, "3").text() == digits(trace), length
        got = report(path, folder / "json.xr", *words, "--runs", "--json", extended_first=str(first)).json()
        assert (got["blocks"], got["size"], got["list"][3]["fields"]["lost"]) == (5, size, sum(trace)), got
        assert (folder / "json.xr").read_bytes() == packet.read_bytes()


def check_report_runs_refused(folder):
    """Discarded packets and traces that are too long for Loss RLE alone: said so, and nothing is written."""
    path, none, card = folder / "some.trace", folder / "not.xr", ["--card", CARD, "--runs"]
    for data, number, place, words in [(b"0" * 120 + b"2", 9, 120, "that packet was discarded"), (bytes(300) + b"\2\0", 9, 300, "discarded"),
                                       (bytes(65534), 10, 0, "over 65,533 packets"), (bytes(65536), 10, 0, "over 65,533 packets"),
                                       (bytes(65537), 10, 0, "over 65536 packets"), (b"0" * 120 + b"3", 9, 120, "byte 33, character 121")]:
        path.write_bytes(data)
        told = report(path, none, *card).refused(number, place)
        assert words in told, told
        assert ("--runs" in told) == (len(data) < 65537 and data[-1:] != b"3"), told
        status = report(path, folder / "without.xr", "--card", CARD).status
        assert status == (0 if "--runs" in told else 1), told
    report(path, none, "--card", CARD, "--runs=1").wrong("takes no value")
    assert not none.exists() and os.path.exists(folder / "without.xr")
