"""figures, loss and plan."""
import os
import random
import subprocess

import document01 as paper
from run import CARD, COUNTS, SAMPLES, Run, random_trace, refusal_of, settings, some_count


SINGLE = ["--batch", "1", "--threshold", "0"]  # batches of one packet


def as_digits(trace, rng):
    """The trace in digits with white space anywhere."""
    return b"".join(rng.choice([b"", b"", b" ", b"\n", b"\t \r\n\v\f"]) + b"%d" % packet for packet in trace) + b"\n"


def listed(figures):
    shown = [paper.figure(figures[name]) for name in ("burst_rate", "gap_rate", "burst_mean", "burst_variance")]
    return "burst {} gap {} mean {} var {}".format(*shown)


def some_input(rng):
    """A trace, in one in six cases with a bad packet or with none, in one of its forms."""
    trace = bytearray(random_trace(rng))
    if rng.random() < 0.15:
        trace[rng.randrange(len(trace))] = rng.randrange(3, 10)
    trace = bytes(trace) * (rng.random() > 0.04)
    form = rng.choice(["bytes", "digits"])
    return trace, form, trace if form == "bytes" else as_digits(trace, rng)


def answered(job, words, data, want):
    """What a job answers in JSON, where document 01 has an answer; else the same refusal, and None."""
    answer, refusal = want
    got = Run(job, *words, data=data).json()
    assert got["refusal"] == (refusal or {"number": 0, "place": 0}), (job, words, data, got, want)
    return got if answer is not None else None


def check_traces(_):
    """figures, loss and plan of random traces in both forms, by each choice of what counts or by none, beside document 01;
    settings in and out of range."""
    rng = random.Random(6)
    for _ in range(250):
        trace, form, data = some_input(rng)
        gmin, batch = rng.choice([1, 2, 16, 255, 0, 256]), rng.choice([1, 2, 5, 100, 1024, 0, 1025])
        threshold, spacing = rng.choice([0, 1, 3, 10, 1024, 1025]), rng.choice([1, 400, 1000, 40000, 0, 40001])
        count, chosen = some_count(rng)
        event = COUNTS[count or "lost"]
        words = [*settings(gmin, batch, threshold, spacing), "--json", *chosen, "-", *rng.choice([[], ["--form", form]])]
        want = refusal_of(paper.figures, event, gmin, spacing, trace)
        if got := answered("figures", words, data, want):
            names = [count] if count else ["lost", "discarded"]
            assert [name for name in got if name in COUNTS] == names and got.get("count") == count, got
            for name in names:
                assert listed(got[name]) == paper.figures(COUNTS[name], gmin, spacing, trace), (words, trace, got)
            assert (got["packets"], got["form"], got["settings"]) == (len(trace), form, {"gmin": gmin, "spacing": spacing}), got
        want = refusal_of(paper.loss, event, batch, threshold, trace)
        if got := answered("loss", words, data, want):
            first = got["first"] if got["found"] else "none"
            shown = f"over {got['over']} of {got['batches']} index {got['index']} first {first}"
            assert shown == want[0], (words, trace, got)
            assert (got["settings"], got.get("count")) == ({"batch": batch, "threshold": threshold}, count), got
        want = refusal_of(paper.plan, event, batch, threshold, trace, len(trace))
        if got := answered("plan", words, data, want):
            assert bytes(packet in set(got["marked"]) for packet in range(len(trace))) == want[0], (words, trace, got)
            assert (got["marks"], got.get("count")) == (sum(want[0]), count), got


def check_words(_):
    """What is said of figures, loss and plan; a setting over a card."""
    text = Run("figures", "--gmin", "2", "--spacing", "1000", "-", data=b"10100100011").text()
    assert "11 packets, taken as digits\nGmin 2 packets, spacing 1000 microseconds\n" in text, text
    assert "26214  79.999 % of the packets in bursts were lost" in text and "65535  could not be measured" in text, text
    assert "0  0.000 %, fewer than 1 in 32768, of the packets outside bursts were discarded" in text, text
    text = Run("figures", "--gmin", "255", "--spacing", "40000", "-", data=b"\1" * 5000).text()
    assert "5000 packets, taken as bytes" in text and "65534  too large to send" in text, text
    assert "32768  100.000 %" in text and "65535  could not be measured: there were no packets outside" in text, text
    text = Run("loss", "--card", CARD, "--batch", "3", "--threshold", "1", "-", data=b"011010100").text()
    assert "packets 0 to 2" in text and "37448  57.142 %" in text, text
    assert "packet 1\n" in Run("loss", *SINGLE, "-", data=b"010").text()
    text = Run("loss", "--batch", "3", "--threshold", "0", "-", data=b"000").text()
    assert text.endswith("    0  0.000 %\n  first batch over               none\n"), text
    assert "0  under 0.002 %" in Run("loss", *SINGLE, "-", data=b"\1" + bytes(65535)).text()
    assert "100.000 %" in Run("loss", *SINGLE, "-", data=b"111").text()
    text = Run("plan", *SINGLE, "-", data=b"0111011010").text()
    assert text.endswith("  resend 6 packets:\n  1-3 5-6 8\n"), text
    assert "resend 1 packet:\n  0\n" in Run("plan", *SINGLE, "-", data=b"1").text()
    text = Run("plan", *SINGLE, "-", data=b"10" * 30000).text()
    rows = text.split("packets:\n")[1].splitlines()
    assert max(map(len, rows)) < 100 and " ".join(rows).split() == [str(i) for i in range(0, 60000, 2)]
    for word, name in [("-", "standard input"), (str(SAMPLES / "good-line.trace"), "good-line.trace")]:
        assert name in Run("loss", "--card", CARD, word, data=(SAMPLES / "good-line.trace").read_bytes()).text()


def check_unfit(folder):
    """No packets, and characters that fit neither form."""
    path = folder / "some.trace"
    refused = [(b"", 10, 0, "0 packets"), (b" \n\t\n", 10, 0, "0 packets"),
               (b"01\n0x0", 9, 3, "taken as digits: byte 78, character 2 of line 2"),
               (b"012\n3", 9, 3, "byte 33, character 1 of line 2"), (b"\xef\xbb\xbf01", 9, 0, "byte ef, character 1 of line 1"),
               (b"\0\1\3", 9, 2, "taken as bytes: byte 03 at offset 2"), (b"\0\0001", 9, 2, "byte 31 at offset 2"),
               (b"1\0", 9, 1, "byte 00, character 2 of line 1"), (b"hello", 9, 0, "byte 68, character 1 of line 1"),
               (b"\7\1", 9, 0, "byte 07 at offset 0")]
    for data, number, place, words in refused:
        path.write_bytes(data)
        assert words in Run("loss", *SINGLE, path).refused(number, place), data
        assert words in Run("plan", *SINGLE, "-", data=data).refused(number, place), data
    assert "offset 0" in Run("loss", *SINGLE, "--form", "bytes", "-", data=b"01").refused(9, 0)
    assert "character 1 of line 1" in Run("loss", *SINGLE, "--form=digits", "-", data=b"\0").refused(9, 0)


def check_longest(folder):
    """As many packets as a trace can have, in both forms."""
    most, trace = folder / "most.trace", random.Random(1).choices([0, 1, 2], [90, 8, 2], k=65536)
    for data in (bytes(trace), bytes(48 + packet for packet in trace) + b"\n"):
        most.write_bytes(data)
        got = Run("loss", "--card", CARD, "--json", most).json()
        assert (got["packets"], got["batches"]) == (65536, 65437), got
        assert listed(Run("figures", "--card", CARD, "--json", most).json()["lost"]) == paper.figures(1, 16, 400, bytes(trace))
        assert Run("plan", "--card", CARD, most, "-o", folder / "plan").status == 0
        assert len((folder / "plan").read_bytes()) == 65536


def check_longer(folder):
    """One packet more and many more; an endless file; a pipe."""
    most = folder / "most.trace"
    for data, form in ((bytes(65537), "bytes"), (b"0" * 65537, "digits"), (b"0 1\n" * 40000, "digits"), (b"\3" * 70000, "digits")):
        most.write_bytes(data)
        assert f"over 65536 packets, taken as {form}" in Run("figures", "--card", CARD, most).refused(10)
        Run("loss", "--batch", "0", "--threshold", "0", most).refused(15)
    Run("figures", "--card", CARD, "/dev/zero").refused(10)
    pipe = folder / "pipe"
    os.mkfifo(pipe)
    with subprocess.Popen(["bash", "-c", f"printf 0101 > {pipe}"]):
        assert "4 packets" in Run("loss", *SINGLE, pipe).text()
