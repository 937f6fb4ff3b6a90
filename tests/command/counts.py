"""--count: what counts as a loss, by figures, loss, plan and pack."""
import random

import document01 as paper
from run import CARD, COUNTS, SAID, SAMPLES, Run, random_trace
from traces import SINGLE

CHOIR = SAMPLES / "choir.trace"
BATCHES = ["--batch", "3", "--threshold", "1"]
LATE = b"011020200"  # the losses of P1 and P2, the last two of them late


def as_digits(trace):
    return bytes(48 + packet for packet in trace)


def check_counted_words(_):
    """loss and plan by each choice say what they say of the counted packets as lost ones, and which packets these were."""
    rng = random.Random(12)
    for _ in range(40):
        trace, batch = random_trace(rng) + bytes(9), rng.choice([1, 2, 5, 9])
        words = ["--batch", str(batch), "--threshold", str(rng.choice([0, 0, 1, 2, 5])), "-"]
        for job in ("loss", "plan"):
            plain = Run(job, *words, data=as_digits(trace)).text()
            for count, event in COUNTS.items():
                text = Run(job, *words, "--count", count, data=as_digits(trace)).text()
                head, settings, rest = Run(job, *words, data=as_digits(paper.counted(event, trace))).text().split("\n", 2)
                assert text == f"{head}\n{settings}\n{SAID.get(count, '')}{rest}", (job, words, count, trace, text)
                assert count != "lost" or text == plain, (text, plain)


def check_counted_json(folder):
    """JSON has the choice where one is given, and is else as it was."""
    for job, more in (("loss", BATCHES), ("plan", BATCHES), ("figures", ["--gmin", "2", "--spacing", "1000"]),
                      ("pack", ["-o", folder / "some.packed"])):
        plain = Run(job, *more, "--json", "-", data=LATE).json()
        assert "count" not in plain and "either" not in plain, plain
        for count in COUNTS:
            got = Run(job, *more, "--json", "--count", count, "-", data=LATE).json()
            assert got["count"] == count and list(got)[:3] == ["file", "form", "packets"], got
            if count == "lost":
                kept = {name: value for name, value in plain.items() if name != "discarded"}
                assert {**kept, "count": "lost"} == got, (plain, got)
    over = [Run("loss", *BATCHES, "--json", f"--count={count}", "-", data=LATE).json()["over"] for count in COUNTS]
    marked = [Run("plan", *BATCHES, "--json", f"--count={count}", "-", data=LATE).json()["marked"] for count in COUNTS]
    assert (over, marked) == ([2, 1, 4], [[2], [6], [2, 6]]), (over, marked)


def check_counted_figures(_):
    """One part of the figures, with what happened to the packets that count as its heading and verb."""
    words = ["figures", "--gmin", "2", "--spacing", "1000", "-"]
    head, both = Run(*words, data=LATE).text().split("\n\n")
    parts = [Run(*words, "--count", count, data=LATE).text().split("\n\n") for count in COUNTS]
    assert all(part[0] == head for part in parts) and both == parts[0][1] + parts[1][1], (both, parts)
    lines = parts[2][1].splitlines()
    assert lines[0] == "lost or discarded" and lines[1].endswith(" of the packets in bursts were lost or discarded"), lines
    assert lines[1].split()[2] == str(4 * 32768 // 6) and lines[3].split()[2] == "6", lines


def check_counted_files(folder):
    """Packed by each choice, a file gives what the trace gives by that choice, and 1 for each counted packet."""
    trace, path = CHOIR.read_bytes(), folder / "choir.packed"
    for count, event in COUNTS.items():
        text = Run("pack", "--count", count, CHOIR, "-o", path).text()
        assert text == f"{CHOIR}: 1500 packets, taken as bytes\n{SAID.get(count, '')}\n  24 words\n  192 bytes to {path}\n", text
        unpacked = Run("unpack", path, "1500").out.replace(b"\n", b"")
        assert unpacked == as_digits(paper.counted(event, trace)), count
        for job in ("loss", "plan"):
            of_file = Run(job, "--card", CARD, "--packed", "1500", path).text().split("\n\n")[1]
            assert of_file == Run(job, "--card", CARD, "--count", count, CHOIR).text().split("\n\n")[1], (job, count)
        plan = Run("plan", "--card", CARD, "--count", count, CHOIR, "-o", "-").out
        assert plan == paper.plan(event, 100, 10, trace, 1500) == Run("plan", "--card", CARD, "--packed=1500", path, "-o", "-").out
    assert Run("pack", CHOIR, "-o", "-").out == Run("pack", "--count=lost", CHOIR, "-o", "-").out


def check_count_usage(folder):
    """Values that are none, and jobs that take no choice; nothing is written."""
    none = folder / "none"
    for job in (["figures", "--card", CARD], ["loss", *SINGLE], ["plan", *SINGLE], ["pack", "-o", none]):
        for bad in ("", "Lost", "LOST", "both", "all", "1", "3", "lost ", "lost,discarded", "-", b"\xff"):
            Run(*job, "--count", bad, CHOIR).wrong('--count: "', '" is none of lost, discarded and either\nusage: nuvaskoe ')
        Run(*job, CHOIR, "--count").wrong("--count needs WHAT behind it")
        Run(*job, "--count", "lost", "--count=lost", CHOIR).wrong("--count is given twice")
    for job in ("loss", "plan"):
        for count in COUNTS:
            for words in (["--packed", "240", "--count", count], [f"--count={count}", "--packed=240"]):
                Run(job, *SINGLE, *words, SAMPLES / "break.packed").wrong("what counts was chosen when the file was packed")
        Run(job, *SINGLE, "--packed", "240", "--count", "x", SAMPLES / "break.packed").wrong("is none of lost, discarded and either")
    for job in (["report", "--card", CARD], ["unpack"], ["runs"], ["list"], ["card", "make"], ["dials"], ["explain"]):
        Run(*job, "--count", "either", CHOIR).wrong("there is no option --count")
    assert not none.exists()


def check_counted_refusals(_):
    """A bad packet is refused by every choice, and a discarded one by none."""
    for job in (["figures", "--card", CARD], ["loss", *SINGLE], ["plan", *SINGLE], ["pack", "-o", "-"]):
        for count in COUNTS:
            assert "byte 33, character 4 of line 1" in Run(*job, "--count", count, "-", data=b"0123").refused(9, 3)
            Run(*job, "--count", count, "-", data=b"").refused(10)
            assert Run(*job, "--count", count, "-", data=b"0122").status == 0
