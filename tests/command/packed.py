"""pack and unpack, and loss and plan of packed files."""
import random
import shutil
import struct

import document01 as paper
import document02 as tickets
from run import CARD, COUNTS, SAID, SAMPLES, Run, random_trace, refusal_of, settings, some_count
from runs import digits
from traces import SINGLE, as_digits

NOT_REFUSED = {"number": 0, "place": 0}


def file_of(words):
    """A packed file: each word big-endian, and nothing else."""
    return struct.pack(f">{len(words)}Q", *words)


def lossy(rng, length):
    """A trace without discarded packets."""
    return bytes(rng.choices([0, 1], rng.choice([(9, 1), (1, 1), (1, 9), (1, 0), (0, 1)]), k=length))


def some_length(rng):
    return rng.choice([1, 2, 9, 63, 64, 65, 127, 128, 129, rng.randrange(1, 400), rng.randrange(1, 400)])


def check_pack(folder):
    """Traces of both forms, by each choice of what counts or by none, with and without discarded packets and bad characters:
    the file and what is said of it."""
    rng = random.Random(10)
    path, out, met = folder / "some.trace", folder / "some.packed", set()
    for round in range(200):
        trace = bytearray(rng.choice([random_trace(rng), lossy(rng, some_length(rng))]))
        if rng.random() < 0.1:
            trace[rng.randrange(len(trace))] = rng.randrange(3, 10)
        form = rng.choice(["bytes", "digits"])
        trace = bytes(trace) * (round % 30 > 0)
        path.write_bytes(trace if form == "bytes" else as_digits(trace, rng))
        count, chosen = some_count(rng)
        event = COUNTS[count or "lost"]
        words, refusal = refusal_of(tickets.packed, event, trace, 1024)
        out.unlink(missing_ok=True)
        run = Run("pack", path, *chosen, "--form", form, "-o", out)
        got = Run("pack", "--json", *chosen, path, f"--form={form}", "-o", folder / "json").json()
        assert got["refusal"] == (refusal or NOT_REFUSED), (trace, got)
        met.add((count, got["refusal"]["number"], 2 in trace))
        if refusal:
            run.refused(**refusal)
            assert not out.exists(), run.what
            continue
        packets, size = (f"{n} {word}" + "s" * (n != 1) for n, word in ((len(trace), "packet"), (len(words), "word")))
        said = f"{path}: {packets}, taken as {form}\n{SAID.get(count, '')}\n  {size}\n  {8 * len(words)} bytes to {out}\n"
        assert run.text() == said, (run.out, said)
        assert out.read_bytes() == (folder / "json").read_bytes() == file_of(words), (trace, words)
        assert (got["packets"], got["form"], got["words"], got["size"]) == (len(trace), form, len(words), 8 * len(words)), got
        assert got.get("count") == count, got
        assert Run("unpack", out, str(len(trace))).text() == digits(paper.counted(event, trace)), trace
    assert {number for _, number, _ in met} == {0, 9, 10}, met
    assert all((count, 0, discards) in met for count in [None, *COUNTS] for discards in (False, True)), met


def check_pack_longest(folder):
    """As many packets as a trace can have, and one more."""
    path, out = folder / "most.trace", folder / "most.packed"
    trace = lossy(random.Random(2), 65535) + b"\1"
    path.write_bytes(trace)
    assert Run("pack", path, "-o", out).text().endswith(f"  1024 words\n  8192 bytes to {out}\n")
    assert out.read_bytes() == file_of(tickets.packed(paper.LOST, trace, 1024))
    assert Run("unpack", out, "65536").text() == digits(trace)
    got = [Run("loss", "--card", CARD, *more, "--json").json() for more in ([path], ["--packed", "65536", out])]
    assert got[0]["over"] == got[1]["over"] and got[1]["batches"] == 65437, got
    assert Run("plan", "--card", CARD, "--packed", "65536", out, "-o", folder / "plan").status == 0
    assert (folder / "plan").read_bytes() == Run("plan", "--card", CARD, path, "-o", "-").out
    path.write_bytes(bytes(65537))
    assert "over 65536 packets, taken as bytes" in Run("pack", path, "-o", folder / "none").refused(10)
    assert not (folder / "none").exists()


def given(path, words, packets):
    """A packed file of these words, and the words of a command line that take it."""
    path.write_bytes(file_of(words))
    return ["--packed", str(packets), path]


def some_packed(rng):
    """A packed trace; in one in three cases with another number of packets, a bit past the end, or words too few or too many."""
    trace = lossy(rng, some_length(rng))
    words, packets = tickets.packed(paper.LOST, trace, 1024), len(trace)
    fault = rng.randrange(15)
    if fault == 0:
        packets = rng.choice([0, packets + 1, packets + 64, max(0, packets - 1), 65536, 65537, 10 ** 30])
    elif fault == 1:
        packets = some_length(rng)
    elif fault == 2 and packets % 64:
        words[-1] |= 1 << rng.randrange(packets % 64, 64)
    elif fault == 3:
        words.pop()
    elif fault == 4:
        words += [rng.choice([0, 1, 2 ** 64 - 1])]
    return words, packets


def is_longer(words, packets):
    """Whether there are more words than so many packets need."""
    return 64 * len(words) >= packets + 64


def beside(run, answer, refusal, longer):
    """Whether a run went as document 02 has it: its answer's object; None where it is refused, or the file has too many words."""
    if refusal:
        run.refused(**refusal)
        assert run.json()["refusal"] == refusal, run.what
        return None
    if longer:
        run.wrong("words, and so many packets need ", "give the number of packets that were packed")
        return None
    assert run.status == 0 and answer is not None, run.what
    return run.json()


def check_packed_files(folder):
    """unpack, loss and plan of packed files, good and bad, settings in and out of range, beside document 02."""
    rng, path, met = random.Random(11), folder / "some.packed", set()
    for _ in range(250):
        words, packets = some_packed(rng)
        more, longer = given(path, words, packets), is_longer(words, packets)
        batch, threshold = rng.choice([1, 2, 5, 64, 65, 100, 1024, 0, 1025]), rng.choice([0, 1, 3, 10, 63, 1024, 1025])
        options = [*settings(batch=batch, threshold=threshold), *more, "--json"]
        trace, refusal = refusal_of(tickets.unpacked, words, packets, 65536)
        if got := beside(Run("unpack", path, str(packets), "--json"), trace, refusal, longer):
            assert (got["packets"], got["form"], bytes(got["trace"])) == (packets, "packed", trace), got
        met.add(refusal["number"] if refusal else "longer" if longer else 0)
        loss, refusal = refusal_of(tickets.packed_loss, words, packets, batch, threshold)
        if got := beside(Run("loss", *options), loss, refusal, longer):
            first = got["first"] if got["found"] else "none"
            assert f"over {got['over']} of {got['batches']} index {got['index']} first {first}" == loss, (options, got)
            assert (got["file"], got["packets"], got["form"]) == (str(path), packets, "packed"), got
        met.add(refusal and refusal["number"])
        plan, refusal = refusal_of(tickets.packed_plan, words, packets, batch, threshold, 65536)
        if got := beside(Run("plan", *options), plan, refusal, longer):
            assert bytes(packet in set(got["marked"]) for packet in range(packets)) == plan, (options, got)
            assert Run("plan", *options[:-1], "-o", "-").out == plan
    assert met == {0, None, 8, 9, 10, 14, 15, "longer"}, met


def check_packed_words(folder):
    """What is said of packed files."""
    path = folder / "some.packed"
    options = ["--batch", "3", "--threshold", "1", *given(path, [0x56], 9)]
    text = Run("loss", *options).text()
    assert text.startswith(f"{path}: 9 packets, taken as packed\nbatch 3 packets, threshold 1 loss\n\n"), text
    assert Run("plan", *options).text().endswith("  resend 2 packets:\n  2 6\n")
    out = folder / "some.trace"
    assert Run("unpack", path, "9", "-o", out).text() == f"{path}: 9 packets, taken as packed\n  10 bytes to {out}\n"
    assert out.read_text() == "011010100\n"
    told = Run("unpack", path, "6").refused(9, 6)
    assert "6 packets, taken as packed; bit 6 is a one\n  the bits behind the last packet have to be 0\n" in told, told
    told = Run("loss", *SINGLE, "--packed", "65", path).refused(8)
    assert "65 packets, taken as packed; it has 1 word\n  so many packets need more words, one for each 64\n" in told, told
    assert "over 65536 packets, taken as packed" in Run("plan", *SINGLE, "--packed", "9" * 30, path).refused(10)
    path.write_bytes(bytes(16))
    Run("unpack", path, "64").wrong("64 packets, taken as packed; it has 2 words, and so many packets need 1: ")
    assert Run("unpack", path, "65").status == Run("unpack", path, "128").status == 0
    Run("unpack", "/dev/zero", "65536").wrong("over 1024 words")
    for size in (1, 7, 9, 8191):
        path.write_bytes(bytes(size))
        for words in (["unpack", path, "9"], ["loss", *SINGLE, "--packed", "9", path], ["plan", *SINGLE, "--packed=9", path]):
            Run(*words).wrong(f"{path}: {size} bytes: it was cut off, or is no packed file")
    path.write_bytes(b"")
    Run("unpack", path, "1").refused(8)
    Run("unpack", path, "0").refused(10)


def check_packed_usage(folder):
    """What is missing, no number, or too much; standard input and output; nothing is written over."""
    path, trace = shutil.copy(SAMPLES / "break.packed", folder), SAMPLES / "break.trace"
    for words in ((), (path,)):
        Run("unpack", *words).wrong("FILE and PACKETS are needed")
    for word in ("x", "", "-1x", "+1", "1.0", "0x1", "٣", "-"):
        Run("unpack", "--", path, word).wrong(f'PACKETS: "{word}" is no number')
        Run("loss", *SINGLE, f"--packed={word}", path).wrong(f'--packed: "{word}" is no number')
    Run("unpack", path, "240", "4").wrong('"4" is one word too many')
    Run("pack", trace).wrong("missing: -o\n")
    for job in ("loss", "plan"):
        Run(job, *SINGLE, "--packed", "240", "--form", "bytes", path).wrong("--form and --packed are two forms")
        Run(job, *SINGLE, path, "--packed").wrong("--packed needs PACKETS")
    Run("figures", "--card", CARD, "--packed", "240", path).wrong("there is no option --packed")
    Run("unpack", path, "240", "-o", path).wrong("not written over")
    Run("pack", path, "-o", path).wrong("not written over")
    Run("plan", *SINGLE, "--packed", "240", path, "-o", path).wrong("not written over")
    Run("unpack", folder / "none", "240").wrong("os error")
    Run("loss", *SINGLE, "--packed", "240", folder / "none").wrong("os error")
    data = (SAMPLES / "break.packed").read_bytes()
    assert Run("pack", trace, "-o", "-").out == Run("pack", "-", "-o", "-", data=trace.read_bytes()).out == data
    assert Run("unpack", "-", "240", data=data).out == Run("unpack", path, "240", "-o", "-").out == trace.read_bytes()
    got = [Run("plan", "--card", CARD, *words, data=data).text().split("\n", 1)[1] for words in ([trace], ["--packed", "240", "-"])]
    assert got[0] == got[1], got
    # The number of packets is no file, whatever files there are.
    (folder / "240").write_bytes(b"")
    assert Run("unpack", path, "240", "-o", "240", cwd=folder).status == 0
    assert (folder / "240").read_bytes() == trace.read_bytes()
