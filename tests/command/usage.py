"""Wrong usage, files that cannot be read or written, outputs that go away, help and explain, and anything at all."""
import os
import pathlib
import random
import re
import resource
import shutil
import signal
import subprocess

import listing
from run import CARD, COMMAND, EXCHANGED, SAMPLES, Run, settings


GOOD = str(SAMPLES / "good-line.trace")


def check_usage(_):
    """Words that are no job; the page of every job, however it is asked for."""
    Run().wrong("which job?")
    Run("nothing").wrong('no job "nothing"', "jobs: list")
    Run("card").wrong("card what?")
    Run("--json", "list").wrong("the job comes first")
    Run("help", "figures", "x").wrong('no job "figures x"')
    for job, fewer in [("list", "FILE is missing"), ("compare", "two files are needed"), ("dials", "FILE is missing"),
                       ("runs", "FILE and K are needed"),
                       ("card read", "TEXT is missing"),
                       ("figures", "TRACE is missing"), ("loss", "TRACE is missing"), ("plan", "TRACE is missing"),
                       ("pack", "TRACE is missing"), ("unpack", "FILE and PACKETS are needed"),
                       ("report", "TRACE is missing"), ("explain", "N is missing")]:
        Run(*job.split()).wrong(fewer, f"usage: nuvaskoe {job}")
        assert Run(*job.split(), "--help").text() == Run("help", *job.split()).text()
        Run(*job.split(), "--none", GOOD).wrong("there is no option --none")
    assert Run("card", "--help").text() == Run("help", "card").text() == Run("card", "-h").text()
    assert Run("--help").text() == Run("help").text() == Run("-h").text()
    assert Run("--version").text() == Run("-V").text() == Run("--version", "x").text()


def check_options(_):
    """Options that are none, that lack a value or have a wrong one."""
    Run("figures", GOOD).wrong("missing: --card, or --gmin, --spacing\n")
    Run("loss", "--batch", "3", GOOD).wrong("missing: --card, or --threshold\n")
    Run("figures", "--card", CARD, "--batch", "three", GOOD).wrong('--batch: "three" is no number')
    for number in ("x", "", "-1", "+1", "1.5", "0x10", "٣", "1 ", "-"):
        Run("loss", "--card", CARD, "--batch", number, GOOD).wrong(f'"{number}" is no number')
    Run("figures", "--card", CARD, "--gmin").wrong("--gmin needs G")
    for word in ("--json", "--batch=3", "--help", "-h", "--"):
        Run("plan", "--card", CARD, GOOD, "-o", word).wrong("-o needs FILE")
    Run("figures", "--card", CARD, "--card", CARD, GOOD).wrong("given twice")
    Run("figures", "--card", CARD, "--json=1", GOOD).wrong("takes no value")
    Run("figures", b"--card=\xff", GOOD).refused(11)
    Run("figures", "--card=", GOOD).refused(11)
    Run("figures", "--card", CARD, "--form", "words", GOOD).wrong("neither bytes nor digits")
    Run("figures", "--card", CARD, GOOD, GOOD).wrong("too many")
    Run("figures", "--card", "-", "-").wrong("once")
    Run("list", "-", "-").wrong("once")
    Run("compare", "-", "-").wrong("once")
    Run("compare", "-").wrong("two files are needed")
    Run("compare", GOOD, GOOD, GOOD).wrong("too many")
    Run("plan", "--card", CARD, GOOD, "-o", "-", "--json").wrong("standard output")
    assert Run("plan", "--card", CARD, "--", GOOD).status == 0


def check_unreadable(folder):
    """Files that cannot be read."""
    for job in (["list"], ["compare", SAMPLES / "p12.xr"], ["dials"], ["figures", "--card", CARD], ["plan", "--card", CARD]):
        for name in (folder, folder / "not there", b"\xff\xfe", "", "a\nb"):
            run = Run(*job, name)
            assert run.status == 2 and "os error" in run.told, run.what
    odd = folder / os.fsdecode(b'a"\\\n\xff.trace')
    odd.write_bytes(b"0101")
    assert Run("loss", *settings(batch=1), odd, "--json").json()["file"].endswith('a"\\\n\ufffd.trace')


def no_room():
    """Room for 100 bytes in a file."""
    signal.signal(signal.SIGXFSZ, signal.SIG_IGN)
    resource.setrlimit(resource.RLIMIT_FSIZE, (100, 100))


def check_unwritable(folder):
    """Files that cannot be written: nothing stays behind, or an empty file where the disk is full."""
    for name in (folder, "/dev/full", folder / "none" / "plan", ""):
        Run("plan", "--card", CARD, GOOD, "-o", name, cwd=folder).wrong("os error")
    assert list(folder.iterdir()) == []
    Run("plan", "--card", CARD, GOOD, "-o", folder / "cut", preexec_fn=no_room).wrong("File too large")
    assert (folder / "cut").read_bytes() == b""


def check_kept(folder):
    """A refused call writes no file, and no input is written over, by whatever name."""
    kept, link, hard, other = (folder / name for name in ("kept", "link", "hard", "other"))
    kept.write_bytes(b"0110")
    other.write_bytes(b"0110")
    link.symlink_to(kept)
    hard.hardlink_to(kept)
    Run("plan", "--card", CARD, "--batch", "0", GOOD, "-o", kept).refused(15)
    for trace, out in ((kept, kept), (link, kept), (kept, link), (hard, kept)):
        Run("plan", *settings(batch=1), trace, "-o", out).wrong("not written over")
    for words in (["plan", *settings(batch=1), "-", "-o", kept], ["plan", "--card", "-", GOOD, "-o", link]):
        with open(kept, "rb") as given:
            run = subprocess.run([COMMAND, *words], stdin=given, capture_output=True)
            assert run.returncode == 2 and b"not written over" in run.stderr, run
    assert kept.read_bytes() == b"0110"
    assert Run("plan", *settings(batch=1, threshold=0), kept, "-o", other).status == 0
    assert other.read_bytes() == b"\0\1\1\0"
    assert Run("plan", "--card", CARD, GOOD, "-o", link).status == 0
    assert link.is_symlink() and kept.read_bytes() == hard.read_bytes() == bytes(1200)


def check_standard_output(folder):
    """-o - and other names of standard output."""
    assert Run("plan", "--card", CARD, "-o", "-", GOOD).out == bytes(1200)
    Run("plan", "--card", CARD, "-o", "/dev/stdout", GOOD).wrong("write -")
    line = f'"{COMMAND}" plan --card {CARD} {GOOD} -o {folder}/both > {folder}/both'
    run = subprocess.run(["bash", "-c", line], capture_output=True)
    assert run.returncode == 2 and b"write -" in run.stderr, run
    assert Run("plan", "--card", CARD, GOOD, "-o", "/dev/null", stdout=subprocess.DEVNULL, stderr=subprocess.PIPE).status == 0


def rows_of(head):
    """Number, meaning and advice of each row of README's table with this head."""
    table = pathlib.Path("README.md").read_text().split(f"| {head} | Meaning | What to do |")[1].split("\n\n")[0]
    return re.findall(r"^\| (\d+) \| (.+?) \| (.+?) \|$", table, re.M)


def check_explain(_):
    """Every row of README's two tables."""
    tables = [rows_of("N"), rows_of("Reason")]
    assert [len(table) for table in tables] == [17, 5]
    for number in range(1, 18):
        rows = [(kind, *row) for kind, table in zip(("refusal", "reason"), tables) for row in table if row[0] == str(number)]
        words = "".join(f"{kind} {n}: {meaning}\n  what to do: {advice}\n" for kind, n, meaning, advice in rows)
        assert Run("explain", str(number)).text() == words, words
        got = Run("explain", "--json", str(number)).json()["explained"]
        assert [(row["kind"], str(row["number"]), row["meaning"], row["advice"]) for row in got] == rows, got
    assert Run("explain", "D4", "d1").text().startswith("reason 4: ")
    assert Run("explain", "D5").text().startswith("reason 5: the chunks of Loss RLE (1) ")
    for word in ("0", "-", "18", "D0", "D6", "4294967297", "x", "", "D", "+1", "9" * 30):
        Run("explain", word).wrong("is no refusal and no reason")


def check_broken_pipe(folder):
    """A reader that goes away: nothing is said of it, and what was refused or not read before keeps its status."""
    packet = folder / "many.xr"
    packet.write_bytes(listing.four_byte_blocks(65536))
    for names, status in (([packet, packet], 0), ([packet / "none", packet, packet], 2)):
        with subprocess.Popen([COMMAND, "list", *names], stdout=subprocess.PIPE, stderr=subprocess.PIPE) as run:
            run.stdout.read(1)
            run.stdout.close()
            assert (run.wait(), b"pipe" in run.stderr.read()) == (status, False)
    line = f'(sleep 0.2; "{COMMAND}" plan --json --card 1 {GOOD}; echo $? >&2) | true'
    told = subprocess.run(["bash", "-c", line], capture_output=True).stderr
    assert told.startswith(b"refused 11 at 0\n") and told.endswith(b"\n1\n"), told


def check_in_turn(folder):
    """A packet is printed before the next one can be read."""
    pipe = folder / "pipe"
    os.mkfifo(pipe)
    with subprocess.Popen([COMMAND, "list", SAMPLES / "p12.xr", pipe], stdout=subprocess.PIPE) as run:
        head = f"==> {SAMPLES / 'p12.xr'} <==\n{listing.P12_TEXT}".encode()
        assert run.stdout.read(len(head)) == head
        pipe.write_bytes(listing.P12)
        assert run.stdout.read().endswith(listing.P12_TEXT.encode()) and run.wait() == 0


def check_full_and_closed(folder):
    """A full disk behind standard output, closed outputs, an endless input."""
    with open("/dev/zero", "rb") as endless:
        assert subprocess.run([COMMAND, "list", "-"], stdin=endless, capture_output=True).stdout == b"too long\n"
    with open("/dev/full", "wb") as full:
        run = subprocess.run([COMMAND, "list", SAMPLES / "p12.xr"], stdout=full, stderr=subprocess.PIPE)
        assert run.returncode == 2 and b"standard output" in run.stderr, run
        assert subprocess.run([COMMAND, "list", folder / "none"], stderr=full).returncode == 2
    line = f'"{COMMAND}" explain 99 2>&-; echo $?; "{COMMAND}" explain 9 >&-; echo $?'
    closed = subprocess.run(line, shell=True, capture_output=True)
    assert closed.stdout.split() == [b"2", b"0"], closed


def check_pages(folder):
    """The manual page and the completion."""
    page = Run("help", "--manual").text()
    script = folder / "completion"
    script.write_text(Run("help", "--completion").text())
    names = re.findall(r"^  (\S+(?: \S+)?)  ", Run("help").text().split("\n\n")[2], re.M)
    assert re.findall(r"^\.SS (.*)$", page, re.M) == names and len(names) == 14, (names, page)
    assert re.findall(r"^\.B (D?\d+)$", page, re.M) == [*map(str, range(1, 18)), "D1", "D2", "D3", "D4", "D5"], page
    if shutil.which("groff"):
        shown = subprocess.run(["groff", "-man", "-ww", "-Tascii"], input=page, capture_output=True, text=True, check=True)
        assert shown.stderr == "" and r"$ printf '\200\317\0\4" in shown.stdout, shown
    for typed, completed in [("fi", "figures"), ("card m", "make"), ("card ''", "read make"), ("plan -", "--card --gmin"),
                             ("card make --s", "--spacing"), ("plan ''", ""), ("list x ''", ""), ("help lo", "loss"), ("zz", ""),
                             ("figures --form ''", "bytes digits"), ("loss --count ''", "lost discarded either"), ("pack x --count e", "either"),
                             ("figures --c", "--card --count"), ("report --co", ""), ("com", "compare"), ("compare a -", "--json"), ("dials x -", "-o --json"),
                             ("ru", "runs"), ("runs x 1 -", "-o --json"), ("report --r", "--runs"), ("pa", "pack"), ("un", "unpack"),
                             ("loss --p", "--packed"), ("plan --p", "--packed"), ("pack x -", "--count --form -o --json"), ("unpack x 9 -", "-o --json")]:
        line = f"set -eu; source {script}; COMP_WORDS=(nuvaskoe {typed}); COMP_CWORD=$((${{#COMP_WORDS[@]}} - 1)); _nuvaskoe"
        told = subprocess.run(["bash", "-c", f"{line}; echo ${{COMPREPLY[@]-}}"], capture_output=True, text=True, check=True).stdout
        assert told.startswith(completed) and (completed or told == "\n"), (typed, told)


def check_anything(folder):
    """Random words and random files: always one of the three statuses, and no panic."""
    rng = random.Random(5)
    path = folder / "anything"
    packet = shutil.copy(SAMPLES / "week-1.xr", folder)
    some = ["list", "compare", "dials", "runs", "card", "read", "make", "figures", "loss", "plan", "pack", "unpack", "report", "explain",
            "help", "--json", "--form", "--packed", "--packed=9", "--count", "--count=either", "either", "discarded", "bytes", "digits", "--card", CARD, EXCHANGED, "--gmin", "--batch", "--threshold", "--spacing", "-o", "--", "-", "",
            "--flag", "0", "1", "3", "99999", "-h", "--version", "é", b"\xff", "--gmin=2", "--batch=3", "--threshold=1",
            "--spacing=400", "--runs", str(path), packet]
    for _ in range(1500):
        path.write_bytes(rng.choice([rng.randbytes(rng.randrange(40)), bytes(rng.choices([0, 1, 2, 3, 48, 49, 10], k=30))]))
        jobs = [["list"], ["compare"], ["dials"], ["runs"], ["card", "read"], ["figures"], ["loss"], ["plan"], ["pack"], ["unpack"],
                ["report"], ["explain"], []]
        Run(*rng.choice(jobs), *rng.choices(some, k=rng.randrange(7)), data=rng.randbytes(20), cwd=folder)
