"""One run of the command, and what the checks of its jobs share."""
import json
import pathlib
import subprocess

import document01 as paper

COMMAND = str(pathlib.Path("target/bin/nuvaskoe").resolve())
SAMPLES = pathlib.Path("samples").resolve()
CARD = "01600100000100040096"
COUNTS = {"lost": paper.LOST, "discarded": paper.DISCARDED, "either": paper.EITHER}  # what --count takes
# The line that says what was counted, of loss, plan and pack.
SAID = {"discarded": "counted as lost: discarded packets\n", "either": "counted as lost: lost and discarded packets\n"}
EXCHANGED = "01600100000010040096"  # two of its digits


class Run:
    """One run; whatever it was given, it ends with a status of the three, and with words that fit."""
    count = 0
    names = set()  # every name that JSON had

    def __init__(self, *words, data=b"", **more):
        Run.count += 1
        self.words = words
        outputs = {"stdout": subprocess.PIPE, "stderr": subprocess.PIPE, **more}
        run = subprocess.run([COMMAND, *words], input=data, timeout=60, **outputs)
        self.status, self.out, self.told = run.returncode, run.stdout, run.stderr.decode(errors="replace")
        self.what = f"nuvaskoe {' '.join(map(repr, words))}: status {self.status}, {self.told}"
        assert self.status in (0, 1, 2), self.what
        assert "panicked" not in self.told, self.what
        if self.status == 1 and words[0] == "compare":  # differences, which are no failure
            assert self.out and not self.told, self.what
        elif self.status == 1:
            assert self.refusal().startswith("refused ") and "  what to do: " in self.told, self.what
        assert self.status != 2 or self.told, self.what

    def refusal(self):
        """The line that says so: the first, but behind the words of an answer where standard output is a file's."""
        lines = self.told.splitlines()
        if self.words[-2:] == ("-o", "-"):
            lines = [line for line in lines if line.startswith("refused ")]
        return lines[0] if lines else ""

    def text(self):
        assert self.status == 0, self.what
        return self.out.decode()

    def json(self):
        """The one object, in which no name stands twice."""
        def members(pairs):
            assert len(dict(pairs)) == len(pairs), pairs
            Run.names.update(dict(pairs))
            return dict(pairs)
        return json.loads(self.out, object_pairs_hook=members)

    def refused(self, number, place=0):
        assert self.status == 1 and self.refusal() == f"refused {number} at {place}", self.what
        return self.told

    def wrong(self, *parts):
        """Status 2, nothing on standard output, and each part in the words."""
        assert (self.status, self.out) == (2, b""), self.what
        assert all(part in self.told for part in parts), self.what


def settings(gmin=16, batch=100, threshold=10, spacing=400):
    return [f"--gmin={gmin}", f"--batch={batch}", f"--threshold={threshold}", f"--spacing={spacing}"]


def some_count(rng):
    """A choice of what counts, or None, and the words that ask for it."""
    count = rng.choice([None, *COUNTS])
    return count, [] if count is None else rng.choice([["--count", count], [f"--count={count}"]])


def refusal_of(call, *given):
    """What document 01 answers, or its refusal."""
    try:
        return call(*given), None
    except paper.Refused as refused:
        return None, {"number": refused.number, "place": refused.place}


def random_trace(rng):
    odds = rng.choice([(1, 0, 0), (8, 1, 1), (1, 1, 1), (0, 1, 0), (20, 1, 0)])
    return bytes(rng.choices([0, 1, 2], odds, k=rng.choice([1, 2, 9, rng.randrange(1, 60), rng.randrange(1, 400)])))
