#!/usr/bin/env python3
"""Runs the worked cases, cases/*.txt, by the Rust example `cases`, and compares what it writes with text computed by
tests/document01.py and document02.py.

Run in the repository's root after tools/archive.sh. Prints each line that differs and exits with status 1, or one line for each
file. `--print FILE` writes the text computed for one file instead, for which the example is not needed. A case is a word, its
numbers and its data (NUMBERS below); a line that is empty or a comment is copied.
"""
import pathlib
import subprocess
import sys

sys.dont_write_bytecode = True  # a run leaves no files in the tree
import document01
import document02
from document01 import COUNTED, DISCARDED, LOST, Refused

PROGRAM = ["cargo", "run", "--offline", "--quiet", "--example", "cases"]
SHOWN_BYTES, SHOWN_ENTRIES, SHOWN_NUMBERS = 64, 16, 100
HELD = 7  # what each lent byte or entry holds before the call

# The greatest number that a field holds, by the field's name; any other field holds 32 bits.
LIMITS = {"type": 255, "specific": 255, "flag": 255, "packet": 255, "first": 65535, "begin": 65535, "end": 65535,
          "burst": 65535, "gap": 65535, "mean": 65535, "var": 65535, "index": 65535, "LEN": 262144, "ROOM": 262144,
          "ENTRIES": 262144, "NUMBERS": 262144, "PACKETS": 262144, "WORDS": 262144}
TALLY = "event gmin spacing E L Eb Lb n S Q events packets since"
# The fields of each word, then the kind of its data, if it takes any.
NUMBERS = {
    "read": ("LEN", "bytes"), "block": ("k LEN", "bytes"), "body": ("k LEN", "bytes"), "list": ("ENTRIES LEN", "bytes"),
    "compare": ("NUMBERS LEN LEN", "pair"),
    "panel": ("k LEN", "bytes"), "panelalone": ("type specific LEN", "bytes"),
    "panel17": ("flag source burst gap mean var", None), "panel18": ("flag source burst gap", None),
    "alone": ("type specific LEN", "bytes"), "new": ("sender ROOM", None),
    "add14": ("source first efirst elast interval seconds fraction LEN", "bytes"),
    "add17": ("flag source burst gap mean var LEN", "bytes"), "add18": ("flag source burst gap LEN", "bytes"),
    "add240": ("source index LEN", "bytes"),
    "add241": ("source begin end streams c1 c2 c3 c4 c5 c6 c7 c8 LEN", "bytes"),
    "add1": ("source begin LEN PACKETS", "bytes and trace"), "rle": ("k ROOM LEN", "bytes"),
    "card": ("", "card"), "write": ("gmin batch threshold spacing ROOM", None),
    "figures": ("event gmin spacing LEN", "trace"), "tally": ("event gmin spacing LEN", "trace"),
    "loss17": ("gmin spacing source flag LEN", "trace"), "discard18": ("gmin spacing source flag LEN", "trace"),
    "close": (TALLY, None), "tallyblock": (TALLY + " source flag", None), "take": (TALLY + " packet", None),
    "loss": ("event B T LEN", "trace"), "plan": ("event B T ROOM LEN", "trace"),
    "pack": ("event WORDS LEN", "trace"), "unpack": ("packets ROOM WORDS", "words"),
    "packedloss": ("packets B T WORDS", "words"), "packedplan": ("packets B T ROOM WORDS", "words"),
}
# Type, whether a flag comes first, and where the rates stand.
ADDED = {"add14": (14, False, ()), "add17": (17, True, (2, 3)), "add18": (18, True, (2, 3)), "add240": (240, False, ()),
         "add241": (241, False, ())}
# The other words whose cases lend a buffer, an array or words.
LENDING = ("new", "write", "list", "compare", "plan", "add1", "rle", "pack", "unpack", "packedplan")


class NoCase(Exception):
    pass


def no_case_if(condition):
    if condition:
        raise NoCase


def parsed(line):
    """The word, its numbers and its data as bytes."""
    word, *rest = line.split(" ", 1)
    no_case_if(word not in NUMBERS)
    fields, kind = NUMBERS[word]
    numbers = []
    for field in fields.split():
        no_case_if(not rest)
        digits, *rest = rest[0].split(" ", 1)
        no_case_if(not digits.isascii() or not digits.isdigit() or int(digits) > LIMITS.get(field, 4294967295))
        no_case_if(field == "event" and int(digits) not in COUNTED)
        numbers.append(int(digits))
    text = rest[0] if rest else ""
    no_case_if(rest and not text)
    if kind is None:
        no_case_if(rest)
        return word, numbers, b""
    if kind == "card":
        return word, numbers, text.encode("latin-1")
    if kind in ("pair", "bytes and trace"):
        return word, numbers, pair_data(text, numbers[-2:], hexadecimal if kind == "pair" else trace_data)
    if kind == "words":
        return word, numbers, words_data(text, numbers[-1])
    return word, numbers, sized(trace_data(text) if kind == "trace" else hexadecimal(text), numbers[-1])


def sized(data, size):
    no_case_if(len(data) > size)
    return data + bytes(size - len(data))


def pair_data(text, sizes, second):
    """Two packets, or a buffer and a trace; both or the second may be left out."""
    texts = text.split(" ")
    no_case_if(len(texts) > 2 or len(texts) == 2 and "" in texts)
    return [sized(form(some), size) for form, some, size in zip((hexadecimal, second), texts + [""], sizes)]


def words_data(text, count):
    """Words of sixteen digits, and zero words up to so many in all."""
    data = sized(hexadecimal(text), 8 * count)
    no_case_if(len(text) % 16)
    return [int.from_bytes(data[at:at + 8], "big") for at in range(0, len(data), 8)]


def trace_data(text):
    no_case_if(any(digit not in "0123456789" for digit in text))
    return bytes(int(digit) for digit in text)


def hexadecimal(text):
    no_case_if(len(text) % 2 or any(digit not in "0123456789abcdef" for digit in text))
    return bytes.fromhex(text)


def shown(word, texts, between):
    return (f" {word} " + between.join(texts)).rstrip()


def shown_bytes(some):
    return shown("bytes", [f"{byte:02x}" for byte in some[:SHOWN_BYTES]], "")


def shown_plan(some):
    return shown("plan", [str(byte) for byte in some[:SHOWN_BYTES]], "")


def shown_trace(some):
    return shown("trace", [str(byte) for byte in some[:SHOWN_BYTES]], "")


def shown_table(some):
    return shown("table", [str(entry) for entry in some[:SHOWN_ENTRIES]], " ")


def shown_numbers(some):
    return shown("numbers", [str(number) for number in some[:SHOWN_NUMBERS]], " ")


def shown_words(some):
    return shown("packed", [f"{word:016x}" for word in some[:SHOWN_ENTRIES]], " ")


def filled(lent, call, answer, show):
    """A call that fills the lent numbers from the front: its answer or refusal, and what they then hold."""
    try:
        front = list(call())
        return answer(front) + show(front + lent[len(front):])
    except Refused as no:
        return f"refused {no.number} at {no.place}" + show(lent)


def size_of(front):
    return f"size {len(front)}"


def marks_of(front):
    return f"marks {sum(front)}"


def adding(word, numbers, buffer):
    kind, flagged, rates_at = ADDED[word]
    flag = numbers[0] if flagged else 0
    rates = [numbers[at] for at in rates_at]
    fields = numbers[flagged:-1]
    return filled(list(buffer), lambda: document01.added(buffer, kind, flag, rates, fields), size_of, shown_bytes)


def lending(word, numbers, data):
    """The cases that lend a buffer, an array or words."""
    if word in ADDED:
        return adding(word, numbers, data)
    if word == "add1":
        source, begin, *_ = numbers
        return filled(list(data[0]), lambda: document02.with_trace(data[0], source, begin, data[1]), size_of, shown_bytes)
    if word == "rle":
        index, room, _ = numbers
        return filled([HELD] * room, lambda: document02.read_out(index, data, room),
                      lambda front: f"packets {len(front)}", shown_trace)
    if word == "new":
        return filled([HELD] * numbers[1], lambda: document01.new_packet(*numbers), size_of, shown_bytes)
    if word == "write":
        return filled([HELD] * numbers[4], lambda: document01.written_card(numbers[:4], numbers[4]), size_of, shown_bytes)
    if word == "list":
        return filled([HELD] * numbers[0], lambda: document01.places_and_verdicts(data, numbers[0]),
                      lambda front: f"entries {len(front)}", shown_table)
    if word == "compare":
        return filled([HELD] * numbers[0], lambda: document02.differences(*data, numbers[0]),
                      lambda front: f"differences {len(front) // 5}", shown_numbers)
    if word == "pack":
        event, room, _ = numbers
        return filled([HELD] * room, lambda: document02.packed(event, data, room), lambda front: f"words {len(front)}", shown_words)
    if word == "unpack":
        packets, room, _ = numbers
        return filled([HELD] * room, lambda: document02.unpacked(data, packets, room),
                      lambda front: f"packets {len(front)}", shown_trace)
    if word == "packedplan":
        *given, room, _ = numbers
        return filled([HELD] * room, lambda: document02.packed_plan(data, *given, room), marks_of, shown_plan)
    *given, room, _ = numbers
    return filled([HELD] * room, lambda: document01.plan(*given, data, room), marks_of, shown_plan)


def asking(word, numbers, data):
    """The cases that lend nothing."""
    if word == "read":
        return document01.read(data)
    if word == "block":
        return document01.block(numbers[0], data)
    if word == "body":
        return "body at {} bytes {}".format(*document01.body_part(numbers[0], data))
    if word == "alone":
        return document01.alone(numbers[0], numbers[1], data)
    if word.startswith("panel"):
        return document02.panel(panel_needles(word, numbers, data))
    if word == "card":
        return document01.card(data)
    if word == "loss":
        return document01.loss(*numbers[:3], data)
    if word == "packedloss":
        return document02.packed_loss(data, *numbers[:3])
    if word == "figures":
        return document01.figures(*numbers[:3], data)
    if word == "loss17":
        return document01.block_of_trace(LOST, *numbers[:4], data)
    if word == "discard18":
        return document01.block_of_trace(DISCARDED, *numbers[:4], data)
    if word == "tally":
        return document01.tally(*numbers[:3], data)
    if word == "close":
        return document01.close(numbers[1], numbers[2], numbers[3:])
    if word == "tallyblock":
        return document01.block_of_tally(*numbers[:3], numbers[3:13], *numbers[13:])
    return "taken " + " ".join(str(count) for count in document01.take(*numbers[:3], numbers[3:13], numbers[13]))


def panel_needles(word, numbers, data):
    if word == "panel":
        return document02.needles_at(numbers[0], data)
    if word == "panelalone":
        return document02.needles_of(*numbers[:2], data, None)
    return document02.needles(int(word.removeprefix("panel")), numbers[0], numbers[2:4])


def answer(line):
    try:
        word, numbers, data = parsed(line)
        if word in ADDED or word in LENDING:
            return lending(word, numbers, data)
        return asking(word, numbers, data)
    except NoCase:
        return "no case"
    except Refused as no:
        return f"refused {no.number} at {no.place}"


def is_case(line):
    return line != "" and not line.startswith("#")


def computed(text):
    """What has to be written for this text, line by line."""
    lines = []
    for line in text.decode("latin-1").removesuffix("\n").split("\n"):
        lines.append(line)
        if is_case(line):
            lines.append("  " + answer(line))
    return lines


def compare(name, text, expected):
    """Whether the example writes this text."""
    run = subprocess.run(PROGRAM, cwd="rust", input=text, stdout=subprocess.PIPE, check=True)
    ours = run.stdout.decode("latin-1").split("\n")
    wanted = expected + [""]  # the text ends in a newline
    cases = different = 0
    for at in range(max(len(ours), len(wanted))):
        mine = ours[at] if at < len(ours) else "(no line)"
        other = wanted[at] if at < len(wanted) else "(no line)"
        answers_case = other.startswith("  ")
        cases += answers_case
        if mine != other:
            different += 1
            above = f" (answer to: {wanted[at - 1][:200]})" if answers_case else ""
            print(f"{name}, line {at + 1}{above}\n  ours:     {mine}\n  expected: {other}")
    if different:
        print(f"{name}: {different} lines differ")
        return False
    print(f"{name}: {cases} of {cases} the same")
    return True


def main():
    if sys.argv[1:2] == ["--print"]:
        sys.stdout.write("\n".join(computed(pathlib.Path(sys.argv[2]).read_bytes())) + "\n")
        return 0
    files = sorted(pathlib.Path("cases").glob("*.txt"))
    texts = [(path.name, path.read_bytes()) for path in files]
    good = [compare(name, text, computed(text)) for name, text in texts]
    return 0 if good and all(good) else 1


if __name__ == "__main__":
    sys.exit(main())
