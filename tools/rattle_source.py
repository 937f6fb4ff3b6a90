"""What the Rattle source says of the boundary to C: constants, structs with a C name, exported calls, refusals.

Read as text, from crates/*/src/lib.rt below a root, and from README.md the words of its two tables. A comment directly
above an item belongs to it, up to its first empty line; a line `// C: NAME` in it gives a struct its C name.
"""
import pathlib
import re

class Struct:
    def __init__(self, name, c_name, text, fields):
        self.name, self.c_name, self.text, self.fields = name, c_name, text, fields  # fields: (name, type, comment)


class Call:
    def __init__(self, crate, name, text, params, answer, promise):
        self.crate, self.name, self.text = crate, name, text
        self.params, self.answer = params, answer  # params: (name, type)
        self.promise = promise  # its signature and clauses as they are written

    def kinds(self):
        return [kind for _, kind in self.params] + [self.answer]


class Source:
    def __init__(self, root="."):
        root = pathlib.Path(root)
        self.files = {p.parts[-3]: p.read_text() for p in sorted(root.glob("crates/*/src/lib.rt"))}
        listed = [line.split(":")[0] for line in (root / "crates.txt").read_text().splitlines()]
        exporting = [crate for crate in listed if crate.startswith("ffi_")]
        self.calls = [call for crate in exporting for call in self._calls(crate)]
        self.structs = {s.name: s for crate in self.files for s in self._structs(crate)}
        self.by_c_name = {s.c_name: s for s in self.structs.values()}
        self.refusals = self._numbered("refusal", r"^            Refusal::(\w+)(?:\(_\))? => (\d+),$")
        readme = (root / "README.md").read_text()
        self.refusal_words = _table(readme, "| N | Meaning | What to do |")
        self.reason_words = _table(readme, "| Reason | Meaning | What to do |")
        self.reasons = self._numbered("block", r"^    (\w+) = (\d+),$")
        self.places = _places((root / "crates/block/specs/Fields.antt").read_text(),
                              (root / "crates/ffi_block/specs/Answers.antt").read_text())

    def constant(self, expression):
        """The value of an expression over constants `crate::NAME` and numbered variants `crate::Enum::Variant`, as (number, Rattle
        type of the last constant named)."""
        kind = None
        expression = re.sub(r"(\w+)::([A-Z]\w*)::(\w+)", self._variant, expression)

        def value(match):
            nonlocal kind
            crate, name = match.groups()
            found = re.search(r"const %s: (\w+) = ([^;{]+);" % name, self.files[crate])
            if not found:
                raise SystemExit(f"no constant {crate}::{name}")
            inner = re.sub(r" as \w+|(?<=\d)_(?=\d)", "", found[2])
            inner = re.sub(r"(?<![:\w])([A-Z][A-Z_]+)\b", crate + r"::\1", inner)
            number = self.constant(inner)[0]
            kind = found[1]
            return str(number)

        return eval(re.sub(r"(\w+)::([A-Z]\w*)", value, expression), {"__builtins__": {}}), kind

    def _variant(self, match):
        crate, enum, variant = match.groups()
        found = re.search(r"enum %s \{\n(?:    .*\n)*?    %s = (\d+)," % (enum, variant), self.files[crate])
        if not found:
            raise SystemExit(f"no variant {crate}::{enum}::{variant} with a number")
        return found[1]

    def _structs(self, crate):
        pattern = r"((?:// [^\n]*\n|//\n)+)((?:#\[[^\n]*\]\n)+)pub struct (\w+) \{\n(.*?)\n\}"
        for comment, attributes, name, body in re.findall(pattern, self.files[crate], re.S):
            if "#[repr(C)]\n" not in attributes:
                continue
            tag = re.search(r"^// C: (\w+)$", comment, re.M)
            if not tag:
                raise SystemExit(f"{crate}::{name} is repr(C) and has no line `// C: NAME`")
            fields = re.findall(r"^    pub (\w+): ([^,]+),(?: // (.*))?$", body, re.M)
            if len(fields) != body.count("\n") + 1:
                raise SystemExit(f"{crate}::{name}: a line is no field")
            lengths = lambda kind: re.sub(r"; (\w+)\]", lambda m: f"; {crate}::{m[1]}]", kind)
            yield Struct(name, tag[1], _text(comment), [(f, lengths(kind), note) for f, kind, note in fields])

    def _calls(self, crate):
        pattern = r"((?:// .*\n)+)#\[unsafe\(no_mangle\)\]\n(pub extern \"C\" fn (\w+)\(([^)]*)\)\s*->\s*(\w+)(?:\n .*)+)\n\{\n"
        found = re.findall(pattern, self.files[crate])
        if len(found) != self.files[crate].count("no_mangle"):
            raise SystemExit(f"{crate}: an exported call has no comment, or another form than is read here")
        for comment, promise, name, params, answer in found:
            split = [p.strip().split(": ", 1) for p in params.split(",") if p.strip()]
            yield Call(crate, name, _text(comment), [tuple(p) for p in split], answer, promise)

    def _numbered(self, crate, row):
        """(NAME, number) of an enum whose numbers stand in rows of this form, in their order."""
        rows = [(_upper(name), int(n)) for name, n in re.findall(row, self.files[crate], re.M)]
        if [n for _, n in rows] != list(range(1, len(rows) + 1)):
            raise SystemExit(f"crates/{crate}: the numbers are not 1, 2, 3 and on")
        return rows


def _upper(name):
    """CamelCase as CAMEL_CASE."""
    return re.sub(r"(?<=[a-z])(?=[A-Z])", "_", name).upper()


def _text(comment):
    """The lines of an item's comment up to an empty one, without the line of its C name."""
    lines = [line[3:] for line in comment.splitlines()]
    lines = lines[: lines.index("")] if "" in lines else lines
    return [line for line in lines if not line.startswith("C: ")]


def _table(readme, head):
    """The rows of the table with this head, by their number."""
    rows = readme.split(head + "\n", 1)[1].split("\n\n", 1)[0].splitlines()[1:]
    cells = [[cell.strip() for cell in row.strip("|").split("|")] for row in rows]
    return {int(row[0]): row[1:] for row in cells}


def _places(fields, answers):
    """For each kind of block the names of its places at the boundary, from the definitions that the calls promise: its
    fields in layout order, and where the packets covered are put among them, after the first few. Loss RLE has a definition
    of its own, with the packets covered in their place."""
    kinds = re.findall(r"^fields_of \((\w+) \w+\) =\s*(.*?)\[\]$", fields, re.S | re.M)
    names = {kind: re.findall(r"\.(\w+) ∷", items) for kind, items in kinds}
    for kind, first in re.findall(r"^shown_of \((\w+) \w+\) = take (\d+) \(fields_of .*?\+\+ covered\b", answers, re.M):
        names[kind].insert(int(first), "packets")
    rle = re.search(r"^rle_out r = take \d+ \(\((.*?)\[\]\)", answers, re.M)[1].replace("covered r.begin r.end", ".packets")
    return {"Rle": re.findall(r"\.(\w+) ∷", rle), **names}
