"""include/nuvaskoe.h from the Rattle source and the prose of include/nuvaskoe.h.in.

There `{expression}` over constants `crate::NAME` stands for its value, and a line `@struct NAME`, `@call NAME`, `@refusals`,
`@places` or `@texts` for what the source has.
"""
import re
import textwrap

WIDTH = 120
NUMBERS = {"u8": "uint8_t", "u16": "uint16_t", "u32": "uint32_t", "u64": "uint64_t", "usize": "size_t", "f32": "float"}
KINDS = {"Rle": "RLE", "Measured": "MEASUREMENT", "Loss": "LOSS", "Discard": "DISCARD", "Effective": "EFFECTIVE", "Streams": "STREAMS"}
MADE = "Made by tools/boundary.py from the Rattle source; not edited by hand."


class Header:
    """include/nuvaskoe.h."""

    def __init__(self, source, template):
        self.source, self.used, self.constants, self.named = source, [], [], {}
        lines = [self._line(line) for line in template.splitlines()]
        self.text = "\n".join([f"/* {MADE} */", *lines]) + "\n"
        wanted = [call.name for call in source.calls] + list(source.by_c_name)
        differing = set(wanted) ^ set(self.used) | {name for name in self.used if self.used.count(name) > 1}
        if differing:
            raise SystemExit(f"nuvaskoe.h.in and the source differ in {sorted(differing)}")

    def _line(self, line):
        if line.startswith("@"):
            word, *name = line[1:].split()
            self.used += name
            return getattr(self, "_" + word)(*name)
        return re.sub(r"\{([^{}]+)\}", lambda m: self._value(line, m[1]), line)

    def _value(self, line, expression):
        number, kind = self.source.constant(expression)
        name = re.search(r"NUVASKOE_(\w+)", line)[1]
        self.constants.append((name, "u32" if "=" in line else kind, number))
        self.named[expression] = "NUVASKOE_" + name
        return str(number)

    def _kind(self, kind):
        return NUMBERS.get(kind) or self.source.structs[kind].c_name

    def _member(self, name, kind):
        array = re.match(r"\[(\w+); (.+)\]", kind)
        return f"{self._kind(array[1])} {name}[{self.named[array[2]]}]" if array else f"{self._kind(kind)} {name}"

    def _comment(self, lines):
        if len(lines) == 1:
            return f"/* {lines[0]} */"
        return "\n".join(["/*"] + [" * " + line for line in lines] + [" */"])

    def _struct(self, c_name):
        if c_name not in self.source.by_c_name:
            raise SystemExit(f"nuvaskoe.h.in: the source has no struct {c_name}")
        s = self.source.by_c_name[c_name]
        rows = [(self._member(name, kind) + ";", note) for name, kind, note in s.fields]
        body = ["    " + (f"{member} /* {note} */" if note else member) for member, note in rows]
        return "\n".join([self._comment(s.text), f"typedef struct {c_name} {{", *body, f"}} {c_name};"])

    def _call(self, name):
        call = next((c for c in self.source.calls if c.name == name), None)
        if not call:
            raise SystemExit(f"nuvaskoe.h.in: the source exports no {name}")
        params = []
        for param, kind in call.params:
            lent = re.match(r"&(mut )?\[(\w+)\]", kind)
            if lent:
                params += [f"{'' if lent[1] else 'const '}{NUMBERS[lent[2]]} *{param}", f"size_t {param}_len"]
            else:
                params.append(self._member(param, kind))
        front = f"{self._kind(call.answer)} {name}("
        words = ", ".join(param.replace(" ", "~") for param in params) or "void"  # ~: no break inside a parameter
        lines = textwrap.wrap(words + ");", WIDTH - len(front), break_long_words=False)
        declared = ("\n" + " " * len(front)).join(lines).replace("~", " ")
        return self._comment(call.text) + "\n" + front + declared

    def _refusals(self):
        words = self.source.refusal_words
        rows = [f"    NUVASKOE_REFUSAL_{name} = {n}, /* {words[n][0]} */" for name, n in self.source.refusals]
        return "\n".join(["enum {", "    NUVASKOE_OK = 0,", *rows[:-1], rows[-1].replace(", /*", " /*"), "};"])

    def _places(self):
        made = []
        for kind, names in self.source.places.items():
            prefix = f"    NUVASKOE_FIELD_{KINDS[kind]}_"
            rows = [f"{prefix}{name.upper()} = {i}" for i, name in enumerate(names)]
            made.append("enum {\n" + ",\n".join(rows) + "\n};")
        return "\n".join(made)

    def _texts(self):
        refusals = [(f"NUVASKOE_REFUSAL_{name}", self.source.refusal_words[n]) for name, n in self.source.refusals]
        reasons = [(f"NUVASKOE_VERDICT_{name}", self.source.reason_words[n]) for name, n in self.source.reasons]
        return "\n\n".join([
            switch("What went wrong, by a refusal's number.", "refusal_meaning", "number", [(n, w[0]) for n, w in refusals]),
            switch("What to do about it.", "refusal_advice", "number", [(n, w[1]) for n, w in refusals]),
            switch("Why a block was dropped, by its verdict.", "reason_meaning", "verdict", [(n, w[0]) for n, w in reasons]),
            switch("What to do about it.", "reason_advice", "verdict", [(n, w[1]) for n, w in reasons]),
        ])


def switch(text, name, param, rows):
    cases = [f"    case {case}:\n        return \"{words}\";" for case, words in rows]
    head = f"static inline const char *nuvaskoe_{name}(uint32_t {param})"
    return "\n".join([f"/* {text} Empty for any other number. */", head, "{", f"    switch ({param}) {{", *cases,
                      "    default:\n        return \"\";", "    }", "}"])
