"""crates/nuvaskoe_c, the static library, from the exported calls of the crates ffi_*.

A library exports nothing to C, and nothing can stand on a static library: so each call is written once more there, under
its name, with the clauses of the call that it hands on to.
"""
import re

from c_header import MADE

CRATE = "crates/nuvaskoe_c/src/"
LIB = """// The static library for C: every exported call of the crates ffi_*, under its name and with its clauses.
// {made}
#![tactic(auto)]

{modules}
"""
MODULE = """// The exported calls of crate {crate}.
// {made}
{ghosts}

{uses}

{calls}
"""
CALL = """// As {crate}::{name}.
#[unsafe(no_mangle)]
{promise}
{{
    {crate}::{name}({params})
}}"""


def static_library(source):
    """Each file of the crate and its text."""
    made = {}
    for crate in dict.fromkeys(call.crate for call in source.calls):
        calls = [call for call in source.calls if call.crate == crate]
        made[crate.removeprefix("ffi_") + "_calls"] = module(source.files[crate], crate, calls)
    modules = "\n".join(f"mod {name};" for name in sorted(made))
    files = {CRATE + "lib.rt": LIB.format(made=MADE, modules=modules)}
    return files | {f"{CRATE}{name}.rt": text for name, text in made.items()}


def module(text, crate, calls):
    promises = "\n".join(call.promise for call in calls)
    ghosts = []
    for path, names in re.findall(r"^ghost use ([\w.]+)\.\{([^}]*)\};$", text, re.M):
        named = [name for name in re.split(r",\s*", names.strip()) if is_named(name, promises)]
        ghosts += [f"ghost use {path}.{{{', '.join(named)}}};"] if named else []
    uses = {}
    for name in sorted(set(re.findall(r"\b[A-Z]\w*", " ".join(f"{kind}" for call in calls for kind in call.kinds())))):
        uses.setdefault(owner(text, crate, name), []).append(name)
    lines = [f"use {of}::{names[0]};" if len(names) == 1 else f"use {of}::{{{', '.join(names)}}};" for of, names in sorted(uses.items())]
    made = MODULE.format(crate=crate, made=MADE, ghosts="\n".join(ghosts), uses="\n".join(lines), calls="\n\n".join(
        CALL.format(crate=crate, name=call.name, promise=call.promise, params=", ".join(name for name, _ in call.params)) for call in calls))
    return re.sub(r"\n\n\n+", "\n\n", made)


def is_named(name, text):
    """Whether the text has the name: a word, or all parts of an operator."""
    if "◌" in name:
        return all(part in text for part in name.split("◌"))
    return bool(re.search(rf"(?<![\w']){re.escape(name)}(?![\w'])", text))


def owner(text, crate, name):
    """The crate that declares a type of this crate's signatures."""
    for of, names in re.findall(r"^use (\w+)::\{?([\w, ]+)\}?;$", text, re.M):
        if name in re.split(r",\s*", names):
            return of
    return crate
