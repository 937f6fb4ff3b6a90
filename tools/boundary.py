#!/usr/bin/env python3
"""Makes the boundary's other texts from the Rattle source, which is proved: include/nuvaskoe.h, in rust/nuvaskoe/src
boundary.rs and refusals.rs, and the crate of the static library, crates/nuvaskoe_c. What is made is not edited by hand.

    tools/boundary.py [--root DIR]            writes them
    tools/boundary.py --check [--root DIR]    writes nothing; exits 1 and shows where a file is not what would be written
"""
import argparse
import difflib
import pathlib
import sys

sys.dont_write_bytecode = True  # a run leaves no files in the tree
from c_header import Header
from rattle_source import Source
from rust_boundary import boundary_rs, refusals_rs
from static_library import static_library


def made(root):
    """Each file's path and text."""
    source = Source(root)
    header = Header(source, (root / "include/nuvaskoe.h.in").read_text())
    version = ".".join(str(source.constant(f"ffi_answer::VERSION_{part}")[0]) for part in ("MAJOR", "MINOR", "PATCH"))
    if f'\nversion = "{version}"\n' not in (root / "rust/Cargo.toml").read_text():
        raise SystemExit(f"rust/Cargo.toml: the version is not {version}")
    return {
        "include/nuvaskoe.h": header.text,
        "rust/nuvaskoe/src/boundary.rs": boundary_rs(source, header),
        "rust/nuvaskoe/src/refusals.rs": refusals_rs(source),
        **static_library(source),
    }


def main():
    words = argparse.ArgumentParser(description=__doc__, formatter_class=argparse.RawDescriptionHelpFormatter)
    words.add_argument("--check", action="store_true")
    words.add_argument("--root", type=pathlib.Path, default=pathlib.Path("."))
    words = words.parse_args()
    differing = 0
    for name, text in made(words.root).items():
        path = words.root / name
        held = path.read_text() if path.exists() else ""
        if not words.check:
            path.parent.mkdir(parents=True, exist_ok=True)
            path.write_text(text)
        elif held != text:
            differing = 1
            rows = difflib.unified_diff(text.splitlines(), held.splitlines(), "made from the source", name, lineterm="", n=0)
            print("\n".join(list(rows)[:12]))
    raise SystemExit(differing)


if __name__ == "__main__":
    main()
