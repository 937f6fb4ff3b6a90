#!/usr/bin/env python3
"""Tries the check of the boundary (tools/boundary.py --check) on copies in which one of its four texts has drifted, and
holds the archive's names to the header's.

Run in the repository's root after tools/archive.sh. Each drift has to be told, and the copy without one has to pass.
"""
import pathlib
import re
import shutil
import subprocess
import sys
import tempfile

HEADER, RUST, RATTLE = "include/nuvaskoe.h", "rust/nuvaskoe/src/boundary.rs", "crates/{}/src/lib.rt"
STATIC = "crates/nuvaskoe_c/src/tally_calls.rt"
ARCHIVE = "target/staticlib/libnuvaskoe.a"
READ = ["crates.txt", "README.md", "include/nuvaskoe.h.in", HEADER, "rust/Cargo.toml", RUST,
        "rust/nuvaskoe/src/refusals.rs", "crates/block/specs/Fields.antt", "crates/ffi_block/specs/Answers.antt"]

# What drifts, the file, and the text before and after.
DRIFTS = [
    ("two fields exchanged in the header", HEADER, "    uint32_t gmin; /* 1 to 255 packets */\n"
     "    uint32_t batch; /* 1 to 1,024 packets */\n",
     "    uint32_t batch; /* 1 to 1,024 packets */\n    uint32_t gmin; /* 1 to 255 packets */\n"),
    ("two fields exchanged in Rust", RUST, "gmin: u32,\n    pub(crate) spacing: u32,\n    pub(crate) event",
     "spacing: u32,\n    pub(crate) gmin: u32,\n    pub(crate) event"),
    ("two fields exchanged in Rattle", RATTLE.format("ffi_packet"), "    pub sender: u32, // 0 where refused\n"
     "    pub blocks: usize, // how many blocks it has; 0 where refused\n",
     "    pub blocks: usize, // how many blocks it has; 0 where refused\n    pub sender: u32, // 0 where refused\n"),
    ("a parameter narrowed in the header", HEADER, "nuvaskoe_tally_open(uint32_t gmin", "nuvaskoe_tally_open(uint16_t gmin"),
    ("a parameter narrowed in Rust", RUST, "nuvaskoe_tally_open(gmin: u32", "nuvaskoe_tally_open(gmin: u16"),
    ("a parameter narrowed in Rattle", RATTLE.format("ffi_tally"), "nuvaskoe_tally_open(gmin: u32", "nuvaskoe_tally_open(gmin: u16"),
    ("a call missing from the header", HEADER, "uint32_t nuvaskoe_version(void);\n", ""),
    ("a call missing from its text", "include/nuvaskoe.h.in", "@call nuvaskoe_version\n", ""),
    ("a call missing from Rust", RUST, "    pub(crate) fn nuvaskoe_version() -> u32;\n", ""),
    ("a call missing from Rattle", RATTLE.format("ffi_tally"), "#[unsafe(no_mangle)]\npub extern \"C\" fn nuvaskoe_tally_close",
     "pub fn nuvaskoe_tally_close"),
    ("a call missing from the static library", STATIC, "#[unsafe(no_mangle)]\npub extern \"C\" fn nuvaskoe_tally_close", "fn closed"),
    ("a clause missing from the static library", STATIC, "    ensures { result ≡ close_by (tally_in tally) }\n", ""),
    ("another clause in Rattle", RATTLE.format("ffi_tally"), "ensures { result ≡ close_by (tally_in tally) }", "ensures { result ≡ result }"),
    ("another call behind an exported one", STATIC, "    ffi_tally::nuvaskoe_tally_close(tally)", "    ffi_tally::nuvaskoe_tally_open(tally)"),
    ("a constant of another value", RATTLE.format("bursts"), "OVER_RANGE: u16 = 65_534", "OVER_RANGE: u16 = 65_533"),
    ("another place of the packets covered", "crates/ffi_block/specs/Answers.antt", "take 3 (fields_of", "take 4 (fields_of"),
    ("two places of Loss RLE exchanged", "crates/ffi_block/specs/Answers.antt", "r.source ∷ r.begin", "r.begin ∷ r.source"),
    ("two fields exchanged in layout order", "crates/block/specs/Fields.antt", "e.source ∷ e.index", "e.index ∷ e.source"),
    ("other words of a refusal", "README.md", "the card's check does not fit", "the card does not fit"),
    ("other advice on a reason", "README.md", "its sender measures wrongly", "its sender is wrong"),
]


def check(root):
    """Whether the check passes, and what it printed."""
    run = subprocess.run([sys.executable, "tools/boundary.py", "--check", "--root", root], capture_output=True, text=True)
    return run.returncode == 0, run.stdout + run.stderr


def copied(root):
    for name in READ + [str(path) for path in pathlib.Path("crates").glob("*/src/*.rt")]:
        (root / name).parent.mkdir(parents=True, exist_ok=True)
        shutil.copy(name, root / name)


def tried(what, name, old, new):
    """None where the drift is told."""
    with tempfile.TemporaryDirectory() as folder:
        root = pathlib.Path(folder)
        copied(root)
        if name:
            text = (root / name).read_text()
            if text.count(old) != 1:
                return f"{what}: {name} does not have the text once"
            (root / name).write_text(text.replace(old, new))
        good, printed = check(root)
        if good == bool(name):
            return f"{what}: " + ("not told" if name else printed)
    return None


def names_differ(header):
    """The header's calls beside the names that the archive defines."""
    declared = re.findall(r"^(?!static)\w+ (nuvaskoe_\w+)\(", header, re.M)
    listed = subprocess.run(["nm", "-g", "--defined-only", ARCHIVE], capture_output=True, text=True, check=True).stdout
    defined = re.findall(r"^\w+ \w (\w+)$", listed, re.M)
    same = sorted(declared) == sorted(defined)
    return None if same else f"{ARCHIVE} and {HEADER} differ in {sorted(set(declared) ^ set(defined))}"


def main():
    header = pathlib.Path(HEADER).read_text()
    faults = [tried("no drift", None, "", "")] + [tried(*drift) for drift in DRIFTS] + [names_differ(header)]
    for what, other in [("less", header.replace("nuvaskoe_version(void)", "")), ("more", header + "int nuvaskoe_more(void);\n")]:
        faults += [] if names_differ(other) else [f"one name {what} in the header than in the archive: not told"]
    faults = [fault for fault in faults if fault]
    print("\n".join(faults) or f"boundary.py: {len(DRIFTS) + 2} drifts told, the archive has the header's names")
    sys.exit(bool(faults))


if __name__ == "__main__":
    main()
