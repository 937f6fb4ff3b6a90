#!/usr/bin/env python3
"""Installs the library and the command into a folder of its own, builds a C program of ten lines against what was installed,
by the flags of its pkg-config file, and runs the command from there on the samples that were installed. Run in the
repository's root after tools/archive.sh.
"""
import os
import pathlib
import re
import shutil
import subprocess
import sys
import tempfile

PROGRAM = """#include <stdio.h>
#include <nuvaskoe.h>

int main(void)
{
    nuvaskoe_card card = nuvaskoe_card_read((const uint8_t *)"01600100000100040096", NUVASKOE_CARD_BYTES);
    if (card.refusal.number == NUVASKOE_OK)
        printf("gmin %u of %u\\n", (unsigned)card.settings.gmin, (unsigned)nuvaskoe_version());
    return 0;
}
"""


def flags(file):
    """The flags that pkg-config gives, read from its file: the variables put in, then Cflags and Libs."""
    text = file.read_text()
    values = dict(re.findall(r"^(\w+)=(.*)$", text, re.M))
    for _ in values:
        text = re.sub(r"\$\{(\w+)\}", lambda m: values[m[1]], text)
    return " ".join(re.findall(r"^(?:Cflags|Libs): (.*)$", text, re.M)).split(), re.search(r"^Version: (.*)$", text, re.M)[1]


def main():
    with tempfile.TemporaryDirectory() as folder:
        prefix = pathlib.Path(folder, "usr")
        subprocess.run(["make", "--silent", "install", f"PREFIX={prefix}"], check=True)
        words, version = flags(prefix / "lib/pkgconfig/nuvaskoe.pc")
        if shutil.which("pkg-config"):
            told = subprocess.run(["pkg-config", "--cflags", "--libs", "nuvaskoe"], capture_output=True, text=True, check=True,
                                  env={**os.environ, "PKG_CONFIG_PATH": str(prefix / "lib/pkgconfig")}).stdout.split()
            assert told == words, (told, words)
        source = pathlib.Path(folder, "ten.c")
        source.write_text(PROGRAM)
        program = pathlib.Path(folder, "ten")
        subprocess.run(["cc", "-std=c99", "-Wall", "-Werror", str(source), *words, "-o", str(program)], check=True)
        printed = subprocess.run([str(program)], capture_output=True, text=True, check=True).stdout
        major, minor, patch = (int(part) for part in version.split("."))
        assert printed == f"gmin 16 of {major * 10000 + minor * 100 + patch}\n", printed
        told = subprocess.run([prefix / "bin/nuvaskoe", "--version"], capture_output=True, text=True, check=True).stdout
        assert told == f"nuvaskoe {version}\n", told
        told = subprocess.run([prefix / "bin/nuvaskoe", "list", "samples/p12.xr"], cwd=prefix / "share/doc/nuvaskoe",
                              capture_output=True, text=True, check=True).stdout
        assert told == "ssrc 00000001 blocks 1\n0 eli source 00000002 index 37448\n", told
        for name in ("man/man1/nuvaskoe.1", "bash-completion/completions/nuvaskoe"):
            assert "nuvaskoe" in (prefix / "share" / name).read_text()
        kept = sorted(str(path.relative_to(prefix)) for path in prefix.rglob("*") if path.is_file())
        print("install.py: a program runs against", ", ".join(kept))


if __name__ == "__main__":
    sys.exit(main())
