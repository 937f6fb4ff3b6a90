#!/usr/bin/env bash
# Makes target/staticlib/libnuvaskoe.a of crate nuvaskoe_c, which exports every call of the boundary.
#
#     tools/archive.sh              by `rt lib`, which proves what has changed of the crate and of those below it
#     tools/archive.sh --after-ci   in the gate, in a checkout that had no out/: over the libraries that `rt ci` has just proved and built
#
# `rt ci` proves a static library and makes no archive of it, and `rt lib` takes none of the libraries that `rt ci` built: in a new
# clone it would prove them all again. So the gate has the compiler prove the crate once more and build it over those. Where some
# library was built by another command, that is no longer sure to fit, and `rt lib` does it.
set -euo pipefail
cd "$(dirname "$0")/.."

name=nuvaskoe_c
made=target/staticlib/libnuvaskoe.a
log=$(mktemp)
trap 'rm -f "$log"' EXIT

over_ci() {
    if compgen -G "crates/*/out/rlib/stamp" >/dev/null; then
        return 1
    fi
    local kit dep words
    kit=$(dirname "$(rt doc)")
    words=(--crate-name "$name" src/lib.rt --crate-type staticlib --jobs 2 --links "$name=")
    words+=(--extern "std=$kit/rlibs/std.rlib" -L "dependency=$kit/rlibs")
    for dep in $(sed -n "s/^$name staticlib://p" crates.txt); do
        [ -d "crates/$dep/out/rlib/$dep.rlib" ] || return 1
        words+=(--extern "$dep=../$dep/out/rlib/$dep.rlib")
    done
    for dep in crates/*/out/rlib; do
        words+=(-L "dependency=../../$dep")
    done
    words+=(--antt-project "$kit/rattle/logic/antt-project.json" --logic-built "$kit/logic_built")
    words+=(--toolchain "$kit/toolchain" --backend llvm -o "out/lib$name.a")
    mkdir -p "crates/$name/out"
    (cd "crates/$name" && "$kit/bin/rattle" build "${words[@]}") >"$log" 2>&1
}

by_rt() {
    (cd "crates/$name" && rt lib) >"$log" 2>&1
}

if [ "${1:-}" != --after-ci ] || ! over_ci; then
    by_rt || { cat "$log"; exit 1; }
fi
grep -q '^logic=proved ' "$log" || { cat "$log"; exit 1; }
mkdir -p target/staticlib
cp "crates/$name/out/lib$name.a" "$made"
echo "$made: $(nm -g --defined-only "$made" | grep -c ' T ') calls"
