#!/usr/bin/env bash
# Puts the programs that are written in Rattle, the crates with a src/main.rt, into target/bin.
#
#     tools/programs.sh              by `rt run`, which proves and builds what has changed
#     tools/programs.sh --after-ci   in the gate: as `rt ci` has just built and run them
set -euo pipefail
cd "$(dirname "$0")/.."

log=$(mktemp)
trap 'rm -f "$log"' EXIT
mkdir -p target/bin
for main in crates/*/src/main.rt; do
    [ -e "$main" ] || continue
    folder=${main%/src/main.rt}
    name=${folder#crates/}
    if [ "${1:-}" != --after-ci ]; then
        # With no input each ends well; what is wanted is the program that stays in out/.
        (cd "$folder" && rt run </dev/null) >"$log" 2>&1 || { cat "$log"; exit 1; }
    fi
    install "$folder/out/$name" "target/bin/$name"
    echo "target/bin/$name"
done
