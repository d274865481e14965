#!/usr/bin/env bash
# edits.sh CRATE..: tries the edits that are kept beside the gate, tests/edits/CRATE/*.edit, each of which the prover must refuse.
# They turn what an edit of the gate turns already, or a reader of one line; with all of them the gate would take too long.
set -eu
top=$(cd "$(dirname "$0")/.." && pwd)
for crate in "$@"; do
    room=$(mktemp -d)
    cp -R "$top/crates" "$top/crates.txt" "$room/"
    rm -rf "$room"/crates/*/must-fail
    mkdir "$room/crates/$crate/must-fail"
    cp "$top/tests/edits/$crate"/*.edit "$room/crates/$crate/must-fail/"
    (cd "$room" && rt must-fail "$crate")
    rm -rf "$room"
done
