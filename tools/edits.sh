#!/bin/sh
# Tries all edits of crates/NAME/edits, of the crates that are named, or of all: the prover must refuse each.
set -e
room=$(mktemp -d)
trap 'rm -rf "$room"' EXIT
git ls-files | tar -cf - -T - | tar -xf - -C "$room"
for name in ${*:-$(cd crates && ls -d */edits | xargs -n 1 dirname)}; do
    mkdir -p "$room/crates/$name/must-fail"
    cp crates/"$name"/edits/*.edit "$room/crates/$name/must-fail/"
    (cd "$room" && rt must-fail "$name")
done
