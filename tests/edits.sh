#!/usr/bin/env bash
# Tries the edits that a proof must refuse, those of the gate and those of tests/edits, of the named crates and those below or of all, on a
# copy of the tree as it stands; what the gate kept on this machine is taken over. It fails too where an edit can't be applied or compiled.
# Outside the gate; a crate's own are tried again whenever the crate or a contract below it changes.
#
#     bash tests/edits.sh [NAME ..]
set -euo pipefail
root=$(git -C "$(dirname "$0")" rev-parse --show-toplevel)
copy=$(mktemp -d)
trap 'rm -rf "$copy"' EXIT
cp -r "$root/crates" "$root/crates.txt" "$root/HANDLES" "$copy/"
git -C "$copy" init -q
for folder in "$root"/tests/edits/*/; do
    name=$(basename "$folder")
    mkdir -p "$copy/crates/$name/must-fail"
    cp "$folder"*.edit "$copy/crates/$name/must-fail/"
done
cd "$copy"
rt ci "$@" 2>&1 | tee said
! grep 'BAD EDIT' said
