#!/bin/sh
# The files of each crate are laid out as rt fmt has them: it lays out a copy, and the copy is the same.
set -eu
cd "$(dirname "$0")/.."
work=$(mktemp -d)
trap 'rm -rf "$work"' EXIT

tar --exclude=out -cf - crates crates.txt | tar -xf - -C "$work"
wrong=0
for crate in crates/*; do
    (cd "$work/$crate" && rt fmt >/dev/null)
    for part in src specs proofs; do
        [ ! -d "$crate/$part" ] || diff -ru "$crate/$part" "$work/$crate/$part" || wrong=1
    done
done
[ "$wrong" -eq 0 ] || exit 1
echo "the files of $(ls -d crates/* | wc -l) crates are laid out"
