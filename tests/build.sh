#!/bin/sh
# Proves and builds programs, each of which then stands as crates/NAME/out/NAME. It is run once, on an empty input.
# Use: tests/build.sh NAME..
set -eu
cd "$(dirname "$0")/.."
for name; do
    echo "Proving and building $name; from nothing this takes some minutes."
    (cd "crates/$name" && rt run </dev/null)
    touch "crates/$name/out/$name"
done
