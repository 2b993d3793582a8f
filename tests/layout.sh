#!/bin/sh
# No line of a definition is over 120 columns.
set -eu
cd "$(dirname "$0")/.."
if LC_ALL=C.UTF-8 grep -nE '^.{121,}' crates/*/specs/*.antt; then
    echo "these lines are over 120 columns"
    exit 1
fi
echo "no line of the definitions is over 120 columns"
