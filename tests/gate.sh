#!/bin/sh
# The toolchain's gate over every crate, as it is. An edit that cannot be tried counts as a failure here, too.
set -eu
cd "$(dirname "$0")/.."
work=$(mktemp -d)
trap 'rm -rf "$work"' EXIT

{
    rt ci && echo 0 >"$work/status" || echo 1 >"$work/status"
} 2>&1 | tee "$work/said"
[ "$(cat "$work/status")" -eq 0 ] || exit 1
if grep -E '^rt: ok.*, [1-9][0-9]* bad' "$work/said" >/dev/null; then
    echo "some must-fail edits could not be tried: look for BAD EDIT above" >&2
    exit 1
fi
