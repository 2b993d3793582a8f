#!/bin/sh
# Runs card, texts and by_count on lines that are longer than their input buffer, each with what it is to be answered.
# Use: tests/long_lines.sh, from the root, once card, texts and by_count are built
set -eu
work=$(mktemp -d)
trap 'rm -rf "$work"' EXIT

blanks=$(printf '%70000s' '')
zeros=$(printf '%070000d' 0)
letters=$(printf %s "$blanks" | tr ' ' x)

# A line of the script, and its answer if it has one.
says() {
    printf '%s\n' "$1" >>"$work/$script.in"
    [ $# -lt 2 ] || printf '%s\n' "$2" >>"$work/$script.out"
}

script=card
says "cfg${blanks}50 50 $zeros" 'ok 0'
says "at 0 rp ${zeros}3" 'ok 0'
says "at 0 rp 1$zeros" bad
says "$letters" bad
says "at 0 SG{${blanks}amet/em{pri=${blanks}400}}" 'ok 0'
says "at 0 SG{amet/em{pri=${zeros}400}}" 'no 12'
says "at 0 SG{amet/em{pri= ${zeros}400}}" 'no 12'
says "at 0 SG{}${blanks}" 'no 12'
says "at 0 SG{amet/mpb{bpc=2}} $letters" bad
says "at 0 sig ph 1 none"
says "${blanks}200 1 1 1 0${blanks}1 ${zeros}0" 'ok 0'
says "tick ${zeros}2001" 'n 2001 0 0 0 1'
says "at ${zeros}0${blanks}audit${blanks}" 'a 3 0'
says "${blanks}group${blanks}${zeros}300 ${zeros}0 ${zeros}1" 'no 15'
says "group 300${blanks}0${blanks}" 'no 3'
says "group 300 1$zeros" bad
says "at 0${blanks}ask${blanks}SG{${blanks}amet/em{pri=${blanks}400}}" 'ok 0 3'
says "at 0 ask SG{}${blanks}" 'no 12 3'
says "at 0 ask sig ph${blanks}1 none"
says "200 1 1${blanks}1 0 1 ${zeros}0" 'ok 0 3'
says "at 0 commit ${zeros}2 SG{}${blanks}" 'no 16'
says "at 0 commit 3$zeros SG{}" bad
says "at 0 commit${blanks}${zeros}3${blanks}SG{${blanks}}" 'ok 0'
tests/vectors.sh crates/card/out/card "$work/card.in"

script=texts
says "SG{${blanks}amet/em{pri=${blanks}400}}" 'em 0 400 none'
says "SG{amet/em{pri=${zeros}400}}" '12'
says "SG{$letters}" 'too long'
says "SG{}" 'none none'
tests/vectors.sh crates/texts/out/texts "$work/texts.in"

script=by_count
says "${blanks}100 7 3${blanks}${zeros}25 180 ${zeros}1000${blanks}" '1000 3 2 2 5 25 175 | 1000 1 1 1 0 5 5'
says "100 7 3 25 180 1000$zeros" bad
says "100 7 3 25 180 1000 $letters" bad
says "100 7 3 0 180 1000" 'no 18'
tests/vectors.sh crates/by_count/out/by_count "$work/by_count.in"
