#!/bin/sh
# Runs a program on stored inputs and compares what it prints with the stored outputs, byte for byte. Beside an input
# NAME.in or NAME.txt stands its output NAME.out.
# Use: tests/vectors.sh PROGRAM INPUT..

case $1 in
*/*) program=$1 ;;
*) program=./$1 ;;
esac
if [ $# -lt 2 ] || [ ! -x "$program" ]; then
    echo "use: vectors.sh PROGRAM INPUT.." >&2
    exit 2
fi
shift

# What the program prints for an input. A failed exit adds a line of its own.
output() {
    "$program" <"$1" || echo "exit status $?"
}

# Prints the first line that differs between standard input and a file.
first_difference() {
    n=0
    while :; do
        n=$((n + 1))
        got='(end)' want='(end)' more=0
        if IFS= read -r line || [ -n "$line" ]; then got=$line more=1; fi
        if IFS= read -r line <&3 || [ -n "$line" ]; then want=$line more=1; fi
        if [ "$got" != "$want" ] || [ $more -eq 0 ]; then break; fi
    done 3<"$1"
    if [ $more -eq 0 ]; then
        echo "  only the last line feed differs"
    else
        printf '  line %s\n  stored:  %s\n  program: %s\n' "$n" "$want" "$got"
    fi
}

for input; do
    stored=${input%.*}.out
    if [ ! -f "$input" ] || [ ! -f "$stored" ]; then
        echo "$input or $stored is missing"
        exit 1
    fi
    if ! output "$input" | cmp -s - "$stored"; then
        echo "$input: what ${program##*/} prints differs from $stored"
        output "$input" | first_difference "$stored"
        exit 1
    fi
done
echo "${program##*/} agrees on $# of $# stored inputs"
