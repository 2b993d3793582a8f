#!/bin/sh
# docs/TRACE.md and the crates agree: each file, each definition, theorem and function and each must-fail edit that it
# names is there, and it names every edit. The files and edits that docs/AUDIT.md lists are there, of the length it says.
set -eu
cd "$(dirname "$0")/.."
wrong=0

say() {
    echo "${page:-docs/TRACE.md}: $1"
    wrong=1
}

# The names in the second and third column of a row, each as: kind, place, name. Clauses stand between semicolons:
# "File `name`" or "crate/File `name`", "crate/src/file.rt `name`", "contract of `function`", or words without a name.
names() {
    awk -F'|' '
        /^## / { crate = $0; if (!sub(/^.*: crate /, "", crate)) crate = "-" }
        /^\|/ && $2 !~ /^---|^ the paper.s words $/ {
            for (i = 3; i <= 4; i++) {
                n = split($i, clause, ";")
                for (j = 1; j <= n; j++) {
                    s = clause[j]
                    sub(/^ +/, "", s)
                    if (s !~ /`/) continue
                    place = s
                    sub(/ .*/, "", place)
                    kind = "odd"
                    if (s ~ /^contracts? of /) { kind = "function"; place = crate }
                    else if (place ~ /^[a-z_]+\/src\/[a-z_]+\.rt$/) kind = "source"
                    else if (place ~ /^[a-z_]+\/[A-Z][A-Za-z]*$/) kind = "text"
                    else if (place ~ /^[A-Z][A-Za-z]*$/ && crate != "-") { kind = "text"; place = crate "/" place }
                    while (match(s, /`[^`]+`/)) {
                        print kind, place, substr(s, RSTART + 1, RLENGTH - 2)
                        s = substr(s, RSTART + RLENGTH)
                    }
                }
            }
        }' docs/TRACE.md | sort -u
}

# Whether specs or proofs of a crate, in this file, declare a name.
text_has() { # CRATE FILE NAME
    cat "crates/$1/specs/$2.antt" "crates/$1/proofs/$2.antt" 2>/dev/null |
        grep -qE "^ *((abbrev|unfoldable|pub|data|record) )*$3( |\$)"
}

# The sources that may hold a function: of a type, of a crate or a module, or of the section's crate.
sources_of() { # CRATE FUNCTION
    case $2 in
    [A-Z]*::*) grep -lE "^impl(<[^>]*>)? ([A-Za-z]+ for )?${2%%::*}[ <]" crates/*/src/*.rt ;;
    *::*) ls "crates/${2%%::*}"/src/*.rt crates/*/src/"${2%%::*}.rt" 2>/dev/null ;;
    *) ls "crates/$1"/src/*.rt 2>/dev/null ;;
    esac
}

while read -r kind place name; do
    case $kind in
    text)
        for part in $(echo "$name" | tr . ' '); do
            text_has "${place%/*}" "${place#*/}" "$part" || say "$place declares no $part"
        done
        ;;
    source)
        grep -qsE "(fn|const|struct|enum|type) $name\\b" "crates/$place" || say "$place has no $name"
        ;;
    function)
        cat /dev/null $(sources_of "$place" "$name") | grep -qE "fn ${name##*::}[(<]" || say "there is no function $name"
        ;;
    *) say "$name stands after no file and no 'contract of'" ;;
    esac
done <<END
$(names)
END

# crate/File: a file of definitions or of theorems
for name in $(grep -oE '\b[a-z_]+/[A-Z][A-Za-z]*' docs/TRACE.md | sort -u); do
    crate=${name%/*} file=${name#*/}
    case $crate in crate | docs | specs | proofs) continue ;; esac
    [ -f "crates/$crate/specs/$file.antt" ] || [ -f "crates/$crate/proofs/$file.antt" ] || say "$name is no file of crates/$crate"
done

# crate/edit, in the last column
for name in $(sed -n 's/^|.*|\([^|]*\)|$/\1/p' docs/TRACE.md | grep -oE '[a-z_]+/[a-z0-9_]+' | sort -u); do
    crate=${name%/*} edit=${name#*/}
    [ -f "crates/$crate/must-fail/$edit.edit" ] || say "$name is no edit of crates/$crate"
done

for edit in crates/*/must-fail/*.edit; do
    crate=${edit#crates/} name=$(basename "$edit" .edit)
    grep -qw "${crate%%/*}/$name" docs/TRACE.md || say "${crate%%/*}/$name is not named"
done

# rows of a file and its lines, and edits
page=docs/AUDIT.md
while read -r file lines; do
    [ -f "$file" ] && [ "$(wc -l <"$file")" -eq "$lines" ] || say "$file is not there, or has not $lines lines"
done <<END
$(sed -n 's/^| \(crates[^ ]*\) | \([0-9]*\) |.*/\1 \2/p' $page)
END
for name in $(sed -n 's/^| .* | \([a-z_]*\/[a-z0-9_]*\) |$/\1/p' $page); do
    [ -f "crates/${name%/*}/must-fail/${name#*/}.edit" ] || say "$name is no edit"
done

[ "$wrong" -eq 0 ] || exit 1
echo "docs/TRACE.md names $(names | wc -l) definitions, theorems and functions and $(ls crates/*/must-fail/*.edit | wc -l) edits, and all are there"
