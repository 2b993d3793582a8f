#!/bin/sh
# Each must-fail edit fits its crate: every text that it replaces stands in its file, and stands there once.
set -eu
cd "$(dirname "$0")/.."
wrong=0
for edit in crates/*/must-fail/*.edit; do
    awk -v crate="${edit%/must-fail/*}" -v edit="$edit" '
        function whole(file,   line, text) {
            while ((getline line < file) > 0) text = text line "\n"
            return text
        }
        function refuse(why) {
            print edit ": " why
            exit bad = 1
        }
        /^file: / { file = crate "/" substr($0, 7); if (!(file in text)) text[file] = whole(file) }
        /^old: / { old = substr($0, 6) }
        /^new:/ {
            at = index(text[file], old)
            if (old == "" || !at) refuse("this text is not in " file ": " old)
            rest = substr(text[file], at + length(old))
            if (index(rest, old)) refuse("this text is in " file " more than once: " old)
            text[file] = substr(text[file], 1, at - 1) substr($0, 6) rest
            old = ""
            pairs++
        }
        END { if (!bad && !pairs) refuse("it replaces nothing"); exit bad }
    ' "$edit" || wrong=1
done
[ "$wrong" -eq 0 ] || exit 1
echo "the $(ls crates/*/must-fail/*.edit | wc -l) must-fail edits fit their crates"
