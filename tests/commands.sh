#!/bin/sh
# The commands of docs/formats.md are those of the program's table (crates/command_words/src/table.rt), in its order: the word
# of each, its arguments, and whether logs follow. Compares the two. It needs nothing installed.
top=$(CDPATH='' cd -- "$(dirname -- "$0")/.." && pwd) || exit 1

rows() {
    awk '
        /^const [A-Z]+: &\[Argument\]/ { list = $2; sub(/:/, "", list); open = 1 }
        open { while (match($0, /Argument::[A-Za-z]+/)) { names[list] = names[list] " " toupper(substr($0, RSTART + 10, RLENGTH - 10)); $0 = substr($0, RSTART + RLENGTH) } }
        /\];/ { open = 0 }
        / word: "/ { split($0, part, "\""); word = part[2] }
        / arguments: / { list = $2; sub(/,/, "", list); row = word names[list] }
        / has_logs: (true|false)/ { print row ($2 == "true," ? " LOG.." : "") }
    ' "$top/crates/command_words/src/table.rt"
}

documented() {
    awk '/^## / { on = $0 ~ /^## The program/ } /^\| Status/ { on = 0 } on && /^\| `/ { split($0, part, "`"); print part[2] }' "$top/docs/formats.md"
}

if [ "$(rows)" = "$(documented)" ]; then
    echo 'the commands of docs/formats.md are those of the table'
else
    echo 'docs/formats.md has other commands than the table:' >&2
    rows >&2
    exit 1
fi
