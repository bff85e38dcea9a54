#!/bin/sh
# The sentences that the page shows beside a refusal (page/sentences.json) are those of
# docs/formats.md: of each rule where it is broken, and of each other refusal where it is given.
# Compares the two; with `--write` the page's file is made anew. It needs nothing installed.
top=$(CDPATH='' cd -- "$(dirname -- "$0")/.." && pwd) || exit 1

sentences() {
    awk '
        function plain(text) { gsub(/`/, "", text); gsub(/^ +| +$/, "", text); return text }
        function quoted(text) { gsub(/\\/, "\\\\", text); gsub(/"/, "\\\"", text); return "\"" text "\"" }
        # A rule that has several rows is told by the first; the others are more of its examples.
        function rule(number, text) { if (number in rules) return; order[++many] = number; rules[number] = plain(text) }
        /^#/ { part = $0; paragraph = "" }
        /^$/ { paragraph = "" }
        { paragraph = paragraph " " $0; split($0, cell, / *[|] */) }
        /^\| [0-9]+ \|/ {
            if (part ~ /^## The program/) next
            if (part ~ /^### Requests/) { was = head[cell[2]]; head[cell[2]] = was (was == "" ? "" : "; or ") plain(cell[3]); next }
            if (part !~ /^###/) rule(cell[2], cell[3])
        }
        # The rule of a sign-off is told in words.
        paragraph ~ /breaks rule 91/ && !(91 in rules) { text = paragraph; sub(/ Any other body breaks rule 91.*/, "", text); rule(91, text) }
        part ~ /^### Replies/ && /^\| [45][0-9][0-9] \|/ && cell[5] !~ /rule|,/ {
            words[++replies] = plain(cell[5])
            where[replies] = cell[4] == "as above" ? head[cell[2]] : plain(cell[4])
        }
        END {
            print "{\n  \"rules\": {"
            for (i = 1; i <= many; i++) printf "    \"%s\": %s%s\n", order[i], quoted(rules[order[i]]), i < many ? "," : ""
            print "  },\n  \"replies\": {"
            for (i = 1; i <= replies; i++) printf "    %s: %s%s\n", quoted(words[i]), quoted(where[i]), i < replies ? "," : ""
            print "  }\n}"
        }
    ' "$top/docs/formats.md"
}

if [ "${1:-}" = --write ]; then
    sentences >"$top/page/sentences.json"
    exit
fi
sentences | diff - "$top/page/sentences.json" || {
    echo 'page/sentences.json (>) has other sentences than docs/formats.md (<): tests/sentences.sh --write'
    exit 1
}
