#!/bin/sh
# Times the counts of three logs of `demo 7 200` on one thread beside those of another program, in one run.
#     bench/counts.sh OTHER        (needs OTHER files 7 200 FOLDER, and its phases by PEER_TIME)
# Builds the program counts, which is proved first.
set -eu
other=$(realpath -- "$1")
top=$(CDPATH='' cd -- "$(dirname -- "$0")/.." && pwd)
work=$(mktemp -d)
trap 'rm -rf "$work"' EXIT
crate=$work/crates/counts
mkdir -p "$crate/src" "$crate/proofs/joined_of" "$work/files"
cp "$top/bench/counts/main.rt.in" "$crate/src/main.rt"
cp "$top/bench/counts/joined_of.antt.in" "$crate/proofs/joined_of/Answers.antt"
"$top/bench/kept_program.sh" "$work" counts 1 scan_model log_join packed_sim match_counts diagnosis
"$other" files 7 200 "$work/files" >/dev/null
cd "$work/files"
{
    for text in netlist.bench scan.txt patterns.txt neighbours.csv; do
        echo "%${text%%.*}"
        cat "$text"
    done
} >bundle
exec python3 "$top/bench/count_times.py" "$crate/out/counts" "$other" "$work/files"
