#!/bin/sh
# Times one flip of every net of made designs of 20, 50, 100 and 200 blocks, 512 patterns at a time, and tells how the time
# grows. Builds the program flips, which is proved first.
set -eu
top=$(CDPATH='' cd -- "$(dirname -- "$0")/.." && pwd)
work=$(mktemp -d)
trap 'rm -rf "$work"' EXIT
crate=$work/crates/flips
mkdir -p "$crate/src" "$crate/proofs/changed_rows"
cp "$top/bench/flips/main.rt.in" "$crate/src/main.rt"
cp "$top/bench/flips/changed_rows.antt.in" "$crate/proofs/changed_rows/Invariants.antt"
for loop in flip_block:net flip_blocks:block flips:; do
    name=${loop%%:*} item=${loop#*:}
    mkdir -p "$crate/proofs/$name"
    sed "s/FUNCTION/$name/; s/LOOP/loop${item:+-$item}/g" "$top/bench/flips/loop.antt.in" >"$crate/proofs/$name/Invariants.antt"
done
"$top/bench/kept_program.sh" "$work" flips 1 scan_model packed_sim diagnosis
exec python3 "$top/bench/flip_times.py" "$crate/out/flips" "$work" 20 50 100 200
