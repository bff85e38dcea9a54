#!/bin/sh
# Proves and builds a small program over the libraries, in a copy of the crates that it rests on; what a gate proved on this machine is kept.
#     bench/kept_program.sh FOLDER NAME STATUS CRATE..
# FOLDER/crates/NAME holds the program's src and proofs. Without words it must end with STATUS. It is then FOLDER/crates/NAME/out/NAME.
set -eu
top=$(CDPATH='' cd -- "$(dirname -- "$0")/.." && pwd)
copy=$1 name=$2
printf '%s\n' "$3" >"$copy/crates/$name/status"
shift 3
cp "$top/HANDLES" "$copy"
due=$*
while [ -n "$due" ]; do
    crate=${due%% *}
    due=$(printf '%s' "${due#"$crate"}" | sed 's/^ *//')
    [ ! -d "$copy/crates/$crate" ] || continue
    line=$(grep "^$crate:" "$top/crates.txt") || continue
    printf '%s\n' "$line" >>"$copy/crates.txt"
    cp -a "$top/crates/$crate" "$copy/crates"
    rm -rf "$copy/crates/$crate/must-fail"
    due="$due${due:+ }$(printf '%s' "${line#*:}" | sed 's/^ *//')"
done
printf '%s: %s\n' "$name" "$*" >>"$copy/crates.txt"
cd "$copy"
rt ci >"$copy/build.log" 2>&1 || { tail -5 "$copy/build.log"; exit 1; }
