#!/bin/sh
# How fast a made lot of 500 dies is diagnosed: dies a second, and a second and core, for designs of
# 20 and of 200 blocks. From the top, with ./scandesk built; the word is another program with the
# same words for the diagnosis. Needs xargs, taskset and, for the last row, GNU parallel.
top=$(CDPATH='' cd -- "$(dirname -- "$0")/.." && pwd) || exit 1
program=$top/crates/scandesk/out/scandesk
work=$(mktemp -d) || exit 1
trap 'rm -rf "$work"' EXIT
export GLIBC_TUNABLES="${GLIBC_TUNABLES-glibc.malloc.hugetlb=1}"
dies=500
one='die=${1##*/}; die=${die%.log}; exec "$0" diagnose demo "$die" demo.bench demo.scan demo.pat demo.csv "$1" >"reports/$die"'

# Writes the seconds of a processor that the commands of this script have taken to `used`.
use() {
    times >"$work/times"
    awk 'NR == 2 { for (i = 1; i <= 2; i++) { split($i, part, "m"); all += 60 * part[1] + part[2] } print all }' "$work/times" >"$work/used"
}

# timed WHAT CORES COMMAND..: the least of three times, and what the processors had to do.
timed() {
    what=$1
    cores=$2
    shift 2
    least=
    use
    before=$(cat "$work/used")
    for _ in 1 2 3; do
        rm -rf reports
        mkdir reports
        begun=$(date +%s%N)
        "$@" || exit 1
        took=$(($(date +%s%N) - begun))
        [ -n "$least" ] && [ "$least" -le "$took" ] || least=$took
        [ "$(find reports -type f | wc -l)" -eq "$dies" ] || exit 1
    done
    use
    after=$(cat "$work/used")
    awk -v what="$what" -v cores="$cores" -v dies="$dies" -v took="$least" -v work="$before $after" 'BEGIN {
        split(work, at, " ")
        printf "  %-44s %6.2f s %6.0f dies a second %6.0f a core %6.1f ms of a processor a die\n", what, took / 1e9, dies * 1e9 / took,
            dies * 1e9 / took / cores, 1000 * (at[2] - at[1]) / 3 / dies
    }'
}

# at_a_time JOBS: so many processes at a time.
at_a_time() {
    find logs -name '*.log' | sort | xargs -P "$1" -I LOG sh -c "$one" "$diagnosing" LOG
}

# One after another on one core.
on_one_core() {
    find logs -name '*.log' | sort | taskset -c 0 xargs -P 1 -I LOG sh -c "$one" "$diagnosing" LOG
}

by_parallel() {
    find logs -name '*.log' | sort | parallel --will-cite --jobs "$1" "$diagnosing diagnose demo {/.} demo.bench demo.scan demo.pat demo.csv {} >reports/{/.}"
}

diagnosing=${1:-$program}
all=$(nproc)
for blocks in 20 200; do
    "$top/examples/lot/make.py" "${2:-$program}" "$work/$blocks" $dies $blocks || exit 1
    cd "$work/$blocks" || exit 1
    echo "$dies dies of a design of $((115 * blocks)) nets, on $all cores"
    timed 'one process at a time, on one core' 1 on_one_core
    timed 'one process at a time, on all cores' "$all" at_a_time 1
    timed 'one process for each core' "$all" at_a_time "$all"
    timed 'two processes for each core' "$all" at_a_time $((2 * all))
    command -v parallel >/dev/null && timed 'one process for each core, by GNU parallel' "$all" by_parallel "$all"
    "$top/examples/lot/pareto.sh" 2>/dev/null | head -n 4
done
