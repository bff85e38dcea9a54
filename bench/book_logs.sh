#!/bin/sh
# Times logs put into a book over a keeper in memory, a hundred of each die: 10,000 of 100 dies, then twice and four times
# as many. Builds the program book_logs, which is proved first.
set -eu
top=$(CDPATH='' cd -- "$(dirname -- "$0")/.." && pwd)
work=$(mktemp -d)
trap 'rm -rf "$work"' EXIT
mkdir -p "$work/crates/book_logs/src" "$work/crates/book_logs/proofs/put_log"
cp "$top/bench/book_logs/main.rt.in" "$work/crates/book_logs/src/main.rt"
cp "$top/bench/book_logs/put_log.antt.in" "$work/crates/book_logs/proofs/put_log/Answers.antt"
"$top/bench/kept_program.sh" "$work" book_logs 2 scan_model text_parts desk_outside diagnosis book
cd "$work/crates/book_logs"
for count in 10000 20000 40000; do
    python3 - "$count" <<'PY'
import resource, subprocess, sys
program = subprocess.run(['out/book_logs', sys.argv[1]])
used = resource.getrusage(resource.RUSAGE_CHILDREN)
print(f'{sys.argv[1]} logs: status {program.returncode}, {used.ru_utime + used.ru_stime:.2f} s, {used.ru_maxrss // 1024} MiB')
PY
done
