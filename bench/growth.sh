#!/bin/sh
# Tells how the time of `demo` grows with the design: seconds of a processor at 20, 50, 100 and 200 blocks, and for each
# block. From the top, with ./scandesk built.
top=$(CDPATH='' cd -- "$(dirname -- "$0")/.." && pwd) || exit 1
program=$top/crates/scandesk/out/scandesk
for blocks in 20 50 100 200; do
    python3 - "$program" "$blocks" <<'PY'
import os, subprocess, sys
program, blocks = sys.argv[1], int(sys.argv[2])
least = None
for _ in range(5):
    child = subprocess.Popen([program, 'demo', '7', str(blocks)], stdout=subprocess.DEVNULL)
    _, _, usage = os.wait4(child.pid, 0)
    took = usage.ru_utime + usage.ru_stime
    least = took if least is None else min(least, took)
print('demo 7 %d: %.3f s, %.2f ms a block' % (blocks, least, 1e3 * least / blocks))
PY
done
