#!/usr/bin/env python3
"""Times the opening of a store of signed dies, all of the design of `demo 7 200`, and tells what it takes in memory.

    python3 bench/signed.py DIES [PROGRAM..]   (from the top; PROGRAM is the one that ./scandesk built, or others)

Each die has the log that the first program predicts for a fault of its own, and a sign-off of its report. The other programs open
the same store. The programs take turns, three times each: told are the least seconds until each serves, on one processor and on
all. The desk has the setting of the C library's heap that ./scandesk gives it, or the caller's own GLIBC_TUNABLES.
"""
import hashlib
import json
import os
import subprocess
import sys
import tempfile
import time

sys.path.insert(0, os.path.join(os.path.dirname(os.path.dirname(os.path.abspath(__file__))), 'tests'))
from against import HEAP
from made_bundles import bundle
from desk_calls import PROGRAM, ask, connect, free_port

TURNS = 3
# Faults of dies are that far apart in the list of 120,990.
STEP = 37
# A session of this many requests is closed, and the next one opened.
SESSION = 300


def served(program, store, pinned=()):
    """A desk of one worker and one session over the store, with its port."""
    port = free_port()
    words = [*pinned, program, 'serve', str(port), '1', '1', store]
    desk = subprocess.Popen(words, stdout=subprocess.PIPE, env=dict(os.environ, GLIBC_TUNABLES=HEAP))
    if desk.stdout.readline() != b'serving %d\n' % port:
        sys.exit(f'{program}: not served: status {desk.wait()}')
    return desk, port


def asked(s, method, target, body=b'', wanted=200):
    status, text = ask(s, method, target, body)
    if status != wanted:
        sys.exit(f'{method} {target}: {status} {text[:80]!r}')
    return text


def sign(s, die):
    """Uploads the log of a fault as that of a die, and signs its report."""
    log = asked(s, 'GET', f'/designs/demo/faults/{die * STEP}/fails').replace(b'\ndie predicted\n', b'\ndie d%d\n' % die, 1)
    at = f'/designs/demo/dies/d{die}'
    asked(s, 'POST', at + '/logs', log, 201)
    report = asked(s, 'GET', at + '/report')
    words = {'revision': 1, 'signer': 'kim', 'digest': hashlib.sha256(report).hexdigest()}
    asked(s, 'POST', at + '/signoffs', json.dumps(words).encode(), 201)


def write(program, store, dies):
    for first in range(0, dies, SESSION // 4):
        desk, port = served(program, store)
        s = connect(port)
        if first == 0:
            asked(s, 'PUT', '/designs/demo', bundle(7, 200).encode(), 201)
        for die in range(first, min(dies, first + SESSION // 4)):
            sign(s, die)
        s.close()
        desk.wait()


def opened(program, store, pinned):
    """The seconds until a program serves the store, and its greatest memory in MiB."""
    begin = time.monotonic()
    desk, port = served(program, store, pinned)
    took = time.monotonic() - begin
    connect(port).close()
    _, status, usage = os.wait4(desk.pid, 0)
    if status != 0:
        sys.exit(f'{program}: status {status}')
    return took, usage.ru_maxrss // 1024


def main():
    dies, programs = int(sys.argv[1]), list(map(os.path.abspath, sys.argv[2:])) or [PROGRAM]
    with tempfile.TemporaryDirectory() as folder:
        store = os.path.join(folder, 'desk.db')
        write(programs[0], store, dies)
        for where, pinned in [('one', ('taskset', '-c', '0')), ('all', ())]:
            turns = [[opened(program, store, pinned) for program in programs] for _ in range(TURNS)]
            for program, tried in zip(programs, zip(*turns)):
                took, memory = min(tried)
                print(f'{where}: {program}: {took:.3f} s for {dies} signed dies, {memory} MiB', flush=True)


if __name__ == '__main__':
    main()
