#!/usr/bin/env python3
"""Times the opening of a store of 100,000 deeds: 100 designs, 99,000 logs of 2 KiB and 900 sign-offs.

    python3 bench/opening.py [LOGS]   (from the top; ./scandesk must have been built)

With another number of logs there is a sign-off for each 110 of them.

The rows of designs and logs are written into the database by this script; the sign-offs are made over HTTP, with the digests of the
reports that the desk sends. Then the desk is started again over the store, and told are the seconds until it serves and its greatest memory.
"""
import hashlib
import json
import os
import sqlite3
import subprocess
import sys
import tempfile
import time

sys.path.insert(0, os.path.join(os.path.dirname(os.path.dirname(os.path.abspath(__file__))), 'tests'))
from desk_calls import PROGRAM, ask, connect, free_port

DESIGNS, LOGS = 100, int(sys.argv[1]) if len(sys.argv) > 1 else 99000
SIGNS = LOGS // 110
OF_A_DIE = 10
BUNDLE = (b'%netlist\nINPUT(1)\nINPUT(2)\nINPUT(3)\nINPUT(6)\nINPUT(7)\nOUTPUT(22)\nOUTPUT(23)\n10 = NAND(1, 3)\n11 = NAND(3, 6)\n'
          b'16 = NAND(2, 11)\n19 = NAND(11, 7)\n22 = NAND(10, 16)\n23 = NAND(16, 19)\n%scan\n%patterns\nCAPTURE 11111\n%neighbours\n')


def log_of(number, design, die):
    text = 'FAILLOG 1\ndie %s\ndesign %s\ntested 0 0\nfail 0 out 22\nend\n# log %d ' % (die, design, number)
    return (text + 'x' * (2047 - len(text)) + '\n').encode()


def places():
    """The design and the die of each log."""
    for i in range(LOGS):
        die = i // OF_A_DIE
        yield i, 'd%d' % (die % DESIGNS), 'die%d' % die


def write(store):
    # The desk makes the tables.
    desk, s = served(store)
    s.close()
    desk.wait()
    with sqlite3.connect(store) as base:
        base.executemany('INSERT INTO designs VALUES (?, 0, ?, ?)', [(n, b'd%d' % n, BUNDLE) for n in range(DESIGNS)])
        base.executemany('INSERT INTO logs VALUES (?, 0, ?, ?, ?)',
                         [(DESIGNS + i, design.encode(), die.encode(), log_of(i, design, die)) for i, design, die in places()])
    base.close()


def served(store):
    """A desk of one worker and one session over the store, and its connection."""
    port = free_port()
    desk = subprocess.Popen([PROGRAM, 'serve', str(port), '1', '1', store], stdout=subprocess.PIPE)
    if desk.stdout.readline() != b'serving %d\n' % port:
        sys.exit('not served: status %s' % desk.wait())
    return desk, connect(port)


def sign(store):
    desk, s = served(store)
    for die in range(SIGNS):
        at = '/designs/d%d/dies/die%d' % (die % DESIGNS, die)
        _, report = ask(s, 'GET', at + '/reports/3')
        words = {'revision': 3, 'signer': 'kim', 'digest': hashlib.sha256(report).hexdigest()}
        status, text = ask(s, 'POST', at + '/signoffs', json.dumps(words).encode())
        if status != 201:
            sys.exit('a sign-off: %d %r' % (status, text))
        if die % 400 == 399:
            s.close()
            desk.wait()
            desk, s = served(store)
    s.close()
    desk.wait()


def main():
    with tempfile.TemporaryDirectory() as folder:
        store = os.path.join(folder, 'desk.db')
        write(store)
        sign(store)
        begin = time.monotonic()
        desk, s = served(store)
        took = time.monotonic() - begin
        s.close()
        last = desk.stdout.read().decode()
        _, status, usage = os.wait4(desk.pid, 0)
        print('%s: opened in %.2f s, %d MiB, the file has %d MiB, status %d'
              % (last.strip(), took, usage.ru_maxrss // 1024, os.path.getsize(store) >> 20, status))


if __name__ == '__main__':
    main()
