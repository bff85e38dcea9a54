#!/usr/bin/env python3
"""Times GET slat and GET slat/P of three logs of `demo 7 200` over loopback, beside the whole command `slat` of another program.

    python3 bench/slat.py OTHER [TRIES]    (from the top; ./scandesk must have been built; OTHER writes files and has a command slat)

Each log is posted to a new die for each try, so that its first answer finds nothing kept; the design is there. What is answered
is compared with what the other program writes, byte by byte, which has no pruning here (PEER_ALL=1). The two programs take turns.
The desk has the setting of the C library's heap that ./scandesk gives it, or the caller's own GLIBC_TUNABLES.
"""
import os
import statistics
import subprocess
import sys
import tempfile
import time

sys.path.insert(0, os.path.join(os.path.dirname(os.path.dirname(os.path.abspath(__file__))), 'tests'))
from desk_calls import PROGRAM, ask, connect, free_port

HEAP = os.environ.get('GLIBC_TUNABLES', 'glibc.malloc.hugetlb=1')
TEXTS = ('netlist.bench', 'scan.txt', 'patterns.txt', 'neighbours.csv')
LOGS = ('demo.log', 'each.log', 'many.log')


def bundle(folder):
    parts = []
    for name in TEXTS:
        with open(os.path.join(folder, name), 'rb') as text:
            parts.append(b'%' + name.partition('.')[0].encode() + b'\n' + text.read())
    return b''.join(parts)


def of_the_other(other, folder, log, threads):
    """The bytes that the other program writes, and the seconds that it takes."""
    words = [other, 'slat', 'demo', 'demo', *TEXTS, log]
    told = dict(os.environ, PEER_ALL='1', **({'PEER_THREADS': '1'} if threads == 1 else {}))
    begin = time.monotonic()
    text = subprocess.run(words, cwd=folder, env=told, stdout=subprocess.PIPE, check=True).stdout
    return text, time.monotonic() - begin


def timed(s, target):
    begin = time.monotonic()
    status, text = ask(s, 'GET', target)
    if status != 200:
        sys.exit('%s: %d %r' % (target, status, text))
    return text, time.monotonic() - begin


def of_the_desk(s, log, number):
    """What the desk answers for a die that it hasn't seen, and the seconds of the first answer, the second, and one pattern."""
    die = 'die%d' % number
    status, text = ask(s, 'POST', '/designs/demo/dies/%s/logs' % die, log.replace(b'\ndie demo\n', b'\ndie %s\n' % die.encode(), 1))
    if status != 201:
        sys.exit('%d %r' % (status, text))
    base = '/designs/demo/dies/%s/reports/1/slat' % die
    counts, first = timed(s, base)
    _, second = timed(s, base)
    patterns = [line.split()[1].decode() for line in counts.splitlines() if line.startswith(b'pattern ')]
    pages, each = [], []
    for pattern in patterns:
        page, seconds = timed(s, base + '/' + pattern)
        pages.append(page)
        each.append(seconds)
    return (counts + b''.join(pages)).replace(die.encode(), b'demo', 1), first, second, max(each, default=0)


def main():
    other = os.path.realpath(sys.argv[1])
    tries = int(sys.argv[2]) if len(sys.argv) > 2 else 9
    with tempfile.TemporaryDirectory() as folder:
        subprocess.run([other, 'files', '7', '200', folder], check=True, stdout=subprocess.DEVNULL)
        port = free_port()
        desk = subprocess.Popen([PROGRAM, 'serve', str(port), '1', '1000', os.path.join(folder, 'desk.db')],
                                env=dict(os.environ, GLIBC_TUNABLES=HEAP), stdout=subprocess.DEVNULL)
        try:
            with connect(port) as s:
                status, text = ask(s, 'PUT', '/designs/demo', bundle(folder))
            if status != 201:
                sys.exit('%d %r' % (status, text))
            print('%-10s %10s %10s %10s %10s %10s   (ms, medians of %d)' % ('log', 'other 1', 'other all', 'first', 'second', 'pattern', tries))
            number = 0
            for name in LOGS:
                with open(os.path.join(folder, name), 'rb') as text:
                    log = text.read()
                rows = []
                for _ in range(tries):
                    number += 1
                    due, one = of_the_other(other, folder, name, 1)
                    _, every = of_the_other(other, folder, name, 0)
                    with connect(port) as s:
                        told, *seconds = of_the_desk(s, log, number)
                    if told != due:
                        sys.exit('%s: other bytes' % name)
                    rows.append([one, every, *seconds])
                medians = [statistics.median(column) for column in zip(*rows)]
                print('%-10s' % name + ''.join(' %10.2f' % (1000 * seconds) for seconds in medians))
        finally:
            desk.kill()


if __name__ == '__main__':
    main()
