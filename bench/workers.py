#!/usr/bin/env python3
"""Loads the served desk over loopback, and tells requests a second and the longest wait.

    python3 bench/workers.py [SECONDS]                  (from the top; ./scandesk must have been built)
    python3 bench/workers.py --large [SECONDS] [OTHER..]

With 1, 2, 4 and 8 workers, twice as many clients as workers, each a process of its own, upload logs of 100 dies of the design
of examples/day and ask for pages of their reports, three pages to a log, over connections of 50 requests.

With --large there are 8 workers: 7 clients upload logs of 1 MiB, each another one, and an eighth asks for a sign-off that isn't there,
which takes nothing but its turn. A worker serves a connection to its end, so there are no more clients than workers. OTHER are programs of
other states; these and the one of this state take turns, three times each, and for each the most logs a second, and the median and the
longest of the waits for sign-offs of that turn, are told.
"""
import argparse
import multiprocessing
import os
import subprocess
import sys
import tempfile
import time

sys.path.insert(0, os.path.join(os.path.dirname(os.path.dirname(os.path.abspath(__file__))), 'tests'))
from desk_calls import PROGRAM, TOP, ask, connect, free_port

DAY = os.path.join(TOP, 'examples', 'day')
LARGE = 1 << 20


def packed():
    words = [PROGRAM, 'pack'] + [os.path.join(DAY, name) for name in ['block.bench', 'block.scan', 'block.pat', 'block.csv']]
    return subprocess.run(words, check=True, stdout=subprocess.PIPE).stdout


def client(number, port, until, found):
    """Uploads and asks until the time, and tells how many requests were answered and the longest wait."""
    requests, longest, turn = 0, 0.0, 0
    while time.monotonic() < until:
        with connect(port) as s:
            for _ in range(50):
                die = 'die%d' % ((number * 31 + turn) % 100)
                if turn % 4 == 0:
                    pattern = (turn * 7 + number) % 512
                    log = 'FAILLOG 1\ndie %s\ndesign block\ntested %d %d\nfail %d cell c0 0\ntruncated\n' % (die, pattern, pattern, pattern)
                    words = ('POST', '/designs/block/dies/%s/logs' % die, log.encode())
                else:
                    words = ('GET', '/designs/block/dies/%s/reports/1/pages/1' % die, b'')
                begin = time.monotonic()
                status, body = ask(s, *words)
                longest = max(longest, time.monotonic() - begin)
                if status not in (200, 201, 404):
                    sys.exit('%s: %d %r' % (words[1], status, body))
                requests += 1
                turn += 1
    found.put((requests, longest))


def large_log(number):
    """What follows the first lines of a log of 1 MiB of a client's own die."""
    fails = ''.join('fail %d cell c0 %d\n' % (k % 512, k % 5) for k in range(LARGE // 16))
    return ('die large%d\ndesign block\ntested 0 511\n' % number + fails)[:LARGE - 64].rpartition('\n')[0].encode() + b'\nend\n'


def uploader(number, port, until):
    """Uploads large logs until the time, and tells how many were taken; a comment tells each from the others."""
    taken, rest = 0, large_log(number)
    with connect(port) as s:
        while time.monotonic() < until:
            status, body = ask(s, 'POST', '/designs/block/dies/large%d/logs' % number, b'FAILLOG 1\n# %d\n' % taken + rest)
            if status != 201:
                sys.exit('a large log: %d %r' % (status, body))
            taken += 1
    return taken, []


def asker(port, until):
    """Asks for a sign-off of a die until the time, and tells each wait; no connection is asked for more than it serves."""
    waits = []
    while time.monotonic() < until:
        with connect(port) as s:
            for _ in range(500):
                begin = time.monotonic()
                ask(s, 'GET', '/designs/block/dies/large0/signoffs/1')
                waits.append(time.monotonic() - begin)
                time.sleep(0.002)
                if time.monotonic() > until:
                    break
    return 0, waits


def tells(found, work, *words):
    """What a client found, or why it ended: whoever waits for it hears of both."""
    try:
        found.put(work(*words))
    except (SystemExit, OSError) as fault:
        found.put(fault)


def load_clients(port, seconds):
    """What each of the clients found."""
    found = multiprocessing.Queue()
    until = time.monotonic() + seconds
    works = [(uploader, i, port, until) for i in range(7)] + [(asker, port, until)]
    clients = [multiprocessing.Process(target=tells, args=(found, *work), daemon=True) for work in works]
    for it in clients:
        it.start()
    told = [found.get(timeout=seconds + 60) for _ in clients]
    for it in told:
        if isinstance(it, BaseException):
            sys.exit('a client ended: %s' % it)
    return told


def load_large(program, seconds, folder, bundle):
    """Logs a second, and the waits for sign-offs, of eight workers."""
    port = free_port()
    store = os.path.join(folder, 'large.db')
    desk = subprocess.Popen([program, 'serve', str(port), '8', '1000000', store], stdout=subprocess.DEVNULL)
    try:
        with connect(port) as s:
            if ask(s, 'PUT', '/designs/block', bundle)[0] != 201:
                sys.exit('the design was refused')
        told = load_clients(port, seconds)
    finally:
        desk.kill()
        desk.wait()
        os.unlink(store)
    waits = sorted(wait for _, some in told for wait in some)
    return sum(taken for taken, _ in told) / seconds, waits[len(waits) // 2], waits[-1]


def tell_large(seconds, programs, bundle):
    best = {}
    with tempfile.TemporaryDirectory() as folder:
        for _ in range(3):
            for program in programs:
                best[program] = max(best.get(program, (0, 0, 0)), load_large(program, seconds, folder, bundle))
    for program, (logs, median, longest) in best.items():
        print('%s: %6.1f logs of 1 MiB a second, sign-offs in %.1f ms, the longest wait %.0f ms' % (program, logs, 1e3 * median, 1e3 * longest))


def load(workers, seconds, folder, bundle):
    port = free_port()
    store = os.path.join(folder, 'desk%d.db' % workers)
    desk = subprocess.Popen([PROGRAM, 'serve', str(port), str(workers), '1000000', store], stdout=subprocess.DEVNULL)
    try:
        with connect(port) as s:
            if ask(s, 'PUT', '/designs/block', bundle)[0] != 201:
                sys.exit('the design was refused')
        found = multiprocessing.Queue()
        until = time.monotonic() + seconds
        clients = [multiprocessing.Process(target=client, args=(i, port, until, found)) for i in range(2 * workers)]
        for it in clients:
            it.start()
        told = [found.get() for _ in clients]
        for it in clients:
            it.join()
        print('%d workers, %2d clients: %7.0f requests a second, the longest wait %.0f ms'
              % (workers, len(clients), sum(n for n, _ in told) / seconds, 1e3 * max(w for _, w in told)))
    finally:
        desk.kill()


def main():
    words = argparse.ArgumentParser()
    words.add_argument('--large', action='store_true')
    words.add_argument('seconds', nargs='?', type=float, default=5)
    words.add_argument('others', nargs='*', metavar='OTHER')
    asked = words.parse_args()
    seconds = asked.seconds
    bundle = packed()
    if asked.large:
        tell_large(seconds, [PROGRAM, *asked.others], bundle)
        return
    with tempfile.TemporaryDirectory() as folder:
        for workers in [1, 2, 4, 8]:
            load(workers, seconds, folder, bundle)


if __name__ == '__main__':
    main()
