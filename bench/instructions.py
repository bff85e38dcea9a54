#!/usr/bin/env python3
"""Counts the instructions of whole commands and of a session's GET slat, beside those of another program.

    python3 bench/instructions.py OTHER [PROGRAM]   (from the top; PROGRAM is the one that ./scandesk built, or another one)

OTHER is the path of the other program, or of the folder of its sources, which cargo then builds for x86-64-v2: the instruction
set that the desk is built for. It writes the files of `demo 7 200` (`OTHER files 7 200 FOLDER`). Each command runs on one
processor and one thread under valgrind's callgrind, whose counts don't depend on what else the machine does; the bytes of both are
compared. Of `slat` the desk's count is that of a session that gets the design and the log and is asked for `slat` and each of its
patterns, less that of a session that gets the design alone; the other program's is that of its command `slat` less its `check`. So both
read the log, and neither count has the design's reading.
"""
import os
import subprocess
import sys
import tempfile

sys.path.insert(0, os.path.join(os.path.dirname(os.path.dirname(os.path.abspath(__file__))), 'tests'))
from against import PROGRAM, TEXTS, commands
from desk_calls import ask, connect, free_port
from slat import bundle

LOGS = ('demo', 'each', 'many')


def built(other, folder):
    """The other program, built from its sources where a folder is given."""
    if not os.path.isdir(other):
        return os.path.abspath(other)
    told = dict(os.environ, RUSTFLAGS='-C target-cpu=x86-64-v2', CARGO_TARGET_DIR=os.path.join(folder, 'target'))
    subprocess.run(['cargo', 'build', '--release', '--quiet'], cwd=other, env=told, check=True)
    found = [os.path.join(folder, 'target', 'release', name) for name in os.listdir(os.path.join(folder, 'target', 'release'))]
    return next(file for file in found if os.path.isfile(file) and os.access(file, os.X_OK))


def under_callgrind(words, folder):
    return ['valgrind', '--tool=callgrind', '--callgrind-out-file=' + os.path.join(folder, 'callgrind'), *words]


def collected(told):
    """The instructions that callgrind tells, in millions."""
    return int(next(line for line in told.splitlines() if b'Collected' in line).split()[-1]) / 1e6


def counted(words, folder):
    """The instructions of a run, in millions, and the bytes that it writes."""
    told = dict(os.environ, PEER_THREADS='1')
    ran = subprocess.run(under_callgrind(words, folder), env=told, stdout=subprocess.PIPE, stderr=subprocess.PIPE, check=True)
    return collected(ran.stderr), ran.stdout


def views(folder):
    """The commands of the views and of profile 2."""
    texts, place = [os.path.join(folder, name) for name in TEXTS], lambda name: os.path.join(folder, name)
    for log in LOGS:
        yield f'diagnose2 {log}.log', ['diagnose2', 'demo', 'demo', *texts, place(f'{log}.log')]
    for log in LOGS:
        yield f'loc {log}', ['loc', 'demo', 'demo', *texts[:2], place('loc.txt'), place(f'loc-{log}.log')]
    for log in LOGS:
        yield f'compact {log}', ['compact', 'demo', 'demo', *texts, place('channels.txt'), place(f'compact-{log}.log')]


def asked_slat(s, log):
    """What is answered for the log, for slat and for each of its patterns."""
    status, _ = ask(s, 'POST', '/designs/demo/dies/demo/logs', log)
    if status != 201:
        sys.exit('a log: %d' % status)
    base = '/designs/demo/dies/demo/reports/1/slat'
    counts = ask(s, 'GET', base)[1]
    patterns = [line.split()[1].decode() for line in counts.splitlines() if line.startswith(b'pattern ')]
    return counts + b''.join(ask(s, 'GET', base + '/' + pattern)[1] for pattern in patterns)


def session(program, folder, log=None):
    """The instructions of a session that gets the design, in millions, and what it answers for a log."""
    port = free_port()
    with tempfile.TemporaryDirectory() as room:
        words = under_callgrind([program, 'serve', str(port), '1', '1', os.path.join(room, 'store')], folder)
        desk = subprocess.Popen(words, stdout=subprocess.PIPE, stderr=subprocess.PIPE)
        if desk.stdout.readline() != b'serving %d\n' % port:
            sys.exit('not served')
        with connect(port) as s:
            status, _ = ask(s, 'PUT', '/designs/demo', bundle(folder))
            if status != 201:
                sys.exit('a design: %d' % status)
            answered = asked_slat(s, log) if log else b''
        told = desk.stderr.read()
        desk.wait()
    return collected(told), answered


def tell(name, own, theirs, is_same):
    print('%-22s %8.1f %8.1f %6.2f   %s' % (name, own, theirs, own / theirs, 'same bytes' if is_same else 'OTHER BYTES'), flush=True)
    return is_same


def main():
    if len(sys.argv) not in (2, 3):
        sys.exit(__doc__)
    program = os.path.abspath(sys.argv[2]) if len(sys.argv) == 3 else PROGRAM
    # One processor for this script and what it runs.
    os.sched_setaffinity(0, {max(os.sched_getaffinity(0))})
    with tempfile.TemporaryDirectory() as folder:
        other = built(sys.argv[1], folder)
        subprocess.run([other, 'files', '7', '200', folder], check=True, stdout=subprocess.DEVNULL)
        print('%-22s %8s %8s %6s   (millions of instructions)' % ('command', 'desk', 'other', 'ratio'))
        alike, read = True, 0
        for name, words in [*commands(folder), *views(folder)]:
            (own, printed), (theirs, beside) = counted([program, *words], folder), counted([other, *words], folder)
            read = theirs if name == 'check' else read
            alike = tell(name, own, theirs, printed == beside) and alike
        idle, _ = session(program, folder)
        for log in LOGS:
            file = os.path.join(folder, f'{log}.log')
            theirs, beside = counted([other, 'slat', 'demo', 'demo', *(os.path.join(folder, name) for name in TEXTS), file], folder)
            with open(file, 'rb') as text:
                own, answered = session(program, folder, text.read())
            alike = tell(f'slat of {log}.log', own - idle, theirs - read, answered == beside) and alike
    sys.exit(0 if alike else 1)


if __name__ == '__main__':
    main()
