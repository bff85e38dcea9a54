#!/usr/bin/env python3
"""Tries the backup of docs/running.md: stop, copy both files, start again; and the copies are opened
as a restored store.

    python3 tests/backup.py       (from the top; ./scandesk must have been built)

The day is uploaded; while the desk runs `sqlite3` finds the store locked. The desk is stopped by
SIGTERM and another time by SIGKILL, both files are copied, and over the copies another desk has to
send the same report and the same sign-off. The copy of the first file alone is opened too, and told
is how many deeds it has."""
import hashlib
import json
import os
import shutil
import signal
import sqlite3
import subprocess
import sys
import tempfile

sys.path.insert(0, os.path.dirname(os.path.abspath(__file__)))
from desk_calls import PROGRAM, TOP, ask, connect, free_port

DAY = os.path.join(TOP, 'examples', 'day')
DIE = '/designs/block/dies/wafer3.17'
WRONG = []


def told(name, right, what):
    print('%-44s %s%s' % (name, what, '' if right else ', wrong'), flush=True)
    if not right:
        WRONG.append(name)


def day(name):
    with open(os.path.join(DAY, name), 'rb') as text:
        return text.read()


def serve(store, sessions):
    port = free_port()
    desk = subprocess.Popen([PROGRAM, 'serve', str(port), '1', str(sessions), store], stdout=subprocess.PIPE)
    if desk.stdout.readline() != b'serving %d\n' % port:
        sys.exit('not served: status %s' % desk.wait())
    return desk, port


def upload(port):
    digest = hashlib.sha256(day('report.expected')).hexdigest()
    sign = json.dumps({'revision': 2, 'signer': 'kim', 'digest': digest}).encode()
    with connect(port) as s:
        return [ask(s, *words)[0] for words in [('PUT', '/designs/block', day('pack.expected')), ('POST', DIE + '/logs', day('first.log')),
                                               ('POST', DIE + '/logs', day('second.log')), ('POST', DIE + '/signoffs', sign)]]


def is_locked(store):
    try:
        with sqlite3.connect(store, timeout=0.1) as base:
            base.execute('SELECT count(*) FROM logs').fetchone()
    except sqlite3.OperationalError as error:
        return 'locked' in str(error)
    return False


def looks(store):
    """The report and the sign-off of a store, and the last line of its desk."""
    desk, port = serve(store, 1)
    with connect(port) as s:
        answers = [ask(s, 'GET', DIE + target)[1] for target in ('/report', '/signoffs/1')]
    return answers, desk.stdout.read().decode().strip()


def backup(room, number):
    store, copies = os.path.join(room, number.name, 'desk'), os.path.join(room, number.name, 'backup')
    os.makedirs(copies)
    desk, port = serve(store, 1000)
    told('uploads before ' + number.name, all(status == 201 for status in upload(port)), '201')
    told('sqlite3 beside the desk', is_locked(store), 'locked')
    desk.send_signal(number)
    desk.wait()
    sizes = []
    for name in ('desk', 'desk-wal'):
        shutil.copy(os.path.join(room, number.name, name), copies)
        sizes.append(os.path.getsize(os.path.join(copies, name)))
    alone = os.path.join(room, number.name, 'alone')
    shutil.copy(store, alone)
    before, line = looks(store)
    told('the store again', before[0] == day('report.expected') and b'signer kim' in before[1] and line.endswith('deeds 4'), line)
    after, line = looks(os.path.join(copies, 'desk'))
    told('the copies, of %d and %d bytes' % tuple(sizes), after == before and line.endswith('deeds 4'), line)
    print('%-44s %s' % ('the first file alone', looks(alone)[1]))


def main():
    with tempfile.TemporaryDirectory() as room:
        for number in (signal.SIGTERM, signal.SIGKILL):
            backup(room, number)
    sys.exit(1 if WRONG else 0)


if __name__ == '__main__':
    main()
