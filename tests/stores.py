#!/usr/bin/env python3
"""Changes a store by hand between two runs of a program that serves, and compares how the second run ends.

    tests/stores.py PROGRAM FOLDER

The first run is sent a design, a log and a sign-off, the files of FOLDER. What its store then has is compared with what was sent. Each change of the
tables below is made to a copy of that store by Python's sqlite3, and the program is run over the copy: it serves, and has the sign-off, or it ends
by itself with a status and one line, and leaves the rows as they were.

A store of the program before, which had no `desk_schema` and kept its logs in `logs`, is opened
twice and has the same deeds. One of 2,000 logs is opened and the program is killed, at each of 30
moments; the next opening has them all. A store of a later program is refused, and its file is left
byte for byte as it was. The last line tells how many runs were compared and how many were wrong.
"""
import os
import shutil
import sqlite3
import subprocess
import sys
import tempfile
import time

from requests import body_of, reply_to, request, serve

SIGNOFFS = '/designs/s27/dies/D1/signoffs'
DIGEST = 'a18da399681001adde28d6ab4468d9b58dc884b4d0de8bad094a9173161b11db'

# The tables of the program before.
OLD_TABLES = """
CREATE TABLE designs (n INTEGER PRIMARY KEY, seat INTEGER NOT NULL, name BLOB NOT NULL, body BLOB NOT NULL);
CREATE TABLE logs (n INTEGER PRIMARY KEY, seat INTEGER NOT NULL, design BLOB NOT NULL, die BLOB NOT NULL, body BLOB NOT NULL);
CREATE TABLE signoffs (n INTEGER PRIMARY KEY, seat INTEGER NOT NULL, design BLOB NOT NULL, die BLOB NOT NULL, revision INTEGER NOT NULL, signer BLOB NOT NULL, digest BLOB NOT NULL);
"""

# A log of the die that passes, between its first and its sign-off.
PASSES = b'FAILLOG 1\ndie D1\ndesign s27\ntested 0 0\nend\n'.hex()

# A store that was changed so is served, with so many deeds.
SERVED = [
    ('', 3),
    ('UPDATE designs SET seat = 4294967295 WHERE n = 0', 3),
    ("UPDATE logs2 SET body = CAST(body || x'0A' AS BLOB) WHERE n = 1", 3),
    (f"UPDATE signoffs SET n = 3 WHERE n = 2; INSERT INTO logs2 VALUES (2, 0, x'733237', x'4431', x'{PASSES}', 2)", 4),
]

# Rows that are no deeds: the store is a fault.
FAULTS = [
    'DELETE FROM designs WHERE n = 0',
    'DELETE FROM logs2 WHERE n = 1',
    'UPDATE signoffs SET n = 4 WHERE n = 2',
    'UPDATE designs SET seat = 4294967296 WHERE n = 0',
    'UPDATE designs SET seat = 8589934592 WHERE n = 0',
    'UPDATE logs2 SET seat = -1 WHERE n = 1',
    "INSERT INTO logs2 VALUES (0, 1, x'41', x'42', x'43', 2)",
    "UPDATE signoffs SET digest = x'0707' WHERE n = 2",
    'UPDATE signoffs SET revision = -1 WHERE n = 2',
]

# Deeds that don't fit behind those before them, and their rows.
SPOILED = [
    ("UPDATE designs SET name = x'5F' WHERE n = 0", 0),
    ("UPDATE designs SET body = x'257363616E' WHERE n = 0", 0),
    ('UPDATE designs SET n = 3 WHERE n = 0; UPDATE logs2 SET n = 0 WHERE n = 1; UPDATE designs SET n = 1 WHERE n = 3', 0),
    ("UPDATE logs2 SET design = x'6E6F6E65' WHERE n = 1", 1),
    ("UPDATE logs2 SET die = x'4432' WHERE n = 1", 1),
    ("UPDATE logs2 SET body = x'4641494C' WHERE n = 1", 1),
    ("UPDATE signoffs SET die = x'4432' WHERE n = 2", 2),
    ('UPDATE signoffs SET revision = 0 WHERE n = 2', 2),
    ('UPDATE signoffs SET revision = 2 WHERE n = 2', 2),
    ("UPDATE signoffs SET signer = x'5F' WHERE n = 2", 2),
    (f"UPDATE signoffs SET digest = x'{'07' * 32}' WHERE n = 2", 2),
    ('INSERT INTO logs2 SELECT 3, seat, design, die, body, 2 FROM logs2 WHERE n = 1', 3),
    ("INSERT INTO designs SELECT 3, seat, name, body FROM designs WHERE n = 0", 3),
    ('INSERT INTO signoffs SELECT 3, seat, design, die, revision, signer, digest FROM signoffs WHERE n = 2', 3),
]


# Stores of a later program, made of one of this program.
LATER = [
    'UPDATE desk_schema SET n = 3',
    'INSERT INTO desk_schema VALUES (3)',
    'DROP TABLE desk_schema; CREATE TABLE desk_schema (form TEXT)',
    'DROP TABLE desk_schema; CREATE TABLE desk_schema (n TEXT); INSERT INTO desk_schema VALUES (2)',
    'UPDATE desk_schema SET n = 3; DROP TABLE logs2; DROP TABLE logs',
    'UPDATE desk_schema SET n = -9223372036854775808',
]

TABLES = ('designs', 'logs', 'logs2', 'signoffs', 'desk_schema')


def rows_of(store):
    """The rows of the tables, where they are there."""
    base = sqlite3.connect(store)
    there = {name for name, in base.execute('SELECT name FROM sqlite_schema')}
    rows = [base.execute(f'SELECT * FROM {table} ORDER BY 1').fetchall() for table in TABLES if table in there]
    base.close()
    return rows


def change(store, statements):
    base = sqlite3.connect(store)
    base.executescript(statements)
    base.close()


def fill(program, folder, store):
    """Whether a run keeps what it is sent: a design, a log and a sign-off, by seat 0."""
    bundle, log, sign = (body_of(folder, name) for name in ('s27.bundle', 'one.log', 'right.json'))
    serving, port = serve(program, 3, store)
    for sent in (request('PUT', '/designs/s27', bundle), request('POST', '/designs/s27/dies/D1/logs', log), request('POST', SIGNOFFS, sign)):
        reply_to(port, sent)
    due = [[(0, 0, b's27', bundle)], [], [(1, 0, b's27', b'D1', log, 2)], [(2, 0, b's27', b'D1', 1, b'ann', bytes.fromhex(DIGEST))], [(2,)]]
    return serving.wait() == 0 and rows_of(store) == due


def is_served(program, store, deeds):
    """Whether a run over the store has the sign-off, and ends well with so many deeds."""
    serving, port = serve(program, 1, store)
    came = reply_to(port, request('GET', SIGNOFFS + '/1', None))
    due = f'signoff 1\nrevision 1\nsigner ann\ndigest {DIGEST}\n'.encode()
    return came == ('200', due) and serving.stdout.read() == f'sessions 1 deeds {deeds}\n' and serving.wait() == 0


def ends_with(program, store, status, line):
    """Whether a run over the store ends by itself with this status and this line. It asks for no port."""
    try:
        ended = subprocess.run([program, 'serve', '18500', '1', '1', store], stdout=subprocess.PIPE, text=True, timeout=60, check=False)
    except subprocess.TimeoutExpired:
        return False
    return (ended.returncode, ended.stdout) == (status, line + '\n')


def is_refused(program, store, status, line):
    """The same, and the rows are left as they were."""
    before = rows_of(store)
    return ends_with(program, store, status, line) and rows_of(store) == before


# ---- a store of the program before

def old_store(store, designs, logs, signoffs):
    """Makes a store as the program before left it."""
    base = sqlite3.connect(store)
    base.executescript(OLD_TABLES)
    for table, rows in (('designs', designs), ('logs', logs), ('signoffs', signoffs)):
        for row in rows:
            base.execute(f'INSERT INTO {table} VALUES ({", ".join("?" * len(row))})', row)
    base.commit()
    base.close()


def taken_over(designs, logs, signoffs, later=()):
    """The rows that the store has from its first opening on."""
    return [designs, [], [(*row, 1) for row in logs] + list(later), signoffs, [(2,)]]


def has_report(program, folder, store, deeds, logs):
    """Whether a run over the store has the report that `diagnose` writes of the die's logs, and so
    many deeds."""
    names = []
    for i, log in enumerate(logs):
        names.append(os.path.join(os.path.dirname(store), f'{i}.log'))
        with open(names[-1], 'wb') as file:
            file.write(log)
    files = [os.path.join(folder, name) for name in ('s27.bench', 's27.scan', 's27.pat', 'none.csv')]
    due = subprocess.run([program, 'diagnose', 's27', 'D1', *files, *names], stdout=subprocess.PIPE, check=True).stdout
    serving, port = serve(program, 1, store)
    came = reply_to(port, request('GET', '/designs/s27/dies/D1/report', None))
    return came == ('200', due) and serving.stdout.read() == f'sessions 1 deeds {deeds}\n' and serving.wait() == 0


def old_store_is_taken_over(program, folder, store):
    """Two designs, three logs and a sign-off: the same deeds at the first opening and the next, and
    then one log more."""
    bundle, log = body_of(folder, 's27.bundle'), body_of(folder, 'one.log')
    second, third = log + b'# 2\n', log + b'# 3\n'
    designs = [(0, 4, b's27', bundle), (2, 0, b'other', bundle)]
    logs = [(1, 7, b's27', b'D1', log), (4, 0, b'other', b'D1', log.replace(b's27', b'other')), (5, 4294967295, b's27', b'D1', second)]
    signoffs = [(3, 1, b's27', b'D1', 1, b'ann', bytes.fromhex(DIGEST))]
    old_store(store, designs, logs, signoffs)
    for _ in range(2):
        if not has_report(program, folder, store, 6, [log, second]) or rows_of(store) != taken_over(designs, logs, signoffs):
            return False
    serving, port = serve(program, 1, store)
    came = reply_to(port, request('POST', '/designs/s27/dies/D1/logs', third))
    if came[0] != '201' or serving.wait() != 0:
        return False
    later = [(6, 0, b's27', b'D1', third, 2)]
    return has_report(program, folder, store, 7, [log, second, third]) and rows_of(store) == taken_over(designs, logs, signoffs, later)


# ---- a first opening that is killed

LOGS = 2000
KILLS = 30


def beside(store):
    return store + '-wal'


def size_of(file):
    try:
        return os.stat(file).st_size
    except FileNotFoundError:
        return 0


def copy_store(store, to):
    """Copies a store with what is beside it."""
    for name in (to, beside(to)):
        if os.path.exists(name):
            os.remove(name)
    shutil.copy(store, to)
    if os.path.exists(beside(store)):
        shutil.copy(beside(store), beside(to))


def open_until(program, store, is_due):
    """Opens a store, and kills the program at the first moment that is due, by the time since it was
    started and by what was written beside the store, or where it serves. Tells the moment."""
    began = time.monotonic()
    with subprocess.Popen([program, 'serve', '18503', '1', '1', store], stdout=subprocess.PIPE) as opening:
        os.set_blocking(opening.stdout.fileno(), False)
        while True:
            moment = (time.monotonic() - began, size_of(beside(store)))
            if is_due(*moment) or opening.stdout.read() is not None:
                break
        opening.kill()
    return moment


def moments(program, store, scratch):
    """Moments of the first opening: half of them are spread over its time, and half over what it
    writes."""
    copy_store(store, scratch)
    seconds, size = open_until(program, scratch, lambda seconds, size: False)
    for i in range(KILLS // 2):
        yield lambda now, _, due=seconds * i / (KILLS // 2): now >= due
        yield lambda _, now, due=size * i // (KILLS // 2): now > due


def killed_openings(program, folder, room):
    """How many of the openings lose something."""
    store, scratch, seen = (os.path.join(room, name) for name in ('many', 'killed', 'seen'))
    log = body_of(folder, 'one.log')
    designs = [(0, 0, b's27', body_of(folder, 's27.bundle'))]
    logs = [(n, 0, b's27', b'D1', log + f'# {n} '.encode() + b'x' * 500 + b'\n') for n in range(1, LOGS + 1)]
    old_store(store, designs, logs, [])
    old, new = rows_of(store), taken_over(designs, logs, [])
    kept = 0
    for is_due in list(moments(program, store, scratch)):
        copy_store(store, scratch)
        open_until(program, scratch, is_due)
        # All as it was, or all taken over.
        copy_store(scratch, seen)
        rows = rows_of(seen)
        serving, port = serve(program, 1, scratch)
        came = reply_to(port, request('GET', '/designs/s27', None))
        ended = serving.stdout.read() == f'sessions 1 deeds {LOGS + 1}\n' and serving.wait() == 0
        kept += rows in (old, new) and came[0] == '200' and ended and rows_of(scratch) == new
    return KILLS - kept


# ---- a store of a later program

def bytes_of(name):
    with open(name, 'rb') as file:
        return file.read()


def is_left(program, store):
    """Whether a run refuses the store and leaves its file byte for byte as it was, and the rows.
    (Opening a file sets a mark behind what is written beside it, which is no row.)"""
    copy_store(store, store + '-seen')
    file, log = bytes_of(store), bytes_of(beside(store)) if os.path.exists(beside(store)) else b''
    if not ends_with(program, store, 7, 'store fault') or bytes_of(store) != file or not bytes_of(beside(store)).startswith(log):
        return False
    rows = rows_of(store + '-seen')
    copy_store(store, store + '-seen')
    return rows_of(store + '-seen') == rows


def later_is_left(program, store, changed, statements):
    """With the change in the file, and with the change in what is beside it."""
    copy_store(store, changed)
    change(changed, statements)
    base = sqlite3.connect(changed + '-open')
    shutil.copy(store, changed + '-open')
    base.execute('PRAGMA wal_autocheckpoint = 0')
    base.executescript(statements)
    copy_store(changed + '-open', changed + '-beside')
    base.close()
    return size_of(beside(changed + '-beside')) > 0 and is_left(program, changed) and is_left(program, changed + '-beside')


def trials(program):
    """Each change, and what is tried with the store that it was made to."""
    for statements, deeds in SERVED:
        yield statements, lambda store, deeds=deeds: is_served(program, store, deeds)
    for statements in FAULTS:
        yield statements, lambda store: is_refused(program, store, 7, 'store fault')
    for statements, row in SPOILED:
        yield statements, lambda store, row=row: is_refused(program, store, 9, f'store row {row}')


def main():
    program, folder = os.path.abspath(sys.argv[1]), sys.argv[2]
    wrong = []
    with tempfile.TemporaryDirectory() as room:
        store, changed = os.path.join(room, 'store'), os.path.join(room, 'changed')
        if not fill(program, folder, store):
            sys.exit('the store has not what was sent')
        due = list(trials(program))
        for statements, is_due in due:
            shutil.copy(store, changed)
            change(changed, statements)
            if not is_due(changed):
                wrong.append(statements or 'no change')
        wrong += [statements for statements in LATER if not later_is_left(program, store, changed, statements)]
        if not ends_with(program, os.path.join(room, 'none', 'store'), 7, 'store fault'):
            wrong.append('a file in no folder')
        if not old_store_is_taken_over(program, folder, os.path.join(room, 'old')):
            wrong.append('a store of the program before')
        wrong += ['a first opening that was killed'] * killed_openings(program, folder, room)
    for statements in wrong:
        print(f'the store ended otherwise than is due: {statements}')
    print(f'{len(due) + len(LATER) + KILLS + 2} stores, {len(wrong)} wrong')
    sys.exit(1 if wrong else 0)


if __name__ == '__main__':
    main()
