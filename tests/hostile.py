#!/usr/bin/env python3
"""Ill-behaved clients and ends of the served desk over real sockets. Each part prints one line, and `wrong` where it isn't as due.

    python3 tests/hostile.py [OTHER..]        (from the top; ./scandesk must have been built)

OTHER is the command of another desk with the same words (`serve PORT WORKERS SESSIONS STORE`), a model: with it 2,000 heads turned,
cut and doubled by a fuzzer are sent to both, and the replies are compared byte for byte. Without it that part is left out.
"""
import os
import random
import resource
import shutil
import signal
import socket
import struct
import subprocess
import sys
import tempfile
import threading
import time

sys.path.insert(0, os.path.dirname(os.path.abspath(__file__)))
from desk_calls import PROGRAM, TOP, ask, connect, free_port

DAY = os.path.join(TOP, 'examples', 'day')
WRONG = []
RUNNING = []


def day(name):
    with open(os.path.join(DAY, name), 'rb') as text:
        return text.read()


BUNDLE, FIRST, SECOND = day('pack.expected'), day('first.log'), day('second.log')
LOGS = '/designs/block/dies/wafer3.17/logs'


def told(name, right, what):
    print('%-46s %s%s' % (name, what, '' if right else ', wrong'), flush=True)
    if not right:
        WRONG.append(name)


class Desk:
    """A served desk over a store, with words for the process."""

    def __init__(self, store, workers, sessions, command=(PROGRAM,), limits=None):
        self.port = free_port()
        words = [*command, 'serve', str(self.port), str(workers), str(sessions), store]
        self.process = subprocess.Popen(words, stdout=subprocess.PIPE, preexec_fn=limits)
        RUNNING.append(self.process)
        if self.process.stdout.readline() != b'serving %d\n' % self.port:
            sys.exit('not served: %s' % words)

    def connect(self):
        return connect(self.port)

    def ask(self, *words):
        with self.connect() as s:
            return ask(s, *words)

    def put_design(self):
        return self.ask('PUT', '/designs/block', BUNDLE)

    def end(self, number=signal.SIGKILL):
        self.process.send_signal(number)
        self.process.wait()


def request(method, target, body=b''):
    return ('%s %s HTTP/1.1\r\nHost: desk\r\nContent-Length: %d\r\n\r\n' % (method, target, len(body))).encode() + body


def reset(s):
    s.setsockopt(socket.SOL_SOCKET, socket.SO_LINGER, struct.pack('ii', 1, 0))
    s.close()


def slow_clients(folder):
    """One client sends a byte a second, one never reads; a third is served meanwhile."""
    desk = Desk(os.path.join(folder, 'slow'), 3, 1000)
    desk.put_design()
    desk.ask('POST', LOGS, FIRST)
    # The report of a row of buffers is long: 20 of them are more than a socket holds.
    row = ['%netlist', 'INPUT(b0)', 'OUTPUT(b5000)'] + ['b%d = BUF(b%d)' % (k, k - 1) for k in range(1, 5001)]
    desk.ask('PUT', '/designs/row', '\n'.join(row + ['%scan', '%patterns', 'CAPTURE 1', '%neighbours\n']).encode())
    desk.ask('POST', '/designs/row/dies/D1/logs', b'FAILLOG 1\ndie D1\ndesign row\ntested 0 0\nfail 0 out b5000\nend\n')
    slow, deaf = desk.connect(), desk.connect()
    deaf.setsockopt(socket.SOL_SOCKET, socket.SO_RCVBUF, 4096)
    deaf.sendall(20 * request('GET', '/designs/row/dies/D1/report'))
    stop = threading.Event()

    def send_slowly():
        for byte in request('POST', LOGS, SECOND):
            slow.send(bytes([byte]))
            if stop.wait(1):
                return

    thread = threading.Thread(target=send_slowly)
    thread.start()
    begin, longest = time.monotonic(), 0.0
    for _ in range(200):
        at = time.monotonic()
        status, _ = desk.ask('GET', LOGS[:-4] + 'report')
        longest = max(longest, time.monotonic() - at)
        if status != 200:
            break
    stop.set()
    thread.join()
    told('one client sends slowly, one never reads', status == 200 and longest < 2,
         '200 reports for a third in %.2f s, the longest wait %.0f ms' % (time.monotonic() - begin, 1e3 * longest))
    desk.end()


def resets(folder):
    """A log's upload is reset behind each of its bytes."""
    desk = Desk(os.path.join(folder, 'resets'), 2, 100000)
    desk.put_design()
    whole = request('POST', LOGS, SECOND)
    for sent in range(len(whole)):
        s = desk.connect()
        s.sendall(whole[:sent])
        reset(s)
    status, body = desk.ask('POST', LOGS, FIRST)
    told('a client that resets behind each byte of a log', (status, body) == (201, b'log 1\n'), '%d resets, no deed' % len(whole))
    desk.end()


def connections(folder, count=10000):
    desk = Desk(os.path.join(folder, 'connections'), 1, count + 10)
    desk.put_design()
    files = '/proc/%d/fd' % desk.process.pid
    before = len(os.listdir(files))
    for at in range(count):
        with desk.connect() as s:
            if at % 3:
                s.sendall(request('GET', '/designs/block')[:at % 60])
    status, _ = desk.ask('GET', '/designs/none')
    time.sleep(0.2)
    after = len(os.listdir(files))
    told('connections one after another', status == 404 and after <= before, '%d, open files before %d and after %d' % (count, before, after))
    desk.end()


def large_bodies(folder):
    desk = Desk(os.path.join(folder, 'large'), 1, 100)
    text = BUNDLE.replace(b'%scan\n', b'#' * (16777216 - len(BUNDLE) - 1) + b'\n%scan\n', 1)
    taken = desk.ask('PUT', '/designs/large', text)
    with desk.connect() as s:
        s.sendall(b'PUT /designs/larger HTTP/1.1\r\nHost: desk\r\nContent-Length: 16777217\r\n\r\n')
        refused = s.recv(1 << 16)
    told('a body of 16 MiB, and one byte more', len(text) == 16777216 and taken[0] == 201 and refused.startswith(b'HTTP/1.1 413 '),
         '%d, and %s before its body' % (taken[0], refused[9:12].decode()))
    desk.end()


def fuzzed(rng):
    head = bytearray(rng.choice([request('GET', '/designs/block'), request('POST', LOGS, FIRST), request('PUT', '/designs/block', BUNDLE)[:300],
                                 request('GET', LOGS[:-4] + 'reports/1/pages/1'), request('DELETE', '/designs/block'),
                                 b'GET /designs/block HTTP/1.0\r\nX: %s\r\n\r\n' % (b'y' * rng.choice([10, 8100, 8192, 9000]))]))
    for _ in range(rng.randrange(3)):
        at, kind = rng.randrange(len(head)), rng.randrange(5)
        if kind == 0:
            head[at] = rng.randrange(256)
        elif kind == 1:
            del head[at:at + rng.randrange(1, 20)]
        elif kind == 2:
            head[at:at] = head[at:at + rng.randrange(1, 40)]
        else:
            head[at:at] = rng.choice([b'\0', b'\r', b'\n', b' ', b':'])
        head = head or bytearray(b'\r')
    return bytes(head)


def replies(desk, sent):
    with desk.connect() as s:
        s.sendall(sent)
        s.shutdown(socket.SHUT_WR)
        got = b''
        try:
            while piece := s.recv(1 << 16):
                got += piece
        except ConnectionResetError:
            pass
    return got


def heads(folder, other, count=2000):
    rng = random.Random(7)
    one, two = Desk(os.path.join(folder, 'heads'), 1, count + 10), Desk(os.path.join(folder, 'model'), 1, count + 10, other)
    one.put_design(), two.put_design()
    differ = 0
    for _ in range(count):
        sent = fuzzed(rng)
        a, b = replies(one, sent), replies(two, sent)
        if a != b:
            differ += 1
            if differ < 4:
                print(sent[:200], a[:200], b[:200])
    told('heads of a fuzzer, beside the model', differ == 0, '%d, of which %d differ' % (count, differ))
    one.end(), two.end()


def is_kept(store):
    desk = Desk(store, 1, 10)
    again = desk.put_design()[0], desk.ask('POST', LOGS, FIRST)
    desk.end()
    return again == (200, (200, b'log 1\n'))


def ends(folder):
    for name, number in [('SIGTERM', signal.SIGTERM), ('SIGKILL', signal.SIGKILL)]:
        store = os.path.join(folder, name)
        desk = Desk(store, 1, 10)
        created = desk.put_design()[0], desk.ask('POST', LOGS, FIRST)[0]
        desk.end(number)
        told('what was answered 201 before ' + name, created == (201, 201) and is_kept(store), 'is there at the next start')


def full_disk(folder):
    """The store may not grow past 1,000,000 bytes, as on a full disk."""
    store = os.path.join(folder, 'full')

    def limits():
        signal.signal(signal.SIGXFSZ, signal.SIG_IGN)
        resource.setrlimit(resource.RLIMIT_FSIZE, (1000000, 1000000))

    desk = Desk(store, 1, 1000, limits=limits)
    desk.put_design()
    created, refused = [], 0
    for at in range(200):
        text = b'FAILLOG 1\ndie wafer3.17\ndesign block\ntested 0 0\nfail 0 cell c0 0\nend\n#' + str(at).encode() + b'x' * 3000 + b'\n'
        status, body = desk.ask('POST', LOGS, text)
        if status == 201:
            created.append((text, body))
        else:
            refused += status in (503, 507)
    looks = desk.ask('GET', LOGS[:-4] + 'report')[0]
    desk.end()
    again = Desk(store, 1, 1000)
    kept = all(again.ask('POST', LOGS, text) == (200, body) for text, body in created)
    again.end()
    told('a full disk', kept and refused > 0 and looks == 200,
         '%d logs answered 201 are there at the next start, %d answered 503 or 507' % (len(created), refused))


def main():
    folder = tempfile.mkdtemp()
    try:
        slow_clients(folder)
        resets(folder)
        connections(folder)
        large_bodies(folder)
        ends(folder)
        full_disk(folder)
        if len(sys.argv) > 1:
            heads(folder, sys.argv[1:])
    finally:
        for process in RUNNING:
            process.kill()
        shutil.rmtree(folder)
    sys.exit(1 if WRONG else 0)


if __name__ == '__main__':
    main()
