#!/usr/bin/env python3
"""Asks the desk for all pages of a report of 50,000 lines over loopback, and tells requests a second.

    python3 bench/pages.py            (from the top; ./scandesk must have been built)

The design is a row of buffers, of which each is a candidate. The pages are asked for over one connection, and over a
connection for each page; the same worker serves all, so the report is made once and kept. Beside it the same number of pages as files
of the same size is asked of `python3 -m http.server`, over a connection for each. Each reply is compared with its part of the whole report.
"""
import os
import subprocess
import sys
import tempfile
import time

sys.path.insert(0, os.path.join(os.path.dirname(os.path.dirname(os.path.abspath(__file__))), 'tests'))
from desk_calls import PROGRAM, ask, connect, free_port

BUFFERS = 50000


def bundle():
    lines = ['%netlist', 'INPUT(b0)', 'OUTPUT(b%d)' % BUFFERS]
    lines += ['b%d = BUF(b%d)' % (k, k - 1) for k in range(1, BUFFERS + 1)]
    return ('\n'.join(lines + ['%scan', '%patterns', 'CAPTURE 1', '%neighbours']) + '\n').encode()


def told(name, requests, seconds):
    print('%-44s %6d requests, %7.0f a second' % (name, requests, requests / seconds))


def of_the_desk(folder):
    port = free_port()
    desk = subprocess.Popen([PROGRAM, 'serve', str(port), '1', '100000', os.path.join(folder, 'desk.db')], stdout=subprocess.DEVNULL)
    try:
        s = connect(port)
        log = 'FAILLOG 1\ndie D1\ndesign row\ntested 0 0\nfail 0 out b%d\nend\n' % BUFFERS
        for method, target, body in [('PUT', '/designs/row', bundle()), ('POST', '/designs/row/dies/D1/logs', log.encode())]:
            status, text = ask(s, method, target, body)
            if status != 201:
                sys.exit('%s %s: %d %r' % (method, target, status, text))
        begin = time.monotonic()
        _, report = ask(s, 'GET', '/designs/row/dies/D1/reports/1')
        print('the whole report: %d bytes in %.2f s' % (len(report), time.monotonic() - begin))
        lines = report.splitlines(keepends=True)
        starts = range(1, len(lines) + 1, 100)
        due = {f: b''.join(lines[f - 1:f + 99]) for f in starts}
        begin = time.monotonic()
        for f in starts:
            if ask(s, 'GET', '/designs/row/dies/D1/reports/1/pages/%d' % f) != (200, due[f]):
                sys.exit('another page at line %d' % f)
            if f // 100 % 900 == 899:
                s.close()
                s = connect(port)
        told('pages over kept connections', len(starts), time.monotonic() - begin)
        s.close()
        begin = time.monotonic()
        for f in starts:
            with connect(port) as one:
                if ask(one, 'GET', '/designs/row/dies/D1/reports/1/pages/%d' % f) != (200, due[f]):
                    sys.exit('another page at line %d' % f)
        told('pages, a connection for each', len(starts), time.monotonic() - begin)
        return due
    finally:
        desk.kill()


def of_files(folder, due):
    port = free_port()
    for f, page in due.items():
        with open(os.path.join(folder, str(f)), 'wb') as out:
            out.write(page)
    server = subprocess.Popen([sys.executable, '-m', 'http.server', str(port), '--bind', '127.0.0.1'], cwd=folder,
                              stdout=subprocess.DEVNULL, stderr=subprocess.DEVNULL)
    try:
        connect(port).close()
        begin = time.monotonic()
        for f, page in due.items():
            with connect(port) as one:
                if ask(one, 'GET', '/%d' % f) != (200, page):
                    sys.exit('another file %d' % f)
        told('files of python3 -m http.server, one for each', len(due), time.monotonic() - begin)
    finally:
        server.kill()


def main():
    with tempfile.TemporaryDirectory() as folder:
        due = of_the_desk(folder)
        of_files(folder, due)


if __name__ == '__main__':
    main()
