#!/usr/bin/env python3
"""Serves two connections that stay open at once, each by a worker of its own, and reads over each what came over the other.

    tests/workers.py PROGRAM FOLDER

The program serves an empty store with two workers, of one connection each. The first connection sends a design and a log, and stays open. The second,
whose worker did nothing yet, reads the report with that log and signs it, by the right digest alone. Behind another log of the first connection the
sign-off is there as it was. A reply that doesn't come within a minute is wrong. FOLDER has the files that are sent. The last line tells how many replies
were compared and how many were wrong.
"""
import hashlib
import os
import socket
import sys
import tempfile

from requests import body_of, request, serve
from stores import DIGEST


def next_reply(link):
    """The status and the body of the next reply of a connection that stays open."""
    with link.makefile('rb') as came:
        status = came.readline().decode('latin-1').split(' ')[1]
        fields = dict(line.decode('latin-1').strip().split(': ') for line in iter(came.readline, b'\r\n'))
        return status, came.read(int(fields['Content-Length']))


class Talk:
    """A connection that stays open, and the files of what is sent over it."""

    def __init__(self, link, folder):
        self.link, self.folder = link, folder

    def reply(self, method, target, name='-'):
        self.link.sendall(request(method, target, body_of(self.folder, name)))
        return next_reply(self.link)

    def answers(self, method, target, name, status, text):
        return self.reply(method, target, name) == (status, text.encode() + b'\n')


DIE = '/designs/s27/dies/D1'
SIGNED = f'signoff 1\nrevision 1\nsigner ann\ndigest {DIGEST}'


def is_first_report(reply):
    status, report = reply
    return status == '200' and b'\nlogs 1\n' in report and hashlib.sha256(report).hexdigest() == DIGEST


def answers(first, second):
    """What is answered, and whether it is due."""
    yield 'the design', first.reply('PUT', '/designs/s27', 's27.bundle')[0] == '201'
    yield 'the log', first.answers('POST', f'{DIE}/logs', 'one.log', '201', 'log 1')
    yield 'the report', is_first_report(second.reply('GET', f'{DIE}/report'))
    yield 'a wrong digest', second.answers('POST', f'{DIE}/signoffs', 'wrong.json', '409', f'rule 86 digest {DIGEST}')
    yield 'the right digest', second.answers('POST', f'{DIE}/signoffs', 'right.json', '201', 'signoff 1')
    yield 'another log', first.answers('POST', f'{DIE}/logs', 'passes.log', '201', 'log 2')
    yield 'the right digest again', first.answers('POST', f'{DIE}/signoffs', 'right.json', '200', 'signoff 1')
    yield 'the sign-off', first.answers('GET', f'{DIE}/signoffs/1', '-', '200', SIGNED)
    yield 'the report that was signed', is_first_report(second.reply('GET', f'{DIE}/reports/1'))


def wrong_ones(port, folder):
    """The replies that are wrong; one that doesn't come ends the search."""
    try:
        with socket.create_connection(('127.0.0.1', port), timeout=60) as first:
            with socket.create_connection(('127.0.0.1', port), timeout=60) as second:
                return [name for name, due in answers(Talk(first, folder), Talk(second, folder)) if not due]
    except OSError as fault:
        return [f'a reply that should have come: {fault}']


def main():
    program, folder = os.path.abspath(sys.argv[1]), sys.argv[2]
    with tempfile.TemporaryDirectory() as room:
        serving, port = serve(program, 1, os.path.join(room, 'store'), workers=2)
        wrong = wrong_ones(port, folder)
        if wrong:
            serving.kill()
        elif (serving.stdout.read(), serving.wait()) != ('sessions 2 deeds 4\n', 0):
            wrong = ['the last line']
    for name in wrong:
        print(f'two workers: wrong: {name}')
    print(f'9 replies of two workers, {len(wrong)} wrong')
    sys.exit(1 if wrong else 0)


if __name__ == '__main__':
    main()
