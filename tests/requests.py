#!/usr/bin/env python3
"""Sends the requests that docs/formats.md gives as examples to a program that serves, and compares the replies.

    tests/requests.py PROGRAM FOLDER

They are the rows of the table below 'Examples', one after another, each over a connection of its own to a desk without deeds; then each
example of the rule of a bundle, as the body of a PUT; and three heads that are refused before their body is read. A last connection sends
nothing, and nothing is due. FOLDER has the files that the rows name. The last line tells how many replies were compared and how many were wrong.
"""
import os
import re
import socket
import subprocess
import sys
import tempfile

TOP = os.path.dirname(os.path.dirname(os.path.abspath(__file__)))
PORTS = range(18500, 18504)


def cells(line):
    return [cell.strip().strip('`') for cell in line.strip().strip('|').split('|')]


def rows_below(heading, start):
    """The rows below a heading of docs/formats.md that begin so, cell by cell."""
    with open(os.path.join(TOP, 'docs', 'formats.md'), encoding='utf-8') as page:
        text = page.read()
    section = text.split('\n' + heading + '\n', 1)[1]
    return [cells(line) for line in re.split(r'\n#', section)[0].splitlines() if re.match(start, line)]


def body_of(folder, name):
    if name == '-':
        return None
    with open(os.path.join(folder, name), 'rb') as file:
        return file.read()


def request(method, target, body, fields=()):
    lines = [f'{method} {target} HTTP/1.1', *fields]
    lines += [] if body is None else [f'Content-Length: {len(body)}']
    return '\r\n'.join([*lines, '', '']).encode() + (body or b'')


def examples(folder):
    """What is sent, and the status and the body of the reply that is due."""
    for method, target, body, status, reply in rows_below('### Examples', r'\| (GET|PUT|POST) '):
        yield request(method, target, body_of(folder, body)), status, reply
    for rule, _, example, line in rows_below('## Bundle (`design_bundle`: `Bundle`)', r'\| \d+ \|'):
        text = example.encode().decode('unicode_escape').encode('latin-1')
        yield request('PUT', '/designs/refused', text), '422', f'section bundle line {line} rule {rule}'
    yield request('PUT', '/designs/large', None, ['Content-Length: 16777217']), '413', 'too large'
    yield request('PUT', '/designs/large', None, ['Transfer-Encoding: chunked']), '501', 'transfer encoding'
    yield b'GET /designs/s27 HTTP/1.1\r\nX-Field: ' + b'x' * 8192 + b'\r\n\r\n', '431', 'head too large'


def reply_to(port, sent):
    """The status and the body of the one reply."""
    with socket.create_connection(('127.0.0.1', port), timeout=60) as link:
        link.sendall(sent)
        link.shutdown(socket.SHUT_WR)
        came = b''.join(iter(lambda: link.recv(65536), b''))
    head, _, body = came.partition(b'\r\n\r\n')
    return head.decode('latin-1').split(' ')[1], body


def is_silent(port):
    """Whether a connection that sends nothing is sent nothing."""
    with socket.create_connection(('127.0.0.1', port), timeout=60) as link:
        link.shutdown(socket.SHUT_WR)
        return link.recv(1) == b''


def serve(program, sessions, store, workers=1):
    """The program at the first of the ports that nobody else has."""
    for port in PORTS:
        serving = subprocess.Popen([program, 'serve', str(port), str(workers), str(sessions), store], stdout=subprocess.PIPE, text=True)
        if serving.stdout.readline() == f'serving {port}\n':
            return serving, port
        serving.wait()
    sys.exit('no port is free')


def main():
    program, folder = os.path.abspath(sys.argv[1]), sys.argv[2]
    due = list(examples(folder))
    wrong = 0
    with tempfile.TemporaryDirectory() as room:
        serving, port = serve(program, len(due) + 1, os.path.join(room, 'store'))
        for sent, status, reply in due:
            came = reply_to(port, sent)
            if came != (status, reply.encode() + b'\n'):
                wrong += 1
                print(f'{sent[:60]!r}: answered {came}, {status} {reply} was due')
        wrong += not is_silent(port)
        last = serving.stdout.read()
        wrong += last != f'sessions {len(due) + 1} deeds 3\n' or serving.wait() != 0
    print(f'{len(due)} requests, {wrong} wrong')
    sys.exit(1 if wrong else 0)


if __name__ == '__main__':
    main()
