#!/usr/bin/env python3
"""Sends whole connections to a program that serves, at once and byte by byte, and compares what
comes back.

    tests/sessions.py PROGRAM

In tests/sessions NAME.asked has the bytes of a connection, and NAME.sent those that are due to
it, by an independent model. Each is sent to a desk without deeds, or behind the connection
NAME.first where that is there. Where the last reply closes, the program closes the connection;
elsewhere it ends once the other side has. Then each front of fronts.of comes over a connection of
its own, one after another to one desk: the connection is cut off there, and fronts.due has what is
due to it. The last line tells how many connections were compared and how many were wrong.
"""
import glob
import os
import socket
import sys
import tempfile

from requests import serve

FOLDER = os.path.join(os.path.dirname(os.path.abspath(__file__)), 'sessions')


def bytes_of(name):
    path = os.path.join(FOLDER, name)
    if not os.path.exists(path):
        return b''
    with open(path, 'rb') as file:
        return file.read()


def send(link, asked, by_bytes):
    """Sends this, or what the other side takes of it before it closes."""
    try:
        for at in range(0, len(asked), 1 if by_bytes else max(len(asked), 1)):
            link.sendall(asked[at:at + 1] if by_bytes else asked)
    except (BrokenPipeError, ConnectionResetError):
        pass


def received(link):
    """What comes until the other side closes, which may be before it has read all."""
    came = b''
    try:
        while part := link.recv(65536):
            came += part
    except ConnectionResetError:
        pass
    return came


def replies_to(port, asked, by_bytes, closes):
    """All that comes over a connection that sends this."""
    with socket.create_connection(('127.0.0.1', port), timeout=60) as link:
        link.setsockopt(socket.IPPROTO_TCP, socket.TCP_NODELAY, 1)
        send(link, asked, by_bytes)
        if not closes:
            link.shutdown(socket.SHUT_WR)
        return received(link)


def closes(sent):
    """Whether the last reply closes the connection."""
    return b'\r\nConnection: close\r\n' in sent


def the_connections():
    """Each connection: its name, what comes before it, what it asks and what it is sent."""
    for path in sorted(glob.glob(os.path.join(FOLDER, '*.asked'))):
        name = os.path.basename(path)[:-len('.asked')]
        yield name, *(bytes_of(name + end) for end in ('.first', '.asked', '.sent'))
    # The thousandth reply closes.
    reply = b'HTTP/1.1 404 Not Found\r\nContent-Type: text/plain\r\nContent-Length: 9\r\n\r\nno route\n'
    last = reply.replace(b'\r\n\r\n', b'\r\nConnection: close\r\n\r\n')
    yield 'a-thousand-requests', b'', b'GET / HTTP/1.1\r\n\r\n' * 1001, reply * 999 + last


def is_answered(program, first, asked, sent, by_bytes):
    """Whether the connection is answered as is due, over a new desk."""
    with tempfile.TemporaryDirectory() as room:
        serving, port = serve(program, 2 if first else 1, os.path.join(room, 'store'))
        if first:
            replies_to(port, first, False, False)
        came = replies_to(port, asked, by_bytes, closes(sent))
        serving.stdout.read()
        return serving.wait() == 0 and came == sent


def fronts_due():
    """What is due to the fronts of fronts.of, by their sizes: from the first to the last of a line of fronts.due, so many bytes behind it."""
    text, due = bytes_of('fronts.due'), []
    while text:
        line, _, text = text.partition(b'\n')
        first, last, length = map(int, line.split())
        due += [text[:length]] * (last - first + 1)
        text = text[length:]
    return due


def wrong_fronts(program):
    """The sizes of the fronts that are answered otherwise, and how many were tried."""
    asked, due = bytes_of('fronts.of'), fronts_due()
    with tempfile.TemporaryDirectory() as room:
        serving, port = serve(program, len(due), os.path.join(room, 'store'))
        wrong = [size for size, sent in enumerate(due) if replies_to(port, asked[:size], False, False) != sent]
        # The design and the log are there once each.
        last = serving.stdout.read()
        if serving.wait() != 0 or last != f'sessions {len(due)} deeds 2\n' or len(due) != len(asked) + 1:
            wrong.append('at its end')
    return wrong, len(due)


def main():
    program = os.path.abspath(sys.argv[1])
    due = [(connection, by_bytes) for connection in the_connections() for by_bytes in (False, True)]
    wrong = 0
    for (name, *texts), by_bytes in due:
        if not is_answered(program, *texts, by_bytes):
            wrong += 1
            print(f'{name}{" byte by byte" if by_bytes else ""}: answered otherwise than is due')
    fronts, tried = wrong_fronts(program)
    for size in fronts:
        print(f'the front of {size} bytes: answered otherwise than is due')
    wrong += len(fronts)
    print(f'{len(due) + tried} connections, {wrong} wrong')
    sys.exit(1 if wrong else 0)


if __name__ == '__main__':
    main()
