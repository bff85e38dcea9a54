"""A served desk over loopback, as scripts of tests/ and bench/ ask it: a free port, a connection, a request and its reply."""
import os
import socket
import sys
import time

TOP = os.path.dirname(os.path.dirname(os.path.abspath(__file__)))
PROGRAM = os.path.join(TOP, 'crates', 'scandesk', 'out', 'scandesk')


def free_port():
    with socket.socket() as s:
        s.bind(('127.0.0.1', 0))
        return s.getsockname()[1]


def connect(port):
    for _ in range(200):
        try:
            s = socket.create_connection(('127.0.0.1', port))
            s.setsockopt(socket.IPPROTO_TCP, socket.TCP_NODELAY, 1)
            return s
        except ConnectionRefusedError:
            time.sleep(0.05)
    sys.exit('nothing listens at port %d' % port)


def ask(s, method, target, body=b''):
    """Sends a request over the connection, and gives the status and the body of its reply."""
    head = '%s %s HTTP/1.1\r\nHost: desk\r\nContent-Length: %d\r\n\r\n' % (method, target, len(body))
    s.sendall(head.encode() + body)
    got = b''
    while b'\r\n\r\n' not in got:
        got += receive(s)
    head, _, rest = got.partition(b'\r\n\r\n')
    length = next(int(line.split(b':')[1]) for line in head.split(b'\r\n') if line.lower().startswith(b'content-length:'))
    while len(rest) < length:
        rest += receive(s)
    return int(head.split()[1]), rest


def receive(s):
    piece = s.recv(1 << 16)
    if not piece:
        sys.exit('the connection ended')
    return piece
