#!/usr/bin/env python3
"""Asks a program that serves which patterns of a die single faults explain, and which faults explain each.

    tests/explained.py PROGRAM

The designs are c17, s27 and one with a gate that reads a net twice and a flop in no chain, in profile 2, with 70 patterns, some of which
only shift and some with unknown values. Their dies have two logs that agree in most of their bits. The files stand in the caller's folder.
Over one connection a design and the logs are sent, and each pattern of both revisions is asked for. All that comes back has the SHA-256
that an independent model gives. The last line tells how many replies were compared and how many connections were wrong.
"""
import hashlib
import os
import subprocess
import sys
import tempfile

from requests import request, serve
from sessions import replies_to

PATTERNS = 70

# The name of the design and of its two logs, its files, its patterns, and the digest.
DIES = [
    ('c17', ['c17.bench', 'none.scan', 'each.pat', 'fits17.csv'],
     'CAPTURE 10110\nCAPTURE 01X01\nCAPTURE 00111\nCAPTURE 11011\nCAPTURE 0110X\n' * 14,
     'e5d42821eb886de84da3628441369883377fde9bbef6c9cbcde38d1f9647ed03'),
    ('s27', ['s27.bench', 's27.scan', 'each.pat', 'fits27.csv'],
     'CAPTURE 0110 1X0\nSHIFT 101\nCAPTURE 1X01 011\nCAPTURE 0000 110\nSHIFT 0X1\n' * 14,
     'c9babbd565126326c53754068cefd0067be4fd9f3cbbb91ee66f4c13a7b95222'),
    ('twice', ['twice.bench', 'twice.scan', 'each.pat', 'none.csv'],
     'CAPTURE 1 0X\nSHIFT 10\nCAPTURE X 11\nCAPTURE 0 10\nSHIFT X1\n' * 14,
     'cda7917882f0da60ad64d8af469513461baebf2cc11d4298d571b9a9585c4334'),
]


def contents(name):
    with open(name, 'rb') as file:
        return file.read()


def asked(name, bundle, logs):
    """The requests of one connection."""
    die = f'/designs/{name}/dies/D1'
    yield request('PUT', f'/designs/{name}', bundle)
    for log in logs:
        yield request('POST', f'{die}/logs', log)
    for revision in 1, 2:
        slat = f'{die}/reports/{revision}/slat'
        yield request('GET', slat, None)
        for pattern in range(PATTERNS):
            yield request('GET', f'{slat}/{pattern}', None)


def replies(program, requests):
    """All that comes back over one connection to a desk without deeds."""
    with tempfile.TemporaryDirectory() as room:
        serving, port = serve(program, 1, os.path.join(room, 'store'))
        came = replies_to(port, b''.join(requests), False, False)
        serving.stdout.read()
        serving.wait()
        return came


def main():
    program = os.path.abspath(sys.argv[1])
    compared = wrong = 0
    for name, files, patterns, digest in DIES:
        with open('each.pat', 'w', encoding='utf-8') as file:
            file.write(patterns)
        bundle = subprocess.run([program, 'pack2', *files], stdout=subprocess.PIPE, check=True).stdout
        requests = list(asked(name, bundle, [contents(f'{name}_first.log'), contents(f'{name}_second.log')]))
        came = hashlib.sha256(replies(program, requests)).hexdigest()
        compared += len(requests)
        if came != digest:
            wrong += 1
            print(f'{name}: the replies have the digest {came}')
    print(f'{compared} replies on explained patterns, {wrong} connections wrong')
    sys.exit(1 if wrong else 0)


if __name__ == '__main__':
    main()
