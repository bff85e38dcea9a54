#!/usr/bin/env python3
"""Asks a program that serves for the log that each fault predicts, and has it diagnosed.

    tests/predicted.py PROGRAM

The designs are c17 and s27 with three patterns, and these and one more with 65, whose files stand in
the caller's folder. In the report over its own log a fault explains each fail, and no bit that
passed speaks against it; where it predicts nothing, there are no candidates. All logs and reports
together have the SHA-256 that an independent model gives. The last line tells how many faults were
tried and how many were wrong.
"""
import hashlib
import http.client
import os
import subprocess
import sys
import tempfile

from requests import serve

# The name, the files, the patterns, the number of faults, and the digest. 65 patterns fill a word of
# 64 and begin another; in the last design a gate reads a net twice, and a flop is in no chain.
DESIGNS = [
    ('c17', ['c17.bench', 'none.scan', 'each.pat', 'none.csv'], 'CAPTURE 11111\nCAPTURE 10X01\nCAPTURE 01010\n', 34,
     '3769dc84b1b6398e7e91e5e99656eba6d91efdc30e177f968b3d869c3abe543b'),
    ('s27', ['s27.bench', 's27.scan', 'each.pat', 'none.csv'], 'CAPTURE 0000 000\nSHIFT 101\nCAPTURE 1101 1X0\n', 64,
     '94e77433a4583f4711d5a244e5e90afb125ad7d13cdf43a59ebd62e3f4a34b78'),
    ('c17', ['c17.bench', 'none.scan', 'each.pat', 'pairs.csv'],
     'CAPTURE 10110\nCAPTURE 01X01\nCAPTURE 00111\nCAPTURE 11011\nCAPTURE 0110X\n' * 13, 42,
     'b228105dce59179eb88b31a1cd4b077ce08fdaad09979324cb2b5a67f23f6597'),
    ('s27', ['s27.bench', 's27.scan', 'each.pat', 'none.csv'],
     'CAPTURE 0110 1X0\nSHIFT 101\nCAPTURE 1X01 011\nCAPTURE 0000 110\nSHIFT 0X1\n' * 13, 64,
     'da7be8a7dd715049d0f6ae5a74220b887ff022b4f3d6aff9fe4ccf028a37fa79'),
    ('twice', ['twice.bench', 'twice.scan', 'each.pat', 'none.csv'],
     'CAPTURE 1 0X\nSHIFT 10\nCAPTURE X 11\nCAPTURE 0 10\nSHIFT X1\n' * 13, 38,
     'beb0ba98a043ea12fd7845fe2a32ba1f36b69b364e2193c87f4fc452e55acc07'),
]


def printed(program, *words):
    return subprocess.run([program, *words], stdout=subprocess.PIPE, check=True).stdout


def predicted(program, name, files, faults):
    """The log that each fault of the design predicts, as the program serves it."""
    with tempfile.TemporaryDirectory() as room:
        serving, port = serve(program, 1, os.path.join(room, 'store'))
        link = http.client.HTTPConnection('127.0.0.1', port, timeout=60)
        link.request('PUT', f'/designs/{name}', printed(program, 'pack', *files))
        link.getresponse().read()
        for place in range(faults):
            link.request('GET', f'/designs/{name}/faults/{place}/fails')
            yield place, link.getresponse().read()
        link.close()
        serving.stdout.read()
        serving.wait()


def reported(program, name, files, log):
    with open('predicted.log', 'wb') as file:
        file.write(log)
    return printed(program, 'diagnose', name, 'predicted', *files, 'predicted.log')


def explains(place, log, report):
    """Whether the fault at a place explains its own log."""
    fails = log.count(b'\nfail ')
    words = f' fault {place} tfsf {fails} tfsp 0 tpsf 0 ' if fails else '\ncandidates 0\n'
    return words.encode() in report


def main():
    program = os.path.abspath(sys.argv[1])
    tried = wrong = 0
    for name, files, patterns, faults, digest in DESIGNS:
        with open('each.pat', 'w', encoding='utf-8') as file:
            file.write(patterns)
        whole = hashlib.sha256()
        for place, log in predicted(program, name, files, faults):
            report = reported(program, name, files, log)
            whole.update(log + report)
            tried += 1
            if not explains(place, log, report):
                wrong += 1
                print(f'{name}: the fault at {place} does not explain its own log')
        if whole.hexdigest() != digest:
            wrong += 1
            print(f'{name}: logs and reports have the digest {whole.hexdigest()}')
    print(f'{tried} predicted logs, {wrong} wrong')
    sys.exit(1 if wrong else 0)


if __name__ == '__main__':
    main()
