#!/usr/bin/env python3
"""Times the reading of large netlists by the built program: wall seconds and peak memory of each.

    python3 bench/netlists.py            (from the top; ./scandesk must have been built)

Each run ends at the scan file, which is absent (status 4), or at the netlist's first fault (status 3), so that the
netlist's reading and the order of its gates are what is timed.
"""
import os
import subprocess
import sys
import tempfile
import time

TOP = os.path.dirname(os.path.dirname(os.path.abspath(__file__)))
PROGRAM = os.path.join(TOP, 'crates', 'scandesk', 'out', 'scandesk')
LIMIT = 16 * 1024 * 1024


def buffers_in_a_row():
    """65,536 nets: an input and 65,535 buffers, each reading the one before; each line before what it reads."""
    lines = ['INPUT(n0)', 'OUTPUT(n65535)']
    lines += ['n%d = BUF(n%d)' % (k, k - 1) for k in range(65535, 0, -1)]
    return '\n'.join(lines) + '\n'


def most_pins():
    """65,536 nets and 262,140 pins: four operands a gate, and an output."""
    lines = ['INPUT(n%d)' % k for k in range(2)] + ['OUTPUT(n65535)']
    for k in range(2, 65536):
        operands = ['n%d' % (k - 1 - (j % k)) for j in range(4)]
        lines.append('n%d = NAND(%s)' % (k, ', '.join(operands)))
    return '\n'.join(lines) + '\n'


CASES = [
    ('65,535 buffers in a row, uses before definitions', buffers_in_a_row, 4),
    ('65,536 nets with 262,137 pins', most_pins, 4),
    ('16 MiB of comment lines', lambda: '# a comment\n' * (LIMIT // 12), 4),
    ('one comment line of 16 MiB', lambda: '#' * LIMIT, 4),
    ('one line of 16 MiB of signs', lambda: '(' * LIMIT, 3),
    ('one line of 8 Mi operands', lambda: 'y = AND(' + 'a,' * (LIMIT // 2 - 8) + 'a)', 3),
]


def run(folder, text, status):
    path = os.path.join(folder, 'big.bench')
    with open(path, 'w') as f:
        f.write(text)
    words = [PROGRAM, 'diagnose', 'd', 'x', path, os.path.join(folder, 'absent'), 'p', 'n', 'l']
    begin = time.monotonic()
    child = subprocess.Popen(words, stdout=subprocess.DEVNULL)
    _, code, usage = os.wait4(child.pid, 0)
    seconds = time.monotonic() - begin
    got = os.waitstatus_to_exitcode(code)
    return seconds, usage.ru_maxrss / 1024, 'ok' if got == status else 'status %d' % got


def main():
    failed = False
    with tempfile.TemporaryDirectory() as folder:
        for name, make, status in CASES:
            seconds, mib, note = run(folder, make(), status)
            failed = failed or note != 'ok'
            print('%-52s %6.2f s %7.0f MiB  %s' % (name, seconds, mib, note))
    return 1 if failed else 0


if __name__ == '__main__':
    sys.exit(main())
