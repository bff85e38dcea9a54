#!/usr/bin/env python3
"""Times the reading of a long neighbour list by the built program: wall seconds and peak memory.

    python3 bench/neighbours.py          (from the top; ./scandesk must have been built)

The list names 65,536 different pairs over a netlist of 60,000 gates. Each run ends at a file that is absent (status 4):
once at the neighbour list, and once at the log behind it. The difference is the time of the list. One run more ends at
a list that names a 65,537th pair.
"""
import os
import random
import subprocess
import sys
import tempfile
import time

TOP = os.path.dirname(os.path.dirname(os.path.abspath(__file__)))
PROGRAM = os.path.join(TOP, 'crates', 'scandesk', 'out', 'scandesk')
INPUTS = 100
GATES = 60000
NETS = INPUTS + GATES
PAIRS = 65536
LIMIT = 65536


def netlist():
    """Each gate reads two of the nets before it."""
    draw = random.Random(7).randrange
    lines = ['INPUT(n%d)' % k for k in range(INPUTS)] + ['OUTPUT(n%d)' % (NETS - 1)]
    lines += ['n%d = NAND(n%d, n%d)' % (k, draw(k), draw(k)) for k in range(INPUTS, NETS)]
    return '\n'.join(lines) + '\n'


def neighbours(count):
    """So many different pairs: nets of even numbers with close ones, nets of odd numbers with far ones."""
    lines = ['net_a,net_b']
    for k in range(count):
        a = k % NETS
        distance = 1 + 2 * (k // NETS) if a % 2 == 0 else NETS // 3 + 2 * (k // NETS)
        lines.append('n%d,n%d' % (a, (a + distance) % NETS))
    return '\n'.join(lines) + '\n'


def write(folder, name, text):
    path = os.path.join(folder, name)
    with open(path, 'w') as f:
        f.write(text)
    return path


def run(files, status):
    begin = time.monotonic()
    child = subprocess.Popen([PROGRAM, 'diagnose', 'd', 'x'] + files, stdout=subprocess.DEVNULL)
    _, code, usage = os.wait4(child.pid, 0)
    seconds = time.monotonic() - begin
    got = os.waitstatus_to_exitcode(code)
    if got != status:
        sys.exit('status %d, not %d' % (got, status))
    return seconds, usage.ru_maxrss / 1024


def main():
    with tempfile.TemporaryDirectory() as folder:
        net = write(folder, 'net', netlist())
        scan = write(folder, 'scan', '')
        patterns = write(folder, 'patterns', 'CAPTURE ' + '0' * INPUTS + '\n')
        pairs = write(folder, 'pairs', neighbours(PAIRS))
        many = write(folder, 'many', neighbours(LIMIT + 1))
        absent = os.path.join(folder, 'absent')
        without, below = run([net, scan, patterns, absent, absent], 4)
        seconds, mib = run([net, scan, patterns, pairs, absent], 4)
        refused, _ = run([net, scan, patterns, many, absent], 3)
    print('%d pairs over %d gates: %.2f s, peak %.0f MiB' % (PAIRS, GATES, seconds - without, mib))
    print('the netlist alone: %.2f s, peak %.0f MiB' % (without, below))
    print('one pair past %d, with the netlist: %.2f s' % (LIMIT, refused))


if __name__ == '__main__':
    main()
