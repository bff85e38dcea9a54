#!/usr/bin/env python3
"""Times `diagnose2` beside `diagnose`, and both beside another program with the same words and output.

    python3 bench/profiles.py OTHER [RUNS]    (from the top; ./scandesk must have been built)

OTHER writes the files of `demo 7 200` (`OTHER files 7 200 FOLDER`). Their neighbour list is replaced by 20,000 pairs of gates,
drawn by chance from a fixed seed. The commands run on one processor and take turns; the least wall time of RUNS runs is told
(14 by default). The bytes of both programs are compared.
"""
import os
import random
import re
import subprocess
import sys
import tempfile
import time

TOP = os.path.dirname(os.path.dirname(os.path.abspath(__file__)))
PROGRAM = os.path.join(TOP, 'crates', 'scandesk', 'out', 'scandesk')
HEAP = os.environ.get('GLIBC_TUNABLES', 'glibc.malloc.hugetlb=1')
TEXTS = ('netlist.bench', 'scan.txt', 'patterns.txt', 'neighbours.csv')
LOGS = ('demo.log', 'each.log', 'many.log')
PAIRS = 20_000


def write_pairs(folder):
    with open(os.path.join(folder, TEXTS[0]), encoding='ascii') as netlist:
        gates = [name for name, kind in re.findall(r'^(\S+) = (\w+)\(', netlist.read(), re.M) if kind.upper() != 'DFF']
    draw = random.Random(7)
    with open(os.path.join(folder, TEXTS[3]), encoding='ascii') as first:
        head = first.readline()
    with open(os.path.join(folder, TEXTS[3]), 'w', encoding='ascii') as pairs:
        pairs.write(head)
        for _ in range(PAIRS):
            pairs.write('%s,%s\n' % tuple(draw.sample(gates, 2)))


def run(program, command, folder, log):
    words = ['taskset', '-c', '0', program, command, 'demo', 'demo', *TEXTS, log]
    begin = time.monotonic()
    text = subprocess.run(words, cwd=folder, env=dict(os.environ, GLIBC_TUNABLES=HEAP), stdout=subprocess.PIPE, check=True).stdout
    return text, time.monotonic() - begin


def main():
    other = os.path.realpath(sys.argv[1])
    runs = int(sys.argv[2]) if len(sys.argv) > 2 else 14
    with tempfile.TemporaryDirectory() as folder:
        subprocess.run([other, 'files', '7', '200', folder], check=True, stdout=subprocess.DEVNULL)
        write_pairs(folder)
        for log in LOGS:
            asked = [(PROGRAM, 'diagnose'), (PROGRAM, 'diagnose2'), (other, 'diagnose2')]
            least = [float('inf')] * 3
            for _ in range(runs):
                told = [run(*one, folder, log) for one in asked]
                if told[1][0] != told[2][0]:
                    sys.exit('%s: other bytes' % log)
                least = [min(old, seconds) for old, (_, seconds) in zip(least, told)]
            first, second, yardstick = least
            print('%-10s diagnose %6.1f ms, diagnose2 %6.1f ms, %.2f times; the other program %6.1f ms, %.2f times'
                  % (log, 1e3 * first, 1e3 * second, second / first, 1e3 * yardstick, second / yardstick))


if __name__ == '__main__':
    main()
