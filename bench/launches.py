#!/usr/bin/env python3
"""Times `loc` of the desk beside that of another program with the same words and output, and at the limits.

    python3 bench/launches.py OTHER [RUNS]     (from the top; ./scandesk must have been built)

OTHER is the path of the other program, which writes the files of `demo 7 200` with 512 LOC patterns and three logs (`OTHER files
7 200 FOLDER`). The times and the memory are told as by `against.py`, with the bytes compared. Then both report once over 65,536
nets, 262,144 pins, 4,096 LOC patterns and 200,000 fails.
"""
import os
import random
import subprocess
import sys
import tempfile

import against
import limits

TEXTS = ['netlist.bench', 'scan.txt', 'loc.txt']
LOGS = ['loc-demo.log', 'loc-each.log', 'loc-many.log']


def commands(folder):
    texts = [os.path.join(folder, name) for name in TEXTS]
    return [('loc ' + log, ['loc', 'demo', 'demo', *texts, os.path.join(folder, log)]) for log in LOGS]


def patterns(rng):
    chains = limits.CELLS // 100
    return [f'LOC {limits.bits(rng, limits.INPUTS)} ' + ' '.join(limits.bits(rng, 100) for _ in range(chains)) for _ in range(limits.PATTERNS)]


def write(folder):
    rng = random.Random(7)
    lines, _ = limits.netlist(rng)
    texts = {'limits.bench': lines, 'limits.scan': limits.chains(), 'limits.loc': patterns(rng), 'limits.log': limits.log(rng)}
    for name, text in texts.items():
        with open(os.path.join(folder, name), 'w') as file:
            file.write('\n'.join(text) + '\n')


def at_the_limits(other, folder):
    write(folder)
    words = ['loc', 'demo', 'demo', 'limits.bench', 'limits.scan', 'limits.loc', 'limits.log']
    print('at the limits')
    limits.beside((against.PROGRAM, other), words, folder, 1)


def main():
    if len(sys.argv) < 2:
        sys.exit(__doc__)
    other = os.path.abspath(sys.argv[1])
    runs = int(sys.argv[2]) if len(sys.argv) > 2 else 20
    with tempfile.TemporaryDirectory() as folder:
        subprocess.run([other, 'files', '7', '200', folder], check=True, stdout=subprocess.DEVNULL)
        print('%-18s %-3s %11s %11s %6s   %10s %10s %6s' % ('command', 'cpu', 'desk', 'other', 'ratio', 'desk', 'other', 'ratio'))
        alike = True
        for where, threads in [('one', 1), ('all', os.cpu_count())]:
            for name, words in commands(folder):
                alike = against.compare(name, words, other, runs, folder, threads, where) and alike
        at_the_limits(other, folder)
    sys.exit(0 if alike else 1)


if __name__ == '__main__':
    main()
