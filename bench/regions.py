#!/usr/bin/env python3
"""Times `diagnose` over designs of nets with one reader each, beside another program with the same words and output.

    python3 bench/regions.py OTHER     (from the top; ./scandesk must have been built)

Rows of buffers, each of which only the next one reads, and a row of XOR gates of which each reads the one before and an inverter of its own. An output stands at the end of
each row, and fails in every other of 512 patterns. The two outputs are compared byte for byte, and the least seconds of a processor and by the clock of five runs are told of both.
"""
import os
import random
import subprocess
import sys
import tempfile
import time

TOP = os.path.dirname(os.path.dirname(os.path.abspath(__file__)))
PROGRAM = os.path.join(TOP, 'crates', 'scandesk', 'out', 'scandesk')
PATTERNS = 512
RUNS = 5


def buffers(rows, length):
    """Rows of buffers: the inputs, the outputs and the gates."""
    gates = [f'b{row}_{place} = BUFF({f"b{row}_{place - 1}" if place else f"i{row}"})' for place in range(length) for row in range(rows)]
    return [f'i{row}' for row in range(rows)], [f'b{row}_{length - 1}' for row in range(rows)], gates


def comb(length, rng):
    """A row of XOR gates, the inverter of each on either side."""
    gates = []
    for place in range(length):
        operands = [f'x{place - 1}' if place else 'i0', f'n{place}']
        rng.shuffle(operands)
        gates += [f'n{place} = NOT(i{place % 8})', f'x{place} = XOR({", ".join(operands)})']
    return [f'i{place}' for place in range(8)], [f'x{length - 1}'], gates


DESIGNS = [
    ('20 rows of 600 buffers', lambda rng: buffers(20, 600)),
    ('4 rows of 3,000 buffers', lambda rng: buffers(4, 3000)),
    ('one row of 12,000 buffers', lambda rng: buffers(1, 12000)),
    ('6,000 XOR gates and inverters', lambda rng: comb(6000, rng)),
]


def texts(make):
    """The four texts of a design and a log of it."""
    rng = random.Random(1)
    inputs, outputs, gates = make(rng)
    netlist = [f'INPUT({net})' for net in inputs] + [f'OUTPUT({net})' for net in outputs] + gates
    patterns = ['CAPTURE ' + ''.join(rng.choice('01') for _ in inputs) for _ in range(PATTERNS)]
    fails = [f'fail {pattern} out {net}' for pattern in range(0, PATTERNS, 2) for net in outputs]
    log = ['FAILLOG 1', 'die rows', 'design rows', f'tested 0 {PATTERNS - 1}', *fails, 'end']
    return {'netlist': netlist, 'scan': [], 'patterns': patterns, 'pairs': ['net_a,net_b'], 'log': log}


def write(folder, make):
    """Writes the files, and gives their paths."""
    files = texts(make)
    for name, lines in files.items():
        with open(os.path.join(folder, name), 'w') as file:
            file.writelines(line + '\n' for line in lines)
    return [os.path.join(folder, name) for name in files]


def run(words):
    """What a run prints, and its seconds of a processor and by the clock."""
    start = time.perf_counter()
    child = subprocess.Popen(words, stdout=subprocess.PIPE)
    printed = child.stdout.read()
    _, status, usage = os.wait4(child.pid, 0)
    if status != 0:
        sys.exit('%s: status %d' % (words[0], status))
    return printed, usage.ru_utime + usage.ru_stime, time.perf_counter() - start


def least(words):
    runs = [run(words) for _ in range(RUNS)]
    return runs[0][0], min(worked for _, worked, _ in runs), min(passed for _, _, passed in runs)


def compare(other, name, make):
    with tempfile.TemporaryDirectory() as folder:
        words = ['diagnose', 'rows', 'rows', *write(folder, make)]
        own, own_work, own_time = least([PROGRAM, *words])
        theirs, other_work, other_time = least([other, *words])
    same = 'same bytes' if own == theirs else 'OTHER BYTES'
    print('%-30s desk %.3f s of a processor, %.3f s by the clock; other %.3f s, %.3f s   %s'
          % (name + ':', own_work, own_time, other_work, other_time, same))
    return own == theirs


def main():
    if len(sys.argv) < 2:
        sys.exit(__doc__)
    other = os.path.abspath(sys.argv[1])
    alike = [compare(other, name, make) for name, make in DESIGNS]
    sys.exit(0 if all(alike) else 1)


if __name__ == '__main__':
    main()
