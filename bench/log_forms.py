#!/usr/bin/env python3
"""Counts the instructions of `diagnose` over logs of both versions, beside the program before.

    python3 bench/log_forms.py OTHER BEFORE     (from the top; ./scandesk must have been built)

OTHER writes the files of `demo 7 200` (`OTHER files 7 200 FOLDER`: four texts and the logs demo.log,
each.log and many.log), as for bench/against.py; BEFORE is the program before logs of version 2.
Each log is told as it is to both, and in version 2 to this one. Then a design of 256 chains of 16
cells each and an output, with 512 patterns, is made, and a log of it with 200,000 failing bits,
without cuts and with all 257 groups cut. Each row has the instructions in millions (valgrind's
callgrind, on one processor) and their ratio to those of the first of its kind.
"""
import os
import subprocess
import sys
import tempfile

from against import PROGRAM, TEXTS, instructions

CHAINS, CELLS, PATTERNS, FAILS = 256, 16, 512, 200_000


def second_version(folder, name):
    """The log in version 2, under another name."""
    made = os.path.join(folder, 'second-' + name)
    with open(os.path.join(folder, name), encoding='ascii') as log, open(made, 'w', encoding='ascii') as out:
        out.write(log.read().replace('FAILLOG 1', 'FAILLOG 2', 1))
    return made


def made_design(folder):
    """Many chains: each cell takes what the next of its chain has, turned round, where the input is 1."""
    cells = [[f'q{c}_{i}' for i in range(CELLS)] for c in range(CHAINS)]
    lines = ['INPUT(a)', 'OUTPUT(y)', 'y = AND(a, q0_0)']
    for chain in cells:
        for i, cell in enumerate(chain):
            lines += [f'{cell} = DFF(d{cell})', f'd{cell} = NAND(a, {chain[(i + 1) % CELLS]})']
    texts = ['\n'.join(lines), '\n'.join(f'CHAIN c{c} ' + ' '.join(chain) for c, chain in enumerate(cells)),
             '\n'.join(f'CAPTURE {p % 2} ' + ' '.join(format((p * 2654435761 + c * 40503) % 65536, '016b') for c in range(CHAINS)) for p in range(PATTERNS)), '']
    for name, text in zip(TEXTS, texts):
        with open(os.path.join(folder, name), 'w', encoding='ascii') as file:
            file.write(text + '\n' if text else '')


def made_logs(folder):
    """The log with so many failing bits, and the same with each group cut."""
    bits, step = [], PATTERNS * CHAINS * CELLS // FAILS
    for n in range(0, FAILS * step, step):
        pattern, cell = divmod(n, CHAINS * CELLS)
        bits.append(f'fail {pattern} cell c{cell // CELLS} {cell % CELLS}')
    head = ['FAILLOG 2', 'die demo', 'design demo', f'tested 0 {PATTERNS - 1}']
    cuts = ['cut out', *(f'cut chain c{c}' for c in range(CHAINS))]
    for name, lines in (('whole.log', head + bits), ('cut.log', head + bits + cuts)):
        with open(os.path.join(folder, name), 'w', encoding='ascii') as file:
            file.write('\n'.join([*lines, 'end']) + '\n')


def count(program, folder, log):
    texts = [os.path.join(folder, name) for name in TEXTS]
    return instructions([program, 'diagnose', 'demo', 'demo', *texts, os.path.join(folder, log)], folder)


def tell(name, counted, first):
    print('%-34s %10.1f million instructions %7.3f' % (name, counted, counted / first))


def main():
    if len(sys.argv) != 3:
        sys.exit(__doc__)
    other, before = (os.path.abspath(word) for word in sys.argv[1:])
    # One processor for this script and what it runs.
    os.sched_setaffinity(0, {min(os.sched_getaffinity(0))})
    with tempfile.TemporaryDirectory() as folder:
        subprocess.run([other, 'files', '7', '200', folder], check=True, stdout=subprocess.DEVNULL)
        for name in ('demo.log', 'each.log', 'many.log'):
            first = count(before, folder, name)
            tell(name + ', the program before', first, first)
            tell(name, count(PROGRAM, folder, name), first)
            tell(name + ' in version 2', count(PROGRAM, folder, second_version(folder, name)), first)
        made_design(folder)
        made_logs(folder)
        first = count(PROGRAM, folder, 'whole.log')
        tell(f'{FAILS} failing bits', first, first)
        tell(f'the same, {CHAINS + 1} groups cut', count(PROGRAM, folder, 'cut.log'), first)


if __name__ == '__main__':
    main()
