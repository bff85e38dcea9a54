#!/usr/bin/env python3
"""Times `compact` beside another program with the same words and output, on one processor.

    python3 bench/compacted.py OTHER [RUNS]     (from the top; ./scandesk must have been built)

OTHER is the path of the other program. It is asked to write the files of `demo 7 200` (`OTHER files 7 200 FOLDER`), with channels
of four chains and three logs behind them. Wide channels are made here: one channel of all eight chains; and, over the same cells in
256 short chains, one channel of all, four that show 64 chains each, and 256 that show 64 chains each. Of each compactor three logs
are tried: `demo`, with few failing bits, `each`, with one at each compact point, and `many`, with a tenth of all bits. The two
outputs are compared byte for byte; the least wall time of RUNS runs (20 by default), in which the two programs take turns, and the
most memory are told. The desk has the setting of the C library's heap that ./scandesk gives it. Where a word `instructions` stands
behind RUNS and valgrind is there, the instructions of the desk are told too.
"""
import os
import random
import subprocess
import sys
import tempfile
import time

sys.path.insert(0, os.path.dirname(os.path.abspath(__file__)))
from against import HEAP, PROGRAM, instructions, output_and_memory

CHAINS = 256


def lines(file):
    with open(file) as f:
        return [line.split() for line in f if line.strip()]


def cut(items, parts):
    """The items in so many parts that differ by one at most."""
    return [items[len(items) * i // parts:len(items) * (i + 1) // parts] for i in range(parts)]


def short_chains(folder, wide):
    """Writes the scan and the pattern text with the same cells in many short chains, and returns the lengths of these."""
    cells = [cell for line in lines(f'{folder}/scan.txt') for cell in line[2:]]
    with open(f'{wide}/scan.txt', 'w') as f:
        for i, chain in enumerate(cut(cells, CHAINS)):
            f.write(f'CHAIN c{i} {" ".join(chain)}\n')
    with open(f'{wide}/patterns.txt', 'w') as f:
        for line in lines(f'{folder}/patterns.txt'):
            head = line[:2] if line[0] == 'CAPTURE' else line[:1]
            loads = ''.join(line[len(head):])
            f.write(' '.join(head + cut(loads, CHAINS)) + '\n')
    return [len(chain) for chain in cut(cells, CHAINS)]


def logs(folder, name, channels, lengths, outputs, kinds):
    """Writes a channel text and three logs behind it."""
    with open(f'{folder}/{name}.chan', 'w') as f:
        for i, chains in enumerate(channels):
            f.write(f'CHANNEL x{i} {" ".join(f"c{h}" for h in chains)}\n')
    cycles = [max(lengths[h] for h in chains) for chains in channels]
    points = ['out ' + output for output in outputs]
    points += [f'chan x{x} {u}' for u in range(max(cycles)) for x in range(len(channels)) if u < cycles[x]]
    drawn = random.Random(5)
    few = drawn.sample(range(len(outputs), len(points)), 2)
    bits = {
        'demo': sorted((w, k) for k in few for w in drawn.sample(range(len(kinds)), 20)),
        'each': sorted((drawn.randrange(len(kinds)), k) for k in range(len(points))),
        'many': [(w, k) for w in range(len(kinds)) for k in range(len(points)) if drawn.random() < 0.1],
    }
    for log, fails in bits.items():
        with open(f'{folder}/{name}-{log}.log', 'w') as f:
            f.write(f'COMPLOG 1\ndie demo\ndesign demo\ntested 0 {len(kinds) - 1}\n')
            for w, k in fails:
                if kinds[w] == 'CAPTURE' or k >= len(outputs):
                    f.write(f'fail {w} {points[k]}\n')
            f.write('end\n')


def cases(folder):
    """Each case with its name and the files of the command."""
    outputs = [line[0][7:-1] for line in lines(f'{folder}/netlist.bench') if line[0].startswith('OUTPUT(')]
    kinds = [line[0] for line in lines(f'{folder}/patterns.txt')]
    long = [len(line) - 2 for line in lines(f'{folder}/scan.txt')]
    wide = f'{folder}/wide'
    os.mkdir(wide)
    short = short_chains(folder, wide)
    drawn = random.Random(1)
    logs(folder, 'all', [range(len(long))], long, outputs, kinds)
    logs(wide, 'one', [range(CHAINS)], short, outputs, kinds)
    logs(wide, 'four', cut(range(CHAINS), 4), short, outputs, kinds)
    logs(wide, 'many', [sorted(drawn.sample(range(CHAINS), 64)) for _ in range(CHAINS)], short, outputs, kinds)
    kept = [f'{folder}/netlist.bench', f'{folder}/neighbours.csv']
    for log in ['demo', 'each', 'many']:
        yield f'channels of 4 chains, {log}', kept, folder, f'{folder}/channels.txt', f'{folder}/compact-{log}.log'
    for where, name, title in [(folder, 'all', '1 channel of 8 chains'), (wide, 'one', '1 channel of 256'),
                               (wide, 'four', '4 channels of 64'), (wide, 'many', '256 channels of 64')]:
        for log in ['demo', 'each', 'many']:
            yield f'{title}, {log}', kept, where, f'{where}/{name}.chan', f'{where}/{name}-{log}.log'


def clocked(words, environment):
    start = time.perf_counter()
    subprocess.run(words, check=True, stdout=subprocess.DEVNULL, stderr=subprocess.DEVNULL, env=environment)
    return time.perf_counter() - start


def compare(name, words, other, runs, folder, counted):
    both = [(['taskset', '-c', '0', PROGRAM, *words], {**os.environ, 'GLIBC_TUNABLES': HEAP}),
            (['taskset', '-c', '0', other, *words], {**os.environ, 'PEER_THREADS': '1'})]
    found = [output_and_memory(*it) for it in both]
    same = 'same bytes' if found[0][0] == found[1][0] else 'OTHER BYTES'
    times = [min(column) for column in zip(*[[clocked(*it) for it in both] for _ in range(runs)])]
    told = f', {instructions([PROGRAM, *words], folder):.1f} million instructions' if counted else ''
    print(f'{name}: {times[0] * 1e3:.1f} to {times[1] * 1e3:.1f} ms, {times[0] / times[1]:.2f} times; '
          f'{found[0][1]:.0f} to {found[1][1]:.0f} MiB; {same}{told}', flush=True)
    return found[0][0] == found[1][0]


def main():
    other = os.path.abspath(sys.argv[1])
    runs = int(sys.argv[2]) if len(sys.argv) > 2 else 20
    counted = 'instructions' in sys.argv[3:]
    with tempfile.TemporaryDirectory() as folder:
        subprocess.run([other, 'files', '7', '200', folder], check=True, stdout=subprocess.DEVNULL)
        same = True
        for name, kept, where, channels, log in cases(folder):
            words = ['compact', 'demo', 'demo', kept[0], f'{where}/scan.txt', f'{where}/patterns.txt', kept[1], channels, log]
            same = compare(name, words, other, runs, folder, counted) and same
    return 0 if same else 1


if __name__ == '__main__':
    sys.exit(main())
