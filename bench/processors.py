#!/usr/bin/env python3
"""Times each command on one processor and on all, by hyperfine.

    python3 bench/processors.py OTHER [ROUNDS [PROGRAM [WORD..]]]   (from the top; PROGRAM is the one that ./scandesk built, or another one)

OTHER is the path of another program with the same words, which writes the files of `demo 7 200` (`OTHER files 7 200 FOLDER`). With
WORDs only those commands are timed whose names have one of them, as `each.log`. Large pages are asked for, unless GLIBC_TUNABLES
says otherwise (`GLIBC_TUNABLES=` asks for none).

In each round hyperfine runs every command six times on a processor alone (`taskset -c N`) and six times on all of them, for one
processor after the other. Told are the mean and the median over all rounds, six by default, of the runs on one processor, whichever
it is, and of those on all, and the ratios of these; and behind that the means of the undisturbed sixes: those during which the
host of a virtual machine took less than two in a hundred of these processors' time for others (`steal` in /proc/stat). The
processors of such a machine also share their cores with neighbours, and are up to twice as fast in one second as in the next: so
sixes are many and short, and no processor alone stands for one.
"""
import json
import os
import statistics
import subprocess
import sys
import tempfile
import time

from against import HEAP, PROGRAM, commands
from instructions import views

RUNS = 6
# Steal is counted in hundredths of a second.
TICK = 0.01
MOST_STOLEN = 0.02


def stolen(numbers):
    """The seconds that the host has taken from these processors."""
    with open('/proc/stat') as f:
        counts = {line.split()[0]: line.split() for line in f if line.startswith('cpu')}
    return sum(int(counts['cpu%d' % number][8]) for number in numbers) * TICK


def six(words, folder, numbers):
    """The wall seconds of six runs on these processors, after one that isn't counted, and whether they were undisturbed."""
    report = os.path.join(folder, 'times.json')
    begin, before = time.monotonic(), stolen(numbers)
    subprocess.run(['hyperfine', '--shell=none', '--warmup', '1', '--runs', str(RUNS), '--export-json', report, ' '.join(words)],
                   check=True, stdout=subprocess.DEVNULL, stderr=subprocess.DEVNULL, env=dict(os.environ, GLIBC_TUNABLES=HEAP))
    share = (stolen(numbers) - before) / len(numbers) / (time.monotonic() - begin)
    with open(report) as f:
        return json.load(f)['results'][0]['times'], share < MOST_STOLEN


def tell(name, sixes):
    def compared(tell_of, all_runs):
        one, everywhere = (tell_of([run for runs, quiet in found if quiet or all_runs for run in runs] or [float('nan')]) * 1e3 for found in sixes)
        return '%6.1f to %6.1f ms %5.2f' % (one, everywhere, everywhere / one)
    counts = tuple(sum(quiet for _, quiet in found) for found in sixes)
    print('%-20s mean %s   median %s   least %s   undisturbed %s (%d and %d sixes)'
          % (name, *(compared(tell_of, True) for tell_of in (statistics.mean, statistics.median, min)), compared(statistics.mean, False), *counts),
          flush=True)


def main():
    if len(sys.argv) < 2:
        sys.exit(__doc__)
    rounds = int(sys.argv[2]) if len(sys.argv) > 2 else 6
    program = os.path.abspath(sys.argv[3]) if len(sys.argv) > 3 else PROGRAM
    with tempfile.TemporaryDirectory() as folder:
        subprocess.run([os.path.abspath(sys.argv[1]), 'files', '7', '200', folder], check=True, stdout=subprocess.DEVNULL)
        listed = [(name, words) for name, words in [*commands(folder), *views(folder)]
                  if not sys.argv[4:] or any(word in name for word in sys.argv[4:])]
        found = {name: ([], []) for name, _ in listed}
        numbers = sorted(os.sched_getaffinity(0))
        for _ in range(rounds):
            for name, words in listed:
                one, everywhere = found[name]
                for number in numbers:
                    one.append(six(['taskset', '-c', str(number), program, *words], folder, [number]))
                    everywhere.append(six([program, *words], folder, numbers))
        for name, sixes in found.items():
            tell(name, sixes)


if __name__ == '__main__':
    main()
