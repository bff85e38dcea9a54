#!/usr/bin/env python3
"""Times whole commands of the desk beside those of another program with the same words and output, in one run.

    python3 bench/against.py OTHER [RUNS]     (from the top; ./scandesk must have been built)

OTHER is the path of the other program. It is asked to write the files of `demo 7 200` (`OTHER files 7 200 FOLDER`: four
texts and the logs demo.log, each.log and many.log); the desk then runs over the same files. For each command the two outputs are
compared byte for byte, and the least wall time of five times RUNS runs (20 by default; by hyperfine where it is there, else by a clock of this script's; the two programs take
turns, five times each) and the greatest memory are told, on one processor (`taskset -c 0`) and on all. The variable PEER_THREADS tells the other program how many threads it may use; the desk has
the setting of the C library's heap that ./scandesk gives it, or the caller's own GLIBC_TUNABLES (none where that is empty). Where valgrind is
there, the instructions of two commands follow, which don't depend on what else the machine does.
"""
import json
import os
import shutil
import subprocess
import sys
import tempfile
import time

TOP = os.path.dirname(os.path.dirname(os.path.abspath(__file__)))
PROGRAM = os.path.join(TOP, 'crates', 'scandesk', 'out', 'scandesk')
# As ./scandesk has it: large pages for the C library's heap, unless the caller has a setting of his own.
HEAP = os.environ.get('GLIBC_TUNABLES', 'glibc.malloc.hugetlb=1')
# How often the two programs take turns, each time with so many runs as are asked for.
ROUNDS = 5
TEXTS = ['netlist.bench', 'scan.txt', 'patterns.txt', 'neighbours.csv']


def commands(folder):
    texts = [os.path.join(folder, name) for name in TEXTS]
    listed = [('check', ['check', *texts]), ('demo 7 200', ['demo', '7', '200'])]
    for log in ['demo.log', 'each.log', 'many.log']:
        listed.append(('diagnose ' + log, ['diagnose', 'demo', 'demo', *texts, os.path.join(folder, log)]))
    return listed


def clocked(words, environment):
    """The wall seconds of one run, from its start to its end."""
    start = time.perf_counter()
    subprocess.run(words, check=True, stdout=subprocess.DEVNULL, stderr=subprocess.DEVNULL, env=environment)
    return time.perf_counter() - start


def least_time(words, runs, folder, environment):
    """The least wall seconds of so many runs, after two that are not counted."""
    if not shutil.which('hyperfine'):
        return min([clocked(words, environment) for _ in range(runs + 2)][2:])
    report = os.path.join(folder, 'times.json')
    subprocess.run(['hyperfine', '--shell=none', '--warmup', '2', '--runs', str(runs), '--export-json', report, ' '.join(words)],
                   check=True, stdout=subprocess.DEVNULL, stderr=subprocess.DEVNULL, env=environment)
    with open(report) as f:
        return min(json.load(f)['results'][0]['times'])


def least_times(both, runs, folder):
    """The least wall seconds of both, which take turns: where the machine's speed changes, it changes for both."""
    rounds = [[least_time(words, runs, folder, environment) for words, environment in both] for _ in range(ROUNDS)]
    return [min(times) for times in zip(*rounds)]


def output_and_memory(words, environment):
    """What a run prints, and the most memory that it takes, in MiB."""
    child = subprocess.Popen(words, stdout=subprocess.PIPE, env=environment)
    printed = child.stdout.read()
    _, _, usage = os.wait4(child.pid, 0)
    return printed, usage.ru_maxrss / 1024


def instructions(words, folder):
    """The instructions that a run takes, in millions."""
    file = os.path.join(folder, 'callgrind')
    run = subprocess.run(['valgrind', '--tool=callgrind', '--callgrind-out-file=' + file, *words],
                         stdout=subprocess.DEVNULL, stderr=subprocess.PIPE, text=True)
    line = [it for it in run.stderr.splitlines() if 'Collected' in it]
    return int(line[0].split()[-1]) / 1e6 if line else None


def compare(name, words, other, runs, folder, threads, where):
    prefix = ['taskset', '-c', '0'] if where == 'one' else []
    desk = prefix + [PROGRAM, *words], dict(os.environ, GLIBC_TUNABLES=HEAP)
    beside = prefix + [other, *words], dict(os.environ, PEER_THREADS=str(threads))
    own, own_memory = output_and_memory(*desk)
    theirs, other_memory = output_and_memory(*beside)
    own_time, other_time = least_times([desk, beside], runs, folder)
    same = 'same bytes' if own == theirs else 'OTHER BYTES'
    print('%-18s %-3s %8.1f ms %8.1f ms %6.2f   %6.0f MiB %6.0f MiB %6.2f   %s'
          % (name, where, own_time * 1e3, other_time * 1e3, own_time / other_time, own_memory, other_memory, own_memory / other_memory, same))
    return own == theirs


def main():
    if len(sys.argv) < 2:
        sys.exit(__doc__)
    other = os.path.abspath(sys.argv[1])
    runs = int(sys.argv[2]) if len(sys.argv) > 2 else 20
    with tempfile.TemporaryDirectory() as folder:
        subprocess.run([other, 'files', '7', '200', folder], check=True, stdout=subprocess.DEVNULL)
        print('%-18s %-3s %11s %11s %6s   %10s %10s %6s' % ('command', 'cpu', 'desk', 'other', 'ratio', 'desk', 'other', 'ratio'))
        alike = True
        for where, threads in [('one', 1), ('all', os.cpu_count())]:
            for name, words in commands(folder):
                alike = compare(name, words, other, runs, folder, threads, where) and alike
        if shutil.which('valgrind'):
            for name, words in commands(folder):
                if name in ('check', 'diagnose many.log'):
                    print('%-18s %10.1f million instructions' % (name, instructions([PROGRAM, *words], folder) or 0))
    sys.exit(0 if alike else 1)


if __name__ == '__main__':
    main()
