"""Tells the processor time of one flip of every net, least of five runs: the time of 10 rounds less that of none.

    flip_times.py PROGRAM FOLDER BLOCKS..
"""
import os
import pathlib
import subprocess
import sys

sys.path.insert(0, str(pathlib.Path(__file__).resolve().parent))
from made_bundles import bundle

ROUNDS = 10


def seconds(words):
    least = None
    for _ in range(5):
        child = subprocess.Popen(words)
        _, status, usage = os.wait4(child.pid, 0)
        if status != 0:
            sys.exit(f"{words}: status {status}")
        took = usage.ru_utime + usage.ru_stime
        least = took if least is None else min(least, took)
    return least


def main():
    program, folder = sys.argv[1:3]
    first = None
    for blocks in map(int, sys.argv[3:]):
        file = os.path.join(folder, str(blocks))
        pathlib.Path(file).write_text(bundle(7, blocks))
        took = (seconds([program, file, str(ROUNDS)]) - seconds([program, file, "0"])) / ROUNDS
        first = first or took / blocks
        print(f"{blocks} blocks, {115 * blocks} nets: {1e3 * took:.2f} ms, {1e9 * took / (115 * blocks):.0f} ns a net, "
              f"{took / blocks / first:.2f} times the first a block")


if __name__ == "__main__":
    main()
