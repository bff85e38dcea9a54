"""Tells the time of the counts of three logs by two programs, one thread each, on one processor, least of many.

    count_times.py PROGRAM OTHER FOLDER

PROGRAM BUNDLE LOG ROUNDS counts so many times: the time of 20 rounds less that of none, least of five runs. OTHER prints its phases.
The desk's program has the setting of the C library's heap that ./scandesk gives the desk: without large pages the library gives the end of
the heap back after each round and asks for it anew, which is no time of the counts.
"""
import os
import subprocess
import sys

from against import HEAP

ROUNDS = 20
TEXTS = ["netlist.bench", "scan.txt", "patterns.txt", "neighbours.csv"]


def seconds(words):
    least = None
    for _ in range(5):
        child = subprocess.Popen(["taskset", "-c", "0", *words], env=dict(os.environ, GLIBC_TUNABLES=HEAP))
        _, status, usage = os.wait4(child.pid, 0)
        if status != 0:
            sys.exit(f"{words}: status {status}")
        took = usage.ru_utime + usage.ru_stime
        least = took if least is None else min(least, took)
    return least


def own(program, folder, log):
    words = [program, os.path.join(folder, "bundle"), os.path.join(folder, log)]
    return (seconds([*words, str(ROUNDS)]) - seconds([*words, "0"])) / ROUNDS * 1e3


def others(program, folder, log):
    environment = dict(os.environ, PEER_TIME="1", PEER_THREADS="1", PEER_REPEAT=str(ROUNDS))
    words = ["taskset", "-c", "0", program, "diagnose", "demo", "demo", *TEXTS, log]
    times = []
    for _ in range(5):
        run = subprocess.run(words, cwd=folder, env=environment, stdout=subprocess.DEVNULL, stderr=subprocess.PIPE, text=True, check=True)
        times += [float(line.split()[0]) for line in run.stderr.splitlines() if line.split()[2:3] == ["counts"]]
    return min(times)


def main():
    program, other, folder = sys.argv[1:]
    print(f"{'log':10} {'desk':>9} {'other':>9} {'ratio':>6}")
    for log in ["demo.log", "each.log", "many.log"]:
        desk, peer = own(program, folder, log), others(other, folder, log)
        print(f"{log:10} {desk:6.2f} ms {peer:6.2f} ms {desk / peer:6.1f}")


if __name__ == "__main__":
    main()
