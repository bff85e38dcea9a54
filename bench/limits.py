#!/usr/bin/env python3
"""Diagnoses a die of a design at the limits: 65,536 nets, 262,144 pins, 4,096 patterns, 65,536 pairs.

    python3 bench/limits.py [OTHER [ROUNDS]]           (from the top; ./scandesk must have been built)

Tells the seconds of a processor and the greatest memory of `check` and `diagnose`; where OTHER is the path of another program with the
same words and output, the two are told side by side and their bytes are compared. They take turns ROUNDS times (one, if none is said):
the least and the median of each are told, and the median of the ratios of a round, which wanders less than the seconds where
other machines of the host take processor time away. The desk has the setting of the C library's heap that ./scandesk gives it, or the
caller's own GLIBC_TUNABLES (none where that is empty). On one processor: `taskset -c 0 python3 ..`.
"""
import multiprocessing
import os
import pathlib
import random
import statistics
import subprocess
import sys
import tempfile

sys.path.insert(0, os.path.dirname(os.path.abspath(__file__)))
from against import HEAP

TOP = pathlib.Path(__file__).resolve().parent.parent
PROGRAM = str(TOP / "crates/scandesk/out/scandesk")
NETS, PINS, PATTERNS, PAIRS = 65536, 262144, 4096, 65536
INPUTS, CELLS, OUTPUTS, FAILS = 500, 2000, 500, 200000
BLOCK = 100
KINDS = ["AND", "NAND", "OR", "NOR", "XOR", "XNOR"]


def netlist(rng):
    gates = NETS - INPUTS - CELLS
    operands = PINS - CELLS - OUTPUTS
    widths = [operands // gates + (k < operands % gates) for k in range(gates)]
    nets = [f"i{k}" for k in range(INPUTS)] + [f"q{k}" for k in range(CELLS)]
    lines, block = [], []
    for k, width in enumerate(widths):
        if k % BLOCK == 0:
            block = rng.sample(nets[:INPUTS + CELLS], 20)
        lines.append(f"g{k} = {rng.choice(KINDS)}({', '.join(rng.choice(block) for _ in range(width))})")
        block.append(f"g{k}")
        nets.append(f"g{k}")
    cells = [f"q{k} = DFF({rng.choice(nets[INPUTS + CELLS:])})" for k in range(CELLS)]
    outputs = [f"OUTPUT({net})" for net in rng.sample(nets[INPUTS + CELLS:], OUTPUTS)]
    return [f"INPUT(i{k})" for k in range(INPUTS)] + outputs + cells + lines, nets


def bits(rng, count):
    return format(rng.getrandbits(count), f"0{count}b")


def chains():
    return [f"CHAIN c{h} " + " ".join(f"q{k}" for k in range(100 * h, 100 * h + 100)) for h in range(CELLS // 100)]


def patterns(rng):
    loads = lambda: " ".join(bits(rng, 100) for _ in range(CELLS // 100))
    return [f"CAPTURE {bits(rng, INPUTS)} {loads()}" if k % 64 else f"SHIFT {loads()}" for k in range(PATTERNS)]


def pairs(rng, nets):
    found = set()
    while len(found) < PAIRS:
        at = rng.randrange(len(nets) - 50)
        found.add((nets[at], nets[at + rng.randrange(1, 50)]))
    return ["net_a,net_b"] + [f"{a},{b}" for a, b in sorted(found)]


def log(rng):
    places = [f"cell c{h} {at}" for h in range(CELLS // 100) for at in range(100)]
    fails = set()
    while len(fails) < FAILS:
        pattern = rng.randrange(PATTERNS)
        fails.add((pattern, rng.randrange(len(places))))
    return ["FAILLOG 1", "die demo", "design demo", f"tested 0 {PATTERNS - 1}"] + [f"fail {p} {places[k]}" for p, k in sorted(fails)] + ["end"]


def write(folder):
    rng = random.Random(7)
    lines, nets = netlist(rng)
    texts = {"limits.bench": lines, "limits.scan": chains(), "limits.pat": patterns(rng), "limits.csv": pairs(rng, nets), "limits.log": log(rng)}
    for name, text in texts.items():
        pathlib.Path(folder, name).write_text("\n".join(text) + "\n")


def run(words, folder):
    """One run: its bytes, its seconds of a processor and its greatest memory in MiB."""
    own = {"GLIBC_TUNABLES": HEAP} if words[0] == PROGRAM else {}
    child = subprocess.Popen(words, cwd=folder, stdout=subprocess.PIPE, env=dict(os.environ, **own))
    printed = child.stdout.read()
    _, status, usage = os.wait4(child.pid, 0)
    if status:
        sys.exit(f"{words[0]} ended with status {status >> 8}")
    return printed, usage.ru_utime + usage.ru_stime, usage.ru_maxrss // 1024


def beside(programs, words, folder, rounds):
    """The programs in turns, with the same bytes each time."""
    seconds = [[] for _ in programs]
    memory = [0 for _ in programs]
    for _ in range(rounds):
        runs = [run([program, *words], folder) for program in programs]
        if len({printed for printed, _, _ in runs}) > 1:
            sys.exit("the bytes differ")
        for k, (_, took, most) in enumerate(runs):
            seconds[k].append(took)
            memory[k] = max(memory[k], most)
    for program, took, most in zip(programs, seconds, memory):
        print(f"  {program}: least {min(took):.2f} s, median {statistics.median(took):.2f} s, {most} MiB")
    if len(programs) == 2:
        ratios = [desk / other for desk, other in zip(*seconds)]
        print(f"  ratio: of the least {min(seconds[0]) / min(seconds[1]):.2f}, median of a round {statistics.median(ratios):.2f}")


def main():
    texts = ["limits.bench", "limits.scan", "limits.pat", "limits.csv"]
    programs = [PROGRAM, *map(os.path.abspath, sys.argv[1:2])]
    rounds = int(sys.argv[2]) if len(sys.argv) > 2 else 1
    with tempfile.TemporaryDirectory() as folder:
        # By another process: the memory of this one counts as that of the programs that it starts.
        writer = multiprocessing.Process(target=write, args=(folder,))
        writer.start()
        writer.join()
        for words in [["check", *texts], ["diagnose", "demo", "demo", *texts, "limits.log"]]:
            print(words[0])
            beside(programs, words, folder, rounds)


if __name__ == "__main__":
    main()
