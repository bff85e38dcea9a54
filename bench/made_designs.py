#!/usr/bin/env python3
"""Makes the designs of `demo` for each number of blocks by a model of its own, and has the program check them.

That the texts of the generator break no rule is not proved; this script shows it for the seeds and blocks that it runs.
Usage: bench/made_designs.py [PROGRAM [SEED..]]
"""

import pathlib
import subprocess
import sys
import tempfile

GATES = ["AND", "NAND", "OR", "NOR", "XOR", "XNOR"]


def draws(state):
    """A function that draws a number below its argument."""
    def draw(below):
        nonlocal state
        state = (state * 6364136223846793005 + 1442695040888963407) % 2**64
        return (state >> 32) % below

    return draw


def netlist(blocks, draw):
    yield from (f"INPUT(i{b}_{j})" for b in range(blocks) for j in range(10))
    yield from (f"OUTPUT(g{b}_{k})" for b in range(blocks) for k in range(90, 95))
    for b in range(blocks):
        before = [f"i{b}_{j}" for j in range(10)] + [f"q{b}_{j}" for j in range(5)]
        yield from (f"q{b}_{j} = DFF(g{b}_{95 + j})" for j in range(5))
        for k in range(100):
            word = GATES[draw(6)]
            first, second = before[draw(15 + k)], before[draw(15 + k)]
            yield f"g{b}_{k} = {word}({first}, {second})"
            before.append(f"g{b}_{k}")


def chains(blocks):
    cells = [f"q{b}_{j}" for b in range(blocks) for j in range(5)]
    return [cells[at : at + 125] for at in range(0, len(cells), 125)]


def patterns(blocks, draw):
    loads = [len(chain) for chain in chains(blocks)]
    for p in range(512):
        lengths = loads if p % 64 == 0 else [10 * blocks] + loads
        words = ["".join(str(draw(2)) for _ in range(length)) for length in lengths]
        yield " ".join(["SHIFT" if p % 64 == 0 else "CAPTURE"] + words)


def texts(seed, blocks):
    draw = draws(seed)
    return {
        "made.bench": list(netlist(blocks, draw)),
        "made.scan": [f"CHAIN c{h} " + " ".join(cells) for h, cells in enumerate(chains(blocks))],
        "made.pat": list(patterns(blocks, draw)),
        "made.csv": ["net_a,net_b"] + [f"g{b}_50,g{b + 1}_50" for b in range(blocks - 1)],
    }


def is_read(program, seed, blocks):
    with tempfile.TemporaryDirectory() as folder:
        files = texts(seed, blocks)
        for name, lines in files.items():
            pathlib.Path(folder, name).write_text("".join(line + "\n" for line in lines))
        run = subprocess.run([program, "check", *files], cwd=folder, capture_output=True, check=False)
        counts = dict(line.split(" ", 1) for line in run.stdout.decode().splitlines())
        return run.returncode == 0 and counts["nets"] == str(115 * blocks)


def main():
    here = pathlib.Path(__file__).resolve().parent.parent
    program = sys.argv[1] if len(sys.argv) > 1 else str(here / "crates/scandesk/out/scandesk")
    seeds = [int(word) for word in sys.argv[2:]] or [7]
    refused = [(seed, blocks) for seed in seeds for blocks in range(1, 201) if not is_read(program, seed, blocks)]
    print(f"{200 * len(seeds)} designs, {len(refused)} refused")
    for seed, blocks in refused:
        print(f"seed {seed} blocks {blocks}")
    return 1 if refused else 0


if __name__ == "__main__":
    sys.exit(main())
