#!/usr/bin/env python3
"""Writes the bundle of the made design of a seed and a number of blocks: made_bundles.py SEED BLOCKS FILE"""
import pathlib
import sys

sys.path.insert(0, str(pathlib.Path(__file__).resolve().parent))
from made_designs import texts


def bundle(seed, blocks):
    files = texts(seed, blocks)
    sections = [("%netlist", "made.bench"), ("%scan", "made.scan"), ("%patterns", "made.pat"), ("%neighbours", "made.csv")]
    return "".join(line + "\n" for head, name in sections for line in [head, *files[name]])


if __name__ == "__main__":
    pathlib.Path(sys.argv[3]).write_text(bundle(int(sys.argv[1]), int(sys.argv[2])))
