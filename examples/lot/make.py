#!/usr/bin/env python3
"""Makes a lot of failing dies whose causes are known.

    examples/lot/make.py PROGRAM FOLDER DIES BLOCKS

FOLDER gets the files of a design of `demo` with so many blocks (`demo.bench`, `demo.scan`,
`demo.pat`, `demo.csv`), a fail log for each die (`logs/DIE.log`), and the cause that each has
(`causes.csv`: DIE,CAUSE,FAULT). Three faults stand for what is wrong with the process: the first is
the cause in 40 of 100 dies, the second in 25, the third in 15; each other die has a fault of its
own. A die's log is the one that its fault predicts, as PROGRAM serves it, but jittered (one fail in
32 isn't seen, and a die in 16 has a fail from elsewhere) and cut where the tester had its fill. The
draws have a fixed seed, so the same words make the same lot.
"""

import http.client
import pathlib
import subprocess
import sys
import tempfile

sys.path.insert(0, str(pathlib.Path(__file__).resolve().parents[2] / "bench"))
from made_bundles import bundle
from made_designs import draws, texts

SEED = 7
PORTS = range(18510, 18520)
NAMES = {"made.bench": "demo.bench", "made.scan": "demo.scan", "made.pat": "demo.pat", "made.csv": "demo.csv"}
# Of 100 dies.
SHARES = [40, 25, 15]
# At how many fails a tester stops.
FILLS = [32, 64, 128, 256, 512, 1024]


class Desk:
    """One connection to the program, which serves the design."""

    def __init__(self, program, room):
        for port in PORTS:
            self.serving = subprocess.Popen([program, "serve", str(port), "1", "1", str(room / "store")], stdout=subprocess.PIPE)
            if self.serving.stdout.readline() == b"serving %d\n" % port:
                self.link = http.client.HTTPConnection("127.0.0.1", port)
                return
            self.serving.wait()
        sys.exit("no port is free")

    def ask(self, method, target, body=None):
        self.link.request(method, target, body)
        reply = self.link.getresponse()
        text = reply.read().decode()
        if reply.status not in (200, 201):
            sys.exit(f"{method} {target}: {reply.status} {text}")
        return text

    def fails(self, place):
        """The fail lines that the fault at a place predicts."""
        lines = self.ask("GET", f"/designs/demo/faults/{place}/fails").splitlines()
        return [line for line in lines if line.startswith("fail ")]

    def close(self):
        self.link.close()
        self.serving.wait()


def places(counts):
    """The first place and the number of the faults of nets and pins, of the bridges, and of the cells."""
    bridges, cells = 4 * counts["pairs"], 4 * counts["cells"]
    logic = counts["faults"] - bridges - cells
    return [(logic, bridges), (0, logic), (logic + bridges, cells)]


def drawn_fault(desk, draw, first, number, least):
    """A fault that predicts so many fails at least, as its place and these."""
    while True:
        place = first + draw(number)
        fails = desk.fails(place)
        if len(fails) >= least:
            return place, fails


def jittered(draw, fails, others):
    seen = [fail for fail in fails if draw(32) > 0] or fails[:1]
    if draw(16) == 0:
        seen.append(others[draw(len(others))])
    return seen


def in_test_order(points, fails):
    """Each fail once, by pattern and then by point."""
    def key(fail):
        _, pattern, point = fail.split(" ", 2)
        return int(pattern), points[point]

    return sorted(set(fails), key=key)


def points_of(files):
    """The points of a design in test order: the outputs, then what the chains show in each cycle of the unload."""
    outputs = [line[7:-1] for line in files["made.bench"] if line.startswith("OUTPUT(")]
    lengths = [(line.split()[1], len(line.split()) - 2) for line in files["made.scan"]]
    cycles = max(length for _, length in lengths)
    cells = [f"cell {chain} {length - 1 - t}" for t in range(cycles) for chain, length in lengths if t < length]
    return {point: at for at, point in enumerate([f"out {name}" for name in outputs] + cells)}


def log_text(die, last, fails, fill):
    """The log of a tester that stops at so many fails."""
    end = "end" if len(fails) <= fill else "truncated"
    head = ["FAILLOG 1", f"die {die}", "design demo", f"tested 0 {last}"]
    return "".join(line + "\n" for line in [*head, *fails[:fill], end])


def write_design(folder, files):
    for made, name in NAMES.items():
        (folder / name).write_text("".join(line + "\n" for line in files[made]))


def cause_of(at):
    """Which of the three causes the die at a place has; its own where it has none of them."""
    mark = at * 37 % 100
    for cause, share in enumerate(SHARES):
        if mark < share:
            return cause
        mark -= share
    return None


def make(desk, folder, dies, blocks):
    files = texts(SEED, blocks)
    write_design(folder, files)
    desk.ask("PUT", "/designs/demo", bundle(SEED, blocks))
    counts = {word: int(number) for word, number in (line.split() for line in desk.ask("GET", "/designs/demo").splitlines()[2:12])}
    draw = draws(SEED)
    points = points_of(files)
    planted = [drawn_fault(desk, draw, first, number, 24) for first, number in places(counts)]
    elsewhere = [fail for _, fails in planted for fail in fails]
    (folder / "logs").mkdir()
    with open(folder / "causes.csv", "w", encoding="utf-8") as causes:
        for at in range(dies):
            die = f"w{at // 20 + 1:02}.d{at % 20 + 1:02}"
            cause = cause_of(at)
            place, fails = drawn_fault(desk, draw, 0, counts["faults"], 1) if cause is None else planted[cause]
            seen = in_test_order(points, jittered(draw, fails, elsewhere))
            log = log_text(die, counts["patterns"] - 1, seen, FILLS[draw(len(FILLS))])
            (folder / "logs" / f"{die}.log").write_text(log)
            causes.write(f"{die},{'own' if cause is None else cause + 1},{place}\n")


def main():
    program, folder, dies, blocks = sys.argv[1], pathlib.Path(sys.argv[2]), int(sys.argv[3]), int(sys.argv[4])
    folder.mkdir(parents=True, exist_ok=True)
    with tempfile.TemporaryDirectory() as room:
        desk = Desk(program, pathlib.Path(room))
        make(desk, folder, dies, blocks)
        desk.close()


if __name__ == "__main__":
    main()
