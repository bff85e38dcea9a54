#!/bin/sh
# Runs `rt ci` from nothing at the top of the repository (`rt ci --anew`, where the kit keeps what passed), with the words of this
# script after it, and prints where its processor time went: for each crate the seconds of its proof, of its tests and of its must-fail edits, with the number of checks that
# the edits took (one more where the crate is checked once for all of them), and the whole in minutes. The provers are looked at once a second in the process table, so each counts up to a second too little;
# what no prover took (compilers, programs, tests that run) stands as the rest. The status is that of the gate.
top=$(CDPATH='' cd -- "$(dirname -- "$0")/.." && pwd) || exit 1
cd "$top" || exit 1
exec python3 - "$@" <<'PY'
import collections, os, resource, subprocess, sys, time

TICKS = os.sysconf('SC_CLK_TCK')


def stat_of(pid):
    """The parent, the start and the processor seconds of a process."""
    with open(f'/proc/{pid}/stat', encoding='utf-8', errors='replace') as stat:
        fields = stat.read().rpartition(')')[2].split()
    return int(fields[1]), fields[19], (int(fields[11]) + int(fields[12])) / TICKS


def words_of(pid):
    with open(f'/proc/{pid}/cmdline', 'rb') as words:
        return words.read().decode(errors='replace').split('\0')


def work_of(pid, words):
    """The crate that a prover works on, what for, and in which folder."""
    if os.path.basename(words[0]) != 'rattle' or '--crate-name' not in words:
        return None
    crate = words[words.index('--crate-name') + 1]
    folder = os.readlink(f'/proc/{pid}/cwd')
    if '/rt-edit' in folder:
        return crate, 'edits', folder
    return crate, 'tests' if '--test' in words else 'proof', folder


def look(root, taken):
    """Notes the time of each prover below the process root."""
    processes = {}
    for pid in filter(str.isdigit, os.listdir('/proc')):
        try:
            processes[int(pid)] = stat_of(pid)
        except (OSError, IndexError):
            continue
    below, due = set(), [root]
    while due:
        at = due.pop()
        more = [pid for pid, (parent, _, _) in processes.items() if parent == at and pid not in below]
        below.update(more)
        due += more
    for pid in below:
        _, start, seconds = processes[pid]
        try:
            work = taken[pid, start][0] if (pid, start) in taken else work_of(pid, words_of(pid))
        except (OSError, ValueError, IndexError):
            continue
        if work:
            taken[pid, start] = work, seconds


def tell(taken, whole, passed):
    sums = collections.Counter()
    for (crate, kind, _), seconds in taken.values():
        sums[crate, kind] += seconds
    folders = {work for work, _ in taken.values() if work[1] == 'edits'}
    edits = collections.Counter(crate for crate, _, _ in folders)
    print(f'{"crate":16} {"proof":>8} {"tests":>8} {"edits":>8} {"checks":>8} {"all":>8}')
    crates = sorted({crate for crate, _ in sums}, key=lambda crate: -sum(sums[crate, kind] for kind in ('proof', 'tests', 'edits')))
    for crate in crates:
        row = [sums[crate, kind] for kind in ('proof', 'tests', 'edits')]
        print(f'{crate:16} {row[0]:8.0f} {row[1]:8.0f} {row[2]:8.0f} {edits[crate]:8} {sum(row):8.0f}')
    columns = [sum(seconds for (_, kind), seconds in sums.items() if kind == column) for column in ('proof', 'tests', 'edits')]
    print(f'{"all":16} {columns[0]:8.0f} {columns[1]:8.0f} {columns[2]:8.0f} {sum(edits.values()):8} {sum(columns):8.0f}')
    print(f'the rest {whole - sum(columns):.0f} s; the whole {whole / 60:.1f} minutes of processors, {passed / 60:.1f} minutes by the clock')


def keeps():
    """Whether the kit's `rt ci` keeps what passed, so that it must be told to begin anew."""
    return '--anew' in subprocess.run(['rt', 'help'], capture_output=True, text=True, check=False).stderr


begun = time.monotonic()
gate = subprocess.Popen(['rt', 'ci', *['--anew'] * keeps(), *sys.argv[1:]])
taken = {}
while gate.poll() is None:
    look(gate.pid, taken)
    time.sleep(1)
used = resource.getrusage(resource.RUSAGE_CHILDREN)
tell(taken, used.ru_utime + used.ru_stime, time.monotonic() - begun)
sys.exit(gate.returncode)
PY
