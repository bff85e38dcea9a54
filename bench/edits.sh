#!/bin/sh
# Tries wrong bodies: the edits edits/CRATE/*.edit and crates/CRATE/must-fail/*.edit, each of which the prover must
# refuse.
#     bench/edits.sh [-j N] [--built CHECKOUT] [CRATE..]
# Without CRATE those of all crates. What stands below the crates asked for is built in a scratch folder by `rt ci`,
# which proves nothing again that the kit kept; or it is taken from a checkout of the same crates in which a gate has
# passed and left it. Each edit is tried by the functions that it changes, or that name the
# constant that it changes, together with others of its crate that change other functions: the libraries below are
# read once for all of them, and a function that isn't proved is a crate that isn't. Where its functions are proved,
# or it changes none, the whole crate is checked. At most N provers run at once, or RT_JOBS, or one for each core, and
# never more than there are cores.
# Each edit that isn't refused is named, also one that doesn't apply, compile or read; and each that is refused only
# because a proof names what it took away, since that says little of a contract.
# The last line is `N refused, M let through`, and the status is 0 only where M is 0.
top=$(CDPATH='' cd -- "$(dirname -- "$0")/.." && pwd) || exit 1
scratch=$(mktemp -d "${TMPDIR:-/tmp}/scandesk-edits-XXXXXX") || exit 1
trap 'rm -rf "$scratch"' EXIT
trap 'exit 1' HUP INT TERM
python3 - "$top" "$scratch" "$@" <<'PY'
import argparse, os, re, shutil, subprocess, sys, tempfile
from concurrent.futures import ThreadPoolExecutor
from pathlib import Path

TOP, SCRATCH = Path(sys.argv[1]), Path(sys.argv[2])
CORES = len(os.sched_getaffinity(0))
KIT = Path(os.path.realpath(shutil.which('rt') or sys.exit('edits.sh: no rt'))).parent.parent


def asked():
    number = os.environ.get('RT_JOBS', '')
    words = argparse.ArgumentParser(prog='bench/edits.sh')
    words.add_argument('-j', '--jobs', type=int, default=int(number) if number.isdigit() else CORES)
    words.add_argument('--built', type=Path, metavar='CHECKOUT')
    words.add_argument('crates', nargs='*', metavar='CRATE')
    found = words.parse_args(sys.argv[3:])
    return max(1, min(found.jobs, CORES)), found.built, found.crates


def crates():
    """Each crate of crates.txt with the libraries that it names."""
    lines = (line.partition('#')[0].partition(':') for line in (TOP / 'crates.txt').read_text().splitlines())
    return {name.split()[0]: words.split() for name, _, words in lines if name.strip()}


def below(uses, name):
    """The crates of the repository that stand below one."""
    own = [word for word in uses[name] if word in uses]
    return set(own).union(*(below(uses, low) for low in own))


def edits_of(name):
    """The edits of a crate by their names, those of the gate among them."""
    found = [*(TOP / 'edits' / name).glob('*.edit'), *(TOP / 'crates' / name / 'must-fail').glob('*.edit')]
    names = [edit.name for edit in found]
    twice = sorted({it for it in names if names.count(it) > 1})
    if twice:
        sys.exit(f'edits.sh: {name}: stands in edits/ and in must-fail/: {" ".join(twice)}')
    return {edit.name: edit for edit in sorted(found)}


def take(built, names):
    """The libraries of some crates as a gate left them in another checkout, where their sources are the same."""
    for name in names:
        for part in ('src', 'specs', 'proofs'):
            both = [top / 'crates' / name / part for top in (TOP, built)]
            if any(map(Path.is_dir, both)) and subprocess.run(['diff', '-rqN', *both], stdout=sys.stderr, check=False).returncode:
                sys.exit(f'edits.sh: {name}: not the same in {built}')
        (SCRATCH / 'crates' / name).mkdir(parents=True)
        (SCRATCH / 'crates' / name / 'out').symlink_to(built.resolve() / 'crates' / name / 'out')


def build(uses, names):
    """The libraries of some crates, by the gate over these alone."""
    for name in names:
        shutil.copytree(TOP / 'crates' / name, SCRATCH / 'crates' / name, ignore=shutil.ignore_patterns('out', 'must-fail'))
    shutil.copy(TOP / 'HANDLES', SCRATCH)
    (SCRATCH / 'crates.txt').write_text(''.join(f'{name}: {" ".join(uses[name])}\n' for name in names))
    if names and subprocess.run(['rt', 'ci'], cwd=SCRATCH, stdin=subprocess.DEVNULL, stdout=sys.stderr, check=False).returncode:
        sys.exit('edits.sh: what stands below is not proved')


def libraries(uses, name):
    """The flags by which the prover finds what a crate uses."""
    built, kit = (lambda low: SCRATCH / 'crates' / low / 'out' / 'rlib'), KIT / 'rlibs'
    flags = ['--extern', f'std={kit}/std.rlib']
    for word in uses[name]:
        flags += ['--extern', f'{word}={built(word) if word in uses else kit}/{word}.rlib']
    for folder in [*map(built, sorted(below(uses, name))), kit]:
        flags += ['-L', f'dependency={folder}']
    return flags


def check(uses, name, texts, functions):
    """What the prover says of a crate with some texts changed: of some functions, or of the whole. None where it didn't come to a verdict, or refuses the text itself."""
    with tempfile.TemporaryDirectory(dir=SCRATCH) as folder:
        for part in ('src', 'specs', 'proofs'):
            if (TOP / 'crates' / name / part).is_dir():
                shutil.copytree(TOP / 'crates' / name / part, Path(folder, part))
        for file, text in texts.items():
            Path(folder, file).write_text(text)
        ran = subprocess.run([KIT / 'bin' / 'rattle', 'check', '--crate-name', name, 'src/lib.rt', *libraries(uses, name), '--jobs', '1',
                              '--antt-project', KIT / 'rattle' / 'logic' / 'antt-project.json', '--logic-built', KIT / 'logic_built',
                              *(word for function in functions for word in ('--only', function))],
                             cwd=folder, stdin=subprocess.DEVNULL, stdout=subprocess.PIPE, stderr=subprocess.STDOUT, text=True, errors='replace', check=False)
    if ran.returncode not in (0, 1) or re.search(r'^(\./)?(src|specs)/\S+: error', ran.stdout, re.M):
        return None
    return ran.stdout


FUNCTION = re.compile(r'( *)(?:pub(?:\([^)]*\))? )?(?:const )?fn (\w+)')
OWNER = re.compile(r"impl(?:<.*?>)? (?:(?P<trait>\w+)(?:<.*?>)? for )?(?P<type>\w+)|(?:pub(?:\([^)]*\))? )?trait (?P<own>\w+)")
CONSTANT = re.compile(r'(?:pub(?:\([^)]*\))? )?const (\w+):')
NAMES_ALONE = re.compile(r'(note: )?(\./)?proofs/.*(has no field|is not in scope|has no `|was not admitted)')
ONLY_NAMES = 'refused, but only because a proof names what it took away'


def function_at(name, file, lines, at):
    """The path of the function that has a line of a file, of a method its end, or None where none has it."""
    begins = next((n for n in range(at, -1, -1) if FUNCTION.match(lines[n])), None)
    if begins is None:
        return None
    indent, function = FUNCTION.match(lines[begins]).groups()
    if any(line in (indent + '}', '}') for line in lines[begins:at]):
        return None
    if indent:
        owner = next((OWNER.match(line) for line in reversed(lines[:begins]) if line[:1] not in ('', ' ')), None)
        return owner and f"{owner['own'] or owner['type'] + (owner['trait'] or '')}::{function}"
    parts = [name, *(part for part in file[len('src/'):-len('.rt')].split('/') if part not in ('lib', 'main'))]
    return '::'.join([*parts, function])


def users_of(name, lines, at):
    """The functions of a crate that name the constant whose value has a line of a file."""
    begins = next((n for n in range(at, -1, -1) if lines[n][:1] not in ('', ' ', ']', '}')), at)
    constant = CONSTANT.match(lines[begins])
    users = set()
    for file in (TOP / 'crates' / name).glob('src/**/*.rt') if constant else []:
        text = file.read_text().split('\n')
        path = str(file.relative_to(TOP / 'crates' / name))
        users |= {function_at(name, path, text, n) for n, line in enumerate(text) if re.search(rf'\b{constant[1]}\b', line)}
    return users - {None}


class Change:
    """The texts of a crate's files with an edit, on top of some that are changed already; the functions that have the lines that it changes; those that name what else it changes. `fits` is whether each of its lines is there once."""

    def __init__(self, name, edit, texts=()):
        self.texts, self.own, self.users, self.fits = dict(texts), set(), set(), True
        file = old = ''
        for line in edit.read_text().splitlines():
            word, _, rest = line.partition(': ')
            if word == 'file':
                file = rest.strip()
                self.texts.setdefault(file, (TOP / 'crates' / name / file).read_text())
            elif word == 'old':
                old = rest
                self.fits = self.fits and self.texts[file].count(old) == 1
                self.place(name, file, self.texts[file].partition(old)[0].count('\n'))
            elif word == 'new':
                self.texts[file] = self.texts[file].replace(old, rest)

    def place(self, name, file, at):
        if not file.startswith('src/'):
            return
        lines = self.texts[file].split('\n')
        function = function_at(name, file, lines, at)
        if function:
            self.own.add(function)
        else:
            self.users |= users_of(name, lines, at)

    def functions(self):
        return self.own | self.users


def groups_of(name, edits):
    """The edits that change functions alone, in groups in which no two change the same one: of each group the changed texts, and the functions by edit. An edit of something else has a group of its own."""
    groups = []
    for edit, file in edits.items():
        alone = Change(name, file)
        if not alone.fits or not alone.functions():
            continue
        for group in groups if not alone.users else []:
            both = Change(name, file, group['texts'])
            if group['open'] and both.fits and both.own == alone.own and not alone.own & set().union(*group['edits'].values()):
                group['texts'], group['edits'][edit] = both.texts, alone.own
                break
        else:
            groups.append({'texts': alone.texts, 'edits': {edit: alone.functions()}, 'open': not alone.users})
    return groups


def why(functions, said):
    """Why functions aren't proved, by the lines that name files of their proofs: for their meaning, or only since a proof names what was taken away."""
    own = [f"/{function.rpartition('::')[2]}/" for function in functions]
    told = [line for line in said.split('\n') if re.match(r'(note: )?\S+:\d+:\d+:', line) and any(part in line for part in own)]
    told = [line for line in told if ': error' in line or line.startswith('note: ')] or told
    return ONLY_NAMES if told and all(NAMES_ALONE.match(line) for line in told) else 'refused'


def try_group(uses, name, texts, edits):
    """Of each edit whose function isn't proved it says why. The others don't show."""
    functions = sorted(set().union(*edits.values()))
    said = check(uses, name, texts, functions)
    if said is None and len(edits) > 1:
        each = [try_group(uses, name, Change(name, edits_of(name)[edit]).texts, {edit: changed}) for edit, changed in edits.items()]
        return {edit: reason for shown in each for edit, reason in shown.items()}
    refused = [f'::{path}' for path in re.findall(r'^fn (\S+): (?:not proved|no proof)', said or '', re.M)]
    return {edit: why(changed, said) for edit, changed in edits.items() if any(path.endswith(f'::{function}') for path in refused for function in changed)}


def try_whole(uses, name, edit):
    """What the whole crate says of an edit."""
    change = Change(name, edits_of(name)[edit])
    if not change.fits:
        return 'can\'t be applied'
    said = check(uses, name, change.texts, [])
    if said is None:
        return 'doesn\'t compile or read'
    return 'refused' if re.search(r'^logic=not-proved', said, re.M) else 'let through'


def tell(name, shown):
    """Prints what became of the edits of a crate, and gives how many were let through."""
    passed = [edit for edit, reason in shown.items() if not reason.startswith('refused')]
    for edit, reason in sorted(shown.items()):
        if reason != 'refused':
            print(f'{name}/{edit}: {reason}')
    print(f'{name}: {len(shown) - len(passed)} refused, {len(passed)} let through', flush=True)
    return len(passed)


def main():
    jobs, built, wanted = asked()
    uses = crates()
    strays = sorted(folder.name for folder in (TOP / 'edits').iterdir() if folder.is_dir() and folder.name not in uses)
    unknown = [name for name in wanted if name not in uses] or (strays if not wanted else [])
    if unknown:
        sys.exit(f'edits.sh: no such crate: {" ".join(unknown)}')
    tried = {name: edits for name in wanted or uses if (edits := edits_of(name))}
    names = sorted(set().union(*(below(uses, name) for name in tried)))
    if built:
        take(built, names)
    else:
        build(uses, names)
    passed, left = 0, {}
    with ThreadPoolExecutor(jobs) as pool:
        groups = {name: [pool.submit(try_group, uses, name, group['texts'], group['edits']) for group in groups_of(name, edits)] for name, edits in tried.items()}
        for name, edits in tried.items():
            shown = {edit: reason for group in groups[name] for edit, reason in group.result().items()}
            whole = {edit: pool.submit(try_whole, uses, name, edit) for edit in edits if edit not in shown}
            if whole:
                left[name] = shown, whole
            else:
                passed += tell(name, shown)
        for name, (shown, whole) in left.items():
            passed += tell(name, shown | {edit: it.result() for edit, it in whole.items()})
    print(f'{sum(map(len, tried.values())) - passed} refused, {passed} let through')
    return 1 if passed else 0


sys.exit(main())
PY
