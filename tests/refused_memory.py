#!/usr/bin/env python3
"""Refuses each allocation of two runs of the program in turn, one at a time, and checks what comes of it.

    python3 tests/refused_memory.py            (from the top; ./scandesk must have been built; needs cc)

`diagnose` of the stored files ends with status 8 and the line `memory`, or with the whole report (where the allocation is one that the C
library can do without). `serve` of one session, which puts a design and looks at it, answers both requests, or the last of its
replies is 507, or it reads nothing and the run ends with 8, or the street, whose doors have no answer for want of memory, fails before
anything is read; another run over the same store then finds the design exactly where its reply was 201. Ends at the first run of which none of this holds, else prints one line with the numbers.
"""
import concurrent.futures
import os
import socket
import subprocess
import sys
import tempfile

sys.path.insert(0, os.path.dirname(os.path.abspath(__file__)))
from desk_calls import PROGRAM, TOP, connect, free_port

DATA = os.path.join(TOP, 'crates', 'scandesk', 'data')
REFUSE = r'''
#define _GNU_SOURCE
#include <dlfcn.h>
#include <errno.h>
#include <fcntl.h>
#include <stdlib.h>
#include <sys/mman.h>
#include <unistd.h>
static _Atomic long unkept;
static _Atomic long *made = &unkept;
static long refused = -1;
/* The program may end without its destructors, so the count stands in a file from the first allocation on. */
static void begin(void) {
    const char *at = getenv("REFUSE"), *to = getenv("COUNT");
    refused = at ? atol(at) : 0;
    int file = to && *to ? open(to, O_RDWR | O_CREAT, 0600) : -1;
    if (file >= 0 && ftruncate(file, sizeof *made) == 0) {
        void *kept = mmap(NULL, sizeof *made, PROT_READ | PROT_WRITE, MAP_SHARED, file, 0);
        if (kept != MAP_FAILED) made = kept;
    }
    if (file >= 0) close(file);
}
static int refuse(void) {
    if (refused < 0) begin();
    return ++*made == refused;
}
void *malloc(size_t n) {
    static void *(*next)(size_t);
    if (!next) next = (void *(*)(size_t))dlsym(RTLD_NEXT, "malloc");
    if (refuse()) { errno = ENOMEM; return NULL; }
    return next(n);
}
void *realloc(void *p, size_t n) {
    static void *(*next)(void *, size_t);
    if (!next) next = (void *(*)(void *, size_t))dlsym(RTLD_NEXT, "realloc");
    if (refuse()) { errno = ENOMEM; return NULL; }
    return next(p, n);
}
'''
# Under this variable the program finds the library that refuses.
PRELOAD = 'LD_PRELOAD'


def stored(name):
    with open(os.path.join(DATA, name), 'rb') as text:
        return text.read()


BUNDLE = b'%%netlist\n%s%%scan\n%s%%patterns\n%s%%neighbours\n%s' % tuple(map(stored, ['c17.bench', 'none.scan', 'one.pat', 'none.csv']))
PUT = b'PUT /designs/c17 HTTP/1.1\r\nContent-Length: %d\r\n\r\n%s' % (len(BUNDLE), BUNDLE)
LOOK = b'GET /designs/c17 HTTP/1.1\r\n\r\n'


class Refusing:
    """Runs of the program in which the allocation with a number is refused, none where it is 0."""

    def __init__(self, folder):
        self.folder = folder
        source, self.library = os.path.join(folder, 'refuse.c'), os.path.join(folder, 'refuse.so')
        with open(source, 'w') as text:
            text.write(REFUSE)
        subprocess.run(['cc', '-shared', '-fPIC', '-o', self.library, source, '-ldl'], check=True)

    def start(self, at, words):
        env = {PRELOAD: self.library, 'REFUSE': str(at), 'COUNT': os.path.join(self.folder, 'count') if at == 0 else ''}
        return subprocess.Popen([PROGRAM, *words], cwd=DATA, env=env, stdout=subprocess.PIPE, stderr=subprocess.PIPE)

    def count(self):
        with open(os.path.join(self.folder, 'count'), 'rb') as number:
            return int.from_bytes(number.read(), sys.byteorder)

    def diagnose(self, at):
        with open(os.path.join(DATA, '..', 'args')) as words:
            run = self.start(at, words.read().split())
        out, err = run.communicate(timeout=60)
        return run.returncode, out, err

    def serve(self, at, store, asked):
        """The status, what was written and what was sent over the one connection, None where nothing was served."""
        run = self.start(at, ['serve', str(free_port()), '1', '1', store])
        line = run.stdout.readline()
        sent = None
        if line.startswith(b'serving '):
            sent = exchange(int(line.split()[1]), asked)
        out, err = run.communicate(timeout=60)
        return run.returncode, line + out, err, sent


def exchange(port, asked):
    got = b''
    with connect(port) as s:
        try:
            s.sendall(asked)
            s.shutdown(socket.SHUT_WR)
            while piece := s.recv(1 << 16):
                got += piece
        except OSError:
            # The session had no memory, and the connection is closed unread.
            pass
    return got


def replies(sent):
    """The status and the body of each reply."""
    found = []
    while sent:
        head, _, rest = sent.partition(b'\r\n\r\n')
        length = int(head.split(b'Content-Length: ')[1].split(b'\r\n')[0])
        found.append((int(head.split()[1]), rest[:length]))
        sent = rest[length:]
    return found


def diagnosed(refusing, report, at):
    status, out, err = refusing.diagnose(at)
    if err:
        return None
    return {(8, b'memory\n'): 'memory', (0, report): 'whole'}.get((status, out))


def served(refusing, whole, at):
    store = os.path.join(refusing.folder, 'store%d' % at)
    status, lines, err, sent = refusing.serve(at, store, PUT + LOOK)
    got = [] if sent is None else replies(sent)
    there = [answer for answer, _ in replies(refusing.serve(0, store, LOOK)[3])] == [200]
    os.remove(store)
    if err or there != (got[:1] == whole[:1]):
        return None
    if status == 0 and got == whole:
        return 'whole'
    if status == 0 and got in ([(507, b'memory\n')], [whole[0], (507, b'memory\n')]):
        return '507'
    if not got and (status, lines.splitlines()[-1:]) in ((8, [b'memory']), (10, [b'street fault'])):
        return {8: 'memory', 10: 'street'}[status]
    return None


def each(last, end_of, what, told):
    """How many of the runs come to each end."""
    ends = {}
    with concurrent.futures.ThreadPoolExecutor(os.cpu_count()) as pool:
        for at, end in zip(range(1, last + 1), pool.map(end_of, range(1, last + 1))):
            if end is None:
                pool.shutdown(cancel_futures=True)
                sys.exit('%s, allocation %d refused: %s' % (what, at, told(at)))
            ends[end] = ends.get(end, 0) + 1
    return ends


def main():
    with tempfile.TemporaryDirectory() as folder:
        refusing = Refusing(folder)
        status, report, _ = refusing.diagnose(0)
        if status != 0 or report != stored('../stdout'):
            sys.exit('diagnose ends with %d' % status)
        of_diagnose = refusing.count()
        first = each(of_diagnose, lambda at: diagnosed(refusing, report, at), 'diagnose', refusing.diagnose)

        status, lines, _, sent = refusing.serve(0, os.path.join(folder, 'store'), PUT + LOOK)
        of_serve = refusing.count()
        whole = replies(sent)
        if status != 0 or [answer for answer, _ in whole] != [201, 200] or not lines.endswith(b'sessions 1 deeds 1\n'):
            sys.exit('serve ends with %d: %s' % (status, whole))
        second = each(of_serve, lambda at: served(refusing, whole, at), 'serve',
                      lambda at: refusing.serve(at, os.path.join(folder, 'again%d' % at), PUT + LOOK))
        print('%d allocations of diagnose, each refused once: %d end with memory, %d with the report; %d of a session: %d end with memory, '
              '%d with a 507 and no deed of it, %d with a street fault, %d with all replies'
              % (of_diagnose, first.get('memory', 0), first.get('whole', 0), of_serve, second.get('memory', 0), second.get('507', 0),
                 second.get('street', 0), second.get('whole', 0)))


if __name__ == '__main__':
    main()
