#!/usr/bin/env python3
"""Runs commands into files that take so many bytes and no more, for each number of bytes.

    tests/cut_output.py PROGRAM

Where the file takes all that is due, the command ends with its own status; where it takes less, with 6, and the file has the front of it that fits.
What is due is that of tests/rows/table, in whose folder the commands run. The last line tells how many runs were compared and how many were wrong.
"""
import os
import resource
import subprocess
import sys
import tempfile

C17 = ['c17.bench', 'none.scan', 'one.pat', 'none.csv']


def contents(name):
    with open(name, 'rb') as file:
        return file.read()


def commands():
    """Words, the status, and what is written: a report, the counts of a design, and the lines of files that are absent and can't be read."""
    yield ['diagnose', 'c17', 'D1', *C17, 'a.log', 'copy.log'], 0, contents('a.expected')
    yield ['check', *C17], 0, contents('check.expected')
    yield ['check', 'gone', *C17[1:]], 4, b'gone absent\n'
    yield ['check', *C17[:2], '.', C17[3]], 5, b'. fault\n'


def outcome(program, words, size, name):
    """The status of a run into a file that takes so many bytes, and what the file has then."""
    with open(name, 'wb') as file:
        ended = subprocess.run([program, *words], stdout=file, timeout=60, restore_signals=False,
                               preexec_fn=lambda: resource.setrlimit(resource.RLIMIT_FSIZE, (size, size)))
    return ended.returncode, contents(name)


def main():
    program = os.path.abspath(sys.argv[1])
    runs = wrong = 0
    with tempfile.TemporaryDirectory() as room:
        for words, status, text in commands():
            for size in range(len(text) + 1):
                due = status if size == len(text) else 6, text[:size]
                came = outcome(program, words, size, os.path.join(room, 'written'))
                runs += 1
                if came != due:
                    wrong += 1
                    print(f'{" ".join(words)}, {size} bytes: ended with {came}, {due} was due')
    print(f'{runs} runs into files that take so many bytes, {wrong} wrong')
    sys.exit(1 if wrong else 0)


if __name__ == '__main__':
    main()
