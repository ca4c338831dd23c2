#!/usr/bin/env python3
"""Runs `example`, which indexes texts, opens the index and looks up a word, and lets each allocation fail in
turn. It must print the right lines, or a prefix of them and then an allocation failure or the failure of its
writer, which writes to memory. `parts.py` covers an index of several fields."""
import os
import sys
import tempfile

sys.dont_write_bytecode = True
sys.path.insert(0, os.path.dirname(os.path.dirname(os.path.abspath(__file__))))
import refusing

# The messages of the crates, of a writer over memory, and of a growing value in the example itself.
REFUSALS = (b'Error: out of memory\n', b'Error: the writer failed\n', b'Error: memory allocation failed\n')


def is_lawful(done, right, was_refused):
    """Returns whether a run without a failed allocation is right, and any other prints a prefix of the lines
    and its error."""
    if not was_refused:
        return done.stdout == right and not done.stderr and done.returncode == 0
    lines = right.splitlines(keepends=True)
    begun = [b''.join(lines[:count]) for count in range(len(lines) + 1)]
    return done.stdout in begun and done.stderr in REFUSALS and done.returncode == 1


def main():
    if not refusing.build('example'):
        print('tests/memory: the example was not built')
        return 1
    with open(os.path.join(refusing.TOP, 'crates', 'example', 'stdout'), 'rb') as f:
        right = f.read()
    os.dup2(2, 3)
    with tempfile.TemporaryDirectory() as folder:
        library = refusing.shim(folder)
        for refused in range(1, 100000):
            done, was_refused = refusing.run('example', b'', library, refused, folder)
            if not is_lawful(done, right, was_refused):
                print(f'tests/memory: allocation {refused} of the example refused: status {done.returncode}, {done.stdout!r}, {done.stderr!r}')
                return 1
            if not was_refused:
                print(f'tests/memory: {refused - 1} allocations of the example refused in turn')
                return 0 if refused > 1 else 1
    return 1


sys.exit(main())
