#!/usr/bin/env python3
"""Runs the parts of `ii_allocation_tests` and lets each allocation fail in turn. Each line must be the right
one, except one that reports an allocation failure or the failure of its writer, which writes to memory."""
import os
import sys
import tempfile

sys.dont_write_bytecode = True
sys.path.insert(0, os.path.dirname(os.path.dirname(os.path.abspath(__file__))))
import refusing

REFUSALS = (b'out of memory', b'the writer failed')
WITHOUT_WRITER = (b'walk', b'loaded', b'located', b'placed', b'shifted', b'deletes', b'grown', b'terms', b'paths', b'index', b'gaps',
                  b'options', b'values', b'json', b'reset')


def may_say(name, line):
    """Returns whether a part may print this line after a failure. Parts that write no file must not report a
    writer."""
    return line in [name + b': ' + refusal for refusal in REFUSALS[:1 if name in WITHOUT_WRITER else 2]]


def refusals(got, right):
    """Returns how many lines report a failure, or None if a line is neither such a report nor right."""
    lines, wanted = got.split(b'\n'), right.split(b'\n')
    if len(lines) != len(wanted):
        return None
    others = [(line, want) for line, want in zip(lines, wanted) if line != want]
    for line, want in others:
        if not may_say(want.split(b':')[0], line):
            return None
    return len(others)


def main():
    if not refusing.build('ii_allocation_tests'):
        print('tests/memory: the parts were not built')
        return 1
    with open(os.path.join(refusing.TOP, 'crates', 'ii_allocation_tests', 'stdout'), 'rb') as f:
        right = f.read()
    os.dup2(2, 3)
    with tempfile.TemporaryDirectory() as folder:
        library = refusing.shim(folder)
        for refused in range(1, 100000):
            done, was_refused = refusing.run('ii_allocation_tests', b'', library, refused, folder)
            count = refusals(done.stdout, right)
            if done.stderr or done.returncode != 0 or count != (1 if was_refused else 0):
                print(f'tests/memory: allocation {refused} of the parts refused: status {done.returncode}, {done.stdout!r}')
                return 1
            if not was_refused:
                print(f'tests/memory: {refused - 1} allocations of the parts refused in turn')
                return 0 if refused > 1 else 1
    return 1


sys.exit(main())
