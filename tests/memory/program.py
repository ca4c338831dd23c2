#!/usr/bin/env python3
"""Runs the program and lets each allocation fail in turn. Each line must be the right one, or `error 1` as
the last line. If indexing failed, each lookup prints `error 1`."""
import os
import sys
import tempfile

sys.dont_write_bytecode = True
sys.path.insert(0, os.path.dirname(os.path.dirname(os.path.abspath(__file__))))
import refusing

# The number of last lines that answer lookups, and an index call after a lookup.
LOOKED_UP = 6


def is_part(lines, wanted):
    """Returns whether the lines are the wanted ones, or a prefix of them followed by a final `error 1`."""
    return lines == wanted or lines[-2:] == [b'error 1', b''] and lines[:-2] == wanted[:len(lines) - 2]


def is_lawful(got, right):
    """Returns whether the lines are right, or those of a run whose indexing failed, up to a final `error
    1`."""
    lines, wanted = got.split(b'\n'), right.split(b'\n')
    first = len(wanted) - 1 - LOOKED_UP
    refused = [b'error 1' if line not in (b'error line', b'') and place >= first else line for place, line in enumerate(wanted)]
    return is_part(lines, wanted) or is_part(lines, refused)


def main():
    if not refusing.build('iiq'):
        print('tests/memory: the program was not built')
        return 1
    with open(os.path.join(refusing.TOP, 'crates', 'iiq', 'stdin'), 'rb') as f:
        text = f.read()
    with open(os.path.join(refusing.TOP, 'crates', 'iiq', 'stdout'), 'rb') as f:
        right = f.read()
    os.dup2(2, 3)
    with tempfile.TemporaryDirectory() as folder:
        library = refusing.shim(folder)
        for refused in range(1, 100000):
            done, was_refused = refusing.run('iiq', text, library, refused, folder)
            status = 1 if any(line.startswith(b'error') for line in done.stdout.split(b'\n')) else 0
            if done.stderr or done.returncode != status or not is_lawful(done.stdout, right):
                print(f'tests/memory: allocation {refused} refused: status {done.returncode}, {done.stdout!r}')
                return 1
            if not was_refused:
                print(f'tests/memory: {refused - 1} allocations of the program refused in turn')
                return 0 if refused > 1 else 1
    return 1


sys.exit(main())
