#!/usr/bin/env python3
"""Runs the program and lets each read of its input and each write of its output fail in turn. After a failed
read it must write nothing; after a failed write its output must be a prefix of the right lines. In both cases
it must end with status 2. If the allocation of its buffer fails, each answer is a separate write, and none
follows a failed one."""
import os
import sys
import tempfile

sys.dont_write_bytecode = True
sys.path.insert(0, os.path.dirname(os.path.dirname(os.path.abspath(__file__))))
import refusing

# Lines of each kind, and their answers.
LINES = b'ids 0 2 10\ntext 0 a b a\nleaf 0 n i 5\n? text p a\n? leaf p n i 5\nids 1 0\n'
ANSWERS = (b'808288\n0 2 10\n', b'0:2:0,2\n', b'0:1:\n', b'error line\n')


def is_lawful(done, most, right, was_refused):
    """Returns whether a run without a failed call is right, and any other wrote a prefix of `most` and ended
    with status 2."""
    if not was_refused:
        return done.stdout == right and done.returncode == 1
    return done.returncode == 2 and most.startswith(done.stdout)


def failed_calls(variable, text, right, most, library, folder):
    """Returns how many calls failed in turn, or None if a failure wasn't reported."""
    for call in range(1, 100000):
        done, was_refused = refusing.run('iiq', text, library, call, folder, variable)
        if done.stderr or not is_lawful(done, most, right, was_refused):
            print(f'tests/calls: {variable}={call}: status {done.returncode}, {done.stdout!r}, {done.stderr!r}')
            return None
        if not was_refused:
            return call - 1
    return None


def failed_answers(calls, memory, folder):
    """Returns how many unbuffered writes of answers failed in turn, or None if one wasn't reported or was
    written."""
    for call in range(1, len(ANSWERS) + 2):
        done, refused = refusing.run('iiq', LINES, f'{calls}:{memory}', call, folder, 'FAIL_WRITE', REFUSE='1')
        fails = call <= len(ANSWERS)
        wanted = b''.join(ANSWERS[:call - 1]), b'', 2 if fails else 1, 2 if fails else 1
        if (done.stdout, done.stderr, done.returncode, refused) != wanted:
            print(f'tests/calls: FAIL_WRITE={call} without a buffer: status {done.returncode}, {done.stdout!r}, {done.stderr!r}, {refused} refused')
            return None
    return len(ANSWERS)


def main():
    if not refusing.build('iiq'):
        print('tests/calls: the program was not built')
        return 1
    with open(os.path.join(refusing.TOP, 'crates', 'iiq', 'stdin'), 'rb') as f:
        text = f.read()
    with open(os.path.join(refusing.TOP, 'crates', 'iiq', 'stdout'), 'rb') as f:
        right = f.read()
    # enough lines before it for several reads and writes
    text = b'ids 0 2 10\n' * 2000 + text
    right = b'808288\n0 2 10\n' * 2000 + right
    os.dup2(2, 3)
    with tempfile.TemporaryDirectory() as folder:
        library = refusing.shim(folder, 'calls/fail.c')
        reads = failed_calls('FAIL_READ', text, right, b'', library, folder)
        writes = failed_calls('FAIL_WRITE', text, right, right, library, folder)
        answers = failed_answers(library, refusing.shim(folder), folder)
    if not reads or not writes or not answers:
        return 1
    print(f'tests/calls: {reads} reads and {writes} writes of the program failed in turn, and {answers} answers without a buffer')
    return 0


sys.exit(main())
