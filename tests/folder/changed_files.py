#!/usr/bin/env python3
"""Changes the files of an index while a search reads ranges of them. The process is stopped before some of its reads; then a file
is cut, lengthened, overwritten, removed or replaced, and the process goes on. The search must answer as before, or name the file
as damaged or missing. So must it if each read is short, or interrupted once, and of a file that is far too long."""
import json
import os
import random
import signal
import subprocess
import sys

sys.dont_write_bytecode = True
HERE = os.path.dirname(os.path.abspath(__file__))
sys.path.insert(0, HERE)
import users
from users import Failed

DOCS = 6_000
SCHEMA = '[[field]]\nname = "body"\ntype = "text"\n'
QUERIES = (('search', 'index', 'w5', '--count'), ('search', 'index', '"w1 w2" OR w900', '--top', '3'))
KINDS = {'term': 'terms', 'idx': 'postings', 'pos': 'positions', 'norm': 'field norms'}
HUGE = 2 ** 40


def index_of(user):
    """Indexes lines in two segments."""
    chosen = random.Random(5)
    lines = [json.dumps({'body': ' '.join(f'w{min(int(chosen.expovariate(0.003)), 4999)}' for _ in range(30))}) for _ in range(DOCS)]
    user.write('schema.toml', SCHEMA)
    user.wants(['index', 'index', '--schema', 'schema.toml'], 0, given='\n'.join(lines[:DOCS // 2]).encode())
    user.wants(['add', 'index', '--no-merge'], 0, given='\n'.join(lines[DOCS // 2:]).encode())


def preloaded(user):
    """Compiles what changes the reads."""
    library = user.path('reading.so')
    done = subprocess.run(['cc', '-O1', '-shared', '-fPIC', '-nostdlib', '-fno-builtin', '-o', library, os.path.join(HERE, 'reading.c')], stderr=subprocess.PIPE)
    if done.returncode != 0:
        raise Failed(done.stderr.decode())
    return library


def start(user, library, words, **settings):
    """Starts a search with the library before the C library, by a shell that opens descriptor 3."""
    user.runs += 1
    loaded = {**os.environ, **{name: str(value) for name, value in settings.items()}}
    return subprocess.Popen(['sh', '-c', 'exec 3>reads && LD_PRELOAD="$0" exec "$@"', library, user.program, *words],
                            stdout=subprocess.PIPE, stderr=subprocess.PIPE, cwd=user.room, env=loaded)


def ended(user, process):
    """Returns the status and the outputs of a search."""
    out, err = process.communicate(timeout=user.timeout)
    return process.returncode, out, err


def num_reads(user):
    return os.path.getsize(user.path('reads'))


def changes(text, other):
    """Yields what is done to a file with these bytes, each with a name."""
    def put(path, bytes_):
        with open(path, 'r+b') as file:
            file.write(bytes_)
            file.truncate()

    def replace(path, bytes_):
        with open(path + '.tmp', 'wb') as file:
            file.write(bytes_)
        os.rename(path + '.tmp', path)

    yield 'cut', lambda path: os.truncate(path, len(text) // 2)
    yield 'emptied', lambda path: os.truncate(path, 0)
    yield 'lengthened', lambda path: os.truncate(path, HUGE)
    yield 'overwritten', lambda path: put(path, bytes(byte ^ 1 for byte in text))
    yield 'removed', os.remove
    yield 'replaced', lambda path: replace(path, other)


def stopped_search(user, library, words, place, path, change):
    """Stops a search before a read, changes a file, and goes on. Returns its status and outputs, or None if it ended before."""
    process = start(user, library, words, PAUSE_AT=place)
    _, status = os.waitpid(process.pid, os.WUNTRACED)
    if not os.WIFSTOPPED(status):
        raise Failed(f'{words}: ended before read {place}')
    change(path)
    os.kill(process.pid, signal.SIGCONT)
    return ended(user, process)


def is_named(done, segment, what):
    """Returns whether a search named a file of a segment, or the segment, as damaged."""
    status, out, err = done
    said = (out + err).decode(errors='replace')
    return status == 1 and f'the file of {what} of segment {segment}' in said


def changed_while_read(user, library, dice):
    """Changes files at some reads of each query. Returns how many answers stayed, and how many named the file."""
    stayed = named = 0
    for words in QUERIES:
        before = ended(user, start(user, library, words))
        reads = num_reads(user)
        for segment in (0, 1):
            for kind, what in KINDS.items():
                path = user.path('index', f'{segment:016x}.{kind}')
                with open(path, 'rb') as file:
                    text = file.read()
                with open(user.path('index', f'{1 - segment:016x}.{kind}'), 'rb') as file:
                    other = file.read()
                for name, change in changes(text, other):
                    place = dice.randrange(1, reads + 1)
                    done = stopped_search(user, library, words, place, path, change)
                    with open(path + '.tmp', 'wb') as file:
                        file.write(text)
                    os.rename(path + '.tmp', path)
                    if done[:2] == before[:2]:
                        stayed += 1
                    elif name not in ('removed', 'replaced') and is_named(done, segment, what):
                        named += 1
                    else:
                        raise Failed(f'{words}, {what} of segment {segment} {name} before read {place} of {reads}: {done}, not {before[:2]}')
    return stayed, named


def odd_reads(user, library):
    """Has each read be short, or interrupted."""
    for words in QUERIES:
        before = ended(user, start(user, library, words))
        for settings in ({'SHORT': 1}, {'INTERRUPT': 1}, {'SHORT': 1, 'INTERRUPT': 1}):
            done = ended(user, start(user, library, words, **settings))
            if done[:2] != before[:2]:
                raise Failed(f'{words}, {settings}: {done}, not {before[:2]}')


def far_too_long(user):
    """Lengthens files of a segment to 2^40 bytes, which take no room on the disk. A command that reads the files complete must
    name the file without reading it, and so must `check`."""
    for kind, what in {**KINDS, 'count': 'counts'}.items():
        path = user.path('index', f'{0:016x}.{kind}')
        size = os.path.getsize(path)
        os.truncate(path, HUGE)
        said = f'the file of {what} of segment 0 has another length than meta says'
        if said not in user.wants(['check', 'index'], 1).decode():
            raise Failed(f'check: no {said}')
        for words in (['search', 'index', '--batch', '--count'], ['search', 'index', 'w29*', '--count'], ['terms', 'index', 'body'], ['fields', 'index']):
            done = user.run(*words, given=b'w5')
            told = (done.stdout + done.stderr).decode()
            if done.returncode not in (0, 1) or (done.returncode == 1 and said not in told):
                raise Failed(f'{words}, {what} of 2^40 bytes: status {done.returncode}, {told[:300]}')
        os.truncate(path, size)
    user.wants(['check', 'index'], 0)


def changed_files(user):
    index_of(user)
    library = preloaded(user)
    odd_reads(user, library)
    stayed, named = changed_while_read(user, library, random.Random(7))
    if named == 0:
        raise Failed('no change was seen')
    far_too_long(user)
    return f'of files that were changed while they were read, {stayed} answers stayed and {named} named the file'


if __name__ == '__main__':
    sys.exit(users.judged(changed_files))
