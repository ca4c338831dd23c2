#!/usr/bin/env python3
"""Counts what a search for one word reads of an index, of one segment and of many: at most `MOST` bytes of the first segment for
each word, and `LATER` of each further one, in which the search begins where the last one has the word; beside `meta` and the
tables of blocks, however large the index is.

    reads.py              as the gate runs it
    reads.py LINES PARTS  an index of that many lines in that many segments; prints times too"""
import json
import os
import random
import subprocess
import sys
import time

sys.dont_write_bytecode = True
sys.path.insert(0, os.path.dirname(os.path.abspath(__file__)))
import users

BLOCK = 4_096
MOST = 40 * BLOCK
LATER = 20 * BLOCK
WORDS = 200_000
PER_LINE = 90
SCHEMA = '[[field]]\nname = "body"\ntype = "text"\n'
HERE = os.path.dirname(os.path.abspath(__file__))


def lines_of(count, seed):
    """Yields lines of words by Zipf's law."""
    chosen = random.Random(seed)
    for _ in range(count):
        yield json.dumps({'body': ' '.join(f'w{int(WORDS ** chosen.random())}' for _ in range(PER_LINE))}).encode() + b'\n'


def preloaded(user):
    """Compiles what counts the reads."""
    library = user.path('reads.so')
    done = subprocess.run(['cc', '-O1', '-shared', '-fPIC', '-nostdlib', '-fno-builtin', '-o', library, os.path.join(HERE, 'reads.c')], stderr=subprocess.PIPE)
    if done.returncode != 0:
        raise users.Failed(done.stderr.decode())
    return library


def read_by(user, library, *words):
    """Returns the output of a run, how many bytes it read, in how many reads, and the seconds of a run without counting."""
    begun = time.monotonic()
    user.run(*words)
    seconds = time.monotonic() - begun
    counted = 'exec 3>counts && LD_PRELOAD="$0" exec "$@"'
    done = subprocess.run(['sh', '-c', counted, library, user.program, *words], stdout=subprocess.PIPE, stderr=subprocess.PIPE, cwd=user.room, timeout=user.timeout)
    with open(user.path('counts'), 'rb') as counts:
        reads = [int(line) for line in counts.read().split()]
    return done.stdout, sum(reads), len(reads), seconds


def size_of(user):
    return sum(os.path.getsize(user.path('index', name)) for name in os.listdir(user.path('index')))


def tables_of(user):
    """Returns the bytes of `meta` and of the tables of blocks."""
    return sum(os.path.getsize(user.path('index', name)) for name in os.listdir(user.path('index')) if name == 'meta' or name.endswith('.blocks'))


def reads(user):
    """Indexes lines in segments, searches them, and counts."""
    count, parts = (int(word) for word in sys.argv[1:3]) if sys.argv[2:] else (30_000, 3)
    library = preloaded(user)
    user.write('schema.toml', SCHEMA)
    for part in range(parts):
        words = ['index', 'index', '--schema', 'schema.toml'] if part == 0 else ['add', 'index', '--no-merge']
        with open(user.path('lines'), 'wb') as file:
            file.writelines(lines_of(count // parts, part))
        user.wants([*words, 'lines', '--quiet'], 0)
    told, tables = [], tables_of(user)
    for query in ('w5000', 'w150000', 'nothing', 'w5000 OR w70000 OR w90000'):
        whole = json.loads(user.wants(['search', 'index', '--batch', '--count'], 0, given=query.encode()))['count']
        out, size, calls, seconds = read_by(user, library, 'search', 'index', query, '--count')
        if out != b'%d\n' % whole:
            raise users.Failed(f'{query}: {out!r}, the complete files have {whole}')
        terms = query.count(' OR ') + 1
        if size > terms * (MOST + (parts - 1) * LATER) + tables:
            raise users.Failed(f'{query}: {size} bytes read of {parts} segments')
        seconds = min([seconds] + [read_by(user, library, 'search', 'index', query, '--count')[3] for _ in range(3)])
        told.append(f'{query}: {whole} found, {size / 1e6:.2f} MB in {calls} reads, {1000 * seconds:.1f} ms')
    for line in told if sys.argv[1:] else ():
        print(line)
    return f'of {size_of(user) / 1e6:.1f} MB in {parts} segments, {told[0]}'


if __name__ == '__main__':
    sys.exit(users.judged(reads))
