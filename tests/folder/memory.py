#!/usr/bin/env python3
"""Indexes and adds lines with little memory, so that they become several segments. The answers must be those of a plain
reading of the lines, the segments must end where FOLDER says, and a refused input must leave the folder as it was. Of a
large input, and of a merge, it measures the peak memory, which must stay within what FOLDER says.

    memory.py          as the gate runs it
    memory.py SMALL    without the large input, for an unproved program"""
import json
import os
import random
import subprocess
import sys

sys.dont_write_bytecode = True
HERE = os.path.dirname(os.path.abspath(__file__))
sys.path.insert(0, HERE)
import users
from users import Failed

SCHEMA = 'store_source = true\n\n[[field]]\nname = "body"\ntype = "text"\n\n[[field]]\nname = "n"\ntype = "u64"\n'
MULTIPLE = 5  # bytes of memory for each byte of lines
WORDS = ['sea', 'bird', 'old', 'man', 'sail', 'storm', 'gull', 'wind']
LARGE, LARGE_SIZE = 200_000_000, 128_000_000
SPARE = 64_000_000  # of the program itself, and of freed memory that the allocator keeps


class User(users.User):
    """A user whose lines are in files."""

    def wants(self, words, out, status=0, err=''):
        """Runs the program, and checks its status and how its output begins."""
        done = self.run(*words)
        told = done.stdout.decode()
        if done.returncode != status or not told.startswith(out) or err not in done.stderr.decode():
            raise Failed(f'{words}: status {done.returncode}, {told[:300]!r}, {done.stderr[-300:]!r}; wanted {status}, {out[:300]!r}, {err!r}')
        return told

    def write(self, name, lines):
        with open(os.path.join(self.room, name), 'w', encoding='utf-8') as file:
            file.writelines(lines)

    def files(self, folder):
        """Returns the bytes of each file of a folder."""
        path, found = os.path.join(self.room, folder), {}
        for name in sorted(os.listdir(path)) if os.path.isdir(path) else ():
            with open(os.path.join(path, name), 'rb') as file:
                found[name] = file.read()
        return found


def documents(dice, count, first):
    """Returns random documents, each as the words of its text and its number."""
    return [([dice.choice(WORDS) for _ in range(dice.randrange(1, 9))], first + place) for place in range(count)]


def line_of(doc):
    return json.dumps({'body': ' '.join(doc[0]), 'n': doc[1]}) + '\n'


def num_segments(lines, size):
    """Returns how many segments lines become: a line that doesn't fit the bytes of a segment is in the next one."""
    most, many, taken = size // MULTIPLE, 0, None
    for line in lines:
        if taken is None or taken + len(line) > most:
            many, taken = many + 1, 0
        taken += len(line)
    return many


def holds(user, folder, docs, segments):
    """Checks the answers of a folder by a plain reading of its documents, and its number of segments."""
    told = user.wants(['stats', folder], '')
    if told.split()[:4] != [str(len(docs)), 'documents', str(segments), 'segments']:
        raise Failed(f'stats {folder}: {told[:80]!r}; wanted {len(docs)} documents, {segments} segments')
    if not user.wants(['check', folder], f'{len(docs)} documents; each file is as it was saved\n').endswith('\n0 damages\n'):
        raise Failed(f'check {folder}: damages')
    for word in WORDS:
        of = [(place, words) for place, (words, _) in enumerate(docs) if word in words]
        rows = ''.join(f'{place} {words.count(word)} {" ".join(str(i) for i, w in enumerate(words) if w == word)}\n' for place, words in of)
        user.wants(['postings', folder, 'body', word, '--positions'], rows, 0 if of else 1)
        found = sum(word in words or 'sea' in words for words, _ in docs)
        user.wants(['search', folder, f'{word} OR sea', '--count'], f'{found}\n', 0 if found else 1)
    low, high = len(docs) // 3, len(docs) // 2
    found = [place for place, (_, n) in enumerate(docs) if low <= n <= high]
    user.wants(['search', folder, f'n:[{low} TO {high}]'], ''.join(f'{place}\n' for place in found), 0 if found else 1)
    user.wants(['search', folder, f'n:[{low} TO {high}]', '--source'], ''.join(line_of(docs[place]) for place in found), 0 if found else 1)


def session(user, dice, size):
    """Indexes and adds random lines with a size of memory."""
    docs = documents(dice, dice.randrange(1, 200), 0)
    lines = [line_of(doc) for doc in docs]
    user.write('lines.jsonl', lines)
    user.wants(['index', 'session', '--schema', 'schema.toml', '--memory', f'{size}B', 'lines.jsonl'], f'{len(docs)} documents indexed\n')
    segments = num_segments(lines, size)
    holds(user, 'session', docs, segments)
    more = documents(dice, dice.randrange(1, 100), len(docs))
    lines = [line_of(doc) for doc in more]
    user.write('more.jsonl', lines)
    # what is refused leaves everything as it was
    user.write('bad.jsonl', lines + ['{"body": 1}\n'])
    before = user.files('session')
    for words in (['add', 'session'], ['index', 'session', '--schema', 'schema.toml']):
        user.wants(words + ['--memory', f'{size}B', 'bad.jsonl'], '', 1, 'nothing is indexed')
        if user.files('session') != before:
            raise Failed(f'{words}, which was refused, changed {before.keys()} to {user.files("session").keys()}')
    user.wants(['add', 'session', '--no-merge', '--memory', f'{size}B', 'more.jsonl'], f'{len(more)} documents added\n')
    holds(user, 'session', docs + more, segments + num_segments(lines, size))
    user.wants(['merge', 'session'], '')
    holds(user, 'session', docs + more, 1)


def refused(user):
    """Checks sizes that are none, a refused input in a folder that doesn't exist, and a line of more than the size."""
    for size in ('', '5', 'MB', '1.5MB', '-1MB', '1 MB', '5mb', '5TB', '99999999999GB'):
        user.wants(['index', 'none', '--schema', 'schema.toml', f'--memory={size}', 'lines.jsonl'], '', 2, f'--memory {size}: expected')
    user.write('bad.jsonl', [line_of((['sea'], 1))] * 10 + ['{}}\n'])
    user.wants(['index', 'new', '--schema', 'schema.toml', '--memory', '1B', 'bad.jsonl'], '', 1, 'nothing is indexed')
    if user.files('new') != {'lock': b''}:
        raise Failed(f'a refused input left {user.files("new").keys()}')
    docs = [(['sea'] * many, place) for place, many in enumerate((1, 1, 2000, 1, 1))]
    lines = [line_of(doc) for doc in docs]
    user.write('long.jsonl', lines)
    user.wants(['index', 'new', '--schema', 'schema.toml', '--memory', '1KB', 'long.jsonl'], '5 documents indexed\n')
    holds(user, 'new', docs, 3)
    user.write('none.jsonl', ['\n'])
    user.wants(['index', 'new', '--schema', 'schema.toml', '--memory', '1B', 'none.jsonl'], '0 documents indexed\n')
    user.wants(['stats', 'new'], f'{0:>12} documents\n{1:>12} segments\n')


def settled(user):
    """Checks that an add merges as much as its memory allows, and no more."""
    docs = [(['sea'], place) for place in range(40)]
    for size, segments in (('1KB', 6), ('512MB', 1)):
        user.write('few.jsonl', [line_of(doc) for doc in docs[:20]])
        user.wants(['index', 'settled', '--schema', 'schema.toml', 'few.jsonl'], '20 documents indexed\n')
        for first in range(20, 40, 4):
            user.write('few.jsonl', [line_of(doc) for doc in docs[first:first + 4]])
            user.wants(['add', 'settled', '--memory', size, 'few.jsonl'], '4 documents added\n')
        if size == '512MB':
            user.write('few.jsonl', [line_of(doc) for doc in docs])
            user.wants(['add', 'settled', '--memory', size, 'few.jsonl'], '40 documents added\n')
        holds(user, 'settled', docs if size == '1KB' else docs + docs, segments)
    exactly_settled(user, docs[:4])
    padded(user, docs[:4])


def has_segments(user, folder, segments):
    """Checks how many segments an index has."""
    told = user.wants(['stats', folder], '').split()
    if told[2] != str(segments):
        raise Failed(f'{folder}: {told[2]} segments; wanted {segments}')


def exactly_settled(user, docs):
    """Checks that two segments are merged whose files, but for the stored lines, have exactly half of the memory."""
    user.write('few.jsonl', [line_of(doc) for doc in docs])
    index = ['index', 'exact', '--schema', 'schema.toml', 'few.jsonl']
    user.wants(index, '4 documents indexed\n')
    loaded = sum(len(data) for name, data in user.files('exact').items() if '.' in name and not name.endswith('.store'))
    for size, segments in ((4 * loaded - 1, 2), (4 * loaded, 1)):
        user.wants(index, '4 documents indexed\n')
        user.wants(['add', 'exact', '--memory', f'{size}B', 'few.jsonl'], '4 documents added\n')
        has_segments(user, 'exact', segments)


def padded(user, docs):
    """Checks that stored lines don't count for what is merged, by lines of 3 KB with one word each."""
    user.write('few.jsonl', ['{' + ' ' * 3_000 + line_of(doc)[1:] for doc in docs])
    user.wants(['index', 'padded', '--schema', 'schema.toml', '--memory', '62KB', 'few.jsonl'], '4 documents indexed\n')
    for segments in (1, 2, 1):
        user.wants(['add', 'padded', '--memory', '62KB', 'few.jsonl'], '4 documents added\n')
        has_segments(user, 'padded', segments)
    stored = sum(len(data) for name, data in user.files('padded').items() if name.endswith('.store'))
    if stored < 48_000:
        raise Failed(f'only {stored} bytes of lines are stored')


def bounded(user, dice):
    """Indexes, adds and merges a large input, and measures the memory."""
    words = [''.join(dice.choice('abcdefghijklmnop') for _ in range(dice.randrange(2, 10))) for _ in range(50_000)]
    block, size = [], 0
    while size < LARGE // 10:
        block.append(json.dumps({'body': ' '.join(words[int(len(words) * dice.random() ** 3)] for _ in range(100)), 'n': len(block)}) + '\n')
        size += len(block[-1])
    with open(os.path.join(user.room, 'large.jsonl'), 'w', encoding='utf-8') as file:
        for _ in range(10):
            file.writelines(block)
    many = 10 * len(block)
    options = ['--memory', f'{LARGE_SIZE // 1_000_000}MB', 'large.jsonl']
    peaks = [peak(user, ['index', 'large', '--schema', 'schema.toml', *options]), peak(user, ['add', 'large', *options])]
    if max(peaks) > LARGE_SIZE + SPARE:
        raise Failed(f'{LARGE} bytes of lines took {peaks} bytes of memory; --memory said {LARGE_SIZE}')
    # Their bytes aren't read here: a child's peak is at least the memory of the program that starts it.
    paths = [os.path.join(user.room, 'large', name) for name in os.listdir(os.path.join(user.room, 'large'))]
    stored = sum(os.path.getsize(path) for path in paths if path.endswith('.store'))
    size = sum(map(os.path.getsize, paths)) - stored
    merged = peak(user, ['merge', 'large'])
    if merged > 1.25 * size + SPARE:
        raise Failed(f'merging an index of {size} bytes, and {stored} of lines, took {merged} bytes of memory')
    user.wants(['search', 'large', '*', '--count'], f'{2 * many}\n')
    return max(peaks), merged / size


def peak(user, command):
    """Runs the program, and returns the most memory that it took."""
    run = subprocess.Popen([user.program, *command], cwd=user.room, stdout=subprocess.DEVNULL, stderr=subprocess.DEVNULL)
    _, status, usage = os.wait4(run.pid, 0)
    run.returncode = os.waitstatus_to_exitcode(status)
    if run.returncode != 0:
        raise Failed(f'{command}: status {run.returncode}')
    return usage.ru_maxrss << 10


def little_memory(user):
    """Goes through all of it. Returns what was seen."""
    dice, small = random.Random(41), len(sys.argv) > 1
    user.write('schema.toml', [SCHEMA])
    user.write('lines.jsonl', [])
    refused(user)
    settled(user)
    for size in (1, 400, 2_000, 20_000, 1_000_000) * (1 if small else 5):
        session(user, dice, size)
    if small:
        return 'lines with little memory'
    lines, merged = bounded(user, dice)
    return f'lines with little memory; {LARGE / 1e6:.0f} MB of them took {lines / 1e6:.0f} MB, a merge {merged:.2f} bytes for each byte of the index without its lines'


sys.exit(users.judged(little_memory, User, 300))
