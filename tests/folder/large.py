#!/usr/bin/env python3
"""Runs `nequllpa` on large input: lists of 1,000 and 20,000 documents, so of many full blocks, 100 fields of which the
first has no words, queries of 128 clauses, a phrase of 20 words, a word of 10 kB, a line of 8 MB. The answers must be
those of a plain reading. Then bytes of each file change: `check` must name the file and count a damage. Last, each part
of a list of 1,000 documents changes, then the number of tokens and the norms: `check` must say which part of which
term is damaged, and nothing else. The damaged indexes are of version 1 and of version 3."""
import json
import os
import random
import sys

sys.dont_write_bytecode = True
HERE = os.path.dirname(os.path.abspath(__file__))
sys.path.insert(0, HERE)
import texts
import users
import versions
from users import Failed

DOCS = 20_000
FIELDS = 100
CLAUSES = 128
# The documents of the list that is damaged part by part, and its full blocks of 128.
LISTED = 1_000
BLOCKS = LISTED // 128
# The size of a skip entry of a list with positions, and what it has from which byte on: docs/FORMATS.md.
ENTRY = 12
LAST_DOC, WIDTH, COUNT_WIDTH, SUM, GREATEST = 0, 4, 5, 6, 11
FILES = {'term.0': 'terms', 'idx.0': 'postings', 'pos.0': 'positions', 'fieldnorm.0': 'field norms'}
# The same files in the only segment of an index of version 3.
SEGMENT_FILES = {'term.0': '0000000000000000.term', 'idx.0': '0000000000000000.idx', 'pos.0': '0000000000000000.pos', 'fieldnorm.0': '0000000000000000.norm'}


class User(users.User):
    """A user who searches bodies."""

    def finds(self, query, found, *more):
        """Searches the bodies, and checks the documents and their number."""
        self.wants(['search', 'folder', query, '--field', 'body', *more], 0 if found else 1, ''.join(f'{doc}\n' for doc in found))
        self.wants(['search', 'folder', query, '--field', 'body', '--count'], 0 if found else 1, f'{len(found)}\n')


def schema():
    """Returns a schema: a field that no line has, one of bodies, and others."""
    names = ['none', 'body'] + [f'f{number}' for number in range(FIELDS - 2)]
    return 'tokenizer = "ascii"\n\n' + ''.join(f'[[field]]\nname = "{name}"\ntype = "text"\n\n' for name in names)


def documents(chosen):
    """Returns lines of words: one in each line, one in each twentieth, and others at random; a long word, and a long line."""
    docs = []
    for number in range(DOCS):
        words = ['common'] * (1 + number % 3) + [f'w{chosen.randrange(400)}' for _ in range(8)]
        if number % 20 == 0:
            words += ['twentieth'] * (1 + number // 20 % 5)
        chosen.shuffle(words)
        docs.append({'body': ' '.join(words), f'f{number % (FIELDS - 2)}': 'x'})
    docs[7]['body'] += ' ' + ' '.join(f'p{number}' for number in range(20))
    docs[8]['body'] += ' ' + ' '.join(f'p{number}' for number in range(20) if number != 11)
    docs[11]['body'] += ' ' + 'l' * 10_000
    docs[13]['body'] = ' '.join(f'long{number % 50_000}' for number in range(800_000))
    return docs


def searches(user, lists, chosen):
    """Compares postings and searches with a plain filter."""
    for word in ('common', 'twentieth', 'w7', 'long123', 'l' * 10_000):
        rows = sorted(lists[word].items())
        user.wants(['postings', 'folder', 'body', word, '--positions'], 0, ''.join(f'{doc} {len(at)} {" ".join(map(str, at))}\n' for doc, at in rows))
        user.finds(word, [doc for doc, _ in rows])
    words = [f'w{number}' for number in chosen.sample(range(400), CLAUSES)]
    sets = [set(lists[word]) for word in words]
    user.finds(' OR '.join(words), sorted(set.union(*sets)))
    user.finds(' AND '.join(words), sorted(set.intersection(*sets)))
    user.finds('twentieth AND (' + ' OR '.join(words) + ')', sorted(set(lists['twentieth']) & set.union(*sets)))
    user.finds('common ' + ' '.join(f'-{word}' for word in words), sorted(set(lists['common']) - set.union(*sets)))
    user.finds('"' + ' '.join(f'p{number}' for number in range(20)) + '"', [7])
    both = [doc for doc, at in sorted(lists['common'].items()) if any(place + 1 in lists['twentieth'].get(doc, ()) for place in at)]
    user.finds('"common twentieth"', both)
    user.wants(['search', 'folder', 'none:common'], 1, '')
    user.wants(['search', 'folder', 'x', '--count'], 0, f'{DOCS}\n')


def path_of(user, folder, name, version):
    """Returns the path of a file of version 1, or of the file of the only segment of version 3 that has the same bytes."""
    return os.path.join(user.room, folder, SEGMENT_FILES[name] if version == 3 else name)


def damages(user, chosen, version):
    """Changes a byte of each file at several places. `check` must name the file, and no other."""
    of_segment = ' of segment 0' if version == 3 else ''
    for name, kind in FILES.items():
        path = path_of(user, 'folder', name, version)
        with open(path, 'rb') as file:
            whole = file.read()
        for place in [0, len(whole) - 1] + [chosen.randrange(len(whole)) for _ in range(4)]:
            changed = bytearray(whole)
            changed[place] ^= 1 << chosen.randrange(8)
            with open(path, 'wb') as file:
                file.write(changed)
            done = user.run('check', 'folder')
            said = f'folder: the file of {kind}{of_segment} has another checksum than meta says, bytes 0..{len(whole)}\n'
            others = [other for other in FILES.values() if other != kind and f'the file of {other}{of_segment} has another' in done.stdout.decode()]
            if done.returncode != 1 or not done.stdout.decode().startswith(said) or others:
                raise Failed(f'{name} changed at {place}: status {done.returncode}, {done.stdout[:300]!r}')
        with open(path, 'wb') as file:
            file.write(whole)


def counted(chosen):
    """Returns how often each of 1,000 documents among 3,000 has the word `sea`."""
    return {doc: 1 + chosen.randrange(3) for doc in chosen.sample(range(3 * LISTED), LISTED)}


class List:
    """Where the parts of the only list before `zero` are in the files: its skip entries, its blocks, the vints after them."""

    def __init__(self, postings, positions, counts):
        self.entries = 9
        assert postings[8] == 0x80 + BLOCKS * ENTRY, 'a skip list of one byte of length'
        self.blocks = [self.entries + BLOCKS * ENTRY]
        for block in range(BLOCKS):
            entry = self.entries + block * ENTRY
            self.blocks.append(self.blocks[-1] + 16 * ((postings[entry + WIDTH] & 31) + postings[entry + COUNT_WIDTH]))
        self.rest = LISTED - 128 * BLOCKS
        # distances and counts below 128 have one byte each
        self.end = self.blocks[-1] + 2 * self.rest
        deltas = sum(counts.values())
        widths = positions[1:1 + deltas // 128]
        self.positions_end = 1 + len(widths) + 16 * sum(widths) + deltas % 128

    def entry(self, block, part):
        return self.entries + block * ENTRY + part

    def counts_of(self, block, postings):
        """Returns where the packed counts of a block begin."""
        return self.blocks[block] + 16 * (postings[self.entry(block, WIDTH)] & 31)


def changes(where, files):
    """Yields changes of one byte: the file, the place, the byte, and the line that `check` must print."""
    postings, positions = files['idx.0'], files['pos.0']
    said = f'the file of postings, field body, term sea: damaged {{}}, bytes 8..{where.end}'
    skip, documents, frequencies = map(said.format, ('skip list', 'documents', 'frequencies'))
    of_positions = f'the file of positions, field body, term sea: damaged positions, bytes 0..{where.positions_end}'
    for name, place, byte, line in (
            ('idx.0', 8, postings[8] - 1, skip),
            ('idx.0', where.entry(3, COUNT_WIDTH), 33, skip),
            ('idx.0', where.entry(2, LAST_DOC), postings[where.entry(2, LAST_DOC)] ^ 1, documents),
            ('idx.0', where.blocks[4], postings[where.blocks[4]] ^ 1, documents),
            ('idx.0', where.blocks[-1], 0x80, documents),
            ('idx.0', where.entry(1, SUM), postings[where.entry(1, SUM)] ^ 1, frequencies),
            ('idx.0', where.entry(0, GREATEST), 2, frequencies),
            ('idx.0', where.counts_of(5, postings), postings[where.counts_of(5, postings)] ^ 1, frequencies),
            ('idx.0', where.end - 1, postings[where.end - 1] & 0x7f, frequencies),
            ('idx.0', where.end - 1, postings[where.end - 1] + 1, of_positions),
            ('pos.0', 0, positions[0] - 1, of_positions),
            ('pos.0', 0, 0xff, of_positions),
            ('pos.0', 3, 33, of_positions),
            ('pos.0', where.positions_end - 1, positions[where.positions_end - 1] & 0x7f, of_positions)):
        yield name, place, byte, line


def changed_norms(counts, chosen):
    """Yields changes of the norms of some documents, as `changes` does. A norm below 24 is the number of tokens itself. The
    norms of the first field, which has no words, come first."""
    for doc in (0, 3 * LISTED - 1, *chosen.sample(range(1, 3 * LISTED - 1), 3)):
        tokens, place = counts.get(doc, 0) + 1, 3 * LISTED + doc
        yield ('fieldnorm.0', place, tokens + 1, f'the file of field norms, field body: document {doc} has {tokens} tokens, but its norm is that of another '
               f'number, bytes {place}..{place + 1}')


def miscounts(files, tokens):
    """Yields changes of the number of tokens, by one less and one more, as `changes` does."""
    low = files['idx.0'][0]
    for byte in (low - 1, low + 1):
        told = tokens - low + byte
        yield 'idx.0', 0, byte, f'the file of postings, field body: the field counts {told} tokens, but its terms have {tokens}, bytes 0..8'


def list_parts(user, chosen, version):
    """Damages each part of a list of 1,000 documents in an index of a version, and looks at each line that `check` prints."""
    counts = counted(chosen)
    lines = [{'body': 'sea ' * counts.get(doc, 0) + 'zero'} for doc in range(3 * LISTED)]
    user.wants(['index', 'listed', '--schema', 'schema.toml'], 0, f'{len(lines)} documents indexed\n', given=''.join(json.dumps(line) + '\n' for line in lines).encode())
    if version == 1:
        versions.to_first(os.path.join(user.room, 'listed'))
    files = {}
    for name in FILES:
        with open(path_of(user, 'listed', name, version), 'rb') as file:
            files[name] = file.read()
    where = List(files['idx.0'], files['pos.0'], counts)
    segment = 'segment 0: ' if version == 3 else ''
    tried = 0
    for name, place, byte, line in [*changes(where, files), *miscounts(files, sum(counts.values()) + len(lines)), *changed_norms(counts, chosen)]:
        changed = bytearray(files[name])
        if changed[place] == byte:
            raise Failed(f'{name} at {place} has {byte} already')
        changed[place] = byte
        path = path_of(user, 'listed', name, version)
        with open(path, 'wb') as file:
            file.write(changed)
        done = user.run('check', 'listed')
        told = [said for said in done.stdout.decode().splitlines() if said.startswith(f'{segment}the file of ')]
        if done.returncode != 1 or told != [segment + line]:
            raise Failed(f'{name} changed at {place} to {byte}: status {done.returncode}, {done.stdout[:400]!r}; wanted {segment + line!r}')
        with open(path, 'wb') as file:
            file.write(files[name])
        tried += 1
    return tried


def many_blocks(user):
    """Goes through all of it. Returns what was seen."""
    chosen = random.Random(11)
    user.write('schema.toml', schema())
    docs = documents(chosen)
    given = ''.join(json.dumps(doc) + '\n' for doc in docs).encode()
    user.wants(['index', 'folder', '--schema', 'schema.toml'], 0, f'{DOCS} documents indexed\n', given=given)
    searches(user, texts.lists_of(docs, 'body'), chosen)
    for version in (3, 1):
        if version == 1:
            versions.to_first(user.path('folder'))
        damages(user, chosen, version)
        if not user.run('check', 'folder').stdout.decode().endswith('\n0 damages\n'):
            raise Failed('check: damages in a folder that was restored')
    tried = sum(list_parts(user, chosen, version) for version in (1, 3))
    return f'{DOCS} documents, {CLAUSES} clauses, a line of {max(len(doc["body"]) for doc in docs) >> 20} MB, {tried} damaged parts of a list'


sys.exit(users.judged(many_blocks, User, 300))
