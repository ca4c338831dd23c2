#!/usr/bin/env python3
"""Runs `nequllpa` as a user does. Indexes JSON lines of the machine's texts into a folder, searches and
inspects it, and compares the answers with a plain reading of the texts. Bad lines and schemas, damaged files,
a folder that can't be written, and one that is no index must give specific errors. Documents must be printed
with the positions of the query's words, and damage with its file, field, term, part and bytes.

    program.py            as the gate runs it, over the licences of the machine
    program.py MB         also over this many megabytes of the kit's sources, with times"""
import json
import os
import random
import resource
import shutil
import signal
import subprocess
import sys
import tempfile
import time

sys.dont_write_bytecode = True
sys.path.insert(0, os.path.dirname(os.path.abspath(__file__)))
sys.path.insert(0, os.path.join(os.path.dirname(os.path.dirname(os.path.dirname(os.path.abspath(__file__)))), 'tools'))
import programs
import texts
import versions

PROGRAM = 'nequllpa_cli'
FILES = {'schema': 'schema', 'term': 'terms', 'idx': 'postings', 'pos': 'positions', 'fieldnorm': 'field norms'}
# the options with which a search reads a file that it doesn't need else
READERS = {'count': ['--top', '1', '--explain'], 'norm': ['--top', '1']}
SEGMENT_FILES = {'term': 'terms', 'idx': 'postings', 'pos': 'positions', 'norm': 'field norms', 'count': 'counts'}


class Failed(Exception):
    """A result that differs from the expected one."""


class User:
    """A user who runs the program in a folder."""

    def __init__(self, program, folder):
        self.program, self.folder, self.runs = program, folder, 0

    def path(self, name):
        return os.path.join(self.folder, name)

    def write(self, name, text):
        with open(self.path(name), 'wb') as file:
            file.write(text if isinstance(text, bytes) else text.encode())
        return self.path(name)

    def run(self, *words, given=b'', before=None):
        self.runs += 1
        words = [word if isinstance(word, bytes) else str(word) for word in words]
        return subprocess.run([self.program, *words], input=given, stdout=subprocess.PIPE, stderr=subprocess.PIPE,
                              cwd=self.folder, preexec_fn=before, timeout=600)

    def wants(self, words, status, out=None, err=None, given=b'', before=None):
        """Runs the program and checks its status, its output, and that standard error contains `err`."""
        done = self.run(*words, given=given, before=before)
        told = f'{" ".join(map(str, words))}: status {done.returncode}, {done.stdout[-300:]!r}, {done.stderr[-300:]!r}'
        if done.returncode != status:
            raise Failed(f'{told}; wanted status {status}')
        if out is not None and done.stdout.decode() != out:
            raise Failed(f'{told}; wanted {out[-300:]!r}')
        if err is not None and err not in done.stderr.decode():
            raise Failed(f'{told}; wanted {err!r} on standard error')
        return done.stdout.decode()


def lines(docs):
    return ''.join(json.dumps(doc, ensure_ascii=False) + '\n' for doc in docs)


def numbers(found):
    return ''.join(f'{number}\n' for number in found)


def indexes(user, docs):
    """Indexes the documents from two files and from standard input: the index must be the same, and `check`
    and `stats` right."""
    schema = user.write('schema.toml', texts.SCHEMA)
    half = len(docs) // 2
    first, second = user.write('a.jsonl', lines(docs[:half])), user.write('b.jsonl', '\n' + lines(docs[half:]) + '  \n')
    user.wants(['index', 'folder', '--schema', schema, first, second], 0, f'{len(docs)} documents indexed\n')
    user.wants(['index', 'other', '--schema', schema], 0, f'{len(docs)} documents indexed\n', given=lines(docs).encode())
    for name in sorted(os.listdir(user.path('folder'))):
        with open(os.path.join(user.path('folder'), name), 'rb') as one, open(os.path.join(user.path('other'), name), 'rb') as two:
            if one.read() != two.read():
                raise Failed(f'{name} differs between two files and standard input')
    told = user.wants(['check', 'folder'], 0)
    if f'{len(docs)} documents; each file is as it was saved\n' not in told or '\n0 damages\n' not in told:
        raise Failed(f'check: {told!r}')
    stats = user.wants(['stats', 'folder'], 0)
    for kind, name in SEGMENT_FILES.items():
        size = os.path.getsize(os.path.join(user.path('folder'), f'{0:016x}.{kind}'))
        if f'{size:>12} bytes of {name}\n' not in stats:
            raise Failed(f'stats: no {size} bytes of {name} in {stats!r}')
    unicode = 'unicode = "18.0.0"\n'
    if f'{os.path.getsize(schema) + len(unicode):>12} bytes of schema\n' not in stats:
        raise Failed(f'stats: no bytes of the schema in {stats!r}')


def placed(lists, words, found):
    """Returns what `--positions` prints for documents: each with the words that occur in it and their
    positions."""
    row = lambda doc: [(word, lists[word][doc]) for word in words if doc in lists[word]]
    told = ''.join(f'{doc}{"".join(f"{chr(9)}body:{word} " + " ".join(map(str, at)) for word, at in row(doc))}\n' for doc in found)
    terms = lambda doc: [{'field': 'body', 'term': word, 'positions': at} for word, at in row(doc)]
    return told, ''.join(json.dumps({'doc': doc, 'terms': terms(doc)}, ensure_ascii=False, separators=(',', ':')) + '\n' for doc in found)


def tells_places(user, lists, words, query, found):
    """Checks the documents of a query with the positions of its words, as words and as JSON."""
    told, objects = placed(lists, words, found)
    user.wants(['search', 'folder', query, '--field', 'body', '--positions'], 0 if found else 1, told)
    user.wants(['search', 'folder', query, '--field', 'body', '--positions', '--json'], 0 if found else 1, objects)
    user.wants(['search', 'folder', query, '--field', 'body', '--json', '--limit', 3], 0 if found else 1, ''.join(f'{{"doc":{doc}}}\n' for doc in found[:3]))


def searches(user, docs, chosen):
    """Compares searches for words and pairs of words of a text field with a plain filter."""
    lists = texts.lists_of(docs, 'body')
    words = sorted(lists)
    picked = chosen.sample(words, min(40, len(words))) + sorted(words, key=lambda word: -len(lists[word]))[:10]
    for word in picked:
        found = sorted(lists[word])
        user.wants(['search', 'folder', f'body:{word}'], 0, numbers(found))
        user.wants(['search', 'folder', word, '--field', 'body', '--count'], 0, f'{len(found)}\n')
        user.wants(['search', 'folder', f'body:"{word}"', '--limit', 2], 0, numbers(found[:2]))
        postings = ''.join(f'{doc} {len(at)} {" ".join(map(str, at))}\n' for doc, at in sorted(lists[word].items()))
        user.wants(['postings', 'folder', 'body', word, '--positions'], 0, postings)
        user.wants(['postings', 'folder', 'body', word], 0, ''.join(f'{doc} {len(at)}\n' for doc, at in sorted(lists[word].items())))
        other = chosen.choice(picked)
        one, two = set(lists[word]), set(lists[other])
        for query, wanted in ((f'body:{word} AND body:{other}', one & two), (f'{word} OR {other}', one | two), (f'{word} AND -{other}', one - two)):
            user.wants(['search', 'folder', query, '--field', 'body'], 0 if wanted else 1, numbers(sorted(wanted)))
            if word in picked[::5]:
                tells_places(user, lists, [word] if '-' in query else [word, other], query, sorted(wanted))
    for word in chosen.sample(picked, 15):
        doc, places = chosen.choice(sorted(lists[word].items()))
        behind = [other for other in words if places[0] + 1 in lists[other].get(doc, ())]
        for other in behind[:1] + [word, chosen.choice(picked)]:
            found = [doc for doc in sorted(lists[word]) if any(place + 1 in lists[other].get(doc, ()) for place in lists[word][doc])]
            user.wants(['search', 'folder', f'body:"{word} {other}"'], 0 if found else 1, numbers(found))
            tells_places(user, lists, [word, other], f'"{word} {other}"', found)
    titles = texts.lists_of(docs, 'title')
    for word in chosen.sample(sorted(titles), min(5, len(titles))):
        anywhere = sorted(set(titles[word]) | set(lists.get(word, {})))
        user.wants(['search', 'folder', word], 0, numbers(anywhere))
        user.wants(['search', 'folder', word, '--field', 'title', '--field', 'body'], 0, numbers(anywhere))
    user.wants(['search', 'folder', 'nosuchword'], 1, '')
    user.wants(['search', 'folder', 'nosuchword', '--count'], 1, '0\n')
    user.wants(['postings', 'folder', 'body', 'nosuchword'], 1, '')
    by_key = sorted(lists, key=str.encode)
    user.wants(['terms', 'folder', 'body'], 0, ''.join(f'{len(lists[word])} {word}\n' for word in by_key))
    user.wants(['terms', 'folder', 'body', '--prefix', 'co'], 0, ''.join(f'{len(lists[word])} {word}\n' for word in by_key if word.startswith('co')))
    top = sorted(lists, key=lambda word: (-len(lists[word]), word.encode()))[:7]
    user.wants(['terms', 'folder', 'body', '--top', 7], 0, ''.join(f'{len(lists[word])} {word}\n' for word in top))


IDS = '''\
[[field]]
name = "id"
type = "u64"

[[field]]
name = "body"
type = "text"
'''


def ids(user):
    """Checks documents printed by the values of a field `id`."""
    schema = user.write('ids.toml', IDS)
    docs = [{'id': 70, 'body': 'old "sea"'}, {'body': 'the sea'}, {'id': [9, 5], 'body': 'sea, old sea'}]
    user.wants(['index', 'ids', '--schema', schema], 0, '3 documents indexed\n', 'lines that take about 512 MB of memory become a segment', given=lines(docs).encode())
    user.wants(['search', 'ids', 'sea', '--ids'], 0, '70\n-\n5\n')
    user.wants(['search', 'ids', 'sea -the', '--ids', '--positions'], 0, '70\tbody:sea 1\n5\tbody:sea 0 2\n')
    user.wants(['search', 'ids', 'sea', '--ids', '--json', '--limit', 2], 0, '{"doc":0,"id":"70"}\n{"doc":1,"id":null}\n')
    user.wants(['search', 'folder', 'nosuchword', '--ids'], 2, '', '--ids: the schema has no indexed field id')
    for settings, values, status, out, err in (
            ('"text"', ['doc12', 'b', 'a'], 0, 'doc12\nb\na\n', ''),
            ('"text"', ['doc-12', 'b', 'a'], 2, '', '--ids: document 0 has an id of several words'),
            ('"text"', ['b', ['c', 'd'], 'a'], 2, '', '--ids: document 1 has an id of several words'),
            ('"text"\nfieldnorms = false', ['c', 'b', 'a'], 2, '', '--ids: the field id has texts without fieldnorms'),
            ('"json"', ['c', 'b', 'a'], 2, '', '--ids: the field id has JSON values'),
            ('"u64"\nindexed = false', [1, 2, 3], 2, '', '--ids: the schema has no indexed field id'),
            ('"bool"', [True, False, None], 0, 'true\nfalse\n-\n', ''),
            ('"text"\nstored = true', ['doc-12 \u00e9', 'b', None], 0, 'doc-12 \u00e9\nb\n-\n', ''),
            ('"text"\nindexed = false\nstored = true', ['', ['c', 'd'], 'a'], 0, '-\n["c","d"]\na\n', ''),
            ('"u64"\nindexed = false\nstored = true', [1, [2, 3], 2 ** 64 - 1], 0, f'1\n[2,3]\n{2 ** 64 - 1}\n', ''),
            ('"date"\nstored = true', ['2026-11-29T01:00:00+01:00', None, '1970-01-01T00:00:00Z'], 0, '2026-11-29T01:00:00+01:00\n-\n1970-01-01T00:00:00Z\n', ''),
            ('"json"\nstored = true', [{'b': 1, 'a': None}, 'c', True], 0, '{"a":null,"b":1}\nc\ntrue\n', '')):
        schema = user.write('ids.toml', IDS.replace('"u64"', settings, 1))
        docs = [{'id': value, 'body': 'sea'} for value in values]
        user.wants(['index', 'ids', '--schema', schema], 0, '3 documents indexed\n', given=lines(docs).encode())
        user.wants(['search', 'ids', 'sea', '--ids'], status, out, err)
        if status == 0:
            names = [None if row == '-' else row for row in out.split('\n')[:-1]]
            rows = [json.loads(row) for row in user.run('search', 'ids', 'sea', '--ids', '--json').stdout.splitlines()]
            best = user.run('search', 'ids', 'sea', '--ids', '--top', 3).stdout.decode().splitlines()
            if rows != [{'doc': doc, 'id': name} for doc, name in enumerate(names)] or [row.split('\t')[0] for row in best] != out.split('\n')[:-1]:
                raise Failed(f'ids: {settings}: {rows}, {best}')
    user.write('ids.toml', IDS)
    user.wants(['search', 'folder', 'the', '--field', 'body', '--limit', 0], 0, '')
    user.wants(['search', 'folder', 'nosuchword', '--limit', 0], 1, '')
    user.wants(['search', 'folder', 'nosuchword', '--count', '--json'], 1, '{"count":0}\n')


def values(user, docs):
    """Compares searches for a value of each type with a plain filter over the documents."""
    name = texts.words_of(docs[0]['title'])[0]
    for query, has in (
            (f'number:{docs[3]["number"]}', lambda doc: doc['number'] == docs[3]['number']),
            ('change:"-9"', lambda doc: doc['change'] == -9),
            (f"mark:{docs[0]['mark'].upper()}", lambda doc: doc['mark'] == docs[0]['mark']),
            ('address:10.0.1.2', lambda doc: doc['address'] == '10.0.1.2'),
            ('address:"2001:DB8:0:0::2"', lambda doc: doc['address'] == '2001:db8::2'),
            ('address:["::ffff:10.0.1.0" TO 10.0.2.0}', lambda doc: doc['address'].startswith('10.0.1.')),
            ('address:>10.255.255.255', lambda doc: ':' in doc['address']),
            ('address:IN [10.0.1.2 "2001:db8::2" 10.0.1.20]', lambda doc: doc['address'] in ('10.0.1.2', '2001:db8::2')),
            ('is_long:true', lambda doc: doc['is_long']),
            (f'about.file.name:{name}', lambda doc: name in texts.words_of(doc['title'])),
            ('about.file.place:3', lambda doc: doc['about']['file']['place'] == 3),
            (r'about.odd\.key:true', lambda doc: doc['about']['odd.key'])):
        found = [number for number, doc in enumerate(docs) if has(doc)]
        user.wants(['search', 'folder', query], 0 if found else 1, numbers(found))
    for field, term, has in (
            ('number', str(docs[3]['number']), lambda doc: doc['number'] == docs[3]['number']),
            ('change', '-9', lambda doc: doc['change'] == -9),
            ('is_long', 'true', lambda doc: doc['is_long']),
            ('mark', docs[0]['mark'].upper(), lambda doc: doc['mark'] == docs[0]['mark']),
            ('address', '10.0.1.2', lambda doc: doc['address'] == '10.0.1.2'),
            ('address', '2001:DB8:0:0::2', lambda doc: doc['address'] == '2001:db8::2'),
            ('about', 'file.place i 3', lambda doc: doc['about']['file']['place'] == 3),
            ('about', r'odd\.key o true', lambda doc: doc['about']['odd.key'])):
        found = [number for number, doc in enumerate(docs) if has(doc)]
        told = user.wants(['postings', 'folder', field, term], 0 if found else 1)
        if [int(line.split()[0]) for line in told.splitlines()] != found:
            raise Failed(f'postings of {term} in {field}: {told!r}')
    told = user.wants(['fields', 'folder'], 0)
    tokens = sum(len(texts.positions_of(doc['body'])) for doc in docs)
    terms = len(texts.lists_of(docs, 'body'))
    for wanted in (f'1 body text position fieldnorms tokenizer ascii: {terms} terms, {tokens} tokens\n', '2 number u64 basic: ', '8 note text not indexed: 0 terms, 0 tokens\n',
                   '\n  file.name text: ', '\n  file.place i64: ', '\n  odd\\.key bool: 2 terms, '):
        if wanted not in told:
            raise Failed(f'fields: no {wanted!r} in {told!r}')
    shown = user.wants(['terms', 'folder', 'about', '--prefix', 'file.place i -'], 0)
    if shown:
        raise Failed(f'terms of about: {shown!r}')
    for wanted in ('10.0.1.2\n', '2001:db8::2\n'):
        if wanted not in user.wants(['terms', 'folder', 'address'], 0):
            raise Failed(f'terms of address: no {wanted!r}')


ADDRESSES = '[[field]]\nname = "addr"\ntype = "ip_addr"\n[[field]]\nname = "mark"\ntype = "bytes"\n'
DATES = 'tokenizer = "ascii"\n[[field]]\nname = "when"\ntype = "date"\n'
# the date of each document, as it is given and as it is printed: by RFC 3339, section 5.8, the first instants of 1990 and 2001, and the nanosecond before 1970
GIVEN_DATES = (
    ('1985-04-12T23:20:50.52Z', '1985-04-12T23:20:50.52Z'),
    ('1996-12-19T16:39:57-08:00', '1996-12-20T00:39:57Z'),
    ('1990-12-31T15:59:60-08:00', '1990-12-31T23:59:59Z'),
    ('1990-01-01T00:00:00Z', '1990-01-01T00:00:00Z'),
    ('2001-01-01T00:00:00.000000000Z', '2001-01-01T00:00:00Z'),
    ('1969-12-31T23:59:59.999999999Z', '1969-12-31T23:59:59.999999999Z'))
# the address and the bytes of each document, as they are given and as they are printed: in the order of their numbers 6, 0, 2, 4, 1, 3, 5; and of their bytes 5, 2, 0, 4, 1, 3, 6
GIVEN_ADDRESSES = (('::1', '::1', '00FF', '00ff'), ('10.0.0.9', '10.0.0.9', 'ab', 'ab'), ('9.255.255.255', '9.255.255.255', '00', '00'), ('10.0.0.10', '10.0.0.10', 'aB00', 'ab00'),
                   ('0:0:0:0:0:ffff:a00:1', '10.0.0.1', '0100', '0100'), ('2001:DB8::A', '2001:db8::a', '', ''), ('::', '::', 'fF', 'ff'))
BAD_DATES = ('"1990-01-01"', '"1990-01-01T00:00:00"', '"1990-02-30T00:00:00Z"', '"1677-09-21T00:12:43Z"', '"2262-04-12T00:00:00Z"', '"0"')


def addresses(user):
    """Checks that addresses are searched for in each spelling and between bounds, by their numbers, and bytes in the order of bytes."""
    schema = user.write('addresses.toml', ADDRESSES)
    user.wants(['index', 'addresses', '--schema', schema], 0, f'{len(GIVEN_ADDRESSES)} documents indexed\n', given=lines([{'addr': address, 'mark': mark} for address, _, mark, _ in GIVEN_ADDRESSES]).encode())
    for field, order, shown in (('addr', (6, 0, 2, 4, 1, 3, 5), 1), ('mark', (5, 2, 0, 4, 1, 3, 6), 3)):
        user.wants(['terms', 'addresses', field], 0, ''.join(f'1 {GIVEN_ADDRESSES[number][shown]}\n' for number in order))
        for place, number in enumerate(order):
            for text in GIVEN_ADDRESSES[number][shown - 1:shown + 1]:
                user.wants(['postings', 'addresses', field, text], 0, f'{number}\n')
                user.wants(['search', 'addresses', f'{field}:"{text}"'], 0, f'{number}\n')
                user.wants(['search', 'addresses', f'{field}:>="{text}"'], 0, numbers(sorted(order[place:])))
                user.wants(['search', 'addresses', f'{field}:["{text}" TO *}}'], 0, numbers(sorted(order[place:])))
    for query, found in (
            ('addr:10.0.0.9', [1]), ('addr:"::ffff:10.0.0.9"', [1]), ('addr:10.0.0.2', []), (r'addr:\:\:1', [0]), ('addr:*', range(7)),
            ('addr:[10.0.0.0 TO 10.0.0.255]', [1, 3, 4]), ('addr:{10.0.0.1 TO 10.0.0.10}', [1]), ('addr:["::ffff:0:0" TO "::ffff:ffff:ffff"]', [1, 2, 3, 4]), ('addr:{* TO "::1"}', [6]),
            ('addr:<=9.255.255.255', [0, 2, 6]), ('addr:>"::ffff:255.255.255.255"', [5]), ('addr:[10.0.0.10 TO 10.0.0.9]', []), ('addr:IN [10.0.0.1 "::" 10.0.0.2]', [4, 6]), ('* NOT addr:IN ["::1" "::"]', [1, 2, 3, 4, 5]),
            ('mark:00ff', [0]), ('mark:[00 TO ab]', [0, 1, 2, 4]), ('mark:{00 TO AB}', [0, 4]), ('mark:>ab', [3, 6]), ('mark:IN [FF "" 01]', [5, 6])):
        user.wants(['search', 'addresses', query], 0 if found else 1, numbers(found))
    for query, reason in (('addr:10.0.0', 'addr: expected an address like 10.0.0.1 or ::1'), ('addr:[10.0.0.1 TO x]', 'addr: expected an address like 10.0.0.1 or ::1'), ('addr:IN [1]', 'addr: expected an address like 10.0.0.1 or ::1'),
                          ('mark:abc', 'mark: expected pairs of hexadecimal digits'), ('mark:<=xy', 'mark: expected pairs of hexadecimal digits')):
        user.wants(['search', 'addresses', query], 2, '', f'field {reason}')


def dates(user):
    """Checks that a field of dates takes dates by RFC 3339, keeps their nanoseconds, and prints them in UTC."""
    schema = user.write('dates.toml', DATES)
    user.wants(['index', 'dates', '--schema', schema], 0, f'{len(GIVEN_DATES)} documents indexed\n', given=lines([{'when': given} for given, _ in GIVEN_DATES]).encode())
    user.wants(['terms', 'dates', 'when'], 0, ''.join(f'1 {shown}\n' for shown in sorted(shown for _, shown in GIVEN_DATES)))
    for number, (given, shown) in enumerate(GIVEN_DATES):
        for text in (given, shown):
            user.wants(['postings', 'dates', 'when', text], 0, f'{number}\n')
            user.wants(['search', 'dates', f'when:"{text}"'], 0, f'{number}\n')
    for query, found in (
            ('when:["1990-01-01T00:00:00Z" TO *]', [1, 2, 3, 4]),
            ('when:{"1990-01-01T00:00:00Z" TO "2001-01-01T01:00:00+01:00"]', [1, 2, 4]),
            ('when:<"1970-01-01T00:00:00Z"', [5]),
            ('when:>="1996-12-20T00:39:57Z"', [1, 4]),
            (r'when:>=1996-12-20T00\:39\:57Z', [1, 4]),
            ('when:IN ["1990-01-01T00:00:00Z" "1985-04-12T23:20:50.52Z"]', [0, 3]),
            ('when:"2001-01-01T00:00:00.000000001Z"', [])):
        user.wants(['search', 'dates', query], 0 if found else 1, numbers(found))
    for query in ('when:1990', 'when:"1990-01-01"', 'when:[1990 TO *]'):
        user.wants(['search', 'dates', query], 2, '', 'expected a date like 1990-01-01T00:00:00Z, between 1677 and 2262')
    user.wants(['fields', 'dates'], 0, f'0 when date basic: {len(GIVEN_DATES)} terms, {len(GIVEN_DATES)} tokens\n')
    for value in BAD_DATES:
        user.wants(['add', 'dates'], 1, '', '-:1: when: not a date like 1990-01-01T00:00:00Z, between 1677 and 2262', given=b'{"when": %s}\n' % value.encode())
    user.wants(['add', 'dates'], 1, '', '-:1: when: not of the type of the field', given=b'{"when": 0}\n')
    user.wants(['check', 'dates'], 0)


def grows(user, docs, chosen):
    """Compares an index to which documents were added with one of all documents: each command must answer the
    same. Then damages each file of each segment."""
    schema = user.path('schema.toml')
    cuts = [0] + sorted(chosen.sample(range(1, len(docs)), 3)) + [len(docs)]
    user.wants(['index', 'grown', '--schema', schema], 0, f'{cuts[1]} documents indexed\n', given=lines(docs[:cuts[1]]).encode())
    for begin, end in zip(cuts[1:], cuts[2:]):
        user.write('more.jsonl', lines(docs[begin:end]))
        user.wants(['add', 'grown', '--no-merge', 'more.jsonl'], 0, f'{end - begin} documents added\n')
    user.wants(['add', 'grown', '--no-merge'], 0, '0 documents added\n')
    words = chosen.sample(sorted(texts.lists_of(docs, 'body')), 4)
    asked = [['fields'], ['terms', 'body'], ['terms', 'body', '--top', 9], ['terms', 'body', '--prefix', 'co'], ['terms', 'about'], ['terms', 'number', '--top', 3]]
    for one, two in zip(words, words[1:]):
        for query in (one, f'{one} {two}', f'{one} AND {two}', f'{one} AND -{two}', f'"{one} {two}"'):
            asked += [['search', query, *options] for options in ([], ['--count'], ['--limit', 3], ['--positions'], ['--positions', '--json', '--limit', 7], ['--count', '--json'], ['--limit', 0])]
        asked += [['postings', 'body', one], ['postings', 'body', one, '--positions']]
    asked += [['postings', 'number', docs[0]['number']], ['postings', 'about', 'file.place i 3'], ['search', 'nosuchword'], ['search', 'a', '--ids'], ['postings', 'body', 'nosuchword']]
    for words in asked:
        whole = user.run(words[0], 'folder', *words[1:])
        # what lists of JSON paths take isn't what one list takes
        told = lambda done: [row.split(' terms')[0] for row in done.stdout.decode().splitlines()] if words == ['fields'] else done.stdout
        grown = user.run(words[0], 'grown', *words[1:])
        if grown.returncode != whole.returncode or told(grown) != told(whole) or grown.stderr != whole.stderr:
            raise Failed(f'{words} of a grown index: status {grown.returncode}, {grown.stdout[-300:]!r}, {grown.stderr!r}; wanted {whole.returncode}, {whole.stdout[-300:]!r}, {whole.stderr!r}')
    stats = user.wants(['stats', 'grown'], 0)
    if f'{len(docs):>12} documents\n{4:>12} segments\n' not in stats:
        raise Failed(f'stats: {stats!r}')
    user.wants(['check', 'grown'], 0)
    user.write('bad.jsonl', '{"body": 5}\n')
    user.wants(['add', 'grown', 'bad.jsonl'], 1, '', 'bad.jsonl:1: body: not of the type of the field')
    user.wants(['add', 'grown', 'none.jsonl'], 2, '', 'no such file: none.jsonl')
    user.wants(['add', 'nowhere', 'more.jsonl'], 1, 'nowhere: no index here\n')
    user.wants(['upgrade', 'grown'], 0, 'the index was of version 3 already\n')
    shutil.copytree(user.path('grown'), user.path('merged'))
    damages_segments(user)
    shutil.rmtree(user.path('grown'))
    merges(user, docs, asked)


def merges(user, docs, asked):
    """Merges the segments of an index: each command answers as for one index of all documents, and the files are the
    same. A file that is damaged, although `meta` knows its checksum, is refused, and nothing is changed."""
    user.wants(['merge', 'merged'], 0, f'4 segments merged, {len(docs)} documents\n')
    user.wants(['merge', 'merged'], 0, f'nothing to merge, {len(docs)} documents\n')
    for words in asked:
        one, two = (user.run(words[0], name, *words[1:]) for name in ('folder', 'merged'))
        if (one.returncode, one.stdout, one.stderr) != (two.returncode, two.stdout, two.stderr):
            raise Failed(f'{words} of a merged index: status {two.returncode}, {two.stdout[-300:]!r}, {two.stderr!r}; wanted {one.returncode}, {one.stdout[-300:]!r}')
    for kind in SEGMENT_FILES:
        # the four segments had the ids before
        with open(os.path.join(user.path('folder'), f'{0:016x}.{kind}'), 'rb') as one, open(os.path.join(user.path('merged'), f'{4:016x}.{kind}'), 'rb') as two:
            if one.read() != two.read():
                raise Failed(f'the file of {SEGMENT_FILES[kind]} of a merged index')
    user.wants(['check', 'merged'], 0)
    user.wants(['merge', 'nowhere'], 1, 'nowhere: no index here\n')
    shutil.rmtree(user.path('merged'))
    started(user, 'bad')
    adds(user, 'bad', {'id': '00', 'body': 'a b'}, {'id': '01', 'body': 'b'})
    for kind, change, said in (('term', lambda text: text[:-1] + b'\xff', 'bad: segment 1: damaged: composite file\n'),
                               ('count', lambda text: text[:-4] + b'\xff' * 4, 'bad: segment 1: damaged: composite file\n'),
                               ('idx', lambda text: text.replace(b'\x81\x81', b'\x82\x80', 1), 'bad: damaged: ')):
        path = os.path.join(user.path('bad'), f'{1:016x}.{kind}')
        with open(path, 'rb') as file:
            text = file.read()
        with open(os.path.join(user.path('bad'), 'meta'), 'rb') as file:
            meta = file.read()
        versions.change(user.path('bad'), f'{1:016x}.{kind}', change(text))
        before = sorted(os.listdir(user.path('bad')))
        told = user.wants(['merge', 'bad'], 1, None, 'the command check prints what is damaged')
        if not told.startswith(said) or sorted(os.listdir(user.path('bad'))) != before:
            raise Failed(f'a merge of a damaged {kind}: {told!r}')
        user.write('bad/meta', meta)
        user.write(f'bad/{1:016x}.{kind}', text)
        user.wants(['check', 'bad'], 0)
    user.wants(['merge', 'bad'], 0, '2 segments merged, 2 documents\n')


DELETED_SCHEMA = '[[field]]\nname = "id"\ntype = "bytes"\n[[field]]\nname = "body"\ntype = "text"\n[[field]]\nname = "flag"\ntype = "text"\nrecord = "basic"\nfieldnorms = false\n'


def settles(user, docs):
    """Adds documents in parts of different sizes. After each one, the segments are those that a plain reading of the rule
    joins, and in the end they answer as one index of all documents."""
    schema = user.path('schema.toml')
    user.wants(['index', 'settled', '--schema', schema], 0, '0 documents indexed\n')
    sizes, done = [0], 0
    for size in (1, 1, 1, 2, 9, 1, 1, 3, 4, 2, 20, 1, 1, 1, 1):
        user.wants(['add', 'settled'], 0, f'{size} documents added\n', given=lines(docs[done:done + size]).encode())
        done, sizes = done + size, sizes + [size]
        for place in range(len(sizes) - 1):
            if sizes[place] <= sum(sizes[place + 1:]):
                sizes = sizes[:place] + [sum(sizes[place:])]
                break
        if f'{done:>12} documents\n{len(sizes):>12} segments\n' not in user.wants(['stats', 'settled'], 0):
            raise Failed(f'segments after {done} documents; wanted {sizes}')
    user.wants(['check', 'settled'], 0)
    user.wants(['index', 'one', '--schema', schema], 0, f'{done} documents indexed\n', given=lines(docs[:done]).encode())
    word = sorted(texts.lists_of(docs[:done], 'body'))[0]
    for words in (['fields'], ['terms', 'body'], ['search', word, '--positions'], ['search', 'the', '--count'], ['postings', 'body', word]):
        one, two = (user.run(words[0], name, *words[1:]) for name in ('one', 'settled'))
        told = lambda run: [row.split(' terms')[0] for row in run.stdout.decode().splitlines()] if words == ['fields'] else run.stdout
        if one.returncode != two.returncode or told(one) != told(two):
            raise Failed(f'{words} after merges: {two.stdout[-300:]!r}; wanted {one.stdout[-300:]!r}')
    for name in ('one', 'settled'):
        shutil.rmtree(user.path(name))


def started(user, name):
    """Creates an index without documents."""
    user.write('deleted.toml', DELETED_SCHEMA)
    user.wants(['index', name, '--schema', 'deleted.toml'], 0, '0 documents indexed\n')


def adds(user, name, *docs):
    user.wants(['add', name, '--no-merge'], 0, f'{len(docs)} documents added\n', given=lines(docs).encode())


def deletes(user):
    """Deletes documents by terms. All numbers are those of the documents that are left, at once."""
    started(user, 'three')
    adds(user, 'three', {'id': '00', 'body': 'a'}, {'id': '01', 'body': 'a b'}, {'id': '02', 'body': 'b'})
    user.wants(['delete', 'three', 'id', '01'], 0, '1 documents deleted\n')
    user.wants(['postings', 'three', 'body', 'a', '--positions'], 0, '0 1 0\n')
    user.wants(['postings', 'three', 'body', 'b', '--positions'], 0, '1 1 0\n')
    user.wants(['terms', 'three', 'body'], 0, '1 a\n1 b\n')
    user.wants(['postings', 'three', 'id', '01'], 1, '')
    if '1 body text position fieldnorms tokenizer default: 2 terms, 2 tokens\n' not in user.wants(['fields', 'three'], 0):
        raise Failed('fields of three documents, one of them deleted')
    # the index of no lines is a segment too
    if f'{2:>12} documents\n{2:>12} segments\n' not in user.wants(['stats', 'three'], 0):
        raise Failed('stats of three documents, one of them deleted')
    user.wants(['check', 'three'], 0)
    # a delete reaches the documents before it alone
    started(user, 'later')
    adds(user, 'later', {'body': 'a'})
    user.wants(['delete', 'later', 'body', 'a'], 0, '1 documents deleted\n')
    adds(user, 'later', {'body': 'a'})
    user.wants(['search', 'later', 'a'], 0, '0\n')
    user.wants(['search', 'later', 'a', '--count'], 0, '1\n')
    # tokens of a field that keeps no counts
    started(user, 'flags')
    adds(user, 'flags', {'id': '00', 'flag': 'a a'}, {'id': '01', 'flag': 'a'})
    user.wants(['delete', 'flags', 'id', '01'], 0, '1 documents deleted\n')
    user.wants(['postings', 'flags', 'flag', 'a'], 0, '0\n')
    if '2 flag text basic tokenizer default: 1 terms, 2 tokens\n' not in user.wants(['fields', 'flags'], 0):
        raise Failed('fields of a field without counts')
    # a phrase and a difference over two segments
    started(user, 'two')
    adds(user, 'two', {'id': '00', 'body': 'a b'})
    adds(user, 'two', {'id': '01', 'body': 'a b'})
    user.wants(['delete', 'two', 'id', '00'], 0, '1 documents deleted\n')
    for query in ('"a b"', 'a NOT x', 'a OR x'):
        user.wants(['search', 'two', query], 0, '0\n')
    user.wants(['search', 'two', 'a', '--ids', '--positions'], 0, '01\tbody:a 0\n')
    # no document is left
    started(user, 'none')
    adds(user, 'none', {'body': 'a'})
    user.wants(['delete', 'none', 'body', 'a'], 0, '1 documents deleted\n')
    user.wants(['terms', 'none', 'body'], 0, '')
    user.wants(['search', 'none', 'a', '--count'], 1, '0\n')
    # a deleted document stays deleted
    started(user, 'kept')
    adds(user, 'kept', {'id': '00', 'body': 'a'}, {'id': '01', 'body': 'a'})
    user.wants(['delete', 'kept', 'id', '00'], 0, '1 documents deleted\n')
    adds(user, 'kept', {'id': '02', 'body': 'a'})
    user.wants(['delete', 'kept', 'body', 'a'], 0, '2 documents deleted\n')
    user.wants(['search', 'kept', 'a', '--count'], 1, '0\n')
    # no such field or term, and an index without counts
    user.wants(['delete', 'kept', 'nothing', 'a'], 2, '', 'no field nothing')
    user.wants(['delete', 'kept', 'body', 'b'], 0, '0 documents deleted\n')
    user.wants(['delete', 'nowhere', 'body', 'b'], 1, 'nowhere: no index here\n')
    user.wants(['index', 'older', '--schema', 'deleted.toml'], 0, '1 documents indexed\n', given=b'{"body": "a"}\n')
    versions.to_first(user.path('older'))
    user.wants(['delete', 'older', 'body', 'a'], 2, '', 'segment 0 has no counts of tokens, so that none of its documents can be deleted')
    user.wants(['search', 'older', 'a'], 0, '0\n')
    # an index of lines, without an `add`
    user.wants(['index', 'older', '--schema', 'deleted.toml'], 0, '2 documents indexed\n', given=b'{"body": "a"}\n{"body": "a b"}\n')
    user.wants(['delete', 'older', 'body', 'b'], 0, '1 documents deleted\n')
    user.wants(['search', 'older', 'a'], 0, '0\n')
    user.wants(['check', 'older'], 0)
    # files of counts and of flags
    for kind, what in (('count', 'counts'), ('alive', 'living documents')):
        damages_file(user, kind, what)


def first_versions(user, docs):
    """Reads an index of version 1 as the same index of version 3, upgrades it, adds to it, and replaces it."""
    shutil.copytree(user.path('folder'), user.path('first'))
    versions.to_first(user.path('first'))
    asked = [['fields'], ['terms', 'body'], ['search', 'the', '--positions'], ['postings', 'body', 'a', '--positions'], ['search', 'a', '--count']]
    answers = lambda folder: [(words, user.run(words[0], folder, *words[1:]).stdout) for words in asked]
    wanted = answers('folder')
    if answers('first') != wanted or f'{len(docs)} documents; each file is as it was saved\n' not in user.wants(['check', 'first'], 0):
        raise Failed('an index of version 1 answers otherwise')
    if f'{1:>12} segments\n' not in user.wants(['stats', 'first'], 0):
        raise Failed('stats of an index of version 1')
    shutil.copytree(user.path('first'), user.path('again'))
    user.wants(['upgrade', 'first'], 0, 'the index is of version 3 now\n')
    if answers('first') != wanted or os.path.exists(os.path.join(user.path('first'), 'term.0')):
        raise Failed('an upgraded index answers otherwise, or its old files are there')
    user.wants(['add', 'again'], 0, '1 documents added\n', given=b'{"body": "nosuchword"}\n')
    user.wants(['search', 'again', 'nosuchword'], 0, f'{len(docs)}\n')
    user.wants(['index', 'first', '--schema', user.path('schema.toml')], 0, '1 documents indexed\n', given=b'{"body": "nosuchword"}\n')
    user.wants(['search', 'first', 'nosuchword'], 0, '0\n')
    for name in ('first', 'again'):
        user.wants(['check', name], 0)
        shutil.rmtree(user.path(name))


def second_versions(user, docs):
    """Reads an index of version 2 as the same index of version 3, adds to it and deletes from it: its list is then of
    version 3, with a SHA-256 of each old file and a digest of the blocks of each new one."""
    version, kinds = versions.kinds(user.path('folder'))
    if version != 3 or set(sum(kinds, [])) != {versions.BLOCKS}:
        raise Failed(f'a new index of version {version} with digests {kinds}')
    shutil.copytree(user.path('folder'), user.path('second'))
    versions.to_second(user.path('second'))
    if versions.kinds(user.path('second'))[0] != 2:
        raise Failed('no index of version 2')
    for words in (['fields'], ['search', 'the', '--positions'], ['postings', 'body', 'a', '--positions']):
        if user.run(words[0], 'second', *words[1:]).stdout != user.run(words[0], 'folder', *words[1:]).stdout:
            raise Failed('an index of version 2 answers otherwise')
    user.wants(['check', 'second'], 0)
    user.wants(['upgrade', 'second'], 0, 'the index was of version 2 already\n')
    user.wants(['add', 'second'], 0, '2 documents added\n', given=b'{"body": "nosuchword"}\n{"body": "nosuchword a"}\n')
    user.wants(['delete', 'second', 'body', 'nosuchword'], 0, '2 documents deleted\n')
    user.wants(['add', 'second'], 0, '1 documents added\n', given=b'{"body": "nosuchword"}\n')
    user.wants(['search', 'second', 'nosuchword'], 0, f'{len(docs)}\n')
    user.wants(['upgrade', 'second'], 0, 'the index was of version 3 already\n')
    version, (first, *others) = versions.kinds(user.path('second'))
    if version != 3 or set(first) != {versions.SHA256} or not others or set(sum(others, [])) != {versions.BLOCKS}:
        raise Failed(f'version {version} with digests {first} and {others}')
    user.wants(['check', 'second'], 0)
    path = os.path.join(user.path('second'), f'{0:016x}.idx')
    with open(path, 'r+b') as file:
        file.seek(os.path.getsize(path) // 2)
        byte = file.read(1)[0]
        file.seek(-1, os.SEEK_CUR)
        file.write(bytes([byte ^ 1]))
    user.wants(['search', 'second', 'a'], 1, 'second: the file of postings of segment 0 has another checksum than meta says\n')
    shutil.rmtree(user.path('second'))


def long_blocks(user, docs):
    """Reads an index whose digests are of long blocks, as earlier programs wrote them, and adds to it: old files keep their
    digests, new ones have those of blocks. A damaged file is named."""
    shutil.copytree(user.path('folder'), user.path('long'))
    versions.to_long_blocks(user.path('long'))
    for words in (['fields'], ['search', 'the', '--positions'], ['search', 'a', '--count'], ['postings', 'body', 'a', '--positions']):
        if user.run(words[0], 'long', *words[1:]).stdout != user.run(words[0], 'folder', *words[1:]).stdout:
            raise Failed('an index of long blocks answers otherwise')
    user.wants(['check', 'long'], 0)
    user.wants(['add', 'long', '--no-merge'], 0, '1 documents added\n', given=b'{"body": "nosuchword"}\n')
    user.wants(['search', 'long', 'nosuchword'], 0, f'{len(docs)}\n')
    *others, last = versions.read_meta(user.path('long'))[3]
    wanted = [(versions.LONG_BLOCKS, others), (versions.BLOCKS, [last])]
    if not others or any(kind != old for old, segments in wanted for _, _, _, files in segments for _, _, _, kind, _ in files):
        raise Failed('an index of long blocks and a new segment have other digests')
    user.wants(['check', 'long'], 0)
    path = os.path.join(user.path('long'), f'{0:016x}.idx')
    with open(path, 'r+b') as file:
        byte = file.read(1)[0]
        file.seek(0)
        file.write(bytes([byte ^ 1]))
    user.wants(['search', 'long', 'a'], 1, 'long: the file of postings of segment 0 has another checksum than meta says\n')
    shutil.rmtree(user.path('long'))


def changed_bits(user, chosen, places):
    """Changes a bit of each file of an index of version 3 at many places, also in the first and the last byte and on both
    sides of the end of a block of its digest: `check` must name this file alone each time."""
    docs = [{'body': f'{chosen.randrange(50)} sea', 'note': f'{chosen.getrandbits(2000):x}'} for _ in range(300)]
    schema = user.write('bits.toml', 'store_source = true\n[[field]]\nname = "body"\ntype = "text"\n[[field]]\nname = "note"\ntype = "text"\nindexed = false\n')
    user.wants(['index', 'bits', '--schema', schema], 0, f'{len(docs)} documents indexed\n', given=lines(docs).encode())
    (_, _, _, files), = versions.read_meta(user.path('bits'))[3]
    if not any(length > 2 * versions.BLOCK for _, _, length, _, _ in files):
        raise Failed('no file of three blocks')
    for component, generation, length, _, _ in files:
        name = versions.name_of(0, component, generation)
        what = {**SEGMENT_FILES, 'store': 'stored documents', 'blocks': 'tables of blocks'}[versions.COMPONENTS[component]]
        path = os.path.join(user.path('bits'), name)
        near = [place for place in (0, versions.BLOCK - 1, versions.BLOCK, length - 1) if place < length]
        for place in sorted({*near, *(chosen.randrange(length) for _ in range(places))}):
            with open(path, 'r+b') as file:
                file.seek(place)
                byte = file.read(1)[0]
                file.seek(place)
                file.write(bytes([byte ^ 1 << chosen.randrange(8)]))
                file.flush()
                told = [line for line in user.wants(['check', 'bits'], 1).splitlines() if 'than meta says' in line]
                if told != [f'bits: the file of {what} of segment 0 has another checksum than meta says, bytes 0..{length}']:
                    raise Failed(f'{name} changed at {place}: {told!r}')
                file.seek(place)
                file.write(bytes([byte]))
    user.wants(['check', 'bits'], 0)
    shutil.rmtree(user.path('bits'))


def damages_file(user, kind, what):
    """Changes a file of a segment with deleted documents: it must be named."""
    name, = (name for name in sorted(os.listdir(user.path('three'))) if name.startswith(f'{1:016x}.') and name.endswith('.' + kind))
    path = os.path.join(user.path('three'), name)
    with open(path, 'rb') as file:
        text = file.read()
    with open(path, 'wb') as file:
        file.write(text[:-1] + bytes([text[-1] ^ 1]))
    said = f'three: the file of {what} of segment 1 has another checksum than meta says'
    user.wants(['search', 'three', 'a', *READERS.get(kind, [])], 1, said + '\n')
    if f'{said}, bytes 0..{len(text)}\n' not in user.wants(['check', 'three'], 1):
        raise Failed(f'check: no {said}')
    with open(path, 'wb') as file:
        file.write(text)
    user.wants(['check', 'three'], 0)


def damages_segments(user):
    """Changes and removes each file of each segment: the commands must name the segment and the file."""
    for name in sorted(os.listdir(user.path('grown'))):
        id, kind = name.split('.')[0], SEGMENT_FILES.get(name.split('.')[-1])
        search = ['search', 'grown', 'a', *READERS.get(name.split('.')[-1], [])]
        if kind is None:
            continue
        path = os.path.join(user.path('grown'), name)
        with open(path, 'rb') as file:
            text = file.read()
        what = f'grown: the file of {kind} of segment {int(id, 16)}'
        for changed, why in ((text[:-1], 'has another length than meta says'), (text[:-1] + bytes([text[-1] ^ 1]), 'has another checksum than meta says')):
            with open(path, 'wb') as file:
                file.write(changed)
            user.wants(search, 1, f'{what} {why}\n')
            if search[3:]:
                user.wants(['search', 'grown', 'a', '--count'], 0)
            if f'{what} {why}, bytes 0..{len(changed)}\n' not in user.wants(['check', 'grown'], 1):
                raise Failed(f'check: no {what} {why}')
        os.remove(path)
        user.wants(search, 1, f'{what} is missing\n')
        if f'{what} is missing\n' not in user.wants(['check', 'grown'], 1):
            raise Failed(f'check: no {what} is missing')
        with open(path, 'wb') as file:
            file.write(text)
    user.wants(['check', 'grown'], 0)


BAD_LINES = (
    ('[1, 2]', 'not an object'),
    ('{"body": "a"', 'not JSON, at byte '),
    ('{"body": "a" 5}', 'not JSON, at byte 14'),
    (b'\xef\xbb\xbf{"body": "a"}', 'not JSON: the line begins with a byte order mark'),
    ('{"about": ' + '[' * 130 + ']' * 130 + '}', 'not read: arrays and objects are nested more than 127 levels deep'),
    ('{"body": "a", "other": 1}', 'unknown key other'),
    ('{"body": 5}', 'body: not of the type of the field'),
    ('{"body": ["a", null]}', 'body: not of the type of the field'),
    ('{"number": -1}', 'number: a number out of range: expected a whole number from 0 to 18446744073709551615; a fraction or an exponent is none'),
    ('{"number": 1.5}', 'number: a number out of range'),
    ('{"number": 18446744073709551616}', 'number: a number out of range'),
    ('{"number": "1"}', 'number: not of the type of the field'),
    ('{"change": 9223372036854775808}', 'change: a number out of range'),
    ('{"change": -0}', 'change: a number out of range: expected a whole number from -9223372036854775808 to 9223372036854775807; -0, a fraction or an exponent is none'),
    ('{"is_long": 0}', 'is_long: not of the type of the field'),
    ('{"mark": "abc"}', 'mark: not pairs of hexadecimal digits'),
    ('{"mark": "xy"}', 'mark: not pairs of hexadecimal digits'),
    ('{"address": "1.2.3"}', 'address: not an IP address'),
    ('{"address": "01.2.3.4"}', 'address: not an IP address'),
    ('{"about": {"x": [1, 2.5]}}', 'about.x: a floating-point number'),
    (b'{"body": "\xff"}', 'not UTF-8'),
)

BAD_SCHEMAS = (
    ('', 'no table [[field]]'),
    ('field = 5', 'no table [[field]]'),
    ('other = 5', 'unknown key other'),
    ('[[field]', ''),
    ('[[field]]\ntype = "text"', 'field 0: name'),
    ('[[field]]\nname = ""\ntype = "text"', 'field 0: name'),
    ('[[field]]\nname = "a"\ntype = "text"\n[[field]]\nname = "a"\ntype = "u64"', 'field 1: name'),
    ('[[field]]\nname = "a"', 'field 0: type: one of text, u64, i64, bool, date, bytes, ip_addr, json (the field a)'),
    ('[[field]]\nname = "a"\ntype = "float"', 'field 0: type'),
    ('[[field]]\nname = "a"\ntype = "text"\nrecord = "all"', 'field 0: record'),
    ('[[field]]\nname = "a"\ntype = "u64"\nrecord = "freq"', 'field 0: record'),
    ('[[field]]\nname = "a"\ntype = "json"\nfieldnorms = true', 'field 0: fieldnorms'),
    ('[[field]]\nname = "a"\ntype = "text"\nexpand_dots = true', 'field 0: expand_dots'),
    ('[[field]]\nname = "a"\ntype = "text"\nindexed = 1', 'field 0: indexed'),
    ('[[field]]\nname = "a"\ntype = "text"\nstored = 1', 'field 0: stored: true or false (the field a)'),
    ('[[field]]\nname = "a"\ntype = "text"\nstore = true', 'field 0: unknown key store (the field a)'),
    ('[[field]]\nname = "a"\ntype = "text"\nunknown = "ignore"', 'field 0: unknown key unknown (the field a)'),
    ('unknown = "keep"\n[[field]]\nname = "a"\ntype = "text"', 'unknown: refuse or ignore'),
    ('unknown = true\n[[field]]\nname = "a"\ntype = "text"', 'unknown: refuse or ignore'),
    ('unknown = true\nstore_source = 1', 'store_source: true or false'),
    ('unknown = "ignore"', 'no table [[field]]'),
)


def refusals(user, docs):
    """Checks that bad lines, schemas and arguments give specific errors, and that the existing index
    stays."""
    schema = user.path('schema.toml')
    for line, reason in BAD_LINES:
        line = line if isinstance(line, bytes) else line.encode()
        user.write('bad.jsonl', b'{"body": "one"}\n' + line + b'\n')
        user.wants(['index', 'folder', '--schema', schema, 'bad.jsonl'], 1, '', f'bad.jsonl:2: {reason}')
    bad = b''.join((line if isinstance(line, bytes) else line.encode()) + b'\n' for line, _ in BAD_LINES)
    user.wants(['index', 'some', '--schema', schema, '-'], 1, '', '-:1: not an object', given=b'[1]\n')
    user.write('one.jsonl', '{"body": "one"}\n')
    user.wants(['index', 'some', '--schema', schema, 'one.jsonl', '-', 'one.jsonl'], 0, '3 documents indexed\n', given=b'{"body": "two"}\n')
    user.wants(['search', 'some', 'two'], 0, '1\n')
    user.wants(['index', 'some', '--schema', schema, '--skip-bad'], 0, f'2 documents indexed, {len(BAD_LINES)} lines left out\n',
               f'-:{len(BAD_LINES) + 1}: not UTF-8', given=b'{"body": "one"}\n' + bad + b'{"body": null, "number": [1, 2]}\n')
    user.wants(['search', 'some', 'number:2'], 0, '1\n')
    for text, reason in BAD_SCHEMAS:
        user.write('bad.toml', text)
        user.wants(['index', 'folder', '--schema', 'bad.toml', 'a.jsonl'], 2, '', f'nequllpa: bad.toml: {reason}')
    for words, reason in ((['index', 'folder', 'a.jsonl'], '--schema'), (['index', 'folder', '--schema', 'none.toml'], 'no such file: none.toml'),
                          (['index', 'folder', '--schema', schema, 'none.jsonl'], 'no such file: none.jsonl'), (['postings', 'folder', 'nofield', 'a'], 'no field nofield'),
                          (['postings', 'folder', 'number', 'x'], 'x is no term of number'), (['search', 'folder', 'number:x'], 'number:x: field number: expected a number'),
                          (['search', 'folder', 'a AND'], 'a AND: '), (['search', 'folder', 'nofield:a'], 'nofield:a: no field nofield'), (['search', 'folder', 'a', '--field', 'nofield'], 'no field nofield'), (['terms', 'folder', 'body', '--top', 'x'], '--top x: expected a whole number from 0 to 4294967295'),
                          (['about', 'file.name'], ''), ([], 'Usage: nequllpa')):
        user.wants(words, 2, '', reason)
    long = 'x' * 65531
    given = lines([{'body': f'a {long} b'}, {'about': {'k': [long, f'{long} {long}', long[:-1]]}}]).encode()
    user.wants(['index', 'some', '--schema', schema], 0, '2 documents indexed\n', 'nequllpa: 4 words of more than 65530 bytes are not indexed\n', given=given)
    user.wants(['search', 'some', 'body:"a b"'], 1, '')
    user.wants(['postings', 'some', 'body', 'b', '--positions'], 0, '0 1 2\n')
    user.wants(['postings', 'some', 'about', f'k s {long[:-1]}'], 0, '1 1\n')
    user.wants(['search', 'folder', b'\xff'], 2, '', 'nequllpa: an argument is not UTF-8')
    with open('/dev/full', 'wb') as full:
        done = subprocess.run([user.program, 'terms', 'folder', 'body'], stdout=full, stderr=subprocess.PIPE, cwd=user.folder, timeout=600)
    if done.returncode != 2 or b'nequllpa: ' not in done.stderr:
        raise Failed(f'terms to a full output: status {done.returncode}, {done.stderr!r}')
    user.wants(['check', 'nowhere'], 1, 'nowhere: no index here\n', 'the command index makes one')
    user.wants(['search', 'nowhere', 'word'], 1, 'nowhere: no index here\n', 'the command index makes one')
    user.wants(['check', '.'], 1, '.: no index here\n')
    told = user.wants(['check', 'folder'], 0)
    if not told.startswith(f'{len(docs)} documents; '):
        raise Failed(f'after refusals: {told!r}')


UNKNOWN = '''\
unknown = "ignore"
store_source = true
[[field]]
name = "body"
type = "text"
[[field]]
name = "id"
type = "u64"
'''
# lines with members under unknown keys, and without them
STRANGERS = (
    ('{"body": "old sea", "x": 1.5, "y": {"body": "new"}, "id": 1}', '{"body": "old sea", "id": 1}'),
    ('{"z": [null, 5], "body": "sea", "z": "new", "id": 2}', '{"body": "sea", "id": 2}'),
    ('{"": "new"}', '{}'),
    ('{"Body": "new", "body ": "new", "bod": "new", "body.x": 5, "id": [4, 5]}', '{"id": [4, 5]}'),
    ('{"body": null, "a": null, "body": "the sea", "a": 18446744073709551616}', '{"body": "the sea"}'),
)
BAD_STRANGERS = (
    ('{"a": 1, "body": 5}', 'body: not of the type of the field'),
    ('{"id": 2.5, "zz": 2.5}', 'id: a number out of range'),
    ('{"x": tru}', 'not JSON, at byte '),
    ('[{"x": 1}]', 'not an object'),
)


def unknown_keys(user):
    """Checks that members under unknown keys are ignored if the schema says so: the index is that of the lines without
    them, the stored lines are complete, and what is wrong with other members is refused as before."""
    schema = user.write('unknown.toml', UNKNOWN)
    text = ''.join(line + '\n' for line, _ in STRANGERS)
    user.wants(['index', 'strangers', '--schema', schema], 0, f'{len(STRANGERS)} documents indexed\n', given=text.encode())
    user.wants(['index', 'plain', '--schema', schema], 0, given=''.join(line + '\n' for _, line in STRANGERS).encode())
    for kind in SEGMENT_FILES:
        files = [os.path.join(user.path(name), f'{0:016x}.{kind}') for name in ('strangers', 'plain')]
        with open(files[0], 'rb') as one, open(files[1], 'rb') as two:
            if one.read() != two.read():
                raise Failed(f'the file {kind} differs from that of lines without unknown keys')
    user.wants(['search', 'strangers', 'new'], 1, '')
    user.wants(['search', 'strangers', 'sea'], 0, '0\n1\n4\n')
    user.wants(['get', 'strangers', *range(len(STRANGERS))], 0, text)
    user.wants(['add', 'strangers', '--no-merge'], 0, '1 documents added\n', given=b'{"k": {"l": 1.5}, "body": "a new sea", "id": 3}\n')
    user.wants(['search', 'strangers', 'new', '--source'], 0, '{"k": {"l": 1.5}, "body": "a new sea", "id": 3}\n')
    user.wants(['add', 'strangers', '--replace-by', 'id'], 0, '1 documents added, 1 replaced\n', given=b'{"id": 1, "w": 2.5, "body": "newest"}\n')
    user.wants(['search', 'strangers', 'old'], 1, '')
    user.wants(['search', 'strangers', 'newest', '--source'], 0, '{"id": 1, "w": 2.5, "body": "newest"}\n')
    user.wants(['merge', 'strangers'], 0)
    user.wants(['search', 'strangers', 'newest', '--source'], 0, '{"id": 1, "w": 2.5, "body": "newest"}\n')
    user.wants(['check', 'strangers'], 0)
    for line, reason in BAD_STRANGERS:
        for words in (['index', 'strangers', '--schema', schema], ['add', 'strangers'], ['add', 'strangers', '--replace-by', 'id']):
            user.wants(words, 1, '', f'-:2: {reason}', given=b'{"id": 9, "q": 1}\n' + line.encode() + b'\n')
    refusing = user.write('refuse.toml', UNKNOWN.replace('"ignore"', '"refuse"'))
    user.wants(['index', 'refusing', '--schema', refusing], 1, '', '-:1: unknown key x', given=text.encode())
    user.wants(['index', 'refusing', '--schema', refusing], 0, given=b'{"id": 1}\n')
    user.wants(['add', 'refusing'], 1, '', '-:1: unknown key x', given=text.encode())
    user.wants(['add', 'refusing', '--replace-by', 'id'], 1, '', '-:1: unknown key x', given=text.encode())


# lines with numbers that have a fraction or an exponent, the same with null in their place, and the path of the first one
FLOATS = (
    ('{"about": {"x": [1, 2.5, "a"], "y.z": {"q": 1e3}, "w": 7}, "n": 3}', '{"about": {"x": [1, null, "a"], "y.z": {"q": null}, "w": 7}, "n": 3}', 'about.x'),
    ('{"about": 1.5}', '{"about": null}', 'about'),
    ('{"about": {"x y": [[], {"a.b": {"": -0.0}}], "c": 18446744073709551616}}', '{"about": {"x y": [[], {"a.b": {"": null}}], "c": null}}', 'about.c'),
    ('{"about": {"x y": [[], {"a.b": {"": -0.5}}]}}', '{"about": {"x y": [[], {"a.b": {"": null}}]}}', 'about.x\\ y.a\\.b.'),
    ('{"about": [{"k": 0.1}, 0.25, {"k": 2}], "unindexed": 7.5}', '{"about": [{"k": null}, null, {"k": 2}], "unindexed": 7.5}', 'about.k'),
)
FLOAT_SCHEMA = '''\
store_source = true
[[field]]
name = "about"
type = "json"
[[field]]
name = "n"
type = "u64"
[[field]]
name = "unindexed"
type = "json"
indexed = false
'''


def floats(user):
    """Checks that numbers with a fraction in JSON values are refused with their paths, and that --skip-floats leaves out
    and counts exactly these: the index is that of the lines with null in their place."""
    schema = user.write('floats.toml', FLOAT_SCHEMA)
    for line, _, path in FLOATS:
        user.wants(['index', 'floats', '--schema', schema], 1, '', f'-:1: {path}: a floating-point number', given=line.encode())
        user.wants(['index', 'floats', '--schema', schema], 1, '', '--skip-floats leaves such numbers out', given=line.encode())
    for line in ('{"n": 1.5}', '{"about": 1.5, "n": 1e2}'):
        user.wants(['index', 'floats', '--schema', schema, '--skip-floats'], 1, '', '-:1: n: a number out of range', given=line.encode())
    text, plain = (''.join(row[place] + '\n' for row in FLOATS).encode() for place in (0, 1))
    many = sum(row[1].count('null') for row in FLOATS)
    user.wants(['index', 'plain', '--schema', schema], 0, f'{len(FLOATS)} documents indexed\n', given=plain)
    user.wants(['index', 'floats', '--schema', schema, '--skip-floats'], 0, f'{len(FLOATS)} documents indexed, {many} numbers left out\n', given=text)
    user.wants(['get', 'floats', *range(len(FLOATS))], 0, text.decode())
    for words in (['terms', 'about'], ['terms', 'n'], ['fields'], ['search', '*'], ['search', 'about.w:7'], ['search', 'about.k:2']):
        user.wants([words[0], 'floats', *words[1:]], 0, user.wants([words[0], 'plain', *words[1:]], 0))
    user.wants(['index', 'plain', '--schema', schema, '--skip-floats'], 0, f'{len(FLOATS)} documents indexed\n', given=plain)
    user.wants(['index', 'floats', '--schema', schema, '--skip-floats', '--json'], 0, f'{{"indexed":{len(FLOATS)},"left_out":0,"skipped_floats":{many}}}\n', given=text)
    user.wants(['add', 'floats', '--skip-floats', '--no-merge', '--memory', '1B'], 0, f'{len(FLOATS)} documents added, {many} numbers left out\n', given=text)
    user.wants(['add', 'floats', '--skip-floats', '--skip-bad', '--json'], 0, f'{{"added":{len(FLOATS)},"left_out":1,"skipped_floats":{many}}}\n', given=text + b'[]\n')
    keyed = b'{"about": [0.5, 1.5], "n": 3}\n{"about": 2.5, "n": 4}\n{"about": 3.5}\n'
    user.wants(['add', 'floats', '--replace-by', 'n', '--skip-floats', '--skip-bad'], 0, '2 documents added, 3 replaced, 1 lines left out, 3 numbers left out\n', given=keyed)
    user.wants(['check', 'floats'], 0)


def quiet(user):
    """Checks that --quiet leaves standard error empty but for why lines are left out, and what --version prints."""
    schema = user.write('quiet.toml', 'tokenizer = "ascii"\n' + IDS)
    short = lines([{'body': f'a {"x" * 65531}', 'id': 1}]).encode() + b'\n[1]\n'
    long = short.replace(b'\n\n', b'\n' + b' ' * (17 << 20) + b'\n')
    bounded, kept = 'of memory become a segment; --memory sets that\n', 'nequllpa: all lines are kept in memory, since their documents replace others\n'
    for words, given, steps in ((['index', 'quiet', '--schema', schema], long, [bounded, ' MB/s\n', 'nequllpa: writing a segment of 1 documents\n']), (['add', 'quiet'], short, [bounded]), (['add', 'quiet', '--replace-by', 'id'], short, [kept])):
        told = user.run(*words, '--skip-bad', given=given).stderr.decode()
        for said in ('nequllpa: 1 words of more than', '-:3: not an object\n', *steps):
            if said not in told:
                raise Failed(f'{words}: no {said!r} in {told!r}')
        done = user.run(*words, '--skip-bad', '--quiet', given=given)
        if done.returncode or done.stderr != b'-:3: not an object\n':
            raise Failed(f'{words} --quiet: status {done.returncode}, {done.stderr[-300:]!r}')
    told = user.wants(['--version'], 0)
    if told != user.wants(['-V'], 0) or not told.startswith('nequllpa ') or not all(part.isdigit() for part in told[9:-1].split('.')) or told[9:-1].count('.') != 2:
        raise Failed(f'--version: {told!r}')


QUERIES = ('the', 'the AND of', 'the OR license', 'the -a', '"of the"', 'lic*', 'nosuchword', 'number:3', 'number:[1 TO 5]', 'change:"-9"', '*', 'the AND', '', '  ',
           '("', 'se*a', 'nofield:a', 'number:x', 'is_long:7', 'note:a', 'about:"x y"', '"a\\"b"', 'naïve “the”', 'the\tof', 'NOT the', 'the^2')
CHOICES = (['--limit', 2], ['--limit', 0], ['--count'], ['--count', '--json'], ['--top', 3], ['--top', 0], ['--field', 'body', '--positions', '--limit', 9])


def answer_of(user, folder, query, options):
    """Returns the answer to a query in a batch, from those of a single run."""
    done = user.run('search', folder, query, *options, *([] if '--json' in options else ['--json']))
    told, err = done.stdout.decode(), done.stderr.decode()
    name = json.dumps(query, ensure_ascii=False)
    if done.returncode < 2:
        count = told.strip()[1:-1] if '--count' in options else None
        return f'{{"query":{name},' + (count or f'"docs":[{",".join(told.splitlines())}]') + '}\n'
    said = f'nequllpa: {query}: '
    if not err.startswith(said):
        raise Failed(f'search {query!r}: {err!r}; wanted {said!r}')
    reason = err[len(said):-1]
    byte = f',"byte":{reason.split()[2][:-1]}' if reason.startswith('at byte ') else ''
    return f'{{"query":{name},"error":{json.dumps(reason, ensure_ascii=False)}{byte}}}\n'


def batches(user):
    """Checks that each answer of a batch is that of a single run, and is printed before the next query is read."""
    queries = '\n'.join(QUERIES).encode()
    for options in CHOICES:
        wanted = ''.join(answer_of(user, 'folder', query, options) for query in QUERIES)
        user.wants(['search', 'folder', '--batch', *options], 2, wanted, given=queries)
        user.wants(['search', 'folder', *options, '--batch'], 2, wanted, given=queries.replace(b'\n', b'\r\n') + b'\n')
    user.wants(['search', 'folder', '--batch', '--count'], 0, '', given=b'')
    user.wants(['search', 'folder', '--batch', '--count'], 0, '{"query":"nosuchword","count":0}\n', given=b'nosuchword\n')
    user.wants(['search', 'folder', '--batch'], 2, '{"query":null,"error":"not UTF-8"}\n{"query":"nosuchword","docs":[]}\n', given=b'\xff\nnosuchword')
    schema = user.write('stored.toml', 'store_source = true\n' + IDS)
    docs = [{'id': 70, 'body': 'old "sea" <b>'}, {'body': 'the sea'}, {'id': 5, 'body': 'sea, old sea'}]
    user.wants(['index', 'stored', '--schema', schema], 0, given=lines(docs).encode())
    for options in (['--ids'], ['--ids', '--positions'], ['--ids', '--top', 2], ['--top', 2, '--explain'], ['--ids', '--explain', '--top', 2], ['--source'], ['--source', '--top', 2], ['--source', '--top', 2, '--explain'], ['--fields', 'body,id'], ['--snippet'], ['--snippet', '--color', 'always', '--top', 2], ['--snippet', '--top', 2, '--explain']):
        wanted = ''.join(answer_of(user, 'stored', query, options) for query in ('sea', 'old', 'the OR old', 'x'))
        user.wants(['search', 'stored', '--batch', *options], 0, wanted, given=b'sea\nold\nthe OR old\nx\n')
    for words, reason in ((['sea', '--batch'], 'search needs a query, or --batch'), ([], 'search needs a query, or --batch'), (['--batch', '--top', 1, '--count'], '--top stands without'),
                          (['sea', '--explain'], '--explain stands only with --top'), (['--batch', '--explain'], '--explain stands only with --top'), (['sea', '--explain', '--count'], '--explain stands only with --top'),
                          (['sea', '--explain', '--top', 1, '--count'], '--top stands without'), (['sea', '--explain', '--limit', 1], '--explain stands only with --top'),
                          (['--batch', '--field', 'x'], 'no field x'), (['--batch', '--limit', 'x'], '--limit x: expected'), (['--batch', '--source', '--ids'], '--source stands without')):
        user.wants(['search', 'stored', *words], 2, '', reason, given=b'sea\n')
    user.wants(['search', 'nowhere', '--batch'], 1, 'nowhere: no index here\n', given=b'sea\n')
    user.runs += 1
    with subprocess.Popen([user.program, 'search', 'stored', '--batch', '--timing'], stdin=subprocess.PIPE, stdout=subprocess.PIPE, stderr=subprocess.PIPE, cwd=user.folder) as run:
        for query, found in (('old', '[{"doc":0},{"doc":2}]'), ('the', '[{"doc":1}]')):
            run.stdin.write(query.encode() + b'\n')
            run.stdin.flush()
            told = run.stdout.readline().decode()
            if told != f'{{"query":"{query}","docs":{found}}}\n':
                raise Failed(f'a batch that waits: {told!r}')
        run.stdin.close()
        times = run.stderr.read().decode().splitlines()
        if run.wait() != 0 or [line.rsplit(' ', 2)[0] for line in times] != ['nequllpa: opening:', 'nequllpa: query 1:', 'nequllpa: query 2:'] or not all(line.endswith(' ms') for line in times):
            raise Failed(f'the times of a batch: {times}')
    user.wants(['search', 'stored', 'sea', '--timing', '--count'], 0, '3\n', 'nequllpa: search: ')


def damages(user, chosen, places):
    """Cuts, changes and removes each file of an index of version 1 at many places: `check` must report the file each
    time, with its byte range."""
    whole, damaged_places, located = user.path('folder'), 0, 0
    shutil.copytree(whole, user.path('kept'), dirs_exist_ok=True)
    versions.to_first(whole)
    for name in sorted(os.listdir(whole)):
        if name == 'lock':
            continue
        kind = FILES.get(name.split('.')[0])
        with open(os.path.join(whole, name), 'rb') as file:
            text = file.read()
        size = len(text)
        for place in [0, size - 1] + [chosen.randrange(size) for _ in range(places)]:
            changed = bytearray(text)
            changed[place] ^= 1 << chosen.randrange(8)
            for damaged, what in ((bytes(changed), 'checksum'), (text[:place], 'length')):
                with open(os.path.join(whole, name), 'wb') as file:
                    file.write(damaged)
                told = user.wants(['check', 'folder'], 1)
                said = f'folder: the file of {kind} has another {what} than meta says, bytes 0..{len(damaged)}\n'
                if kind and not told.startswith(said) or not kind and not ('meta is damaged' in told or 'an index of version' in told):
                    raise Failed(f'{name} changed at {place}: {told!r}')
                damaged_places += 1
                located += f'\nthe file of {kind}' in told
        with open(os.path.join(whole, name), 'wb') as file:
            file.write(text + b'\0')
        user.wants(['check', 'folder'], 1)
        os.remove(os.path.join(whole, name))
        told = user.wants(['check', 'folder'], 1)
        if not told.startswith(f'folder: the file of {kind} is missing\n' if kind else 'folder: an index whose meta is missing: there is schema.0\n'):
            raise Failed(f'{name} taken away: {told!r}')
        if kind:
            user.wants(['search', 'folder', 'word'], 1, f'folder: the file of {kind} is missing\n', 'the command check prints what is damaged')
        with open(os.path.join(whole, name), 'wb') as file:
            file.write(text)
    user.wants(['check', 'folder'], 0)
    shutil.rmtree(whole)
    os.rename(user.path('kept'), whole)
    print(f'tests/folder: {damaged_places} damaged places, each in the file that check names; the lists tell of {located} where')


JSON = '''\
[[field]]
name = "j"
type = "json"
'''


def values_twice(user):
    """Checks that a value that occurs twice in a document, but once in its list, is no damage."""
    user.wants(['index', 'twice', '--schema', user.write('json.toml', JSON)], 0, given=lines([{'j': {'sizes': [40, 40], 'word': 'sea sea'}}]).encode())
    told = user.wants(['check', 'twice'], 0)
    if not told.endswith('\n0 damages\n'):
        raise Failed(f'a value twice in a document: {told!r}')


def places_of_damage(user):
    """Damages one list: `check` must report its file, field, term, part and bytes."""
    docs = [{'body': 'sea ' * 3 + 'bird'}] * 3
    user.wants(['index', 'small', '--schema', user.write('ids.toml', IDS)], 0, given=lines(docs).encode())
    for version, name, segment in ((3, f'{0:016x}.idx', 'segment 0: '), (1, 'idx.0', '')):
        if version == 1:
            versions.to_first(user.path('small'))
        damages_list(user, os.path.join(user.path('small'), name), segment)


def damages_list(user, path, segment):
    """Damages a list in a file of postings, of a segment or of an index of version 1."""
    with open(path, 'rb') as file:
        text = file.read()
    # the number of tokens in 8 bytes, then documents and counts of `bird`, then those of `sea`
    bird, sea = bytes([0x80, 0x81, 0x81, 0x81, 0x81, 0x81]), bytes([0x80, 0x81, 0x81, 0x83, 0x83, 0x83])
    start = text.index(bird + sea)
    for place, byte, said in ((0, 0x00, f', field body, term bird: damaged frequencies, bytes {start}..{start + 6}'),
                              (7, 0x80, f', field body, term sea: damaged documents, bytes {start + 6}..{start + 12}'),
                              (8, 0x82, f', field body, term sea: document 3 is not in the index, bytes {start + 6}..{start + 12}'),
                              (-8, 13, f', field body: the field counts 13 tokens, but its terms have 12, bytes {start - 8}..{start}'),
                              (len(text) - start - 1, 0xff, f': damaged composite file, bytes 0..{len(text)}')):
        changed = bytearray(text)
        changed[start + place] = byte
        with open(path, 'wb') as file:
            file.write(changed)
        told = user.wants(['check', 'small'], 1)
        of_segment = ' of segment 0' if segment else ''
        if not told.startswith(f'small: the file of postings{of_segment} has another checksum') or f'\n{segment}the file of postings{said}\n' not in told:
            raise Failed(f'the list changed at {place}: {told!r}; wanted {said!r}')
    with open(path, 'wb') as file:
        file.write(text)


def stopped(user, docs):
    """A folder that can't be written, and a full disk: indexing must fail, and the existing index must
    stay."""
    schema = user.path('schema.toml')
    locked = user.path('locked')
    shutil.copytree(user.path('folder'), locked)
    os.chmod(locked, 0o555)
    os.chmod(user.folder, 0o755)

    def as_nobody():
        if os.getuid() == 0:
            os.setuid(65534)

    user.wants(['index', 'locked', '--schema', schema, 'a.jsonl'], 2, '', 'nequllpa: locked: the folder refused: PermissionDenied', before=as_nobody)
    user.wants(['check', 'locked'], 0)
    os.chmod(locked, 0o755)

    def room_for(size):
        def no_more():
            signal.signal(signal.SIGXFSZ, signal.SIG_IGN)
            resource.setrlimit(resource.RLIMIT_FSIZE, (size, size))
        return no_more

    sizes = sorted({os.path.getsize(os.path.join(locked, name)) for name in os.listdir(locked)})
    for size in [0, 1] + [size // 4 for size in sizes]:
        user.wants(['index', 'locked', '--schema', schema, 'b.jsonl'], 2, '', 'nequllpa: locked: the folder refused', before=room_for(size))
        told = user.wants(['check', 'locked'], 0)
        if not told.startswith(f'{len(docs)} documents; '):
            raise Failed(f'after a write with room for {size} bytes: {told!r}')
        user.wants(['index', 'new', '--schema', schema, 'b.jsonl'], 2, '', 'free some space', before=room_for(size))
        user.wants(['check', 'new'], 1, 'new: no index here\n')


def most_memory(user, words):
    """Runs the program, which must succeed. Returns its peak memory in bytes."""
    run, peak = subprocess.Popen([user.program, *words], cwd=user.folder, stdout=subprocess.DEVNULL, stderr=subprocess.DEVNULL), 0
    while run.poll() is None:
        with open(f'/proc/{run.pid}/status', encoding='utf-8') as status:
            found = [line.split() for line in status if line.startswith('VmHWM:')]
        peak = max([peak] + [int(words[1]) << 10 for words in found])
        time.sleep(0.05)
    if run.returncode != 0:
        raise Failed(f'{" ".join(words)}: status {run.returncode}')
    return peak


def measured(user, docs):
    """Prints how long indexing, opening and searching take."""
    text = lines(docs)
    size = len(text.encode())
    path, schema = user.write('all.jsonl', text), user.path('schema.toml')
    begun = time.time()
    peak = most_memory(user, ['index', 'large', '--schema', schema, path])
    indexed = time.time() - begun
    bytes_of = sum(os.path.getsize(os.path.join(user.path('large'), name)) for name in os.listdir(user.path('large')))
    word = max(texts.lists_of(docs[:200], 'body').items(), key=lambda item: len(item[1]))[0]
    times = []
    for command in (['search', 'large', f'body:{word}', '--count'], ['check', 'large']):
        begun = time.time()
        user.wants(command, 0)
        times.append(time.time() - begun)
    print(f'{len(docs)} documents, {size / 1e6:.1f} MB of JSON lines: {size / 1e6 / indexed:.1f} MB/s indexed with {peak / size:.1f} bytes of memory for each, '
          f'an index of {bytes_of / 1e6:.1f} MB, opened and searched in {times[0]:.2f} s, checked in {times[1]:.2f} s')


def main():
    large = float(sys.argv[1]) if len(sys.argv) > 1 else None
    if 'NEQULLPA' not in os.environ and not programs.build(PROGRAM):
        print('tests/folder: the program was not built')
        return 1
    chosen = random.Random(36)
    with tempfile.TemporaryDirectory() as folder:
        program = shutil.copy(os.environ.get('NEQULLPA', programs.program_of(PROGRAM)), os.path.join(folder, 'program'))
        user = User(program, folder)
        try:
            docs = list(texts.documents(texts.small_texts(), 100_000))
            indexes(user, docs)
            searches(user, docs, chosen)
            values(user, docs)
            dates(user)
            addresses(user)
            refusals(user, docs)
            unknown_keys(user)
            floats(user)
            batches(user)
            quiet(user)
            grows(user, docs, chosen)
            settles(user, docs)
            deletes(user)
            first_versions(user, docs)
            second_versions(user, docs)
            long_blocks(user, docs)
            changed_bits(user, random.Random(65536), 60)
            ids(user)
            damages(user, chosen, 82)
            values_twice(user)
            places_of_damage(user)
            stopped(user, docs)
            if large:
                measured(user, list(texts.documents(texts.large_texts(), large * 1e6)))
        except Failed as why:
            print(f'tests/folder: {why}')
            return 1
    print(f'tests/folder: {user.runs} runs of nequllpa over {len(docs)} documents')
    return 0


sys.exit(main())
