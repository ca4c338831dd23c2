"""Plays sessions of `segments_meaning.py` with the built program, and compares what its commands print with the meaning.

Every command commits at once. So a player keeps the operations since the last commit, plays them at the commit in their order,
and forgets them at a rollback. What has no command is left out: to flush documents without a commit, to merge some segments
(`merge` merges all of them, and in half of the sessions `add` merges the last ones), to ask for norms (`check` compares them with
the lists), and to keep a reader open (a process reads the index once)."""
import json
import multiprocessing
import os
import subprocess
import sys
import time

sys.path.insert(0, os.path.dirname(os.path.abspath(__file__)))
from segments_meaning import FIELD, SCHEMA, Meaning, doc_tokens, without
from users import Failed
TOML = '''\
tokenizer = "ascii"

[[field]]
name = "id"
type = "bytes"

[[field]]
name = "body"
type = "text"

[[field]]
name = "tag"
type = "text"
record = "freq"

[[field]]
name = "flag"
type = "text"
record = "basic"
fieldnorms = false

[[field]]
name = "n"
type = "u64"

[[field]]
name = "j"
type = "json"
'''


def side_by_side(function, tasks):
    """Yields the results of a function for some tasks, in their order, of as many processes as the machine has processors."""
    with multiprocessing.Pool(len(os.sched_getaffinity(0))) as pool:
        yield from pool.imap(function, tasks)


def run_all(tests, function, tasks, report):
    """Runs a function for some tasks side by side. It returns counts, and at last what differs, or None. Prints what differs, and
    a line that reports the sums of the counts. Returns the exit status."""
    begun, sums, wrong = time.time(), [], 0
    for *counts, why in side_by_side(function, tasks):
        sums = [before + count for before, count in zip(sums or [0] * len(counts), counts)]
        if why is not None:
            wrong += 1
            print(f'{tests}: {why}', flush=True)
    print(f'{tests}: {report(*sums)}, in {time.time() - begun:.0f} s; {wrong} differ')
    return 1 if wrong else 0


def term_of(field, key):
    """Returns the text of a key, as `terms` prints it."""
    kind = SCHEMA[field][1]
    if kind == 'text':
        return key.decode()
    if kind == 'u64':
        return str(int.from_bytes(key, 'big'))
    if kind == 'bytes':
        return key.hex()
    path, leaf = key.split(b'\0', 1)
    spelled = path.decode().replace('.', '\\.')
    return f'{spelled} s {leaf[1:].decode()}' if leaf[:1] == b's' else f'{spelled} i {int.from_bytes(leaf[1:], "big") - 2 ** 63}'


def text_of(query):
    """Returns the text of a query. All documents are those with any `id`."""
    kind, *parts = query
    if kind == 'all':
        return 'id:*'
    if kind == 'phrase':
        return f'{SCHEMA[parts[0]][0]}:"{" ".join(key.decode() for key in parts[1])}"' + (f'~{parts[2]}' if parts[2] else '')
    if kind == 'starred':
        return f'{SCHEMA[parts[0]][0]}:"{" ".join(key.decode() for key in parts[1])}"*'
    if kind == 'term':
        name, term = SCHEMA[parts[0]][0], term_of(*parts)
        if SCHEMA[parts[0]][1] != 'json':
            return f'{name}:{term}'
        path, _, leaf = term.split(' ')
        return f'{name}.{path}:"{leaf}"'
    return f'({text_of(parts[0])} {kind.upper()} {text_of(parts[1])})'


def line_of(doc):
    """Returns the JSON line of a document, whose id is written in hexadecimal digits."""
    return (json.dumps({**doc, 'id': doc['id'].encode().hex()}) + '\n').encode()


def rows_of(field, postings, with_positions):
    """Returns what `postings` prints."""
    rows = []
    for doc, count, positions in postings:
        row = [doc] + ([count] if SCHEMA[field][2] > 0 else []) + (positions if with_positions else [])
        rows.append(' '.join(map(str, row)) + '\n')
    return ''.join(rows)


class Player:
    """Plays operations in a folder of a room. Knows the documents that the folder has."""

    def __init__(self, program, room, chosen):
        self.program, self.room, self.chosen = program, room, chosen
        self.folder, self.docs, self.waiting, self.runs = 'folder', [], [], 0
        # half of the sessions keep all segments until they are told to merge; half index their first documents
        self.merging = chosen.choice([[], ['--no-merge']])
        self.is_indexed, self.adds_all = False, chosen.random() < 0.5
        with open(os.path.join(room, 'schema.toml'), 'w', encoding='utf-8') as file:
            file.write(TOML)

    def run(self, *words, given=b'', **more):
        self.runs += 1
        return subprocess.run([self.program, *words], input=given, stdout=subprocess.PIPE, stderr=subprocess.PIPE, cwd=self.room, timeout=300, **more)

    def wants(self, words, status, out, given=b''):
        done = self.run(*words, given=given)
        if done.returncode != status or done.stdout.decode() != out:
            raise Failed(f'{" ".join(words)}: status {done.returncode}, {done.stdout.decode()[-300:]!r}, {done.stderr.decode()[-300:]!r}; wanted {status}, {out[-300:]!r}')

    def play(self, operation):
        """Plays an operation, or keeps it for the next commit."""
        if operation[0] in ('add', 'delete'):
            self.waiting.append(operation)
        elif operation[0] == 'rollback':
            self.waiting = []
        elif operation[0] == 'merge':
            self.merge()
        else:
            for words, given, told, docs in self.commands():
                self.wants(words, 0, told, given)
                self.docs = docs

    def commands(self):
        """Returns the commands of a commit: each with its input, what it prints, and the documents after it."""
        made, docs, adds = [], self.docs, []

        def put_adds():
            text, count = b''.join(map(line_of, adds)), len(adds)
            if not self.is_indexed:
                self.is_indexed = True
                if not self.adds_all or not adds:
                    made.append((['index', self.folder, '--schema', 'schema.toml'], text, f'{count} documents indexed\n', docs + adds))
                    return
                made.append((['index', self.folder, '--schema', 'schema.toml'], b'', '0 documents indexed\n', docs))
            if adds:
                made.append((['add', self.folder, *self.merging], text, f'{count} documents added\n', docs + adds))

        for operation in [*self.waiting, ('end',)]:
            if operation[0] == 'add':
                adds.append(operation[1])
                continue
            put_adds()
            docs, adds = docs + adds, []
            if operation[0] == 'delete':
                left = without(docs, *operation[1:])
                words = ['delete', self.folder, SCHEMA[operation[1]][0], term_of(*operation[1:])]
                made.append((words, b'', f'{len(docs) - len(left)} documents deleted\n', left))
                docs = left
        self.waiting = []
        return made

    def merge(self):
        """Merges all segments. Which there were is not part of the meaning."""
        if self.is_indexed:
            done = self.run('merge', self.folder)
            if done.returncode != 0 or not done.stdout.endswith(f', {len(self.docs)} documents\n'.encode()):
                raise Failed(f'merge: status {done.returncode}, {done.stdout!r}, {done.stderr!r}; wanted {len(self.docs)} documents')

    def compares(self, docs, queries, share):
        """Compares the answers of the folder with those of some documents: a random share of the questions, and of the postings of
        terms half of that."""
        if not self.is_indexed:
            return
        meaning, asked = Meaning(docs), lambda: self.chosen.random() < share
        if share == 1 or self.chosen.random() < 0.5:
            self.is_sound(docs)
        for field, (name, kind, _) in enumerate(SCHEMA):
            terms = meaning.terms(field)
            if asked():
                self.wants(['terms', self.folder, name], 0, ''.join(f'{count} {term_of(field, key)}\n' for key, count in terms))
            for key in [key for key, _ in terms]:
                if self.chosen.random() < share / 2:
                    self.has_postings(meaning, field, key)
        if asked():
            self.has_tokens(meaning)
            self.wants(['postings', self.folder, 'body', 'none'], 1, '')
        for query in queries:
            if asked():
                self.finds(meaning, query)

    def is_sound(self, docs):
        """Looks that the index has so many documents and no damage."""
        done = self.run('check', self.folder)
        told = done.stdout.decode()
        if done.returncode != 0 or not told.startswith(f'{len(docs)} documents; each file is as it was saved\n') or not told.endswith('\n0 damages\n'):
            raise Failed(f'check: status {done.returncode}, {told!r}, {done.stderr!r}; wanted {len(docs)} documents')

    def has_postings(self, meaning, field, key):
        """Compares the postings of a term, mostly with positions."""
        with_positions = self.chosen.random() < 0.7
        words = ['postings', self.folder, SCHEMA[field][0], term_of(field, key), *(['--positions'] if with_positions else [])]
        self.wants(words, 0, rows_of(field, meaning.postings(field, key), with_positions))

    def has_tokens(self, meaning):
        """Compares the number of terms and tokens of each field."""
        done = self.run('fields', self.folder)
        rows = [row for row in done.stdout.decode().splitlines() if not row.startswith('  ')]
        for field, (name, kind, _) in enumerate(SCHEMA):
            end = f': {len(meaning.terms(field))} terms, {meaning.num_tokens(field)} tokens'
            if not rows[field:field + 1] or not rows[field].startswith(f'{field} {name} {kind} ') or not rows[field].endswith(end):
                raise Failed(f'fields: {rows[field:field + 1]}; wanted {name}{end}')

    def finds(self, meaning, query):
        """Compares the documents of a query: their numbers, their number, or their ids."""
        found, text = sorted(meaning.match(query)), text_of(query)
        ids = [name.encode().hex() for name in meaning.ids(found)]
        options, out = self.chosen.choice([
            ([], ''.join(f'{doc}\n' for doc in found)),
            (['--count'], f'{len(found)}\n'),
            (['--ids'], ''.join(f'{name}\n' for name in ids)),
            (['--ids', '--json'], ''.join(f'{{"doc":{doc},"id":"{name}"}}\n' for doc, name in zip(found, ids))),
        ])
        self.wants(['search', self.folder, text, *options], 0 if found else 1, out)
