#!/usr/bin/env python3
"""Runs each command of `nequllpa` once on input of a large size, with ample memory: 1,000,000 documents, 100,000 words
and 1,000,000 numbers, 10,000 fields, a text of 10 MB, a document of 50 MB, a query of 12,000 words. No command may fail with `out of
memory`, which every contract allows, and each answer must be the one that the numbers of the input give.

    sizes.py          as the gate runs it
    sizes.py PARTS    with that part of each size, for an unproved program"""
import json
import os
import subprocess
import sys
import tempfile
import time

sys.dont_write_bytecode = True
HERE = os.path.dirname(os.path.abspath(__file__))
sys.path.insert(0, os.path.join(os.path.dirname(os.path.dirname(HERE)), 'tools'))
import programs

PROGRAM = 'nequllpa_cli'
DOCS = 1_000_000
WORDS = 100_000
FIELDS = 10_000
TEXT = 2_500_000  # words of 3 letters and a space
DOCUMENT = 50_000_000  # bytes
ASKED = 12_000  # an argument has at most 128 KB
SCHEMA = '[[field]]\nname = "word"\ntype = "text"\n\n[[field]]\nname = "number"\ntype = "u64"\n\n[[field]]\nname = "even"\ntype = "bool"\n'


class Failed(Exception):
    """A result that differs from the expected one."""


class User:
    """A user who runs the program in a folder."""

    def __init__(self, program, room):
        self.program, self.room, self.runs = program, room, 0

    def wants(self, words, out=None, given=b'', status=0):
        """Runs the program, checks its status and, if it is given, its output, and returns the output."""
        self.runs += 1
        done = subprocess.run([self.program, *map(str, words)], input=given, stdout=subprocess.PIPE, stderr=subprocess.PIPE, cwd=self.room, timeout=300)
        self.told = done.stderr.decode()
        if done.returncode != status or out is not None and done.stdout.decode() != out:
            raise Failed(f'{[str(word)[:60] for word in words]}: status {done.returncode}, {done.stdout[:200]!r}, {done.stderr[-300:]!r}')
        return done.stdout.decode()

    def index(self, folder, schema, lines):
        """Indexes lines into a folder, and checks the folder."""
        with open(os.path.join(self.room, f'{folder}.toml'), 'w', encoding='utf-8') as file:
            file.write(schema)
        self.wants(['index', folder, '--schema', f'{folder}.toml'], f'{len(lines)} documents indexed\n', '\n'.join(lines).encode())
        if not self.wants(['check', folder]).endswith('\n0 damages\n'):
            raise Failed(f'check: damages in {folder}')
        self.tells_progress(folder)

    def tells_progress(self, folder):
        """Looks that the last `check` said how far it was if the files have 16 MiB or more, and that it doesn't with --quiet."""
        sizes = {name: os.path.getsize(os.path.join(self.room, folder, name)) for name in os.listdir(os.path.join(self.room, folder)) if name.count('.') == 1}
        segments, total = sorted({name.split('.')[0] for name in sizes}), sum(sizes.values())
        said, before = '', 0
        for number, segment in enumerate(segments):
            for what in ('files', 'lists'):
                said += f'nequllpa: segment {number + 1} of {len(segments)}, its {what}; {before // 1000000} of {-(-total // 1000000)} MB checked\n'
            before += sum(size for name, size in sizes.items() if name.startswith(segment))
        if self.told != (said if total >= 16 << 20 else ''):
            raise Failed(f'check: {self.told!r}; wanted {said!r} of {total} bytes')
        self.wants(['check', folder, '--quiet'])
        if self.told:
            raise Failed(f'check --quiet: {self.told!r}')


def numbered(docs):
    """Returns the documents as lines, one number a line."""
    return ''.join(f'{doc}\n' for doc in docs)


def many_documents(user, docs, words, asked):
    """Many documents: each has one of the words, its own number, and whether that is even."""
    user.index('docs', SCHEMA, [f'{{"word": "w{doc % words}", "number": {doc}, "even": {str(doc % 2 == 0).lower()}}}' for doc in range(docs)])
    last, seven = docs - 1, range(7, docs, words)
    user.wants(['search', 'docs', 'w7'], numbered(seven))
    user.wants(['search', 'docs', 'w7', '--positions', '--limit', '1'], '7\tword:w7 0\n')
    user.wants(['search', 'docs', 'w7', '--ids', '--limit', '1'], status=2)
    user.wants(['search', 'docs', f'number:{last}', '--json'], f'{{"doc":{last}}}\n')
    user.wants(['search', 'docs', 'even:true', '--count'], f'{(docs + 1) // 2}\n')
    user.wants(['search', 'docs', 'even:false OR even:true', '--count'], f'{docs}\n')
    user.wants(['search', 'docs', 'even:true AND w8'], numbered(doc for doc in range(8, docs, words) if doc % 2 == 0))
    user.wants(['search', 'docs', 'even:true AND -w8', '--count'], f'{(docs + 1) // 2 - len([doc for doc in range(8, docs, words) if doc % 2 == 0])}\n')
    some = min(asked, words)
    user.wants(['search', 'docs', ' OR '.join(f'w{word}' for word in range(some)), '--count'], f'{sum(doc % words < some for doc in range(docs))}\n')
    user.wants(['postings', 'docs', 'word', 'w7', '--positions'], ''.join(f'{doc} 1 0\n' for doc in seven))
    user.wants(['postings', 'docs', 'even', 'true'], numbered(range(0, docs, 2)))
    if user.wants(['terms', 'docs', 'word']).count('\n') != words or user.wants(['terms', 'docs', 'number']).count('\n') != docs:
        raise Failed('terms: another number of them')
    user.wants(['terms', 'docs', 'even', '--prefix', 'true'], f'{(docs + 1) // 2} true\n')
    if user.wants(['terms', 'docs', 'number', '--top', '1000']).count('\n') != min(1000, docs):
        raise Failed('terms: another number of the most frequent ones')
    user.wants(['fields', 'docs'])
    if f'{docs} documents' not in user.wants(['stats', 'docs']):
        raise Failed('stats: another number of documents')


def many_fields(user, fields):
    """Many fields: the first document has a word in each of them, the second one in the last of them."""
    user.index('fields', ''.join(f'[[field]]\nname = "f{number}"\ntype = "text"\n\n' for number in range(fields)),
               [json.dumps({f'f{number}': 'all' for number in range(fields)}), json.dumps({f'f{fields - 1}': 'last'})])
    user.wants(['search', 'fields', 'all'], '0\n')
    user.wants(['search', 'fields', 'all last'], '0\n1\n')
    user.wants(['search', 'fields', f'f{fields - 1}:last'], '1\n')
    if user.wants(['fields', 'fields']).count('\n') < fields:
        raise Failed('fields: too few of them')


def long_text(user, text):
    """A long text, in which every tenth word is `ten`, and `odd end` is its end."""
    user.index('text', '[[field]]\nname = "body"\ntype = "text"\n', ['{"body": "' + 'one one one one one one one one one ten ' * (text // 10) + 'odd end"}'])
    user.wants(['search', 'text', '"ten odd end"'], '0\n')
    user.wants(['search', 'text', '"one odd"'], '', status=1)
    user.wants(['postings', 'text', 'body', 'ten', '--positions'], f'0 {text // 10} {" ".join(str(place) for place in range(9, text // 10 * 10, 10))}\n')


def large_document(user, size):
    """A document of many bytes, whose words have capitals."""
    text = 'The old man and the SEA. ' * (size // 25) + 'odd end'
    user.index('large', '[[field]]\nname = "body"\ntype = "text"\n', [json.dumps({'body': text})])
    user.wants(['search', 'large', '"THE sea odd"'], '0\n')
    user.wants(['search', 'large', '"sea odd old"'], '', status=1)
    user.wants(['terms', 'large', 'body'], ''.join(f'1 {word}\n' for word in ('and', 'end', 'man', 'odd', 'old', 'sea', 'the')))
    user.wants(['postings', 'large', 'body', 'the'], f'0 {size // 25 * 2}\n')
    user.wants(['postings', 'large', 'body', 'odd', '--positions'], f'0 1 {size // 25 * 6}\n')


def main():
    if 'NEQULLPA' not in os.environ and not programs.build(PROGRAM):
        print('tests/folder: the program was not built')
        return 1
    begun, parts = time.time(), int(sys.argv[1]) if len(sys.argv) > 1 else 1
    with tempfile.TemporaryDirectory() as room:
        user = User(os.environ.get('NEQULLPA', programs.program_of(PROGRAM)), room)
        try:
            many_documents(user, DOCS // parts, WORDS // parts, ASKED)
            many_fields(user, FIELDS // parts)
            long_text(user, TEXT // parts)
            large_document(user, DOCUMENT // parts)
        except Failed as why:
            print(f'tests/folder: {why}')
            return 1
    print(f'tests/folder: {DOCS // parts} documents, {WORDS // parts} words, {FIELDS // parts} fields, a text of {TEXT // parts * 4 / 1e6:.0f} MB, a document of {DOCUMENT // parts / 1e6:.0f} MB, {user.runs} runs, in {time.time() - begun:.0f} s')
    return 0


sys.exit(main())
