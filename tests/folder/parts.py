#!/usr/bin/env python3
"""Searches an index whose files have many blocks, of which a query reads few. Each answer must be the one that the complete
files give (`search --batch` reads these). Then damages some blocks, one after another: a search must answer as before, or name the
damaged file as `check` does, which must name it each time.

    parts.py          as the gate runs it
    parts.py PART     with that part of the documents, for an unproved program"""
import json
import os
import random
import sys

sys.dont_write_bytecode = True
sys.path.insert(0, os.path.dirname(os.path.abspath(__file__)))
import users

DOCS = 20_000
LATER = 100  # documents of a second segment
BLOCK = 4_096
SCHEMA = '[[field]]\nname = "title"\ntype = "text"\n\n[[field]]\nname = "body"\ntype = "text"\n\n[[field]]\nname = "year"\ntype = "u64"\n'
QUERIES = ('w5', 'w3000', 'w1 AND w2', 'w7 OR w900 OR title:w3', '"w1 w2"', '"w1 w2"~3', 'title:w5 NOT body:w3', 'year:1990', '*', 'nothing',
           'w299*', 'year:[1990 TO 1992]', ' OR '.join(f'w{place}' for place in range(40)))
OPTIONS = ((), ('--count',), ('--top', '5'))
FILES = {'term': 'terms', 'idx': 'postings', 'pos': 'positions', 'norm': 'field norms'}


def answers_of(user):
    """Returns the status and output of each query, with each option."""
    done = [user.run('search', 'index', query, '--json', *option) for option in OPTIONS for query in QUERIES]
    return [(one.returncode, one.stdout) for one in done]


def indexes(user, count):
    """Indexes documents of common and rare words, in two segments."""
    chosen = random.Random(1)
    words = [f'w{place}' for place in range(5000)]
    lines = [json.dumps({'title': ' '.join(chosen.choices(words[:300], k=5)), 'year': 1980 + number % 40,
                         'body': ' '.join(words[min(int(chosen.expovariate(0.003)), 4999)] for _ in range(40))}) for number in range(count)]
    user.write('schema.toml', SCHEMA)
    user.wants(['index', 'index', '--schema', 'schema.toml'], 0, given='\n'.join(lines[:-LATER]).encode())
    user.wants(['add', 'index', '--no-merge'], 0, given='\n'.join(lines[-LATER:]).encode())


def answers_as_complete(user):
    """Compares the answers with those of the complete files. Returns them."""
    answers = answers_of(user)
    for place, option in enumerate(OPTIONS):
        told = user.wants(['search', 'index', '--batch', *option], 0, given='\n'.join(QUERIES).encode())
        for query, line, (status, out) in zip(QUERIES, told.splitlines(), answers[place * len(QUERIES):]):
            whole, got = json.loads(line), [json.loads(row) for row in out.splitlines()]
            wanted = [{'count': whole['count']}] if option == ('--count',) else whole['docs']
            if got != wanted or status not in (0, 1):
                raise users.Failed(f'{query} {option}: status {status}, {out[:300]!r}; the complete files give {str(wanted)[:300]}')
    return answers


def some_blocks(length):
    """Returns where blocks of a file begin: the first, the last, and some between them."""
    blocks = range(0, length, BLOCK)
    return sorted({*blocks[:2], *blocks[-2:], *random.Random(length).sample(blocks, min(12, len(blocks)))})


def damages(user, answers):
    """Damages some blocks of the files of the first segment, and their lengths. Returns how many answers stayed, and how many
    named the file."""
    stayed = named = 0
    for kind, what in FILES.items():
        path = user.path('index', f'{0:016x}.{kind}')
        with open(path, 'rb') as file:
            text = file.read()
        changed = [(text[:place] + bytes([text[place] ^ 1]) + text[place + 1:], 'checksum') for place in some_blocks(len(text))]
        for damaged, why in changed + [(text[:-1], 'length'), (text + b'\0', 'length')]:
            with open(path, 'wb') as file:
                file.write(damaged)
            said = f'index: the file of {what} of segment 0 has another {why} than meta says'
            if said not in user.wants(['check', 'index'], 1).decode():
                raise users.Failed(f'check: no {said}')
            for got, before in zip(answers_of(user), answers):
                if got == before:
                    stayed += 1
                elif got == (1, f'{said}\n'.encode()):
                    named += 1
                else:
                    raise users.Failed(f'{said}: {got}; before it {before}')
        with open(path, 'wb') as file:
            file.write(text)
    if answers_of(user) != answers:
        raise users.Failed('other answers after the files were restored')
    return stayed, named


def parts(user):
    """Searches the parts of an index. Returns what it tells."""
    indexes(user, DOCS // int(sys.argv[1]) if sys.argv[1:] else DOCS)
    stayed, named = damages(user, answers_as_complete(user))
    if stayed == 0 or named == 0:
        raise users.Failed(f'{stayed} answers stayed, {named} named a file')
    return f'of the answers beside a damaged block {stayed} stayed, and {named} named its file'


if __name__ == '__main__':
    sys.exit(users.judged(parts))
