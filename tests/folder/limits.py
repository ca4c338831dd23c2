#!/usr/bin/env python3
"""Runs `nequllpa` on wide and deep input with a small stack: 1,000 fields, queries of 10,000 words, nested
parentheses, with and without the best documents of all."""
import json
import os
import resource
import subprocess
import sys
import tempfile
import time

sys.dont_write_bytecode = True
HERE = os.path.dirname(os.path.abspath(__file__))
sys.path.insert(0, os.path.join(os.path.dirname(os.path.dirname(HERE)), 'tools'))
import programs

PROGRAM = 'nequllpa_cli'
FIELDS = 1_000
WORDS = 10_000
NESTING = 128
# More documents than any index has.
MOST_DOCS = 1 << 31
# The stack of the program in bytes. A search of that many words once took 36 kB for each word.
STACK = 1 << 20


class Failed(Exception):
    """A result that differs from the expected one."""


def small_stack():
    resource.setrlimit(resource.RLIMIT_STACK, (STACK, STACK))


def wants(program, room, words, status, out, err='', given=b'', before=small_stack):
    """Runs the program and checks its status, its output, and that standard error contains `err`."""
    told = f'{[word[:60] for word in words]}'
    try:
        done = subprocess.run([program, *words], input=given, stdout=subprocess.PIPE, stderr=subprocess.PIPE, cwd=room, timeout=110, preexec_fn=before)
    except subprocess.TimeoutExpired:
        raise Failed(f'{told}: no end within 110 seconds') from None
    if done.returncode != status or done.stdout.decode() != out or err not in done.stderr.decode():
        raise Failed(f'{told}: status {done.returncode}, {done.stdout[-200:]!r}, {done.stderr[-300:]!r}; wanted {status}, {out!r}, {err!r}')


def queries(program, room):
    """Queries of many words in one field, of one word in many fields, and of nested parentheses."""
    row = [f'w{number}' for number in range(WORDS)]
    for query, found in (
            (' '.join(row), [0, 1]),
            (' OR '.join(row), [0, 1]),
            (' AND '.join(['common'] * WORDS), [0, 1]),
            ('common' + ' AND -none' * WORDS, [0, 1]),
            ('common ' + ' '.join(f'-{word}' for word in row[3:]), [1]),
            ('"' + ' '.join(['common'] * 20) + '"', [])):
        wants(program, room, ['search', 'folder', query, '--field', 'f0'], 0 if found else 1, ''.join(f'{doc}\n' for doc in found))
    wants(program, room, ['search', 'folder', 'common'], 0, '0\n1\n2\n')
    wants(program, room, ['search', 'folder', ' AND '.join(f'f{number}:common' for number in range(FIELDS))], 0, '0\n')
    wants(program, room, ['search', 'folder', 'common', '--positions', '--limit', '1', '--field', 'f1'], 0, '0\tf1:common 0\n')
    for query, found in (
            ('(' * NESTING + 'common' + ')' * NESTING, [0, 1]),
            ('(' * NESTING + 'common' + ' none)' * NESTING, [0, 1]),
            ('common AND -(none OR (' * (NESTING // 2) + 'none' + '))' * (NESTING // 2), []),
            ('common w1 AND w3 AND -none AND (' * NESTING + 'w3' + ') -none' * NESTING, [0, 1]),
            ('common w9 AND w3 AND -(' * NESTING + 'w3' + ')' * NESTING, [0, 1])):
        wants(program, room, ['search', 'folder', query, '--field', 'f0'], 0 if found else 1, ''.join(f'{doc}\n' for doc in found), before=None)
    wants(program, room, ['search', 'folder', '(' * (NESTING + 1) + 'common' + ')' * (NESTING + 1)], 2, '', f'at byte {NESTING}')


def best(program, room):
    """The best documents of queries of many words: as many as there are, by score descending and document ascending."""
    row = [f'w{number}' for number in range(WORDS)]
    for query, found in ((' '.join(row), [0, 1]), (' OR '.join(row), [0, 1]), (' AND '.join(['common'] * WORDS), [0, 1]), ('common' + ' AND -none' * WORDS, [0, 1]), ('common ' + ' '.join(f'-{word}' for word in row[3:]), [1])):
        done = subprocess.run([program, 'search', 'folder', query, '--field', 'f0', '--top', str(MOST_DOCS), '--json'], stdout=subprocess.PIPE, stderr=subprocess.PIPE, cwd=room, timeout=110, preexec_fn=small_stack)
        lines = [json.loads(line) for line in done.stdout.decode().splitlines()]
        order = [(-line['units'], line['doc']) for line in lines]
        if done.returncode != 0 or order != sorted(order) or sorted(line['doc'] for line in lines) != found:
            raise Failed(f'{query[:60]}: status {done.returncode}, {lines}, {done.stderr[-300:]!r}; wanted documents {found}')


def main():
    if 'NEQULLPA' not in os.environ and not programs.build(PROGRAM):
        print('tests/folder: the program was not built')
        return 1
    program, begun = os.environ.get('NEQULLPA', programs.program_of(PROGRAM)), time.time()
    with tempfile.TemporaryDirectory() as room:
        with open(os.path.join(room, 'schema.toml'), 'w', encoding='utf-8') as file:
            file.write(''.join(f'[[field]]\nname = "f{number}"\ntype = "text"\n\n' for number in range(FIELDS)))
        docs = [{f'f{number}': 'common w3' if number == 0 else 'common' for number in range(FIELDS)}, {'f0': 'common w1'}, {'f5': 'w2 common w9999'}]
        try:
            given = ''.join(json.dumps(doc) + '\n' for doc in docs).encode()
            wants(program, room, ['index', 'folder', '--schema', 'schema.toml'], 0, '3 documents indexed\n', given=given)
            queries(program, room)
            best(program, room)
        except Failed as why:
            print(f'tests/folder: {why}')
            return 1
    print(f'tests/folder: {FIELDS} fields, queries of {WORDS} words and {NESTING} parentheses in one another, on a stack of {STACK >> 20} MiB, in {time.time() - begun:.0f} s')
    return 0


sys.exit(main())
