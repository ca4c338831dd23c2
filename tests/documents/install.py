#!/usr/bin/env python3
"""Installs the proved program into a folder, and runs it there without the tree, the kit and the environment."""
import os
import shutil
import subprocess
import sys
import tempfile

sys.dont_write_bytecode = True
TOP = os.path.dirname(os.path.dirname(os.path.dirname(os.path.abspath(__file__))))
SCHEMA = '[[field]]\nname = "body"\ntype = "text"\n'


def install(*words, top=TOP):
    """Runs `./nequllpa install`. Returns its exit status and output."""
    run = subprocess.run([os.path.join(top, 'nequllpa'), 'install', *words], stdout=subprocess.PIPE, stderr=subprocess.PIPE, text=True)
    return run.returncode, run.stdout


def answers(folder):
    """Returns what the installed program answers for a document."""
    with open(os.path.join(folder, 'schema.toml'), 'w', encoding='utf-8') as file:
        file.write(SCHEMA)
    calls = (['index', 'sea', '--schema', 'schema.toml'], ['search', 'sea', 'old'])
    return [subprocess.run([os.path.join(folder, 'nequllpa'), *words], cwd=folder, env={}, input=b'{"body": "the old sea"}\n', stdout=subprocess.PIPE).stdout for words in calls]


def mistakes(folder):
    place = os.path.join(folder, 'nequllpa')
    if install(folder) != (0, place + '\n') or install(folder) != (0, place + '\n'):
        yield 'it was not installed twice'
    elif answers(folder) != [b'1 documents indexed\n', b'0\n']:
        yield 'the installed program answers otherwise'
    if sorted(os.listdir(folder)) != ['nequllpa', 'schema.toml', 'sea']:
        yield 'other files were left'
    if install(os.path.join(folder, 'missing'))[0] != 2 or install()[0] != 2 or install(folder, folder)[0] != 2:
        yield 'a wrong argument was taken'
    tree = os.path.join(folder, 'tree')
    shutil.copytree(TOP, tree, symlinks=True, ignore=shutil.ignore_patterns('.git', 'out'))
    if install(folder, top=tree) != (2, ''):
        yield 'a program that is not built was installed'


def main():
    with tempfile.TemporaryDirectory() as folder:
        found = list(mistakes(folder))
    for mistake in found:
        print(f'tests/documents: install: {mistake}')
    print(f'tests/documents: install: {len(found)} mistakes')
    return 1 if found else 0


sys.exit(main())
