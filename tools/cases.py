"""Runs the program `iiq` on the cases of tests/iiq, with wrong arguments, on random queries and on a long path. Each
part returns how many tests passed and how many failed."""
import glob
import os
import re
import shutil
import subprocess
import tempfile

import commands
import programs

TOP = programs.TOP
# The last line of `./iiq --unproved` on standard error.
LAST_LINE = '--prove proves and builds the program'


def inputs():
    """Returns the input files of all cases, sorted by folder."""
    return sorted(glob.glob(os.path.join(TOP, 'tests', 'iiq', '*', '*.in')))


def expected(case):
    """Returns the output and the status that the program must give for a case."""
    with open(case[:-3] + '.out', 'rb') as output:
        text = output.read()
    return text, 1 if any(line.startswith(b'error') for line in text.split(b'\n')) else 0


def arguments(case):
    """Returns the arguments of the program for a case: the lines of its file .args, if it has one."""
    try:
        with open(case[:-3] + '.args', encoding='utf-8') as words:
            return words.read().splitlines()
    except FileNotFoundError:
        return []


def difference(case):
    """Returns how the program's answer to a case differs from the expected one, or None."""
    with open(case, 'rb') as given:
        text = given.read()
    output, status = expected(case)
    try:
        run = subprocess.run([programs.program_of('iiq'), *arguments(case)], input=text, stdout=subprocess.PIPE, stderr=subprocess.PIPE, timeout=120)
    except subprocess.TimeoutExpired:
        return 'no end within 120 seconds'
    if run.stdout != output:
        return 'other output'
    if run.returncode != status:
        return f'status {run.returncode} instead of {status}'
    if run.stderr:
        return 'something on standard error'
    return None


def proved_cases():
    """Runs the program on each tests/iiq/FOLDER/NAME.in, with the arguments of NAME.args. The output must be
    NAME.out."""
    passed = failed = 0
    if not programs.build('iiq'):
        print('tests/iiq: the program was not built')
        return 0, 1
    for case in inputs():
        why = difference(case)
        if why is None:
            passed += 1
        else:
            failed += 1
            print(f'{os.path.relpath(case, TOP)}: {why}')
    print(f'tests/iiq: {passed} passed, {failed} failed')
    return passed, failed


def wrong_arguments():
    """Runs the program with wrong arguments. It must print its usage alone, and end with status 2."""
    passed = failed = 0
    if not programs.build('iiq'):
        print('wrong arguments of iiq: the program was not built')
        return 0, 1
    for words in ([''], ['--stric'], ['--strictly'], ['--strict' * 1000], ['--strict', ''], ['--strict', '--strict']):
        run = subprocess.run([programs.program_of('iiq'), *words], input=b'ids 1\n', stdout=subprocess.PIPE, stderr=subprocess.PIPE)
        if (run.stdout, run.stderr, run.returncode) == (b'', b'usage: iiq [--strict]\n', 2):
            passed += 1
        else:
            failed += 1
            print(f'{words}: status {run.returncode}, {run.stdout!r}, {run.stderr!r}')
    print(f'wrong arguments of iiq: {passed} refused, {failed} taken')
    return passed, failed


def random_queries():
    """Runs the program on random queries. Each answer must be that of a plain filter over all documents."""
    return commands.run_scripts([os.path.join(TOP, 'tests', 'queries', 'program.py')])


def long_path():
    """Runs the program on a path of a million dots with a small stack: no line may need a deep recursion."""
    path = '.' * 1_000_000
    given = f'leaf 0 {path} i 5\n? leaf b {path} i 5\n? leaf b . i 5\n'
    if not programs.build('iiq'):
        print('a path of a million dots: the program was not built')
        return 0, 1
    run = subprocess.run(['sh', '-c', 'ulimit -s 1024; exec "$0"', programs.program_of('iiq')], input=given.encode(),
                         stdout=subprocess.PIPE, stderr=subprocess.PIPE)
    is_right = (run.stdout, run.stderr, run.returncode) == (b'0\nnone\n', b'', 0)
    print(f'a path of a million dots: {"found" if is_right else "another answer"}')
    return (1, 0) if is_right else (0, 1)


def chosen_cases():
    """Returns up to three cases of each folder, of those without arguments."""
    folders = {}
    for case in inputs():
        if arguments(case):
            continue
        folders.setdefault(os.path.dirname(case), []).append(case)
    return [case for found in folders.values() for case in found[:: max(1, len(found) // 3)][:3]]


def tried_cases():
    """Runs `rt try` on the chosen cases. Returns their names, each with whether its output and status were right."""
    statuses = {}
    with tempfile.TemporaryDirectory() as folder:
        for case in chosen_cases():
            name = os.path.relpath(case, TOP).replace(os.sep, '-')[:-3]
            shutil.copyfile(case, os.path.join(folder, name))
            shutil.copyfile(case[:-3] + '.out', os.path.join(folder, name + '.stdout'))
            statuses[name] = expected(case)[1]
        run = subprocess.run(['rt', 'try', '--cases', folder], cwd=os.path.join(TOP, 'crates', 'iiq'),
                             stdout=subprocess.PIPE, stderr=subprocess.STDOUT, text=True)
    return {name: re.search(rf'^case={name} run=ended status={status} .*output=expected', run.stdout, re.M) is not None
            for name, status in statuses.items()}


def unproved_command():
    """Runs `./iiq --unproved` on the last case. Returns whether its output and status are right, and prints them if not."""
    last = inputs()[-1]
    with open(last, 'rb') as given:
        run = subprocess.run([os.path.join(TOP, 'iiq'), '--unproved', *arguments(last)], stdin=given, stdout=subprocess.PIPE, stderr=subprocess.PIPE)
    lines = run.stderr.decode().splitlines()
    if (run.stdout, run.returncode) == expected(last) and 1 <= len(lines) <= 2 and lines[-1].endswith(LAST_LINE):
        return True
    print(f'./iiq --unproved: status {run.returncode}, {run.stderr.decode()}')
    return False


def unproved_cases():
    """Compares unproved runs of the program with the expected output and status: `rt try` on cases of each folder,
    and `./iiq --unproved` on one case."""
    passed = failed = 0
    for name, is_right in tried_cases().items():
        if is_right:
            passed += 1
        else:
            failed += 1
            print(f'{name}: another answer by an unproved run')
    if unproved_command():
        passed += 1
    else:
        failed += 1
    print(f'unproved runs: {passed} passed, {failed} failed')
    return passed, failed
