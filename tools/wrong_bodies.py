"""Wrong bodies and weaker numbers that the prover must refuse. Each part returns how many tests passed and how
many failed.

An edit file has lines `file: FILE`, the name of a file in the edit's crate, and pairs of lines `old: TEXT` and
`new: TEXT`. The pairs are applied one after the other."""
import glob
import os
import re
import shutil
import subprocess
import tempfile

import commands
import programs

TOP = programs.TOP
EDITS = os.path.join(TOP, 'tests', 'edits')
WEAKENED = os.path.join(TOP, 'tests', 'weakened')


def pairs_of(path):
    """Returns the pairs of an edit file or of tests/weakened. A pair has `file`, `old` and `new`, and in
    tests/weakened it may have `refused`. What the file doesn't say is missing."""
    pairs, file = [], {}
    with open(path, encoding='utf-8') as lines:
        for line in lines:
            found = re.match(r'(file|old|new|refused):(?: (.*))?$', line)
            word, rest = (found.group(1), found.group(2) or '') if found else ('', '')
            if word == 'file':
                file = {'file': rest}
            elif word == 'old' or word == 'new' and (not pairs or 'new' in pairs[-1]):
                pairs.append({**file, word: rest})
            elif word and pairs:
                pairs[-1][word] = rest
    return pairs


def edited(pairs, folder):
    """Applies pairs to the files of a folder without writing them. Returns the new texts by path, and why a pair
    doesn't apply, or None."""
    old_texts, texts = {}, {}
    for pair in pairs:
        if not {'file', 'old', 'new'} <= set(pair):
            return texts, f'a pair without {" and ".join(sorted({"file", "old", "new"} - set(pair)))}: {pair}'
        path = os.path.join(folder, pair['file'])
        if path not in texts:
            try:
                with open(path, encoding='utf-8') as text:
                    old_texts[path] = texts[path] = text.read()
            except OSError:
                return texts, f'no file {pair["file"]}'
        count = texts[path].count(pair['old'])
        if count != 1:
            return texts, f'found {count} times instead of once in {pair["file"]}: {pair["old"]}'
        texts[path] = texts[path].replace(pair['old'], pair['new'])
    return texts, None if texts != old_texts else 'it changes nothing'


def edit_files():
    """Returns each edit file with the folder of its crate."""
    own = {path: os.path.dirname(os.path.dirname(path)) for path in glob.glob(os.path.join(TOP, 'crates', '*', 'must-fail', '*.edit'))}
    further = {path: os.path.join(TOP, 'crates', os.path.basename(os.path.dirname(path))) for path in glob.glob(os.path.join(EDITS, '*', '*.edit'))}
    return sorted({**own, **further}.items())


def applied_edits():
    """Checks that each edit applies to the sources: at its turn, each `old` must occur exactly once in its file."""
    failed, files = 0, edit_files()
    for path, crate in files:
        why = edited(pairs_of(path), crate)[1]
        if why is not None:
            failed += 1
            print(f'{os.path.relpath(path, TOP)}: {why}')
    if failed == 0:
        print(f'edits: {len(files)} files apply')
    return (0, 1) if failed else (1, 0)


def copied_tree(folder, *left_out):
    """Copies the repository into a folder, without the files of these names. Returns the path of the copy."""
    copy = os.path.join(folder, 'tree')
    shutil.copytree(TOP, copy, symlinks=True, ignore=shutil.ignore_patterns(*left_out))
    return copy


def refused_edits(crates, tree):
    """Tries the edits of must-fail/ in some crates of a tree. The kit prints a line for each, and no count."""
    status, lines = commands.run_kit(['must-fail', *crates], tree)
    refused = sum(': refused, as it must be' in line for line in lines)
    expected = sum(len(glob.glob(os.path.join(tree, 'crates', crate, 'must-fail', '*.edit'))) for crate in crates)
    return refused, max(expected - refused, 1 if status != 0 else 0)


def tried_edits(crates):
    """Tries the edits of tests/edits, of all crates if none is named, in a copy of the repository."""
    crates = crates or sorted(os.listdir(EDITS))
    unknown = [crate for crate in crates if not os.path.isdir(os.path.join(EDITS, crate))]
    if unknown:
        print(f'tests/edits: nothing for {" ".join(unknown)}')
        return 0, 1
    with tempfile.TemporaryDirectory() as folder:
        tree = copied_tree(folder, '.git', 'must-fail')
        for crate in crates:
            shutil.copytree(os.path.join(EDITS, crate), os.path.join(tree, 'crates', crate, 'must-fail'))
        return refused_edits(crates, tree)


def checked_promises(pairs):
    """Checks ii_promises in a copy of the repository in which all pairs are applied. Returns the kit's report of
    each function, and why a pair doesn't apply, or None."""
    with tempfile.TemporaryDirectory() as folder:
        tree = copied_tree(folder, '.git')
        texts, why = edited(pairs, tree)
        if why is not None:
            return {}, why
        for path, text in texts.items():
            with open(path, 'w', encoding='utf-8') as file:
                file.write(text)
        run = subprocess.run(['rt', 'check', '--allow-holes'], cwd=os.path.join(tree, 'crates', 'ii_promises'),
                             stdout=subprocess.PIPE, stderr=subprocess.STDOUT, text=True)
    return dict(re.findall(r'^fn ii_promises::(\S+): (.*)$', run.stdout, re.M)), None


def weakened():
    """Weakens all numbers of tests/weakened at once, in a copy of the repository. The crates below ii_promises must
    still be proved. In ii_promises exactly the functions that promise one of these numbers must be refused."""
    pairs = pairs_of(WEAKENED)
    promises = sorted({name for pair in pairs for name in pair.get('refused', '').split()})
    reported, why = checked_promises(pairs)
    if why is not None:
        print(f'tests/weakened: {why}')
        return 0, 1
    passed = failed = 0
    for name, result in sorted(reported.items()):
        is_proved = result in ('proved', 'no holes')
        if is_proved == (name in promises):
            failed += 1
            print(f'{name}: {"proved with weaker numbers below" if is_proved else "refused, although it promises none of them"}')
        else:
            passed += 1
    for name in promises:
        if name not in reported:
            failed += 1
            print(f'{name}: not reported')
    print(f'weakened: {len(pairs)} numbers, {passed} passed, {failed} failed')
    return passed, failed
