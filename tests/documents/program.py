#!/usr/bin/env python3
"""Runs each command that README and docs/FOLDER show, one after the other in a copy of the tree for each page, and compares its
output with the page. The commands in PROVES, which other parts of the gate run, are skipped."""
import os
import shutil
import subprocess
import sys
import tempfile

sys.dont_write_bytecode = True
TOP = os.path.dirname(os.path.dirname(os.path.dirname(os.path.abspath(__file__))))
sys.path.insert(0, os.path.join(TOP, 'tools'))
import programs

# The end of each command's standard output according to README; None where it isn't compared.
README = {
    "echo 'ids 0 2 10' | ./iiq": '808288\n0 2 10\n',
    r"""printf 'store_source = true\n[[field]]\nname = "body"\ntype = "text"\n' > schema.toml""": '',
    r"""printf '{"body": "the old sea"}\n{"body": "the sea, the old sea"}\n' > lines.jsonl""": '',
    './nequllpa index sea --schema schema.toml lines.jsonl': '2 documents indexed\n',
    """./nequllpa search sea '"the sea" NOT bird'""": '1\n',
    """./nequllpa search sea '"the sea" NOT bird' --source""": '{"body": "the sea, the old sea"}\n',
    './nequllpa search sea old --limit 1 --snippet --json': '{"doc":0,"snippet":"the <b>old</b> sea"}\n',
    # BM25 of `old`: 2.2 * ln(1.2) * 1 / (1 + 1.2 * (0.25 + 0.75 * 3 / 4)) = 0.2031; the prefix counts 1.
    "./nequllpa search sea 'old se*' --top 1": '0\t1.2031\n',
    './nequllpa check sea': '0 damages\n',
    r"""printf '{"body": "a bird"}\n' | ./nequllpa add sea""": '1 documents added\n',
    'rt new crates/mine start_io': None,
    'rm -f crates/mine/BUILD.bazel': '',
    "echo 'mine: nequllpa anyhow' >> crates.txt": '',
    'cd crates/mine && rt try': None,
}
# The same of docs/FOLDER.
FOLDER = {
    r"""printf 'store_source = true\n[[field]]\nname = "id"\ntype = "u64"\n[[field]]\nname = "body"\ntype = "text"\n' > notes.toml""": '',
    r"""printf '{"id": 1, "body": "the old boat"}\n{"id": 2, "body": "paint for the old boat"}\n' > notes.jsonl""": '',
    './nequllpa index notes --schema notes.toml notes.jsonl': '2 documents indexed\n',
    """./nequllpa search notes '"old bo"*' --snippet""": '0\tthe old boat\n1\tpaint for the old boat\n',
    './nequllpa postings notes body old --positions': '0 1 1\n1 1 3\n',
    r"""printf '{"id": 2, "body": "the boat is painted"}\n' | ./nequllpa add notes --replace-by id""": '1 documents added, 1 replaced\n',
    "./nequllpa search notes 'paint*' --source": '{"id": 2, "body": "the boat is painted"}\n',
    './nequllpa delete notes id 1': '1 documents deleted\n',
    './nequllpa merge notes': '1 segments merged, 1 documents\n',
    './nequllpa check notes': '0 damages\n',
    './nequllpa get notes 0': '{"id": 2, "body": "the boat is painted"}\n',
    r"""printf '[[field]]\nname = "body"\ntype = "text"\n' > schema.toml""": '',
    r"""printf '{"body": "the old sea"}\n{"body": "the sea, the old sea"}\n' > lines.jsonl""": '',
    './nequllpa index sea --schema schema.toml lines.jsonl': '2 documents indexed\n',
    "./nequllpa search sea 'old se* NOT bird' --top 1 --explain":
        '0\t1.2031\n    0.2031\tweight 0.4011\tcount 1\tnorm 3\tbody:old\n    1.0000\tweight 0.0000\tcount 1\tnorm 1\tbody:se*\n',
    r"""printf '[[field]]\nname = "body"\ntype = "text"\n[[field]]\nname = "place"\ntype = "text"\nindexed = false\nstored = true\n' > places.toml""": '',
    './nequllpa index places --schema places.toml --locate place lines.jsonl': '2 documents indexed\n',
    './nequllpa search places old --locate place --snippet': 'lines.jsonl:1\tthe old sea\nlines.jsonl:2\tthe sea, the old sea\n',
}
PAGES = {'README.md': README, 'docs/FOLDER.md': FOLDER}
# Commands that prove. They are skipped: the gate runs this test in its second stage, and the first one has
# proved.
PROVES = ('./iiq --prove', './check')


def commands(page):
    """Returns the commands in a page's indented blocks, in order."""
    found = []
    with open(os.path.join(TOP, page), encoding='utf-8') as lines:
        for line in lines:
            if line.startswith('    ') and line[4:].split(' ')[0] in ('echo', 'printf', 'rt', 'rm', 'cd', './iiq', './nequllpa', './check'):
                found.append(line.strip())
    return found


def copied(folder):
    """Copies the tree with the built programs, but without other proof output."""
    tree = os.path.join(folder, 'tree')
    shutil.copytree(TOP, tree, symlinks=True, ignore=shutil.ignore_patterns('.git', 'out'))
    for name in ('iiq', 'nequllpa_cli'):
        os.makedirs(os.path.join(tree, 'crates', name, 'out'))
        for built in (programs.program_of(name), programs.mark_of(name)):
            shutil.copy(built, os.path.join(tree, 'crates', name, 'out'))
    return tree


def wrong_command(page, prints):
    """Runs the commands of a page. Returns what is wrong, or None."""
    ran = 0
    with tempfile.TemporaryDirectory() as folder:
        tree = copied(folder)
        for command in commands(page):
            if command.startswith(PROVES):
                continue
            if command not in prints:
                return f'{page} has a command that this test does not know: {command}'
            done = subprocess.run(['bash', '-c', command], cwd=tree, stdin=subprocess.DEVNULL, stdout=subprocess.PIPE, stderr=subprocess.PIPE, text=True, timeout=600)
            wanted = prints[command]
            if done.returncode != 0 or wanted is not None and not done.stdout.endswith(wanted):
                return f'{command}: status {done.returncode}, {done.stdout[-300:]!r}, {done.stderr[-500:]!r}; wanted {wanted!r}'
            ran += 1
    return None if ran == len(prints) else f'{page} has {ran} of {len(prints)} commands'


def main():
    if not programs.build('iiq') or not programs.build('nequllpa_cli'):
        print('tests/documents: a program was not built')
        return 1
    for page, prints in PAGES.items():
        wrong = wrong_command(page, prints)
        if wrong is not None:
            print(f'tests/documents: {wrong}')
            return 1
    print(f'tests/documents: {sum(map(len, PAGES.values()))} commands of {" and ".join(PAGES)}')
    return 0


sys.exit(main())
