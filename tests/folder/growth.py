#!/usr/bin/env python3
"""Measures how an index grows by commits: how often each document is written again by merges, how many segments there are, and how
long a commit takes. The documents and segments must be those of the rule of FOLDER, played here in numbers alone.

    growth.py                       100 commits of 20 lines, as the gate runs it
    growth.py COMMITS LINES         so many commits of so many lines
    growth.py COMMITS LINES SIZE    the same with `--memory SIZE`, without the comparison"""
import json
import os
import random
import subprocess
import sys
import tempfile
import time

sys.dont_write_bytecode = True
import users

SCHEMA = '[[field]]\nname = "body"\ntype = "text"\n'


def first_outgrown(counts):
    """Returns the place of the first segment that has at most as many documents as all behind it together, or how many there are."""
    places = [place for place in range(len(counts) - 1) if counts[place] <= sum(counts[place + 1:])]
    return places[0] if places else len(counts)


class Played:
    """The segments of an index by their numbers of documents, and how many documents merges wrote."""

    def __init__(self):
        self.counts, self.rewritten = [], 0

    def commit(self, lines):
        self.counts.append(lines)
        first = first_outgrown(self.counts)
        if first < len(self.counts):
            self.counts[first:] = [sum(self.counts[first:])]
            self.rewritten += self.counts[-1]


def line_of(dice):
    return json.dumps({'body': ' '.join(f'w{int(dice.paretovariate(0.5)) % 50000}' for _ in range(40))}) + '\n'


def blocks_written(words, room, given):
    """Runs a command. Returns its seconds and how many bytes the system wrote for it."""
    begun = time.monotonic()
    run = subprocess.Popen(words, cwd=room, stdin=subprocess.PIPE, stdout=subprocess.PIPE, stderr=subprocess.PIPE)
    run.stdin.write(given)
    run.stdin.close()
    told, errors = run.stdout.read(), run.stderr.read()
    _, status, used = os.wait4(run.pid, 0)
    if status != 0:
        raise users.Failed(f'{words}: status {status}, {errors[-300:]!r}')
    return time.monotonic() - begun, used.ru_oublock * 512, used.ru_maxrss * 1024, told


def grown(program, room, commits, lines, size):
    """Makes the commits. Returns what is told."""
    dice, played, times, written, most, peak = random.Random(1), Played(), [], 0, 0, 0
    with open(os.path.join(room, 'schema.toml'), 'w', encoding='utf-8') as file:
        file.write(SCHEMA)
    memory = ['--memory', size] if size else []
    blocks_written([program, 'index', 'grown', '--schema', 'schema.toml'], room, b'')
    for _ in range(commits):
        text = ''.join(line_of(dice) for _ in range(lines)).encode()
        took, wrote, used, _ = blocks_written([program, 'add', 'grown', *memory], room, text)
        times.append(took)
        written, peak = written + wrote, max(peak, used)
        played.commit(lines)
        most = max(most, len(played.counts))
    told = json.loads(subprocess.run([program, 'stats', 'grown', '--json'], cwd=room, stdout=subprocess.PIPE, check=True).stdout)
    if told['documents'] != commits * lines or not size and told['segments'] != len(played.counts):
        raise users.Failed(f'{told["documents"]} documents in {told["segments"]} segments; expected {commits * lines} in {len(played.counts)}')
    holds = sum(os.path.getsize(os.path.join(room, 'grown', name)) for name in os.listdir(os.path.join(room, 'grown')))
    times.sort()
    return (f'{commits} commits of {lines} lines: {told["segments"]} segments, at most {most} by the rule, which writes each document {played.rewritten / (commits * lines):.2f} times again; '
            f'an index of {holds / 1e6:.1f} MB, for which {written / 1e6:.1f} MB were written; a commit takes {1000 * times[len(times) // 2]:.0f} ms, at most {1000 * times[-1]:.0f}; '
            f'{peak / 1e6:.0f} MB of memory at most')


def main():
    commits, lines = (int(sys.argv[1]), int(sys.argv[2])) if len(sys.argv) > 2 else (100, 20)
    program, begun = users.program_path(), time.time()
    if program is None:
        print('tests/folder: the program was not built')
        return 1
    with tempfile.TemporaryDirectory() as room:
        try:
            told = grown(program, room, commits, lines, sys.argv[3] if len(sys.argv) > 3 else None)
        except users.Failed as why:
            print(f'tests/folder: {why}')
            return 1
    print(f'tests/folder: {told}; in {time.time() - begun:.0f} s')
    return 0


sys.exit(main())
