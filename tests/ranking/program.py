#!/usr/bin/env python3
"""Ranks random queries over an index in memory in each of the ways of the library: document by document with bounds, clause by
clause, and prepared, searched twice (`crates/ii_ranking_tests`). The documents and their scores must be those of a definition that
knows of no lists and no bounds (`tests/folder/ranking_meaning.py`), over one segment and several, with deleted documents, and merged.

    program.py            50 sessions with 200 queries each, as the gate runs it
    program.py N FIRST    N sessions from the seed FIRST"""
import json
import os
import random
import subprocess
import sys

sys.dont_write_bytecode = True
TOP = os.path.dirname(os.path.dirname(os.path.dirname(os.path.abspath(__file__))))
sys.path[:0] = [os.path.join(TOP, 'tools'), os.path.join(TOP, 'tests', 'folder')]
import player
import programs
from ranking_meaning import Ranking
from ranking_queries import some_docs, some_long_docs, some_query
from segments_meaning import WORDS, words

PROGRAM = 'ii_ranking_tests'
SESSIONS = 50
QUERIES = 200


class Session:
    """The steps of a session, what each query must give, and the documents that the index has."""

    def __init__(self, seed, queries):
        self.chosen, self.steps, self.answers, self.docs = random.Random(seed), [], [], []
        self.is_long, self.most = seed % 10 == 5, 300 if seed % 10 == 0 else self.chosen.choice([3, 20, 60])
        changes = ['add'] * self.chosen.randint(1, 3) + ['delete'] * self.chosen.randint(0, 3)
        self.chosen.shuffle(changes)
        changes = ['add', *changes, 'merge']
        for place, change in enumerate(changes):
            getattr(self, change)()
            self.ask(queries // len(changes) + (place < queries % len(changes)))

    def add(self):
        made = some_long_docs(self.chosen, 0) if self.is_long and not self.docs else some_docs(self.chosen, len(self.docs), self.most)
        for doc in made:
            self.steps.append('+ ' + json.dumps({**doc, 'id': doc['id'].encode().hex()}))
        self.docs = self.docs + made
        self.steps.append('commit')

    def delete(self):
        word = self.chosen.choice(WORDS)
        texts = lambda doc: [doc['body']] if isinstance(doc.get('body'), str) else doc.get('body', [])
        self.docs = [doc for doc in self.docs if not any(word in words(text) for text in texts(doc))]
        self.steps += [f'- {word}', 'commit']

    def merge(self):
        self.steps.append('merge')

    def ask(self, queries):
        """Adds queries, with what they must give."""
        ranking = Ranking(self.docs)
        for _ in range(queries):
            query, text = some_query(self.chosen, self.chosen.randrange(4))
            found = ranking.best(query)
            limit = self.chosen.choice([0, 1, 1, 2, 3, 10, len(found), len(found) + 1, 1000])
            offset = self.chosen.choice([0, 0, 0, 1, 5, len(found)])
            self.steps.append(f'? {limit} {offset} {text}')
            self.answers.append(' '.join(f'{doc}:{units}' for doc, units in found[offset:offset + limit]))


def one_session(task):
    """Plays a session. Returns how many queries there were, and the first that differs."""
    program, seed, queries = task
    session = Session(seed, queries)
    done = subprocess.run(program, input='\n'.join(session.steps) + '\n', stdout=subprocess.PIPE, stderr=subprocess.PIPE, text=True, timeout=600)
    if done.returncode != 0:
        return len(session.answers), f'session {seed}: status {done.returncode}, {done.stderr[-300:]!r}'
    asked = [step for step in session.steps if step.startswith('? ')]
    given = done.stdout.split('\n')[:-1]
    if len(given) != len(asked):
        return len(asked), f'session {seed}: {len(given)} answers to {len(asked)} queries'
    for step, answer, expected in zip(asked, given, session.answers):
        if answer != expected:
            return len(asked), f'session {seed}: {step}: {answer[-300:]!r}; expected {expected[-300:]!r}'
    return len(asked), None


def main():
    many, first = (int(sys.argv[1]), int(sys.argv[2])) if len(sys.argv) > 2 else (SESSIONS, 0)
    program = [programs.program_of(PROGRAM)]
    if 'RANKING' in os.environ:
        program = os.environ['RANKING'].split()
    elif not programs.build(PROGRAM):
        print('tests/ranking: the program was not built')
        return 1
    return player.run_all('tests/ranking', one_session, [(program, seed, QUERIES) for seed in range(first, first + many)],
                         lambda asked=0: f'{many} sessions with {asked} queries, each ranked in four ways')


sys.exit(main())
