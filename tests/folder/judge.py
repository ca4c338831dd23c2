#!/usr/bin/env python3
"""Judges `nequllpa` by a meaning that knows of no segments (`segments_meaning.py`): random sessions of add, delete, commit, roll
back and merge are played by its commands. After each commit, rollback and merge some of the answers are compared, after the last
one nearly all of them: the number of documents, the terms of each field with their documents, the postings with counts and positions, the
numbers of tokens, and what queries find, as numbers, ids and a count. Norms have no command: `check` compares them with the lists.

    judge.py            100 sessions, as the gate runs it
    judge.py N FIRST    N sessions from the seed FIRST"""
import random
import sys
import tempfile

sys.dont_write_bytecode = True
import player
import users
from segments_meaning import Session, some_session

SESSIONS = 100
# the share of the questions that are asked between the operations
SHARE = 0.1


def one_session(task):
    """Plays a session. Returns how often the program ran, how many operations and comparisons there were, and what differs."""
    program, seed = task
    operations, queries = some_session(seed)
    with tempfile.TemporaryDirectory() as room:
        session, user, compared = Session(), player.Player(program, room, random.Random(seed)), 0
        for place, operation in enumerate(operations):
            is_last = place + 1 == len(operations)
            try:
                user.play(operation)
                session.apply(operation)
                if operation[0] not in ('add', 'delete'):
                    user.compares(session.committed, queries, 1 if is_last else SHARE)
                    compared += 1
            except player.Failed as why:
                return user.runs, place, compared, f'session {seed}, operation {place} {operation}: {why}'
        return user.runs, len(operations), compared, None


def main():
    many, first = (int(sys.argv[1]), int(sys.argv[2])) if len(sys.argv) > 2 else (SESSIONS, 0)
    program = users.program_path()
    if program is None:
        print('tests/folder: the program was not built')
        return 1
    return player.run_all('tests/folder', one_session, [(program, seed) for seed in range(first, first + many)],
                         lambda runs=0, operations=0, compared=0: f'{many} sessions judged, {operations} operations, compared {compared} times, {runs} runs of nequllpa')


sys.exit(main())
