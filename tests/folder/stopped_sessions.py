#!/usr/bin/env python3
"""Plays random sessions (`segments_meaning.py`), and stops each command that writes before each of its calls of the system: the
process is killed, or the power is cut, so that bytes and names that were not flushed are lost in part (`cuts.py`). The folder must
answer as before the command or as after it, by the meaning, and must then take another document and a merge.

    stopped_sessions.py            4 sessions, as the gate runs it
    stopped_sessions.py N FIRST    N sessions from the seed FIRST"""
import os
import random
import shutil
import signal
import sys
import tempfile
import time

sys.dont_write_bytecode = True
HERE = os.path.dirname(os.path.abspath(__file__))
sys.path.insert(0, os.path.dirname(HERE))
import cuts
import player
import users
import refusing
from player import Failed
from segments_meaning import some_doc, some_session

SESSIONS = 4
FIRST = 104
LENGTH = 6
# the share of the questions that are asked after a stop, and after going on
SHARE = 0.2


def acts_of(user, operations):
    """Returns the commands of a session: each with its input and the documents after it."""
    acts = []
    for operation in operations:
        if operation[0] in ('add', 'delete', 'rollback'):
            user.play(operation)
        elif operation[0] == 'merge' and user.is_indexed:
            acts.append((['merge', user.folder], b'', user.docs))
        elif operation[0] == 'commit':
            for words, given, _, docs in user.commands():
                acts.append((words, given, docs))
                user.docs = docs
    return acts


class Stopper:
    """Stops commands in the folder of a user."""

    def __init__(self, user, library, queries, chosen):
        self.user, self.library, self.queries, self.chosen = user, library, queries, chosen
        self.path, self.stops = os.path.join(user.room, user.folder), 0

    def puts(self, files):
        """Gives the folder these files."""
        shutil.rmtree(self.path, ignore_errors=True)
        if files is None:
            return
        os.mkdir(self.path)
        for name, text in files.items():
            with open(os.path.join(self.path, name), 'wb') as file:
                file.write(text)

    def stopped(self, words, given, stop):
        """Runs a command that is stopped before a call. Returns its status and the calls that it made."""
        with open(os.path.join(self.user.room, 'told'), 'w+b') as told:
            os.dup2(told.fileno(), 3)
            done = self.user.run(*words, given=given, pass_fds=(3,), env={**os.environ, 'LD_PRELOAD': self.library, 'STOP_AT': str(stop), 'NAMES': '1'})
            told.seek(0)
            calls = told.read().decode()
        if done.returncode not in (0, -signal.SIGKILL):
            raise Failed(f'{words} stopped at {stop}: status {done.returncode}, {done.stderr[-300:]!r}')
        return done.returncode == 0, [call.split('\t') for call in calls.splitlines()]

    def answers_as(self, choices):
        """Returns which of some lists of documents the folder answers by; None stands for no index."""
        done = self.user.run('check', self.user.folder)
        told = done.stdout.decode()
        if None in choices and done.returncode == 1 and 'no index here' in told:
            return None
        choices = [docs for docs in choices if docs is not None and told.startswith(f'{len(docs)} documents;')]
        if not choices:
            raise Failed(f'check: status {done.returncode}, {told!r}, {done.stderr[-300:]!r}')
        for docs in choices[:-1]:
            try:
                self.user.compares(docs, self.queries, 1)
                return docs
            except Failed:
                pass
        self.user.compares(choices[-1], self.queries, SHARE)
        return choices[-1]

    def goes_on(self, docs):
        """Adds a document, after whatever the stopped command left, and merges all segments."""
        doc = some_doc(self.chosen, 900)
        given = player.line_of(doc)
        if docs is None:
            self.user.wants(['index', self.user.folder, '--schema', 'schema.toml'], 0, '1 documents indexed\n', given)
        else:
            self.user.wants(['add', self.user.folder, '--no-merge'], 0, '1 documents added\n', given)
        self.user.docs = (docs or []) + [doc]
        self.user.merge()
        self.user.compares(self.user.docs, self.queries, SHARE)

    def stops_everywhere(self, before, words, given, choices):
        """Stops a command before each of its calls, over these files."""
        for stop in range(1, 1000):
            self.puts(before)
            is_done, calls = self.stopped(words, given, stop)
            if is_done:
                self.user.compares(choices[1], self.queries, SHARE)
                return
            now, disk = cuts.contents(self.path), cuts.Disk(before or {}, self.user.folder)
            for call in calls:
                disk.call(*call)
            left, is_cut = disk.left(now, self.chosen), self.chosen.random() < 0.6
            try:
                if is_cut:
                    self.puts(left)
                self.goes_on(self.answers_as(choices))
            except Failed as why:
                raise Failed(f'{words} {"cut off" if is_cut else "killed"} before call {stop}, after {calls[-3:]}: {why}')
            self.stops += 1
        raise Failed('the program makes no end of calls')


def one_command(task):
    """Plays the commands of a session up to one of them, and stops that one. Returns its name, the number of stops, how often the
    program ran, and what differs."""
    program, library, seed, place = task
    operations, queries = some_session(seed, LENGTH)
    with tempfile.TemporaryDirectory() as room:
        user = player.Player(program, room, random.Random(seed))
        acts = acts_of(user, operations)
        stopper = Stopper(user, library, queries, random.Random(seed * 1000 + place))
        before, docs = None, None
        try:
            for words, given, after in acts[:place]:
                done = user.run(*words, given=given)
                if done.returncode != 0:
                    raise Failed(f'{words}: status {done.returncode}, {done.stderr!r}')
                before, docs = cuts.contents(stopper.path), after
            words, given, after = acts[place]
            stopper.stops_everywhere(before, words, given, [docs, after])
        except Failed as why:
            return acts[place][0][0], stopper.stops, user.runs, f'session {seed}, command {place}: {why}'
        return acts[place][0][0], stopper.stops, user.runs, None


def tasks_of(program, library, seeds):
    """Returns a task for each command of each session."""
    for seed in seeds:
        with tempfile.TemporaryDirectory() as room:
            user = player.Player(program, room, random.Random(seed))
            for place in range(len(acts_of(user, some_session(seed, LENGTH)[0]))):
                yield program, library, seed, place


def main():
    many, first = (int(sys.argv[1]), int(sys.argv[2])) if len(sys.argv) > 2 else (SESSIONS, FIRST)
    program, begun = users.program_path(), time.time()
    if program is None:
        print('tests/folder: the program was not built')
        return 1
    os.dup2(2, 3)
    with tempfile.TemporaryDirectory() as room:
        library = refusing.shim(room, 'folder/stop.c')
        names, stops, runs, wrong = [], 0, 0, 0
        for name, stopped, ran, why in player.side_by_side(one_command, list(tasks_of(program, library, range(first, first + many)))):
            names, stops, runs = names + [name], stops + stopped, runs + ran
            if why is not None:
                wrong += 1
                print(f'tests/folder: {why}', flush=True)
    told = ', '.join(f'{names.count(name)} {name}' for name in ('index', 'add', 'delete', 'merge'))
    print(f'tests/folder: commands of {many} sessions ({told}) stopped at {stops} calls, by a kill or a power cut, {runs} runs of nequllpa, in {time.time() - begun:.0f} s; {wrong} differ')
    return 1 if wrong else 0


sys.exit(main())
