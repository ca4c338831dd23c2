#!/usr/bin/env python3
"""Stops `nequllpa index`, `add`, `delete`, `merge`, and the merges after `add`, before each of their system calls, and runs two
programs that write to one folder. The folder must hold the old index or the new one, and a second writer must fail at once."""
import json
import os
import shutil
import signal
import subprocess
import sys
import tempfile
import time

sys.dont_write_bytecode = True
HERE = os.path.dirname(os.path.abspath(__file__))
sys.path.insert(0, os.path.dirname(HERE))
sys.path.insert(0, HERE)
import refusing
import versions

PROGRAM = 'nequllpa_cli'
SCHEMA = '[[field]]\nname = "body"\ntype = "text"\n'


class Failed(Exception):
    """A result that differs from the expected one."""


class Folder:
    """A folder to which programs write."""

    def __init__(self, room, program, library):
        self.room, self.program, self.library, self.stops = room, program, library, 0
        for name, texts in (('old.jsonl', ['the old sea']), ('new.jsonl', ['a new sea', 'the bird'])):
            with open(self.path(name), 'w', encoding='utf-8') as file:
                file.write(''.join(json.dumps({'body': text}) + '\n' for text in texts))
        with open(self.path('schema.toml'), 'w', encoding='utf-8') as file:
            file.write(SCHEMA)

    def path(self, name):
        return os.path.join(self.room, name)

    def run(self, *words, **variables):
        """Runs the program. Returns its result and the letters of its calls."""
        told = self.path('told')
        with open(told, 'wb') as sink:
            os.dup2(sink.fileno(), 3)
            done = subprocess.run([self.program, *words], stdin=subprocess.DEVNULL, capture_output=True, text=True, cwd=self.room, timeout=60,
                                  pass_fds=(3,), env={'LD_PRELOAD': self.library, **{name: str(value) for name, value in variables.items()}})
        with open(told, encoding='ascii') as calls:
            return done, calls.read()

    def index(self, lines, *options, **variables):
        return self.run('index', 'index', '--schema', 'schema.toml', *options, lines, **variables)

    def wants(self, done, status, said):
        if done.returncode != status or said not in done.stdout + done.stderr:
            raise Failed(f'status {done.returncode}, {done.stdout!r}, {done.stderr!r}; wanted {status} and {said!r}')

    def holds(self, *answers):
        """Checks that the folder holds an undamaged index with one of these numbers of documents, or no index
        if None is given."""
        done, _ = self.run('check', 'index')
        if None in answers and done.returncode == 1 and 'no index here' in done.stdout:
            return
        for answer in answers:
            if answer is not None and done.returncode == 0 and done.stdout.startswith(f'{answer} documents; each file is as it was saved\n'):
                return
        raise Failed(f'check: status {done.returncode}, {done.stdout!r}; wanted one of {answers}')


def stopped_everywhere(folder, old, version=3, options=()):
    """Stops the program, with these options, before each of its calls, over a folder with the old index of a version, or
    without one. Returns its calls."""
    for stop in range(1, 1000):
        shutil.rmtree(folder.path('index'), ignore_errors=True)
        if old is not None:
            folder.wants(folder.index('old.jsonl')[0], 0, '1 documents indexed')
            if version == 1:
                versions.to_first(folder.path('index'))
        done, calls = folder.index('new.jsonl', *options, STOP_AT=stop)
        if done.returncode == 0:
            folder.holds(2)
            return calls
        if done.returncode != -signal.SIGKILL:
            raise Failed(f'stopped at {stop}: status {done.returncode}, {done.stderr!r}')
        folder.holds(old, 2)
        # what is left must not prevent the next run, and the lock ends with its process
        folder.wants(folder.index('new.jsonl')[0], 0, '2 documents indexed')
        folder.holds(2)
        folder.stops += 1
    raise Failed('the program makes no end of calls')


def no_remains(folder, segments, after):
    """Checks that the index has so many segments, and no files of a stopped run."""
    named = [name for name in os.listdir(folder.path('index')) if name.endswith('.term')]
    if len(named) != segments or os.path.exists(folder.path('index/meta.new')):
        raise Failed(f'after {after}: {sorted(os.listdir(folder.path("index")))}')


def flushes_everywhere(folder, version=3):
    """Stops `add` before each of its calls, where each line becomes a segment: all of its documents are added, or none."""
    for stop in range(1, 1000):
        shutil.rmtree(folder.path('index'), ignore_errors=True)
        folder.wants(folder.index('old.jsonl')[0], 0, '1 documents indexed')
        if version == 1:
            versions.to_first(folder.path('index'))
        done, calls = folder.run('add', 'index', '--no-merge', '--memory', '1B', 'new.jsonl', STOP_AT=stop)
        if done.returncode not in (0, -signal.SIGKILL):
            raise Failed(f'add with little memory stopped at {stop}: status {done.returncode}, {done.stderr!r}')
        folder.holds(*((3,) if done.returncode == 0 else (1, 3)))
        has = int(folder.run('search', 'index', 'sea OR bird', '--count')[0].stdout)
        # an add removes the files of a stopped run
        folder.wants(folder.run('add', 'index', '--no-merge', 'old.jsonl')[0], 0, '1 documents added')
        folder.holds(has + 1)
        no_remains(folder, has + 1, f'an add with little memory that was stopped at {stop}')
        if done.returncode == 0:
            return calls
        folder.stops += 1
    raise Failed('the program makes no end of calls')


def adds_everywhere(folder, before, version=3):
    """Stops `add` before each of its calls, over an index with these files of lines, whose first segment is of a
    version. Returns its calls."""
    many = len(before) + 1
    for stop in range(1, 1000):
        shutil.rmtree(folder.path('index'), ignore_errors=True)
        folder.wants(folder.index(before[0])[0], 0, '1 documents indexed')
        if version == 1:
            versions.to_first(folder.path('index'))
        for lines in before[1:]:
            folder.wants(folder.run('add', 'index', '--no-merge', lines)[0], 0, '1 documents added')
        done, calls = folder.run('add', 'index', '--no-merge', 'old.jsonl', STOP_AT=stop)
        if done.returncode == 0:
            folder.holds(many)
            return calls
        if done.returncode != -signal.SIGKILL:
            raise Failed(f'add stopped at {stop}: status {done.returncode}, {done.stderr!r}')
        folder.holds(many - 1, many)
        has = int(folder.run('search', 'index', 'sea', '--count')[0].stdout)
        folder.wants(folder.run('add', 'index', '--no-merge', 'new.jsonl')[0], 0, '2 documents added')
        folder.holds(has + 2)
        no_remains(folder, has + 1, f'an add that was stopped at {stop}')
        folder.stops += 1
    raise Failed('the program makes no end of calls')


def deletes_everywhere(folder):
    """Stops `delete` before each of its calls, of a word that documents of two segments have: all of them are
    deleted, or none."""
    with open(folder.path('none.jsonl'), 'wb'):
        pass
    for stop in range(1, 1000):
        shutil.rmtree(folder.path('index'), ignore_errors=True)
        folder.wants(folder.index('none.jsonl')[0], 0, '0 documents indexed')
        folder.wants(folder.run('add', 'index', '--no-merge', 'old.jsonl')[0], 0, '1 documents added')
        folder.wants(folder.run('add', 'index', '--no-merge', 'new.jsonl')[0], 0, '2 documents added')
        folder.wants(folder.run('delete', 'index', 'body', 'bird')[0], 0, '1 documents deleted')
        done, calls = folder.run('delete', 'index', 'body', 'sea', STOP_AT=stop)
        if done.returncode not in (0, -signal.SIGKILL):
            raise Failed(f'delete stopped at {stop}: status {done.returncode}, {done.stderr!r}')
        folder.holds(*((0,) if done.returncode == 0 else (0, 2)))
        folder.run('delete', 'index', 'body', 'sea')
        folder.holds(0)
        # an add removes the files of a stopped run, and the flags that no list has any more
        folder.wants(folder.run('add', 'index', '--no-merge', 'old.jsonl')[0], 0, '1 documents added')
        folder.holds(1)
        named = [name for name in os.listdir(folder.path('index')) if name.endswith('.alive')]
        if len(named) != 2 or os.path.exists(folder.path('index/meta.new')):
            raise Failed(f'after a delete that was stopped at {stop}: {sorted(os.listdir(folder.path("index")))}')
        if done.returncode == 0:
            return calls
        folder.stops += 1
    raise Failed('the program makes no end of calls')


def merges_everywhere(folder, version=3):
    """Stops `merge` before each of its calls, over two segments, the first of a version; of version 3 with a deleted
    document. The answers are those that they were, before and after."""
    asked = (['search', 'index', 'sea', '--positions'], ['terms', 'index', 'body'], ['fields', 'index'])
    answers = lambda: [row.split(' terms')[0] for words in asked for row in folder.run(*words)[0].stdout.splitlines()]
    for stop in range(1, 1000):
        shutil.rmtree(folder.path('index'), ignore_errors=True)
        folder.wants(folder.index('new.jsonl')[0], 0, '2 documents indexed')
        if version == 1:
            versions.to_first(folder.path('index'))
        folder.wants(folder.run('add', 'index', '--no-merge', 'old.jsonl')[0], 0, '1 documents added')
        if version == 3:
            folder.wants(folder.run('delete', 'index', 'body', 'bird')[0], 0, '1 documents deleted')
        left = 2 if version == 3 else 3
        wanted = answers()
        done, calls = folder.run('merge', 'index', STOP_AT=stop)
        if done.returncode not in (0, -signal.SIGKILL):
            raise Failed(f'merge stopped at {stop}: status {done.returncode}, {done.stderr!r}')
        folder.holds(left)
        if answers() != wanted:
            raise Failed(f'after a merge that was stopped at {stop}: {answers()}; wanted {wanted}')
        again, _ = folder.run('merge', 'index')
        folder.wants(again, 0, f'{left} documents')
        folder.holds(left)
        # an add removes the files of a stopped run
        folder.wants(folder.run('add', 'index', '--no-merge', 'old.jsonl')[0], 0, '1 documents added')
        folder.holds(left + 1)
        named = [name for name in os.listdir(folder.path('index')) if name.split('.')[-1] in ('term', 'alive', 'new') or name.startswith('unfinished')]
        if sorted(name.split('.')[-1] for name in named) != ['term', 'term']:
            raise Failed(f'after a merge that was stopped at {stop}: {sorted(os.listdir(folder.path("index")))}')
        if done.returncode == 0:
            folder.wants(done, 0, f'2 segments merged, {left} documents')
            return calls
        folder.stops += 1
    raise Failed('the program makes no end of calls')


def no_room(folder):
    """Merges segments whose merged files are longer than the system allows. The command must say so, and leave the index as it
    was, and no other file."""
    shutil.rmtree(folder.path('index'), ignore_errors=True)
    for letter in 'vw':
        with open(folder.path(f'{letter}.jsonl'), 'w', encoding='utf-8') as file:
            file.writelines(json.dumps({'body': f'{letter}{number}'}) + '\n' for number in range(20_000))
    folder.wants(folder.index('v.jsonl')[0], 0, '20000 documents indexed')
    folder.wants(folder.run('add', 'index', '--no-merge', 'w.jsonl')[0], 0, '20000 documents added')
    before = sorted(os.listdir(folder.path('index')))
    longest = max(os.path.getsize(folder.path(f'index/{name}')) for name in before)
    command = f'ulimit -f {longest // 1024 + 1}; trap "" XFSZ; exec "$0" merge index'
    done = subprocess.run(['bash', '-c', command, folder.program], capture_output=True, text=True, cwd=folder.room, timeout=60)
    folder.wants(done, 2, 'the folder refused: FileTooLarge')
    folder.holds(40_000)
    if sorted(os.listdir(folder.path('index'))) != before:
        raise Failed(f'after a merge without room: {sorted(os.listdir(folder.path("index")))}; before {before}')
    folder.wants(folder.run('merge', 'index')[0], 0, '2 segments merged, 40000 documents')
    folder.holds(40_000)


def settles_everywhere(folder):
    """Stops `add` before each of its calls, where it merges the last segments afterwards. Returns its calls."""
    asked = (['search', 'index', 'sea', '--positions'], ['terms', 'index', 'body'])
    answers = lambda: [folder.run(*words)[0].stdout for words in asked]
    for stop in range(1, 1000):
        shutil.rmtree(folder.path('index'), ignore_errors=True)
        folder.wants(folder.index('new.jsonl')[0], 0, '2 documents indexed')
        folder.wants(folder.run('add', 'index', '--no-merge', 'old.jsonl')[0], 0, '1 documents added')
        folder.run('add', 'index', '--no-merge', 'old.jsonl')
        wanted = answers()
        shutil.rmtree(folder.path('index'))
        folder.wants(folder.index('new.jsonl')[0], 0, '2 documents indexed')
        folder.wants(folder.run('add', 'index', '--no-merge', 'old.jsonl')[0], 0, '1 documents added')
        done, calls = folder.run('add', 'index', 'old.jsonl', STOP_AT=stop)
        if done.returncode not in (0, -signal.SIGKILL):
            raise Failed(f'add with a merge stopped at {stop}: status {done.returncode}, {done.stderr!r}')
        folder.holds(*((4,) if done.returncode == 0 else (3, 4)))
        if int(folder.run('search', 'index', 'sea', '--count')[0].stdout) == 4 and answers() != wanted:
            raise Failed(f'after an add with a merge that was stopped at {stop}: {answers()}; wanted {wanted}')
        folder.run('add', 'index', 'new.jsonl')
        kinds = [name.split('.')[-1] for name in os.listdir(folder.path('index'))]
        told = folder.run('stats', 'index')[0].stdout
        if f'{kinds.count("term")} segments\n' not in told or 'new' in kinds:
            raise Failed(f'after an add that merges, once one was stopped at {stop}: {kinds}; {told!r}')
        if done.returncode == 0:
            return calls
        folder.stops += 1
    raise Failed('the program makes no end of calls')


def replaces_everywhere(folder):
    """Stops `add --replace-by` before each of its calls: a document is replaced by one with the same value, or not."""
    for name, docs in (('first.jsonl', [('a', 'old'), ('b', 'old')]), ('second.jsonl', [('b', 'new'), ('c', 'new')])):
        with open(folder.path(name), 'w', encoding='utf-8') as file:
            file.write(''.join(json.dumps({'id': key, 'body': text}) + '\n' for key, text in docs))
    with open(folder.path('keyed.toml'), 'w', encoding='utf-8') as file:
        file.write('[[field]]\nname = "id"\ntype = "text"\ntokenizer = "raw"\n' + SCHEMA)
    for stop in range(1, 1000):
        shutil.rmtree(folder.path('index'), ignore_errors=True)
        folder.wants(folder.run('index', 'index', '--schema', 'keyed.toml', 'first.jsonl')[0], 0, '2 documents indexed')
        done, calls = folder.run('add', 'index', '--no-merge', '--replace-by', 'id', 'second.jsonl', STOP_AT=stop)
        if done.returncode not in (0, -signal.SIGKILL):
            raise Failed(f'add --replace-by stopped at {stop}: status {done.returncode}, {done.stderr!r}')
        folder.holds(2, 3)
        told = folder.run('postings', 'index', 'body', 'new')[0].stdout + folder.run('postings', 'index', 'body', 'old')[0].stdout
        if told != '1 1\n2 1\n0 1\n' and (told != '0 1\n1 1\n' or done.returncode == 0):
            raise Failed(f'after an add --replace-by that was stopped at {stop}: {told!r}')
        folder.wants(folder.run('add', 'index', '--no-merge', '--replace-by', 'id', 'second.jsonl')[0], 0, '2 documents added, ')
        folder.holds(3)
        if done.returncode == 0:
            folder.wants(done, 0, '2 documents added, 1 replaced')
            return calls
        folder.stops += 1
    raise Failed('the program makes no end of calls')


def replaced(folder):
    """Indexes into a folder with several segments: nothing of them must remain."""
    folder.wants(folder.index('new.jsonl')[0], 0, '2 documents indexed')
    folder.holds(2)
    left = sorted(os.listdir(folder.path('index')))
    named = {name.split('.')[0] for name in left}
    if len(named) != 3 or sorted(name.split('.')[-1] for name in left) != ['blocks', 'count', 'idx', 'lock', 'meta', 'norm', 'pos', 'term']:
        raise Failed(f'index over segments leaves {left}')


def in_order(calls):
    """Checks the order of a save's calls: lock, then create, write and flush each file and flush the folder,
    then rename and flush again."""
    if calls.count('r') != 1 or not calls[calls.index('r') + 1:].startswith('s'):
        raise Failed(f'the calls {calls}: one rename, and the folder flushed after it')
    before = calls[:calls.index('r')].split('o')[1:]
    for number, file in enumerate(before):
        made = file.replace('w', '')
        if made.startswith('l') or made == '' and number == 0:
            continue
        if not made.startswith('ss'):
            raise Failed(f'the calls {calls}: each file is flushed when it is written, and the folder after it')


def in_order_of_merge(calls):
    """Checks the order of a merge's calls: each file is created, written, renamed and flushed, and then the folder; the last
    renaming is that of the list, with the folder flushed after it."""
    parts = calls.split('r')
    if len(parts) < 6 or any(not part.startswith('ss') for part in parts[1:-1]) or not parts[-1].startswith('s'):
        raise Failed(f'the calls {calls}: each file that is renamed is flushed, and the folder after it')


def two_writers(folder, count):
    """Pauses one program before each of its calls: once it holds the lock, a second writer must fail at once.
    Then ends or resumes it."""
    refused = 0
    for pause in range(1, count + 1):
        shutil.rmtree(folder.path('index'), ignore_errors=True)
        folder.wants(folder.index('old.jsonl')[0], 0, '1 documents indexed')
        with open(os.devnull, 'wb') as sink:
            first = subprocess.Popen([folder.program, 'index', 'index', '--schema', 'schema.toml', 'new.jsonl'], cwd=folder.room, stdin=subprocess.DEVNULL,
                                     stdout=sink, stderr=sink, env={'LD_PRELOAD': folder.library, 'PAUSE_AT': str(pause)})
        wait_paused(first)
        begun = time.time()
        second, _ = folder.index('old.jsonl')
        if time.time() - begun > 20:
            raise Failed('the second writer waited')
        if second.returncode == 2:
            folder.wants(second, 2, 'nequllpa: another program writes to index')
            refused += 1
        else:
            folder.wants(second, 0, '1 documents indexed')
        if pause % 2:
            first.kill()
        else:
            first.send_signal(signal.SIGCONT)
        first.wait()
        folder.holds(1, 2)
        folder.wants(folder.index('new.jsonl')[0], 0, '2 documents indexed')
        folder.holds(2)
    if refused < count - 3:
        raise Failed(f'{refused} of {count} second writers were refused')
    return refused


def wait_paused(process):
    """Waits until a process stops or ends."""
    for _ in range(4000):
        with open(f'/proc/{process.pid}/stat', encoding='ascii') as stat:
            if stat.read().rsplit(')', 1)[1].split()[0] in 'TZ':
                return
        time.sleep(0.005)
    raise Failed('the first writer did not stop')


def orphans(folder):
    """Files with names of an index of any version in a folder without meta: must be reported, and never removed
    without --force."""
    index = folder.path('index')
    for name in ('term.0', '0000000000000007.idx'):
        shutil.rmtree(index, ignore_errors=True)
        os.mkdir(index)
        with open(os.path.join(index, name), 'w', encoding='ascii') as file:
            file.write('my own')
        folder.wants(folder.index('new.jsonl')[0], 2, f'there is {name}, and no meta')
        with open(os.path.join(index, name), encoding='ascii') as file:
            if file.read() != 'my own':
                raise Failed('a file of the user was changed')
    for version, name in ((3, '0000000000000000.term'), (1, 'schema.0')):
        shutil.rmtree(index)
        folder.wants(folder.index('new.jsonl')[0], 0, '2 documents indexed')
        if version == 1:
            versions.to_first(index)
        os.remove(os.path.join(index, 'meta'))
        folder.wants(folder.run('search', 'index', 'sea')[0], 1, f'index: an index whose meta is missing: there is {name}')
        before = sorted(os.listdir(index))
        folder.wants(folder.index('old.jsonl')[0], 2, 'no meta')
        if sorted(os.listdir(index)) != before:
            raise Failed('files of an index whose meta is missing were changed')
        folder.wants(folder.run('index', 'index', '--force', '--schema', 'schema.toml', 'old.jsonl')[0], 0, '1 documents indexed')
        folder.holds(1)


def main():
    if 'NEQULLPA' not in os.environ and not refusing.build(PROGRAM):
        print('tests/folder: the program was not built')
        return 1
    program = os.environ.get('NEQULLPA', refusing.programs.program_of(PROGRAM))
    os.dup2(2, 3)
    with tempfile.TemporaryDirectory() as room:
        folder = Folder(room, program, refusing.shim(room, 'folder/stop.c'))
        try:
            calls = stopped_everywhere(folder, 1)
            in_order(calls)
            in_order(stopped_everywhere(folder, None))
            in_order(stopped_everywhere(folder, 1, 1))
            refused = two_writers(folder, len(calls))
            orphans(folder)
            for old, version in ((1, 3), (None, 3), (1, 1)):
                in_order(stopped_everywhere(folder, old, version, ('--memory', '1B')))
            in_order(flushes_everywhere(folder))
            flushes_everywhere(folder, 1)
            adds_everywhere(folder, ['old.jsonl'], 1)
            adds_everywhere(folder, ['old.jsonl'])
            adds_everywhere(folder, ['old.jsonl', 'old.jsonl'])
            deletes_everywhere(folder)
            replaced(folder)
            in_order_of_merge(merges_everywhere(folder))
            merges_everywhere(folder, 1)
            no_room(folder)
            replaces_everywhere(folder)
            settles_everywhere(folder)
        except Failed as why:
            print(f'tests/folder: {why}')
            return 1
    print(f'tests/folder: stopped at {folder.stops} calls of the system, {refused} second writers refused; the calls of a save are {calls}')
    return 0


sys.exit(main())
