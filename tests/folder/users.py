"""What the tests of `nequllpa` share: a user who runs the program in a room, and how a test ends."""
import os
import subprocess
import sys
import tempfile
import time

HERE = os.path.dirname(os.path.abspath(__file__))
sys.path.insert(0, os.path.join(os.path.dirname(os.path.dirname(HERE)), 'tools'))
import programs

PROGRAM = 'nequllpa_cli'


class Failed(Exception):
    """A result that differs from the expected one."""


class User:
    """Runs the program in a room."""

    def __init__(self, program, room, timeout=110):
        self.program, self.room, self.timeout, self.runs = program, room, timeout, 0

    def run(self, *words, given=b''):
        self.runs += 1
        return subprocess.run([self.program, *map(str, words)], input=given, stdout=subprocess.PIPE, stderr=subprocess.PIPE, cwd=self.room, timeout=self.timeout)

    def wants(self, words, status, out=None, err='', given=b''):
        """Checks the status, the output if it is given, and that standard error contains `err`. Returns the output."""
        done = self.run(*words, given=given)
        if isinstance(out, str):
            out = out.encode()
        if done.returncode != status or (out is not None and done.stdout != out) or err not in done.stderr.decode():
            told = [str(word)[:60] for word in words]
            raise Failed(f'{told}: status {done.returncode}, {done.stdout[-900:]!r}, {done.stderr[-300:]!r}; wanted {status}, {out and out[-900:]!r}, {err!r}')
        return done.stdout

    def path(self, *names):
        return os.path.join(self.room, *names)

    def write(self, name, text):
        with open(self.path(name), 'w', encoding='utf-8') as file:
            file.write(text)


def program_path():
    """Returns the path of the program to test, or None if it can't be built."""
    if 'NEQULLPA' in os.environ:
        return os.path.abspath(os.environ['NEQULLPA'])
    return programs.program_of(PROGRAM) if programs.build(PROGRAM) else None


def judged(test, kind=User, timeout=110):
    """Has a user of a kind go through a test in a room of its own. The test returns what it tells. Returns the exit status."""
    program, begun = program_path(), time.monotonic()
    if program is None:
        print('tests/folder: the program was not built')
        return 1
    with tempfile.TemporaryDirectory() as room:
        user = kind(program, room, timeout)
        try:
            told = test(user)
        except (Failed, subprocess.TimeoutExpired) as why:
            print(f'tests/folder: {why}')
            return 1
    print(f'tests/folder: {told}; {user.runs} runs, in {time.monotonic() - begun:.0f} s')
    return 0
