"""Runs a program of the repository for the user: the proved build of these sources if there is one, else an
unproved one."""
import os
import shutil
import sys
import tempfile

import programs

# The arguments that the command itself takes.
OWN = ('--help', '--prove', '--unproved')


def has_kit(name):
    """Returns whether the kit's command `rt` is on the path. Prints an error for the command `name` if not."""
    if shutil.which('rt') is not None:
        return True
    print(f'{name}: the kit is missing: no rt on the path', file=sys.stderr)
    return False


def run(name, crate, usage=None, first_words=(), first_input=b''):
    """Runs the command `name` with the program of a crate. If it succeeds, the program replaces this process;
    else returns the exit status.

    `--prove` alone proves and builds the program. The program gets all other arguments. If `usage` is given, a first
    argument `--unproved` runs the unproved program, and `--help`, or `--prove` or `--unproved` elsewhere, prints
    `usage`. The first unproved run compiles the program by running it on `first_words` and `first_input`."""
    words = sys.argv[1:]
    is_unproved = usage is not None and words[:1] == ['--unproved']
    passed_on = words[1:] if is_unproved else words
    if usage is not None and words != ['--prove'] and any(word in OWN for word in passed_on):
        print(usage, end='', file=sys.stderr)
        return 2
    if not has_kit(name):
        return 2
    if words == ['--prove']:
        return 0 if programs.build(crate) else 2
    if not is_unproved and programs.is_built(crate):
        os.execv(programs.program_of(crate), [programs.program_of(crate), *passed_on])
    return programs.run_unproved(name, crate, passed_on, first_words, first_input)


def install(name, crate, words):
    """Copies the proved program of a crate into the folder that `words` names, as `name`. It needs nothing else of the
    tree. Returns the exit status."""
    if len(words) != 1 or words[0].startswith('-'):
        print(f'usage: ./{name} install DIR', file=sys.stderr)
        return 2
    if not has_kit(name):
        return 2
    if not programs.is_built(crate):
        print(f'{name}: the program of these sources is not built yet; ./{name} --prove proves and builds it', file=sys.stderr)
        return 2
    place = os.path.join(words[0], name)
    try:
        with tempfile.TemporaryDirectory(dir=words[0], prefix=f'.{name}-') as folder:
            copied = shutil.copy(programs.program_of(crate), folder)
            os.replace(copied, place)
    except OSError as error:
        print(f'{name}: {place}: {error.strerror}', file=sys.stderr)
        return 2
    print(place)
    return 0
