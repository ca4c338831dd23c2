"""The programs of the repository: their sources, whether a proved build of these sources exists, and how to
build them."""
import hashlib
import os
import re
import shutil
import subprocess
import sys
import tempfile
import threading
import time

TOP = os.path.dirname(os.path.dirname(os.path.abspath(__file__)))
# The peak memory in bytes of each of four parallel checks, sampled from complete runs. A single check takes
# up to 6 GB, most take less than 4.
ONE_CHECK = 9 << 29


def libraries():
    """Returns each crate with the crates of the repository that its line in crates.txt names."""
    lines = {}
    with open(os.path.join(TOP, 'crates.txt'), encoding='utf-8') as text:
        for line in text:
            words = line.split('#')[0].replace(':', ' : ').split()
            if ':' in words:
                place = words.index(':')
                lines[words[0]] = words[place + 1:]
    return {name: [other for other in others if other in lines] for name, others in lines.items()}


def needed(program):
    """Returns the crates of a program, each after its dependencies; the program is last."""
    below, found = libraries(), []

    def add(name):
        for other in below[name]:
            add(other)
        if name not in found:
            found.append(name)

    add(program)
    return found


def sum_of_sources(program):
    """Returns a hash of a program's sources: the kit, the lines of crates.txt, HANDLES, and the files of its
    crates."""
    crates = needed(program)
    total = hashlib.sha256(subprocess.run(['rt', 'version'], stdout=subprocess.PIPE).stdout)
    files = [os.path.join(TOP, 'HANDLES')]
    for crate in crates:
        total.update(f'{crate}: {libraries()[crate]}\n'.encode())
        for part in ('src', 'specs', 'proofs'):
            for folder, folders, names in os.walk(os.path.join(TOP, 'crates', crate, part)):
                folders.sort()
                files += [os.path.join(folder, name) for name in sorted(names)]
    for file in files:
        with open(file, 'rb') as text:
            total.update(f'{os.path.relpath(file, TOP)}\n'.encode() + hashlib.sha256(text.read()).digest())
    return total.hexdigest()


def program_of(name):
    """Returns the path of a built program."""
    return os.path.join(TOP, 'crates', name, 'out', name)


def mark_of(name):
    """Returns the path of the file that records the sources from which a program was proved and built."""
    return program_of(name) + '.sources'


def is_built(name):
    """Returns whether a proved build of exactly these sources exists."""
    try:
        with open(mark_of(name), encoding='utf-8') as mark:
            return os.access(program_of(name), os.X_OK) and mark.read() == sum_of_sources(name)
    except OSError:
        return False


def write_down(name, sources):
    """Records that a program was proved and built from these sources, if they are still the same."""
    if os.access(program_of(name), os.X_OK) and sources == sum_of_sources(name):
        with open(mark_of(name), 'w', encoding='utf-8') as mark:
            mark.write(sources)


def unproved_of(name):
    """Returns the path of the unproved program."""
    return program_of(name) + '.unproved'


def has_unproved(name):
    """Returns whether an unproved program of exactly these sources exists."""
    try:
        with open(unproved_of(name) + '.sources', encoding='utf-8') as mark:
            return os.access(unproved_of(name), os.X_OK) and mark.read() == sum_of_sources(name)
    except OSError:
        return False


def keep_unproved(folder, kept, ended):
    """Keeps the program that `rt try` makes in its own folder and then removes, by a hard link while the
    program runs."""
    while not ended.wait(0.0005):
        for made in glob_programs(folder):
            try:
                os.link(made, kept)
                return
            except OSError:
                pass


def glob_programs(folder):
    """Lists the programs that `rt try` has made in a folder so far."""
    found = []
    try:
        for room in os.scandir(folder):
            found += [os.path.join(part.path, 'program') for part in os.scandir(room.path) if part.name.startswith('rattle-native')]
    except OSError:
        pass
    return found


def make_unproved(name, words, given):
    """Compiles the sources without proving them, by an unproved run of the kit with these words and this
    input, and keeps the program. Returns whether it is kept; if not, prints the kit's output."""
    sources = sum_of_sources(name)
    out = os.path.dirname(program_of(name))
    os.makedirs(out, exist_ok=True)
    with tempfile.TemporaryDirectory(dir=out, prefix='unproved-') as folder:
        kept, ended = os.path.join(folder, 'kept'), threading.Event()
        rooms = os.path.join(folder, 'rooms')
        os.makedirs(rooms)
        keeper = threading.Thread(target=keep_unproved, args=(rooms, kept, ended))
        keeper.start()
        run = subprocess.run(['rt', 'try', *(['--', *words] if words else [])], cwd=os.path.dirname(out), input=given,
                             env=dict(os.environ, TMPDIR=rooms), stdout=subprocess.PIPE, stderr=subprocess.PIPE)
        ended.set()
        keeper.join()
        if not os.path.exists(kept) or b'\nrun=ended ' not in b'\n' + run.stderr:
            sys.stderr.buffer.write(run.stderr[-2000:])
            return False
        os.replace(kept, unproved_of(name))
    with open(unproved_of(name) + '.sources', 'w', encoding='utf-8') as mark:
        mark.write(sources)
    return True


def run_unproved(program, name, words, first_words=(), first_input=b''):
    """Replaces this process by the unproved program, which it compiles first if necessary. `program` is the
    name for the user. Returns a status only if there is no such program."""
    if not has_unproved(name):
        print(f'{program}: compiling the sources without proving them, about a minute; kept until they change', file=sys.stderr, flush=True)
        if not make_unproved(name, first_words, first_input):
            print(f'{program}: the sources could not be run', file=sys.stderr)
            return 2
    print(f'{program}: this answer is unproved; ./{program} --prove proves and builds the program', file=sys.stderr, flush=True)
    toolchain = os.path.join(os.path.dirname(os.path.dirname(os.path.realpath(shutil.which('rt')))), 'toolchain', 'lib')
    loader = os.path.join(toolchain, 'ld-linux-x86-64.so.2')
    os.execv(loader, [loader, '--inhibit-cache', '--library-path', toolchain, unproved_of(name), *words])
    return 2


def at_once():
    """Returns how many crates to prove in parallel: the number of processors, if memory suffices."""
    cores = len(os.sched_getaffinity(0))
    with open('/proc/meminfo', encoding='utf-8') as lines:
        free = int(re.search(r'MemAvailable:\s+(\d+)', lines.read()).group(1)) << 10
    return max(1, min(cores, free // ONE_CHECK))


def tell(name, text):
    """Prints the progress of a program's build on standard error."""
    print(f'{name}: {text}', file=sys.stderr, flush=True)


class Progress:
    """Reports which crate is being proved, its number, and how long it took."""

    def __init__(self, program):
        self.program, self.crates = program, needed(program)
        self.start, self.began, self.passed, self.ended = time.time(), {}, set(), threading.Event()

    def has_begun(self, crate):
        """Returns whether the kit started to build a crate: it creates a folder then."""
        folder = 'out/rlib' if crate != self.program else 'out/incremental'
        try:
            return os.stat(os.path.join(TOP, 'crates', crate, folder)).st_ctime >= self.start
        except OSError:
            return False

    def look(self):
        """Reports each crate that was started since the last call."""
        for crate in self.crates:
            if crate not in self.began and crate not in self.passed and self.has_begun(crate):
                self.began[crate] = time.time()
                tell(self.program, f'proving {crate} ({1 + self.crates.index(crate)} of {len(self.crates)})')

    def watch(self):
        """Looks again and again until the run has ended."""
        while not self.ended.wait(0.2):
            self.look()

    def took(self, crate):
        """Reports a proved crate, unless an earlier run proved it."""
        self.passed.add(crate)
        if crate in self.began:
            tell(self.program, f'proved {crate} in {time.time() - self.began[crate]:.0f} s')


def proves(program):
    """Proves all crates of a program, in parallel where their dependencies allow it. Skips what an earlier
    run proved."""
    progress = Progress(program)
    folder = os.path.join(TOP, 'crates', program)
    run = subprocess.Popen(['rt', 'all', 'check', '--jobs', str(at_once())], cwd=folder, stdin=subprocess.DEVNULL,
                           stdout=subprocess.PIPE, stderr=subprocess.STDOUT, text=True, errors='replace')
    watcher = threading.Thread(target=progress.watch)
    watcher.start()
    said = []
    for line in run.stdout:
        said.append(line)
        crate = line[3:].strip()
        if line.startswith('== ') and crate in progress.crates:
            progress.took(crate)
    status = run.wait()
    progress.ended.set()
    watcher.join()
    if status != 0:
        sys.stderr.writelines(said)
    return status == 0


def build(name):
    """Proves and builds a program if no proved build exists. Returns whether one exists after that."""
    if is_built(name):
        return True
    began, sources, many = time.time(), sum_of_sources(name), len(needed(name))
    tell(name, f'proving and building the program and the {many - 1} crates below it')
    if not proves(name):
        tell(name, 'a crate is not proved')
        return False
    run = subprocess.run(['rt', 'run'], cwd=os.path.join(TOP, 'crates', name), stdin=subprocess.DEVNULL,
                         stdout=subprocess.PIPE, stderr=subprocess.STDOUT, text=True, errors='replace')
    write_down(name, sources)
    if not is_built(name):
        sys.stderr.write(run.stdout)
        tell(name, 'the program was not built')
        return False
    tell(name, f'proved and built in {time.time() - began:.0f} s')
    return True
