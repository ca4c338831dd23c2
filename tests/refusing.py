"""Runs built programs and lets an allocation, a read or a write fail."""
import os
import subprocess
import sys

HERE = os.path.dirname(os.path.abspath(__file__))
TOP = os.path.dirname(HERE)
sys.path.insert(0, os.path.join(TOP, 'tools'))
import programs

build = programs.build


def shim(folder, source='memory/refuse.c'):
    """Compiles, with the kit's compiler, a library that makes allocations (or other calls) fail when it is
    loaded before the C library."""
    kit = os.path.dirname(subprocess.run(['rt', 'doc'], capture_output=True, text=True).stdout.split()[0])
    made = os.path.join(folder, os.path.basename(source) + '.so')
    tools = os.path.join(kit, 'toolchain', 'bin')
    subprocess.run([os.path.join(tools, 'clang'), '-shared', '-fPIC', '-O1', '-fno-builtin', '-nostdlib',
                    '-fuse-ld=' + os.path.join(tools, 'ld.lld'), '-o', made, os.path.join(HERE, source)], check=True)
    return made


def run(crate, text, library, refused, folder, variable='REFUSE', **others):
    """Runs a program. Returns its result and how many of the calls selected by the variables failed."""
    reported = os.path.join(folder, 'reported')
    with open(reported, 'wb') as sink:
        os.dup2(sink.fileno(), 3)
        done = subprocess.run([programs.program_of(crate)], input=text, stdout=subprocess.PIPE, stderr=subprocess.PIPE,
                              timeout=60, pass_fds=(3,), env={'LD_PRELOAD': library, variable: str(refused), **others})
    return done, os.path.getsize(reported)
