#!/usr/bin/env python3
"""Copies libraries that a run of `rt ci` proved in another copy of this tree, so that `rt check` doesn't
prove them again.

    tools/take_libraries.py COPY

It copies a library if its sources and those of its dependencies are the same in both trees. It may run during
that run of `rt ci`, for the crates that are finished. It is only for development: `./check` copies nothing.
It writes the stamps that the kit reads, so it depends on the internals of the command `rt`."""
import importlib.machinery
import importlib.util
import os
import shutil
import sys

sys.dont_write_bytecode = True
TOP = os.path.dirname(os.path.dirname(os.path.abspath(__file__)))


def command():
    """Loads the kit's command as a module."""
    path = os.path.realpath(shutil.which('rt'))
    loader = importlib.machinery.SourceFileLoader('rt', path)
    made = importlib.util.module_from_spec(importlib.util.spec_from_loader('rt', loader))
    sys.modules['rt'] = made
    loader.exec_module(made)
    return made


def remember_sums(rt):
    """Computes the hash of each crate's sources once. The kit computes those of its dependencies anew each time."""
    stamp = rt.rtlib.Crate.stamp

    def remembered(crate):
        if 'sum_of_sources' not in vars(crate):
            crate.sum_of_sources = stamp(crate)
        return crate.sum_of_sources

    rt.rtlib.Crate.stamp = remembered


def crates_of(rt, top):
    """Returns the crates of a tree by name, each after its dependencies."""
    os.chdir(top)
    return {crate.name: crate for crate in rt.rtlib.crates_below(top)}


def take(crate, other, stamp):
    """Copies a library and writes the hash of its sources next to it."""
    folder = os.path.dirname(crate.rlib)
    shutil.rmtree(folder, ignore_errors=True)
    os.makedirs(folder)
    shutil.copytree(other.rlib, crate.rlib)
    with open(os.path.join(folder, 'stamp'), 'w', encoding='utf-8') as file:
        file.write(stamp)


def take_all(here, there):
    """Copies each library that can be copied. Returns the names of the libraries that now exist, and of those
    that are missing."""
    found, missing = [], []
    for name, crate in here.items():
        if not crate.makes_rlib():
            continue
        stamp, other = crate.stamp(), there.get(name)
        if any(below.name not in found for below in crate.below()):
            missing.append(name)
        elif crate.is_built():
            found.append(name)
        elif other is not None and other.stamp() == stamp and os.path.isdir(other.rlib):
            take(crate, other, stamp)
            found.append(name)
        else:
            missing.append(name)
    return found, missing


def main():
    if len(sys.argv) != 2 or not os.path.isdir(os.path.join(sys.argv[1], 'crates')):
        print('usage: tools/take_libraries.py COPY', file=sys.stderr)
        return 2
    copy = os.path.abspath(sys.argv[1])
    rt = command()
    made = rt.rtlib.Crate.__init__

    def make(self, *given, **named):
        made(self, *given, **named)
        rt.read_files(self)

    rt.rtlib.Crate.__init__ = make
    remember_sums(rt)
    found, missing = take_all(crates_of(rt, TOP), crates_of(rt, copy))
    print('here:', *found)
    print('missing:', *missing)
    return 0


sys.exit(main())
