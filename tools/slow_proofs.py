#!/usr/bin/env python3
"""Reports where the time of a check went, by function and by module: `tools/slow_proofs.py CRATE [LINES]`.

`rt check` writes a file to crates/CRATE/out/incremental when it has proved a module. A module's time is the
time since the file before it. With other work in parallel that exceeds the processor time, and after an edit
it covers only what was proved again. For a complete crate, remove that folder and check again."""
import collections
import os
import sys

TOP = os.path.dirname(os.path.dirname(os.path.abspath(__file__)))
# A longer time is a pause between two checks.
BETWEEN = 90


def modules(crate):
    """Returns each proved module of a crate with its time."""
    done = []
    for folder, _, names in os.walk(os.path.join(TOP, 'crates', crate, 'out', 'incremental')):
        for name in names:
            if name.endswith('.oantt') and not name.endswith('.decls.oantt'):
                done.append((os.stat(os.path.join(folder, name)).st_mtime, name[:-len('.oantt')]))
    return sorted(done)


def main():
    crate, lines = sys.argv[1], int(sys.argv[2]) if len(sys.argv) > 2 else 20
    functions, parts = collections.Counter(), collections.Counter()
    before = None
    for when, module in modules(crate):
        seconds = 0 if before is None or when - before > BETWEEN else when - before
        before = when
        name = module.replace(f'Rattle-{crate}-', '', 1)
        parts[name] += seconds
        functions[name.rpartition('.')[0]] += seconds
    print(f'{crate}: {sum(parts.values()):.0f} seconds')
    for title, counted in (('by function', functions), ('by module', parts)):
        print(f'-- {title}')
        for name, seconds in counted.most_common(lines):
            print(f'{seconds:7.1f}  {name}')


main()
