#!/usr/bin/env python3
"""Reads docs/PROMISES.md. Each client that it names must be a public function, each clause a clause of a function that
its row names, and each definition one of the specs."""
import glob
import os
import re
import sys

sys.dont_write_bytecode = True
TOP = os.path.dirname(os.path.dirname(os.path.dirname(os.path.abspath(__file__))))
CLIENTS = ('ii_promises', 'ii_folder_promises')


def text_of(path):
    with open(path, encoding='utf-8') as file:
        return file.read()


def contracts():
    """Returns the labels of the clauses of all functions by the name of the function, the public functions by their
    module in the crates of clients, else by their crate, and the names of types, traits and constants."""
    labels, clients, types = {}, {}, {'Seg', 'Block'}
    for path in glob.glob(os.path.join(TOP, 'crates', '*', 'src', '**', '*.rt'), recursive=True):
        crate = os.path.relpath(path, os.path.join(TOP, 'crates')).split(os.sep)[0]
        name = None
        for line in text_of(path).splitlines():
            declared = re.match(r'\s*(pub(?:\([a-z]+\))? )?(?:const )?fn (\w+)', line)
            if declared:
                name = declared.group(2)
                labels.setdefault(name, set())
                if declared.group(1) == 'pub ':
                    module = os.path.basename(path)[:-3] if crate in CLIENTS else crate
                    clients.setdefault(module, set()).add(name)
            clause = re.match(r'\s*(?:ensures|requires) (\w+) \{', line)
            if clause and name:
                labels[name].add(clause.group(1))
            named = re.match(r'\s*(?:pub(?:\([a-z]+\))? )?(?:struct|trait|enum|const|type) (\w+)|    ([A-Z]\w+)(?:\(.*\))?,$', line)
            if named:
                types.add(named.group(1) or named.group(2))
            # A trait's law, or a ghost function of its implementation.
            ghost = re.match(r'\s*ghost (?:law )?(\w+)\b', line)
            if ghost:
                labels.setdefault('', set()).add(ghost.group(1))
    return labels, clients, types


def definitions():
    """Returns the names that the specs define, and the fields of their records."""
    names, fields = set(), set()
    for path in glob.glob(os.path.join(TOP, 'crates', '*', 'specs', '**', '*.antt'), recursive=True):
        for line in text_of(path).splitlines():
            named = re.match(r'(?:(?:abbrev|unfoldable|opaque) )?pub (?:record )?([\w-]+)', line)
            if named:
                names.add(named.group(1))
            field = re.match(r'\s+pub ([\w-]+) :', line)
            if field:
                fields.add(field.group(1))
    return names, fields


def spread(path):
    """Returns the last names of a path such as `a::{b, c::d}`, and the first name of it."""
    first, _, rest = path.partition('::')
    inner = path[path.index('{') + 1:-1].split(',') if path.endswith('}') else [rest or first]
    return [name.strip().rsplit('::', 1)[-1] for name in inner], first


def rows():
    """Yields the cells of each row of a table with clients, and its line."""
    width = 0
    for number, line in enumerate(text_of(os.path.join(TOP, 'docs', 'PROMISES.md')).splitlines(), 1):
        cells = [cell.strip() for cell in line.strip().strip('|').split(' | ')] if line.startswith('|') else []
        if cells[:2] == ['sentence', 'clauses']:
            width = len(cells)
        elif not cells:
            width = 0
        elif width == 3 and not re.match(r'[-| ]+$', line):
            yield number, [cell.strip() for cell in cells]


def unknown_clauses(cell, labels, types, names, fields):
    """Yields what a cell names that isn't there. "`f`, `g`: `a`" names a clause of one of these functions; before the
    colon may also stand a type, or a clause whose fields follow. In parentheses stand definitions and their fields."""
    everywhere = set().union(*labels.values())
    for part in re.sub(r'\([^)]*\)', '', cell).split(';'):
        owners, colon, clauses = part.partition(': ')
        functions = [name for path in re.findall(r'`([\w:]+(?:\{[^}]*\})?)`', owners) for name in spread(path)[0]]
        for name in functions:
            if name not in set(labels) | types | names | everywhere and not os.path.isdir(os.path.join(TOP, 'crates', name)):
                yield f'no function {name}'
        known = set().union(*(labels.get(name, set()) for name in functions)) | labels['']
        if not functions or set(functions) - set(labels):
            known = everywhere | fields
        for name in re.findall(r'`(\w+)`', clauses):
            if name not in known | types:
                yield f'no clause {name} of {", ".join(functions)}'
    for inner in re.findall(r'\(([^)]*)\)', cell):
        for name in re.findall(r'`(\w+)`', inner):
            if name not in fields | everywhere | names | types:
                yield f'no field {name}'
    for name in re.findall(r'(?<!\*)\*([\w-]+)\*(?!\*)', cell):
        if name not in names:
            yield f'no definition {name}'


def mistakes():
    labels, clients, types = contracts()
    names, fields = definitions()
    for number, cells in rows():
        if len(cells) != 3:
            yield f'line {number}: {len(cells)} cells'
            continue
        for mistake in unknown_clauses(cells[1], labels, types, names, fields):
            yield f'line {number}: {mistake}'
        for path in re.findall(r'`(\w+::(?:\w+|\{[^}]*\}))`', cells[2]):
            found, module = spread(path)
            for name in found:
                if name not in clients.get(module, set()):
                    yield f'line {number}: no client {module}::{name}'


def main():
    found = list(mistakes())
    for line in found:
        print(f'docs/PROMISES.md: {line}')
    print(f'docs/PROMISES.md: {len(list(rows()))} sentences, {len(found)} mistakes')
    return 1 if found else 0


sys.exit(main())
