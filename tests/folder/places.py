#!/usr/bin/env python3
"""Compares what `search --locate` prints with a plain reading of the files that `index --locate` and `add --locate` read:
for each document its file, the number of its line and the byte at which that begins, and with `--snippet` the snippet
that an index which stores the same lines prints. In random folders, with names of files that have colons, quotes and
spaces, lines with white space around them, bad lines, deletes and merges; and where files have changed or are gone."""
import json
import os
import random
import shutil
import sys

sys.dont_write_bytecode = True
HERE = os.path.dirname(os.path.abspath(__file__))
sys.path.insert(0, HERE)
import users
from users import Failed

SEED = 20261130
FOLDERS = 60
NAMES = ['a.jsonl', 'b:c.jsonl', 'd "e".jsonl', 'f g.jsonl', 'h:1:2', '\u8001.jsonl', 'sub/i.jsonl', "j'k.jsonl"]
WORDS = ['sea', 'old', 'man', 'boat', 'na\u00efve', '\u8001\u4eba', 'seas', '{', '}', '"']
FIELDS = '[[field]]\nname = "id"\ntype = "u64"\n[[field]]\nname = "body"\ntype = "text"\ntokenizer = "default"\n[[field]]\nname = "tree"\ntype = "json"\n'
PLACE = '[[field]]\nname = "place"\ntype = "text"\nstored = true\n'
# The place that a line has of its own, which `--locate` replaces.
OWN = 'none:1:1'
BLANK = [b'', b' ', b'\t', b'  ']


def random_line(chosen, line_id):
    """Returns the bytes of a line without its end: an object, with white space in it and around it, and whether that has a
    place of its own."""
    members = [('id', line_id)]
    if chosen.randrange(5):
        members.append(('body', ' '.join(chosen.choices(WORDS, k=chosen.randrange(6)))))
    if chosen.randrange(4) == 0:
        members.append(('tree', chosen.choice([{}, {'a': {}}, ['sea'], 'old}'])))
    if chosen.randrange(4) == 0:
        members.append(('place', OWN))
    chosen.shuffle(members)
    text = json.dumps(dict(members), ensure_ascii=chosen.randrange(2) == 0, separators=chosen.choice([(',', ':'), (', ', ' : ')]))
    text = chosen.choice(BLANK) + text[:-1].encode() + chosen.choice(BLANK) + b'}' + chosen.choice([*BLANK, b'\r'])
    return text, any(name == 'place' for name, _ in members)


class Files:
    """Files of lines in a room, and for each line of an index its id, and its place if it has one."""

    def __init__(self, user, chosen):
        self.user, self.chosen, self.next, self.rows = user, chosen, 0, []

    def write(self, name, is_located):
        """Writes a file of random lines. Returns its bytes."""
        data = b''
        for number in range(1, self.chosen.randrange(1, 9)):
            kind = self.chosen.randrange(8)
            if kind == 0:
                data += self.chosen.choice(BLANK) + b'\n'
            elif kind == 1:
                data += self.chosen.choice([b'{"id":1', b'{"id":1,}', b'7', b'{"id":"x"}', b'{"other":1}', b'\xff']) + b'\n'
            else:
                text, has_own = random_line(self.chosen, self.next)
                own = ('none', 1, 1) if has_own else None
                self.rows.append((self.next, (name, number, len(data)) if is_located else own))
                data += text + b'\n'
                self.next += 1
        if data and self.chosen.randrange(2):
            data = data[:-1]
        path = self.user.path(name)
        os.makedirs(os.path.dirname(path), exist_ok=True)
        with open(path, 'wb') as file:
            file.write(data)


def as_words(place):
    return f'{place[0]}:{place[1]}' if place else '-'


def as_json(place):
    if place is None:
        return 'null'
    return json.dumps({'file': place[0], 'line': place[1], 'byte': place[2]}, ensure_ascii=False, separators=(',', ':'))


def has_line(place):
    """Returns whether a place is that of a line in a file."""
    return place is not None and place[0] != 'none'


def look(user, rows, query):
    """Compares what is printed of the documents of a query, given the place of each document."""
    search, twin = ['search', 'placed', query], ['search', 'stored', query]
    numbers = [int(row) for row in user.run(*twin).stdout.split()]
    status = 0 if numbers else 1
    places = [rows[number][1] for number in numbers]
    user.wants([*search, '--locate', 'place'], status, ''.join(as_words(place) + '\n' for place in places))
    user.wants([*search, '--locate', 'place', '--json'], status, ''.join(f'{{"doc":{number},"place":{as_json(place)}}}\n' for number, place in zip(numbers, places)))
    snippets = [row.split('\t', 1)[1] for row in user.run(*twin, '--snippet').stdout.decode().split('\n')[:-1]]
    snippets = [snippet if has_line(place) else '' for snippet, place in zip(snippets, places)]
    user.wants([*search, '--locate', 'place', '--snippet'], status, ''.join(f'{as_words(place)}\t{snippet}\n' for place, snippet in zip(places, snippets)))
    marked = [json.loads(row)['snippet'] for row in user.run(*twin, '--snippet', '--json').stdout.decode().splitlines()]
    marked = [json.dumps(snippet if has_line(place) else '', ensure_ascii=False) for snippet, place in zip(marked, places)]
    user.wants([*search, '--locate', 'place', '--snippet', '--json'], status,
               ''.join(f'{{"doc":{number},"place":{as_json(place)},"snippet":{snippet}}}\n' for number, place, snippet in zip(numbers, places, marked)))
    best = [row.split('\t') for row in user.run(*search, '--top', '3').stdout.decode().splitlines()]
    wanted = [(as_words(rows[int(number)][1]), score, snippets[numbers.index(int(number))]) for number, score in best]
    user.wants([*search, '--top', '3', '--locate', 'place'], status, ''.join(f'{place}\t{score}\n' for place, score, _ in wanted))
    user.wants([*search, '--top', '3', '--locate', 'place', '--snippet'], status, ''.join('\t'.join(row) + '\n' for row in wanted))
    return len(numbers)


def random_folders(user):
    """In random folders, compares an index of places with one that stores the same lines. Returns how many documents were found."""
    chosen, found = random.Random(SEED), 0
    user.write('placed.toml', FIELDS + PLACE + 'indexed = false\n')
    user.write('stored.toml', 'store_source = true\n' + FIELDS + PLACE.replace('stored', 'indexed').replace('true', 'false'))
    for _ in range(FOLDERS):
        files = Files(user, chosen)
        for folder in ('placed', 'stored'):
            shutil.rmtree(user.path(folder), ignore_errors=True)
        for turn in range(chosen.randrange(1, 4)):
            is_located = turn == 0 or chosen.randrange(3) > 0
            names = chosen.sample(NAMES, chosen.randrange(1, 4))
            # each turn has files of its own, which no later turn writes anew
            names = [f'{turn}{name}' if '/' not in name else f'sub/{turn}{name[4:]}' for name in names]
            for name in names:
                files.write(name, is_located)
            locate = ['--locate', 'place'] if is_located else []
            more = chosen.choice([[], ['--no-merge']])
            for folder in ('placed', 'stored'):
                words = ['index', folder, '--schema', f'{folder}.toml'] if turn == 0 else ['add', folder, *more]
                user.wants([*words, '--skip-bad', *(locate if folder == 'placed' else []), *names], 0)
        if files.rows and chosen.randrange(3) == 0:
            gone = chosen.choice(files.rows)
            files.rows.remove(gone)
            for folder in ('placed', 'stored'):
                user.wants(['delete', folder, 'id', gone[0]], 0)
        if chosen.randrange(4) == 0:
            user.wants(['merge', 'placed'], 0)
        for query in ('*', 'sea', 'body:se* OR old', '"old sea" OR \u8001'):
            found += look(user, files.rows, query)
        user.wants(['check', 'placed'], 0)
    return found


def options_are_read(user):
    """Options that don't go together, and schemas that keep no places, are refused; a changed file is read as it is."""
    user.write('sea.toml', FIELDS + PLACE)
    with open(user.path('lines'), 'wb') as file:
        file.write(b'{}\n{"body":"the old sea","place":"mine"}\n')
    user.wants(['index', 'sea', '--schema', 'sea.toml', '--locate', 'place', 'lines'], 0, b'2 documents indexed\n')
    user.wants(['get', 'sea', 0, 1], 0, b'{"place":"lines:1:0"}\n{"place":"lines:2:3"}\n')
    user.wants(['add', 'sea', '--locate', 'place', '--replace-by', 'id', '-'], 0, given=b'\n{"id":7,"body":"a sea"}')
    search = ['search', 'sea', 'sea', '--locate', 'place']
    user.wants(search, 0, b'lines:2\n-:2\n')
    user.wants([*search, '--snippet'], 0, b'lines:2\tthe old sea\n-:2\t\n')
    with open(user.path('lines'), 'wb') as file:
        file.write(b'{}\n{"body":"another sea"}')
    user.wants([*search, '--snippet'], 0, b'lines:2\tanother sea\n-:2\t\n')
    for change in (lambda path: os.truncate(path, 3), lambda path: os.truncate(path, 5), os.remove):
        change(user.path('lines'))
        user.wants([*search, '--snippet'], 0, b'lines:2\t\n-:2\t\n')
    user.wants(['search', 'sea', 'place:lines', '--locate', 'place', '--batch'], 2, b'', 'search needs a query, or --batch')
    user.wants(['search', 'sea', '--locate', 'place', '--batch'], 0, b'{"query":"body:old","docs":[{"doc":1,"place":{"file":"lines","line":2,"byte":3}}]}\n', given=b'body:old\n')
    for option in (['--count'], ['--positions'], ['--ids']):
        user.wants([*search, *option], 2, b'', '--locate stands without --count, --positions and --ids')
    for option in (['--source'], ['--fields', 'place']):
        user.wants([*search, *option], 2, b'', '--locate stands without --source and --fields')
    user.wants(['search', 'sea', 'sea', '--locate', 'other'], 2, b'', 'no field other')
    user.wants(['search', 'sea', 'sea', '--locate', 'body'], 2, b'', 'the field body is not stored')
    for schema, name, why in ((FIELDS + PLACE, 'other', 'no field other'), (FIELDS + PLACE, 'body', 'body has to be a text field'),
                              ('store_source = true\n' + FIELDS + PLACE, 'place', 'store_source not true'),
                              (FIELDS.replace('"json"\n', '"json"\nstored = true\n'), 'tree', 'tree has to be a text field')):
        user.write('wrong.toml', schema)
        user.wants(['index', 'wrong', '--schema', 'wrong.toml', '--locate', name, '-'], 2, b'', why, given=b'')
    user.wants(['add', 'sea', '--locate', 'body', '-'], 2, b'', 'body has to be a text field', given=b'')
    user.wants(['index', 'wrong', '--schema', 'sea.toml', '--locate', 'place', '-'], 1, b'', '-:2: not JSON, at byte 9', given=b'{}\n{"id":1,}\n')


def places_are_kept(user):
    """Goes through all of it. Returns what was seen."""
    options_are_read(user)
    return f'the places of {random_folders(user)} found lines are as expected, in {FOLDERS} folders'


sys.exit(users.judged(places_are_kept))
