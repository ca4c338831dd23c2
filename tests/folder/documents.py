#!/usr/bin/env python3
"""Indexes lines that are stored, and compares `search --source`, `search --fields` and `get` with a plain reading of the lines: after adding,
replacing, deleting and merging, in random folders, and where bytes of the file of stored lines are changed. The same for
records: objects of the members whose fields are stored. An index without stored lines answers as before, and says that
they aren't stored."""
import json
import os
import random
import shutil
import struct
import sys

sys.dont_write_bytecode = True
HERE = os.path.dirname(os.path.abspath(__file__))
sys.path.insert(0, HERE)
import users
from users import Failed

SEED = 20261128
FOLDERS = 200
CHANGES = 300
FIELD_LINES = 120
RECORD_FOLDERS = 60
NOT_STORED = 'the lines of this index are not stored'
SCHEMA = 'store_source = true\n[[field]]\nname = "id"\ntype = "u64"\n[[field]]\nname = "body"\ntype = "text"\n'
PIECES = ['sea', 'old', 'man', 'boat', 'line', 'fish', 'na\u00efve', '\u8001\u4eba', '\\u00e9', '\\"', '\\\\', 'x' * 300]


class Lines:
    """The living lines of an index, read plainly: each with its number, its words, and its bytes."""

    def __init__(self):
        self.lines = []

    def add(self, given):
        self.lines += given

    def replace(self, given):
        """Replaces lines by their ids; of new lines with the same id the last one counts."""
        last = {line_id: place for place, (line_id, _, _) in enumerate(given)}
        self.lines = [line for line in self.lines if line[0] not in last]
        self.lines += [line for place, line in enumerate(given) if last[line[0]] == place]

    def delete(self, line_id):
        self.lines = [line for line in self.lines if line[0] != line_id]

    def with_word(self, word):
        return [(number, text) for number, (_, words, text) in enumerate(self.lines) if word in words]


def random_line(chosen, line_id):
    """Returns a line: its id, its words, and its text, which may have white space around and in it."""
    words = chosen.choices(PIECES, k=chosen.randrange(6))
    text = ' '.join(words)
    inner = f'{{"id":{chosen.choice(["", " "])}{line_id},{chosen.choice(["", "  "])}"body":"{text}"}}'
    return line_id, [word for word in words if word.isalpha() and word.isascii()], inner.encode()


def spaced(chosen, lines):
    """Returns the bytes of lines, some with white space around them."""
    return b''.join(chosen.choice([b'', b' ', b'\t']) + text + chosen.choice([b'', b' ', b'\r']) + b'\n' for _, _, text in lines)


def look(user, folder, plain, chosen, word='sea'):
    """Compares what is printed of documents with a plain reading."""
    found = plain.with_word(word)
    status = 0 if found else 1
    user.wants(['search', folder, word, '--source'], status, b''.join(text + b'\n' for _, text in found))
    user.wants(['search', folder, word, '--source', '--json'], status, b''.join(b'{"doc":%d,"source":%s}\n' % (number, text) for number, text in found))
    if plain.lines:
        asked = chosen.choices(range(len(plain.lines)), k=5)
        user.wants(['get', folder, *asked], 0, b''.join(plain.lines[number][2] + b'\n' for number in asked))
    user.wants(['get', folder, len(plain.lines)], 1, b'', f'no document {len(plain.lines)}')


def commands_keep_lines(user):
    """Runs each command that changes an index, and looks at the lines."""
    chosen, plain = random.Random(SEED), Lines()
    user.write('schema.toml', SCHEMA)
    first = [random_line(chosen, number) for number in range(400)]
    plain.add(first)
    user.wants(['index', 'one', '--schema', 'schema.toml'], 0, given=spaced(chosen, first))
    look(user, 'one', plain, chosen)
    more = [random_line(chosen, 1000 + number) for number in range(30)]
    plain.add(more)
    user.wants(['add', 'one', '--no-merge'], 0, given=spaced(chosen, more))
    look(user, 'one', plain, chosen, 'old')
    for line_id in (0, 7, 399, 1003):
        plain.delete(line_id)
        user.wants(['delete', 'one', 'id', line_id], 0)
    look(user, 'one', plain, chosen, 'man')
    other = [random_line(chosen, number) for number in (5, 1001, 1001, 2000)]
    plain.replace(other)
    user.wants(['add', 'one', '--replace-by', 'id'], 0, given=spaced(chosen, other))
    look(user, 'one', plain, chosen, 'fish')
    user.wants(['merge', 'one'], 0)
    look(user, 'one', plain, chosen, 'line')
    everything = list(range(len(plain.lines)))
    user.wants(['get', 'one', *everything], 0, b''.join(text + b'\n' for _, _, text in plain.lines))
    user.wants(['check', 'one'], 0)
    told = user.wants(['stats', 'one'], 0).decode()
    size = sum(os.path.getsize(user.path('one', name)) for name in os.listdir(user.path('one')) if name.endswith('.store'))
    if f'{size:>12} bytes of stored documents' not in told:
        raise Failed(f'stats doesn\'t tell the {size} bytes of the stored documents: {told[:600]}')
    best = user.wants(['search', 'one', 'sea', '--top', '5', '--source', '--json'], 0).decode().splitlines()
    ranked = user.wants(['search', 'one', 'sea', '--top', '5', '--json'], 0).decode().splitlines()
    for with_line, without in zip(best, ranked, strict=True):
        row, number = json.loads(with_line), json.loads(without)
        if row.pop('source') != json.loads(plain.lines[number['doc']][2]) or row != number:
            raise Failed(f'--top with --source: {with_line}, {without}')
    plainly = user.wants(['search', 'one', 'sea', '--top', '5', '--source'], 0).decode().splitlines()
    if [row.rsplit('\t', 1)[0] for row in plainly] != [plain.lines[json.loads(row)['doc']][2].decode() for row in ranked]:
        raise Failed(f'--top with --source: {plainly}')
    user.wants(['search', 'one', 'sea', '--source', '--limit', '3'], 0, b''.join(text + b'\n' for _, text in plain.with_word('sea')[:3]))
    for option in ('--count', '--positions', '--ids'):
        user.wants(['search', 'one', 'sea', '--source', option], 2, b'', '--source stands without')
    user.wants(['get', 'one'], 2, b'', 'needs the number')
    user.wants(['get', 'one', 'x'], 2, b'', 'expected the number')
    user.wants(['get', 'one', 3, 999999, 4], 1, plain.lines[3][2] + b'\n' + plain.lines[4][2] + b'\n', 'no document 999999')


def other_indexes_answer(user):
    """Indexes whose lines aren't stored, also one of version 1, answer as before."""
    user.write('plain.toml', SCHEMA.replace('store_source = true\n', ''))
    user.wants(['index', 'two', '--schema', 'plain.toml'], 0, given=b'{"id":1,"body":"sea"}\n')
    user.wants(['search', 'two', 'sea'], 0, b'0\n')
    user.wants(['search', 'two', 'sea', '--source'], 2, b'', NOT_STORED)
    user.wants(['get', 'two', 0], 1, b'', NOT_STORED)
    user.wants(['get', 'nowhere', 0], 1)


def random_folders(user):
    """In random folders, each line comes back."""
    chosen = random.Random(SEED + 1)
    for _ in range(FOLDERS):
        plain, folder = Lines(), 'small'
        shutil.rmtree(user.path(folder), ignore_errors=True)
        for turn in range(chosen.randrange(1, 4)):
            lines = [random_line(chosen, 100 * turn + number) for number in range(chosen.randrange(1, 9))]
            plain.add(lines)
            words = ['index', folder, '--schema', 'schema.toml'] if turn == 0 else ['add', folder, *chosen.choice([[], ['--no-merge']])]
            user.wants(words, 0, given=spaced(chosen, lines))
        if chosen.randrange(2) and plain.lines:
            line_id = chosen.choice(plain.lines)[0]
            plain.delete(line_id)
            user.wants(['delete', folder, 'id', line_id], 0)
        if chosen.randrange(3) == 0:
            user.wants(['merge', folder], 0)
        user.wants(['get', folder, *range(len(plain.lines))], 0 if plain.lines else 2, b''.join(text + b'\n' for _, _, text in plain.lines))


# the fields of lines whose members are chosen, of every type; any value may be in one that isn't indexed
TYPES = {'all': 'text', 'word': 'text', 'count': 'u64', 'shift': 'i64', 'flag': 'bool', 'raw': 'bytes', 'host': 'ip_addr', 'tree': 'json', 'other': 'text'}
TEXTS = ['', 'sea', 'old man', 'na\u00efve', '\u8001\u4eba \U0001f41f', '"', '\\', '/', '\n\t\r\b\f', '\x01\x1f\x7f', '</b>', '\u2028']


def one_value(chosen, field, depth=2):
    """Returns a value of a field."""
    kind = TYPES[field]
    if field in ('other', 'tree') and depth:
        pick = chosen.randrange(5)
        if pick == 0:
            return [one_value(chosen, field, depth - 1) for _ in range(chosen.randrange(3))]
        if pick == 1:
            return {chosen.choice(TEXTS): one_value(chosen, field, depth - 1) for _ in range(chosen.randrange(4))}
        if pick == 2:
            return chosen.choice([True, False, None, 0, 2 ** 64 - 1, -2 ** 63, 17])
    return {'u64': chosen.choice([0, 7, 2 ** 64 - 1, chosen.randrange(2 ** 40)]), 'i64': chosen.choice([0, -1, 2 ** 63 - 1, -2 ** 63]),
            'bool': chosen.choice([True, False]), 'bytes': chosen.choice(['', '00ff', 'DEad']),
            'ip_addr': chosen.choice(['127.0.0.1', '::1', '2001:DB8::7'])}.get(kind, chosen.choice(TEXTS))


def chosen_members(chosen):
    """Returns the members of a line, of which some have several values, none, or the key of an earlier one."""
    pairs = [('all', 'x')]
    for field in chosen.sample(sorted(TYPES), chosen.randrange(len(TYPES))):
        for _ in range(chosen.choice([1, 1, 1, 2])):
            pick = chosen.randrange(6)
            value = None if pick == 0 else [one_value(chosen, field) for _ in range(chosen.randrange(3))] if pick == 1 else one_value(chosen, field)
            if field != 'all':
                pairs.append((field, value))
    chosen.shuffle(pairs)
    return pairs


def compact(value):
    """Returns a value as JSON without spaces, the keys of objects in order."""
    return json.dumps(value, ensure_ascii=False, separators=(',', ':'), sort_keys=True)


def written(chosen, pairs):
    """Returns a line of these members, with spaces and escapes."""
    spaced = [json.dumps(key) + chosen.choice([':', ' : ']) + json.dumps(value, ensure_ascii=chosen.randrange(2) == 0) for key, value in pairs]
    return '{' + chosen.choice([',', ' ,  ']).join(spaced) + '}'


def picked(names, pairs):
    """Returns what a line prints of some fields: the last value of each key."""
    members = dict(pairs)
    return '{' + ','.join(f'{compact(name)}:{compact(members[name])}' for name in names if name in members) + '}'


def fields_are_chosen(user):
    """Compares `search --fields` with a plain reading of random lines with fields of every type, of which one isn't indexed."""
    chosen = random.Random(SEED + 3)
    tables = ''.join(f'[[field]]\nname = "{name}"\ntype = "{kind}"\n' + ('indexed = false\n' if name == 'other' else '') for name, kind in TYPES.items())
    user.write('fields.toml', 'store_source = true\n' + tables)
    lines = [chosen_members(chosen) for _ in range(FIELD_LINES)]
    texts = [written(chosen, pairs) for pairs in lines]
    user.wants(['index', 'fields', '--schema', 'fields.toml'], 0, given='\n'.join(texts[:FIELD_LINES // 2]).encode())
    user.wants(['add', 'fields', '--no-merge'], 0, given='\n'.join(texts[FIELD_LINES // 2:]).encode())
    for turn in range(20):
        names = chosen.sample(sorted(TYPES), chosen.randrange(1, len(TYPES))) if turn else sorted(TYPES)
        asked = ['search', 'fields', 'all:x', '--fields', ','.join(names + names[:turn % 3])]
        rows = [picked(names, pairs) for pairs in lines]
        user.wants(asked, 0, ''.join(row + '\n' for row in rows).encode())
        user.wants([*asked, '--limit', '3', '--json'], 0, ''.join(f'{{"doc":{number},"fields":{row}}}\n' for number, row in enumerate(rows[:3])).encode())
        best = user.wants(['search', 'fields', 'all:x', '--top', '5'], 0).decode().splitlines()
        ranked = [rows[int(row.split('\t')[0])] + '\t' + row.split('\t')[1] + '\n' for row in best]
        user.wants([*asked, '--top', '5'], 0, ''.join(ranked).encode())
        best = user.wants(['search', 'fields', 'all:x', '--top', '5', '--json'], 0).decode().splitlines()
        ranked = [row[:-1] + ',"fields":' + rows[json.loads(row)['doc']] + '}\n' for row in best]
        user.wants([*asked, '--top', '5', '--json'], 0, ''.join(ranked).encode())
    # a number with a fraction is printed as one that reads as it
    user.wants(['index', 'floats', '--schema', 'fields.toml'], 0, given=b'{"all":"x","other":[0.1,1e300,-2.50,1E2]}\n')
    if json.loads(user.wants(['search', 'floats', 'x', '--fields', 'other'], 0)) != {'other': [0.1, 1e300, -2.5, 100.0]}:
        raise Failed('--fields of numbers with fractions')
    for name in ('nosuch', '', 'all,nosuch', 'word,,all'):
        user.wants(['search', 'fields', 'all:x', '--fields', name], 2, b'', 'no field ' + ('nosuch' if 'nosuch' in name else ';'))
    for option in ('--count', '--positions', '--ids'):
        user.wants(['search', 'fields', 'all:x', '--fields', 'all', option], 2, b'', '--fields stands without')
    user.wants(['search', 'fields', 'all:x', '--fields', 'all', '--source'], 2, b'', '--source stands without --fields')
    user.wants(['search', 'two', 'sea', '--fields', 'body'], 2, b'', NOT_STORED)


def record_of(stored, pairs):
    """Returns what is stored of a line: the last value of each stored key that has one, in the order of the schema."""
    return picked([name for name in TYPES if name in stored], [(name, value) for name, value in dict(pairs).items() if value is not None])


def records_of(user, chosen, stored):
    """Compares what is printed of records in a random folder with a plain reading."""
    tables = ''.join(f'[[field]]\nname = "{name}"\ntype = "{kind}"\n' + ('indexed = false\n' if name == 'other' else '')
                     + ('stored = true\n' if name in stored else chosen.choice(['', 'stored = false\n'])) for name, kind in TYPES.items())
    user.write('records.toml', tables)
    shutil.rmtree(user.path('records'), ignore_errors=True)
    rows = []
    for turn in range(chosen.randrange(1, 4)):
        lines = [chosen_members(chosen) for _ in range(chosen.randrange(1, 12))]
        rows += [record_of(stored, pairs) for pairs in lines]
        words = ['index', 'records', '--schema', 'records.toml'] if turn == 0 else ['add', 'records', *chosen.choice([[], ['--no-merge']])]
        user.wants(words, 0, given='\n'.join(written(chosen, pairs) for pairs in lines).encode())
    if chosen.randrange(3) == 0:
        user.wants(['merge', 'records'], 0)
    user.wants(['get', 'records', *range(len(rows))], 0, ''.join(row + '\n' for row in rows).encode())
    user.wants(['search', 'records', 'all:x', '--source'], 0, ''.join(row + '\n' for row in rows).encode())
    user.wants(['search', 'records', 'all:x', '--source', '--json'], 0, ''.join(f'{{"doc":{number},"source":{row}}}\n' for number, row in enumerate(rows)).encode())
    names = chosen.sample(sorted(stored), chosen.randrange(1, len(stored) + 1))
    kept = [picked(names, list(json.loads(row).items())) for row in rows]
    user.wants(['search', 'records', 'all:x', '--fields', ','.join(names)], 0, ''.join(row + '\n' for row in kept).encode())
    for name in sorted(set(TYPES) - set(stored)):
        user.wants(['search', 'records', 'all:x', '--fields', f'{names[0]},{name}'], 2, b'', f'the field {name} is not stored')
        user.wants(['search', 'records', 'all:x', '--field', name, '--snippet'], 2, b'', f'the field {name} is not stored')
    user.wants(['check', 'records'], 0)


def records_are_kept(user):
    """Looks at the records of random folders, at records with numbers that have a fraction, and at schemas that say both."""
    chosen = random.Random(SEED + 4)
    for _ in range(RECORD_FOLDERS):
        records_of(user, chosen, chosen.sample(sorted(TYPES), chosen.randrange(1, len(TYPES))))
    fields = '[[field]]\nname = "body"\ntype = "text"\n[[field]]\nname = "tree"\ntype = "json"\nstored = true\n'
    user.write('records.toml', 'unknown = "ignore"\n' + fields)
    line = b'{"tree":{"a":1.10,"b":"sea"},"body":"old sea","more":1}'
    user.wants(['index', 'tree', '--schema', 'records.toml', '--skip-floats'], 0, given=line)
    user.wants(['get', 'tree', 0], 0, b'{"tree":{"a":1.1,"b":"sea"}}\n')
    user.wants(['search', 'tree', 'old', '--source'], 0, b'{"tree":{"a":1.1,"b":"sea"}}\n')
    user.wants(['search', 'tree', 'old', '--snippet'], 0, b'0\t\n')
    user.wants(['index', 'tree', '--schema', 'records.toml'], 1, b'', 'a floating-point number', given=line)
    user.write('records.toml', fields + '[[field]]\nname = "title"\ntype = "text"\nstored = true\n')
    user.wants(['index', 'titles', '--schema', 'records.toml'], 0, given=b'{"body":"old sea","title":"The Sea"}\n')
    user.wants(['search', 'titles', 'sea', '--snippet'], 0, b'0\tThe Sea\n')
    user.wants(['search', 'titles', 'sea', '--snippet', '--json'], 0, b'{"doc":0,"snippet":"The <b>Sea</b>"}\n')
    user.write('both.toml', 'store_source = true\n' + fields)
    user.wants(['index', 'both', '--schema', 'both.toml'], 0, given=b' {"tree": null, "body":"old sea"} \n')
    user.wants(['get', 'both', 0], 0, b'{"tree": null, "body":"old sea"}\n')
    user.wants(['search', 'both', 'old', '--fields', 'body'], 0, b'{"body":"old sea"}\n')
    for value in ('1', '"true"', '["a"]'):
        user.write('wrong.toml', '[[field]]\nname = "a"\ntype = "text"\nstored = ' + value + '\n')
        user.wants(['index', 'wrong', '--schema', 'wrong.toml'], 2, b'', 'field 0: stored: true or false (the field a)', given=b'')


def store_of(user, folder):
    """Returns the path of the one file of stored lines, and where each block ends in it, with its documents."""
    names = [name for name in os.listdir(user.path(folder)) if name.endswith('.store')]
    path = user.path(folder, names[0])
    with open(path, 'rb') as file:
        whole = file.read()
    count = struct.unpack('<Q', whole[-48:-40])[0]
    index = whole[len(whole) - 48 - 44 * count:-48]
    return path, whole, [struct.unpack('<IQ', index[44 * block:44 * block + 12]) for block in range(count)]


# commands that need no stored lines
UNSTORED = (['search', 'sea'], ['search', 'sea', '--count'], ['search', 'sea', '--positions'], ['search', 'sea', '--ids', '--json'], ['search', 'sea', '--top', '7'],
            ['terms', 'body'], ['terms', 'id', '--top', '3'], ['postings', 'body', 'sea', '--positions'], ['fields'])
# commands that read or rewrite them
STORED = (['search', 'sea', '--source'], ['search', 'sea', '--snippet'], ['search', 'sea', '--top', '7', '--source', '--json'], ['stats'], ['delete', 'id', '4'], ['merge'])


def answers(user, folder):
    """Returns what the commands print that need no stored lines."""
    return [user.wants([words[0], folder, *words[1:]], 0) for words in UNSTORED]


def damage_stops_readers(user, told):
    """With a damaged or missing file of stored lines, the commands answer that need none, and the others refuse it."""
    if answers(user, 'hurt') != user.unstored:
        raise Failed(f'a command that needs no stored lines answers otherwise: they {told}')
    for words in STORED:
        user.wants([words[0], 'hurt', *words[1:]], 1, f'hurt: the file of stored documents of segment 0 {told}\n'.encode(), 'the command check prints what is damaged')


def damage_is_named(user):
    """Changes a byte at many places: `check` names the block, `get` gives the documents of other blocks, and the commands
    that need no stored lines answer as before."""
    chosen = random.Random(SEED + 2)
    lines = [random_line(chosen, number) for number in range(1200)]
    shutil.rmtree(user.path('hurt'), ignore_errors=True)
    user.wants(['index', 'hurt', '--schema', 'schema.toml'], 0, given=spaced(chosen, lines))
    path, whole, blocks = store_of(user, 'hurt')
    # a second segment, so that there is something to merge
    user.wants(['add', 'hurt', '--no-merge'], 0, given=b'{"id":9999,"body":"sea old"}\n')
    user.unstored = answers(user, 'hurt')
    if len(blocks) < 5:
        raise Failed(f'only {len(blocks)} blocks')
    ends = [0] + [end for _, end in blocks]
    docs = [0] + [doc for doc, _ in blocks]
    places = sorted(chosen.sample(range(ends[-1]), CHANGES - 40)) + chosen.sample(range(ends[-1], len(whole)), 40)
    for turn, place in enumerate(places):
        changed = bytearray(whole)
        changed[place] ^= 1 << chosen.randrange(8)
        with open(path, 'wb') as file:
            file.write(changed)
        hurt = next((block for block in range(len(blocks)) if ends[block] <= place < ends[block + 1]), None)
        if turn % 8 == 0 or hurt is None:
            told = user.wants(['check', 'hurt'], 1).decode()
            name = 'of the documents' if hurt is None else f'block {hurt} of the documents'
            if 'the file of stored documents' not in told or name not in told:
                raise Failed(f'check, byte {place} of {len(whole)}: {told}')
            if turn % 32 == 0:
                damage_stops_readers(user, 'has another checksum than meta says')
        if hurt is None:
            user.wants(['get', 'hurt', 0], 1, None)
            continue
        inside = chosen.randrange(docs[hurt], docs[hurt + 1])
        other = chosen.choice([doc for block in range(len(blocks)) if block != hurt for doc in (docs[block], docs[block + 1] - 1)])
        user.wants(['get', 'hurt', inside, other], 1, lines[other][2] + b'\n', f'block {hurt} of the documents')
    with open(path, 'wb') as file:
        file.write(whole[:-1])
    damage_stops_readers(user, 'has another length than meta says')
    os.remove(path)
    damage_stops_readers(user, 'is missing')
    with open(path, 'wb') as file:
        file.write(whole)
    user.wants(['check', 'hurt'], 0)
    user.wants(['merge', 'hurt'], 0, b'2 segments merged, 1201 documents\n')


def stored_lines(user):
    """Goes through all of it. Returns what was seen."""
    commands_keep_lines(user)
    other_indexes_answer(user)
    random_folders(user)
    fields_are_chosen(user)
    records_are_kept(user)
    damage_is_named(user)
    return f'stored lines come back, in {FOLDERS} folders, and records in {RECORD_FOLDERS}, and damage is named at {CHANGES} places'


sys.exit(users.judged(stored_lines))
