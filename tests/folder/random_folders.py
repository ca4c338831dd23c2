#!/usr/bin/env python3
"""Runs `nequllpa` over random folders: random schemas and lines of every type, with every tokenizer, some with lists of
several blocks. Segments are added, documents deleted and replaced, and all segments merged. `check` must find no damage, and
`terms`, `postings`, `fields` and `search`, also for phrases with a slop and without one, prefixes, phrases that end with one, sets and ranges, must answer what a plain reading of the lines gives.

    random_folders.py              60 folders, as the gate runs it
    random_folders.py N SEED       N others"""
import ipaddress
import json
import os
import random
import re
import shutil
import subprocess
import sys
import tempfile

sys.dont_write_bytecode = True
HERE = os.path.dirname(os.path.abspath(__file__))
sys.path.insert(0, HERE)
sys.path.insert(0, os.path.join(os.path.dirname(os.path.dirname(HERE)), 'tools'))
import analyzers
import dates
import programs
import versions
from segments_meaning import phrase_starts

PROGRAM = 'nequllpa_cli'
WORDS = ['sea', 'old', 'The', 'the', 'bird', 'x1', '42', 'naïve', '老人', 'a', 'new', 'york', 'of', 'man', 'true', '7', 'co', 'op', '-3', 'it’s']
KEYS = ['a', 'b', 'a.b', 'x y', 'back\\slash', 'quo"te', 'sizes', '', 'a:b', 'Ünï', '(p)', 'dot.', '.dot']
NAMES = ['body', 'title', 'n', 'change', 'flag', 'mark', 'addr', 'j', 'about', 'some field', 'a.b', 'x:y', 'AND', '-minus', 'id']
MARKS = [' ', '. ', ', ', ' - ', '! ', '\n', '  ', '_', '"']
NUMBERS = [0, 1, 2, 7, 255, 256, 2 ** 31, 2 ** 63 - 1]
ADDRESSES = ['10.0.0.1', '::ffff:10.0.0.1', '10.0.0.2', '10.0.0.10', '9.255.0.0', '255.255.255.255', '::ffff:1.2.3.4', '::', '::1', '2001:db8::2', '2001:DB8:0::10', 'ffff::']
# Stop words of a schema, and in a line and a query.
STOPS = ['The', 'of', 'york']
# The words of which each tokenizer makes one token, without stop words.
PLAIN = [word for word in WORDS if word.isalnum() and all(len(words_by(word)) == 1 for words_by in analyzers.WORDS_BY.values()) and word.casefold() not in map(str.casefold, STOPS)]


class Failed(Exception):
    """A result that differs from the expected one."""


def random_schema(chosen):
    """Returns the fields of a schema with random types and settings."""
    fields = []
    for name in chosen.sample(NAMES, chosen.randint(1, 6)):
        field = {'name': name, 'type': chosen.choice(['text', 'text', 'text', 'u64', 'i64', 'bool', 'date', 'bytes', 'ip_addr', 'json', 'json'])}
        if chosen.random() < 0.1:
            field['indexed'] = False
        else:
            if field['type'] in ('text', 'json') and chosen.random() < 0.6:
                field['record'] = chosen.choice(['basic', 'freq', 'position'])
            if field['type'] != 'json' and chosen.random() < 0.4:
                field['fieldnorms'] = chosen.random() < 0.5
            if field['type'] == 'json' and chosen.random() < 0.4:
                field['expand_dots'] = chosen.random() < 0.7
            if field['type'] in ('text', 'json') and chosen.random() < 0.7:
                field['tokenizer'] = chosen.choice(sorted(analyzers.WORDS_BY))
            if field.get('tokenizer') == 'en' and chosen.random() < 0.5:
                field['stop_words'] = chosen.sample(STOPS, chosen.randint(1, 3))
        fields.append(field)
    return fields


def schema_text(fields):
    """Returns the schema in TOML."""
    told = lambda value: json.dumps(value, ensure_ascii=False)
    return 'tokenizer = "ascii"\n' + '\n'.join('[[field]]\n' + ''.join(f'{key} = {told(value)}\n' for key, value in field.items()) for field in fields)


def random_text(chosen):
    return ''.join(chosen.choice(WORDS) + chosen.choice(MARKS) for _ in range(chosen.randint(0, 12)))


def random_json(chosen, depth):
    """Returns a JSON value without fractions."""
    kind = chosen.randint(0, 7 if depth else 5)
    if kind == 0:
        return None
    if kind == 1:
        return chosen.random() < 0.5
    if kind == 2:
        return chosen.choice(NUMBERS + [-number for number in NUMBERS] + [2 ** 63, 2 ** 64 - 1])
    if kind in (3, 4, 5):
        return random_text(chosen)
    if kind == 6:
        same = random_json(chosen, depth - 1)
        return [same if chosen.random() < 0.5 else random_json(chosen, depth - 1) for _ in range(chosen.randint(0, 4))]
    return {chosen.choice(KEYS): random_json(chosen, depth - 1) for _ in range(chosen.randint(0, 4))}


def random_value(chosen, field):
    """Returns a value for a field."""
    kind = field['type']
    if kind == 'text':
        return random_text(chosen)
    if kind == 'u64':
        return chosen.choice(NUMBERS + [2 ** 63, 2 ** 64 - 1])
    if kind == 'i64':
        return chosen.choice(NUMBERS + [-number for number in NUMBERS if number])
    if kind == 'bool':
        return chosen.random() < 0.5
    if kind == 'date':
        return chosen.choice(dates.WRITTEN)
    if kind == 'bytes':
        return chosen.choice(['', '00', '00ff', 'ff00', 'ABcd', '6162'])
    if kind == 'ip_addr':
        return chosen.choice(ADDRESSES)
    return random_json(chosen, 3)


def random_line(chosen, fields):
    """Returns a document: for some fields a value, several values, or null."""
    made = {}
    for field in fields:
        how = chosen.random()
        if field['type'] == 'json' or field.get('indexed') is False and how < 0.9:
            if how < 0.8:
                made[field['name']] = random_value(chosen, field)
        elif how < 0.55:
            made[field['name']] = random_value(chosen, field)
        elif how < 0.75:
            made[field['name']] = [random_value(chosen, field) for _ in range(chosen.randint(0, 3))]
        elif how < 0.85:
            made[field['name']] = None
    return made


def quoted(text):
    """Returns a text in quotes, as a query has it."""
    return '"' + text.replace('\\', '\\\\').replace('"', '\\"') + '"'


def number_key(number):
    return number.to_bytes(8, 'big')


def signed_key(number):
    return (number + 2 ** 63).to_bytes(8, 'big')


def leaves(value, path, expands):
    """Yields the leaves of a JSON value with their paths; members are ordered by the bytes of their keys."""
    if isinstance(value, dict):
        for key in sorted(value, key=str.encode):
            if '\0' not in key:
                name = key.replace('.', '\1') if expands else key
                yield from leaves(value[key], path + [name], expands)
    elif isinstance(value, list):
        for item in value:
            yield from leaves(item, path, expands)
    elif value is not None:
        yield '\1'.join(path), value


def spelled_path(path):
    """Returns a path as `terms` prints it."""
    return ''.join('.' if c == '\1' else '\\' + c if c in '.\\ ' else c for c in path)


class Field:
    """A plain reading of a field: the text of each key, its documents with positions (or None), and the
    number of tokens."""

    def __init__(self, setting):
        self.setting, self.lists, self.texts, self.tokens, self.counts = setting, {}, {}, 0, {}
        self.kind = setting['type']
        # how its texts are cut, and the prefixes and bounds of words in queries
        tokenizer, stops = setting.get('tokenizer', 'ascii'), {word.casefold() for word in setting.get('stop_words', ())}
        self.words_of = (lambda text: analyzers.english_words(text, stops)) if tokenizer == 'en' else analyzers.WORDS_BY[tokenizer]
        self.starts_of = analyzers.WORDS_BY['default' if tokenizer == 'en' else tokenizer]

    def put(self, key, text, doc, position):
        self.texts[key] = text
        self.lists.setdefault(key, {}).setdefault(doc, []).append(position)
        self.tokens += 1
        self.counts[doc] = self.counts.get(doc, 0) + 1

    def put_words(self, doc, prefix, spelled, value, begin):
        """Adds the words of a text at a path. Returns where the next text at the same path starts."""
        end = begin
        for place, word in self.words_of(value):
            self.put(prefix + word.encode(), spelled + word, doc, begin + place)
            end = begin + place + 1
        return end + 1

    def add(self, doc, value):
        """Adds the value of a document for this field."""
        if self.setting.get('indexed') is False or value is None:
            return
        if self.kind == 'json':
            self.add_json(doc, value)
            return
        begin = 0
        for one in value if isinstance(value, list) else [value]:
            if self.kind == 'text':
                begin = self.put_words(doc, b'', '', one, begin)
            else:
                self.put(*self.key_of(one), doc, None)

    def key_of(self, value):
        if self.kind == 'u64':
            return number_key(value), str(value)
        if self.kind == 'i64':
            return signed_key(value), str(value)
        if self.kind == 'bool':
            return number_key(int(value)), 'true' if value else 'false'
        if self.kind == 'date':
            number = dates.nanoseconds_of(value)
            return signed_key(number), dates.text_of(number)
        if self.kind == 'bytes':
            return bytes.fromhex(value), value.lower()
        address = ipaddress.ip_address(value)
        if address.version == 6 and address.ipv4_mapped:
            address = address.ipv4_mapped
        key = address.packed if address.version == 6 else b'\0' * 10 + b'\xff\xff' + address.packed
        return key, str(address)

    def spellings(self, key):
        """Returns texts of a query that spell a value."""
        text = self.texts[key]
        found = [quoted(text)] + [text] * (re.fullmatch('[0-9a-z.]+', text) is not None)
        if self.kind == 'bytes':
            found.append(quoted(text.upper()))
        if self.kind == 'ip_addr':
            address = ipaddress.IPv6Address(key)
            found += [quoted(address.exploded), quoted(str(address).upper())]
        return found

    def add_json(self, doc, value):
        begins = {}
        for path, leaf in leaves(value, [], self.setting.get('expand_dots', False)):
            prefix, spelled = path.encode() + b'\0', spelled_path(path)
            if isinstance(leaf, bool):
                self.put(prefix + b'o' + number_key(int(leaf)), f'{spelled} o {"true" if leaf else "false"}', doc, None)
            elif isinstance(leaf, int) and leaf < 2 ** 63:
                self.put(prefix + b'i' + signed_key(leaf), f'{spelled} i {leaf}', doc, None)
            elif isinstance(leaf, int):
                self.put(prefix + b'u' + number_key(leaf), f'{spelled} u {leaf}', doc, None)
            else:
                begins[path] = self.put_words(doc, prefix + b's', f'{spelled} s ', leaf, begins.get(path, 0))

    def records(self):
        return self.setting.get('record', 'position') if self.kind in ('text', 'json') else 'basic'

    def postings(self, key, with_positions):
        """Returns what `postings` prints for a term."""
        told = ''
        for doc, positions in sorted(self.lists[key].items()):
            is_value = positions[0] is None
            row = [doc]
            if self.records() != 'basic':
                row.append(1 if is_value else len(positions))
                if with_positions and self.records() == 'position' and not is_value:
                    row += positions
            told += ' '.join(map(str, row)) + '\n'
        return told


class Reader:
    """A folder that the program wrote, and a plain reading of its lines."""

    def __init__(self, program, room, fields, lines):
        self.program, self.room, self.settings, self.runs, self.merges_some = program, room, fields, 0, False
        # chooses members under unknown keys, if these are ignored; the queries that were asked, and their documents
        self.strange, self.asked = None, []
        self.read(lines)

    def text_of(self, lines):
        """Returns documents as lines of JSON, if unknown keys are ignored with members of such keys."""
        return ''.join(json.dumps(self.with_strangers(line), ensure_ascii=False) + '\n' for line in lines).encode()

    def with_strangers(self, line):
        if not self.strange or self.strange.random() < 0.4:
            return line
        known = [field['name'] for field in self.settings]
        names = self.strange.sample([name for name in NAMES + KEYS + ['Body', 'body ', 'bod', 'zz'] if name not in known], self.strange.randint(1, 3))
        members = list(line.items()) + [(name, self.strange.choice([1.5, -0.0, None, [2.5, {'body': 'sea'}], random_json(self.strange, 2)])) for name in names]
        self.strange.shuffle(members)
        return dict(members)

    def read(self, lines):
        """Reads the lines of an index anew."""
        self.lines, self.fields = lines, [Field(field) for field in self.settings]
        for doc, line in enumerate(lines):
            for field in self.fields:
                field.add(doc, line.get(field.setting['name']))

    def run(self, *words, given=b''):
        self.runs += 1
        done = subprocess.run([self.program, *words], input=given, stdout=subprocess.PIPE, stderr=subprocess.PIPE, cwd=self.room, timeout=600)
        return done.returncode, done.stdout.decode(), done.stderr.decode()

    def wants(self, words, status, out, given=b''):
        got, said, err = self.run(*words, given=given)
        if got != status or said != out:
            raise Failed(f'{words}: status {got}, {said[-400:]!r}, {err[-300:]!r}; wanted {status}, {out[-400:]!r}')

    def indexes(self, fields, cuts, only_adds, version):
        """Indexes the lines up to the first cut, and adds those between each two cuts as a segment. Or indexes
        nothing, and adds all lines. What is indexed is an index of a version."""
        with open(os.path.join(self.room, 'schema.toml'), 'w', encoding='utf-8') as file:
            file.write(('unknown = "ignore"\n' if self.strange else '') + schema_text(fields))
        parts = [self.lines[begin:end] for begin, end in zip([0, *cuts], [*cuts, len(self.lines)])]
        texts = [self.text_of(part) for part in parts]
        if only_adds:
            parts, texts = [[], *parts], [b'', *texts]
        self.wants(['index', 'folder', '--schema', 'schema.toml'], 0, f'{len(parts[0])} documents indexed\n', texts[0])
        if version == 1:
            versions.to_first(os.path.join(self.room, 'folder'))
        if version == 2:
            versions.to_second(os.path.join(self.room, 'folder'))
        for part, text in zip(parts[1:], texts[1:]):
            self.wants(['add', 'folder', *self.merging()], 0, f'{len(part)} documents added\n', text)
        self.is_sound()

    def merging(self):
        """Returns the option that keeps all segments, unless the last ones may be merged."""
        return [] if self.merges_some else ['--no-merge']

    def is_sound(self):
        """Looks that the index has the number of its lines, and no damage."""
        status, told, err = self.run('check', 'folder')
        if status != 0 or not told.startswith(f'{len(self.lines)} documents; each file') or not told.endswith('\n0 damages\n'):
            raise Failed(f'check: status {status}, {told!r}, {err!r}')

    def looks(self, chosen):
        """Compares the fields, terms and postings."""
        status, told, err = self.run('fields', 'folder')
        rows = [row for row in told.splitlines() if not row.startswith('  ')]
        for number, (field, row) in enumerate(zip(self.fields, rows, strict=True)):
            name = field.setting['name']
            if not row.startswith(f'{number} {name} {field.kind} ') or not row.endswith(f': {len(field.lists)} terms, {field.tokens} tokens'):
                raise Failed(f'fields: {row!r}; wanted {len(field.lists)} terms, {field.tokens} tokens of {name}')
            keys = sorted(field.lists)
            self.wants(['terms', 'folder', '--', name], 0, ''.join(f'{len(field.lists[key])} {field.texts[key]}\n' for key in keys))
            top = sorted(keys, key=lambda key: -len(field.lists[key]))[:3]
            self.wants(['terms', 'folder', '--top', '3', '--', name], 0, ''.join(f'{len(field.lists[key])} {field.texts[key]}\n' for key in top))
            for key in chosen.sample(keys, min(6, len(keys))):
                self.wants(['postings', 'folder', '--', name, field.texts[key]], 0, field.postings(key, False))
                self.wants(['postings', 'folder', '--positions', '--', name, field.texts[key]], 0, field.postings(key, True))

    def deletes(self, chosen):
        """Deletes the documents of some terms: the others have the numbers that they have without these."""
        for _ in range(chosen.randint(1, 3)):
            field = chosen.choice(self.fields)
            if not field.lists:
                continue
            key = chosen.choice(sorted(field.lists))
            gone = field.lists[key]
            self.wants(['delete', 'folder', '--', field.setting['name'], field.texts[key]], 0, f'{len(gone)} documents deleted\n')
            self.wants(['delete', 'folder', '--', field.setting['name'], field.texts[key]], 0, '0 documents deleted\n')
            self.read([line for doc, line in enumerate(self.lines) if doc not in gone])
        self.is_sound()

    def replaces(self, chosen):
        """Adds lines whose documents replace those with the same value of a field. A line without exactly one such value
        is left out; of lines with the same value the last one counts."""
        fields = [field for field in self.fields if field.kind != 'json' and field.setting.get('indexed') is not False]
        if not fields or not self.counted():
            return
        field = chosen.choice(fields)
        name = field.setting['name']
        more = [random_line(chosen, self.settings) for _ in range(chosen.randint(1, 12))]
        keyed = []
        for line in more:
            one = Field(field.setting)
            one.add(0, line.get(name))
            keys = list(one.lists)
            if one.tokens == 1 and (field.kind != 'text' or not isinstance(line[name], list) or len(line[name]) == 1):
                keyed.append((keys[0], line))
        last = {key: place for place, (key, _) in enumerate(keyed)}
        added = [line for place, (key, line) in enumerate(keyed) if last[key] == place]
        gone = set().union(*(field.lists.get(key, {}) for key in last)) if last else set()
        text = self.text_of(more)
        bad = f', {len(more) - len(keyed)} lines left out' if len(more) > len(keyed) else ''
        if bad:
            got, said, err = self.run('add', 'folder', f'--replace-by={name}', given=text)
            if got != 1 or said or '-:' not in err:
                raise Failed(f'add --replace-by {name}: status {got}, {said!r}, {err!r}')
        self.wants(['add', 'folder', *self.merging(), '--skip-bad', f'--replace-by={name}'], 0, f'{len(added)} documents added, {len(gone)} replaced{bad}\n', text)
        self.read([line for doc, line in enumerate(self.lines) if doc not in gone] + added)
        self.is_sound()

    def merges(self):
        """Merges all segments of the index. Each file is then that of the lines that are left, indexed anew; a file of
        counts is there if each segment has one. A second merge does nothing."""
        told = self.run('stats', 'folder')[1]
        segments = int(re.search(r'(\d+) segments\n', told).group(1))
        counted = self.counted()
        nothing = f'nothing to merge, {len(self.lines)} documents\n'
        does = segments > 1 or 'deleted documents' in told
        self.wants(['merge', 'folder'], 0, f'{segments} segments merged, {len(self.lines)} documents\n' if does else nothing)
        self.wants(['merge', 'folder'], 0, nothing)
        self.is_sound()
        if not does:
            return
        text = self.text_of(self.lines)
        self.wants(['index', 'anew', '--schema', 'schema.toml'], 0, f'{len(self.lines)} documents indexed\n', text)
        files = {name.split('.')[-1]: name for name in os.listdir(os.path.join(self.room, 'folder')) if name.count('.') == 1}
        if sorted(files) != sorted(['blocks', 'idx', 'norm', 'pos', 'term', *(['count'] if counted else [])]):
            raise Failed(f'files of a merged index: {files}')
        for kind, name in files.items():
            if kind == 'blocks' and not counted:
                continue
            with open(os.path.join(self.room, 'folder', name), 'rb') as one, open(os.path.join(self.room, 'anew', f'{0:016x}.{kind}'), 'rb') as two:
                if one.read() != two.read():
                    raise Failed(f'{name} of a merged index is not that of its lines')

    def counted(self):
        """Returns whether each segment has a file of counts."""
        names = os.listdir(os.path.join(self.room, 'folder'))
        many = lambda kind: sum(name.endswith('.' + kind) for name in names)
        return many('count') > 0 and many('count') == many('term')

    def docs_of(self, field, text, slop=0):
        """Returns the documents in which a text is a word, or a phrase within a slop, of a text field."""
        words = field.words_of(text)
        if not words:
            return set()
        if len(words) == 1:
            return set(field.lists.get(words[0][1].encode(), {}))
        return self.docs_with([(position, word.encode()) for position, word in words], field, slop)

    def docs_with(self, words, field, slop):
        """Returns the documents with a phrase of keys, each at its position, within a slop."""
        lists = [(position - words[0][0], field.lists.get(key, {})) for position, key in words]
        moved = lambda doc: [[place - distance for place in docs.get(doc, ())] for distance, docs in lists]
        return {doc for doc in lists[0][1] if phrase_starts(moved(doc), slop)}

    def searches(self, chosen):
        """Compares searches for words, pairs of words, phrases, prefixes, ranges and values with a filter of the documents."""
        text_fields = [field for field in self.fields if field.kind == 'text' and field.setting.get('indexed') is not False]
        everywhere = lambda word: set().union(*(self.docs_of(field, word) for field in text_fields))
        everything = set(range(len(self.lines)))
        for query, found in (('*', everything), ('* -*', set()), ('* NOT (* NOT *)', everything)):
            self.finds(query, found)
        for _ in range(8):
            one, two = chosen.choice(PLAIN), chosen.choice(PLAIN)
            if text_fields:
                a, b = everywhere(one), everywhere(two)
                for query, found in ((one, a), (f'{one} {two}', a | b), (f'{one} AND {two}', a & b), (f'{one} NOT {two}', a - b), (f'({one} OR {two}) AND -{two}', a - b),
                                     (f'* NOT {one}', everything - a), (f'* NOT (* NOT {one})', a)):
                    self.finds(query, found)
        self.prefixes(chosen, text_fields)
        for field in self.fields:
            name = field.setting['name']
            if not field.lists or not name.isalnum() or name == 'AND':
                continue
            key = chosen.choice(sorted(field.lists))
            self.ranges(chosen, field, name)
            if field.kind not in ('text', 'json'):
                self.values(chosen, field, name, key)
            elif field.kind == 'text' and field.records() == 'position':
                self.phrase(chosen, field, name)
        self.batch()

    def batch(self):
        """Asks the queries again in one run, and in one that counts."""
        given = ''.join(query + '\n' for query, _ in self.asked).encode()
        row = lambda query, rest: f'{{"query":{json.dumps(query, ensure_ascii=False)},{rest}}}\n'
        docs = lambda found: ','.join(f'{{"doc":{doc}}}' for doc in sorted(found))
        self.wants(['search', 'folder', '--batch'], 0, ''.join(row(query, f'"docs":[{docs(found)}]') for query, found in self.asked), given)
        self.wants(['search', 'folder', '--batch', '--count'], 0, ''.join(row(query, f'"count":{len(found)}') for query, found in self.asked), given)
        self.asked = []

    def prefixes(self, chosen, text_fields):
        """Compares searches for words that begin with some characters."""
        for _ in range(4):
            word = chosen.choice(PLAIN)
            start, other = word[:chosen.randint(1, len(word))], chosen.choice(PLAIN)
            begun = lambda field: set().union(*(docs for key, docs in field.lists.items() if key.startswith(field.starts_of(start)[0][1].encode())))
            if text_fields:
                found, others = set().union(*map(begun, text_fields)), set().union(*(self.docs_of(field, other) for field in text_fields))
                for query, wanted in ((f'{start}*', found), (f'{start}* AND {other}', found & others), (f'{other} NOT {start}*', others - found), (f'({start}* {other})', found | others)):
                    self.finds(query, wanted)
            for field in text_fields:
                if field.setting['name'].isalnum() and field.setting['name'] != 'AND':
                    self.finds(f"{field.setting['name']}:{start}*", begun(field))

    def ranges(self, chosen, field, name):
        """Compares searches for values between bounds, which belong to the range or not, or of which one is missing."""
        between = lambda takes: set().union(*(docs for key, docs in field.lists.items() if takes(key)))
        for query in (f'{name}:*', f'{name}:[* TO *]'):
            self.finds(query, between(lambda key: True))
        if field.kind == 'json':
            return
        one, two = (chosen.choice(sorted(field.lists)) for _ in range(2))
        low, high = (quoted(field.texts[key]) for key in (one, two))
        for query, takes in ((f'{name}:[{low} TO {high}]', lambda key: one <= key <= two), (f'{name}:{{{low} TO {high}}}', lambda key: one < key < two),
                             (f'{name}:[{low} TO {high}}}', lambda key: one <= key < two), (f'{name}:{{* TO {high}]', lambda key: key <= two),
                             (f'{name}:>={low}', lambda key: key >= one), (f'{name}:>{low}', lambda key: key > one), (f'{name}:<{high}', lambda key: key < two)):
            self.finds(query, between(takes))

    def values(self, chosen, field, name, key):
        """Compares searches for a value, in one of its spellings, and for those of a set, some of which no document may have."""
        self.finds(f'{name}:{chosen.choice(field.spellings(key))}', set(field.lists[key]))
        values = [(key, field.texts[key]), *(field.key_of(random_value(chosen, field.setting)) for _ in range(chosen.randint(0, 3)))]
        found = set().union(*(field.lists.get(other, {}) for other, _ in values))
        query = f'{name}:IN [{" ".join(quoted(text) for _, text in values)}]'
        if chosen.random() < 0.5:
            query, found = f'* NOT {query}', set(range(len(self.lines))) - found
        self.finds(query, found)

    def phrase(self, chosen, field, name):
        """Compares the search for a phrase of two words, or of words of a document, in a field, also within a slop."""
        said = [text for line in self.lines for text in self.texts_in(line.get(name))]
        words = chosen.choice(said).split(' ') if said else []
        begin = chosen.randrange(len(words)) if words else 0
        for text in (f'{chosen.choice(PLAIN)} {chosen.choice(PLAIN)}', ' '.join(words[begin:begin + 3])):
            words, slop = [word for _, word in field.words_of(text)], chosen.choice([0, 1, 2, 3, 9])
            if words:
                self.finds(f'{name}:{quoted(text)}', self.docs_of(field, text))
            if words and (slop == 0 or len(set(words)) == len(words)):
                self.finds(f'{name}:{quoted(text)}~{slop}', self.docs_of(field, text, slop))
            self.starred(chosen, field, name, text)

    def starred(self, chosen, field, name, text):
        """Compares the search for a text whose last word is a prefix: the last one of the field's prefixes, after the words before it."""
        text = text[:chosen.randint(1, len(text))] if text else text
        if not field.starts_of(text):
            return
        at, start = field.starts_of(text)[-1]
        words = [(place, word) for place, word in field.words_of(text) if place < at]
        found = set()
        for key, docs in field.lists.items():
            if key.startswith(start.encode()):
                found |= self.docs_with([*((place, word.encode()) for place, word in words), (at, key)], field, 0) if words else set(docs)
        self.finds(f'{name}:{quoted(text)}*', found)

    def texts_in(self, value):
        """Returns the texts of a value of a text field."""
        return [text for text in (value if isinstance(value, list) else [value]) if text]

    def finds(self, query, found):
        if '\n' not in query:
            self.asked.append((query, found))
        self.wants(['search', 'folder', '--', query], 0 if found else 1, ''.join(f'{doc}\n' for doc in sorted(found)))
        self.wants(['search', 'folder', '--json', '--limit', '2', '--', query], 0 if found else 1, ''.join(f'{{"doc":{doc}}}\n' for doc in sorted(found)[:2]))
        self.wants(['search', 'folder', '--count', '--', query], 0 if found else 1, f'{len(found)}\n')


def one_folder(program, room, chosen, is_large):
    fields = random_schema(chosen)
    lines = [random_line(chosen, fields) for _ in range(chosen.randint(300, 900) if is_large else chosen.randint(0, 30))]
    reader = Reader(program, room, fields, lines)
    reader.merges_some = chosen.random() < 0.5
    if chosen.random() < 0.3:
        reader.strange = random.Random(chosen.random())
    cuts = sorted(chosen.randint(0, len(lines)) for _ in range(chosen.choice((0, 0, 1, 2, 4))))
    version = chosen.choice((1, 2, 3))
    reader.indexes(fields, cuts, chosen.random() < 0.3, version)
    reader.looks(chosen)
    reader.searches(chosen)
    if version > 1:
        reader.deletes(chosen)
        reader.looks(chosen)
        reader.searches(chosen)
    reader.replaces(chosen)
    reader.looks(chosen)
    reader.merges()
    reader.looks(chosen)
    reader.searches(chosen)
    return reader.runs


def main():
    many, seed = (int(sys.argv[1]), int(sys.argv[2])) if len(sys.argv) > 2 else (60, 1)
    if 'NEQULLPA' not in os.environ and not programs.build(PROGRAM):
        print('tests/folder: the program was not built')
        return 1
    program, runs = os.environ.get('NEQULLPA', programs.program_of(PROGRAM)), 0
    for number in range(many):
        with tempfile.TemporaryDirectory() as room:
            try:
                runs += one_folder(program, room, random.Random(seed * 1_000_003 + number), number % 8 == 0)
            except Failed as why:
                shutil.copytree(room, '/tmp/nequllpa-failed', dirs_exist_ok=True)
                print(f'tests/folder: random folder {number} of seed {seed}, kept in /tmp/nequllpa-failed: {why}')
                return 1
    print(f'tests/folder: {many} random folders, {runs} runs of nequllpa')
    return 0


if __name__ == '__main__':
    sys.exit(main())
