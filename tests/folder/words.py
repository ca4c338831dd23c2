#!/usr/bin/env python3
"""Indexes texts with each tokenizer, and compares the answers of `nequllpa` with a plain reading of them. An index whose
schema names no tokenizer, as earlier programs wrote it, has the ASCII one. The stems of English words are compared with
those that another program gives (`tests/stems/porter.txt`), and so are those of the plain reading. Some fields have stop
words."""
import base64
import functools
import hashlib
import json
import os
import random
import shutil
import struct
import sys

sys.dont_write_bytecode = True
HERE = os.path.dirname(os.path.abspath(__file__))
sys.path.insert(0, HERE)
import analyzers
import cuts
import porter
import texts
import users
import versions
from users import Failed

SEED = 20261127
ROUNDS = 12
LINES = 40
QUERIES = 60
# The bytes of the machine's texts that are indexed.
PAGES = 400_000

# The pieces of random texts: words that differ in case alone, words joined by marks, and forms of English words.
PIECES = ['sea', 'Sea', 'SEA', 'The', 'the', 'old', 'Old', 'man', 'man\u2019s', "man's", '\u201csea\u201d', 'Stra\u00dfe', 'STRASSE', 'Na\u00efve', 'sea\u0301', 'e.g.', '3.14', 'host.org', 'foo_bar',
          'co-op', '\u8001\u4eba', '\u30ab\u30ca', '\u3072\u3089', '\U0001f44d', '--', 'x' * 39, 'y' * 40, 'ID-7', 'a:b', '_', '9', '\u0391\u03c3', '\u0391\u03a3', '\u00a0', '\t',
          'sail', 'sailing', 'SAILED', 'sky', 'skies', 'be', 'bes', 'happily', 'relational', 'relate', 'sailing\u2019s', 'na\u00efvely', 'x1s']
FIELDS = [('plain', 'text', None), ('raw', 'text', 'raw'), ('spaces', 'text', 'whitespace'), ('ascii', 'text', 'ascii'), ('words', 'text', 'default'), ('english', 'text', 'en'), ('about', 'json', None), ('ids', 'json', 'raw'), ('notes', 'json', 'en'), ('stopped', 'text', 'en'), ('terse', 'json', 'en')]
# The stop words of fields: some in other case, some that are no words of their own.
STOPS = {'stopped': ['the', 'OLD', 'Stra\u00dfe', 'sail', "man's", 'The', 'x' * 39, '\u8001', ''], 'terse': ['SEA', 'be', 'bes', 'y' * 40], 'notes': []}

# The files of an index of "The Sea" and "the man\u2019s sea", as written by a program that knew no tokenizers.
EARLIER = {
    'schema.0': base64.b85encode(b'[[field]]\nname = "body"\ntype = "text"\n').decode(),
    'term.0': '1poj5000000{{R3000001^@s6000004FCWD000005C8xG000006951J00000Q)OXPXk~3-ZsLHMb8}^3bZBKK000000000500000000000000000001000000000000002000000000000002000011Oy_9nnkP%000000000000000fB*mh000000RR91',
    'idx.0': '1poj500000fPsL4fq{X6fq?)30000000000000sI0000000031000',
    'pos.0': 'fPsL3fPsL5fPer10000000000000UA0000000031000',
    'fieldnorm.0': '0s{a50000000000000620000000031000',
}

# Single texts in a field with a tokenizer, and their words with the positions of these. `stopped` is English without `the`.
ANALYZED = (
    ('ascii', 'The old man\u2019s \u201csea\u201d', [(0, 'The'), (1, 'old'), (2, 'man\u2019s'), (3, '\u201csea\u201d')]),
    ('default', 'The old man\u2019s \u201csea\u201d', [(0, 'the'), (1, 'old'), (2, 'man'), (3, 's'), (4, 'sea')]),
    ('default', 'STRASSE Stra\u00dfe', [(0, 'strasse'), (1, 'strasse')]),
    ('default', 'e.g. 3.14 foo_bar', [(0, 'e'), (1, 'g'), (2, '3'), (3, '14'), (4, 'foo_bar')]),
    ('default', '\u8001\u4eba', [(0, '\u8001'), (1, '\u4eba')]),
    ('default', '\U0001f44d --', []),
    ('default', '', []),
    ('default', f'a {"x" * 39} b', [(0, 'a'), (1, 'x' * 39), (2, 'b')]),
    ('default', f'a {"y" * 40} b', [(0, 'a'), (2, 'b')]),
    # 28 bytes, and 42 in folded case
    ('default', f'a {chr(0x149) * 14} b', [(0, 'a'), (2, 'b')]),
    ('default', 'sea\u0301', [(0, 'sea\u0301')]),
    ('default', 'se\u00e1', [(0, 'se\u00e1')]),
    ('raw', 'ID-7 a', [(0, 'ID-7 a')]),
    ('whitespace', ' a  b-c ', [(0, 'a'), (1, 'b-c')]),
    ('stopped', 'the old seas', [(1, 'old'), (2, 'sea')]),
    ('en', 'caresses ponies ties cats feed agreed plastered motoring sing', list(enumerate('caress poni ti cat feed agre plaster motor sing'.split()))),
    ('en', 'hopping falling filing happy sky relational generalizations oscillators be', list(enumerate('hop fall file happi sky relat gener oscil be'.split()))))

# Documents, and what queries find in them.
QUERIED_SCHEMA = '''\
[[field]]
name = "body"
type = "text"
[[field]]
name = "plain"
type = "text"
tokenizer = "ascii"
[[field]]
name = "word"
type = "text"
[[field]]
name = "tag"
type = "text"
tokenizer = "raw"
[[field]]
name = "n"
type = "i64"
[[field]]
name = "one"
type = "i64"
[[field]]
name = "j"
type = "json"
[[field]]
name = "when"
type = "date"
'''
QUERIED = (
    {'body': 'The sea', 'plain': 'The sea', 'word': 'sea', 'tag': 'b c', 'n': -5, 'one': -1, 'j': {'p': 2 ** 63 - 1}, 'when': '1990-01-01T00:00:00Z'},
    {'body': 'sea\u2019s', 'plain': 'sea\u2019s', 'word': 'search', 'tag': 'x', 'n': 0, 'one': 1, 'j': {'p': 2 ** 63}, 'when': '2001-01-01T00:00:00Z'},
    {'word': 'set', 'tag': 'd', 'n': 7, 'j': {'p': 'z', 'pq': 2 ** 63, 'o': 2 ** 63 - 1}},
    {'word': 'sf', 'j': {'p': True, 'p.q': 2 ** 63 - 1}})
# Words without a field's name are those of `word`.
FOUND = (
    ('body:SEA', [0, 1]), ('plain:SEA', []),
    ('n:[-5 TO 7}', [0, 1]), ('n:{-5 TO *]', [1, 2]), ('n:>=7', [2]), ('n:[7 TO 0]', []),
    ('j.p:[9223372036854775807 TO *]', [0, 1]), ('j.p:{9223372036854775807 TO *]', [1]), ('j.p:[* TO 9223372036854775807]', [0]), ('j.p:[9223372036854775808 TO 9223372036854775807]', []),
    ('j.p:*', [0, 1, 2, 3]), ('j.p:[a TO *]', [2]),
    ('se*', [0, 1, 2]), ('sea*', [0, 1]), ('*', [0, 1, 2, 3]), ('* AND NOT se*', [3]), ('SE*', [0, 1, 2]), ('word:zz*', []), ('word:*', [0, 1, 2, 3]), ('word:[set TO sea]', []),
    ('"se"*', [0, 1, 2]), ('body:"THE se"*', [0]), ('plain:"The s"*', [0]), ('plain:"the s"*', []), ('body:"sea th"*', []), ('body:"the sea s"*', []), ('j.p:"z"*', [2]),
    ('when:["2001-01-01T00:00:00Z" TO "1990-01-01T00:00:00Z"]', []), ('when:{"1990-01-01T00:00:00Z" TO *]', [1]),
    ('tag:IN [a "b c" d]', [0, 2]))
# The keys of fields of numbers and dates, one after the other in the file of terms.
KEYS = ('7FFFFFFFFFFFFFFF 8000000000000001', '88C24D6667470000 8D93A53711350000')

LITERAL = '; put the word in quotes to search for it as it is'
WILDCARDS = 'wildcards (s*a, s?a) are not supported, but for a * that ends a word or comes after quotes' + LITERAL
FUZZY = 'fuzzy words (sea~1) are not supported' + LITERAL
SLOP = 'a slop is a number up to 4294967295'
TWICE = 'a word stands twice in a phrase with slop, which is not supported'
RANGES = 'a range needs the name of a field before it, as in year:[1 TO 2]' + LITERAL
REFUSING_SCHEMA = '''\
[[field]]
name = "body"
type = "text"
[[field]]
name = "bare"
type = "text"
record = "basic"
[[field]]
name = "year"
type = "u64"
[[field]]
name = "flag"
type = "bool"
[[field]]
name = "mark"
type = "bytes"
[[field]]
name = "addr"
type = "ip_addr"
[[field]]
name = "note"
type = "text"
indexed = false
'''
# Texts that are no queries over these fields, and why.
REFUSED = (
    ('se?', 'at byte 2: ' + WILDCARDS), ('*a', 'at byte 0: ' + WILDCARDS), ('a*b', 'at byte 1: ' + WILDCARDS),
    ('/re/', 'at byte 0: regular expressions (/se.*/) are not supported' + LITERAL),
    ('sea~1', 'at byte 3: ' + FUZZY), ('"a b"~99999999999', 'at byte 6: ' + SLOP), ('"a b"~', 'at byte 6: ' + SLOP), ('body:"a b"~2.5', 'at byte 11: ' + SLOP), ('"a b" ~2', 'at byte 6: ' + FUZZY),
    ('"a b"~2*', 'at byte 7: ' + WILDCARDS), ('"a b"*c', 'at byte 5: ' + WILDCARDS), ('body:"a b"*~2', 'at byte 10: ' + WILDCARDS), ('year:"1"*', 'field year: a prefix must be the start of one word, in a field of texts'),
    ('bare:"a b"*', 'field bare: the field keeps no positions, which a phrase needs'), ('note:"a b"*', 'field note: the field is not indexed'), ('"..."*', 'no word to search for'),
    ('"a a b"~2', 'field body: ' + TWICE), ('"b c B"~1', 'field body: ' + TWICE), ('bare:"a b"~2', 'field bare: the field keeps no positions, which a phrase needs'), ('note:"a b"~2', 'field note: the field is not indexed'),
    ('a^2', 'at byte 1: boosts (sea^2) are not supported' + LITERAL),
    ('+a', 'at byte 0: required clauses (+sea) are not supported; join the words that must all match with AND'),
    ('the-sea*', 'field body: a prefix must be the start of one word, in a field of texts'),
    ('year:1*', 'field year: a prefix must be the start of one word, in a field of texts'),
    ('[1 TO 2]', 'at byte 0: ' + RANGES), ('{1 TO 2}', 'at byte 0: ' + RANGES),
    ('>1', 'at byte 0: a comparison needs the name of a field before it, as in year:>7' + LITERAL),
    ('IN [a]', 'at byte 0: a set needs the name of a field before it, as in tag:IN [a b]; put the word IN in quotes to search for it as it is'),
    ('year:[1 TO 2', 'at byte 12: expected ] or } after the bounds of a range'),
    ('year:[1 2]', 'at byte 8: expected the word TO between two bounds, as in year:[1 TO 2]'),
    ('year:[1 TO ]', 'at byte 11: expected a bound: a word, a text in quotes, or * within brackets'),
    ('year:IN [1', 'at byte 10: expected a value of the set, a word or a text in quotes, or the ] that ends it'),
    ('year:[a TO 2]', 'field year: expected a number'), ('year:x', 'field year: expected a number'),
    ('body:["a b" TO c]', 'field body: a bound of a range must be one word'),
    ('flag:x', 'field flag: expected true or false'), ('bare:"a b"', 'field bare: the field keeps no positions, which a phrase needs'),
    ('mark:0', 'field mark: expected pairs of hexadecimal digits'), ('mark:[00 TO "0 "]', 'field mark: expected pairs of hexadecimal digits'),
    ('addr:10.0.0.256', 'field addr: expected an address like 10.0.0.1 or ::1'), ('addr:["10.0.0.1" TO ""]', 'field addr: expected an address like 10.0.0.1 or ::1'),
    ('addr:>"::1/64"', 'field addr: expected an address like 10.0.0.1 or ::1'), ('addr:IN ["::1" 01.2.3.4]', 'field addr: expected an address like 10.0.0.1 or ::1'),
    ('addr:10.0.0.1*', 'field addr: a prefix must be the start of one word, in a field of texts'), ('note:a', 'field note: the field is not indexed'),
    ('NOT a', 'at byte 5: something must be searched for that is not excluded: add a word without a minus'),
    ('a AND NOT', 'at byte 9: expected a word, a phrase or an opening parenthesis to exclude; put NOT or the minus in quotes to search for it'),
    ('a AND', 'at byte 5: expected a word, a phrase or an opening parenthesis'),
    ('body: a', 'at byte 5: expected a word or a phrase after the colon'),
    ('"a', 'at byte 2: expected a closing quote'), ('(a', 'at byte 2: expected a closing parenthesis'),
    ('a)', 'at byte 1: expected the end of the query: this parenthesis closes none'),
    ('(' * 129 + 'a' + ')' * 129, 'at byte 128: expected at most 128 open parentheses'),
    ('', 'at byte 0: the query is empty: write a word to search for'),
    ('...', 'no word to search for'), ('...*', 'no word to search for'))


class User(users.User):
    """A user who reads what is printed as text."""

    def wants(self, words, status, out=None, err='', given=b''):
        return super().wants(words, status, out, err, given).decode()


def schema_text(default):
    """Returns a schema with a field for each tokenizer, and two that name none."""
    head = f'tokenizer = "{default}"\n' if default else ''
    return head + ''.join(f'[[field]]\nname = "{name}"\ntype = "{kind}"\n' + (f'tokenizer = "{tokenizer}"\n' if tokenizer else '') + (f'stop_words = {json.dumps(STOPS[name])}\n' if name in STOPS else '') for name, kind, tokenizer in FIELDS)


def words_of(name, tokenizer):
    """Returns how the texts of a field are read."""
    return functools.partial(analyzers.english_words, stops=STOPS[name]) if name in STOPS else analyzers.WORDS_BY[tokenizer]


def random_text(chosen):
    return ''.join(piece + chosen.choice([' ', ' ', ' ', '', ', ', '  ']) for piece in chosen.choices(PIECES, k=chosen.randrange(5)))


def random_line(chosen):
    """Returns a line: some fields have a text, or several."""
    line = {}
    for name, kind, tokenizer in FIELDS:
        if chosen.random() < 0.7:
            texts = [random_text(chosen) for place in range(chosen.choice([1, 1, 1, 2]))]
            value = texts if len(texts) > 1 else texts[0]
            line[name] = {'x': value} if kind == 'json' else value
    return line


def texts_of(line, name):
    """Returns the texts of a field of a line."""
    value = line.get(name, [])
    value = value.get('x', []) if isinstance(value, dict) else value
    return value if isinstance(value, list) else [value]


def places_of(line, name, words_by):
    """Returns the positions of each word of a field: a text begins where the one before ends, and one later."""
    places, begin = {}, 0
    for text in texts_of(line, name):
        end = begin
        for position, word in words_by(text):
            places.setdefault(word, set()).add(begin + position)
            end = max(end, begin + position + 1)
        begin = end + 1
    return places


def has_phrase(places, words):
    """Returns whether words are at their distances."""
    first, word = words[0]
    return any(all(place + position - first in places.get(other, ()) for position, other in words) for place in places.get(word, ()))


def quoted(text):
    return '"' + text.replace('\\', '\\\\').replace('"', '\\"') + '"'


def compares(user, chosen, default):
    """Compares the terms of each field, and random queries, with the reading of random lines."""
    lines = [random_line(chosen) for number in range(LINES)]
    rows = [json.dumps(line) + '\n' for line in lines]
    user.write('schema.toml', schema_text(default))
    cut = chosen.randrange(LINES)
    user.wants(['index', 'folder', '--schema', 'schema.toml'], 0, f'{cut} documents indexed\n', given=''.join(rows[:cut]).encode())
    user.wants(['add', 'folder'], 0, f'{LINES - cut} documents added\n', given=''.join(rows[cut:]).encode())
    told = user.wants(['fields', 'folder'], 0)
    readings = {}
    for number, (name, kind, tokenizer) in enumerate(FIELDS):
        tokenizer = tokenizer or default or 'default'
        stops = list(dict.fromkeys(word.casefold() for word in STOPS.get(name, ())))
        cut = f'tokenizer {tokenizer}' + (f' stop_words {json.dumps(stops, separators=(",", ":"), ensure_ascii=False)}' if stops else '')
        if f'{number} {name} {kind} position' not in told or f'{cut}: ' not in told.split(f'{number} {name} ')[1].split('\n')[0]:
            raise Failed(f'fields: {name} has no {cut} in {told!r}')
        words_by = words_of(name, tokenizer)
        readings[name] = (words_by, [places_of(line, name, words_by) for line in lines])
        counts = {}
        for places in readings[name][1]:
            for word in places:
                counts[word] = counts.get(word, 0) + 1
        wanted = ''.join(f'{counts[word]} {"x s " if kind == "json" else ""}{word}\n' for word in sorted(counts, key=lambda word: word.encode()))
        user.wants(['terms', 'folder', name], 0, wanted)
    for number in range(QUERIES):
        name, kind, tokenizer = chosen.choice(FIELDS)
        words_by, places = readings[name]
        text = random_text(chosen).strip() if chosen.random() < 0.5 else chosen.choice(PIECES)
        words = words_by(text)
        query = f'{name}.x:{quoted(text)}' if kind == 'json' else f'{name}:{quoted(text)}'
        found = [doc for doc in range(LINES) if words and has_phrase(places[doc], words)]
        if words or (kind == 'json' and text in ('true', 'false', '9')):
            user.wants(['search', 'folder', query], 0 if found else 1, ''.join(f'{doc}\n' for doc in found))
        else:
            user.wants(['search', 'folder', query], 2, '', 'no word to search for')
        if words and kind == 'text':
            user.wants(['search', 'folder', quoted(text), '--field', name, '--count'], 0 if found else 1, f'{len(found)}\n')
        compares_set(user, chosen, readings)
    user.wants(['check', 'folder'], 0)


def compares_set(user, chosen, readings):
    """Compares the documents of a set of texts, and those without them, with the reading of the lines."""
    name, kind, tokenizer = chosen.choice(FIELDS)
    words_by, places = readings[name]
    values = chosen.choices(PIECES, k=chosen.randrange(6))
    found = [doc for doc in range(LINES) if any(words_by(text) and has_phrase(places[doc], words_by(text)) for text in values)]
    others = [doc for doc in range(LINES) if doc not in found]
    query = f'{name}{".x" if kind == "json" else ""}:IN [{" ".join(map(quoted, values))}]'
    if values and not any(map(words_by, values)):
        user.wants(['search', 'folder', query], 2, '', 'no word to search for')
        query = f'* AND {query}'
        found, others = list(range(LINES)), []
    for text, docs in (query, found), (f'* AND NOT {query}', others), (f'{query} *', list(range(LINES))):
        user.wants(['search', 'folder', text], 0 if docs else 1, ''.join(f'{doc}\n' for doc in docs))
        user.wants(['search', 'folder', text, '--count'], 0 if docs else 1, f'{len(docs)}\n')


def rows(user):
    """Single answers: a word in any case, between marks, past a long word, and in the default fields of two tokenizers."""
    user.write('schema.toml', '[[field]]\nname = "body"\ntype = "text"\n[[field]]\nname = "id"\ntype = "text"\ntokenizer = "raw"\n')
    lines = [{'body': 'The old man\u2019s \u201csea\u201d', 'id': 'ID-7 a'}, {'body': 'a ' + 'x' * 40 + ' b', 'id': 'id-7'}, {'body': '\u8001\u4eba STRASSE'}]
    user.wants(['index', 'rows', '--schema', 'schema.toml'], 0, '3 documents indexed\n', given=''.join(json.dumps(line) + '\n' for line in lines).encode())
    for query, found in (('the', [0]), ('SEA', [0]), ('man', [0]), ('"MAN S SEA"', [0]), ('"MAN S SE"*', [0]), ('"man se"*', []), ('id:"ID-7"*', [0]), ('"old sea"', []), ('"a b"', []), ('\u8001\u4eba', [2]), ('"\u4eba \u8001"', []), ('stra\u00dfe', [2]),
                         ('ID-7', []), ('id:ID-7', []), ('id:"ID-7 a"', [0]), ('id:id-7', [1]), ('the AND -id:"ID-7 a"', []),
                         ('id:IN [id-7 "ID-7 a" x]', [0, 1]), ('id:IN [ID-7]', []), ('id:IN []', []), ('body:IN [stra\u00dfe "man s sea"]', [0, 2]), ('*', [0, 1, 2]), ('* AND NOT id:IN[id-7]', [0, 2]), ('the AND *', [0]),
                         ('the AND body:"-"', [0]), ('body:"-" OR sea', [0]), ('sea AND NOT body:"-"', [0]), ('the AND "-"', []), ('"-" OR sea', [0]), ('body:IN [a "-"]', [1]), ('sea AND body:IN ["-"]', [0]), ('sea AND body:IN []', [])):
        user.wants(['search', 'rows', query], 0 if found else 1, ''.join(f'{doc}\n' for doc in found))
    for query, err in (
            ('id:IN [a', 'at byte 8: expected a value of the set'), ('IN [a]', 'at byte 0: a set needs the name of a field'), ('id:IN [a "b]', 'at byte 12: expected a closing quote'),
            ('ID:IN []', 'no field ID'), ('body:"-"', 'no word to search for'), ('body:"-" AND NOT sea', 'no word to search for'), ('body:IN ["-"]', 'no word to search for'), ('body:...*', 'no word to search for'), ('body:>...', 'a bound of a range must be one word')):
        user.wants(['search', 'rows', query], 2, '', err)
    for text, err in (
            ('tokenizer = "Raw"\n[[field]]\nname = "a"\ntype = "text"', 'unknown tokenizer Raw: one of default, raw, whitespace, ascii, en'),
            ('tokenizer = 1\n[[field]]\nname = "a"\ntype = "text"', 'tokenizer: one of default, raw, whitespace, ascii, en'),
            ('[[field]]\nname = "a"\ntype = "text"\ntokenizer = "english"', 'field 0: unknown tokenizer english: one of default, raw, whitespace, ascii, en (the field a)'),
            ('[[field]]\nname = "a"\ntype = "u64"\ntokenizer = "raw"', 'field 0: tokenizer: one of default, raw, whitespace, ascii, en, where an indexed field has texts or JSON values (the field a)'),
            ('[[field]]\nname = "a"\ntype = "text"\nindexed = false\ntokenizer = "raw"', 'field 0: tokenizer: '),
            ('[[field]]\nname = "a"\ntype = "text"\ntokenizer = 1', 'field 0: tokenizer: '),
            ('unicode = 18\n[[field]]\nname = "a"\ntype = "text"', 'unicode: a version, as a text'),
            ('unicode = "17.0.0"\n[[field]]\nname = "a"\ntype = "text"', "its words are by Unicode 17.0.0, which this program doesn't have: index again")):
        user.write('bad.toml', text)
        user.wants(['index', 'bad', '--schema', 'bad.toml'], 2, '', err)
    # forms of an English word
    user.write('english.toml', 'tokenizer = "en"\n[[field]]\nname = "body"\ntype = "text"\n')
    user.wants(['index', 'english', '--schema', 'english.toml'], 0, '2 documents indexed\n', given=b'{"body": "The old seas"}\n{"body": "Sailing by the old sea"}\n')
    for query, found in (('sail', [1]), ('SAILED', [1]), ('"old sea"', [0, 1]), ('"sails by"', [1]), ('"sails b"*', [1]), ('"sail by the ol"*', [1]), ('"old se"*', [0, 1]), ('"by sailing"*', []), ('seas', [0, 1]), ('saili', []), ('body:IN [sails]', [1])):
        user.wants(['search', 'english', query], 0 if found else 1, ''.join(f'{doc}\n' for doc in found))
    # stop words
    user.write('stops.toml', 'tokenizer = "en"\nstore_source = true\n[[field]]\nname = "body"\ntype = "text"\nstop_words = ["The", "of", "the", "don\'t"]\n')
    user.wants(['index', 'stops', '--schema', 'stops.toml'], 0, '3 documents indexed\n', given=b'{"body": "The old seas"}\n{"body": "Theory of the sea"}\n{"body": "THE of the; don\'t"}\n')
    user.wants(['terms', 'stops', 'body'], 0, '1 don\n1 old\n2 sea\n1 t\n1 theori\n')
    for query, found in (('the AND sea', [0, 1]), ('the sea', [0, 1]), ('"the old"', [0]), ('"old sea"', [0]), ('"theory sea"', []), ('"theory of sea"', []), ('"theory of the sea"', [1]), ('"theory in a sea"', []),
                         ('"Theory THE of sea"', [1]), ('the*', [1]), ('"theory of the s"*', [1]), ('"theory of th"*', []), ('"the ol"*', [0]), ('"old the"*', []), ('"the"*', [1]), ('body:[the TO theory]', [1]), ('body:IN [of old]', [0]), ('don\'t', [2]), ('* AND NOT the', [0, 1, 2])):
        user.wants(['search', 'stops', query], 0 if found else 1, ''.join(f'{doc}\n' for doc in found))
    for query in ('the', '"of THE"', 'the AND of', 'body:IN [the of]', 'the AND NOT sea'):
        user.wants(['search', 'stops', query], 2, '', 'no word to search for')
    user.wants(['search', 'stops', 'the AND seas', '--snippet'], 0, '0\told seas\n1\tTheory of the sea\n')
    for text in ('[[field]]\nname = "a"\ntype = "text"\nstop_words = []', 'tokenizer = "raw"\n[[field]]\nname = "a"\ntype = "text"\nstop_words = ["a"]', '[[field]]\nname = "a"\ntype = "u64"\nstop_words = ["a"]',
                 '[[field]]\nname = "a"\ntype = "text"\ntokenizer = "en"\nstop_words = "the"', '[[field]]\nname = "a"\ntype = "text"\ntokenizer = "en"\nstop_words = ["the", 1]',
                 'tokenizer = "en"\n[[field]]\nname = "a"\ntype = "text"\nindexed = false\nstop_words = ["a"]'):
        user.write('bad.toml', text)
        user.wants(['index', 'bad', '--schema', 'bad.toml'], 2, '', 'field 0: stop_words: a list of texts, where the tokenizer of the field is en (the field a)')
    # words that don't depend on Unicode
    user.write('other.toml', 'unicode = "17.0.0"\ntokenizer = "raw"\n[[field]]\nname = "a"\ntype = "text"')
    user.wants(['index', 'other', '--schema', 'other.toml'], 0, '1 documents indexed\n', given=b'{"a": "A b"}\n')
    user.wants(['search', 'other', '"A b"'], 0, '0\n')


def single_texts(user):
    """The words of single texts by each tokenizer, and their positions."""
    names = [*analyzers.WORDS_BY, 'stopped']
    settings = {name: f'tokenizer = "{name}"\n' for name in names} | {'stopped': 'tokenizer = "en"\nstop_words = ["the"]\n'}
    user.write('single.toml', ''.join(f'[[field]]\nname = "{name}"\ntype = "text"\n{settings[name]}' for name in names))
    user.wants(['index', 'single', '--schema', 'single.toml'], 0, f'{len(ANALYZED)} documents indexed\n', given=''.join(json.dumps({name: text}) + '\n' for name, text, words in ANALYZED).encode())
    for field in names:
        wanted = {}
        for doc, (name, text, words) in enumerate(ANALYZED):
            for position, word in words if name == field else ():
                wanted.setdefault(word, {}).setdefault(doc, []).append(position)
        user.wants(['terms', 'single', field], 0, ''.join(f'{len(wanted[word])} {word}\n' for word in sorted(wanted, key=str.encode)))
        for word, docs in wanted.items():
            user.wants(['postings', 'single', '--positions', '--', field, word], 0, ''.join(f'{doc} {len(places)} {" ".join(map(str, places))}\n' for doc, places in docs.items()))


def single_queries(user):
    """What single queries find, which keys values have, and why a text is no query."""
    user.write('queried.toml', QUERIED_SCHEMA)
    user.wants(['index', 'queried', '--schema', 'queried.toml'], 0, f'{len(QUERIED)} documents indexed\n', given=''.join(json.dumps(line) + '\n' for line in QUERIED).encode())
    for query, found in FOUND:
        user.wants(['search', 'queried', query, '--field', 'word'], 0 if found else 1, ''.join(f'{doc}\n' for doc in found))
    with open(user.path('queried', f'{0:016x}.term'), 'rb') as file:
        terms = file.read()
    for keys in KEYS:
        if terms.count(bytes.fromhex(keys)) != 1:
            raise Failed(f'the file of terms has no keys {keys}')
    user.write('refused.toml', REFUSING_SCHEMA)
    user.wants(['index', 'refused', '--schema', 'refused.toml'], 0, given=b'{"body": "a b", "year": 1}\n')
    for query, reason in REFUSED:
        user.wants(['search', 'refused', '--', query], 2, '', f'nequllpa: {query}: {reason}\n')
    # longer than an argument may be
    query, begin = f'year:IN [{"1 " * 65536}1]', len(f'year:IN [{"1 " * 65536}')
    answer = {'query': query, 'error': f'at byte {begin}: expected at most 65536 values in a set', 'byte': begin}
    user.wants(['search', 'refused', '--batch'], 2, json.dumps(answer, separators=(',', ':')) + '\n', given=query.encode())


def foreign(user):
    """An index whose schema names a tokenizer that this program doesn't know, or another version of Unicode: commands refuse
    it and change nothing, unless no words depend on it."""
    user.write('known.toml', '[[field]]\nname = "body"\ntype = "text"\ntokenizer = "default"\n')
    user.wants(['index', 'known', '--schema', 'known.toml'], 0, '1 documents indexed\n', given=b'{"body": "The sea"}\n')
    for old, new, reason in (
            ('tokenizer = "default"\nunicode', 'tokenizer = "thai"\nunicode', 'unknown tokenizer thai: one of default, raw, whitespace, ascii, en'),
            ('type = "text"\ntokenizer = "default"', 'type = "text"\ntokenizer = "thai"', 'field 0: unknown tokenizer thai: one of default, raw, whitespace, ascii, en'),
            ('unicode = "18.0.0"', 'unicode = "19.0.0"', "its words are by Unicode 19.0.0, which this program doesn't have: index again")):
        for version in (3, 1):
            shutil.rmtree(user.path('foreign'), ignore_errors=True)
            shutil.copytree(user.path('known'), user.path('foreign'))
            versions.change_schema(user.path('foreign'), old.encode(), new.encode())
            if version == 1:
                versions.to_first(user.path('foreign'))
            files = cuts.contents(user.path('foreign'))
            for words in (['search', 'foreign', 'sea'], ['fields', 'foreign'], ['terms', 'foreign', 'body'], ['check', 'foreign']):
                user.wants(words, 1, f'foreign: the schema: {reason}\n')
            user.wants(['add', 'foreign'], 2, '', f'nequllpa: foreign: the schema: {reason}\n', given=b'{"body": "a new sea"}\n')
            if cuts.contents(user.path('foreign')) != files:
                raise Failed(f'an index with {new} was changed')
    user.write('raw.toml', '[[field]]\nname = "body"\ntype = "text"\ntokenizer = "raw"\n')
    user.wants(['index', 'ids', '--schema', 'raw.toml'], 0, '1 documents indexed\n', given=b'{"body": "The sea"}\n')
    versions.change_schema(user.path('ids'), b'unicode = "18.0.0"', b'unicode = "19.0.0"')
    user.wants(['search', 'ids', '"The sea"'], 0, '0\n')
    user.wants(['add', 'ids'], 0, '1 documents added\n', given=b'{"body": "The sea"}\n')
    user.wants(['search', 'ids', '"The sea"'], 0, '0\n1\n')


def long_words(user):
    """A word of a megabyte in a text of each tokenizer and in queries: it is left out, and its position stays free."""
    long, names = 'x' * 1_000_000, list(analyzers.WORDS_BY)
    user.write('long.toml', ''.join(f'[[field]]\nname = "{name}"\ntype = "text"\ntokenizer = "{name}"\n' for name in names))
    line = {name: [f'a {long} b', long] for name in names}
    user.wants(['index', 'long', '--schema', 'long.toml'], 0, '1 documents indexed\n', 'nequllpa: 6 words of more than 65530 bytes are not indexed\n', json.dumps(line).encode())
    for name in names:
        user.wants(['terms', 'long', name], 0, '' if name == 'raw' else '1 a\n1 b\n')
        if name != 'raw':
            user.wants(['postings', 'long', name, 'b', '--positions'], 0, '0 1 2\n')
    asked = [f'{name}:{query}' for name in names for query in (long, f'"a {long} b"', f'{long}*', f'[{long} TO *]')]
    answers = user.wants(['search', 'long', '--batch'], 2, given=''.join(query + '\n' for query in asked).encode()).splitlines()
    # a long word is no word of `default`
    cut = {'"a ': ',"docs":[{"doc":0}]}', long + '*': ',"error":"no word to search for"}', long: ',"error":"no word to search for"}', f'[{long}': ',"error":"field %s: a bound of a range must be one word"}'}
    for query, answer in zip(asked, answers, strict=True):
        name, text = query.split(':')
        begin = f'{{"query":{json.dumps(query)}'
        end = ',"docs":[]}' if name not in ('default', 'en') else next(end.replace('%s', name) for start, end in cut.items() if text.startswith(start))
        if answer != begin + end:
            raise Failed(f'{query[:40]}: {answer[len(begin):][:200]!r}; wanted {end!r}')


def stems(user):
    """Compares the stems of words with those that another program gives. Returns how many."""
    with open(os.path.join(HERE, '..', 'stems', 'porter.txt')) as file:
        stem_of = dict(line.split() for line in file if not line.startswith('#'))
    for word, stem in stem_of.items():
        if porter.stem(word) != stem:
            raise Failed(f'the plain reading has the stem {porter.stem(word)} of {word}, not {stem}')
    user.write('schema.toml', 'tokenizer = "en"\n[[field]]\nname = "body"\ntype = "text"\n')
    words = list(stem_of)
    user.wants(['index', 'stems', '--schema', 'schema.toml'], 0, f'{len(words)} documents indexed\n', given=''.join(json.dumps({'body': word}) + '\n' for word in words).encode())
    docs_of = {}
    for doc, word in enumerate(words):
        docs_of.setdefault(stem_of[word], []).append(doc)
    user.wants(['terms', 'stems', 'body'], 0, ''.join(f'{len(docs_of[stem])} {stem}\n' for stem in sorted(docs_of)))
    answers = [{'query': f'"{word}"', 'docs': [{'doc': doc} for doc in docs_of[stem_of[word]]]} for word in words]
    user.wants(['search', 'stems', '--batch'], 0, ''.join(json.dumps(answer, separators=(',', ':')) + '\n' for answer in answers), given=''.join(f'"{word}"\n' for word in words).encode())
    return len(words)


def earlier(user):
    """An index that knows no tokenizers: its words, and those that are added, are those of the ASCII tokenizer."""
    files = {name: base64.b85decode(text) for name, text in EARLIER.items()}
    meta = b'nequllpa' + struct.pack('<IBI', 1, 0, 2) + b''.join(struct.pack('<Q', len(file)) + hashlib.sha256(file).digest() for file in files.values())
    files['meta'] = meta + hashlib.sha256(meta).digest()
    os.mkdir(os.path.join(user.room, 'earlier'))
    for name, file in files.items():
        with open(os.path.join(user.room, 'earlier', name), 'wb') as out:
            out.write(file)
    if '0 body text position fieldnorms tokenizer ascii: 5 terms, 5 tokens\n' not in user.wants(['fields', 'earlier'], 0):
        raise Failed('fields of an index without tokenizers')
    for query, found in (('the', [1]), ('The', [0]), ('man\u2019s', [1]), ('man', [])):
        user.wants(['search', 'earlier', query], 0 if found else 1, ''.join(f'{doc}\n' for doc in found))
    user.wants(['check', 'earlier'], 0)
    shutil.copytree(user.path('earlier'), user.path('upgraded'))
    user.wants(['upgrade', 'upgraded'], 0, 'the index is of version 3 now\n')
    if '0 body text position fieldnorms tokenizer ascii: 5 terms, 5 tokens\n' not in user.wants(['fields', 'upgraded'], 0):
        raise Failed('fields of an upgraded index without tokenizers')
    user.wants(['search', 'upgraded', 'the'], 0, '1\n')
    user.wants(['add', 'earlier'], 0, '1 documents added\n', given=b'{"body": "The man"}\n')
    for query, found in (('the', [1]), ('The', [0, 2]), ('man', [2])):
        user.wants(['search', 'earlier', query], 0, ''.join(f'{doc}\n' for doc in found))


def pages(user, chosen):
    """Indexes the paragraphs of the kit's pages, and searches words of them in any case, prefixes and ranges. Returns how
    many paragraphs there are."""
    user.write('schema.toml', '[[field]]\nname = "page"\ntype = "text"\ntokenizer = "raw"\n[[field]]\nname = "body"\ntype = "text"\n[[field]]\nname = "place"\ntype = "u64"\n')
    lines, size = [], 0
    for page, place, body in texts.paragraphs(path for path in texts.large_texts() if path.endswith('.md')):
        size += len(body)
        if size > PAGES:
            break
        lines.append({'page': page, 'body': body, 'place': place})
    user.wants(['index', 'pages', '--schema', 'schema.toml'], 0, f'{len(lines)} documents indexed\n', given=''.join(json.dumps(line) + '\n' for line in lines).encode())
    words = [{word for position, word in analyzers.default_words(line['body'])} for line in lines]
    asked = []
    for number in range(QUERIES):
        word = chosen.choice(sorted(words[chosen.randrange(len(words))]) or ['the'])
        if word in ('to', 'in', 'and', 'or', 'not'):
            continue
        begin, low = word[:chosen.randint(1, len(word))], chosen.randrange(20)
        high = low + chosen.randrange(9)
        with_word = {doc for doc, some in enumerate(words) if word in some}
        asked += [
            (chosen.choice([word, word.upper(), word.capitalize()]), with_word if not any(char in word for char in 'ßı') else None),
            (f'{begin}*', None if analyzers.default_words(begin) != [(0, begin)] else {doc for doc, some in enumerate(words) if any(other.startswith(begin) for other in some)}),
            (f'{word} AND place:[{low} TO {high}]', {doc for doc in with_word if low <= lines[doc]['place'] <= high}),
            (f'page:"{lines[number % len(lines)]["page"]}" NOT {word}', {doc for doc, line in enumerate(lines) if line['page'] == lines[number % len(lines)]['page']} - with_word)]
    asked = [(query, found) for query, found in asked if found is not None]
    answers = [{'query': query, 'docs': [{'doc': doc} for doc in sorted(found)]} for query, found in asked]
    user.wants(['search', 'pages', '--batch', '--field', 'body'], 0, ''.join(json.dumps(answer, separators=(',', ':'), ensure_ascii=False) + '\n' for answer in answers), given=''.join(f'{query}\n' for query, found in asked).encode())
    return len(lines)


def each_tokenizer(user):
    """Goes through all of it. Returns what was seen."""
    chosen = random.Random(SEED)
    rows(user)
    single_texts(user)
    single_queries(user)
    foreign(user)
    long_words(user)
    num_stems = stems(user)
    earlier(user)
    num_pages = pages(user, chosen)
    for number in range(ROUNDS):
        compares(user, chosen, [None, 'default', 'raw', 'whitespace', 'ascii', 'en'][number % 6])
    return f'{ROUNDS} folders of {LINES} lines with each tokenizer, {ROUNDS * QUERIES} queries, {num_stems} stems, {num_pages} paragraphs of the machine'


sys.exit(users.judged(each_tokenizer, User))
