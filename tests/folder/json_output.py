#!/usr/bin/env python3
"""Runs each command of `nequllpa` with `--json`. Rows written by hand, one or more of each command, and those of random
folders must be exactly what is printed: of fields of every type, of several segments, also after documents were deleted.
Where files are damaged, `check --json` must tell what `check` tells.

    json_output.py            20 random folders, as the gate runs it
    json_output.py N SEED     N others"""
import json
import os
import random
import re
import shutil
import sys

sys.dont_write_bytecode = True
sys.path.insert(0, os.path.dirname(os.path.abspath(__file__)))
import random_folders
import ranking_meaning
import users
import versions
from users import Failed

SCHEMA = '''\
tokenizer = "ascii"
store_source = true
[[field]]
name = "body"
type = "text"
[[field]]
name = "tag"
type = "text"
tokenizer = "raw"
record = "freq"
fieldnorms = false
[[field]]
name = "word"
type = "text"
record = "basic"
[[field]]
name = "n"
type = "u64"
[[field]]
name = "change"
type = "i64"
[[field]]
name = "flag"
type = "bool"
[[field]]
name = "mark"
type = "bytes"
[[field]]
name = "addr"
type = "ip_addr"
[[field]]
name = "j \\"k\\""
type = "json"
[[field]]
name = "note"
type = "text"
indexed = false
'''
JSON = 'j "k"'
# two segments; document 2 is deleted later
DOCS = (
    [{'body': 'old sea', 'tag': 'a "b"\\\t\u0001\u007f', 'word': 'x x', 'n': 18446744073709551615, 'change': -3, 'flag': True, 'mark': '00FF', 'addr': '10.0.0.1', JSON: {'k': 'sea sea', 'x y': [1, 2 ** 63]}, 'note': 1.5},
     {'body': ['sea', 'old sea'], 'tag': ['\u8001\u4eba', '\u8001\u4eba']}],
    [{'body': 'sea gone', 'n': 5, JSON: {'k': 'gone'}},
     {'body': 'sea', 'tag': 'line\nfeed \U0001f41f', 'word': 'x', 'flag': [False, True], 'mark': '', 'addr': ['::1', '10.0.0.1'], JSON: {'k': 'the sea', 'a.b': False}}])
# what a command prints then
ROWS = (
    (['terms', 'body'], 0, [{'term': 'old', 'docs': 2}, {'term': 'sea', 'docs': 3}]),
    (['terms', 'body', '--top', '1'], 0, [{'term': 'sea', 'docs': 3}]),
    (['terms', 'body', '--prefix', 'o'], 0, [{'term': 'old', 'docs': 2}]),
    (['terms', 'tag'], 0, [{'term': 'a "b"\\\t\u0001\u007f', 'docs': 1}, {'term': 'line\nfeed \U0001f41f', 'docs': 1}, {'term': '\u8001\u4eba', 'docs': 1}]),
    (['terms', 'n'], 0, [{'term': '18446744073709551615', 'docs': 1}]),
    (['terms', 'change'], 0, [{'term': '-3', 'docs': 1}]),
    (['terms', 'flag'], 0, [{'term': 'false', 'docs': 1}, {'term': 'true', 'docs': 2}]),
    (['terms', 'mark'], 0, [{'term': '', 'docs': 1}, {'term': '00ff', 'docs': 1}]),
    (['terms', 'addr'], 0, [{'term': '::1', 'docs': 1}, {'term': '10.0.0.1', 'docs': 2}]),
    (['terms', JSON], 0, [{'term': 'a\\.b o false', 'docs': 1}, {'term': 'k s sea', 'docs': 2}, {'term': 'k s the', 'docs': 1}, {'term': 'x\\ y i 1', 'docs': 1}, {'term': 'x\\ y u 9223372036854775808', 'docs': 1}]),
    (['terms', 'note'], 0, []),
    (['postings', 'body', 'sea'], 0, [{'doc': 0, 'freq': 1}, {'doc': 1, 'freq': 2}, {'doc': 2, 'freq': 1}]),
    (['postings', 'body', 'sea', '--positions'], 0, [{'doc': 0, 'freq': 1, 'positions': [1]}, {'doc': 1, 'freq': 2, 'positions': [0, 3]}, {'doc': 2, 'freq': 1, 'positions': [0]}]),
    (['postings', 'body', 'gone'], 1, []),
    (['postings', 'tag', '\u8001\u4eba', '--positions'], 0, [{'doc': 1, 'freq': 2}]),
    (['postings', 'word', 'x', '--positions'], 0, [{'doc': 0}, {'doc': 2}]),
    (['postings', 'flag', 'true'], 0, [{'doc': 0}, {'doc': 2}]),
    (['postings', 'addr', '10.0.0.1'], 0, [{'doc': 0}, {'doc': 2}]),
    (['postings', JSON, 'k s sea', '--positions'], 0, [{'doc': 0, 'freq': 2, 'positions': [0, 1]}, {'doc': 2, 'freq': 1, 'positions': [1]}]),
    (['postings', JSON, 'a\\.b o false', '--positions'], 0, [{'doc': 2, 'freq': 1, 'positions': []}]),
)
# what `search --top 9 --explain` says of each document: the parts of the query that it matches, each with the numbers of the documents
# of its terms, the count, the norm, and the number of tokens of the field; of a part that always scores 1.0 its text alone
NAMED = 'j\\ \\"k\\"'
EXPLAINED = (
    ('body:sea', {0: [('body:sea', [3], 1, 2, 6)], 1: [('body:sea', [3], 2, 3, 6)], 2: [('body:sea', [3], 1, 1, 6)]}),
    ('body:"old sea"', {0: [('body:"old sea"', [2, 3], 1, 2, 6)], 1: [('body:"old sea"', [2, 3], 1, 3, 6)]}),
    ('body:"old se"*', {0: [('body:"old se"*',)], 1: [('body:"old se"*',)]}),
    (f'{NAMED}.k:"the s"*', {2: [('j "k":"k s the k s s"*',)]}),
    ('tag:"\u8001\u4eba"', {1: [('tag:\u8001\u4eba', [1], 2, 1, 4)]}),
    ('tag:l* OR tag:a*', {0: [('tag:a*',)], 2: [('tag:l*',)]}),
    ('word:x', {0: [('word:x', [2], 1, 2, 3)], 2: [('word:x', [2], 1, 1, 3)]}),
    ('n:18446744073709551615', {0: [('n:18446744073709551615', [1], 1, 1, 1)]}),
    ('change:[-5 TO 0}', {0: [('change:[-5 TO 0}',)]}),
    ('change:<0 OR n:>7 OR n:*', {0: [('change:[* TO 0}',), ('n:{7 TO *]',), ('n:*',)]}),
    ('flag:IN [true false]', {0: [('flag:true', [2], 1, 1, 3)], 2: [('flag:true', [2], 1, 1, 3), ('flag:false', [1], 1, 1, 3)]}),
    ('mark:* addr:*', {0: [('mark:*',), ('addr:*',)], 2: [('mark:*',), ('addr:*',)]}),
    (f'{NAMED}.k:sea', {0: [('j "k":k s sea', [2], 2, 1, 7)], 2: [('j "k":k s sea', [2], 1, 1, 7)]}),
    (f'{NAMED}.k:"the sea" OR {NAMED}.a\\.b:false', {2: [('j "k":"k s the k s sea"', [1, 2], 1, 1, 7), ('j "k":a\\.b o false', [1], 1, 1, 7)]}),
    (f'{NAMED}.k:t* OR {NAMED}.k:* OR {NAMED}:*', {0: [('j "k":k *',), ('j "k":*',)], 2: [('j "k":k s t*',), ('j "k":k *',), ('j "k":*',)]}),
    (f'{NAMED}.x\\ y:[0 TO 5] OR {NAMED}.x\\ y:>-1', {0: [('j "k":[x\\ y i 0 TO x\\ y i 5]',), ('j "k":{x\\ y i -1 TO *]',), ('j "k":x\\ y u *',)]}),
    ('* AND (body:old OR none) NOT tag:a*', {1: [('*',), ('body:old', [2], 1, 3, 6)]}),
)
FIELD_KEYS = ('number', 'field', 'type', 'indexed', 'record', 'fieldnorms', 'expand_dots', 'tokenizer', 'stop_words', 'terms', 'tokens')
FIELDS = (
    (0, 'body', 'text', True, 'position', True, False, 'ascii', None, 2, 6), (1, 'tag', 'text', True, 'freq', False, False, 'raw', None, 3, 4), (2, 'word', 'text', True, 'basic', True, False, 'ascii', None, 1, 3),
    (3, 'n', 'u64', True, 'basic', False, False, None, None, 1, 1), (4, 'change', 'i64', True, 'basic', False, False, None, None, 1, 1), (5, 'flag', 'bool', True, 'basic', False, False, None, None, 2, 3),
    (6, 'mark', 'bytes', True, 'basic', False, False, None, None, 2, 2), (7, 'addr', 'ip_addr', True, 'basic', False, False, None, None, 2, 3), (8, JSON, 'json', True, 'position', False, False, 'ascii', None, 5, 7),
    (9, 'note', 'text', False, None, None, None, None, None, 0, 0))
PATHS = (('a\\.b', 'bool', 1), ('k', 'text', 2), ('x\\ y', 'i64', 1), ('x\\ y', 'u64', 1))
TYPES = {'s': 'text', 'i': 'i64', 'u': 'u64', 'o': 'bool'}
FILE_KINDS = {'schema': 'schema', 'terms': 'term', 'postings': 'idx', 'positions': 'pos', 'field_norms': 'norm', 'counts': 'count', 'stored_documents': 'store'}
# a row of `check`: the file that is not as it was saved; or the segment, file, field, term, damage, bytes and document
CHANGED = re.compile(r'small: ((?:the file|the flags) of (?:the )?(.+?)(?: of segment (\d+))? (?:has|is|are) .+?)(?:, bytes (\d+)\.\.(\d+))?$')
DAMAGED = re.compile(r'(?:segment (\d+): )?the file of ([a-z ]+)(?:, field ([^,:]*))?(?:, term (.*?))?: ((?:damaged|document|the f|[0-9]+ field norms).*?)(?:, bytes (\d+)\.\.(\d+)|, document (\d+))$', re.S)


def told(rows):
    """Returns rows as they are printed."""
    return ''.join(json.dumps(row, ensure_ascii=False, separators=(',', ':')) + '\n' for row in rows)


def given(docs):
    return ''.join(json.dumps(doc, ensure_ascii=False) + '\n' for doc in docs).encode()


def field_row(values):
    return {key: value for key, value in zip(FIELD_KEYS, values) if value is not None}


def rows_of(text):
    """Returns printed objects, one a line."""
    return [json.loads(line) for line in text.decode().splitlines()]


def share_row(part, doc_freqs=None, count=1, norm=1, num_tokens=0, num_docs=3):
    """Returns what a part adds to the score of a document, and the object that is printed."""
    if doc_freqs is None:
        of_all, share = 0, 2 ** ranking_meaning.SCORE_BITS
    else:
        of_all = ranking_meaning.weight(doc_freqs, num_docs)
        share = ranking_meaning.score(of_all, count, ranking_meaning.length_part(norm, num_tokens, num_docs))
    text, show = json.dumps(part, ensure_ascii=False), ranking_meaning.show
    return share, f'{{"query":{text},"weight":{show(of_all, ranking_meaning.WEIGHT_BITS)},"weight_units":{of_all},"count":{count},"norm":{norm},"share":{show(share)},"units":{share}}}'


def explanations(user):
    """Compares what `search --explain` prints of the three documents that are left: the best first."""
    for query, docs in EXPLAINED:
        found = []
        for doc, parts in docs.items():
            shares = [share_row(*part) for part in parts]
            score = sum(share for share, _ in shares)
            found.append((-score, doc, f'{{"doc":{doc},"score":{ranking_meaning.show(score)},"units":{score},"explain":[{",".join(row for _, row in shares)}]}}'))
        rows = [row for _, _, row in sorted(found)]
        user.wants(['search', 'small', query, '--top', 9, '--json', '--explain'], 0, ''.join(row + '\n' for row in rows))
        lines = given([DOCS[0][0], DOCS[0][1], DOCS[1][1]]).decode().splitlines()
        user.wants(['search', 'small', '--batch', '--explain', '--source', '--top', 1], 0, f'{{"query":{json.dumps(query, ensure_ascii=False)},"docs":[{rows[0][:-1]},"source":{lines[sorted(found)[0][1]]}}}]}}\n', given=query.encode())


def gaps(user):
    """Compares what is printed of a phrase between whose words some are left out, and of its slop or its star."""
    user.write('gaps.toml', '[[field]]\nname = "body"\ntype = "text"\ntokenizer = "en"\nstop_words = ["of", "the"]\n')
    user.wants(['index', 'gaps', '--schema', 'gaps.toml'], 0, given=given([{'body': 'Theory of the deep sea'}]))
    for query, part in (('"theory of the deep sea"', '"theori ? ? deep sea"'), ('"theory of the deep sea"~0', '"theori ? ? deep sea"'), ('"theory of the deep sea"~1', '"theori ? ? deep sea"~1'),
                        ('"deep theory of the sea"~4', '"deep theori ? ? sea"~4')):
        share, row = share_row('body:' + part, [1, 1, 1], 1, 3, 3, 1)
        user.wants(['search', 'gaps', query, '--top', 1, '--json', '--explain'], 0, f'{{"doc":0,"score":{ranking_meaning.show(share)},"units":{share},"explain":[{row}]}}\n')
    user.wants(['search', 'gaps', '"deep theory of the sea"~3', '--top', 1, '--json', '--explain'], 1)
    for query, part in (('"theory of the de"*', '"theori ? ? de"*'), ('"theory of the deep"*', '"theori ? ? deep"*'), ('"the de"*', 'de*'), ('"deep se"*', '"deep se"*')):
        share, row = share_row('body:' + part)
        user.wants(['search', 'gaps', query, '--top', 1, '--json', '--explain'], 0, f'{{"doc":0,"score":{ranking_meaning.show(share)},"units":{share},"explain":[{row}]}}\n')
    user.wants(['search', 'gaps', '"theory the"*'], 1)


def by_hand(user):
    """Compares what each command prints of a few documents."""
    user.write('schema.toml', SCHEMA)
    bad = b'{"body": 5}\n[1]\n'
    user.wants(['index', 'small', '--schema', 'schema.toml', '--skip-bad', '--json'], 0, '{"indexed":2,"left_out":2}\n', '-:3: body: ', given(DOCS[0]) + bad)
    user.wants(['add', 'small', '--no-merge', '--json'], 0, '{"added":2,"left_out":0}\n', given=given(DOCS[1]))
    user.wants(['upgrade', 'small', '--json'], 0, '{"version":3,"upgraded":false}\n')
    user.wants(['delete', 'small', 'body', 'gone', '--json'], 0, '{"deleted":1}\n')
    user.wants(['delete', 'small', 'body', 'none', '--json'], 0, '{"deleted":0}\n')
    for words, status, rows in ROWS:
        user.wants([words[0], 'small', *words[1:], '--json'], status, told(rows))
    fields = user.wants(['fields', 'small', '--json'], 0)
    paths = [row for row in rows_of(fields) if 'path' in row]
    if [row for row in rows_of(fields) if 'path' not in row] != [field_row(values) for values in FIELDS]:
        raise Failed(f'fields: {fields!r}')
    if [(row['field'], row['path'], row['type'], row['terms']) for row in paths] != [(JSON, *path) for path in PATHS]:
        raise Failed(f'paths of fields: {paths}')
    docs = [DOCS[0][0], DOCS[0][1], DOCS[1][1]]
    lines = given(docs).decode().splitlines()
    user.wants(['get', 'small', 2, 0, '--json'], 0, ''.join(f'{{"doc":{doc},"source":{lines[doc]}}}\n' for doc in (2, 0)))
    user.wants(['get', 'small', 3, 1, '--json'], 1, f'{{"doc":1,"source":{lines[1]}}}\n', 'no document 3')
    explanations(user)
    gaps(user)
    stats_agree(user, 'small')
    checks_agree(user, 'small', 0)
    for command in ('terms', 'postings', 'fields', 'stats', 'check', 'get', 'delete', 'merge', 'upgrade', 'add'):
        words = {'terms': ['body'], 'postings': ['body', 'sea'], 'delete': ['body', 'sea'], 'get': ['0']}.get(command, [])
        user.wants([command, 'nowhere', *words, '--json'], 1, 'nowhere: no index here\n', 'the command index makes one')


def changes(user):
    """Compares what the commands that change the index print of these documents."""
    user.wants(['merge', 'small', '--json'], 0, '{"merged":2,"documents":3}\n')
    user.wants(['merge', 'small', '--json'], 0, '{"merged":0,"documents":3}\n')
    more = given([{'n': 18446744073709551615, 'body': 'new'}, {'n': [1, 2]}, {'n': 5}])
    user.wants(['add', 'small', '--replace-by', 'n', '--skip-bad', '--json'], 0, '{"added":2,"replaced":1,"left_out":1}\n', given=more)
    user.wants(['index', 'first', '--schema', 'first.toml', '--json'], 0, '{"indexed":2,"left_out":0}\n', given=given(DOCS[0]))
    versions.to_first(user.path('first'))
    user.wants(['merge', 'first', '--json'], 0, '{"merged":0,"documents":2}\n')
    checks_agree(user, 'first', 0)
    user.wants(['upgrade', 'first', '--json'], 0, '{"version":3,"upgraded":true}\n')


def text_of_stats(text):
    """Returns what `stats` tells as text: as the object of `stats --json`."""
    first, *fields = text.split('\n\n')
    row = {'deleted_documents': 0, 'bytes': dict.fromkeys(FILE_KINDS, 0), 'fields': []}
    for line in first.splitlines():
        number, what = line.strip().split(' ', 1)
        if what.startswith('bytes of '):
            row['bytes'][what[len('bytes of '):].replace(' ', '_')] = int(number)
        else:
            row['deleted_documents' if what.startswith('deleted') else what] = int(number)
    for field in fields:
        name, *lines = field.splitlines()
        one = {'field': name[len('field '):].rsplit(', ', 1)[0], 'type': name.rsplit(', ', 1)[1], 'bytes': {}, 'lists': []}
        for line in lines:
            number, what = line.strip().split(' ', 1)
            if what.startswith('bytes of '):
                one['bytes'][what[len('bytes of '):]] = int(number)
            elif what.startswith('lists of '):
                one['lists'].append({'documents': int(what.split()[2]), 'lists': int(number)})
            elif what.startswith('bits of '):
                one['bits_of_postings_for_each'] = float(number)
            else:
                one[what.replace(' ', '_')] = int(number)
        row['fields'].append(one)
    return row


def stats_agree(user, folder):
    """Compares `stats --json` with `stats`, and the bytes of files with those of the folder. Returns the object."""
    row, = rows_of(user.wants(['stats', folder, '--json'], 0))
    if row != text_of_stats(user.wants(['stats', folder], 0).decode()):
        raise Failed(f'stats: {row}')
    names = os.listdir(user.path(folder))
    for what, kind in FILE_KINDS.items():
        size = sum(os.path.getsize(user.path(folder, name)) for name in names if name.endswith('.' + kind))
        if what != 'schema' and 'meta' in names and any(name.endswith('.idx') for name in names) and row['bytes'][what] != size:
            raise Failed(f'stats: {row["bytes"][what]} bytes of {what}; wanted {size}')
    return row


def checks_agree(user, folder, status):
    """Compares `check --json` with `check`."""
    text = user.wants(['check', folder], status).decode()
    rows = rows_of(user.wants(['check', folder, '--json'], status))
    *lines, documents, walked, count = text.removesuffix('\n').split('\n')
    damages = []
    for line in lines:
        # a term may have line breaks
        if damages and not CHANGED.match(damages[-1]) and not DAMAGED.match(damages[-1]):
            damages[-1] += '\n' + line
        else:
            damages.append(line)
    wanted = []
    for line in damages:
        changed, damage = CHANGED.match(line), DAMAGED.match(line)
        if changed:
            said, file, segment, start, end = changed.groups()
            if said.startswith('the flags'):
                file, segment = 'living documents', re.search(r'segment (\d+)', said).group(1)
            row = {'damage': said, 'segment': segment, 'file': file, 'bytes': [int(start), int(end)] if start else None}
        elif damage:
            segment, file, field, term, said, start, end, document = damage.groups()
            row = {'damage': said, 'segment': segment, 'file': file, 'field': field, 'term': term, 'bytes': [int(start), int(end)] if start else None, 'document': document and int(document)}
        else:
            raise Failed(f'check: {line!r} is no row')
        row['segment'] = row['segment'] and int(row['segment'])
        wanted.append({key: value for key, value in row.items() if value is not None})
    numbers = re.fullmatch(r'(\d+) terms, (\d+) postings, (\d+) positions', walked)
    files = re.fullmatch(r'(\d+) documents; (?:each file is as it was saved|(\d+) of (\d+) files are not as they were saved)', documents)
    end = {'documents': int(files.group(1)), 'files': int(files.group(3) or rows[-1]['files']), 'changed_files': int(files.group(2) or 0),
           **dict(zip(('terms', 'postings', 'positions'), map(int, numbers.groups()))), 'damages': int(count.split()[0])}
    if rows != wanted + [end]:
        raise Failed(f'check --json: {rows}; wanted {wanted + [end]}')
    return rows


def damages(user, chosen):
    """Changes, cuts and removes each file of an index: `check --json` must tell what `check` tells."""
    kinds = set()
    for version in (3, 1):
        if version == 1:
            shutil.rmtree(user.path('small'))
            user.write('first.toml', SCHEMA.replace('store_source = true\n', ''))
            user.wants(['index', 'small', '--schema', 'first.toml'], 0, given=given(DOCS[0]))
            versions.to_first(user.path('small'))
        for name in sorted(os.listdir(user.path('small'))):
            if name in ('meta', 'lock') or version == 1 and name.startswith('schema'):
                continue
            with open(user.path('small', name), 'rb') as file:
                text = file.read()
            changed = [bytes(byte ^ (1 << chosen.randrange(8)) if place == at else byte for place, byte in enumerate(text)) for at in [0, len(text) - 1] + [chosen.randrange(len(text)) for _ in range(5)]]
            for bad in [*changed, text[:-1], None]:
                os.remove(user.path('small', name))
                if bad is not None:
                    with open(user.path('small', name), 'wb') as file:
                        file.write(bad)
                kinds |= {tuple(row) for row in checks_agree(user, 'small', 1)}
                with open(user.path('small', name), 'wb') as file:
                    file.write(text)
    for keys in (('damage', 'segment', 'file', 'bytes'), ('damage', 'segment', 'file'), ('damage', 'segment', 'file', 'field', 'bytes'), ('damage', 'segment', 'file', 'field', 'term', 'bytes'),
                 ('damage', 'segment', 'file', 'document'), ('damage', 'file', 'bytes'), ('damage', 'file', 'field', 'term', 'bytes')):
        if keys not in kinds:
            raise Failed(f'no damage with {keys}, but {kinds}')
    with open(user.path('small', 'schema.0'), 'ab') as file:
        file.write(b'#')
    rows = rows_of(user.wants(['check', 'small', '--json'], 1))
    if [row['damage'].split(',')[0] for row in rows] != ['the file of schema has another length than meta says', 'the lists were not looked at']:
        raise Failed(f'check of a damaged schema: {rows}')


class Reader(random_folders.Reader):
    """A folder of random lines, and a plain reading of it."""

    def __init__(self, user, fields, lines):
        super().__init__(user.program, user.room, fields, lines)
        self.user = user

    def row_of(self, number, field):
        """Returns what `fields` prints of a field."""
        setting, is_text = field.setting, field.kind in ('text', 'json')
        if setting.get('indexed') is False:
            return field_row((number, setting['name'], field.kind, False, None, None, None, None, None, 0, 0))
        norms = setting.get('fieldnorms', field.kind == 'text')
        stops = list(dict.fromkeys(word.casefold() for word in setting.get('stop_words', ()))) or None
        return field_row((number, setting['name'], field.kind, True, field.records(), norms, setting.get('expand_dots', False), setting.get('tokenizer', 'ascii') if is_text else None, stops, len(field.lists), field.tokens))

    def paths_of(self, field):
        """Returns the paths of a field, each with the type and the number of its terms, in their order."""
        found = {}
        for key in sorted(field.lists):
            path, rest = key.split(b'\0', 1)
            place = random_folders.spelled_path(path.decode()), TYPES[chr(rest[0])]
            found[place] = found.get(place, 0) + 1
        return [(field.setting['name'], *place, many) for place, many in found.items()]

    def postings_of(self, field, key, with_positions):
        """Returns the rows of a term."""
        keys = ('doc', 'freq')
        for line in field.postings(key, with_positions).splitlines():
            row = list(map(int, line.split()))
            made = dict(zip(keys, row))
            if with_positions and field.records() == 'position':
                made['positions'] = row[2:]
            yield made

    def looks(self, chosen):
        """Compares the fields, terms, postings, and the numbers of `stats` and `check`."""
        fields = rows_of(self.user.wants(['fields', 'folder', '--json'], 0))
        paths = [path for field in self.fields if field.kind == 'json' for path in self.paths_of(field)]
        if [row for row in fields if 'path' not in row] != [self.row_of(number, field) for number, field in enumerate(self.fields)]:
            raise Failed(f'fields: {fields}')
        if [(row['field'], row['path'], row['type'], row['terms']) for row in fields if 'path' in row] != paths:
            raise Failed(f'fields: {fields}; wanted {paths}')
        for field in self.fields:
            name, keys = field.setting['name'], sorted(field.lists)
            row = lambda key: {'term': field.texts[key], 'docs': len(field.lists[key])}
            self.user.wants(['terms', 'folder', '--json', '--', name], 0, told(map(row, keys)))
            top = sorted(keys, key=lambda key: -len(field.lists[key]))[:3]
            self.user.wants(['terms', 'folder', '--json', '--top', '3', '--', name], 0, told(map(row, top)))
            for key in chosen.sample(keys, min(2, len(keys))):
                for options in ([], ['--positions']):
                    self.user.wants(['postings', 'folder', '--json', *options, '--', name, field.texts[key]], 0, told(self.postings_of(field, key, bool(options))))
        self.counts()

    def counts(self):
        """Compares `stats` and `check` with what they tell as text, and their numbers with those of the lines."""
        stats = stats_agree(self.user, 'folder')
        sizes = lambda field: [len(docs).bit_length() - 1 for docs in field.lists.values()]
        for field, row in zip(self.fields, stats['fields'], strict=True):
            lists = [{'documents': 1 << size, 'lists': sizes(field).count(size)} for size in sorted(set(sizes(field)))]
            if (row['terms'], row['bytes']['keys'], row['documents_in_all_lists'], row['lists']) != (len(field.lists), sum(map(len, field.lists)), sum(map(len, field.lists.values())), lists):
                raise Failed(f'stats: {row}')
        end, = checks_agree(self.user, 'folder', 0)
        if end['documents'] != len(self.lines) or stats['documents'] != len(self.lines):
            raise Failed(f'{end} and {stats["documents"]} documents; wanted {len(self.lines)}')

    def changes(self, chosen):
        """Adds documents, deletes some, and merges the segments."""
        rows = lambda words, text, row: self.user.wants([words[0], 'folder', *words[1:]], 0, told([row]), given=text)
        cut = chosen.randint(0, len(self.lines))
        bad = chosen.randint(0, 2)
        self.user.write('schema.toml', random_folders.schema_text(self.settings))
        rows(['index', '--schema', 'schema.toml', '--skip-bad', '--json'], self.text_of(self.lines[:cut]) + b'[]\n' * bad, {'indexed': cut, 'left_out': bad})
        rows(['add', '--no-merge', '--skip-bad', '--json'], b'1\n' * bad + self.text_of(self.lines[cut:]), {'added': len(self.lines) - cut, 'left_out': bad})
        self.looks(chosen)
        for field in self.fields:
            if field.lists:
                key = chosen.choice(sorted(field.lists))
                gone = field.lists[key]
                rows(['delete', '--json', '--', field.setting['name'], field.texts[key]], b'', {'deleted': len(gone)})
                self.read([line for doc, line in enumerate(self.lines) if doc not in gone])
                break
        self.looks(chosen)
        stats, = rows_of(self.user.wants(['stats', 'folder', '--json'], 0))
        many = stats['segments'] if stats['segments'] > 1 or stats['deleted_documents'] else 0
        rows(['merge', '--json'], b'', {'merged': many, 'documents': len(self.lines)})
        self.looks(chosen)


def test(user):
    many, seed = (int(sys.argv[1]), int(sys.argv[2])) if len(sys.argv) > 2 else (20, 1)
    by_hand(user)
    damages(user, random.Random(seed))
    shutil.rmtree(user.path('small'))
    user.wants(['index', 'small', '--schema', 'schema.toml'], 0, given=given(DOCS[0]))
    user.wants(['add', 'small', '--no-merge'], 0, given=given(DOCS[1]))
    user.wants(['delete', 'small', 'body', 'gone'], 0)
    changes(user)
    kinds = set()
    for number in range(many):
        chosen = random.Random(seed * 1_000_003 + number)
        fields = random_folders.random_schema(chosen)
        kinds |= {field['type'] for field in fields if field.get('indexed') is not False}
        Reader(user, fields, [random_folders.random_line(chosen, fields) for _ in range(chosen.randint(0, 40))]).changes(chosen)
    if many >= 20 and len(kinds) < 7:
        raise Failed(f'only fields of {kinds}')
    return f'each command as JSON, of {many} random folders'


if __name__ == '__main__':
    sys.exit(users.judged(test))
