#!/usr/bin/env python3
"""Compares `search --snippet` with a plain reading: which texts of a stored line are shown for a query, which of their
words, and which of these are marked. In random folders with text fields of every tokenizer and fields of every other
type, with several texts at one field, words of several bytes a character, marks on letters and words from right to left,
as a line of text, in bold, as JSON, and with scores."""
import html
import json
import os
import pty
import random
import re
import shutil
import subprocess
import sys
import unicodedata

sys.dont_write_bytecode = True
HERE = os.path.dirname(os.path.abspath(__file__))
sys.path.insert(0, HERE)
import analyzers
import porter
import users
from users import Failed

SEED = 20261129
FOLDERS = 200
QUERIES = 3
SHOWN = 30
WORDS = ['sea', 'Sea', 'SEARCH', 'old', 'man', 'boat', 'line', 'fish', 'na\u00efve', 'Stra\u00dfe', 'STRASSE', '\u8001\u4eba', '\u0431\u0435\u0440\u0435\u0433',
         'e\u0301t\u00e9', '\u05e9\u05dc\u05d5\u05dd', '\u0628\u062d\u0631', '\u0628\u0650\u062d\u0631', 'x1', '42', '\U00010428ab', 'x' * 41,
         'sail', 'sailing', 'Boats', 'fishing', 'lines']
# The words of queries: without one that is too long.
ASKED = [word for word in WORDS if len(word) < analyzers.LIMIT]
# What is between words, and words of no tokenizer.
BETWEEN = [' ', ' ', ' ', '  ', ', ', '. ', '\n', '\t', ' & ', ' <i> ', ' "', "' ", '\u2026', '\x07', '\x1b[1m ', '\x85', '\u2028', ' \U0001f41f ', '-', '\u2014']
OTHERS = {'count': 'u64', 'shift': 'i64', 'flag': 'bool', 'raw': 'bytes', 'host': 'ip_addr', 'tree': 'json'}
VALUES = {'u64': [0, 7, 2 ** 64 - 1], 'i64': [-1, 0, 7], 'bool': [True, False], 'bytes': ['00ff', 'dead'], 'ip_addr': ['::1', '127.0.0.1'],
          'json': [{'sea': 'the old sea'}, 'sea', [1, 'old'], {'a': {'b': True}}]}


def tokens(tokenizer, text):
    """Returns the words of a text: where each begins and ends in it, and as the index keeps it."""
    if tokenizer == 'raw':
        return [(0, len(text), text)] if text else []
    if tokenizer == 'ascii':
        return [(found.start(), found.end(), found[0]) for found in re.finditer(r'[A-Za-z0-9\u0080-\U0010ffff]+', text)]
    if tokenizer == 'whitespace':
        return [(found.start(), found.end(), found[0]) for found in re.finditer(f'[^{analyzers.SPACES}]+', text)]
    found, at = [], 0
    for word in analyzers.unicode_words(text):
        at = text.index(word, at)
        found.append((at, at + len(word), word.casefold()))
        at += len(word)
    found = [token for token in found if len(token[2].encode()) < analyzers.LIMIT]
    return [(start, end, porter.stem(word)) for start, end, word in found] if tokenizer == 'en' else found


def shown(rows):
    """Returns which of the tokens of a text are shown, given for each the wanted word that it is, or None; nothing if none
    is wanted. Of the runs of so many tokens that begin with a wanted word the best one has the most different wanted
    words, then the most, then it is the first; its part up to the last wanted word is in the middle of what is shown."""
    best = None
    for start, place in enumerate(rows):
        if place is None:
            continue
        found = [place for place in rows[start:start + SHOWN] if place is not None]
        weight = (len(set(found)), len(found))
        if best is None or weight > best[0]:
            best = (weight, start)
    if best is None:
        return None
    start = best[1]
    run = rows[start:start + SHOWN]
    span = max(place for place, word in enumerate(run) if word is not None) + 1
    start = min(max(start - (SHOWN - span) // 2, 0), max(len(rows) - SHOWN, 0))
    return range(start, min(start + SHOWN, len(rows)))


def printable(text):
    """Returns a text as a line may show it."""
    return ''.join('\ufffd' if unicodedata.category(char) == 'Cc' else char for char in text)


# How a text and a wanted word in it are written.
STYLES = {'html': (html.escape, '<b>', '</b>'), 'bold': (printable, '\x1b[1m', '\x1b[0m'), 'plain': (printable, '', '')}


def snippet_of(tokenizer, text, wanted, style):
    """Returns the snippet of a text, given tests of its words in the order of the query, or None if no word is wanted."""
    spans = tokens(tokenizer, text)
    rows = [next((place for place, is_wanted in enumerate(wanted) if is_wanted(word)), None) for _, _, word in spans]
    places = shown(rows)
    if places is None:
        return None
    write, opening, closing = STYLES[style]
    at, out = spans[places[0]][0], ''
    for place in places:
        if rows[place] is not None:
            out += write(text[at:spans[place][0]]) + opening + write(text[spans[place][0]:spans[place][1]]) + closing
            at = spans[place][1]
    return out + write(text[at:spans[places[-1]][1]])


def snippet_of_line(fields, members, wanted, style):
    """Returns what is shown of a line with these members: the snippets of its texts, field after field."""
    found = []
    for name, tokenizer in fields.items():
        value = members.get(name)
        for text in value if isinstance(value, list) else [value]:
            if isinstance(text, str) and wanted.get(name):
                found.append(snippet_of(tokenizer, text, wanted[name], style))
    return ' \u2026 '.join(snippet for snippet in found if snippet is not None)


def random_text(chosen):
    """Returns a text of up to 90 words."""
    words = chosen.choices(WORDS, k=chosen.choice([0, 1, 3, 8, 20, 45, 90]))
    if chosen.randrange(2):
        # few of them are ones that a query has
        words = [word if chosen.randrange(4) == 0 else chosen.choice(['the', 'and', 'of', '\u0438']) for word in words]
    return ''.join(chosen.choice(['', ' ', '"']) + word + chosen.choice(BETWEEN) for word in words)


def random_members(chosen, line_id, fields):
    """Returns the members of a line: a key may come twice, and the last value counts."""
    pairs = [('id', line_id)]
    for name in chosen.sample([*fields, *OTHERS], chosen.randrange(1, len(fields) + len(OTHERS) + 1)):
        for _ in range(chosen.choice([1, 1, 1, 2])):
            if name in fields:
                value = chosen.choice([random_text(chosen), random_text(chosen), None, [random_text(chosen) for _ in range(chosen.randrange(4))]])
            else:
                value = chosen.choice(VALUES[OTHERS[name]])
            pairs.append((name, value))
    chosen.shuffle(pairs)
    return pairs


def written(chosen, pairs):
    """Returns a line of these members."""
    return '{' + ','.join(json.dumps(key) + ':' + json.dumps(value, ensure_ascii=chosen.randrange(2) == 0) for key, value in pairs) + '}'


def keys_of(tokenizer, text):
    """Returns the words of a text of a query."""
    return [word for _, _, word in tokens(tokenizer, text)]


def is_key(key):
    return lambda word: word == key


def begins(key):
    return lambda word: word.startswith(key)


def starred_tests(tokenizer, text):
    """Returns the tests of a text of a query whose last word is a prefix, which isn't stemmed."""
    last = tokens('default' if tokenizer == 'en' else tokenizer, text)[-1]
    return [is_key(word) for start, _, word in tokens(tokenizer, text) if start < last[0]] + [begins(last[2])]


def is_between(lower, upper):
    """Returns a test of words from one up to another one, by their bytes; either may be None."""
    return lambda word: (lower is None or lower.encode() <= word.encode()) and (upper is None or word.encode() < upper.encode())


def random_part(chosen, fields, default):
    """Returns a part of a query, and for each field the tests of its words, in order."""
    kind = chosen.choice(['word', 'word', 'word', 'phrase', 'prefix', 'starred', 'range', 'number', 'path'])
    if kind == 'number':
        return 'count:>=7', {}
    if kind == 'path':
        return 'tree.sea:old', {}
    names = [chosen.choice(default)] if kind == 'range' or chosen.randrange(3) == 0 else default
    before = names[0] + ':' if len(names) == 1 and names != default else ''
    if kind == 'range':
        lower, upper = sorted(chosen.sample(['fish', 'line', 'old', 'sea', 'x1'], 2))
        return f'{names[0]}:[{lower} TO {upper}}}', {names[0]: [is_between(lower, upper)]}
    if kind == 'prefix':
        word = chosen.choice(['se', 'o', 'Se', 'stra', 'na\u00ef', '\u05e9\u05dc'])
        return f'{before}{word}*', {name: [begins(key) for key in keys_of(fields[name], word)] for name in names}
    if kind == 'starred':
        first, last = chosen.choice(ASKED), chosen.choice(['se', 'o', 'Se', 'stra', 'na\u00ef', '\u05e9\u05dc'])
        return f'{before}"{first} {last}"*', {name: starred_tests(fields[name], f'{first} {last}') for name in names}
    if kind == 'phrase':
        text = ' '.join(chosen.choices(ASKED, k=2))
        keys = {name: keys_of(fields[name], text) for name in names}
        slop = chosen.choice(['', '~2', '~9']) if all(len(set(some)) == len(some) for some in keys.values()) else ''
        return f'{before}"{text}"{slop}', {name: [is_key(key) for key in some] for name, some in keys.items()}
    word = chosen.choice(ASKED)
    return before + word, {name: [is_key(key) for key in keys_of(fields[name], word)] for name in names}


def random_query(chosen, fields, default):
    """Returns a query, and for each field the tests of the words that it wants, in order: those of an excluded part aren't."""
    text, wanted = '', {name: [] for name in fields}
    for place in range(chosen.randrange(1, 4)):
        part, tests = random_part(chosen, fields, default)
        text += (chosen.choice([' OR ', ' OR ', ' AND ']) if place else '') + part
        for name, some in tests.items():
            wanted[name] += some
    if chosen.randrange(3) == 0:
        text = f'({text}) AND NOT {random_part(chosen, fields, default)[0]}'
    return text, wanted


def look(user, folder, fields, lines, query, wanted):
    """Compares what is printed for a query with a plain reading of the lines that it finds."""
    search = ['search', folder, query]
    numbers = [int(row) for row in user.run(*search).stdout.split()]
    status = 0 if numbers else 1
    rows = {style: [snippet_of_line(fields, lines[number], wanted, style) for number in numbers] for style in STYLES}

    def as_lines(style):
        return ''.join(f'{number}\t{row}\n' for number, row in zip(numbers, rows[style])).encode()

    user.wants([*search, '--snippet'], status, as_lines('plain'))
    user.wants([*search, '--snippet', '--color', 'always'], status, as_lines('bold'))
    quoted = [json.dumps(row, ensure_ascii=False) for row in rows['html']]
    user.wants([*search, '--snippet', '--json'], status, ''.join(f'{{"doc":{number},"snippet":{row}}}\n' for number, row in zip(numbers, quoted)).encode())
    best = user.run(*search, '--top', '4').stdout.decode().splitlines()
    user.wants([*search, '--top', '4', '--snippet'], status, ''.join(row + '\t' + rows['plain'][numbers.index(int(row.split('\t')[0]))] + '\n' for row in best).encode())
    best = user.run(*search, '--top', '4', '--json').stdout.decode().splitlines()
    best = [row[:-1] + ',"snippet":' + quoted[numbers.index(json.loads(row)['doc'])] + '}\n' for row in best]
    user.wants([*search, '--top', '4', '--snippet', '--json'], status, ''.join(best).encode())
    return sum(row != '' for row in rows['plain'])


def random_folders(user):
    """In random folders, compares the snippets of random queries. Returns how many of them aren't empty."""
    chosen, num_shown = random.Random(SEED), 0
    for _ in range(FOLDERS):
        names = ['body', 'title', 'tag', 'note'][:chosen.randrange(1, 5)]
        fields = {name: chosen.choice(['default', 'default', 'raw', 'whitespace', 'ascii', 'en', 'en']) for name in names}
        default = [name for name in names if name == 'body' or chosen.randrange(4)]
        tables = ''.join(f'[[field]]\nname = "{name}"\ntype = "text"\n' + (f'tokenizer = "{fields[name]}"\n' if name in default else 'indexed = false\n') for name in names)
        tables += ''.join(f'[[field]]\nname = "{name}"\ntype = "{kind}"\n' for name, kind in {'id': 'u64', **OTHERS}.items())
        user.write('schema.toml', 'store_source = true\n' + tables)
        shutil.rmtree(user.path('small'), ignore_errors=True)
        lines = []
        for turn in range(chosen.randrange(1, 4)):
            more = [random_members(chosen, 100 * turn + number, fields) for number in range(chosen.randrange(1, 9))]
            words = ['index', 'small', '--schema', 'schema.toml'] if turn == 0 else ['add', 'small', *chosen.choice([[], ['--no-merge']])]
            user.wants(words, 0, given='\n'.join(written(chosen, pairs) for pairs in more).encode())
            lines += [dict(pairs) for pairs in more]
        if chosen.randrange(3) == 0:
            user.wants(['delete', 'small', 'id', lines[0]['id']], 0)
            del lines[0]
        for _ in range(QUERIES):
            num_shown += look(user, 'small', fields, lines, *random_query(chosen, fields, default))
    return num_shown


def on_terminal(user, *words):
    """Returns what the program prints on a terminal."""
    ours, theirs = pty.openpty()
    child = subprocess.Popen([user.program, *words], stdout=theirs, stderr=subprocess.PIPE, cwd=user.room)
    child.wait(timeout=110)
    child.stderr.close()
    os.close(theirs)
    out = b''
    try:
        while more := os.read(ours, 4096):
            out += more
    except OSError:
        pass
    os.close(ours)
    return out.replace(b'\r\n', b'\n')


def options_are_read(user):
    """A terminal gets words in bold, unless they aren't wanted; options that don't go together are refused."""
    user.write('sea.toml', 'store_source = true\n[[field]]\nname = "body"\ntype = "text"\n[[field]]\nname = "year"\ntype = "u64"\n')
    user.wants(['index', 'sea', '--schema', 'sea.toml'], 0, given=b'{"body":"the old sea"}\n{"body":"A sea","year":7}\n{"year":7}\n')
    search = ['search', 'sea', 'sea OR year:7', '--snippet']
    plain, bold = b'0\tthe old sea\n1\tA sea\n2\t\n', b'0\tthe old \x1b[1msea\x1b[0m\n1\tA \x1b[1msea\x1b[0m\n2\t\n'
    for words, wanted in (([], bold), (['--color', 'auto'], bold), (['--color', 'always'], bold), (['--color', 'never'], plain)):
        if on_terminal(user, *search, *words) != wanted:
            raise Failed(f'{words} on a terminal: {on_terminal(user, *search, *words)!r}')
    for words, wanted in (([], plain), (['--color', 'auto'], plain), (['--color', 'always'], bold), (['--color', 'never'], plain), (['--limit', '1'], plain[:14])):
        user.wants([*search, *words], 0, wanted)
    user.wants([*search, '--json', '--color', 'always'], 0, b'{"doc":0,"snippet":"the old <b>sea</b>"}\n{"doc":1,"snippet":"A <b>sea</b>"}\n{"doc":2,"snippet":""}\n')
    user.wants([*search, '--color', 'sometimes'], 2, b'', '--color is always, never or auto')
    for option in ('--count', '--positions', '--ids'):
        user.wants([*search, option], 2, b'', '--snippet stands without --count, --positions and --ids')
    user.wants([*search, '--source'], 2, b'', '--source stands without --snippet')
    user.wants([*search, '--fields', 'body'], 2, b'', '--fields stands without --snippet')
    user.wants(['search', 'sea', 'bird', '--snippet'], 1, b'')
    user.write('unstored.toml', '[[field]]\nname = "body"\ntype = "text"\n')
    user.wants(['index', 'unstored', '--schema', 'unstored.toml'], 0, given=b'{"body":"sea"}\n')
    user.wants(['search', 'unstored', 'sea', '--snippet'], 2, b'', 'the lines of this index are not stored')


def large_texts(user):
    """A text of 20,000 words, 300 texts at one field, and a query of 300 words."""
    user.write('large.toml', 'store_source = true\n[[field]]\nname = "body"\ntype = "text"\n')
    lines = [{'body': 'the ' * 20000 + 'sea'}, {'body': ['the sea'] * 300}, {'body': 'sea ' * 300 + 'w7 w8'}]
    user.wants(['index', 'large', '--schema', 'large.toml'], 0, given='\n'.join(map(json.dumps, lines)).encode())
    words = ['sea', *(f'w{number}' for number in range(299))]
    wanted = {'body': [is_key(word) for word in words]}
    rows = [snippet_of_line({'body': 'default'}, line, wanted, 'plain') for line in lines]
    user.wants(['search', 'large', ' OR '.join(words), '--snippet'], 0, ''.join(f'{number}\t{row}\n' for number, row in enumerate(rows)).encode())


def shown_snippets(user):
    """Goes through all of it. Returns what was seen."""
    options_are_read(user)
    large_texts(user)
    return f'{random_folders(user)} snippets are as expected, in {FOLDERS} folders'


sys.exit(users.judged(shown_snippets))
