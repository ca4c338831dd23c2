"""Texts of the machine as JSON lines, and a plain reading of them."""
import glob
import json
import os
import re

TOP = os.path.dirname(os.path.dirname(os.path.dirname(os.path.abspath(__file__))))
LICENCES = '/usr/share/common-licenses'

SCHEMA = '''\
# the fields of the lines
tokenizer = "ascii"

[[field]]
name = "title"
type = "text"
record = "freq"

[[field]]
name = "body"
type = "text"

[[field]]
name = "number"
type = "u64"

[[field]]
name = "change"
type = "i64"

[[field]]
name = "is_long"
type = "bool"

[[field]]
name = "mark"
type = "bytes"

[[field]]
name = "address"
type = "ip_addr"

[[field]]
name = "about"
type = "json"

[[field]]
name = "note"
type = "text"
indexed = false
'''


def words_of(text):
    """Returns the words of a text: runs of ASCII letters, ASCII digits and non-ASCII characters."""
    return re.findall(r'[A-Za-z0-9\u0080-\U0010ffff]+', text)


def small_texts():
    """Returns the paths of the machine's licences, or of the repository's documents if there are none."""
    found = sorted(path for path in glob.glob(os.path.join(LICENCES, '*')) if not os.path.islink(path))
    return found or sorted(glob.glob(os.path.join(TOP, 'docs', '*.md')))


def large_texts():
    """Returns the small texts and the sources and documents of the kit."""
    kit = os.path.join(os.path.dirname(os.popen('rt doc').read().strip()), 'rattle')
    found = []
    for folder, folders, names in os.walk(kit):
        folders.sort()
        found += [os.path.join(folder, name) for name in sorted(names) if name.endswith(('.md', '.rt', '.antt'))]
    return small_texts() + found


def paragraphs(paths):
    """Yields each paragraph of some files with the file's name."""
    for path in paths:
        with open(path, encoding='utf-8', errors='replace') as text:
            for place, paragraph in enumerate(re.split(r'\n\s*\n', text.read())):
                if paragraph.strip():
                    yield os.path.basename(path), place, paragraph.strip()


def document(number, title, place, paragraph):
    """Returns a document for a paragraph, with a value of each type."""
    words = words_of(paragraph)
    return {
        'title': title,
        'body': paragraph if number % 3 else [paragraph, title, paragraph[:40]],
        'number': len(words),
        'change': place - 10,
        'is_long': len(words) > 50,
        'mark': paragraph.encode()[:3].hex(),
        'address': f'10.0.{number % 7}.{place % 5}' if number % 2 else f'2001:db8::{number % 9:x}',
        'about': {'file': {'name': title, 'place': place}, 'words': words[:3], 'none': None, 'odd.key': number % 2 == 1},
        'note': {'not': 'indexed', 'as': [1.5]},
    }


def documents(paths, limit=None):
    """Yields the documents of some files, up to `limit` bytes of JSON."""
    size = 0
    for number, (title, place, paragraph) in enumerate(paragraphs(paths)):
        made = document(number, title, place, paragraph)
        size += len(json.dumps(made))
        if limit is not None and size > limit:
            return
        yield made


def positions_of(value):
    """Returns the words of one or several texts with their positions. There is a gap of one position between
    two texts."""
    found, begin = [], 0
    for text in value if isinstance(value, list) else [value]:
        words = words_of(text)
        found += [(word, begin + place) for place, word in enumerate(words)]
        begin += len(words) + 1
    return found


def lists_of(docs, field):
    """Returns for each word of a text field its documents with its positions."""
    lists = {}
    for number, doc in enumerate(docs):
        for word, position in positions_of(doc[field]):
            lists.setdefault(word, {}).setdefault(number, []).append(position)
    return lists
