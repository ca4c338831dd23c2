#!/usr/bin/env python3
"""Indexes the texts of Unicode's test of word breaks (tests/unicode/WordBreakTest.txt), each as a document. The words of the
tokenizer `default` must be the parts that the test gives: those with a letter or a digit, cut again at the marks inside
them, in folded case."""
import json
import os
import re
import sys

sys.dont_write_bytecode = True
HERE = os.path.dirname(os.path.abspath(__file__))
sys.path.insert(0, HERE)
import users

CASES = os.path.join(os.path.dirname(HERE), 'unicode', 'WordBreakTest.txt')
# The characters of the test with the properties Double_Quote, Single_Quote, MidNum, MidNumLet and MidLetter.
MARKS = '["\',.:]'
# The test is that of Unicode 15. In the version that the tokenizer follows this character is no pictograph.
CHANGED = '\u2701'
SCHEMA = '[[field]]\nname = "body"\ntype = "text"\ntokenizer = "default"\n'


def cases():
    """Yields the parts of each text of the test, without the texts that have another meaning now."""
    with open(CASES, encoding='utf-8') as lines:
        for line in lines:
            if not line.startswith('#') and f'{ord(CHANGED):04X}' not in line.split():
                yield [''.join(chr(int(code, 16)) for code in part.split() if code != '\u00d7') for part in line.strip().strip('\u00f7').split('\u00f7')]


def words_of(parts):
    """Returns the words of a text, given its parts."""
    return [word.casefold() for part in parts if any(char.isalnum() for char in part) for word in re.split(MARKS, part) if word]


def word_breaks(user):
    """Compares the words of each text with those of the test. Returns what was seen."""
    texts, wanted = list(cases()), {}
    user.write('schema.toml', SCHEMA)
    given = ''.join(json.dumps({'body': ''.join(parts)}) + '\n' for parts in texts).encode()
    user.wants(['index', 'folder', '--schema', 'schema.toml'], 0, f'{len(texts)} documents indexed\n', given=given)
    for doc, parts in enumerate(texts):
        for position, word in enumerate(words_of(parts)):
            wanted.setdefault(word, {}).setdefault(doc, []).append(position)
    user.wants(['terms', 'folder', 'body'], 0, ''.join(f'{len(wanted[word])} {word}\n' for word in sorted(wanted, key=lambda word: word.encode())))
    for word, docs in wanted.items():
        rows = ''.join(f'{doc} {len(places)} {" ".join(map(str, places))}\n' for doc, places in sorted(docs.items()))
        user.wants(['postings', 'folder', '--positions', '--', 'body', word], 0, rows)
    words = sum(len(places) for docs in wanted.values() for places in docs.values())
    return f"{len(texts)} texts of Unicode's test of word breaks have {words} words"


sys.exit(users.judged(word_breaks))
