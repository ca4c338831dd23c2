#!/usr/bin/env python3
"""Compares the best documents that `nequllpa search --top` prints of real text with BM25 in floating-point numbers: the same
documents in the same order, but for those whose scores differ by less than a part of 1,000,000, and each score as it is, to four
decimals."""
import collections
import json
import math
import os
import random
import re
import sys

sys.dont_write_bytecode = True
import texts
import users
from ranking_meaning import NORMS, id_of_norm
from users import Failed

SEED = 20261130
SCHEMA = '[[field]]\nname = "body"\ntype = "text"\ntokenizer = "whitespace"\n'
TOP = 10
# How many words a query has, and how many queries have as many.
SIZES = {1: 60, 2: 60, 3: 60, 5: 60, 8: 60}
K1, B = 1.2, 0.75
CLOSE = 1e-6
# Words that mean something in a query.
OPERATORS = {'and', 'in', 'not', 'or', 'to'}


def paragraphs():
    """Returns the words of each paragraph of the repository's pages and of the machine's licences."""
    pages = [os.path.join(texts.TOP, 'README.md'), *(os.path.join(texts.TOP, 'docs', name) for name in sorted(os.listdir(os.path.join(texts.TOP, 'docs')))), *texts.small_texts()]
    found = []
    for page in dict.fromkeys(pages):
        with open(page, encoding='utf-8', errors='replace') as file:
            found += (re.findall('[a-z]+', part.lower()) for part in re.split(r'\n\s*\n|\n(?=[|#])', file.read()))
    return [words for words in found if words]


class Floats:
    """BM25 of some texts in floating-point numbers."""

    def __init__(self, docs):
        self.counts = [collections.Counter(words) for words in docs]
        self.norms = [NORMS[id_of_norm(len(words))] for words in docs]
        self.average = sum(map(len, docs)) / len(docs)
        self.docs_of = collections.defaultdict(set)
        for doc, words in enumerate(docs):
            for word in words:
                self.docs_of[word].add(doc)

    def score(self, words, doc):
        """Returns the score of a document by a union of words."""
        total = 0.0
        for word in words:
            count = self.counts[doc][word]
            doc_freq = len(self.docs_of[word])
            idf = math.log(1 + (len(self.counts) - doc_freq + 0.5) / (doc_freq + 0.5))
            total += idf * (K1 + 1) * count / (count + K1 * (1 - B + B * self.norms[doc] / self.average))
        return total

    def best(self, words):
        """Returns the best documents with their scores, the best first."""
        scored = ((self.score(words, doc), doc) for doc in set().union(*(self.docs_of[word] for word in words)))
        return sorted(scored, key=lambda found: (-found[0], found[1]))[:TOP]


def compared(words, printed, floats):
    """Compares the printed documents of a query with those of floating-point numbers. Returns how many stand in another place."""
    best = floats.best(words)
    if len(printed) != len(best):
        raise Failed(f'{words}: {len(printed)} documents; wanted {len(best)}')
    moved = 0
    for place, (own, (score, doc)) in enumerate(zip(printed, best)):
        given = floats.score(words, own['doc'])
        if abs(given - score) > CLOSE * score:
            raise Failed(f'{words}: document {own["doc"]} of {given} at place {place}; wanted {doc} of {score}')
        if abs(own['score'] - given) > 0.00005 + CLOSE * given:
            raise Failed(f'{words}: document {own["doc"]} scores {own["score"]}; wanted {given}')
        moved += own['doc'] != doc
    return moved


def test(user):
    docs = paragraphs()
    floats = Floats(docs)
    user.write('schema.toml', SCHEMA)
    lines = ''.join(json.dumps({'body': ' '.join(words)}) + '\n' for words in docs)
    user.wants(['index', 'pages', '--schema', 'schema.toml'], 0, f'{len(docs)} documents indexed\n', given=lines.encode())
    chosen = random.Random(SEED)
    long = [words for words in (sorted(set(words) - OPERATORS) for words in docs) if len(words) >= max(SIZES)]
    asked = [chosen.sample(chosen.choice(long), size) for size, count in SIZES.items() for _ in range(count)]
    answers = user.wants(['search', 'pages', '--batch', '--field', 'body', '--top', TOP], 0, given=''.join(' OR '.join(words) + '\n' for words in asked).encode()).decode().splitlines()
    if len(answers) != len(asked):
        raise Failed(f'{len(answers)} answers; wanted {len(asked)}')
    moved = sum(compared(words, json.loads(answer)['docs'], floats) for words, answer in zip(asked, answers))
    return f'{len(asked)} queries of {len(docs)} paragraphs, {sum(map(len, docs))} words, ranked as by floating-point numbers; {moved} documents of about the same score in another place'


if __name__ == '__main__':
    sys.exit(users.judged(test))
