#!/usr/bin/env python3
"""Asks the program 10,000 random queries over random texts, numbers and JSON values. Each answer must be that
of a plain filter over all documents, as docs/PROGRAM.md defines it. `program.py N SEED` asks N others."""
import os
import random
import re
import subprocess
import sys

sys.dont_write_bytecode = True
TOP = os.path.dirname(os.path.dirname(os.path.dirname(os.path.abspath(__file__))))
sys.path.insert(0, os.path.join(TOP, 'tools'))
import programs

# the number of queries for each index
ASKED = 500
WORDS = ('a', 'b', 'c', 'the', 'sea', 'Sea', '7', '007', 'é1', 'x9')
PATHS = ('k', 'k.l', 'deep.er.path')
BETWEEN = (' ', '  ', ', ', '. ', '-', '! ')


def words(text):
    """Returns the words of a text."""
    return re.findall('[A-Za-z0-9\u0080-\U0010ffff]+', text)


def spelled(chosen, draw):
    """Returns a text of these words."""
    text = ''
    for i, word in enumerate(chosen):
        text += (draw.choice(BETWEEN) if i else '') + word
    return text


class Index:
    """The lines of an index, and for each document the words of its texts and its numbers at each place."""

    def __init__(self, draw):
        self.lines, self.texts, self.numbers = [], {}, {}
        self.docs = []
        doc = draw.randrange(3)
        for _ in range(draw.randrange(1, 60)):
            self.docs.append(doc)
            for _ in range(draw.randrange(4)):
                self.add(doc, draw)
            doc += 1 if draw.random() < 0.8 else draw.randrange(1, 200)

    def add(self, doc, draw):
        """Adds one line for a document."""
        kind = draw.random()
        if kind < 0.6:
            most = 300 if draw.random() < 0.03 else 12
            chosen = draw.choices(WORDS, k=draw.randrange(most))
            self.lines.append(f'text {doc} {spelled(chosen, draw)}')
            self.texts.setdefault('text', {}).setdefault(doc, []).append(chosen)
        elif kind < 0.75:
            number = draw.randrange(10)
            self.lines.append(f'num {doc} {number}')
            self.numbers.setdefault('num', {}).setdefault(doc, set()).add(number)
        elif kind < 0.9:
            path, chosen = draw.choice(PATHS), draw.choices(WORDS, k=draw.randrange(1, 4))
            self.lines.append(f'leaf {doc} {path} s {"-".join(chosen)}')
            self.texts.setdefault(path, {}).setdefault(doc, []).append(chosen)
        else:
            path, number = draw.choice(PATHS), draw.randrange(10)
            self.lines.append(f'leaf {doc} {path} i {number}')
            self.numbers.setdefault(path, {}).setdefault(doc, set()).add(number)

    def with_phrase(self, place, phrase):
        """Returns the documents with a text at a place in which these words follow one another."""
        return {doc for doc, texts in self.texts.get(place, {}).items()
                if any(text[i:i + len(phrase)] == phrase for text in texts for i in range(len(text)))}

    def with_phrase_within(self, place, phrase, slop):
        """Returns the documents in whose texts at a place each of these words has a position, such that these positions, each less
        its place in the phrase, differ by at most the slop. One position is left between two texts."""
        found = set()
        for doc, texts in self.texts.get(place, {}).items():
            row = [word for text in texts for word in (*text, None)]
            moved = [[at - i for at, other in enumerate(row) if other == word] for i, word in enumerate(phrase)]
            starts = {position - back for position in moved[0] for back in range(slop + 1)}
            if any(all(any(start <= position <= start + slop for position in positions) for positions in moved) for start in starts):
                found.add(doc)
        return found

    def with_prefix(self, place, start):
        """Returns the documents with a text at a place in which a word starts like this."""
        return {doc for doc, texts in self.texts.get(place, {}).items() if any(word.startswith(start) for text in texts for word in text)}

    def with_phrase_start(self, place, phrase):
        """Returns the documents with a text at a place in which these words follow one another, of the last one its start."""
        *first, last = phrase
        return {doc for doc, texts in self.texts.get(place, {}).items()
                if any(text[i:i + len(first)] == first and text[i + len(first)].startswith(last) for text in texts for i in range(len(text) - len(first)))}

    def all_docs(self):
        """Returns all documents: those below the last one that a line has, and that one."""
        return set(range(1 + max((int(line.split()[1]) for line in self.lines), default=-1)))

    def with_number(self, place, number):
        """Returns the documents with a number at a place."""
        return {doc for doc, numbers in self.numbers.get(place, {}).items() if number in numbers}


    def with_word_of(self, place, holds):
        """Returns the documents with a text at a place that has a word of which this holds."""
        return {doc for doc, texts in self.texts.get(place, {}).items() if any(holds(word.encode()) for text in texts for word in text)}

    def with_number_of(self, place, holds):
        """Returns the documents with a number at a place of which this holds."""
        return {doc for doc, numbers in self.numbers.get(place, {}).items() if any(map(holds, numbers))}


def between(index, draw):
    """Returns a range of words or of numbers, and the documents that have one of them."""
    place = draw.choice(('text', 'num') + PATHS)
    are_numbers = place == 'num' or place in PATHS and draw.random() < 0.5
    low, high = (str(draw.randrange(11)) if are_numbers else draw.choice(WORDS) for _ in range(2))
    form = draw.choice(('*', '>', '>=', '<', '<=', '[]', '[}', '{]', '{}', '[*', '*}'))
    least = None if form in ('*', '<', '<=', '*}') else low
    most = None if form in ('*', '>', '>=', '[*') else high
    given = [bound for bound in (least, most) if bound is not None]
    # at a path, bounds that are all numbers are between numbers
    read = int if place == 'num' or place in PATHS and all(map(str.isdecimal, given)) else str.encode

    def holds(value):
        if least is not None and (value < read(least) or value == read(least) and form in ('>', '{]', '{}')):
            return False
        return most is None or value < read(most) or value == read(most) and form in ('<=', '[]', '{]')

    low, high = (bound if draw.random() < 0.8 else f'"{bound}"' for bound in (low, high))
    written = {
        '*': '*', '[*': f'[{low} TO *]', '*}': f'[* TO {high}}}', '>': f'>{low}', '>=': f'>={low}', '<': f'<{high}', '<=': f'<={high}',
    }.get(form) or f'{form[0]}{low} TO {high}{form[1]}'
    found = set()
    if read is int or not given:
        found |= index.with_number_of(place, holds)
    if read is not int or not given:
        found |= index.with_word_of(place, holds)
    return f'{place if place in ("text", "num") else "leaf." + place}:{written}', found


def among(index, draw):
    """Returns a set of numbers, words and phrases, and the documents that have one of them."""
    place, written, found = draw.choice(('text', 'num') + PATHS), [], set()
    for _ in range(draw.choice((0, 1, 2, 2, 3, 3, 20))):
        chosen = [str(draw.randrange(11))] if place == 'num' else draw.choices(WORDS, k=draw.choice((1, 1, 1, 2)))
        written.append(chosen[0] if len(chosen) == 1 and draw.random() < 0.7 else f'"{spelled(chosen, draw)}"')
        found |= index.with_phrase(place, chosen)
        if len(chosen) == 1 and chosen[0].isdecimal():
            found |= index.with_number(place, int(chosen[0]))
    space = draw.choice((' ', '', '  '))
    return f'{place if place in ("text", "num") else "leaf." + place}:IN{space}[{space}{" ".join(written)}]', found


def literal(index, draw):
    """Returns a word, a phrase, a prefix, a range, a set, a number or all documents, and the documents that have it."""
    form = draw.random()
    if form < 0.2:
        return between(index, draw)
    if form < 0.3:
        return among(index, draw)
    if form < 0.35:
        return '*', index.all_docs()
    place = draw.choice(('', 'text', 'text', 'num') + PATHS)
    if place == 'num':
        number = draw.randrange(11)
        return f'num:{number}', index.with_number('num', number)
    chosen = draw.choices(WORDS, k=draw.choice((1, 1, 1, 2, 2, 3, 5)))
    is_prefix = len(chosen) == 1 and draw.random() < 0.3
    if is_prefix:
        chosen = [chosen[0][:draw.randrange(1, len(chosen[0]) + 1)]]
        written = chosen[0] + '*'
    elif len(chosen) == 1 and draw.random() < 0.8:
        written = chosen[0]
    else:
        written = f'"{spelled(chosen, draw)}"'
    is_starred = written[0] == '"' and draw.random() < 0.3
    if is_starred:
        chosen[-1] = chosen[-1][:draw.randrange(1, len(chosen[-1]) + 1)]
        written = f'"{spelled(chosen, draw)}"*'
    slop = draw.choice((0, 1, 2, 3, 7)) if written[0] == '"' and not is_starred and len(set(chosen)) == len(chosen) and draw.random() < 0.4 else None
    if slop is not None:
        written += f'~{slop}'
    prefix = {'': '', 'text': 'text:'}.get(place, f'leaf.{place}:')
    if is_prefix:
        found = index.with_prefix(place or 'text', chosen[0])
    elif is_starred:
        found = index.with_phrase_start(place or 'text', chosen)
    else:
        found = index.with_phrase_within(place or 'text', chosen, slop) if slop else index.with_phrase(place or 'text', chosen)
    if place in PATHS and len(chosen) == 1 and chosen[0].isdecimal():
        found = found | index.with_number(place, int(chosen[0]))
    return prefix + written, found


def query(index, draw, depth):
    """Returns a query, as written between parentheses, and the documents that match it."""
    form = draw.random()
    if depth == 0 or form < 0.25:
        return literal(index, draw)
    if form < 0.5:
        return all_of(index, draw, depth)
    parts = [all_of(index, draw, depth) if draw.random() < 0.4 else part(index, draw, depth) for _ in range(draw.randrange(2, 4))]
    found = set().union(*(docs for _, docs in parts))
    if form < 0.8:
        return draw.choice((' OR ', ' ')).join(text for text, _ in parts), found
    # an excluded part, at any place among the others
    text, docs = part(index, draw, depth)
    texts = [text for text, _ in parts]
    texts.insert(draw.randrange(len(texts) + 1), draw.choice(('-', 'NOT ')) + text)
    return ' '.join(texts), found - docs


def part(index, draw, depth):
    """Returns a literal, or a query in parentheses."""
    text, docs = query(index, draw, depth - 1)
    return (text, docs) if re.fullmatch(r'[^ ]+|[^" ]*"[^"]*"(~\d+|\*)?|[^" ]*(IN *)?[\[{][^\]}]*[\]}]', text) and '(' not in text else (f'({text})', docs)


def all_of(index, draw, depth):
    """Returns parts of which a document must match all, except those after a minus."""
    text, found = part(index, draw, depth)
    for _ in range(draw.randrange(1, 3)):
        other, docs = part(index, draw, depth)
        if draw.random() < 0.3:
            text, found = f'{text} AND {draw.choice(("-", "NOT "))}{other}', found - docs
        else:
            text, found = f'{text} AND {other}', found & docs
    return text, found


def row(index, draw):
    """Returns a thousand words, phrases and numbers, and the documents that have one of them."""
    parts = [literal(index, draw) for _ in range(1000)]
    return draw.choice((' ', ' OR ')).join(text for text, _ in parts), set().union(*(docs for _, docs in parts))


def asked(index, draw):
    """Returns a query and its answer."""
    text, docs = row(index, draw) if draw.random() < 0.01 else query(index, draw, draw.randrange(5))
    return text, ' '.join(map(str, sorted(docs))) or 'none'


def largest_sets():
    """Returns whether a set of 65,536 values is read, and one of 65,537 refused."""
    given = 'text 0 sea\n' + ''.join(f'? query text:IN [{"a " * many}sea]\n' for many in (65535, 65536))
    run = subprocess.run([programs.program_of('iiq')], input=given.encode(), stdout=subprocess.PIPE, stderr=subprocess.PIPE)
    if run.stdout != b'0\nerror line\n':
        print(f'tests/queries: the largest sets: {run.stdout[:80]!r}')
        return False
    return True


def main():
    count, seed = (int(sys.argv[1]), sys.argv[2]) if len(sys.argv) > 2 else (10_000, '0')
    if not programs.build('iiq'):
        print('tests/queries: the program was not built')
        return 1
    draw, wrong, matched = random.Random(seed), 0 if largest_sets() else 1, 0
    for first in range(0, count, ASKED):
        index = Index(draw)
        pairs = [asked(index, draw) for _ in range(min(ASKED, count - first))]
        given = index.lines + [f'? query {text}' for text, _ in pairs]
        run = subprocess.run([programs.program_of('iiq')], input='\n'.join(given + ['']).encode(), stdout=subprocess.PIPE, stderr=subprocess.PIPE)
        answers = run.stdout.decode().split('\n')
        if run.returncode != 0 or len(answers) != len(pairs) + 1:
            print(f'tests/queries: status {run.returncode}, {len(answers) - 1} answers for {len(pairs)} queries')
            wrong += 1
        for (text, want), answer in zip(pairs, answers):
            matched += want != 'none'
            if answer != want:
                wrong += 1
                if wrong < 10:
                    print('\n'.join(index.lines + [f'? query {text}', f'answered {answer}, wanted {want}']))
    print(f'tests/queries: {count} queries asked, {matched} with documents, {wrong} answered otherwise')
    return 1 if wrong else 0


sys.exit(main())
