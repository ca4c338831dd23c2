"""What a session with an index means, as a list of documents: nothing here knows of segments, files or lists. Documents are
added, deleted by a term, committed, rolled back and merged. Also random sessions, documents and queries.

A document maps names of fields to values. A key is the bytes of a term of its field. A query is a list: `["all"]`,
`["term", FIELD, KEY]`, `["phrase", FIELD, KEYS, SLOP]`, `["starred", FIELD, KEYS]` (a phrase of which the last key is a prefix),
and `and`, `or` and `not` (the first and not the second) of two queries."""
import itertools
import random
import re

# The fields: name, type, and what is recorded of a word: 0 its documents, 1 also how often it occurs, 2 also where.
SCHEMA = [('id', 'bytes', 0), ('body', 'text', 2), ('tag', 'text', 1), ('flag', 'text', 0), ('n', 'u64', 0), ('j', 'json', 2)]
FIELD = {name: number for number, (name, _, _) in enumerate(SCHEMA)}
WORDS = ['a', 'b', 'c', 'dog', 'cat', 'the', 'sun', 'x1']


def words(text):
    return re.findall(r'[a-z0-9]+', text)


def u64_key(number):
    return number.to_bytes(8, 'big')


def i64_key(number):
    return (number + 2 ** 63).to_bytes(8, 'big')


def doc_tokens(doc):
    """Returns the tokens of a document: the field, the key, the position, and whether it is a word of a text."""
    tokens = []
    for field, (name, kind, _) in enumerate(SCHEMA):
        values = doc.get(name, [])
        ends = {}

        def add_text(prefix, text):
            # the next text of the same field, or of the same path, begins one position after the end of this one
            begin = ends.get(prefix, 0)
            end = begin
            for place, word in enumerate(words(text)):
                tokens.append((field, prefix + word.encode(), begin + place, True))
                end = max(end, begin + place + 1)
            ends[prefix] = end + 1

        for value in values if isinstance(values, list) else [values]:
            if kind == 'text':
                add_text(b'', value)
            elif kind == 'u64':
                tokens.append((field, u64_key(value), 0, False))
            elif kind == 'bytes':
                tokens.append((field, value.encode(), 0, False))
            else:
                for path, leaf in value.items():
                    if isinstance(leaf, str):
                        add_text(path.encode() + b'\0s', leaf)
                    else:
                        tokens.append((field, path.encode() + b'\0i' + i64_key(leaf), 0, False))
    return tokens


def phrase_starts(moved, slop):
    """Given the positions of each word of a phrase in a document, moved back by its distance from the first word, returns those of the
    first word for which one of each other word can be chosen so that all of them differ by at most the slop."""
    first, *others = moved
    near = lambda start: itertools.product(*([position for position in positions if abs(position - start) <= slop] for positions in others))
    return [start for start in first if any(max(start, *chosen) - min(start, *chosen) <= slop for chosen in near(start))]


class Meaning:
    """The answers that a list of documents gives. Documents are numbered from 0."""

    def __init__(self, docs):
        self.docs = docs
        self.tokens = [(number, *token) for number, doc in enumerate(docs) for token in doc_tokens(doc)]
        self.by_key = {}
        for token in self.tokens:
            self.by_key.setdefault((token[1], token[2]), []).append(token)

    def num_docs(self):
        return len(self.docs)

    def terms(self, field):
        """Returns each key of a field with the number of its documents, in the order of the keys."""
        return [(key, len({token[0] for token in tokens})) for (other, key), tokens in sorted(self.by_key.items()) if other == field]

    def postings(self, field, key):
        """Returns the documents of a term: the number, how often the term occurs, and where. Of a value that is no word of a
        text only its documents are kept: it occurs once, nowhere."""
        found = []
        for doc, _, _, position, is_word in self.by_key.get((field, key), []):
            if found and found[-1][0] == doc:
                found[-1][1].append(position)
            else:
                found.append((doc, [position], SCHEMA[field][2] if is_word else 0))
        return [(doc, len(positions) if kept >= 1 else 1, positions if kept == 2 else []) for doc, positions, kept in found]

    def phrase_counts(self, field, keys, slop):
        """Returns at how many positions of its first word a phrase starts in each document that has it."""
        if SCHEMA[field][2] < 2:
            return {}
        moved = [{doc: [position - place for position in positions] for doc, _, positions in self.postings(field, key)} for place, key in enumerate(keys)]
        starts = {doc: len(phrase_starts([one[doc] for one in moved], slop)) for doc in set.intersection(*map(set, moved))}
        return {doc: count for doc, count in sorted(starts.items()) if count}

    def starred(self, field, keys):
        """Returns the documents that have a phrase whose last key starts with the last of these."""
        *first, last = keys
        return {doc for key, _ in self.terms(field) if key.startswith(last) for doc in self.phrase_counts(field, [*first, key], 0)}

    def num_tokens(self, field):
        return sum(token[1] == field for token in self.tokens)

    def match(self, query):
        """Returns the documents that match a query."""
        kind = query[0]
        if kind == 'all':
            return set(range(len(self.docs)))
        if kind == 'term':
            return {token[0] for token in self.tokens if token[1] == query[1] and token[2] == query[2]}
        if kind == 'phrase':
            return set(self.phrase_counts(*query[1:]))
        if kind == 'starred':
            return self.starred(*query[1:])
        first, second = self.match(query[1]), self.match(query[2])
        return first & second if kind == 'and' else first | second if kind == 'or' else first - second

    def ids(self, docs):
        return [self.docs[doc]['id'] for doc in docs]


def without(docs, field, key):
    """Returns the documents that don't have a term."""
    return [doc for doc in docs if not any(token[0] == field and token[1] == key for token in doc_tokens(doc))]


class Session:
    """What operations mean: the documents that are committed, and those that the next commit commits. A merge changes neither."""

    def __init__(self):
        self.committed, self.pending = [], []

    def apply(self, operation):
        kind = operation[0]
        if kind == 'add':
            self.pending = self.pending + [operation[1]]
        elif kind == 'delete':
            self.pending = without(self.pending, *operation[1:])
        elif kind == 'commit':
            self.committed = self.pending
        elif kind == 'rollback':
            self.pending = self.committed


def some_text(chosen, most):
    return ' '.join(chosen.choice(WORDS) for _ in range(chosen.randint(0, most)))


def some_doc(chosen, number):
    doc = {'id': f'd{number}'}
    if chosen.random() < 0.9:
        doc['body'] = [some_text(chosen, 8) for _ in range(chosen.choice([1, 1, 1, 2]))]
    if chosen.random() < 0.6:
        doc['tag'] = some_text(chosen, 3)
    if chosen.random() < 0.4:
        doc['flag'] = some_text(chosen, 2)
    if chosen.random() < 0.5:
        doc['n'] = [chosen.randint(0, 3) for _ in range(chosen.choice([1, 1, 2]))]
    if chosen.random() < 0.4:
        doc['j'] = {chosen.choice(['p', 'p.q']): chosen.choice([some_text(chosen, 4), chosen.randint(-2, 2)])}
    if chosen.random() < 0.03:
        doc['body'] = ' '.join(chosen.choice(WORDS) for _ in range(60))
    return doc


def some_key(chosen, fields):
    """Returns one of some fields, most often `body`, and a key that may be one of its terms."""
    field = chosen.choice([FIELD['body']] * 3 + fields)
    kind = SCHEMA[field][1]
    if kind == 'text':
        return field, chosen.choice(WORDS + ['none']).encode()
    if kind == 'u64':
        return field, u64_key(chosen.randint(0, 4))
    if kind == 'bytes':
        return field, f'd{chosen.randint(0, 30)}'.encode()
    path = chosen.choice([b'p', b'p', b'p.q'])
    return field, path + (b'\0s' + chosen.choice(WORDS).encode() if chosen.random() < 0.5 else b'\0i' + i64_key(chosen.randint(-2, 2)))


def some_phrase(chosen):
    """Returns the words of a phrase and its slop, with which they differ."""
    slop = chosen.choice([0, 0, 1, 2, 3, 6])
    words = chosen.sample(WORDS, chosen.randint(2, 3)) if slop else chosen.choices(WORDS, k=chosen.randint(2, 3))
    return [word.encode() for word in words], slop


def some_starred(chosen):
    """Returns the words of a phrase, of the last one its start."""
    *first, last = chosen.choices(WORDS, k=chosen.randint(2, 3))
    return [word.encode() for word in (*first, last[:chosen.randint(1, len(last))])]


def some_query(chosen, depth=2):
    """Returns a query."""
    if depth == 0 or chosen.random() < 0.4:
        if chosen.random() < 0.2:
            return ['all']
        if chosen.random() < 0.4:
            if chosen.random() < 0.3:
                return ['starred', FIELD['body'], some_starred(chosen)]
            return ['phrase', FIELD['body'], *some_phrase(chosen)]
        return ['term', *some_key(chosen, list(FIELD.values()))]
    return [chosen.choice(['and', 'or', 'not']), some_query(chosen, depth - 1), some_query(chosen, depth - 1)]


def some_session(seed, length=30):
    """Returns the operations of a session, which ends with a commit, and some queries."""
    chosen, operations, number, is_pending = random.Random(seed), [], 0, False
    for _ in range(length):
        how = chosen.random()
        if how < 0.45:
            for _ in range(chosen.randint(1, 4)):
                operations.append(('add', some_doc(chosen, number)))
                number += 1
            is_pending = True
        elif how < 0.65:
            operations.append(('delete', *some_key(chosen, list(FIELD.values()))))
            is_pending = True
        elif how < 0.84:
            operations.append(('commit',) if how < 0.8 else ('rollback',))
            is_pending = False
        else:
            if is_pending:
                operations.append(('commit',))
                is_pending = False
            operations.append(('merge',))
    operations.append(('commit',))
    queries = [some_query(chosen) for _ in range(6)] + [['all'], ['not', ['all'], ['term', FIELD['body'], b'a']]]
    return operations, queries
