"""What a document scores by a query: BM25 in integers, with k1 = 1.2 and b = 0.75. Every function is a definition in natural numbers
and floors of quotients. What is asked is a list of documents, as `segments_meaning.py` reads them; segments are unknown here.

A query is a list: `["term", FIELD, KEY]`, `["phrase", FIELD, KEYS, SLOP]`, `["starred", FIELD, KEYS]` of a phrase whose last key is a
prefix, `["range", FIELD, TAKES, TEXT]` of the keys that a function takes (a prefix too), with its text, and `and`, `or`, `not` of two
queries or more."""
import bisect

from segments_meaning import SCHEMA, Meaning

COUNT_SCALE = 2 ** 20  # one occurrence, and a length part, in these units
SHARE_ONE = 2 ** 28  # the share f / (f + K) in these units
LOG_BITS = 26  # fraction bits of the logarithm
WEIGHT_BITS = 22  # fraction bits of a weight
SCORE_BITS = 38  # fraction bits of a score
WEIGHT_MAX = 2 ** 32 - 1
LENGTH_MAX = 2 ** 36 - 1
SCORE_MAX = 2 ** 64 - 1
LN2_TIMES_2_2 = 1637374460  # round(2.2 * ln 2 * 2^30)
# the fields that keep the number of tokens of each document; of the others it counts as 1
WITH_NORMS = ('body', 'tag')


def norm_of_id(number):
    return number if number < 32 else 24 + ((number - 24) % 8 + 8) * 2 ** ((number - 24) // 8 - 1)


NORMS = [norm_of_id(number) for number in range(256)]


def id_of_norm(norm):
    """Returns the greatest id whose norm is not above this one."""
    return bisect.bisect_right(NORMS, norm) - 1


def log2_fixed(number):
    """Returns the exponent after 26 squarings, each cut to 32 bits: about 2^26 times the logarithm by base 2."""
    exponent = number.bit_length() - 1
    mantissa = number << 31 >> exponent
    for _ in range(LOG_BITS):
        mantissa, exponent = mantissa * mantissa, 2 * exponent
        if mantissa >= 2 ** 63:
            mantissa, exponent = mantissa >> 32, exponent + 1
        else:
            mantissa >>= 31
    return exponent


def rarity(doc_freq, num_docs):
    """Returns the idf by base 2, in 2^-26: the logarithm of (2N + 2) / (2n + 1)."""
    return max(0, log2_fixed(2 * num_docs + 2) - log2_fixed(2 * doc_freq + 1))


def weight(doc_freqs, num_docs):
    """Returns k1 + 1 times the sum of the idfs of the terms (one, or those of a phrase), in 2^-22."""
    total = sum(rarity(doc_freq, num_docs) for doc_freq in doc_freqs)
    return min(WEIGHT_MAX, max(1, total * LN2_TIMES_2_2 // 2 ** (LOG_BITS + 30 - WEIGHT_BITS)))


def length_part(norm, num_tokens, num_docs):
    """Returns k1 * (1 - b + b * dl / avgdl), which is (3 T + 9 dl N) / (10 T), in 2^-20."""
    tokens = max(1, num_tokens)
    return min(LENGTH_MAX, (3 * tokens + 9 * norm * num_docs) * COUNT_SCALE // (10 * tokens))


def share(count, length):
    """Returns f / (f + K), in 2^-28."""
    scaled = count * COUNT_SCALE
    return SHARE_ONE * scaled // (scaled + length)


def score(weight, count, length):
    return weight * share(count, length) // 2 ** (WEIGHT_BITS + 28 - SCORE_BITS)


def add(first, second):
    return min(SCORE_MAX, first + second)


def show(units, bits=SCORE_BITS):
    """Returns a score, or a number with other fraction bits, with four decimals, the nearest."""
    rounded = units * 10000 + 2 ** (bits - 1) >> bits
    return f'{rounded // 10000}.{rounded % 10000:04d}'


class Ranking:
    """Scores the documents of a list."""

    def __init__(self, docs):
        self.meaning, self.known = Meaning(docs), {}
        self.num_docs = len(docs)

    def once(self, key, made):
        """Returns what a function makes, which is kept by a key."""
        if key not in self.known:
            self.known[key] = made()
        return self.known[key]

    def postings(self, field, key):
        return self.once(('postings', field, key), lambda: self.meaning.postings(field, key))

    def norm_of(self, field, doc):
        """Returns the norm of a document, which is 1 if the field keeps none."""
        if SCHEMA[field][0] not in WITH_NORMS:
            return 1
        counts = self.once(('counts', field), lambda: self.counts_of(field))
        return NORMS[id_of_norm(counts[doc])]

    def length_of(self, field, doc):
        """Returns the length part of a document."""
        num_tokens = self.once(('tokens', field), lambda: self.meaning.num_tokens(field))
        return length_part(self.norm_of(field, doc), num_tokens, self.num_docs)

    def counts_of(self, field):
        counts = [0] * self.num_docs
        for token in self.meaning.tokens:
            counts[token[0]] += token[1] == field
        return counts

    def scores_by(self, field, keys, counts):
        """Returns what documents score in which a term, or a phrase, occurs so many times."""
        of_all = weight([len(self.postings(field, key)) for key in keys], self.num_docs)
        return {doc: score(of_all, count, self.length_of(field, doc)) for doc, count in counts.items()}

    def scores(self, query):
        """Returns what each document that matches a query scores."""
        kind, *parts = query
        if kind == 'term':
            return self.scores_by(parts[0], parts[1:], {doc: count for doc, count, _ in self.postings(*parts)})
        if kind == 'phrase':
            return self.scores_by(*parts[:2], self.meaning.phrase_counts(*parts))
        if kind == 'starred':
            return dict.fromkeys(self.meaning.starred(*parts), 2 ** SCORE_BITS)
        if kind == 'range':
            field, takes = parts[:2]
            return {token[0]: 2 ** SCORE_BITS for token in self.meaning.tokens if token[1] == field and takes(token[2])}
        of_each = [self.scores(part) for part in parts]
        if kind == 'not':
            return {doc: units for doc, units in of_each[0].items() if not any(doc in other for other in of_each[1:])}
        docs = set.union(*map(set, of_each)) if kind == 'or' else set.intersection(*map(set, of_each))
        total = dict.fromkeys(docs, 0)
        for one in of_each:
            for doc in docs & set(one):
                total[doc] = add(total[doc], one[doc])
        return total

    def shares(self, query, doc):
        """Returns what the score of a document is made of: of each part of a query that it matches, in the order of the query, the
        part, its weight, how often it occurs, the norm of the document, and what the part adds; none if the document doesn't match."""
        kind, *parts = query
        if kind in ('range', 'starred'):
            return [(query, 0, 1, 1, 2 ** SCORE_BITS) for _ in range(doc in self.scores(query))]
        if kind in ('term', 'phrase'):
            field, keys = (parts[0], parts[1:]) if kind == 'term' else parts[:2]
            counts = {other: count for other, count, _ in self.postings(*parts)} if kind == 'term' else self.meaning.phrase_counts(*parts)
            of_all = weight([len(self.postings(field, key)) for key in keys], self.num_docs)
            return [(query, of_all, counts[doc], self.norm_of(field, doc), score(of_all, counts[doc], self.length_of(field, doc))) for _ in range(doc in counts)]
        of_each = [self.shares(part, doc) for part in parts]
        if kind == 'not':
            return [] if any(of_each[1:]) else of_each[0]
        return [] if kind == 'and' and not all(of_each) else sum(of_each, [])

    def best(self, query):
        """Returns all documents that match, each with its score: the best first, of equal ones the first."""
        return sorted(self.scores(query).items(), key=lambda found: (-found[1], found[0]))
