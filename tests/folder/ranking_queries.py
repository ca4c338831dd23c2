"""Random queries, each with its text, and random documents, for the tests of ranking."""
import player
from segments_meaning import FIELD, SCHEMA, WORDS, some_doc, some_key, some_phrase as words_of_phrase, some_starred as words_of_starred, u64_key

TEXTS = [FIELD[name] for name in ('body', 'tag', 'flag')]


def key_range(field, name, low, high, key_of, chosen):
    """Returns a query for the keys between two values, of which one may be missing, and its text."""
    below, above = chosen.choice(['inclusive', 'exclusive', 'none']), chosen.choice(['inclusive', 'exclusive', 'none'])
    least, most = key_of(low), key_of(high)

    def takes(key):
        return (below == 'none' or key > least or below == 'inclusive' and key == least) and (above == 'none' or key < most or above == 'inclusive' and key == most)

    first, last = '*' if below == 'none' else low, '*' if above == 'none' else high
    text = f'{name}:{"{" if below == "exclusive" else "["}{first} TO {last}{"}" if above == "exclusive" else "]"}'
    printed = f'{name}:*' if below == above == 'none' else text
    if above == 'none' and below != 'none' and chosen.random() < 0.5:
        text = f'{name}:>{"=" if below == "inclusive" else ""}{low}'
    return ('range', field, takes, printed), text


def some_range(chosen):
    """Returns a query for a range of words or numbers, and its text."""
    if chosen.random() < 0.2:
        name = chosen.choice(list(FIELD))
        return ('range', FIELD[name], lambda key: True, f'{name}:*'), f'{name}:*'
    if chosen.random() < 0.5:
        low, high = chosen.randint(0, 3), chosen.randint(0, 4)
        return key_range(FIELD['n'], 'n', low, high, u64_key, chosen)
    field = chosen.choice(['body', 'tag', 'flag'])
    low, high = chosen.choice(WORDS), chosen.choice(WORDS)
    return key_range(FIELD[field], field, low, high, str.encode, chosen)


def some_prefix(chosen):
    """Returns a query for the words with a prefix, of a field, of a path or of all texts, and its text."""
    prefix = chosen.choice(['a', 'c', 'd', 't', 'th', 's', 'x1', 'sun', 'y'])
    begins = lambda start: lambda key: key.startswith(start)
    how = chosen.random()
    if how < 0.2:
        return ('or', *(('range', field, begins(prefix.encode()), f'{SCHEMA[field][0]}:{prefix}*') for field in TEXTS)), f'{prefix}*'
    if how < 0.4:
        return ('range', FIELD['j'], begins(b'p\0s' + prefix.encode()), f'j:p s {prefix}*'), f'j.p:{prefix}*'
    name = chosen.choice(['body', 'body', 'tag', 'flag'])
    return ('range', FIELD[name], begins(prefix.encode()), f'{name}:{prefix}*'), f'{name}:{prefix}*'


def some_phrase(chosen):
    """Returns a query for a phrase of a field, of a path or of all texts, and its text."""
    keys, slop = words_of_phrase(chosen)
    text = '"' + b' '.join(keys).decode() + '"' + (f'~{slop}' if slop or chosen.random() < 0.1 else '')
    how = chosen.random()
    if how < 0.2:
        return ('or', *(('phrase', field, keys, slop) for field in TEXTS)), text
    if how < 0.35:
        return ('phrase', FIELD['j'], [b'p\0s' + key for key in keys], slop), f'j.p:{text}'
    return ('phrase', FIELD['body'], keys, slop), f'body:{text}'


def some_starred(chosen):
    """Returns a query for a phrase whose last word is a prefix, of a field, of a path or of all texts, and its text."""
    keys = words_of_starred(chosen)
    text, how = '"' + b' '.join(keys).decode() + '"*', chosen.random()
    if how < 0.2:
        return ('or', *(('starred', field, keys) for field in TEXTS)), text
    if how < 0.35:
        return ('starred', FIELD['j'], [b'p\0s' + key for key in keys]), f'j.p:{text}'
    return ('starred', FIELD['body'], keys), f'body:{text}'


def some_part(chosen):
    """Returns a query without parts, and its text."""
    how = chosen.random()
    if how < 0.15:
        return some_range(chosen)
    if how < 0.3:
        return some_prefix(chosen)
    if how < 0.45:
        return some_phrase(chosen)
    if how < 0.52:
        return some_starred(chosen)
    if how < 0.65:
        word = chosen.choice(WORDS + ['none'])
        return ('or', *(('term', field, word.encode()) for field in TEXTS)), word
    query = ('term', *some_key(chosen, [FIELD[name] for name in ('body', 'tag', 'flag', 'n', 'j')]))
    return query, player.text_of(query)


def some_query(chosen, depth):
    """Returns a query and its text."""
    if depth == 0 or chosen.random() < 0.25:
        return some_part(chosen)
    kind = chosen.choice(['and', 'or', 'or', 'not'])
    parts = [some_query(chosen, depth - 1) for _ in range(chosen.choice([2, 2, 3]))]
    queries, texts = [query for query, _ in parts], [text for _, text in parts]
    between = chosen.choice({'and': [' AND '], 'or': [' OR ', ' '], 'not': [' NOT ', ' -', ' AND NOT ', ' AND -']}[kind])
    return (kind, *queries), f'({between.join(texts)})'


def some_docs(chosen, number, most):
    """Returns documents from a number on: some have the same words, some are long."""
    kinds = [some_doc(chosen, 0) for _ in range(chosen.randint(1, most))]
    docs = []
    for _ in range(chosen.randint(1, most)):
        doc = {**chosen.choice(kinds), 'id': f'd{number + len(docs)}'}
        if chosen.random() < 0.05:
            doc['body'] = ' '.join(chosen.choices(WORDS, weights=[9, 5, 4, 3, 3, 2, 1, 1], k=chosen.choice([41, 100, 300])))
        docs.append(doc)
    return docs


def some_long_docs(chosen, number):
    """Returns documents from a number on, of which most have the same three words, once or many times: their lists have
    several blocks, and many scores are equal."""
    return [{'id': f'd{number + place}', 'body': ' '.join(chosen.choices(WORDS[:3], k=chosen.choice([1, 1, 2, 3, 5, 8, 13])))} for place in range(700)]
