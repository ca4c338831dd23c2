"""A plain reading of the tokenizers: how a text is cut into words.

The words of `default` follow the rules of Unicode (UAX #29) for the characters that the tests use: letters and digits
with the marks on them, `_`, ideographs and kana, and anything else as what ends a word."""
import re
import unicodedata

import porter

# The characters with the property White_Space.
SPACES = '\t\n\v\f\r \x85\xa0\u1680\u2000\u2001\u2002\u2003\u2004\u2005\u2006\u2007\u2008\u2009\u200a\u2028\u2029\u202f\u205f\u3000'
# Words of this many bytes and more are left out.
LIMIT = 40


def ascii_words(text):
    """Returns the runs of ASCII letters, ASCII digits and characters past ASCII."""
    return numbered(re.findall(r'[A-Za-z0-9\u0080-\U0010ffff]+', text))


def raw_words(text):
    """Returns the complete text, if it has a character."""
    return numbered([text] if text else [])


def whitespace_words(text):
    """Returns the runs of characters that are no white space."""
    return numbered(word for word in re.split(f'[{SPACES}]', text) if word)


def default_words(text):
    """Returns the words of a text in folded case, without long ones, whose positions stay free."""
    return [(position, word) for position, word in numbered(word.casefold() for word in unicode_words(text)) if len(word.encode()) < LIMIT]


def english_words(text, stops=()):
    """Returns the stems of the words of a text, without stop words in any case, whose positions stay free."""
    stops = {word.casefold() for word in stops}
    return [(position, porter.stem(word)) for position, word in default_words(text) if word not in stops]


WORDS_BY = {'ascii': ascii_words, 'raw': raw_words, 'whitespace': whitespace_words, 'default': default_words, 'en': english_words}


def numbered(words):
    """Returns words with their positions."""
    return list(enumerate(words))


def kind_of(char):
    """Returns which class of characters of words this is, or None."""
    name = unicodedata.name(char, '')
    if unicodedata.category(char) in ('Mn', 'Me', 'Mc', 'Cf'):
        return 'mark'
    if unicodedata.category(char) == 'Pc':
        return 'joiner'
    if name.startswith(('CJK UNIFIED', 'HIRAGANA LETTER')):
        return 'alone'
    if name.startswith('KATAKANA LETTER'):
        return 'katakana'
    return 'letter' if unicodedata.category(char) in ('Lu', 'Ll', 'Lt', 'Lm', 'Lo', 'Nd', 'Nl') else None


def unicode_words(text):
    """Yields the words of a text as they are written."""
    word, last = '', None
    for char in text:
        kind = kind_of(char)
        if kind == 'mark' and word:
            word += char
            continue
        joins = kind not in (None, 'alone', 'mark') and last not in (None, 'alone') and (kind == last or 'joiner' in (kind, last))
        if not joins:
            if has_letter(word):
                yield word
            word = ''
        if kind in (None, 'mark'):
            last = None
            continue
        word, last = word + char, kind
    if has_letter(word):
        yield word


def has_letter(word):
    """Returns whether a word has a letter or a digit."""
    return any(kind_of(char) in ('letter', 'alone', 'katakana') for char in word)
