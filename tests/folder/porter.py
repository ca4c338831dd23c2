"""A plain reading of the stemmer of Porter's "An algorithm for suffix stripping", 1980, over patterns: a word is spelled
by kinds of its letters, C and V, in which the measure is how often VC comes once runs are single."""
import re

STEP_2 = {'ational': 'ate', 'tional': 'tion', 'enci': 'ence', 'anci': 'ance', 'izer': 'ize', 'abli': 'able', 'alli': 'al', 'entli': 'ent', 'eli': 'e', 'ousli': 'ous', 'ization': 'ize',
          'ation': 'ate', 'ator': 'ate', 'alism': 'al', 'iveness': 'ive', 'fulness': 'ful', 'ousness': 'ous', 'aliti': 'al', 'iviti': 'ive', 'biliti': 'ble'}
STEP_3 = {'icate': 'ic', 'ative': '', 'alize': 'al', 'iciti': 'ic', 'ical': 'ic', 'ful': '', 'ness': ''}
STEP_4 = dict.fromkeys('al ance ence er ic able ible ant ement ment ent ion ou ism ate iti ous ive ize'.split(), '')


def kinds(word):
    """Returns the kinds of a word's letters, as `CVC`."""
    found = ''
    for letter in word:
        found += 'V' if letter in 'aeiou' or (letter == 'y' and found[-1:] == 'C') else 'C'
    return found


def measure(word):
    return len(re.findall('V+C+', kinds(word)))


def ends_double(word):
    return word[-1:] == word[-2:-1] and kinds(word).endswith('C')


def ends_cvc(word):
    return kinds(word).endswith('CVC') and word[-1] not in 'wxy'


def replaced(word, table, least, holds=lambda suffix, stem: True):
    """Replaces the longest suffix of a table that the word has, if the stem has more than a measure."""
    for suffix in sorted(table, key=len, reverse=True):
        if word.endswith(suffix):
            stem = word[:len(word) - len(suffix)]
            return stem + table[suffix] if measure(stem) > least and holds(suffix, stem) else word
    return word


def step_1(word):
    if word.endswith(('sses', 'ies')):
        word = word[:-2]
    elif word.endswith('s') and not word.endswith('ss'):
        word = word[:-1]
    ending = re.search('ed$|ing$', word)
    if word.endswith('eed'):
        word = word[:-1] if measure(word[:-3]) > 0 else word
    elif ending and 'V' in kinds(word[:ending.start()]):
        word = word[:ending.start()]
        if word.endswith(('at', 'bl', 'iz')):
            word += 'e'
        elif ends_double(word) and word[-1] not in 'lsz':
            word = word[:-1]
        elif measure(word) == 1 and ends_cvc(word):
            word += 'e'
    return re.sub('y$', 'i', word) if 'V' in kinds(word[:-1]) else word


def step_5(word):
    if word.endswith('e') and (measure(word[:-1]) > 1 or (measure(word[:-1]) == 1 and not ends_cvc(word[:-1]))):
        word = word[:-1]
    return word[:-1] if word.endswith('ll') and measure(word) > 1 else word


def stem(word):
    """Returns the stem of a word; another text than at least three letters of a to z is its own."""
    if not re.fullmatch('[a-z]{3,}', word):
        return word
    word = replaced(step_1(word), STEP_2, 0)
    word = replaced(replaced(word, STEP_3, 0), STEP_4, 1, lambda suffix, stem: suffix != 'ion' or stem.endswith(('s', 't')))
    return step_5(word)
