#!/usr/bin/env python3
"""Compares the best documents that `nequllpa search --top` prints, and their scores, with a definition of the score that knows of
no segments (`ranking_meaning.py`): over one segment and several, with deleted documents and after a merge. The queries have words,
phrases, prefixes, phrases that end with one, and ranges in fields of all kinds, of one field and of none, joined by AND, OR, NOT and a minus. What `--explain` prints is
compared with the shares of this definition, which have to add up to the score.

    ranking.py            50 folders with 200 queries each, as the gate runs it
    ranking.py N FIRST    N folders from the seed FIRST"""
import json
import random
import sys
import tempfile

sys.dont_write_bytecode = True
import player
import users
from ranking_meaning import SCORE_MAX, WEIGHT_BITS, Ranking, show
from ranking_queries import some_docs, some_long_docs, some_query
from segments_meaning import FIELD, SCHEMA, some_key

FOLDERS = 50
QUERIES = 200


def text_of_part(query):
    """Returns the text of a part of a query: each key as `terms` prints it."""
    kind, field, *others = query
    if kind == 'range':
        return others[1]
    if kind == 'term':
        return f'{SCHEMA[field][0]}:{player.term_of(field, *others)}'
    after = '*' if kind == 'starred' else f'~{others[1]}' if others[1] else ''
    return f'{SCHEMA[field][0]}:"{" ".join(player.term_of(field, key) for key in others[0])}"' + after


def explained(shares, units, is_json):
    """Returns what `--explain` prints of shares, which add up to a score."""
    if min(SCORE_MAX, sum(share[-1] for share in shares)) != units or not shares:
        raise player.Failed(f'shares {shares} of the score {units}')
    if not is_json:
        return ''.join(f'    {show(share)}\tweight {show(weight, WEIGHT_BITS)}\tcount {count}\tnorm {norm}\t{text_of_part(part)}\n' for part, weight, count, norm, share in shares)
    rows = (f'{{"query":{json.dumps(text_of_part(part))},"weight":{show(weight, WEIGHT_BITS)},"weight_units":{weight},"count":{count},"norm":{norm},"share":{show(share)},"units":{share}}}'
            for part, weight, count, norm, share in shares)
    return f',"explain":[{",".join(rows)}]'


def compares(user, chosen, ranking):
    """Compares the best documents of a random query, in one of the ways to print them."""
    query, text = some_query(chosen, chosen.randrange(4))
    found = ranking.best(query)
    limit = chosen.choice([0, 1, 1, 2, 3, 10, len(found), len(found) + 1, 1000])
    options = ['--top', str(limit), *chosen.choice([[], ['--ids'], ['--json'], ['--json'], ['--json', '--ids']]), *chosen.choice([[], ['--explain']])]
    out = ''
    for doc, units in found[:limit]:
        name = ranking.meaning.docs[doc]['id'].encode().hex()
        why = explained(ranking.shares(query, doc), units, '--json' in options) if '--explain' in options else ''
        if '--json' in options:
            out += f'{{"doc":{doc}' + (f',"id":"{name}"' if '--ids' in options else '') + f',"score":{show(units)},"units":{units}{why}}}\n'
        else:
            out += f'{name if "--ids" in options else doc}\t{show(units)}\n{why}'
    user.wants(['search', user.folder, text, *options], 0 if found else 1, out)
    return len(found) > 1 and len({units for _, units in found}) < len(found)


def one_folder(task):
    """Ranks the documents of a folder: as they are added in parts, some deleted, and all segments merged. Returns how many queries
    there were, of how many some scores were equal, how often the program ran, and what differs."""
    program, seed, queries = task
    chosen = random.Random(seed)
    most = 300 if seed % 10 == 0 else chosen.choice([3, 20, 60])
    asked = equal = 0
    with tempfile.TemporaryDirectory() as room:
        user = player.Player(program, room, chosen)
        user.merging = ['--no-merge']
        steps = ['add'] * chosen.randint(1, 3) + ['delete'] * chosen.randint(0, 3)
        chosen.shuffle(steps)
        number = 0
        try:
            for place, step in enumerate(['add', *steps, 'merge']):
                if step == 'add':
                    docs = some_long_docs(chosen, number) if seed % 10 == 5 and place == 0 else some_docs(chosen, number, most)
                    number += len(docs)
                    for doc in docs:
                        user.play(('add', doc))
                elif step == 'delete':
                    user.play(('delete', *some_key(chosen, list(FIELD.values()))))
                else:
                    user.play(('merge',))
                user.play(('commit',))
                ranking = Ranking(user.docs)
                # of the queries as many after each step
                for _ in range(queries // (len(steps) + 2) + (place < queries % (len(steps) + 2))):
                    equal += compares(user, chosen, ranking)
                    asked += 1
        except player.Failed as why:
            return asked, equal, user.runs, f'ranking in folder {seed}: {why}'
    return asked, equal, user.runs, None


def main():
    many, first = (int(sys.argv[1]), int(sys.argv[2])) if len(sys.argv) > 2 else (FOLDERS, 0)
    program = users.program_path()
    if program is None:
        print('tests/folder: the program was not built')
        return 1
    return player.run_all('tests/folder', one_folder, [(program, seed, QUERIES) for seed in range(first, first + many)],
                         lambda asked=0, equal=0, runs=0: f'{many} folders ranked by {asked} queries, of which {equal} have equal scores, {runs} runs of nequllpa')


sys.exit(main())
