"""Compares the crates with the slow reader on damaged lists and files."""
import os
import re
import subprocess

import programs

PROGRAM = 'ii_differential_tests'


# The number of cases of `each_change`: each cut of the subjects, and each change of one byte to each other value.
CASES = 2_399_394


def compared(words_of_runs):
    """Runs the program once for each list of words, all at once. Returns how many cases it judged and how many
    differed, or None."""
    if not programs.build(PROGRAM):
        print('differential: the program was not built')
        return None
    runs = [subprocess.Popen([programs.program_of(PROGRAM), *map(str, words)], stdout=subprocess.PIPE, text=True) for words in words_of_runs]
    cases = differences = 0
    for run in runs:
        reported = re.fullmatch(r'(\d+) cases, (\d+) differences\n', run.communicate()[0])
        if reported is None or run.returncode != 0:
            print('differential: a run ended before its last line')
            return None
        cases, differences = cases + int(reported.group(1)), differences + int(reported.group(2))
    print(f'differential: {cases} cases, {differences} differences')
    return cases, differences


def each_change():
    """Changes each byte of each damaged list and file to each other value, and cuts it at each place, on all cores.
    The crates and the slow reader must give the same answer for each. Returns how many tests passed and how many
    failed."""
    cores = os.cpu_count() or 1
    return (1, 0) if compared([('each', core, cores) for core in range(cores)]) == (CASES, 0) else (0, 1)


def differential(count, seed):
    """Damages `count` lists and files at random, on all cores. Returns how many tests passed and how many failed."""
    cores = os.cpu_count() or 1
    shares = [count // cores + (core < count % cores) for core in range(cores)]
    found = compared([('random', share, seed * cores + core) for core, share in enumerate(shares) if share])
    return (1, 0) if found and found[0] and not found[1] else (0, 1)
