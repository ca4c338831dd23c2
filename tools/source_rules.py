"""The search for a second decoder.

A clause bounds what a cursor decodes by the counter of its decoder, and says which blocks by a log. Neither can see
another decoder, so a body that decodes by one of its own, copies one, or starts its list again would meet every
clause. This search closes that gap for the crates that read lists: COUNTED says, for each way around the counter, which functions may use it; no move
of a cursor is among them. `tests/rules/program.py` plants each way, and the search must report it.

`allocation_rules.py` searches for fabricated allocation failures. `no_conflicts` searches all files for what an
unfinished merge left in them."""
import glob
import os
import re

import programs

# What only the named functions of a crate may contain; no move of a cursor is among them. A rule applies to the
# crates that it lists. The prover counts the decodes and reads of the calls that take a counter. This table says
# which functions create counters, logs and decoders, which add to a log, and which read without such a call.
COUNTED = (
    ('a decoder', r'\bBlockDecoder\s*>?\s*::', {
        'ii_codes': {'default'},
        'ii_reader': {'empty_by', 'clear_by', 'fill'},
        'ii_layout': {'open'},
        'ii_check': {'first_block', 'validate_positions', 'open_counted_positions', 'are_positions'}}),
    ('a copy', r'\bclone\(', {
        'ii_codes': set(),
        'ii_reader': {'clone', 'doc_freq_given_deletes'},
        'ii_layout': {'clone'},
        'ii_check': {'clone'}}),
    ('a cursor that starts again',
     # `OpenPostings` is written, not read
     r'\b(?!OpenPostings\b)(\w+Reader|\w+Postings|PositionBlocks|Self)\s*>?\s*::\s*(open|open_known|empty|empty_by|new|reset)\b'
     r'|\.(reset|skip_reader|anew)\(|\breopened\(', {
         'ii_reader': {'open', 'open_known', 'empty', 'empty_by', 'reset', 'clear_by', 'fill', 'open_postings', 'open_block_postings',
                       'reset_block_postings_from_terminfo', 'reset_postings_from_terminfo', 'open_bodies', 'open_field'},
         'ii_layout': {'open', 'reset', 'anew', 'reopened'},
         'ii_check': {'skip_reader', 'first_block', 'validate_positions', 'open_counted_positions', 'known_positions', 'are_positions',
                      'num_positions', 'after_documents',
                      'has_freqs'}}),
    ('a cursor, a reader or a decoder built from its fields',
     r'(?<!-> )(?<!impl )(?<!for )(?<!struct )(?<!let )'
     r'\b(BlockDecoder|SkipReader|PositionBlocks|PositionReader|CheckedPostings|BlockSegmentPostings|SegmentPostings|Self)\s*\{', {
         'ii_codes': {'with_val', 'clone'},
         'ii_reader': {'empty_by', 'from_parts', 'clone'},
         'ii_layout': {'open', 'new', 'anew', 'clone'},
         'ii_check': {'open', 'empty', 'clone'}}),
    ('the complete validation', r'\bcheck_postings\(|\bCheckedPostings::open\b|\.(has_small_sum|num_positions|validate_positions|open_counted_positions)\(', {
        'ii_reader': {'fill', 'open_positions'},
        'ii_layout': {'has_small_sum'},
        'ii_check': {'open', 'open_positions', 'validate_positions', 'open_counted_positions', 'find_postings', 'known_postings'}}),
    ('a replaced value', r'\bdefault\(|\bmem\b|\b(swap|replace|take)\(', {
        'ii_codes': {'default'},
        'ii_reader': set(),
        'ii_layout': set(),
        'ii_check': set()}),
    ('a new log of decoded blocks', r'\b(DecodedBlocks|BlockLog)\s*>?\s*::|(?<!-> )(?<!impl )(?<!for )(?<!struct )(?<!let )\b(DecodedBlocks|BlockLog)\s*\{', {
        'ii_reader': {'empty_by', 'clear_by', 'fill'},
        'ii_check': {'validate_positions', 'are_positions', 'none', 'new', 'same', 'with_block'}}),
    ('a log that a block is added to', r'\.\s*with_block\(|\bdecoded_blocks\s*(\.\s*(docs|freqs)\s*)?=(?!=)', {
        'ii_reader': {'clear_by', 'fill'},
        'ii_check': {'load_block', 'first_block', 'validate_positions', 'are_positions'}}),
    ('a new counter', r'\bGhostCounter\s*>?\s*\{|\b(GhostCounter|DecodeCount|CheckedBlocks|CheckedPositions)\s*>?\s*::|(?<!-> )(?<!impl )(?<!for )(?<!struct )\bDecodeCount\s*\{', {
        'ii_codes': {'with_val'},
        'ii_reader': {'open', 'open_known', 'reset', 'empty_by', 'clear_by', 'from_block_postings', 'fill', 'fill_positions'},
        'ii_layout': {'new', 'counts_are_narrow'},
        'ii_check': {'none', 'new', 'with_decoder', 'with_reader', 'same'}}),
    ('a counter that is incremented or copied', r'\.\s*(next|same)\(\)|\.\s*(with_decoder|with_reader|add_lists|add_positions|add_reader)\(|\.\s*(decodes|entries_read)\s*=(?!=)', {
        'ii_codes': {'unpack_sorted', 'unpack_unsorted', 'count', 'clone'},
        'ii_layout': {'read_entry', 'clone'},
        'ii_reader': {'clone', 'list_encoded_json_fields', 'list_further'},
        'ii_check': {'after_documents', 'has_freqs', 'count_last', 'same', 'add_lists', 'add_positions', 'add_reader', 'validate_positions', 'open_counted_positions',
                     'are_positions'}}),
    ('an unpacked block',
     r'\b(unpack|unpack_from|unpack_width|unpack_narrow|unpack_wide|sorted_values|sorted_from|sorted_width|sorted_narrow|sorted_wide)\b', {
         'ii_codes': {'unpack', 'unpack_from', 'unpack_sorted', 'unpack_unsorted', 'sum_of', 'sorted_values', 'sorted_from'}}),
    ('a counted read', r'\b(unpack_sorted|unpack_unsorted|read_sorted_row|read_unsorted_row|read_until_end|count)\s*\(', {
        'ii_codes': {'try_uncompress_block_sorted', 'try_uncompress_block_unsorted', 'try_uncompress_vint_sorted', 'try_uncompress_vint_unsorted',
                     'try_uncompress_vint_unsorted_until_end', 'read_sorted_row', 'read_unsorted_row', 'read_until_end'}}),
    ('entries read without a counter', r'\b(entry_of|read_bits|window|window_or_less)\s*\(', {
        'ii_codes': {'unpack_width', 'sorted_width', 'entry_of', 'read_bits', 'window_or_less', 'extract_bits'}}),
    ('a row of vints that is read', r'(?<!fn )\b(try_)?uncompress_(un)?sorted(_until_end)?\b|\bread_(long_)?u32\b', {
        'ii_codes': {'read_sorted_row', 'read_unsorted_row', 'read_until_end', 'uncompress_sorted', 'uncompress_unsorted', 'uncompress_unsorted_until_end',
                     'try_uncompress_sorted', 'try_uncompress_unsorted', 'try_uncompress_unsorted_until_end', 'read_u32', 'read_long_u32'}}),
    ('a skip entry that is read', r'\bread_entry(_at)?\b', {
        'ii_layout': {'new', 'advance', 'read_entry_at', 'counts_are_narrow'}}),
    ('a decoded field of a skip entry', r'::\s*read_u(16|24|32|64)\b|\bdecode_(bitwidth|block_wand_max_tf)\b', {
        'ii_layout': {'read_entry', 'split', 'split_into_skips_and_postings'},
        'ii_check': {'skip_places'},
        'ii_reader': set()}),
    ('bits read without a counter',
     r'\bextract_bits\b|\blast_of_sorted_block\b|\bii_codes::(vint|packed)\b|(?<![.\w])(try_)?uncompress_|\bunpack', {
         'ii_reader': set(),
         'ii_layout': set(),
         'ii_check': {'is_strict_block'}}),
)
# An import; the contract of a function.
IMPORT = r'(?m)^\s*(?:pub(?:\(crate\))? )?use\b[^;]*;'
CONTRACT = r'(?ms)^\s*(?:requires|ensures)\b.*?^\s*\{\s*$'
TYPE_ALIAS = r'(?m)^\s*(?:pub(?:\(crate\))? )?type\b'


def sources_of(crate):
    """Returns the source files of a crate, or of all crates for `*`."""
    return sorted(glob.glob(os.path.join(programs.TOP, 'crates', crate, 'src', '**', '*.rt'), recursive=True))


def name_of(source):
    """Returns the path of a source in the repository."""
    return os.path.relpath(source, programs.TOP)


def is_test(source):
    """Returns whether a source has only tests."""
    return os.path.basename(source).endswith('tests.rt') or os.path.basename(os.path.dirname(source)).endswith('tests')


def functions(source):
    """Yields each function of a source: its name, its first line, and its text without comments. The text before
    the first function has the name ''."""
    name, first, texts = '', 1, []
    with open(source, encoding='utf-8') as lines:
        for number, line in enumerate(lines, 1):
            text = '' if line.lstrip().startswith('ghost use ') else line.split('//')[0].rstrip('\n')
            declared = re.match(r'\s*(?:pub(?:\(crate\))? )?(?:const )?fn (\w+)', text)
            if declared:
                yield name, first, '\n'.join(texts)
                name, first, texts, text = declared.group(1), number, [], ''
            texts.append(text)
    yield name, first, '\n'.join(texts)


def without(pattern, text):
    """Removes each match of a pattern from a text, but not its line ends."""
    return re.sub(pattern, lambda found: '\n' * found.group().count('\n'), text)


def violations(crate, function, text):
    """Yields each violation in the text of a function: its line in the text, counted from 0, and what is there."""
    for imported in re.finditer(IMPORT, text):
        if re.search(r'\bas\b', imported.group()):
            yield text.count('\n', 0, imported.start()), 'an import under another name'
    text = without(CONTRACT, without(IMPORT, text))
    for alias in re.finditer(TYPE_ALIAS, text):
        yield text.count('\n', 0, alias.end()), 'another name for a type'
    for what, pattern, allowed in COUNTED:
        if crate in allowed and function not in allowed[crate]:
            for found in re.finditer(pattern, text):
                yield text.count('\n', 0, found.start()), what


def one_counted_decoder():
    """Checks that no move of a cursor uses a decoder other than its own, reads what isn't counted, creates a counter
    or a log, or starts its skip list again."""
    count = 0
    for crate in ('ii_codes', 'ii_reader', 'ii_layout', 'ii_check'):
        for source in sources_of(crate):
            if is_test(source):
                continue
            for function, first, text in functions(source):
                place = f'in `{function}`' if function else 'before the first function'
                for line, what in violations(crate, function, text):
                    count += 1
                    print(f'{name_of(source)}:{first + line}: {what} {place}')
    print(f'one counted decoder: {"no" if count == 0 else count} violation{"" if count == 1 else "s"}')
    return (0, 1) if count else (1, 0)


def conflicts_in(text):
    """Yields the number of each line that marks a conflict of a merge."""
    for number, line in enumerate(text.split(b'\n'), 1):
        if re.match(rb'(<{7}|>{7}|\|{7})( |$)', line):
            yield number


def files():
    """Yields the path of each file of the repository that isn't built."""
    for folder, folders, names in os.walk(programs.TOP):
        folders[:] = sorted(name for name in folders if name not in ('.git', 'out'))
        for name in sorted(names):
            yield os.path.join(folder, name)


def no_conflicts():
    """Checks that no file has a line that marks a conflict of a merge."""
    count = 0
    for path in files():
        with open(path, 'rb') as file:
            for number in conflicts_in(file.read()):
                count += 1
                print(f'{name_of(path)}:{number}: a conflict of a merge')
    print(f'conflicts of merges: {"no" if count == 0 else count}')
    return (0, 1) if count else (1, 0)
