"""The search for fabricated allocation failures.

A clause allows almost every call to fail with `OutOfMemory`, and the prover can't know whether memory was there. So
a body that always fails, or fails above some size, meets its contract. This search closes that gap: outside tests, no
source creates the kit's error of a refused allocation, or names a fault for it, except in the functions of PLACES.
There a call of the kit or of a crate was refused, and its failure is passed on. No growth asks for an absurd size,
which the kit would refuse.

What it looks for, in the code of each function (not in comments, imports and contracts):

- `AllocError` or `AllocFailed` as a value: `Err(AllocError)`, `Fault::from(AllocError)`.
- The name `OutOfMemory` of any enum, imported or not.
- A growth by a constant at the end of a range, or by a shift: `reserve(usize::MAX)`, `with_capacity(alloc, 1 << 60)`.

`tests/rules/program.py` plants each spelling, and the search must report it."""
import os
import re

import source_rules

# The functions that may name an allocation failure, by file. After each, why.
PLACES = {
    'ii_io/src/faults.rt': {
        'number', 'is_memory',  # they read a fault
        'in_memory',  # a writer over memory fails only if it can't grow
        'from'},  # the kit's error becomes a fault
    'ii_alive/src/faults.rt': {'from'},
    'ii_block_file/src/faults.rt': {'from'},
    'ii_block_file/src/listed_file.rt': {'table_fault'},  # reading a table was refused memory
    'ii_file_slice/src/faults.rt': {'from'},
    'ii_warmup/src/index_parts.rt': {'open_fields'},  # the list of readers couldn't grow
    'ii_doc_store/src/faults.rt': {'from', 'in_file'},
    'ii_documents/src/faults.rt': {'of_json', 'of_hex', 'from'},  # errors of the kit's crates become faults
    'ii_documents/src/line_fields.rt': {
        'read_line',  # the kit's reader of JSON was refused memory
        'value_text', 'quoted'},  # the text of a JSON value couldn't grow
    'ii_schema_text/src/faults.rt': {'of_toml', 'from'},
    'ii_query_grammar/src/parse_error.rt': {'from'},
    'ii_query_parser/src/query_parser_error.rt': {'from'},
    'ii_store/src/faults.rt': {'from'},
    'ii_segment_store/src/faults.rt': {
        'from',
        'memory_fault', 'flags_fault'},  # a call that fails for nothing else was refused
    'ii_segment_store/src/new_segment.rt': {'read_table'},  # reading a table was refused memory
    'ii_directory/src/faults.rt': {'from'},
    'ii_directory/src/memory_files.rt': {
        'stop_in_put',  # a copy of the bytes was refused
        'write_fault'},  # a vector that is written fails only if it can't grow
    'ii_directory/src/new_file.rt': {'over'},  # the buffer of a writer was refused
    'ii_term_text/src/terms.rt': {'bytes_term', 'is_memory'},  # the kit's `hex` couldn't grow
    'ii_folder_promises/src/stored_lines.rt': {'stored_lines_come_back', 'merged_lines_come_back', 'line_of', 'read_fault', 'copied'},  # a store, or a copy of a line
    'ii_folder_promises/src/stored_fields.rt': {'stored_fields_come_back'},  # a store couldn't be shared
    'ii_index/src/faults.rt': {'from'},
    'nequllpa_opening/src/faults.rt': {'is_memory', 'from'},
    'nequllpa_warming/src/faults.rt': {'from'},
    'nequllpa_opening/src/opened.rt': {'documents_fault'},  # stored documents couldn't be opened for it
    'nequllpa_indexing/src/documents.rt': {'push_line'},  # the list of calls couldn't grow
    'nequllpa_indexing/src/faults.rt': {'is_memory'},
    'nequllpa_indexing/src/keyed_lines.rt': {'add_to', 'add_all'},  # a list of lines or keys, or a copy of a key, was refused
    'nequllpa_indexing/src/line_keys.rt': {'no_memory'},  # the same of a line and its key
    'nequllpa_indexing/src/lines.rt': {'push_record'},  # the record of a line couldn't be built
    'nequllpa_inspecting/src/stored_lines.rt': {
        'from', 'memory',
        'store_of', 'store_damages'},  # stored documents couldn't be opened for it
    'nequllpa_merging/src/faults.rt': {'from'},
    'nequllpa_merging/src/stores.rt': {'read_fault'},  # a range of a store couldn't be read for it
    'nequllpa_writing/src/indexing.rt': {'put_line'},  # a line with its place couldn't be built
    # The program prints `error 1` for any refused allocation, so a fault of a call that fails only with
    # `OutOfMemory` becomes the kit's error.
    'iiq/src/commands.rt': {'text_query', 'num_query'},
    'iiq/src/leaves.rt': {'term', 'joined_path'},
    'iiq/src/output.rt': {'written', 'push_item'},
    'iiq/src/session.rt': {'list_text', 'found_below', 'query_of_text', 'no_query'},
    'iiq/src/words.rt': {'bytes_of'},
}
# What is looked for, and what it is called.
SPELLINGS = (
    (r'(?<!: )\b(AllocError|AllocFailed)\b(?!\s*[<>])', 'creates an allocation failure'),
    (r'\bOutOfMemory\b', 'names an allocation failure'),
    (r'\b(try_)?(reserve(_exact)?|with_capacity|resize|repeat)\s*\([^;]*?(\bMAX\b|<<)', 'asks for an absurd size'),
    (r'\bvec!\[[^\]]*(\bMAX\b|<<)', 'asks for an absurd size'),
)
# The contract of a function, and of a function of a trait; ghost members; the declaration of a variant.
CONTRACT = r'(?ms)^\s*(?:requires|ensures)\b.*?(?:^\s*\{\s*$|;\s*$)'
GHOST = r'(?m)^\s*ghost\b.*$'
VARIANT = r'(?m)^\s*OutOfMemory,\s*$'


def is_searched(source):
    """Returns whether a source belongs to the product: not to a crate or a module of tests."""
    crate = source_rules.name_of(source).split(os.sep)[1]
    return not source_rules.is_test(source) and not crate.endswith('_tests') and os.path.basename(source) != 'tests.rt'


def fabricated_in(text):
    """Yields each violation in the text of a function: its line in the text, counted from 0, and what it does."""
    for pattern in (source_rules.IMPORT, CONTRACT, GHOST, VARIANT):
        text = source_rules.without(pattern, text)
    for pattern, what in SPELLINGS:
        for found in re.finditer(pattern, text):
            yield text.count('\n', 0, found.start()), what


def fabricated(source):
    """Yields each violation in a source: its line and what it does."""
    place = os.path.relpath(source_rules.name_of(source), 'crates').replace(os.sep, '/')
    for function, first, text in source_rules.functions(source):
        if function not in PLACES.get(place, ()):
            for line, what in fabricated_in(text):
                yield first + line, what


def allocation_failures():
    """Checks that no source fabricates an allocation failure. Returns how many tests passed and how many failed."""
    count = 0
    for source in source_rules.sources_of('*'):
        if is_searched(source):
            for line, what in fabricated(source):
                count += 1
                print(f'{source_rules.name_of(source)}:{line}: {what}')
    print(f'sources: {"none of them fabricates" if count == 0 else f"{count} of their lines fabricate"} an allocation failure')
    return (0, 1) if count else (1, 0)
