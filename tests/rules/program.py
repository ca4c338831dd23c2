#!/usr/bin/env python3
"""Plants what the searches of the sources look for, each in every spelling. The searches must report it, and must
not report lawful code."""
import os
import sys

sys.dont_write_bytecode = True
sys.path.insert(0, os.path.join(os.path.dirname(os.path.abspath(__file__)), '..', '..', 'tools'))
import allocation_rules
import source_rules

FABRICATED = (
    'return Err(AllocError);',
    'return Err(Fault::from(AllocError));',
    'let refused = AllocError; return Err(refused.into());',
    'return Err(AllocFailed { value: 0 });',
    'return Err(Fault::OutOfMemory);',
    'return Err(ParseError::OutOfMemory.into());',
    'use Fault::OutOfMemory as Other; return Err(QueryParserError::Fault(Fault::OutOfMemory));',
    'let fault = Fault::OutOfMemory;',
    'output.reserve(usize::MAX)?;',
    'output.try_reserve(u64::MAX as usize)?;',
    'let list: Vec<u8> = Vec::with_capacity(alloc, 1 << 60)?;',
    'output.resize(output.len() + u32::MAX as usize, 0)?;',
    'let bytes = vec![in alloc; 0u8; usize::MAX]?;',
)
LAWFUL = (
    'fn planted(alloc: Global) -> Result<Vec<u8>, AllocError> {',
    'fn from(_: AllocError) -> Fault {',
    'impl From<AllocError> for Fault {',
    '    ensures { result ≡ Err Fault.OutOfMemory }\n{',
    '    ghost from_gives = { λ _ f. f ≡ OutOfMemory };',
    '    OutOfMemory,',
    'output.reserve(bytes.len())?;',
    'let list = Vec::with_capacity(alloc, schema.num_fields())?;',
    'if count == u64::MAX { return Err(Fault::Limit(LimitName::Offset)); }',
)
# For each way around the counter of a decoder, the lines that take it.
UNCOUNTED = {
    'a decoder': ('let other = BlockDecoder::with_val(0);',),
    'a copy': ('let other = self.skip.clone()?;',),
    'a cursor that starts again': ('let other = SkipReader::new(bytes, doc_freq, skip_info);',),
    'a cursor, a reader or a decoder built from its fields': ('let other = SkipReader { doc_freq, place };',),
    'the complete validation': ('let found = check_postings(doc_freq, bytes, recorded, requested);',),
    'a replaced value': ('std::mem::swap(&mut self.skip, &mut other);',),
    'a new log of decoded blocks': ('self.decoded_blocks = DecodedBlocks::none();',),
    'a log that a block is added to': ('self.decoded_blocks.docs = self.decoded_blocks.docs.with_block(skip, decoder);',),
    'a new counter': ('let counter = GhostCounter::new();', 'let counts = CheckedPositions::none();', 'let count = DecodeCount { };'),
    'a counter that is incremented or copied': ('self.decodes.next();', 'checked_positions.add_positions(&decoder);'),
    'an unpacked block': ('unpack_from(bytes, num_bits, &mut values);',),
    'a counted read': ('self.read_sorted_row(bytes, before, num_docs);',),
    'entries read without a counter': ('let value = read_bits(bytes, 0, num_bits);',),
    'a row of vints that is read': ('let count = uncompress_sorted(bytes, &mut values);',),
    'a skip entry that is read': ('self.read_entry(skip_data);',),
    'a decoded field of a skip entry': ('let last_doc = LittleEndian::read_u32(skip_data);',),
    'bits read without a counter': ('let value = extract_bits(bytes, 0, num_bits);',),
}
RENAMED = {
    'an import under another name': 'use ii_codes::BlockDecoder as Decoder;',
    'another name for a type': 'type Decoder = BlockDecoder;',
}

CONFLICTS = (b'<' * 7 + b' HEAD', b'>' * 7 + b' other', b'|' * 7 + b' base', b'<' * 7)


def unreported():
    """Yields each planted line that the searches miss, and each lawful line that they report."""
    for line in FABRICATED:
        if not list(allocation_rules.fabricated_in(line)):
            yield f'not reported: {line}'
    for line in LAWFUL:
        if list(allocation_rules.fabricated_in(line)):
            yield f'reported, although it is lawful: {line}'
    for what, pattern, allowed in source_rules.COUNTED:
        for crate in allowed:
            for line in UNCOUNTED[what]:
                if what not in [found for _, found in source_rules.violations(crate, 'planted', line)]:
                    yield f'not reported in {crate}: {line}'
    for line in CONFLICTS:
        if list(source_rules.conflicts_in(b'a\n' + line + b'\nb')) != [2]:
            yield f'not reported: {line.decode()}'
    for line in (b'=' * 7, b'<' * 8, b' ' + CONFLICTS[0]):
        if list(source_rules.conflicts_in(line)):
            yield f'reported, although it is lawful: {line.decode()}'
    for what, line in RENAMED.items():
        if what not in [found for _, found in source_rules.violations('ii_reader', 'planted', line)]:
            yield f'not reported: {line}'


def main():
    missed = list(unreported())
    for line in missed:
        print(f'tests/rules: {line}')
    planted = len(FABRICATED) + len(CONFLICTS) + len(RENAMED) + sum(len(allowed) * len(UNCOUNTED[what]) for what, _, allowed in source_rules.COUNTED)
    print(f'tests/rules: {planted} planted lines, {len(missed)} mistakes')
    return 1 if missed else 0


sys.exit(main())
