"""Indexes of versions 1 and 2, which earlier programs wrote: made of an index of version 3, which must have one segment
for version 1. And files of segments that `meta` knows, although no program wrote them. The digests of a list are
compared with a plain reading of docs/FORMATS."""
import hashlib
import os
import struct

# The files of a segment, in the order of `meta`, and their names in an index of version 1.
KINDS = (('term', 'term'), ('idx', 'idx'), ('pos', 'pos'), ('norm', 'fieldnorm'))


# The kinds of digests in a list of version 3.
SHA256, LONG_BLOCKS, BLOCKS = 0, 1, 2
LONG_BLOCK, BLOCK = 65536, 4096
# What the name of a file of a segment ends with, by the number of the component; a generation comes before `alive`.
COMPONENTS = ('term', 'idx', 'pos', 'norm', 'count', 'alive', 'store', 'blocks')


def turned(word, bits):
    """Returns a word of 64 bits turned left."""
    return (word << bits | word >> 64 - bits) & 0xffffffffffffffff


def sip_round(a, b, c, d):
    """Returns the state of SipHash after a round."""
    a, c = (a + b) % 2 ** 64, (c + d) % 2 ** 64
    b, d, a = turned(b, 13) ^ a, turned(d, 16) ^ c, turned(a, 32)
    c, a = (c + b) % 2 ** 64, (a + d) % 2 ** 64
    return a, turned(b, 17) ^ c, turned(c, 32), turned(d, 21) ^ a


def checksum(block):
    """Returns the SipHash-1-3 of a block, with both keys 0."""
    a, b, c, d = 0x736f6d6570736575, 0x646f72616e646f6d, 0x6c7967656e657261, 0x7465646279746573
    padded = block + bytes(-(len(block) + 1) % 8) + bytes((len(block) % 256,))
    for word, in struct.iter_unpack('<Q', padded):
        a, b, c, d = sip_round(a, b, c, d ^ word)
        a ^= word
    c ^= 0xff
    for _ in range(3):
        a, b, c, d = sip_round(a, b, c, d)
    return a ^ b ^ c ^ d


def table(text, block=BLOCK):
    """Returns the checksums of the blocks of a file."""
    return b''.join(struct.pack('<Q', checksum(text[place:place + block])) for place in range(0, len(text), block))


def digest(kind, text):
    """Returns the digest of a file."""
    if kind == SHA256:
        return hashlib.sha256(text).digest()
    return hashlib.sha256(table(text, LONG_BLOCK if kind == LONG_BLOCKS else BLOCK)).digest()


def read_meta(folder):
    """Returns the version of a list, the bytes between the version and the segments, the schema, and the segments: id,
    documents, living documents, and the files: component, generation, length, kind of the digest, and the digest."""
    with open(os.path.join(folder, 'meta'), 'rb') as file:
        meta = file.read()
    version, _, _, size = struct.unpack_from('<IQQI', meta, 8)
    if version not in (2, 3):
        raise ValueError(f'an index of version {version}')
    place = 32 + size
    count, = struct.unpack_from('<H', meta, place)
    segments, place = [], place + 2
    for _ in range(count):
        number, docs, living, many = struct.unpack_from('<QIIH', meta, place)
        files, place = [], place + 18
        for _ in range(many):
            component, generation, length = struct.unpack_from('<HQQ', meta, place)
            place += 18
            kind, place = (SHA256, place) if version == 2 else (meta[place], place + 1)
            files.append((component, generation, length, kind, meta[place:place + 32]))
            place += 32
        segments.append((number, docs, living, files))
    if meta[place:] != hashlib.sha256(meta[:place]).digest():
        raise ValueError('the checksum of meta')
    return version, meta[12:32 + size], meta[32:32 + size], segments


def write_meta(folder, version, front, segments):
    """Writes a list, of which `front` is everything between the version and the segments."""
    meta = b'nequllpa' + struct.pack('<I', version) + front + struct.pack('<H', len(segments))
    for number, docs, living, files in segments:
        meta += struct.pack('<QIIH', number, docs, living, len(files))
        for component, generation, length, kind, known in files:
            meta += struct.pack('<HQQ', component, generation, length) + (bytes((kind,)) if version == 3 else b'') + known
    put(folder, 'meta', meta + hashlib.sha256(meta).digest())


def name_of(segment, component, generation):
    """Returns the name of a file of a segment."""
    middle = f'.{generation:016x}' if COMPONENTS[component] == 'alive' else ''
    return f'{segment:016x}{middle}.{COMPONENTS[component]}'


def get(folder, name):
    with open(os.path.join(folder, name), 'rb') as file:
        return file.read()


def listed(folder):
    """Returns the schema in `meta`, and for each segment its id and number of documents."""
    _, _, schema, segments = read_meta(folder)
    return schema, [(number, docs) for number, docs, _, _ in segments]


def kinds(folder):
    """Returns the version of a list and the kinds of its digests, segment by segment. Each is compared with the file."""
    version, _, _, segments = read_meta(folder)
    found = []
    for number, _, _, files in segments:
        tables = b''
        for component, generation, length, kind, known in files:
            name = name_of(number, component, generation)
            text = get(folder, name)
            if len(text) != length or digest(kind, text) != known:
                raise ValueError(f'meta has another digest of {name}')
            if COMPONENTS[component] == 'blocks' and text != tables:
                raise ValueError(f'{name} has other tables than those of the files')
            tables += b'' if COMPONENTS[component] == 'alive' else table(text)
        found.append([kind for _, _, _, kind, _ in files])
    return version, found


def to_long_blocks(folder):
    """Gives the files of an index of version 3 digests of long blocks, and its segments the tables of these."""
    version, front, _, segments = read_meta(folder)
    older = []
    for number, docs, living, files in segments:
        tables, listed_files = b'', []
        for component, generation, length, kind, known in files:
            name = name_of(number, component, generation)
            if COMPONENTS[component] == 'blocks':
                put(folder, name, tables)
                length = len(tables)
            text = get(folder, name)
            tables += b'' if COMPONENTS[component] == 'alive' else table(text, LONG_BLOCK)
            listed_files.append((component, generation, length, LONG_BLOCKS, digest(LONG_BLOCKS, text)))
        older.append((number, docs, living, listed_files))
    write_meta(folder, version, front, older)


def to_second(folder):
    """Makes an index of version 3 one of version 2, in which no segment has tables of blocks."""
    _, front, _, segments = read_meta(folder)
    older = []
    for number, docs, living, files in segments:
        take(folder, number, 'blocks')
        files = [file for file in files if COMPONENTS[file[0]] != 'blocks']
        texts = [get(folder, name_of(number, file[0], file[1])) for file in files]
        older.append((number, docs, living, [(*file[:3], SHA256, digest(SHA256, text)) for file, text in zip(files, texts)]))
    write_meta(folder, 2, front, older)


def take(folder, segment, kind):
    """Returns the bytes of a file of a segment, and removes it."""
    path = os.path.join(folder, f'{segment:016x}.{kind}')
    with open(path, 'rb') as file:
        text = file.read()
    os.remove(path)
    return text


def put(folder, name, text):
    with open(os.path.join(folder, name), 'wb') as file:
        file.write(text)


def to_first(folder):
    """Makes an index of one segment, none of whose documents is deleted, one of version 1."""
    schema, ((segment, docs),) = listed(folder)
    files = [('schema', schema)] + [(name, take(folder, segment, kind)) for kind, name in KINDS]
    take(folder, segment, 'count')
    take(folder, segment, 'blocks')
    meta = b'nequllpa' + struct.pack('<IBI', 1, 0, docs)
    for name, text in files:
        put(folder, f'{name}.0', text)
        meta += struct.pack('<Q', len(text)) + hashlib.sha256(text).digest()
    put(folder, 'meta', meta + hashlib.sha256(meta).digest())


def change(folder, name, text):
    """Gives a file of a segment other bytes, and tells `meta` their length and digest."""
    version, front, _, segments = read_meta(folder)
    found, changed = 0, []
    for number, docs, living, files in segments:
        for place, (component, generation, _, kind, _) in enumerate(files):
            if name_of(number, component, generation) == name:
                files[place] = component, generation, len(text), kind, digest(kind, text)
                found += 1
        changed.append((number, docs, living, files))
    if found != 1:
        raise ValueError(f'meta lists {name} {found} times')
    put(folder, name, text)
    write_meta(folder, version, front, changed)


def change_schema(folder, old, new):
    """Replaces a text of the schema of a list of segments by another one."""
    with open(os.path.join(folder, 'meta'), 'rb') as file:
        meta = file.read()[:-32]
    size, = struct.unpack_from('<I', meta, 28)
    schema = meta[32:32 + size]
    if schema.count(old) != 1:
        raise ValueError(f'the schema has {old} {schema.count(old)} times')
    schema = schema.replace(old, new)
    meta = meta[:28] + struct.pack('<I', len(schema)) + schema + meta[32 + size:]
    put(folder, 'meta', meta + hashlib.sha256(meta).digest())
