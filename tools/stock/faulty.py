"""Archives with one fault each, made of a sound one: what `check` says of each, what why.py says, and what pmlogcheck says.

`FAULTS` has for each its name, how it is made of the files, and the row of docs/STOCK.md that why.py is to name, or None where the files
are an archive, but one that isn't sound."""
import os, sys

HERE = os.path.dirname(os.path.realpath(__file__))
sys.path.insert(0, os.path.join(HERE, '..'))
from archive import big, description, payloads, word

LABEL = 132


def put(files, name, at, data):
    files[name] = files[name][:at] + data + files[name][at + len(data):]


def ends(data):
    out = [LABEL]
    for payload in payloads(data):
        out.append(out[-1] + len(payload) + 8)
    return out


def domain_at(files):
    """Where the first domain of Meta begins."""
    return next(at for at, payload in zip(ends(files['meta']), payloads(files['meta'])) if word(payload, 0) == 2)


def blocked_at(files):
    """Where the first pair of a set by block stands in volume 0, its payload's bytes in front of it."""
    payload, at = next(payloads(files['0'])), 12
    while word(payload, at + 8) != 1:
        at += 12 + 8 * word(payload, at + 4)
    return LABEL + 4 + at + 16


def swapped(files):
    one, two, three = ends(files['0'])[1:4]
    data = files['0']
    files['0'] = data[:one] + data[two:three] + data[one:two] + data[three:]
    files['index'] = files['index'][:LABEL]


def late(files):
    """The second entry says the first one's stamp."""
    put(files, 'index', LABEL + 20, files['index'][LABEL:LABEL + 8])


def described_otherwise(files):
    first = next(payloads(files['meta']))
    files['meta'] += description(word(first, 4), 7, 0xffffffff, 1, 0, [b'mmv.r0.c1'])


FAULTS = [
    ('two results in the wrong order', swapped, None),
    ('an entry of the index that leads between records', lambda files: put(files, 'index', LABEL + 16, big(files['index'][LABEL + 19] + 2000)), None),
    ('an entry of the index with the stamp of the one before', late, None),
    ('an entry of the index for a volume that is not there', lambda files: put(files, 'index', LABEL + 8, big(700)), None),
    ('the last result torn', lambda files: files.update({max(files, key=lambda name: int(name) if name.isdigit() else -1):
        files[max(files, key=lambda name: int(name) if name.isdigit() else -1)][:-5]}), None),
    ('another magic number', lambda files: put(files, 'meta', 4, big(0x50052501)), 'no label'),
    ('a volume of another process', lambda files: put(files, '1', 8, big(77)), 'another archive'),
    ('a volume that is torn before the last', lambda files: files.update({'0': files['0'][:-5]}), 'torn'),
    ('a record whose lengths differ', lambda files: put(files, '0', ends(files['0'])[1] - 4, big(44)), 'frame'),
    ('a result at 1,000,000 microseconds', lambda files: put(files, '0', LABEL + 8, big(1000000)), 'stamp'),
    ('a domain of more instances than it holds', lambda files: put(files, 'meta', domain_at(files) + 4 + 16, big(1000)), 'fields'),
    ('a metric that is described twice', described_otherwise, 'described twice'),
    ('a set in storage mode 2', lambda files: put(files, '0', blocked_at(files) - 8, big(2)), 'storage mode'),
    ('a block outside its result', lambda files: put(files, '0', blocked_at(files), big(1 << 20)), 'block'),
    ('an entry of the index from 2^31 on', lambda files: put(files, 'index', LABEL + 12, big(1 << 31)), 'entry'),
    ('no volume beside an index with entries', lambda files: [files.pop(name) for name in list(files) if name.isdigit()], 'no volume'),
]


def read(base):
    folder, name = os.path.split(base)
    files = {}
    for file in os.listdir(folder):
        if file.startswith(name + '.'):
            with open(os.path.join(folder, file), 'rb') as it:
                files[file[len(name) + 1:]] = it.read()
    return files


def made(sound, folder):
    """Yields the name, the base and the row of each archive with a fault; the sound one has at least two volumes."""
    for k, (name, change, row) in enumerate(FAULTS):
        files, base = read(sound), os.path.join(folder, 'fault%d' % k)
        change(files)
        for file, data in files.items():
            with open('%s.%s' % (base, file), 'wb') as out:
                out.write(data)
        yield name, base, row
