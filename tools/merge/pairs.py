#!/usr/bin/env python3
"""Pairs of archives that the program `pcp` merges, compared with a merge in plain Python.

Usage: pairs.py PROGRAM COUNT [SEED]

A pair is made by the program (`make`, `once`, `replay` with layouts that change), or written here as another logger may have left it, or
one of each. Its merge goes to no files, or behind those that the program, another logger or an earlier merge left, whole or cut off.
Some sources are spoilt. Compared are the status, what is printed, and the bytes of all files; and both sources stay as they were. What
`check` says of a spoilt source, and `recover` of an output, is what the merge has to say of it. The first pair that differs is told
and left in a folder; the last line is `COUNT pairs, N differ`.
"""
import collections, os, random, shutil, struct, subprocess, sys, tempfile
from concurrent.futures import ProcessPoolExecutor
sys.path.append(os.path.join(os.path.dirname(os.path.realpath(__file__)), '..', 'fold'))
from foreign import Pool, some_foreign
from plain_fold import Archive
from plain_merge import LABEL, RECORD, big, extracted, framed, payloads, result_payload, volumes
from scripts import first_difference, some_head, some_run

LIMITS = [1024, 1200, 2000, 65536, 1048576, 1048576, 1073741824]


class Pair:
    """Two sources and an output, each in a folder of its own."""

    def __init__(self, program, folder, rng):
        self.program, self.folder, self.rng = program, folder, rng
        self.pool, self.head, self.told = Pool(rng), some_head(rng), []
        for name in ('first', 'second', 'output', 'copy'):
            os.mkdir(os.path.join(folder, name))

    def base(self, name):
        return os.path.join(self.folder, name, 'a')

    def files(self, name):
        """The bytes of the files of an archive that aren't empty."""
        found = {}
        for entry in os.listdir(os.path.join(self.folder, name)):
            with open(os.path.join(self.folder, name, entry), 'rb') as file:
                found[entry.split('.', 1)[1]] = file.read()
        return {entry: data for entry, data in found.items() if data}

    def write(self, name, files):
        shutil.rmtree(os.path.join(self.folder, name))
        os.mkdir(os.path.join(self.folder, name))
        for entry, data in files.items():
            with open('%s.%s' % (self.base(name), entry), 'wb') as file:
                file.write(data)

    def says(self, words, text=b''):
        ran = subprocess.run([self.program] + words, input=text, capture_output=True, timeout=900)
        return ran.returncode, ran.stdout.decode('latin-1')

    # ---- how archives are made

    def make(self, name, rng):
        self.says([self.base(name), 'make', str(rng.randrange(3)), str(rng.choice([1, 3, 12, 40])), str(rng.choice([1024, 3000, 65536]))])

    def once(self, name, rng):
        images, regions = self.head[:2]
        image = rng.choice(list(images.values()))
        words = ['once', str(rng.choice([100, 101, 102])), str(rng.choice([0, 0, 250000])), rng.choice(regions)[0]]
        self.says([self.base(name)] + words, struct.pack('<%dQ' % len(image.words), *image.words))

    def replay(self, name, rng):
        """A script of this pair's head, mostly, from a moment at which the other source's may begin too."""
        head = self.head if rng.random() < 0.9 else some_head(rng)
        moments = [5, 5, 5, 100000000] if name == 'output' else [100000000, 100000000, 102000000, 5]
        lines = some_run(rng, head, Archive(), 1048576, rng.choice(moments))[0]
        text = ''.join(line + '\n' for line in lines).encode('latin-1')
        self.says([self.base(name), 'replay', str(rng.choice([1024, 2000, 1048576]))], text)

    def foreign(self, name, rng):
        # an output's items stand mostly before those that come
        self.pool.back = 30 if name == 'output' and rng.random() < 0.7 else 0
        self.write(name, some_foreign(self.pool, name == 'second'))

    def fill(self, name, kinds):
        rng = self.rng
        kind = rng.choice(kinds)
        self.told.append('%s: %s' % (name, kind))
        for _ in range(rng.choice([1, 1, 2]) if kind in ('once', 'replay') else 1):
            getattr(self, kind)(name, rng)

    def spoil(self, name):
        """An archive that is unreadable, unsound, torn or wrapped."""
        rng, files = self.rng, self.files(name)
        entry, how = rng.choice(sorted(files) or ['meta']), rng.choice(['byte', 'byte', 'tail', 'front', 'wrapped', 'entry', 'stamp', 'stamp'])
        self.told.append('%s spoilt: %s of %s' % (name, how, entry))
        data = bytearray(files.get(entry, b''))
        if how == 'wrapped':
            files['%s.xz' % rng.choice(['meta', 'index', '0', '3'])] = b'wrapped'
        elif how == 'entry':
            self.mislead(files)
        elif how == 'stamp':
            self.put_back(files)
        elif how == 'byte' and data:
            data[rng.randrange(len(data))] ^= 1 << rng.randrange(8)
            files[entry] = bytes(data)
        else:
            files[entry] = bytes(data[:-rng.randint(1, 40)] if how == 'tail' else data[:rng.randint(0, LABEL)])
        self.write(name, files)

    def mislead(self, files):
        """The last entry has another stamp, or leads elsewhere."""
        data = bytearray(files.get('index', b''))
        if len(data) > LABEL:
            data[len(data) - self.rng.randint(1, 20)] ^= 1
            files['index'] = bytes(data)

    def put_back(self, files):
        """The last result of a volume is stamped before those before it."""
        for number in volumes(files)[-1:]:
            data = files[str(number)]
            last = LABEL + sum(len(payload) + 8 for payload in payloads(data)[0][:-1])
            files[str(number)] = data[:last + 4] + bytes(4) + data[last + 8:] if last + 8 <= len(data) else data

    def cut(self, name):
        """An archive as a stop may have left it: the last volume, Meta or the index cut off within its last bytes."""
        rng, files = self.rng, self.files(name)
        entry = rng.choice(['meta', 'index', str(max(volumes(files), default=0))])
        if len(files.get(entry, b'')) > LABEL:
            whole = payloads(files[entry])[1] if entry != 'index' else len(files[entry])
            files[entry] = files[entry][:whole - rng.randint(1, min(19, whole - LABEL))] if whole > LABEL else files[entry]
            self.told.append('%s cut: %s' % (name, entry))
            self.write(name, files)

    # ---- what is expected

    def expected(self, files, limit):
        """The status, what is printed, and the output's files, which stay as they are where a source or the output isn't passed."""
        for number, name in enumerate(('first', 'second'), 1):
            status, said = self.says([self.base(name), 'check'])
            if status:
                return status, 'source %d\n%s' % (number, said), files['output']
        self.write('copy', files['output'])
        status, said = self.says([self.base('copy'), 'recover'])
        if status:
            return status, said, self.files('copy')
        return extracted(files['first'], files['second'], files['output'], limit)

    def differs(self, limit):
        """What differs in a merge, or None, and its status."""
        files = {name: self.files(name) for name in ('first', 'second', 'output')}
        status, said, after = self.expected(files, limit)
        ours = self.says([self.base('output'), 'extract', self.base('first'), self.base('second'), str(limit)])
        if ours != (status, said):
            return 'expected %d\n%s\nprogram %d\n%s' % (status, said, *ours), status
        for name in ('first', 'second'):
            if self.files(name) != files[name]:
                return 'the %s source changed' % name, status
        return first_difference(after, self.files('output')), status

    def run(self):
        """What differs, or None, and the statuses that were met."""
        rng, met = self.rng, []
        kinds = rng.choice([['foreign'], ['foreign'], ['replay'], ['replay', 'once'], ['make', 'replay', 'once', 'foreign']])
        for name in ('first', 'second'):
            if rng.random() > 0.02:
                self.fill(name, kinds)
        if rng.random() < 0.05:
            self.write('second', self.files('first'))
        if rng.random() < 0.12:
            self.spoil(rng.choice(['first', 'second']))
        if rng.random() < 0.3:
            self.fill('output', ['make', 'replay', 'once', 'foreign'])
            rng.random() < 0.3 and self.cut('output')
            rng.random() < 0.1 and self.spoil('output')
        for _ in range(rng.choice([1, 1, 1, 2])):
            limit = rng.choice(LIMITS)
            found, status = self.differs(limit)
            met.append(status)
            if found:
                return '%s\nlimit %d\n%s' % ('\n'.join(self.told), limit, found), met
        return None, met


def one_pair(program, number, seed):
    """What differs in a pair, or None, and the statuses that were met."""
    folder = tempfile.mkdtemp(dir='/dev/shm' if os.path.isdir('/dev/shm') else None)
    found, met = Pair(program, folder, random.Random('%s %d' % (seed, number))).run()
    if found:
        return 'seed %s, pair %d, left in %s:\n%s' % (seed, number, folder, found), met
    shutil.rmtree(folder)
    return None, met


def large_pair(program):
    """Two results of one stamp, each within a record's bounds, that together are above them."""
    with tempfile.TemporaryDirectory() as folder:
        pair = Pair(program, folder, random.Random(0))
        for name, item in (('first', 1), ('second', 2)):
            pmid, label = 70 << 22 | item, lambda number: framed(big(0x50052602, 1, 100, 0, number) + b'h'.ljust(64, b'\0') + b'z'.ljust(40, b'\0'))
            meta = big(1, pmid, 6, 0xffffffff, 3, 0, 1, 3) + b'a.%d' % item
            record = result_payload((100, 0), [(pmid, 'blocks', [(-1, (6, b'x' * (RECORD // 2)))])])
            pair.write(name, {'meta': label(-1) + framed(meta), 'index': label(-2), '0': label(0) + framed(record)})
        return pair.differs(1048576)[0]


def main(program, count, seed='1'):
    """Compares as many pairs, several beside each other."""
    program, differing, statuses = os.path.realpath(program), 0, collections.Counter()
    with ProcessPoolExecutor(int(os.environ.get('JOBS', os.cpu_count()))) as jobs:
        for found, met in jobs.map(one_pair, [program] * count, range(count), [seed] * count, chunksize=10):
            statuses.update(met)
            if found:
                differing += 1
                if differing == 1:
                    print(found, flush=True)
    found = large_pair(program)
    if found:
        differing += 1
        print('a record that is too large: %s' % found)
    print('statuses ' + ', '.join('%d: %d' % pair for pair in sorted(statuses.items())))
    print('%d pairs, %d differ' % (count, differing))
    return 1 if differing else 0


if __name__ == '__main__':
    if len(sys.argv) not in (3, 4):
        sys.exit(__doc__)
    sys.exit(main(sys.argv[1], int(sys.argv[2]), *sys.argv[3:]))
