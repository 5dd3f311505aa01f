"""What is asked by time of random archives, also of bad ones, by the program and by plain Python, and compared.

Usage: values.py PROGRAM COUNT [SEED]

An archive has up to five volumes, of results, statuses and marks whose stamps may go back, of metrics that may share a name, and an index, or none,
whose entries may lead anywhere. Most are then spoilt: ends are torn, volumes emptied or cut within their labels, bytes and records altered. Of each
some runs of `value`, `at`, `range` and `dump` are compared: status, output, and that no file changed. Expected is what docs/FORMATS.md and the
manual say: of a file that fits no archive the first place is told, Meta's first, then the index's, then the volumes' labels; then `dump` reads all,
`at` and `range` from where the index says, and `value` the volumes from the last one down, up to one that has an item with values that isn't after
the moment. The first run that differs is printed; the last line is `N archives, M differ`.
"""
import os, random, sys, tempfile
sys.path[:0] = [os.path.join(os.path.dirname(os.path.abspath(__file__)), folder) for folder in ('..', '../stock')]
import archive as records
from archive import Archive, number_of, pmid_text, read_item, stamp_text, word
from images import escaped, quoted
from scripts import files_at
from summaries import LAST, instance_text, put_files, said, some_meta, some_metrics, some_set
from why import Misfit, meta_says, result_says

LABEL, MOST, PAGE = 132, 1 << 24, 65536
FIELDS = [0, 4, 8, 12, 16, 20, 24, 88, 128]


class Refused(Exception):
    """A status and its line."""


def stops(file, at):
    return Refused(6, 'not archive %s %d\n' % (file, at))


# ---- what files say, or the first place that fits no archive

def misfits(data, at):
    """Whether a byte can't stand there in a label of Meta behind those in front of it."""
    micros = data[16:at + 1].ljust(4, b'\0') if 16 <= at < 20 else b''
    unended = at in (87, 127) and b'\0' not in data[24 if at == 87 else 88:at + 1]
    return at == 12 and data[at] > 127 or int.from_bytes(micros, 'big') > 999999 or unended


def label_stop(data, number, own):
    """Where a label doesn't go on, or None; `own` is Meta's, or None of Meta itself."""
    wanted = {0: records.big(LABEL), 4: records.big(0x50052602), 20: records.big(number), 128: records.big(LABEL)}
    for at in range(min(len(data), LABEL)):
        field = max(start for start in FIELDS if start <= at)
        is_behind = field in (24, 88) and own and b'\0' in own[field:at]
        if field in wanted and data[at] != wanted[field][at - field] or own is None and misfits(data, at):
            return at
        if field not in wanted and own and data[at] != own[at] and not is_behind:
            return field
    return None


def frame_end(data, at):
    """Where the record at an offset ends: None where it is torn, 0 where it is none."""
    length = word(data, at)
    if at + 4 > len(data) or 12 <= length <= MOST and at + length > len(data):
        return None
    return at + length if 12 <= length <= MOST and word(data, at + length - 4) == length else 0


def fits(judge, *words):
    try:
        judge(*words)
        return True
    except Misfit:
        return False


def read_meta(data):
    """Meta's whole records have to be such."""
    before, at = [], LABEL
    while frame_end(data, at) is not None:
        end = frame_end(data, at)
        payload = data[at + 4:end - 4]
        if not end or not fits(meta_says, payload, before):
            raise stops('meta', at)
        before.append(payload)
        at = end


def read_index(data):
    """The entries: stamp, volume and offset."""
    entries = []
    for at in range(LABEL, len(data) - 19, 20):
        seconds, micros, volume, meta, offset = (word(data, at + 4 * k) for k in range(5))
        if seconds >= 1 << 31 or micros >= 1000000 or max(volume, meta, offset) >= 1 << 31:
            raise stops('index', at)
        entries.append(((seconds, micros), volume, offset))
    return entries


class Found:
    """The files of an archive, judged as they are loaded."""

    def __init__(self, files):
        meta, index = (files.get(name, b'') for name in ('meta', 'index'))
        self.volumes, self.entries, self.facts = [], [], Archive({})
        numbers = sorted(int(name) for name in files if name.isdigit())
        wrapped = [name for name in files if not name.isdigit() and name not in ('meta', 'index')]
        if wrapped:
            raise Refused(6, 'compressed %s\n' % wrapped[0].split('.')[0])
        if label_stop(meta, -1, None) is not None:
            raise stops('meta', label_stop(meta, -1, None))
        if len(meta) < LABEL:
            if index or numbers:
                raise stops('meta', len(meta))
            return
        read_meta(meta)
        self.facts = Archive({'meta': meta})
        if label_stop(index, -2, meta) is not None:
            raise stops('index', label_stop(index, -2, meta))
        self.entries = read_index(index)
        for number in numbers:
            self.take(number, files[str(number)], meta, number == numbers[-1])
        if self.entries and all(len(data) < LABEL for _, data in self.volumes):
            raise stops('index', LABEL)

    def take(self, number, data, meta, is_last):
        at = label_stop(data, number, meta)
        if at is not None or len(data) < LABEL and not is_last:
            raise stops(number, len(data) if at is None else at)
        self.volumes.append((number, data))

    def stand(self, k, at):
        """What stands at an offset of a volume: an item and where it ends, or None at the end of all."""
        number, data = self.volumes[k]
        end = frame_end(data, at)
        if end is None and k == len(self.volumes) - 1:
            return None
        if not end or not fits(result_says, data[at + 4:end - 4], pmid_text):
            raise stops(number, at)
        return read_item(data[at + 4:end - 4]), end

    def within(self, k, at):
        """The items of a volume from an offset on."""
        while k == len(self.volumes) - 1 or at < len(self.volumes[k][1]):
            found = self.stand(k, at)
            if found is None:
                return
            yield found[0]
            at = found[1]

    def walk(self, k, at):
        """The items from a place on, over the ends of volumes."""
        for n in range(k, len(self.volumes)):
            yield from self.within(n, at if n == k else LABEL)

    # ---- what is asked

    def begin(self, is_by):
        """Where a search begins: which of the volumes, and an offset."""
        by = [entry for entry in self.entries if is_by(entry[0])]
        held = dict(self.volumes)
        if not by or by[-1][1] not in held:
            return 0, LABEL
        _, volume, offset = by[-1]
        if not LABEL <= offset <= len(held[volume]):
            raise stops(volume, offset)
        return list(held).index(volume), offset

    def segment(self, place, last):
        found = []
        for item in self.walk(*place):
            if item[0] > last:
                break
            found.append(item)
        return found

    def before(self, k, at):
        """The item of the record that ends at a place, over the start of a volume too; None where no volume below has one."""
        if at == LABEL:
            filled = [n for n in range(k) if len(self.volumes[n][1]) > LABEL]
            if not filled:
                return None
            k, at = filled[-1], len(self.volumes[filled[-1]][1])
        number, data = self.volumes[k]
        length = word(data, at - 4)
        if not 12 <= length <= min(MOST, at - LABEL) or word(data, at - length) != length:
            raise stops(number, at)
        payload = data[at - length + 4:at - 4]
        if not fits(result_says, payload, pmid_text):
            raise stops(number, at - length)
        return read_item(payload)

    def at(self, stamp):
        place = self.begin(lambda entry: entry <= stamp)
        found = self.segment(place, stamp)[-1:]
        if not found and self.volumes:
            item = self.before(*place)
            found = [item] if item and item[0] <= stamp else []
        if not found:
            raise Refused(11, 'nothing at %d %d\n' % stamp)
        return item_text(self.facts, *found[0])

    def range(self, first, last):
        items = self.segment(self.begin(lambda entry: entry < first), last)
        return ''.join(item_text(self.facts, *item) for item in items if item[0] >= first)

    def dump(self):
        """All items; a page that is full is written before a place that fits no archive is met."""
        if self.facts.label is None:
            return 'archive none\n'
        process, _, host, zone = self.facts.label
        written, page = '', 'archive %d %s %s\n' % (process, host.decode('latin-1'), zone.decode('latin-1'))
        try:
            for item in self.walk(0, LABEL):
                page += item_text(self.facts, *item)
                if len(page) >= PAGE:
                    written, page = written + page, ''
        except Refused as refused:
            raise Refused(refused.args[0], written + refused.args[1])
        return written + page

    def value(self, stamp, name):
        """The first set with values in the last such item of the last volume that has one; no volume below is looked at."""
        named = [pmid for pmid, desc in self.facts.descs.items() if name in desc[4]]
        for k in reversed(range(len(self.volumes) if named else 0)):
            shown = []
            for at, sets in self.within(k, LABEL):
                shown += [(at, one) for one in sets if at <= stamp and one[0] == named[0] and type(one[1]) is list][:1]
            if shown:
                at, one = shown[-1]
                return stamp_text(at) + '\n' + set_text(self.facts, at, *one)
        raise Refused(11, 'nothing at %d %d\n' % stamp)


def value_text(code, content):
    number, (kind, found) = number_of(code, content), content
    if number is not None:
        return str(number)
    if kind == 'word':
        return '0x%08x' % found
    if code == 6 and found.find(b'\0') == len(found) - 1 and found:
        return quoted(found[:-1].decode('latin-1'))
    return '0x' + found.hex()


def set_text(facts, stamp, pmid, shown):
    name = facts.name(pmid)
    head = '%s %s' % (pmid_text(pmid), '?' if name is None else name.decode('latin-1'))
    if type(shown) is not list:
        return head + (' error %d\n' % shown if shown else ' none\n')
    where = instance_text if pmid in facts.descs else lambda facts, pmid, instance, stamp: '' if instance == -1 else '[#%d]' % instance
    return ''.join('%s%s %s\n' % (head, where(facts, pmid, instance, stamp), value_text(facts.code(pmid), content)) for instance, content in shown)


def item_text(facts, stamp, sets):
    if not sets:
        return stamp_text(stamp) + ' mark\n'
    return '%s %d\n' % (stamp_text(stamp), len(sets)) + ''.join(set_text(facts, stamp, *one) for one in sets)


# ---- archives

class Made:
    """Files of an archive, and where its records end."""

    def __init__(self, rng):
        self.rng, self.metrics, self.clock = rng, some_metrics(rng), 100
        self.start, self.ends, self.stamps = (100, 0), {}, [(100, 0)]
        self.files = {'meta': records.label(-1, self.start) + some_meta(rng, self.metrics, 100)}
        for number in sorted(rng.sample(range(rng.choice([5, 5, 70])), rng.choice([0, 1, 2, 3, 3, 4, 5]))):
            self.files[str(number)] = self.volume(number)
        if rng.random() < 0.7:
            self.files['index'] = records.label(-2, self.start) + b''.join(self.entry() for _ in range(rng.choice([0, 1, 2, 5])))
        self.spoilers = [self.tear, self.tear, self.alter, self.alter, self.alter, self.reframe, self.flip, self.flip_label, self.empty, self.cut, self.wrap, self.reword]

    def volume(self, number):
        rng, out = self.rng, records.label(number, self.start)
        self.ends[number] = [LABEL]
        for _ in range(rng.choice([0, 1, 2, 4, rng.randint(0, 12), rng.randint(0, 12)])):
            sets = [some_set(rng, self.metrics) for _ in range(rng.choice([0, 1, 1, 1, 2, 4]))]
            self.stamps.append((self.clock, rng.choice([0, 0, 0, 1, 999999])))
            out += records.result(self.stamps[-1], sets)
            self.ends[number].append(len(out))
            self.clock = max(0, self.clock + rng.choice([0, 1, 1, 1, 2, 5, 5, -1, -30] if rng.random() < 0.3 else [0, 1, 1, 3]))
        return out

    def entry(self):
        rng = self.rng
        number = rng.choice(sorted(self.ends) or [0])
        offset = rng.choice(self.ends.get(number, [LABEL]))
        if rng.random() < 0.1:
            number, offset = rng.choice([(number, offset + rng.choice([-1, 1, 4, 1000])), (number + 1, offset), (number, rng.randint(0, 200))])
        return records.big(self.clock - rng.randint(0, 60), 0, number, len(self.files['meta']), offset)

    # ---- what spoils files

    def some_volume(self):
        return str(self.rng.choice(sorted(self.ends))) if self.ends else 'meta'

    def put(self, name, at, data):
        held = self.files[name]
        self.files[name] = held[:at] + data + held[at + len(data):]

    def record(self, name):
        """Where some record of a volume begins and ends."""
        ends = self.ends.get(int(name) if name.isdigit() else -1, [LABEL])
        k = self.rng.randrange(max(1, len(ends) - 1))
        return ends[k], ends[min(k + 1, len(ends) - 1)]

    def tear(self):
        """A front of a record stands at the end, mostly of a volume."""
        name = self.some_volume() if self.rng.random() < 0.85 else 'meta'
        record = records.result((self.clock, 0), [some_set(self.rng, self.metrics)])
        self.files[name] += record[:self.rng.randint(1, len(record) - 1)]

    def alter(self):
        """A word of a record is another."""
        name = self.some_volume()
        begin, end = self.record(name)
        if begin < end:
            self.put(name, self.rng.randrange(begin, end, 4), records.big(self.rng.choice([0, 1, 2, 3, 1 << 31, 0xffffffff, 1000000, self.rng.randrange(1 << 32)])))

    def reframe(self):
        """A record's length words are others."""
        name = self.some_volume()
        begin, end = self.record(name)
        if begin < end:
            self.put(name, begin, records.big(self.rng.choice([0, 11, 12, end - begin - 4, end - begin + 4, MOST, MOST + 1])))

    def flip(self):
        name = self.rng.choice(sorted(self.files))
        at = self.rng.randrange(len(self.files[name]))
        self.put(name, at, bytes([self.files[name][at] ^ 1 << self.rng.randrange(8)]))

    def flip_label(self):
        name = self.rng.choice(sorted(self.files))
        at = self.rng.randrange(min(LABEL, len(self.files[name])))
        self.put(name, at, bytes([self.files[name][at] ^ 1 << self.rng.randrange(8)]))

    def empty(self):
        self.files[self.some_volume()] = b''

    def cut(self):
        name = self.rng.choice(sorted(self.files) + [self.some_volume()] * 3)
        self.files[name] = self.files[name][:self.rng.choice([0, 1, 60, 131, LABEL, self.rng.randint(0, len(self.files[name]))])]

    def wrap(self):
        if self.rng.random() < 0.2:
            self.files[self.rng.choice(['meta', 'index', self.some_volume()]) + '.xz'] = b'wrapped'

    def reword(self):
        """A record of Meta has another word."""
        at = self.rng.randrange(LABEL, len(self.files['meta']), 4) if len(self.files['meta']) > LABEL else 0
        self.put('meta', at, records.big(self.rng.choice([0, 1, 2, 12, 1 << 31])))

    def spoilt(self):
        for _ in range(self.rng.choice([0, 1, 1, 1, 2])):
            self.rng.choice(self.spoilers)()
            self.files = {name: data for name, data in self.files.items() if data}
            if 'meta' not in self.files or not self.files:
                break
            self.ends = {number: ends for number, ends in self.ends.items() if str(number) in self.files}
        return self.files


def asked_of(rng, metrics, stamps):
    """The runs that are compared: their words, and what each asks for."""
    moment = lambda: rng.choice([rng.choice(stamps)] * 6 + [LAST] * 3 + [(rng.choice(stamps)[0] + rng.choice([-1, 0, 1]), rng.choice([0, 1, 999999])), (0, 0)])
    names = sorted({name.decode('latin-1') for _, _, _, names in metrics for name in names}) or ['a']
    runs = [(['dump'], 'dump', ())]
    for _ in range(4):
        stamp, name = moment(), rng.choice(names + ['mmv.none'] if rng.random() < 0.1 else names)
        runs.append((['value', *stamp, name], 'value', (stamp, name.encode('latin-1'))))
    for stamp in (moment(), moment()):
        runs.append((['at', *stamp], 'at', (stamp,)))
    first, last = sorted([moment(), moment()])
    return runs + [(['range', *first, *last], 'range', (first, last))]


def expected(files, call, words):
    try:
        return 0, getattr(Found(files), call)(*words)
    except Refused as refused:
        return refused.args


def differs(rng, program, base, made, counts):
    """What differs between the program and plain Python over the files at a base, or None."""
    files = files_at(os.path.dirname(base))
    for words, call, asked in asked_of(rng, made.metrics, made.stamps):
        ours = expected(files, call, asked)
        counts[call, ours[0]] = counts.get((call, ours[0]), 0) + 1
        theirs = said(program, base, words)
        if theirs != ours:
            return '%s\nPython: %d\n%s\nprogram: %d\n%s' % (words, *ours, *theirs)
        if files_at(os.path.dirname(base)) != files:
            return '%s changed a file' % words
    return None


def main(program, count, seed=1):
    differing, counts = 0, {}
    for n in range(count):
        rng = random.Random('values %d %d' % (seed, n))
        with tempfile.TemporaryDirectory() as folder:
            base, made = os.path.join(folder, 'base'), Made(rng)
            put_files(base, made.spoilt())
            found = differs(rng, program, base, made, counts)
        if found and not differing:
            print('seed %d, archive %d:\n%s' % (seed, n, found))
        differing += found is not None
    print('runs ' + ', '.join('%s %d: %d' % (*key, n) for key, n in sorted(counts.items())))
    print('%d archives, %d differ' % (count, differing))
    return 1 if differing else 0


if __name__ == '__main__':
    if len(sys.argv) not in (3, 4):
        sys.exit(__doc__)
    sys.exit(main(sys.argv[1], int(sys.argv[2]), *(int(word) for word in sys.argv[3:])))
