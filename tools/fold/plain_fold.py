"""A plain fold over the lines of a replay script, and the archive that it makes, as whole bytes.

The fold knows nothing of retries, caches or buffers. It keeps the words of each region, what each pass is doing, the lines written
and the bytes of each file. `scripts.py` feeds it.
"""
import struct
from images import KINDS, NO_DOMAIN, RANGES, SEMANTICS, TOP, escaped, quoted

CHANGE_BIT = 1 << 63
MISSED, NO_METRIC, NO_CONVERSION = -12389, -12358, -12362


def big(*numbers):
    """Words of 4 bytes, the high byte first."""
    return b''.join(struct.pack('>I', n & 0xffffffff) for n in numbers)


def ends(data):
    """Where the label of a file ends, and each whole record behind it; a file that is less than its label has its start alone."""
    if len(data) < 132:
        return [0]
    out = [132]
    while out[-1] + 4 <= len(data) and out[-1] + int.from_bytes(data[out[-1]:out[-1] + 4], 'big') <= len(data):
        out.append(out[-1] + int.from_bytes(data[out[-1]:out[-1] + 4], 'big'))
    return out


class Region:
    def __init__(self, file, image, capacity, passes):
        self.file, self.image, self.cluster = file, image, image.cluster
        self.words = image.words + [0] * (capacity - len(image.words))
        self.gate, self.doing = 0, [('idle',)] * passes

    def missed(self):
        return self.words[1] != self.words[2]

    def prefix(self):
        return 'mmv.' if self.image.flags & 1 else 'mmv.%s.' % self.file

    def metric(self, pmid):
        return self.image.by_item.get(pmid & 1023)

    def pmid(self, item):
        return 70 << 22 | self.cluster << 10 | item

    def shown(self, pmid):
        """A status, or the values of a metric as pairs of instance and content."""
        if self.missed():
            return MISSED
        m = self.metric(pmid)
        if m is None:
            return NO_METRIC
        if m['kind'] in ('float', 'double', 'elapsed'):
            return NO_CONVERSION
        out = []
        for (item, instance), word in self.image.place.items():
            if item == m['item']:
                found = self.words[word]
                if m['kind'] == 'string':
                    found = self.image.strings[(found - self.image.string_start) // 256]
                elif m['kind'] in ('i32', 'u32'):
                    found %= 1 << 32
                out.append((-1 if instance is None else instance, found))
        return sorted(out) or 0

    def desc(self, pmid):
        m = self.metric(pmid)
        return (KINDS[m['kind']], self.pmid(m['serial']) if m['serial'] else NO_DOMAIN, SEMANTICS[m['semantics']], m['units'],
            self.prefix() + m['name'])

    def put(self, next_word, image, all_left):
        """Stores the next word of an image, or all that are left; answers which comes then."""
        while next_word < len(image.words):
            self.words[next_word] = image.words[next_word]
            next_word = 3 if next_word == 0 else next_word + 1
            if not all_left:
                break
        return next_word


class Ended(Exception):
    """A run ends before its last line: the status and the line that tells it."""


class Archive:
    """The files of an archive as whole bytes, what they describe, and the calls on the disk that made them so."""

    def __init__(self):
        self.bytes, self.number, self.start, self.calls = {}, 0, None, []
        # Meta's records and the index's entries in their order, the items by volume
        self.records, self.entries, self.held = [], [], {}
        self.descs, self.domains, self.greatest = {}, {}, None

    @property
    def items(self):
        return [item for number in sorted(self.held) for item in self.held[number]]

    def files(self):
        return {name: data for name, data in self.bytes.items() if data}

    def size(self, name):
        return len(self.bytes.get(name, b''))

    def put(self, name, data):
        self.bytes[name] = self.bytes.get(name, b'') + data
        self.calls.append(('put', name, data))

    def sync(self, name):
        self.calls.append(('sync', name, b''))

    def framed(self, payload):
        return big(len(payload) + 8) + payload + big(len(payload) + 8)

    def begin(self, name, number):
        """A file gets its label, which is synced."""
        self.put(name, self.framed(big(0x50052602, 1, *self.start, number) + b'localhost'.ljust(64, b'\0') + b'UTC'.ljust(40, b'\0')))
        self.sync(name)

    def create(self, stamp):
        self.start = stamp
        for name, number in (('meta', -1), ('index', -2), ('0', 0)):
            self.begin(name, number)

    def enter(self, volume, meta, offset):
        self.put('index', big(*self.greatest, volume, meta, offset))
        self.entries.append((self.greatest, volume, meta, offset))

    def enter_end(self):
        """The volume is synced, and an entry leads to its end where the last one is behind."""
        self.sync(str(self.number))
        here = self.number, self.size('meta'), self.size(str(self.number))
        last = self.entries[-1][1:] if self.entries else None
        if last is None or last[0] != here[0] or here[1] > last[1] or here[2] >= last[2] + 4096:
            self.enter(*here)

    def flush(self):
        self.calls.append(('flush', '', b''))
        self.enter_end()

    def result(self, stamp, sets, codes):
        at = 12 + sum(12 + 8 * len(shown) if type(shown) is list else 8 for _, shown in sets)
        out, blocks = big(*stamp, len(sets)), b''
        for pmid, shown in sets:
            if type(shown) is not list:
                out += big(pmid, shown)
                continue
            in_place = codes[pmid] < 2
            out += big(pmid, len(shown), 0 if in_place else 1)
            for instance, content in shown:
                if in_place:
                    out += big(instance, content)
                    continue
                data = content.encode('latin-1') + b'\0' if codes[pmid] == 6 else struct.pack('>Q', content)
                out += big(instance, (at + len(blocks)) // 4 + 3)
                blocks += bytes([codes[pmid]]) + (4 + len(data)).to_bytes(3, 'big') + data + b'\0' * (-len(data) % 4)
        return self.framed(out + blocks)

    def log(self, limit, stamp, sets, descs, domains):
        """Logs sets; descs and domains describe those that show values, in the order of the sets."""
        if self.start is None:
            self.create(stamp)
        if self.greatest is not None and stamp <= self.greatest:
            raise Ended(12, 'not later %d %d' % self.greatest)
        for pmid, desc in descs:
            if self.descs.get(pmid, desc) != desc:
                raise Ended(13, 'changed %s' % dotted(pmid))
        meta = b''
        for pmid, desc in descs:
            if pmid not in self.descs:
                self.descs[pmid] = desc
                self.records.append(('description', pmid, desc))
                name = desc[4].encode()
                meta += self.framed(big(1, pmid, *desc[:4], 1, len(name)) + name)
        for indom, pairs in domains:
            held = self.domains.setdefault(indom, [])
            if not held or held[-1][1] != pairs:
                held.append((stamp, pairs))
                self.records.append(('domain', indom, (stamp, pairs)))
                table, offsets = b'', []
                for _, name in pairs:
                    offsets.append(len(table))
                    table += name.encode('latin-1') + b'\0'
                meta += self.framed(big(2, *stamp, indom, len(pairs), *[n for n, _ in pairs], *offsets) + table)
        self.add(limit, meta, self.result(stamp, sets, {pmid: desc[0] for pmid, desc in descs}))
        self.greatest = stamp
        self.held.setdefault(self.number, []).append((stamp, sets))

    def add(self, limit, meta, record):
        """Adds an item's record and the metadata that it needs, to the next volume where this one would pass its limit."""
        if self.size(str(self.number)) + len(record) > limit and self.size(str(self.number)) > 132:
            self.enter_end()
            self.number += 1
            self.begin(str(self.number), self.number)
            self.enter(self.number, self.size('meta'), 132)
        self.bytes['meta'] += meta
        self.bytes[str(self.number)] += record
        self.calls.append(('item', str(self.number), (meta, record)))

    def found(self, files):
        """This archive where of each file a front is left, or nothing: what its whole records say."""
        left = Archive()
        left.bytes, left.calls = dict(files), list(self.calls)
        if left.size('meta') < 132:
            return left
        left.start = self.start
        left.records = self.records[:len(ends(files['meta'])) - 1]
        left.entries = self.entries[:max(0, (left.size('index') - 132) // 20)]
        numbers = sorted(int(name) for name, data in files.items() if data and name.isdigit())
        left.number = numbers[-1] if numbers else 0
        left.held = {n: self.held.get(n, [])[:len(ends(files[str(n)])) - 1] for n in numbers}
        for kind, key, what in left.records:
            if kind == 'description':
                left.descs[key] = what
            else:
                left.domains.setdefault(key, []).append(what)
        stamps = [stamp for stamp, _ in left.items] + [entry[0] for entry in left.entries]
        left.greatest = max(stamps + [held[-1][0] for held in left.domains.values()], default=None)
        return left

    def instance_name(self, indom, instance, stamp):
        held = [pairs for since, pairs in self.domains.get(indom, []) if since <= stamp]
        return escaped(dict(held[-1])[instance])

    def item_lines(self, stamp, sets):
        out = ['%s %d' % (told_stamp(stamp), len(sets))]
        for pmid, shown in sets:
            desc = self.descs.get(pmid)
            name = '%s %s' % (dotted(pmid), desc[4] if desc else '?')
            if type(shown) is not list:
                out.append(name + (' error %d' % shown if shown else ' none'))
                continue
            for instance, content in shown:
                where = '' if instance == -1 else '[%s]' % self.instance_name(desc[1], instance, stamp)
                bits = {0: 32, 2: 64}.get(desc[0])
                if bits and content >= 1 << bits - 1:
                    content -= 1 << bits
                out.append('%s%s %s' % (name, where, quoted(content) if desc[0] == 6 else content))
        return out

    def told(self, items):
        return ''.join(line + '\n' for item in items for line in self.item_lines(*item))

    def info(self):
        kinds, semantics = ({code: word for word, code in table.items()} for table in (KINDS, SEMANTICS))
        rows = []
        for pmid, (code, indom, semantic, units, name) in self.descs.items():
            domain = '-' if indom == NO_DOMAIN else '70.%d' % (indom & (1 << 22) - 1)
            rows.append('%s %s %s %s %s %08x\n' % (name, dotted(pmid), kinds[code], domain, semantics[semantic], units))
        return 0, ''.join(sorted(rows, key=lambda row: row.split(' ')[0]))

    def check(self):
        return 0, 'sound %d\n' % len(self.items)

    def dump(self):
        """Status and output of `dump`, as of the others beside it."""
        return 0, 'archive 1 localhost UTC\n' + self.told(self.items) if self.start else 'archive none\n'

    def at(self, stamp):
        before = [item for item in self.items if item[0] <= stamp]
        return (0, self.told(before[-1:])) if before else (11, 'nothing at %d %d\n' % stamp)

    def between(self, first, last):
        return 0, self.told(item for item in self.items if first <= item[0] <= last)


def dotted(pmid):
    return '%d.%d.%d' % (pmid >> 22 & 511, pmid >> 10 & 4095, pmid & 1023)


def told_stamp(stamp):
    days, rest = divmod(stamp[0], 86400)
    assert days == 0
    return '1970-01-01T%02d:%02d:%02d.%06dZ' % (rest // 3600, rest // 60 % 60, rest % 60, stamp[1])


class Fold:
    """A run of a script, line by line, over an archive."""

    def __init__(self, images, regions, groups, archive, limit):
        self.images, self.archive, self.limit = images, archive, limit
        self.regions = {row[0]: Region(row[0], images[row[1]], row[2], row[3]) for row in regions}
        self.groups = [{'every': every, 'names': names, 'asked': [], 'next': None} for every, names in groups]
        self.started, self.logged, self.output, self.ending = False, 0, [], None

    def line(self, number, text):
        """Runs a line, unless the run has ended."""
        if self.ending is not None:
            return
        words = text.split(' ', 5)
        try:
            if words[0] == 'tick':
                self.tick((int(words[1]), int(words[2])))
            elif words[0] == 'flush':
                if self.logged:
                    self.archive.flush()
                    self.output.append('flushed %d' % self.logged)
            elif not self.step(self.regions[words[1]], int(words[2]), words[0], words[3:]):
                raise Ended(2, 'input line %d Condition' % number)
        except Ended as ended:
            self.ending = ended.args

    def end(self, line_behind):
        """The status and the output; what was logged is flushed."""
        idle = all(doing == ('idle',) for r in self.regions.values() for doing in r.doing)
        if self.ending is None:
            self.ending = (0, 'logged %d' % self.logged) if idle else (2, 'input line %d Condition' % line_behind)
        if self.logged:
            self.archive.flush()
        return self.ending[0], ''.join(line + '\n' for line in self.output + [self.ending[1]])

    def step(self, r, k, act, rest):
        """A step of a pass; False where its condition fails."""
        doing = r.doing[k]
        needed = {'attach': 'idle', 'begin': 'idle', 'load': 'idle', 'detach': 'attached', 'swap': 'attached', 'add': 'attached',
            'step': 'changing', 'finish': 'changing', 'word': 'reading', 'done': 'reading'}[act]
        if doing[0] != needed:
            return False
        if act == 'attach':
            if r.gate >= CHANGE_BIT:
                self.output.append('Changing %d' % r.gate)
                return True
            r.gate += 1
            r.doing[k] = ('attached',)
            self.output.append('attached')
        elif act == 'detach':
            r.gate -= 1
            r.doing[k] = ('idle',)
        elif act in ('swap', 'add'):
            return self.store(r, act, int(rest[0]), None if rest[1] == '-' else int(rest[1]), rest[2])
        elif act == 'begin':
            self.begin(r, k, self.images[rest[0]], int(rest[1]))
        elif act in ('step', 'finish'):
            next_word = r.put(doing[3], doing[1], act == 'finish')
            r.doing[k] = doing[:3] + (next_word,)
            if act == 'finish':
                r.words[2], r.gate, r.image, r.doing[k] = doing[2], 0, doing[1], ('idle',)
        elif act == 'load':
            r.doing[k] = ('reading', r.words[2])
        elif act == 'word':
            if int(rest[0]) >= len(r.words):
                return False
            self.output.append('word %d' % r.words[int(rest[0])])
        else:
            first, last = doing[1], r.words[1]
            r.doing[k] = ('idle',)
            self.output.append('stable %d' % first if first == last else 'Again %d %d' % (first, last))
        return True

    def store(self, r, act, item, instance, value):
        slot = r.image.slot(item, instance)
        if slot is None:
            return False
        word, kind = slot
        if act == 'add':
            if kind == 'string':
                return False
            r.words[word] = (r.words[word] + int(value)) % TOP
        elif value[0] == '"':
            texts = [escaped(text) for text in r.image.strings]
            if kind != 'string' or value[1:-1] not in texts:
                return False
            r.words[word] = r.image.string_start + 256 * texts.index(value[1:-1])
        else:
            if kind == 'string' or not RANGES[kind][0] <= int(value) <= RANGES[kind][1]:
                return False
            r.words[word] = int(value) % TOP
        return True

    def begin(self, r, k, image, moment):
        if len(image.words) > len(r.words):
            self.output.append('TooLarge %d %d' % (len(image.words), len(r.words)))
        elif r.gate:
            self.output.append('Busy %d' % r.gate)
        elif r.words[1] == TOP - 1:
            self.output.append('Spent %d' % r.words[1])
        else:
            generation = max(moment, r.words[1] + 1)
            r.gate, r.words[1] = CHANGE_BIT, generation
            r.doing[k] = ('changing', image, generation, 0)
            self.output.append('begun %d' % generation)

    def in_order(self):
        return sorted(self.regions.values(), key=lambda r: r.cluster)

    def names(self):
        """The names of all regions that can be read, each region's added whole or not at all."""
        names = {}
        for r in self.in_order():
            if r.missed():
                continue
            tried = dict(names)
            for m in r.image.metrics:
                name = r.prefix() + m['name']
                if any(name == old or name.startswith(old + '.') or old.startswith(name + '.') for old in tried):
                    break
                tried[name] = r.pmid(m['item'])
            else:
                names = tried
        return names

    def tick(self, stamp):
        now, names, pmids = stamp[0] * 1000000 + stamp[1], self.names(), []
        for g in self.groups:
            if not self.started:
                g['start'] = g['next'] = now
            if g['next'] is None or g['next'] > now:
                continue
            for asked in g['names']:
                for name in sorted(names):
                    if (name == asked or name.startswith(asked + '.')) and names[name] not in g['asked']:
                        g['asked'].append(names[name])
            pmids += [pmid for pmid in g['asked'] if pmid not in pmids]
            g['next'] = g['start'] + ((now - g['start']) // g['every'] + 1) * g['every'] if g['every'] else None
        self.started = True
        if pmids:
            self.log(stamp, pmids)
        self.output.append('tick %d' % len(pmids))

    def log(self, stamp, pmids):
        by_cluster = {r.cluster: r for r in self.regions.values()}
        sets, descs, domains = [], [], []
        for pmid in pmids:
            r = by_cluster[pmid >> 10 & 4095]
            shown = r.shown(pmid)
            sets.append((pmid, shown))
            if type(shown) is list:
                descs.append((pmid, r.desc(pmid)))
                for d in r.image.indoms:
                    if d['serial'] == r.metric(pmid)['serial'] and r.pmid(d['serial']) not in dict(domains):
                        domains.append((r.pmid(d['serial']), sorted(d['instances'])))
        self.archive.log(self.limit, stamp, sets, descs, domains)
        self.logged += 1
