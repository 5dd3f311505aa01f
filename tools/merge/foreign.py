"""Archives that other loggers may have written, as bytes (LOGARCHIVE(5), version 2): sound, and odd wherever the format allows it.

Both archives of a pair are drawn from one pool of metrics, domains and moments, so that they meet. What can't be merged, as a metric
without a description or an instance that the sources name differently, comes as often as the pool is told.
"""
from plain_merge import LABEL, NULL_DOMAIN, big, framed

INDOMS = [70 << 22 | 1, 70 << 22 | 2, 511 << 22 | 4194303, NULL_DOMAIN, NULL_DOMAIN]
ODD = [b'', b'a b', b'caf\xe9', b'"q"\\', b'\n', b'x' * 300]


class Pool:
    """What the archives of a pair share: metrics with their descriptions, names of instances, moments; and how much is odd or amiss."""

    def __init__(self, rng):
        self.rng, self.odd, self.amiss = rng, rng.choice([0, 0.1, 0.5]), rng.choice([0, 0, 0, 0, 0.04])
        self.renamed = rng.choice([0, 0, 0.2, 0.6])
        pmids = [rng.choice([70, 70, 1, 511]) << 22 | rng.choice([1, 2, 4095]) << 10 | item for item in rng.sample(range(1024), 7)]
        self.metrics = {pmid: (self.some_desc(), b'm.n%d' % n) for n, pmid in enumerate(pmids)}
        self.back = 0
        self.base, self.step = rng.choice([0, 100, 100, 1000000000, (1 << 31) - 40]), rng.choice([1, 500000, 1000000])

    def some_desc(self):
        rng = self.rng
        return (rng.choice([0, 1, 2, 3, 4, 5, 6, rng.randrange(1 << 32)]), rng.choice(INDOMS), rng.choice([1, 3, 4, 77]), rng.randrange(1 << 32))

    def is_odd(self):
        return self.rng.random() < self.odd

    def is_amiss(self):
        return self.rng.random() < self.amiss

    def moment(self, k):
        whole = self.base * 1000000 + (k - self.back) * self.step
        return divmod(max(0, min(whole, (1 << 31) * 1000000 - 1)), 1000000)


def text_field(rng, text, size):
    """A text that a zero byte ends, with anything behind it."""
    behind = size - len(text) - 1
    return text + b'\0' + (bytes(rng.randrange(256) for _ in range(behind)) if rng.random() < 0.3 else b'\0' * behind)


def description(rng, pmid, desc, names):
    return big(1, pmid, *desc, len(names)) + b''.join(big(len(name)) + name for name in names)


def domain(rng, pool, stamp, indom, pairs):
    """A domain's record; its names stand in the table in any order, and equal ones may share a place."""
    table, places, order = b'', {}, list(range(len(pairs)))
    if pool.is_odd():
        rng.shuffle(order)
        table = b'\0' * rng.randint(0, 3) + b'unused\0'
    for k in order:
        shared = [places[j] for j in places if pairs[j][1] == pairs[k][1]]
        if shared and pool.is_odd():
            places[k] = shared[0]
            continue
        places[k] = len(table)
        table += pairs[k][1] + b'\0'
    return big(2, *stamp, indom, len(pairs), *[number for number, _ in pairs], *[places[k] for k in range(len(pairs))]) + table


def sample(rng, pool, stamp, sets):
    """A result's record; its blocks stand anywhere behind the sets, and may share a place."""
    at = 12 + sum(12 + 8 * len(content) if kind != 'status' else 8 for _, kind, content in sets)
    wanted = [value for _, kind, content in sets if kind == 'blocks' for _, value in content]
    order, places, behind = list(range(len(wanted))), {}, b'\0' * (4 * rng.randint(0, 3) if wanted and pool.is_odd() else 0)
    if pool.is_odd():
        rng.shuffle(order)
    for k in order:
        shared = [places[j] for j in places if wanted[j] == wanted[k]]
        if shared and pool.is_odd():
            places[k] = shared[0]
            continue
        places[k] = (at + len(behind)) // 4 + 3
        kind, data = wanted[k]
        padding = bytes(rng.randrange(256) for _ in range(-len(data) % 4)) if pool.is_odd() else b'\0' * (-len(data) % 4)
        behind += bytes([kind]) + (4 + len(data)).to_bytes(3, 'big') + data + padding
    out, k = big(*stamp, len(sets)), 0
    for pmid, kind, content in sets:
        out += big(pmid, content) if kind == 'status' else big(pmid, len(content), 1 if kind == 'blocks' else 0)
        for instance, value in content if kind != 'status' else []:
            out += big(instance, places[k] if kind == 'blocks' else value)
            k += kind == 'blocks'
    return out + behind


class Foreign:
    """An archive, record by record."""

    def __init__(self, pool, second):
        self.pool, self.rng, self.second = pool, pool.rng, second
        self.meta, self.held, self.since, self.described, self.volumes, self.entries = b'', {}, {}, {}, {}, []
        self.greatest = None

    def label(self, number):
        rng, (pid, start, host, zone) = self.rng, self.told
        return framed(big(0x50052602, pid, *start, number) + text_field(rng, host, 64) + text_field(rng, zone, 40))

    def note(self, payload):
        self.meta += framed(payload)

    def note_stamp(self, stamp):
        self.greatest = stamp if self.greatest is None else max(self.greatest, stamp)

    # ---- metadata

    def describe(self, pmid):
        """A metric's description, mostly the pool's, before its first values; now and then once more."""
        pool, rng = self.pool, self.rng
        if pmid in self.described and not (pool.is_odd() and rng.random() < 0.2):
            return
        desc, name = pool.metrics[pmid]
        if pmid not in self.described:
            if pool.is_amiss():
                desc = (desc[0] ^ 1, *desc[1:])
            if pool.is_amiss():
                name = b'other.name'
            names = [name] + [b'also.%d' % k for k in range(rng.randint(0, 2))] if pool.is_odd() else [name]
            self.described[pmid] = desc, names if not pool.is_amiss() else []
        if not pool.is_amiss():
            self.note(description(rng, pmid, *self.described[pmid]))

    def instance_name(self, number):
        if self.second and self.rng.random() < self.pool.renamed:
            return b'elsewhere'
        return ODD[number % len(ODD)] if self.pool.odd == 0.5 and number % 3 == 0 else b'i%d' % number

    def place(self, indom, numbers, stamp):
        """A domain record by which these instances have names, unless one holds already."""
        pool, rng = self.pool, self.rng
        known = dict(self.held.get(indom, []))
        missing = [number for number in numbers if number not in known]
        if not missing and not (pool.is_odd() and rng.random() < 0.2):
            return
        # what holds may be dropped, but not what sets of this stamp show
        pairs = list(known.items()) if rng.random() < 0.7 or self.since.get(indom) == stamp else []
        pairs += [(number, self.instance_name(number)) for number in numbers if number not in dict(pairs)]
        pairs += [(number, self.instance_name(number)) for number in rng.sample(range(20), rng.randint(0, 2)) if number not in dict(pairs)]
        if pool.is_odd():
            rng.shuffle(pairs)
        if pool.is_odd() and pairs:
            # a number that stands twice
            pairs.append((rng.choice(pairs)[0], b'twice'))
        if pool.is_amiss() and pairs:
            pairs.pop(rng.randrange(len(pairs)))
        # of a number that stands twice the first pair counts
        self.held[indom] = list({number: (number, name) for number, name in reversed(pairs)}.values())
        self.since[indom] = stamp
        self.note(domain(rng, pool, stamp, indom, pairs))
        self.note_stamp(stamp)

    # ---- items

    def some_set(self, pmid, stamp):
        pool, rng = self.pool, self.rng
        if rng.random() < 0.15:
            return pmid, 'status', rng.choice([0, -1, -12358, -(1 << 31)])
        (kind, indom, _, _), _ = pool.metrics[pmid]
        by_block = kind in (2, 3, 5, 6) if not pool.is_odd() else rng.random() < 0.5
        numbers = [-1] if indom == NULL_DOMAIN else rng.sample([0, 1, 2, 3, 7, 11, -5, (1 << 31) - 1], rng.randint(1, 4))
        if pool.is_odd() and rng.random() < 0.2:
            numbers.append(rng.choice(numbers))
        self.describe(pmid)
        if indom != NULL_DOMAIN:
            self.place(indom, numbers, stamp)
        some_block = lambda: (kind & 255, bytes(rng.randrange(256) for _ in range(rng.choice([0, 1, 4, 8, 8, 8, 13]))))
        shown = [(number, some_block() if by_block else rng.randrange(1 << 32)) for number in numbers]
        return pmid, 'blocks' if by_block else 'words', shown

    def item(self, stamp):
        """A sample or a mark."""
        pool, rng = self.pool, self.rng
        if rng.random() < 0.1:
            return sample(rng, pool, stamp, [])
        pmids = rng.sample(list(pool.metrics), rng.randint(1, 4))
        if pool.is_odd():
            pmids.append(rng.choice(pmids))
        return sample(rng, pool, stamp, [self.some_set(pmid, stamp) for pmid in pmids])

    def enter(self, number):
        if self.greatest is not None and self.rng.random() < 0.2:
            self.entries.append(big(*self.greatest, number, LABEL + len(self.meta), len(self.volumes[number])))

    def files(self):
        """Some items in one to three volumes, with entries here and there."""
        pool, rng = self.pool, self.rng
        host, zone = rng.choice([(b'localhost', b'UTC'), (b'', b''), (b'h' * 63, b'z' * 39), (b'caf\xe9', b'UTC')])
        moments = sorted(rng.randint(0, 25) for _ in range(rng.choice([0, 1, 3, 8, 20])))
        self.told = rng.randrange(1 << 32), pool.moment(0), host, zone
        numbers = sorted(rng.sample([0, 1, 2, 5], rng.choice([1, 1, 2, 3]))) if pool.is_odd() else [0]
        self.volumes = {numbers[0]: self.label(numbers[0])}
        at = 0
        for k, moment in enumerate(moments):
            if at + 1 < len(numbers) and rng.random() < 0.3:
                at += 1
                self.volumes[numbers[at]] = self.label(numbers[at])
            if pool.is_odd() and rng.random() < 0.2:
                self.note(big(rng.choice([3, 4, 0, 99])) + b'anything')
            stamp = pool.moment(moment)
            record = framed(self.item(stamp))
            self.note_stamp(stamp)
            self.volumes[numbers[at]] += record
            self.enter(numbers[at])
        files = {str(n): data for n, data in self.volumes.items()}
        files['meta'] = self.label(-1) + self.meta
        files['index'] = self.label(-2) + b''.join(self.entries)
        return files


def some_foreign(pool, second):
    return Foreign(pool, second).files()
