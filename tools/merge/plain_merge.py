"""The merge of two archives, and the files of a third to which it is logged, as whole bytes.

Archives are read by LOGARCHIVE(5), version 2. Nothing is kept but what the files say: Meta's records in their order, the results of the
volumes, the entries of the index. A file is known by its name: `meta`, `index`, or the volume's number. `pairs.py` feeds it.
"""
import struct

NULL_DOMAIN = 0xffffffff
LABEL, RECORD = 132, 16777216


def big(*numbers):
    """Words of 4 bytes, the high byte first."""
    return b''.join(struct.pack('>I', n & 0xffffffff) for n in numbers)


def framed(payload):
    return big(len(payload) + 8) + payload + big(len(payload) + 8)


def word(data, at):
    return int.from_bytes(data[at:at + 4], 'big')


def signed(number):
    return number - (1 << 32) if number >> 31 else number


def micros(stamp):
    return stamp[0] * 1000000 + stamp[1]


def dotted(pmid):
    return '%d.%d.%d' % (pmid >> 22 & 511, pmid >> 10 & 4095, pmid & 1023)


# ---- what files say


def payloads(data):
    """The payloads of the whole records behind a label, and where the last of them ends."""
    out, at = [], LABEL
    while at + 4 <= len(data) and at + word(data, at) <= len(data):
        out.append(data[at + 4:at + word(data, at) - 4])
        at += word(data, at)
    return out, at


def volumes(files):
    return sorted(int(name) for name, data in files.items() if data and name.isdigit())


def described(payload):
    """The metric, its description, and its names."""
    pmid, kind, indom, semantics, units, count = struct.unpack_from('>6I', payload, 4)
    names, at = [], 28
    for _ in range(count):
        size = word(payload, at)
        names.append(payload[at + 4:at + 4 + size])
        at += 4 + size
    return pmid, (kind, indom, semantics, units), names


def domain_of(payload):
    """The stamp, the domain, and its instances by number and name."""
    seconds, fraction, indom, count = struct.unpack_from('>4I', payload, 4)
    numbers, places, table = 20, 20 + 4 * count, 20 + 8 * count
    names = [payload[table + word(payload, places + 4 * k):].split(b'\0', 1)[0] for k in range(count)]
    return (seconds, fraction), indom, [(signed(word(payload, numbers + 4 * k)), name) for k, name in enumerate(names)]


class Meta:
    """What the records of Meta say: of a metric the first description; of domains all, in their order."""

    def __init__(self, records=()):
        self.descs, self.domains = {}, []
        for payload in records:
            self.add(payload)

    def add(self, payload):
        if word(payload, 0) == 1:
            pmid, desc, names = described(payload)
            self.descs.setdefault(pmid, (desc, names))
        elif word(payload, 0) == 2:
            self.domains.append(domain_of(payload))

    def fact(self, pmid):
        """A metric's description and first name, where it has both."""
        desc, names = self.descs.get(pmid, (None, []))
        return (desc, names[0]) if names else None

    def instances(self, indom, stamp):
        """The instances that hold at a stamp: of the records not behind it the last of the latest; None where there is none."""
        held = [(since, k) for k, (since, of, _) in enumerate(self.domains) if of == indom and since <= stamp]
        return self.domains[max(held)[1]][2] if held else None


def some_result(payload):
    """The stamp and the sets of a record; a mark has no sets. A set is its metric and a status, words, or blocks of type and bytes."""
    sets, at = [], 12
    for _ in range(word(payload, 8)):
        pmid, count = word(payload, at), signed(word(payload, at + 4))
        at += 8
        if count <= 0:
            sets.append((pmid, 'status', count))
            continue
        by_block, at = word(payload, at), at + 4
        pairs = [(signed(word(payload, at + 8 * k)), word(payload, at + 8 * k + 4)) for k in range(count)]
        at += 8 * count
        if by_block:
            pairs = [(instance, block_at(payload, (place - 3) * 4)) for instance, place in pairs]
        sets.append((pmid, 'blocks' if by_block else 'words', pairs))
    return (word(payload, 0), word(payload, 4)), sets


def block_at(payload, at):
    size = word(payload, at) & 0xffffff
    return payload[at], payload[at + 4:at + size]


class Source:
    """A sound archive: its metadata and its results by rising stamp."""

    def __init__(self, files):
        self.meta = Meta(payloads(files.get('meta', b''))[0])
        items = [some_result(payload) for n in volumes(files) for payload in payloads(files[str(n)])[0]]
        self.results = [(stamp, sets) for stamp, sets in items if sets]

    def sets_at(self, stamp):
        return [one for of, sets in self.results if of == stamp for one in sets]


# ---- the merge


def first_of_each(sets, taken=()):
    """Of each metric its first set, but of those that are taken none."""
    seen, out = set(taken), []
    for one in sets:
        if one[0] not in seen:
            seen.add(one[0])
            out.append(one)
    return out


def has_values(one):
    return one[1] != 'status'


class Misfit(Exception):
    """An item isn't logged: the status and the line that tells it."""


class Item:
    """The sets of a stamp, of both sources, and what describes them."""

    def __init__(self, first, second, stamp):
        self.first, self.second, self.stamp = first, second, stamp
        self.ours = first_of_each(first.sets_at(stamp))
        self.theirs = first_of_each(second.sets_at(stamp), [one[0] for one in self.ours])
        self.sets = self.ours + self.theirs

    def domain(self, meta, one):
        """The domain that a set uses; None for a set without values, and for the null domain."""
        fact = meta.fact(one[0]) if has_values(one) else None
        return fact[0][1] if fact and fact[0][1] != NULL_DOMAIN else None

    def uses(self, meta, sets):
        return {self.domain(meta, one) for one in sets} - {None}

    def look_for_lacks(self, number, meta, sets):
        for one in filter(has_values, sets):
            indom = self.domain(meta, one)
            named = {instance for instance, _ in meta.instances(indom, self.stamp) or []}
            if meta.fact(one[0]) is None or (indom is not None and any(instance not in named for instance, _ in one[2])):
                raise Misfit(18, 'lacks %d %s' % (number, dotted(one[0])))

    def look_for_clashes(self):
        shared = self.uses(self.first.meta, self.ours)
        for one in filter(has_values, self.theirs):
            indom = self.domain(self.second.meta, one)
            if indom not in shared:
                continue
            ours, theirs = (first_names(source.meta.instances(indom, self.stamp)) for source in (self.first, self.second))
            if any(instance in ours and ours[instance] != theirs[instance] for instance, _ in one[2]):
                raise Misfit(19, 'clash %s' % dotted(one[0]))

    def listed(self, indom):
        """The instances that are listed of a domain."""
        out = []
        if indom in self.uses(self.first.meta, self.ours):
            out = list(self.first.meta.instances(indom, self.stamp))
        if indom in self.uses(self.second.meta, self.theirs):
            known = dict(out)
            out += [pair for pair in self.second.meta.instances(indom, self.stamp) if pair[0] not in known]
        return out

    def facts(self):
        """What describes the sets with values: of each its description and name, and its domain where it has one."""
        self.look_for_lacks(1, self.first.meta, self.ours)
        self.look_for_lacks(2, self.second.meta, self.theirs)
        self.look_for_clashes()
        of = [(self.first.meta, one) for one in self.ours] + [(self.second.meta, one) for one in self.theirs]
        return [(one[0], *meta.fact(one[0]), self.domain(meta, one)) for meta, one in of if has_values(one)]


def first_names(pairs):
    names = {}
    for number, name in pairs or []:
        names.setdefault(number, name)
    return names


def merged(first, second):
    """The items of two sources by rising stamp."""
    for stamp in sorted({stamp for stamp, _ in first.results + second.results}):
        yield Item(first, second, stamp)


# ---- what is logged


def result_payload(stamp, sets):
    """The one spelling that is written: blocks in order, directly behind the sets."""
    at = 12 + sum(12 + 8 * len(content) if kind != 'status' else 8 for _, kind, content in sets)
    out, blocks = big(*stamp, len(sets)), b''
    for pmid, kind, content in sets:
        if kind == 'status':
            out += big(pmid, content)
            continue
        out += big(pmid, len(content), 1 if kind == 'blocks' else 0)
        for instance, value in content:
            if kind == 'words':
                out += big(instance, value)
                continue
            out += big(instance, (at + len(blocks)) // 4 + 3)
            blocks += bytes([value[0]]) + (4 + len(value[1])).to_bytes(3, 'big') + value[1] + b'\0' * (-len(value[1]) % 4)
    return out + blocks


def domain_payload(stamp, indom, pairs):
    table, places = b'', []
    for _, name in pairs:
        places.append(len(table))
        table += name + b'\0'
    return big(2, *stamp, indom, len(pairs), *[number for number, _ in pairs], *places) + table


class Output:
    """The files of an archive, which were recovered, and what is logged to them."""

    def __init__(self, files, limit):
        self.files, self.limit = recovered(files), limit
        self.meta = Meta(payloads(self.files.get('meta', b''))[0])
        self.volume = max(volumes(self.files), default=0)
        index = self.files.get('index', b'')
        self.entries = [struct.unpack_from('>5I', index, at) for at in range(LABEL, len(index), 20)]
        stamps = [some_result(payload)[0] for n in volumes(self.files) for payload in payloads(self.files[str(n)])[0]]
        stamps += [since for since, _, _ in self.meta.domains] + [entry[:2] for entry in self.entries]
        self.greatest, self.logged = max(stamps, default=None), 0

    def size(self, name):
        return len(self.files.get(name, b''))

    def put(self, name, data):
        self.files[name] = self.files.get(name, b'') + data

    def label(self, stamp, number):
        return framed(big(0x50052602, 1, *stamp, number) + b'localhost'.ljust(64, b'\0') + b'UTC'.ljust(40, b'\0'))

    def create(self, stamp):
        for name, number in (('meta', -1), ('index', -2), ('0', 0)):
            self.put(name, self.label(stamp, number))

    def enter(self, volume, meta, offset):
        self.put('index', big(*self.greatest, volume, meta, offset))
        self.entries.append((*self.greatest, volume, meta, offset))

    def flush(self):
        """An entry leads to the end, where there is none or the last one is behind."""
        here = self.volume, self.size('meta'), self.size(str(self.volume))
        last = self.entries[-1][2:] if self.entries else None
        if last is None or last[0] != here[0] or here[1] > last[1] or here[2] >= last[2] + 4096:
            self.enter(*here)

    def needed(self, item, facts):
        """The metadata records that are missing: descriptions, then domains, each in the order of the sets."""
        out = []
        for pmid, desc, name, _ in facts:
            if pmid not in self.meta.descs:
                out.append(big(1, pmid, *desc, 1, len(name)) + name)
        for indom in dict.fromkeys(fact[3] for fact in facts if fact[3] is not None):
            pairs = item.listed(indom)
            if self.meta.instances(indom, item.stamp) != pairs:
                out.append(domain_payload(item.stamp, indom, pairs))
        return out

    def log(self, item):
        facts = item.facts()
        if not self.size('meta'):
            self.create(item.stamp)
        record, needed = framed(result_payload(item.stamp, item.sets)), self.needed(item, facts)
        large = [size for size in [len(record)] + [len(framed(payload)) for payload in needed] if size > RECORD]
        if large:
            raise Misfit(7, 'limit record %d' % large[0])
        if self.greatest is not None and item.stamp <= self.greatest:
            raise Misfit(12, 'not later %d %d' % self.greatest)
        for pmid, desc, name, _ in facts:
            if pmid in self.meta.descs and self.meta.fact(pmid) != (desc, name):
                raise Misfit(13, 'changed %s' % dotted(pmid))
        self.add(item.stamp, needed, record)

    def add(self, stamp, needed, record):
        name = str(self.volume)
        if self.size(name) + len(record) > self.limit and self.size(name) > LABEL:
            self.flush()
            self.volume += 1
            name = str(self.volume)
            self.put(name, relabelled(self.files['meta'], self.volume))
            self.enter(self.volume, self.size('meta'), LABEL)
        for payload in needed:
            self.put('meta', framed(payload))
            self.meta.add(payload)
        self.put(name, record)
        self.greatest, self.logged = stamp, self.logged + 1


def relabelled(meta, number):
    """The label of another file: Meta's, as it is read and written again."""
    host, zone = meta[24:88].split(b'\0', 1)[0], meta[88:128].split(b'\0', 1)[0]
    return framed(meta[4:20] + big(number) + host.ljust(64, b'\0') + zone.ljust(40, b'\0'))


def recovered(files):
    """What recovery leaves of readable files."""
    out = {name: data for name, data in files.items() if data}
    if len(out.get('meta', b'')) < LABEL:
        return {}
    out['meta'] = out['meta'][:payloads(out['meta'])[1]]
    index = out.get('index', b'')
    out['index'] = index[:LABEL + (len(index) - LABEL) // 20 * 20] if len(index) >= LABEL else relabelled(out['meta'], -2)
    last = str(max(volumes(out), default=0))
    if len(out.get(last, b'')) < LABEL:
        out.pop(last, None)
    else:
        out[last] = out[last][:payloads(out[last])[1]]
    if not volumes(out):
        out['0'] = relabelled(out['meta'], 0)
    return out


def extracted(first, second, files, limit):
    """The status, the last line, and the files, where both sources are sound and the output is readable."""
    output = Output(files, limit)
    status, line = 0, None
    try:
        for item in merged(Source(first), Source(second)):
            output.log(item)
    except Misfit as misfit:
        status, line = misfit.args
    if output.logged:
        output.flush()
    return status, '%s\n' % (line or 'extracted %d' % output.logged), output.files
