"""An archive read from its files as bytes, by docs/FORMATS.md, and the records to write one: what the tools that compare with plain Python share.

`Archive(files)` reads sound files, or files with torn ends, that are given by name (`meta`, `index`, `0`, `1` ..). It keeps

- `label`: process, stamp, host and zone of Meta's label, or None;
- `descs`: PMID -> (code, domain, semantics, units, [names]), in the order of first sight;
- `domains`: domain -> [(stamp, [(number, name), ..]), ..], in Meta's order;
- `items`: (stamp, sets), a mark having no sets; a set is (PMID, pairs), the pairs being (instance, content), or (PMID, status);
  a content is ('word', N) in place or (code, bytes) of a block;
- `volumes`: which of the items stand in which volume, as [(number, [items])];
- `entries`: of the index, (seconds, microseconds, volume, Meta's length, the volume's length).
"""
import datetime, struct

NO_DOMAIN, NO_INSTANCE = 0xffffffff, -1


def big(*numbers):
    """Words of 4 bytes, the high byte first."""
    return b''.join(struct.pack('>I', n & 0xffffffff) for n in numbers)


def word(data, at):
    return int.from_bytes(data[at:at + 4], 'big')


def signed(data, at):
    return int.from_bytes(data[at:at + 4], 'big', signed=True)


def framed(payload):
    return big(len(payload) + 8) + payload + big(len(payload) + 8)


def payloads(data, at=132):
    """The payloads of the whole records from an offset on; what is left behind them is torn."""
    while at + 4 <= len(data) and at + word(data, at) <= len(data):
        length = word(data, at)
        yield data[at + 4:at + length - 4]
        at += length


def label(number, stamp, process=1, host=b'localhost', zone=b'UTC'):
    """The label of Meta (-1), the index (-2) or a volume."""
    return framed(big(0x50052602, process, *stamp, number) + host.ljust(64, b'\0') + zone.ljust(40, b'\0'))


def description(pmid, code, indom, semantics, units, names):
    return framed(big(1, pmid, code, indom, semantics, units, len(names)) + b''.join(big(len(name)) + name for name in names))


def domain(stamp, indom, pairs):
    table, offsets = b'', []
    for _, name in pairs:
        offsets.append(len(table))
        table += name + b'\0'
    return framed(big(2, *stamp, indom, len(pairs), *[number for number, _ in pairs], *offsets) + table)


def result(stamp, sets):
    """A result as the writer spells it: blocks in the order of their pairs, behind the last set. Without sets it is a mark."""
    at = 12 + sum(12 + 8 * len(shown) if type(shown) is list else 8 for _, shown in sets)
    out, blocks = big(*stamp, len(sets)), b''
    for pmid, shown in sets:
        if type(shown) is not list:
            out += big(pmid, shown)
            continue
        by_block = shown[0][1][0] != 'word'
        out += big(pmid, len(shown), by_block)
        for instance, (kind, content) in shown:
            if not by_block:
                out += big(instance, content)
                continue
            out += big(instance, (at + len(blocks)) // 4 + 3)
            blocks += bytes([kind]) + (4 + len(content)).to_bytes(3, 'big') + content + b'\0' * (-len(content) % 4)
    return framed(out + blocks)


def text(data):
    return data[:data.index(b'\0')]


def read_set(payload, at):
    """A set, and where the next one begins."""
    pmid, count = word(payload, at), signed(payload, at + 4)
    if count <= 0:
        return (pmid, count), at + 8
    by_block = word(payload, at + 8)
    pairs = []
    for k in range(count):
        instance, found = signed(payload, at + 12 + 8 * k), word(payload, at + 16 + 8 * k)
        if by_block:
            block = (found - 3) * 4
            length = int.from_bytes(payload[block + 1:block + 4], 'big')
            pairs.append((instance, (payload[block], payload[block + 4:block + length])))
        else:
            pairs.append((instance, ('word', found)))
    return (pmid, pairs), at + 12 + 8 * count


def read_item(payload):
    sets, at = [], 12
    for _ in range(word(payload, 8)):
        one, at = read_set(payload, at)
        sets.append(one)
    return (word(payload, 0), word(payload, 4)), sets


def stamp_text(stamp):
    moment = datetime.datetime(1970, 1, 1) + datetime.timedelta(seconds=stamp[0])
    return moment.strftime('%Y-%m-%dT%H:%M:%S') + '.%06dZ' % stamp[1]


def pmid_text(pmid):
    return '%d.%d.%d' % (pmid >> 22 & 511, pmid >> 10 & 4095, pmid & 1023)


def number_of(code, content):
    """The number of a value where it is stored as the code's values are, or None."""
    kind, found = content
    if code in (0, 1) and kind == 'word':
        return found - (1 << 32) if code == 0 and found >= 1 << 31 else found
    if code in (2, 3) and kind != 'word' and len(found) == 8:
        return int.from_bytes(found, 'big', signed=code == 2)
    return None


class Archive:
    def __init__(self, files):
        self.files = {name: data for name, data in files.items() if data}
        meta = self.files.get('meta', b'')
        self.label, self.descs, self.domains, self.items, self.volumes, self.entries = None, {}, {}, [], [], []
        if len(meta) < 132:
            return
        self.label = word(meta, 8), (word(meta, 12), word(meta, 16)), text(meta[24:88]), text(meta[88:128])
        for payload in payloads(meta):
            self.describe(payload)
        for number in sorted(int(name) for name in self.files if name.isdigit()):
            items = [read_item(payload) for payload in payloads(self.files[str(number)])]
            self.volumes.append((number, items))
            self.items += items
        index = self.files.get('index', b'')
        self.entries = [struct.unpack('>5I', index[at:at + 20]) for at in range(132, len(index) - 19, 20)]

    def describe(self, payload):
        kind = word(payload, 0)
        if kind == 1:
            names, at = [], 28
            for _ in range(word(payload, 24)):
                length = word(payload, at)
                names.append(payload[at + 4:at + 4 + length])
                at += 4 + length
            self.descs.setdefault(word(payload, 4), tuple(word(payload, k) for k in (8, 12, 16, 20)) + (names,))
        elif kind == 2:
            count = word(payload, 16)
            table = payload[20 + 8 * count:]
            pairs = [(signed(payload, 20 + 4 * k), text(table[word(payload, 20 + 4 * count + 4 * k):])) for k in range(count)]
            self.domains.setdefault(word(payload, 12), []).append(((word(payload, 4), word(payload, 8)), pairs))

    def code(self, pmid):
        return self.descs[pmid][0] if pmid in self.descs else None

    def domain(self, pmid):
        return self.descs[pmid][1] if pmid in self.descs else NO_DOMAIN

    def name(self, pmid):
        """The first name of a metric, or None."""
        names = self.descs[pmid][4] if pmid in self.descs else []
        return names[0] if names else None

    def held(self, indom, stamp):
        """The list of a domain that holds at a stamp: of those not after it the one with the greatest stamp, the later of equal ones."""
        found = [(since, k, pairs) for k, (since, pairs) in enumerate(self.domains.get(indom, [])) if since <= stamp]
        return max(found)[2] if found else None

    def instance_name(self, indom, instance, stamp):
        """The name of an instance at a stamp: the first of that number in the list that holds, or None."""
        for number, name in self.held(indom, stamp) or []:
            if number == instance:
                return name
        return None

    def last(self):
        """The greatest stamp of any item, domain or entry of the index, or None."""
        stamps = [stamp for stamp, _ in self.items] + [since for held in self.domains.values() for since, _ in held]
        stamps += [entry[:2] for entry in self.entries]
        return max(stamps, default=None)
