"""Images of regions, as layout text and as words, and quoted texts."""
import struct

TOP = 1 << 64
NO_DOMAIN = 0xffffffff
KINDS = {'i32': 0, 'u32': 1, 'i64': 2, 'u64': 3, 'float': 4, 'double': 5, 'string': 6, 'elapsed': 9}
RANGES = {'i32': (-1 << 31, (1 << 31) - 1), 'u32': (0, (1 << 32) - 1), 'i64': (-1 << 63, (1 << 63) - 1), 'u64': (0, TOP - 1)}
SEMANTICS = {'counter': 1, 'instant': 3, 'discrete': 4}


def escaped(text):
    """The bytes of a text as a quoted text holds them."""
    out = ''
    for byte in text.encode('latin-1'):
        out += '\\' + chr(byte) if byte in b'"\\' else chr(byte) if 32 <= byte < 127 else '\\x%02x' % byte
    return out


def quoted(text):
    return '-' if text is None else '"%s"' % escaped(text)


class Image:
    """A layout with its values, as text and as words."""

    def __init__(self, version, generation, flags, cluster, strings, indoms, metrics, values):
        self.version, self.generation, self.flags, self.cluster = version, generation, flags, cluster
        self.given, self.indoms, self.metrics, self.values = strings, indoms, metrics, values
        self.by_item = {m['item']: m for m in metrics}
        self.strings = list(strings)
        self.place = {}
        self.words = self.made()

    def lines(self):
        out = ['mmv %d %d %d 0 %d' % (self.version, self.generation, self.flags, self.cluster)]
        out += ['string ' + quoted(text) for text in self.given]
        for d in self.indoms:
            out.append('indom %d %s %s' % (d['serial'], quoted(d['short']), quoted(d['long'])))
            out += ['instance %d %d %s' % (d['serial'], number, quoted(name)) for number, name in d['instances']]
        for m in self.metrics:
            out.append('metric %s %d %s %s %08x %s %s %s' % (m['name'], m['item'], m['kind'], m['semantics'], m['units'],
                m['serial'] or '-', quoted(m['short']), quoted(m['long'])))
        for item, instance, content in self.values:
            shown = '%016x %016x' % content if type(content) is tuple else quoted(content) if type(content) is str else content
            out.append('value %d %s %s' % (item, '-' if instance is None else instance, shown))
        return out

    def string_index(self, text):
        if text not in self.strings:
            self.strings.append(text)
        return self.strings.index(text)

    def made(self):
        """The one spelling of the image as words."""
        two = self.version == 2
        rows = [(d, number, name) for d in self.indoms for number, name in d['instances']]
        texts = [t for d in self.indoms for t in (d['short'], d['long'])]
        texts += [name for _, _, name in rows] if two else []
        texts += [t for m in self.metrics for t in ((m['name'],) if two else ()) + (m['short'], m['long'])]
        texts += [c for _, _, c in self.values if type(c) is str]
        for text in texts:
            if text is not None:
                self.string_index(text)
        sizes = [32, 24 if two else 80, 48 if two else 104, 32, 256]
        counts = [len(self.indoms), len(rows), len(self.metrics), len(self.values), len(self.strings)]
        at, start = 40 + 16 * sum(1 for n in counts if n), []
        for size, count in zip(sizes, counts):
            start.append(at)
            at += size * count
        self.string_start = start[4]
        text_at = lambda text: 0 if text is None else start[4] + 256 * self.strings.index(text)
        out = b'MMV\0' + struct.pack('<IQQIIII', self.version, self.generation, self.generation, sum(1 for n in counts if n),
            self.flags, 0, self.cluster)
        for kind, (count, where) in enumerate(zip(counts, start), 1):
            if count:
                out += struct.pack('<IIQ', kind, count, where)
        first, domain_at, instance_at = 0, {}, {}
        for k, d in enumerate(self.indoms):
            count = len(d['instances'])
            domain_at[d['serial']] = start[0] + 32 * k
            out += struct.pack('<IIQQQ', d['serial'], count, start[1] + sizes[1] * first if count else 0, text_at(d['short']),
                text_at(d['long']))
            first += count
        for k, (d, number, name) in enumerate(rows):
            instance_at[d['serial'], number] = start[1] + sizes[1] * k
            out += struct.pack('<QII', domain_at[d['serial']], 0, number)
            out += struct.pack('<Q', text_at(name)) if two else name.encode('latin-1').ljust(64, b'\0')
        metric_at = {}
        for k, m in enumerate(self.metrics):
            metric_at[m['item']] = start[2] + sizes[2] * k
            out += struct.pack('<Q', text_at(m['name'])) if two else m['name'].encode().ljust(64, b'\0')
            out += struct.pack('<IIIIIIQQ', m['item'], KINDS[m['kind']], SEMANTICS[m['semantics']], m['units'],
                m['serial'] or NO_DOMAIN, 0, text_at(m['short']), text_at(m['long']))
        for k, (item, instance, content) in enumerate(self.values):
            m = self.by_item[item]
            word = (start[3] + 32 * k) // 8
            self.place[item, instance] = word + 1 if m['kind'] == 'string' else word
            fields = content if type(content) is tuple else (0, text_at(content)) if m['kind'] == 'string' else (content % TOP, 0)
            out += struct.pack('<QQ', *fields)
            out += struct.pack('<QQ', metric_at[item], 0 if instance is None else instance_at[m['serial'], instance])
        for text in self.strings:
            out += text.encode('latin-1').ljust(256, b'\0')
        return list(struct.unpack('<%dQ' % (len(out) // 8), out))

    def slot(self, item, instance):
        """The value word and kind of a slot that a thread may store into."""
        if (item, instance) not in self.place or self.by_item[item]['kind'] in ('float', 'double', 'elapsed'):
            return None
        return self.place[item, instance], self.by_item[item]['kind']
