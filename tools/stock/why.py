#!/usr/bin/env python3
"""Names the record that the program refuses by `not archive FILE AT`, and the row of docs/STOCK.md that explains it.

usage: why.py BASE FILE AT          FILE: meta, index or a volume's number, as the program wrote it

It says where the record begins and ends, of what kind it is, its stamp, what in it fits no archive, and the row's name."""
import os, sys

HERE = os.path.dirname(os.path.realpath(__file__))
sys.path.insert(0, os.path.join(HERE, '..'))
from archive import pmid_text, signed, stamp_text, word

LABEL, MOST = 132, 1 << 24
META_KINDS = {1: 'description of a metric', 2: 'instance domain', 3: 'record of labels', 4: 'help text', 5: 'instance domain of version 3',
    6: 'change of an instance domain of version 3', 7: 'record of labels of version 3'}
FIELDS = [(4, 'length'), (8, 'magic number and version'), (12, 'process'), (16, 'seconds'), (20, 'microseconds'), (24, 'number of the file'),
    (88, 'host'), (128, 'zone'), (132, 'length behind')]


class Misfit(Exception):
    """What is wrong, and in which row it is explained."""


def held(base, file):
    try:
        with open('%s.%s' % (base, file), 'rb') as it:
            return it.read()
    except FileNotFoundError:
        return b''


def label_says(data, at):
    """A label's bytes, of which that one fits none."""
    field = next((name for end, name in FIELDS if at < end), None)
    if len(data) >= 8 and word(data, 4) >> 8 == 0x500526 and word(data, 4) & 255 != 2:
        return 'a label of %d bytes, of version %d' % (word(data, 0), word(data, 4) & 255), 'version'
    if at >= len(data):
        return 'a label that ends after %d bytes, and other files hold something' % len(data), 'torn'
    if field in ('process', 'seconds', 'microseconds', 'host', 'zone'):
        return 'a label whose %s is another than that of meta' % field, 'another archive'
    return 'a label of %d bytes, but for its %s' % (word(data + bytes(4), 0), field), 'no label'


def frame_of(data, at):
    """The payload of the record there, or why it is none."""
    length = word(data, at) if at + 4 <= len(data) else 0
    if at + 4 > len(data) or 12 <= length <= MOST and at + length > len(data):
        raise Misfit('a record that is torn: of its %d bytes %d are there, and this is not the end of the archive' % (length, len(data) - at), 'torn')
    if not 12 <= length <= MOST:
        raise Misfit('no record: its length would be %d' % length, 'frame')
    if word(data, at + length - 4) != length:
        raise Misfit('no record: its length is %d in front and %d behind' % (length, word(data, at + length - 4)), 'frame')
    return data[at + 4:at + length - 4]


def known(payload, at, end=None):
    """A word of the payload."""
    if at + 4 > (len(payload) if end is None else end):
        raise Misfit('it ends within its fields, after %d bytes' % len(payload), 'fields')
    return word(payload, at)


def stamp_at(payload, at):
    seconds, micros = known(payload, at), known(payload, at + 4)
    if seconds >= 1 << 31 or micros >= 1000000:
        raise Misfit('its stamp is %d seconds and %d microseconds' % (seconds, micros), 'stamp')
    return seconds, micros


def description(payload):
    """(metric, all else) of a description."""
    count, at = signed(payload, 24) if known(payload, 24) is not None else 0, 28
    if count < 0:
        raise Misfit('it has %d names' % count, 'fields')
    for _ in range(count):
        length = known(payload, at)
        if at + 4 + length > len(payload):
            raise Misfit('a name of %d bytes ends behind it' % length, 'fields')
        if b'\0' in payload[at + 4:at + 4 + length]:
            raise Misfit('a name holds a zero byte', 'fields')
        at += 4 + length
    if at != len(payload):
        raise Misfit('%d bytes stand behind its last name' % (len(payload) - at), 'fields')
    return word(payload, 4), payload[8:]


def domain(payload):
    stamp_at(payload, 4)
    known(payload, 16)
    count = signed(payload, 16)
    if count < 0:
        raise Misfit('it has %d instances' % count, 'fields')
    if 20 + 8 * count > len(payload):
        raise Misfit('its %d instances end behind it' % count, 'fields')
    table = payload[20 + 8 * count:]
    for k in range(count):
        if b'\0' not in table[word(payload, 20 + 4 * count + 4 * k):]:
            raise Misfit('the name of instance %d has no end in its table' % signed(payload, 20 + 4 * k), 'fields')


def meta_says(payload, before):
    """What a record of Meta is, and what is wrong with it; `before` are the payloads in front of it."""
    kind = known(payload, 0)
    said = META_KINDS.get(kind, 'record of kind %d' % kind)
    if kind == 1:
        metric, rest = description(payload)
        for one in before:
            if word(one, 0) == 1 and word(one, 4) == metric and one[8:] != rest:
                raise Misfit('%s was described otherwise before' % pmid_text(metric), 'described twice')
    elif kind == 2:
        domain(payload)
    return said


def result_says(payload, name):
    """What is wrong with a result: its words in order, then its blocks, then what stands behind."""
    stamp_at(payload, 0)
    known(payload, 8)
    if signed(payload, 8) < 0:
        raise Misfit('it has %d sets' % signed(payload, 8), 'fields')
    at, blocks = 12, []
    for k in range(word(payload, 8)):
        metric, count = known(payload, at), known(payload, at + 4)
        if count == 0 or count >= 1 << 31:
            at += 8
            continue
        mode = known(payload, at + 8)
        if mode > 1:
            raise Misfit('its set %d, of %s, has storage mode %d' % (k, name(metric), mode), 'storage mode')
        known(payload, at + 12 + 8 * count - 4)
        if mode == 1:
            blocks += [(metric, word(payload, at + 16 + 8 * pair)) for pair in range(count)]
        at += 12 + 8 * count
    end = at
    for metric, offset in blocks:
        start = (offset - 3) * 4
        if not at <= start < len(payload):
            raise Misfit('a block of %s would begin at its byte %d' % (name(metric), start), 'block')
        length = word(payload, start) & 0xffffff
        if length < 4 or start + (length + 3) // 4 * 4 > len(payload):
            raise Misfit('a block of %s, at its byte %d, would have %d bytes' % (name(metric), start, length), 'block')
        end = max(end, start + (length + 3) // 4 * 4)
    if end < len(payload):
        raise Misfit('%d bytes stand behind its last block' % (len(payload) - end), 'block')


def entry_says(data, at, base):
    seconds, micros, volume, meta, offset = (word(data[at:at + 20].ljust(20, b'\0'), 4 * k) for k in range(5))
    said = 'entry %d of the index: %d seconds, %d microseconds, volume %d, offsets %d and %d' % (
        (at - LABEL) // 20, seconds, micros, volume, meta, offset)
    if seconds >= 1 << 31 or micros >= 1000000 or max(volume, meta, offset) >= 1 << 31:
        return said, 'entry'
    if at == LABEL and not any(len(held(base, number)) >= LABEL for number in numbers_of(base)):
        return said + '; no volume has a whole label', 'no volume'
    return said, 'unknown'


def numbers_of(base):
    """The numbers of the volumes that are there."""
    folder, name = os.path.split(base)
    found = [file[len(name) + 1:] for file in os.listdir(folder or '.') if file.startswith(name + '.')]
    return sorted(int(number) for number in found if number.isdigit())


def payloads_before(data, at):
    found, here = [], LABEL
    while here + 4 <= at:
        length = word(data, here)
        if length < 12:
            break
        found.append(data[here + 4:here + length - 4])
        here += length
    return found


def names_of(base):
    """Metric -> the text that tells it: its number, and its first name where Meta has one."""
    names, meta = {}, held(base, 'meta')
    for payload in payloads_before(meta, len(meta)):
        try:
            if word(payload, 0) == 1 and word(payload, 24):
                names.setdefault(word(payload, 4), payload[32:32 + word(payload, 28)].decode('latin-1'))
        except IndexError:
            pass
    return lambda metric: ('%s %s' % (pmid_text(metric), names.get(metric, ''))).strip()


def why(base, file, at):
    """What stands there, as lines, and the name of the row that explains it."""
    data = held(base, file)
    if at < LABEL:
        said, row = label_says(data, at)
        return ['%s begins with %s (byte %d)' % (file, said, at)], row
    if file == 'index':
        said, row = entry_says(data, at, base)
        return [said], row
    try:
        payload = frame_of(data, at)
    except Misfit as misfit:
        return ['%s, byte %d: %s' % (file, at, misfit.args[0])], misfit.args[1]
    kind = META_KINDS.get(word(payload, 0), 'record of kind %d' % word(payload, 0)) if file == 'meta' else 'result'
    stamped = 4 if file == 'meta' and kind.startswith('instance') else 0 if file != 'meta' else None
    head = '%s, bytes %d to %d: a %s of %d bytes' % (file, at, at + len(payload) + 7, kind, len(payload) + 8)
    if stamped is not None and len(payload) >= stamped + 8 and word(payload, stamped + 4) < 1000000:
        head += ', stamped %s' % stamp_text((word(payload, stamped), word(payload, stamped + 4)))
    try:
        if file == 'meta':
            meta_says(payload, payloads_before(data, at))
        else:
            result_says(payload, names_of(base))
    except Misfit as misfit:
        return [head, misfit.args[0]], misfit.args[1]
    return [head, 'it is as it should be'], 'unknown'


def main(base, file, at):
    lines, row = why(base, file, int(at))
    print('\n'.join(lines))
    print('row `%s` of docs/STOCK.md' % row)


if __name__ == '__main__':
    if len(sys.argv) != 4:
        sys.exit(__doc__)
    main(*sys.argv[1:])
