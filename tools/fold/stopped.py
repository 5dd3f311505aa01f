"""What a stop leaves of an archive's files, and what recovery and a retirement make of them, over the archive of `plain_fold.py`.

A stop leaves of each file a front of what was written to it, or nothing of a volume that was emptied; so the archive that was written
says what they hold (`Archive.found`).
"""
from plain_fold import ends


def cut(archive, name, size):
    if archive.size(name) > size:
        archive.bytes[name] = archive.bytes[name][:size]
        archive.calls.append(('cut', name, size))


def mended(archive):
    """What recovery leaves of it, with the calls that make it so."""
    left = archive.found(archive.files())
    left.calls = []
    if left.start is None:
        cut(left, 'meta', 0)
        return left
    cut(left, 'meta', ends(left.bytes['meta'])[-1])
    if left.size('index') < 132:
        cut(left, 'index', 0)
        left.begin('index', -2)
    cut(left, 'index', 132 + 20 * len(left.entries))
    last = str(left.number)
    cut(left, last, ends(left.bytes.get(last, b''))[-1])
    if not any(name.isdigit() for name in left.files()):
        left.begin('0', 0)
    for name in ['meta', 'index'] + sorted((name for name in left.files() if name.isdigit()), key=int):
        left.sync(name)
    return left.found(left.files())


def retired(archive, below):
    """What `retire` says of a mended archive, of which it empties the volumes below the number."""
    if archive.start is None:
        return 14, 'live 0\n'
    if below > archive.number:
        return 14, 'live %d\n' % archive.number
    for number in range(below):
        cut(archive, str(number), 0)
    return 0, 'retired %d\n' % below


def in_batches(calls):
    """Calls as they come where items are written together: up to 64, those of one volume at a time, their metadata first."""
    out, metas, records, count, volume = [], b'', b'', 0, ''
    for kind, name, data in calls + [('flush', '', b'')]:
        if records and (kind != 'item' or count == 64):
            out += [('put', 'meta', metas), ('sync', 'meta', b''), ('put', volume, records)]
            metas, records = b'', b''
        if kind == 'flush' or count == 64:
            count = 0
        if kind == 'item':
            volume, metas, records, count = name, metas + data[0], records + data[1], count + 1
        elif kind != 'flush':
            out.append((kind, name, data))
    return out


def moments(files, sure, calls):
    """What each file holds before the calls and behind each of them, and how much of it is sure."""
    out = [(files, sure)]
    for kind, name, data in in_batches(calls):
        files, sure = dict(files), dict(sure)
        if kind == 'put':
            files[name] = files.get(name, b'') + data
        elif kind == 'sync':
            sure[name] = len(files.get(name, b''))
        else:
            files[name], sure[name] = files[name][:data], min(sure.get(name, 0), data)
        out.append((files, sure))
    return out


def present(files):
    return {name: data for name, data in files.items() if data}


def has_next_label(files):
    """Whether the last volume isn't the first one and is its label alone."""
    last = max((int(name) for name in present(files) if name.isdigit()), default=0)
    return last > 0 and len(files[str(last)]) == 132


def power_cut(rng, states):
    """Files that a power cut may leave at one of these moments: of each the sure bytes, and a front of the others."""
    fresh = [state for state in states if has_next_label(state[0])]
    files, sure = rng.choice(fresh if fresh and rng.random() < 0.6 else states)
    out = {}
    for name, data in files.items():
        low = sure.get(name, 0)
        out[name] = data[:rng.choice([low, len(data), len(data), rng.randint(low, len(data))])]
    return present(out)


def moment_of(files, states):
    """The moment at which a program was killed that left these files, or None: a call may have happened in part."""
    for (before, sure), (behind, _) in zip(states, states[1:] + states[-1:]):
        rows = [(files.get(name, b''), before.get(name, b''), behind.get(name, b'')) for name in set(files) | set(before) | set(behind)]
        if all(now in (was, then) or now.startswith(was) and then.startswith(now) for now, was, then in rows):
            return sure
    return None
