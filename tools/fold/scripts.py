"""Random replay scripts, run by the program and by a plain fold, and compared.

Usage: scripts.py PROGRAM COUNT [SEED]

Each script is a head of images, regions and groups, and then steps that mostly meet their conditions. Of each run the status, the
output and the bytes of all files are compared, and then what `dump` and two of `at`, `range`, `info` and `check` print. Some heads
run a second time, with other steps, over the files that they left. The first run that differs is printed with its script; the last
line is `N scripts, M differ`.
"""
import os, random, subprocess, sys, tempfile
from images import Image, RANGES, TOP, quoted
from plain_fold import Archive, Fold

NAMES = ['hits', 'per', 'load.one', 'load.two', 'state', 'misses', 'depth_2', 'Z', 'a.b.c', 'wait', 'app', 'web']
# versions of layouts that scripts hold
VERSIONS = [1, 2]
TEXTS = ['on', 'off', 'busy', 'a "b" \\', 'line\nend', 'caf\xe9', '', 'a longer text of some words']


def some_number(rng, kind):
    low, high = RANGES[kind]
    return rng.choice([low, high, rng.randint(low, high), rng.randint(0, 100), rng.randint(0, 100)])


def shared_metrics(rng):
    """What the metrics of all images are mostly like, by item."""
    rows = []
    for item, name in enumerate(rng.sample(NAMES, 9), rng.randint(0, 5)):
        kind = rng.choice(['u32', 'i32', 'u64', 'i64', 'u32', 'u64', 'string', rng.choice(['float', 'double', 'elapsed'])])
        rows.append({'name': name, 'item': item, 'kind': kind, 'semantics': rng.choice(['counter', 'instant', 'discrete']),
            'units': rng.choice([0, 0x00100000, 0x01203000]), 'serial': rng.choice([None, None, 1, 2]),
            'short': rng.choice([None, None, 'short help']), 'long': rng.choice([None, None, 'on'])})
    return rows


def some_image(rng, shared, cluster, flags, generation):
    """An image of a few of the shared metrics, sometimes with one that differs."""
    metrics = [dict(m) for m in rng.sample(shared, rng.randint(1, 5))]
    if rng.random() < 0.15:
        metrics[0].update(rng.choice([{'kind': 'u32'}, {'kind': 'string'}, {'units': 0x01000000}, {'semantics': 'discrete'}]))
    if rng.random() < 0.06:
        # one that `load.one` and `load.two` continue
        rng.choice(metrics)['name'] = 'load'
    names = [m['name'] for m in metrics]
    metrics = [m for n, m in enumerate(metrics) if m['name'] not in names[:n]]
    indoms = []
    for serial in rng.sample([1, 2], 2):
        numbers = rng.sample(range(0, 6), rng.randint(0, 3))
        if rng.random() < 0.1 and numbers:
            numbers[0] = (1 << 31) - 1
        indoms.append({'serial': serial, 'short': rng.choice([None, 'help']), 'long': None,
            'instances': [(n, rng.choice(['i%d'] * 30 + ['i %d', 'q"%d\\', '\xe9%d']) % n) for n in numbers]})
    if all(m['serial'] is None for m in metrics):
        indoms = indoms[:rng.randint(0, 1)]
    strings, values = rng.sample(TEXTS, rng.randint(0, 2)), []
    for m in metrics:
        instances = [n for d in indoms if d['serial'] == m['serial'] for n, _ in d['instances']] if m['serial'] else [None]
        for instance in instances:
            if rng.random() < 0.1:
                continue
            content = rng.choice(TEXTS) if m['kind'] == 'string' else (
                some_number(rng, m['kind']) if m['kind'] in RANGES else (rng.randrange(TOP), rng.randrange(TOP)))
            values.append((m['item'], instance, content))
    rng.shuffle(values)
    return Image(rng.choice(VERSIONS), generation, flags, cluster, strings, indoms, metrics, values)


def some_head(rng):
    """Images by name, rows of regions, groups of interval and names, and the head's lines."""
    images, regions, lines, shared = {}, [], [], shared_metrics(rng)
    count = rng.randint(1, 3)
    files, clusters = rng.sample(['app', 'web', 'db_1', 'Q'], count), rng.sample([1, 2, 7, 300, 4095], count)
    for file, cluster in zip(files, clusters):
        flags, own = rng.choice([0, 0, 0, 1]), []
        for k in range(rng.randint(2, 3)):
            generation = rng.choice([1, 5, rng.randrange(1000), TOP - 2 if rng.random() < 0.2 else 3])
            name = '%s_%d' % (file, k)
            images[name] = some_image(rng, shared, rng.choice([cluster] * 9 + [9]) if k else cluster, flags, generation)
            own.append(name)
        need = [len(images[name].words) for name in own]
        capacity = rng.choice([max(need), max(need), max(need) + rng.randint(0, 9), need[0]])
        regions.append((file, own[0], max(capacity, need[0]), rng.randint(2, 3)))
    for name, image in images.items():
        lines += ['image ' + name] + image.lines() + ['end']
    rng.shuffle(regions)
    lines += ['region %s %s %d %d' % row for row in regions]
    groups = []
    for _ in range(rng.choice([1, 1, 2, 3])):
        told, every = rng.choice([('once', None), ('every 1 sec', 1000000), ('2 sec', 2000000), ('every 500 msec', 500000),
            ('every 1 sec', 1000000), ('every 7 sec', 7000000), ('1 min', 60000000)])
        leaf = 'mmv.%s.%s' % (files[0], images[files[0] + '_0'].metrics[0]['name'])
        names = rng.sample(['mmv', 'mmv', 'mmv.' + files[-1], leaf, 'mmv.none', 'mmv.load'], rng.choice([1, 1, 2]))
        groups.append((every, names))
        lines.append('log mandatory on %s { %s }' % (told, rng.choice([' ', ', ', ' , ']).join(names)))
    return images, regions, groups, lines + ['start']


def some_store(rng, r, act, wrong):
    """A swap or an add, into a slot of the region's layout unless it is to be wrong."""
    slots = [key for key in r.image.place if r.image.slot(*key)]
    if act == 'add':
        slots = [key for key in slots if r.image.slot(*key)[1] != 'string']
    if wrong or not slots:
        if not wrong:
            return None
        item, instance, kind = rng.randrange(12), rng.choice([None, 0, 1]), 'i64'
    else:
        item, instance = rng.choice(slots)
        kind = r.image.slot(item, instance)[1]
    if act == 'add':
        value = rng.choice([1, 5, -1, -20, rng.randint(-TOP, TOP)])
    elif kind == 'string':
        value = quoted(rng.choice(r.image.strings))
    else:
        value = some_number(rng, kind)
    return '%d %s %s' % (item, '-' if instance is None else instance, value)


def some_step(rng, fold, wrong):
    """A step of some pass; None where the draw leads to none."""
    r = rng.choice(list(fold.regions.values()))
    k = rng.randrange(len(r.doing))
    acts = {'idle': ['attach', 'attach', 'begin', 'load'], 'attached': ['swap', 'add', 'add', 'swap', 'add', 'detach'],
        'changing': ['step', 'step', 'step', 'finish'], 'reading': ['word', 'word', 'done']}
    act = rng.choice(acts[rng.choice(list(acts))] if wrong else acts[r.doing[k][0]])
    rest = ''
    if act in ('swap', 'add'):
        rest = some_store(rng, r, act, wrong and rng.random() < 0.7)
        if rest is None:
            return None
    elif act == 'begin':
        own = [name for name in fold.images if name.startswith(r.file + '_')]
        name = rng.choice(own) if rng.random() < 0.97 else rng.choice(list(fold.images))
        moment = rng.choice([0, 0, 7, r.words[1] + rng.randint(-2, 50), TOP - 1 if rng.random() < 0.1 else 1])
        rest = '%s %d' % (name, min(max(moment, 0), TOP - 1))
    elif act == 'word':
        rest = '%d' % (len(r.words) if wrong else rng.choice([1, 2, rng.randrange(len(r.words))]))
    return ('%s %s %d %s' % (act, r.file, k, rest)).rstrip(' ')


def closing(fold):
    """The steps that leave every pass idle."""
    last = {'attached': 'detach', 'changing': 'finish', 'reading': 'done'}
    passes = [(r.file, k, doing[0]) for r in fold.regions.values() for k, doing in enumerate(r.doing)]
    return ['%s %s %d' % (last[doing], file, k) for file, k, doing in passes if doing in last]


def some_run(rng, head, archive, limit, micros):
    """A script over an archive, what the fold says of it, the archive then, and the last moment."""
    images, regions, groups, lines = head
    kept, lines, archive = archive, list(lines), archive.found(archive.files())
    fold = Fold(images, regions, groups, archive, limit)

    def add(text):
        lines.append(text)
        fold.line(len(lines), text)

    wrong_at = rng.randint(0, 60) if rng.random() < 0.2 else None
    for n in range(rng.randint(5, rng.choice([40, 80, 250]))):
        draw = rng.random()
        if n == wrong_at:
            add(some_step(rng, fold, True) or 'flush')
        elif draw < 0.3:
            add('tick %d %d' % divmod(micros, 1000000))
            micros += rng.choice([1, 250000, 500000, 1000000, 1000000, 1000000, 3000000, 61000000, rng.randint(1, 2500000)])
        elif draw < 0.36:
            add('flush')
        else:
            step = some_step(rng, fold, False)
            if step:
                add(step)
    if rng.random() < 0.93:
        for step in closing(fold):
            add(step)
    status, output = fold.end(len(lines) + 1)
    if rng.random() < 0.04:
        # a script that isn't read runs no line
        row = rng.choice(regions)
        text, fault = rng.choice([('attach %s %d' % (row[0], row[3]), 'Condition'), ('detach none 0', 'Condition'),
            ('begin %s 0 none 1' % row[0], 'Condition'), ('flush 1', 'Grammar'), ('load %s' % row[0], 'Grammar'),
            ('tick 5 1000000', 'Grammar')])
        lines.append(text)
        return lines, 2, 'input line %d %s\n' % (len(lines), fault), kept, micros
    return lines, status, output, archive, micros


def files_at(folder):
    """The bytes of the archive's files, as far as they aren't empty."""
    found = {}
    for name in os.listdir(folder):
        with open(os.path.join(folder, name), 'rb') as file:
            data = file.read()
        if data:
            found[name.split('.', 1)[1]] = data
    return found


def program_says(program, base, words, text=b''):
    ran = subprocess.run([program, base] + words, input=text, capture_output=True, timeout=60)
    return ran.returncode, ran.stdout.decode('latin-1')


def first_difference(ours, theirs):
    for name in sorted(set(ours) | set(theirs)):
        a, b = ours.get(name, b''), theirs.get(name, b'')
        if a != b:
            at = next((n for n, (x, y) in enumerate(zip(a, b)) if x != y), min(len(a), len(b)))
            shown = len(a), a[at:at + 24].hex(), len(b), b[at:at + 24].hex()
            return '%s differs at byte %d: fold %d bytes, ..%s; program %d bytes, ..%s' % (name, at, *shown)
    return None


def differs(rng, commands, program, base, script, limit, status, output, archive):
    """What differs between a run of the program and the fold, or None."""
    said = program_says(program, base, ['replay', str(limit)], script)
    if said != (status, output):
        return 'fold: %d\n%s\nprogram: %d\n%s' % (status, output, said[0], said[1])
    found = first_difference(archive.files(), files_at(os.path.dirname(base)))
    if found:
        return found
    end = archive.items[-1][0][0] if archive.items else 1
    first, last = sorted((rng.randint(0, end + 1), rng.choice([0, 250000, 999999])) for _ in range(2))
    asked = [(['at', *last], archive.at(last)), (['range', *first, *last], archive.between(first, last)),
        (['info'], archive.info()), (['check'], archive.check())]
    known = [pair for pair in asked if pair[0][0] in commands]
    for words, ours in [(['dump'], archive.dump())] + rng.sample(known, min(2, len(known))):
        said = program_says(program, base, [str(word) for word in words])
        if said != ours:
            return '%s\nfold: %d\n%s\nprogram: %d\n%s' % (words, *ours, *said)
    return None


def known_commands(program):
    """The reading commands that the program has, which grow over its releases."""
    with tempfile.TemporaryDirectory() as folder:
        words = [['at', '0', '0'], ['range', '0', '0', '0', '0'], ['info'], ['check']]
        return [asked[0] for asked in words if program_says(program, os.path.join(folder, 'base'), asked)[0] != 1]


def main(program, count, seed=1):
    """Compares as many heads; a head whose run differs isn't run again."""
    commands = known_commands(program)
    ran, differing, told, statuses = 0, 0, False, {}
    for n in range(count):
        rng = random.Random('%d %d' % (seed, n))
        head, archive, micros = some_head(rng), Archive(), rng.choice([0, 100000000, 1234567])
        with tempfile.TemporaryDirectory() as folder:
            for _ in range(rng.choice([1, 1, 2])):
                limit = rng.choice([1024, 1200, 2000, 5000, 1048576, 1048576])
                lines, status, output, archive, micros = some_run(rng, head, archive, limit, micros)
                if rng.random() < 0.1:
                    micros = max(0, micros - 200000000)
                script = ''.join(line + '\n' for line in lines).encode('latin-1')
                found = differs(rng, commands, program, os.path.join(folder, 'base'), script, limit, status, output, archive)
                ran += 1
                statuses[status] = statuses.get(status, 0) + 1
                if found:
                    differing += 1
                    if not told:
                        print('seed %d, script %d, volume limit %d:\n%s\n%s' % (seed, n, limit, script.decode('latin-1'), found))
                        told = True
                    break
    print('statuses ' + ', '.join('%d: %d' % pair for pair in sorted(statuses.items())))
    print('%d scripts, %d differ' % (ran, differing))
    return 1 if differing else 0


if __name__ == '__main__':
    if len(sys.argv) not in (3, 4):
        sys.exit(__doc__)
    sys.exit(main(sys.argv[1], int(sys.argv[2]), *(int(word) for word in sys.argv[3:])))
