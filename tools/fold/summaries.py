"""Summaries and rules over random archives, by the program and by plain Python, and compared.

Usage: summaries.py PROGRAM COUNT [SEED]

An archive is what `replay` makes of a random script, what `make` makes of a number, or bytes that no run of the program would write: values of
other lengths than their metric's, metrics that nothing describes or that share a name, marks, samples of one stamp or of stamps that go back,
volumes that are gone, and torn ends. It is read by docs/FORMATS.md, and what its values come to, and which rules hold, is computed from all its
samples at once. Of each archive some runs of `summary`, by one worker and by others, and of `watch` are compared: status, output, and that no file
changed. The first run that differs is printed; the last line is `N archives, M differ`.
"""
import os, random, subprocess, sys, tempfile
sys.path.insert(0, os.path.join(os.path.dirname(os.path.abspath(__file__)), '..'))
import archive as records
from archive import NO_DOMAIN, Archive, number_of, stamp_text
from images import escaped
from plain_fold import Archive as Logged
from scripts import files_at, some_head, some_run

COMPARISONS = {'<': lambda a, b: a < b, '<=': lambda a, b: a <= b, '>': lambda a, b: a > b, '>=': lambda a, b: a >= b,
    '==': lambda a, b: a == b, '!=': lambda a, b: a != b}
AGGREGATES = {'min': min, 'max': max, 'sum': sum, 'rise': lambda values: values[-1] - values[0]}
LAST = (2147483647, 999999)


def between(archive, start, end):
    """The samples between two moments; marks are none."""
    return [(stamp, sets) for stamp, sets in archive.items if sets and start <= stamp <= end]


def instance_text(archive, pmid, instance, stamp):
    if instance == -1:
        return ''
    name = archive.instance_name(archive.domain(pmid), instance, stamp)
    return '[#%d]' % instance if name is None else '[%s]' % escaped(name.decode('latin-1'))


def summary(archive, start, end):
    """The lines of a summary: of each metric's instance with numbers how many, the least, the greatest and the sum."""
    found = {}
    for stamp, sets in between(archive, start, end):
        for pmid, shown in sets:
            for instance, content in shown if type(shown) is list else []:
                number = number_of(archive.code(pmid), content)
                if number is not None:
                    numbers, _ = found.get((pmid, instance), ([], None))
                    found[pmid, instance] = numbers + [number], stamp
    rows = []
    for (pmid, instance), (numbers, stamp) in found.items():
        name = archive.name(pmid)
        name = b'?' if name is None else name
        told = name.decode('latin-1') + instance_text(archive, pmid, instance, stamp)
        rows.append(((name, pmid, instance), '%s %d %d %d %d\n' % (told, len(numbers), min(numbers), max(numbers), sum(numbers))))
    return 0, ''.join(line for _, line in sorted(rows))


def row_of(archive, sets):
    """The numbers of a sample by first name and instance: of sets with one name the first one's, of an instance twice in a set the first."""
    row, names = {}, set()
    for pmid, shown in sets:
        name = archive.name(pmid)
        if name is None or name in names:
            continue
        names.add(name)
        for instance, content in shown if type(shown) is list else []:
            number = number_of(archive.code(pmid), content)
            if number is not None:
                row.setdefault((name.decode('latin-1'), instance), number)
    return row


def condition_holds(condition, rows):
    """Whether a condition holds at the last of the rows."""
    quantifier, aggregate, name, size, comparison, number = condition
    holds = []
    for key in rows[-1]:
        if key[0] == name:
            window = [row[key] for row in rows if key in row][-size:]
            holds.append(len(window) == size and COMPARISONS[comparison](AGGREGATES[aggregate](window), number))
    return bool(holds) and (any(holds) if quantifier == 'some' else all(holds))


def watch(archive, rules, start, end):
    """Status and output of a watch over rules (label, joint, conditions), or over the text's first fault."""
    if type(rules) is str:
        return (7 if rules.startswith('limit') else 2), rules + '\n'
    lines, rows = [], []
    for stamp, sets in between(archive, start, end):
        rows.append(row_of(archive, sets))
        for label, joint, conditions in rules:
            held = [condition_holds(condition, rows) for condition in conditions]
            if all(held) if joint == 'and' else any(held):
                lines.append('%s %s\n' % (stamp_text(stamp), label))
    return 0, ''.join(lines) + 'fired %d\n' % len(lines)


def some_condition(rng, archive):
    names = [name.decode('latin-1') for pmid in archive.descs for name in archive.descs[pmid][4] if name[:1].isalpha()] or ['mmv']
    name = rng.choice(names + ['mmv.none']) if rng.random() < 0.1 else rng.choice(names)
    numbers = [number for _, sets in rng.sample(archive.items, min(8, len(archive.items))) for number in row_of(archive, sets).values()]
    number = rng.choice(numbers or [0]) * rng.choice([1, 1, 1, 2, 3, 5]) + rng.choice([0, 0, 1, -1])
    number = rng.choice([number, number, 0, rng.randint(-99, 99), 10 ** 20 - 1])
    size = rng.choice([1, 1, 2, 2, 3, 4, 7, rng.randint(1, 40), 1000])
    return (rng.choice(['some', 'all']), rng.choice(list(AGGREGATES)), name, size, rng.choice(list(COMPARISONS)), number)


def some_rules(rng, archive):
    """A text of rules, and what they are: (label, joint, conditions), or the line of the first fault."""
    rules, lines = [], []
    for k in range(rng.choice([0, 1, 3, 8, 20, 64])):
        joint = rng.choice(['and', 'or'])
        conditions = [some_condition(rng, archive) for _ in range(rng.choice([1, 1, 1, 2, 3, 8]))]
        rules.append(('r%d' % k, joint, conditions))
        told = ['%s %s %s over %d %s %d' % condition for condition in conditions]
        lines.append('rule r%d when %s' % (k, (' %s ' % joint).join(told)))
    if rng.random() < 0.15 and lines:
        at = rng.randrange(len(lines))
        bad, fault = rng.choice([('rule', 'Grammar'), (lines[at] + ' ', 'Grammar'), (lines[at].replace(' over ', ' under '), 'Grammar'),
            ('', 'Grammar'), ('rule r0 when some min x over 1 < 0', 'Condition' if at else None)])
        lines[at] = bad
        if fault:
            rules = 'input line %d %s' % (at + 1, fault)
    elif len(rules) == 64 and rng.random() < 0.3:
        lines, rules = lines + ['rule r64 when some min x over 1 < 0'], 'limit rules 65'
    text = ''.join(line + '\n' for line in lines)
    if type(rules) is list and lines and lines[0] == 'rule r0 when some min x over 1 < 0':
        rules[0] = 'r0', 'and', [('some', 'min', 'x', 1, '<', 0)]
    return text, rules


def some_content(rng, code):
    """A set's values: mostly as the code's are stored."""
    by_block = code in (2, 3, 6) if rng.random() < 0.95 else rng.random() < 0.5
    if not by_block:
        return lambda: ('word', rng.choice([0, 1, 0xffffffff, 0x80000000, 0x7fffffff, rng.randrange(1 << 32), rng.randint(0, 50)]))
    size = 8 if rng.random() < 0.95 else rng.choice([0, 4, 7, 9])
    number = lambda: rng.choice([0, 1, (1 << 64) - 1, 1 << 63, (1 << 63) - 1, rng.randrange(1 << 64), rng.randint(0, 50)])
    return lambda: (code & 255, number().to_bytes(8, 'big')[:size].ljust(size, b'\1'))


def some_set(rng, metrics):
    pmid, code, indom, _ = rng.choice(metrics)
    if rng.random() < 0.1:
        return pmid, rng.choice([0, -12357])
    content = some_content(rng, code)
    instances = [-1] if indom == NO_DOMAIN and rng.random() < 0.95 else [rng.choice([0, 1, 2, 3, -1, -7, LAST[0]]) for _ in range(rng.randint(1, 4))]
    return pmid, [(instance, content()) for instance in instances]


def some_metrics(rng):
    """Rows of metric, code, domain and names, of which some share a name."""
    names = [b'a', b'a.b', b'app.hits', b'Z', b'a_b', b'a1', b'mmv.r0.c1', b'x' * 60]
    pmids = rng.sample([1, 0x11800401, 0x11800402, 0x11800c03, 0x91800401, 0xffffffff, 0x11800404, 0x11800405], rng.randint(1, 8))
    return [(pmid, rng.choice([0, 1, 2, 3, 0, 1, 2, 3, 5, 6, 0xffffffff]), rng.choice([NO_DOMAIN, 0x11800401, 5]),
        rng.sample(names, rng.choice([1, 1, 1, 1, 2, 0]))) for pmid in pmids]


def some_meta(rng, metrics, clock):
    rows = [records.description(pmid, code, indom, 1, 0, names) for pmid, code, indom, names in metrics if rng.random() < 0.95]
    for _ in range(rng.randint(0, 6)):
        pairs = [(number, rng.choice([b'%d', b'i%d', b'q"\\%d', b'\xe9 %d', b'']).replace(b'%d', b'%d' % number)) for number in
            rng.sample([0, 1, 2, 3, -1, -7, LAST[0]], rng.randint(0, 5))]
        rows.append(records.domain((clock + rng.randint(-3, 60), 0), rng.choice([0x11800401, 5, NO_DOMAIN]), pairs))
    rng.shuffle(rows)
    if rng.random() < 0.2:
        rows.append(records.framed(records.big(3, 1, 2)))
    return b''.join(rows)


def some_bytes(rng):
    """The files of an archive that no run of the program would write."""
    clock, micros, metrics, files = 100, 0, some_metrics(rng), {}
    start = clock, 0
    files['meta'] = records.label(-1, start) + some_meta(rng, metrics, clock)
    files['index'] = records.label(-2, start) if rng.random() < 0.9 else b''
    for number in range(rng.choice([0, 1, 1, 2, 5, 12, 70])):
        rows = [records.label(number, start)]
        for _ in range(rng.choice([0, 1, 3, rng.randint(0, 30)])):
            sets = [some_set(rng, metrics) for _ in range(rng.choice([0, 1, 1, 2, 4]))]
            rows.append(records.result((clock, micros), sets))
            if rng.random() < 0.7:
                clock, micros = clock + rng.choice([0, 1, 1, 3]), rng.choice([0, 0, 1, 999999])
            elif rng.random() < 0.03:
                clock = max(0, clock - rng.randint(1, 20))
        files[str(number)] = b''.join(rows)
    numbers = sorted(int(name) for name in files if name.isdigit())
    for number in numbers:
        if rng.random() < 0.08:
            del files[str(number)]
    numbers = sorted(int(name) for name in files if name.isdigit())
    if numbers and rng.random() < 0.3:
        last = str(numbers[-1])
        files[last] += records.result((clock, 0), [some_set(rng, metrics)])[:rng.randint(1, 11)]
    if rng.random() < 0.1:
        files['meta'] += records.domain(start, 5, [(0, b'a')])[:rng.randint(1, 11)]
    return files


def put_files(base, files):
    for name, data in files.items():
        with open('%s.%s' % (base, name), 'wb') as file:
            file.write(data)


def make_archive(rng, program, base):
    """Makes files at the base, and tells how."""
    draw = rng.random()
    if draw < 0.35:
        head, archive, micros = some_head(rng), Logged(), rng.choice([0, 100000000])
        for _ in range(rng.choice([1, 1, 2])):
            limit = rng.choice([1024, 1200, 5000, 1048576])
            lines, _, _, archive, micros = some_run(rng, head, archive, limit, micros)
            said(program, base, ['replay', limit], ''.join(line + '\n' for line in lines).encode('latin-1'))
        return 'a script'
    if draw < 0.4:
        words = ['make', rng.randrange(1 << 64), rng.choice([1, 50, 300, 520]), rng.choice([1024, 65536, 1048576])]
        said(program, base, words)
        return ' '.join(map(str, words))
    put_files(base, some_bytes(rng))
    return 'bytes'


def said(program, base, words, text=b''):
    ran = subprocess.run([program, base] + [str(word) for word in words], input=text, capture_output=True, timeout=900)
    return ran.returncode, ran.stdout.decode('latin-1')


def some_moments(rng, archive):
    """The first and the last moment of what is asked for."""
    stamps = [stamp for stamp, _ in archive.items] or [(100, 0)]
    if rng.random() < 0.3:
        return (0, 0), LAST
    moments = [rng.choice(stamps) if rng.random() < 0.7 else (rng.choice(stamps)[0], rng.choice([0, 1, 999999])) for _ in range(2)]
    return tuple(sorted(moments)) if rng.random() < 0.95 else tuple(moments)


def differs(rng, program, base, counts):
    """What differs between the program and plain Python over the files at a base, or None."""
    files = files_at(os.path.dirname(base))
    archive = Archive(files)
    asked = []
    for _ in range(2):
        start, end = some_moments(rng, archive)
        ours = summary(archive, start, end)
        asked += [(['summary', workers, *start, *end], b'', ours) for workers in (1, rng.choice([2, 3, 64, rng.randint(2, 64)]))]
        text, rules = some_rules(rng, archive)
        asked.append((['watch', *start, *end], text.encode(), watch(archive, rules, start, end)))
    for words, text, ours in asked:
        counts[words[0], ours[0]] = counts.get((words[0], ours[0]), 0) + 1
        counts['lines of ' + words[0], 0] = counts.get(('lines of ' + words[0], 0), 0) + ours[1].count('\n')
        theirs = said(program, base, words, text)
        if theirs != ours:
            return '%s\n%s\nPython: %d\n%s\nprogram: %d\n%s' % (words, text.decode(), *ours, *theirs)
        if files_at(os.path.dirname(base)) != files:
            return '%s changed a file' % words
    return None


def main(program, count, seed=1):
    differing, told, counts, made = 0, False, {}, {}
    for n in range(count):
        rng = random.Random('summaries %d %d' % (seed, n))
        with tempfile.TemporaryDirectory() as folder:
            base = os.path.join(folder, 'base')
            how = make_archive(rng, program, base)
            made[how.split(' ')[0]] = made.get(how.split(' ')[0], 0) + 1
            found = differs(rng, program, base, counts)
        if found:
            differing += 1
            if not told:
                print('seed %d, archive %d, of %s:\n%s' % (seed, n, how, found))
                told = True
    print('made of ' + ', '.join('%s: %d' % pair for pair in sorted(made.items())))
    print('runs ' + ', '.join('%s %d: %d' % (*key, n) for key, n in sorted(counts.items())))
    print('%d archives, %d differ' % (count, differing))
    return 1 if differing else 0


if __name__ == '__main__':
    if len(sys.argv) not in (3, 4):
        sys.exit(__doc__)
    sys.exit(main(sys.argv[1], int(sys.argv[2]), *(int(word) for word in sys.argv[3:])))
