#!/usr/bin/env python3
"""The program beside the tools of PCP 6.0.3: stock tools show its archives whole, and it shows theirs.

usage: stock.py PROGRAM [TICKS [REPLAYS [FILE]]]        TICKS: 600, of the longest archives; REPLAYS: 12 random ones

It makes archives with the program, exports each (`export`), and compares what pmdumplog, pminfo, pmval, pmlogcheck and pmlogsummary say with
`dump`, `range`, `at`, `info`, `value`, `check` and `summary`; and has stock pmcd and pmlogger of its own, in a temporary folder, write archives that
both read in place. Every result, value, name and instance is to be equal: a line of the table for each comparison, both lines of what
differs behind it. Last come archives with one fault each, and what is said of them. With a FILE, as docs/STOCK.md, the part of it between its
two marks is written anew. The status is 0 where nothing differs that has no explanation.

On Debian: apt-get install --no-install-recommends pcp xz-utils. No service of pcp has to run; an error of its configuration does no harm.
"""
import collections, os, re, shutil, signal, subprocess, sys, tempfile
import compare, faulty, loggers, texts, written
from why import why

MARKS = '<!-- what stock.py writes -->', '<!-- its end -->'
TOOLS = ('pmdumplog', 'pminfo', 'pmval', 'pmlogcheck', 'pmlogsummary', 'pmlogextract', 'pmlogger', 'pmerr', 'xz')
MOST_METRICS = 60


class Table:
    """Lines of the table, which are printed as they come; and whether all is explained."""

    def __init__(self):
        self.lines, self.differing, self.compared = [], 0, 0

    def say(self, line):
        print(line, flush=True)
        self.lines.append(line)

    def head(self, title, *columns):
        self.say('\n### %s\n' % title)
        self.say('| %s |' % ' | '.join(columns))
        self.say('|%s' % ('---|' * len(columns)))

    def row(self, archive, found):
        """A line of a comparison, and below the table's line what differs."""
        explained = ', '.join('%s %d' % (key, count) for key, count in sorted(found.explained.items()) if count)
        differing = len(found.differences) // 2
        self.compared += found.values
        result = ('**%d differ**' % differing if differing else 'equal') + ('; %s' % explained if explained else '')
        self.say('| %s | %s | %d | %s |' % (archive, found.what, found.values, result))
        for line in found.differences[:8]:
            print('    %s' % line[:400], flush=True)
        self.differing += bool(differing)

    def told(self, good, *cells):
        self.say('| %s |' % ' | '.join(cells if good else (*cells[:-1], '**%s**' % cells[-1])))
        self.differing += not good


def exported(program, base, target):
    """Exports an archive: the bytes are those of the plain way to do it, and the source stays. A program without the command gets the plain files."""
    found, before = compare.Found('export, plain copy'), faulty.read(base)
    plain = os.path.join(os.path.dirname(target), 'plain')
    os.mkdir(plain)
    written.plain_export(base, os.path.join(plain, 'a'))
    wanted = faulty.read(os.path.join(plain, 'a'))
    status, text, _ = compare.run([program, base, 'export', target])
    if text.startswith('usage'):
        found.what += ' (not in this program)'
        for file, data in wanted.items():
            with open('%s.%s' % (target, file), 'wb') as out:
                out.write(data)
    else:
        items = len(texts.our_dump(compare.run([program, base, 'dump'])[1])[1])
        found.same((status, text) == (0, 'exported %d\n' % items), (status, text), 'exported %d' % items)
        status, text, _ = compare.run([program, base, 'export', target])
        found.same(status == 23 and text.startswith('stands '), (status, text), 'stands FILE, where an archive stands already')
    ours = faulty.read(target)
    for file in sorted(set(ours) | set(wanted)):
        found.same(ours.get(file) == wanted.get(file), (file, len(ours.get(file, b''))), (file, len(wanted.get(file, b''))))
    found.same(faulty.read(base) == before, 'the source changed', 'as it was', 0)
    for command in 'dump', 'info':
        ours, theirs = (compare.run([program, one, command])[:2] for one in (base, target))
        found.same(ours == theirs, (command, ours), (command, theirs))
    return found


def as_they_stand(table, program, name, base):
    """How many of its results stock tools show of an archive that is not exported."""
    _, items, said = compare.run(['pmdumplog', '-M', '-m', '-xxx', base])
    shown = len(texts.stock_items(items))
    table.say('| %s | not exported: pmdumplog | %d of %d | %s |' % (name, shown, len(texts.our_dump(compare.run([program, base, 'dump'])[1])[1]),
        re.sub(r'\S*/', '', said.strip()) or 'the results behind the first entry of the index'))


def summed(rows):
    """One of several comparisons of one kind."""
    out = compare.Found(rows[0].what)
    for one in rows:
        out.values += one.values
        out.differences += one.differences
        out.explained.update(one.explained)
    return out


def our_archives(table, program, folder, ticks, replays):
    table.head('Archives of the program, exported, as stock tools show them', 'Archive', 'Compared', 'Values', 'Result')
    replayed = collections.defaultdict(list)
    for k, (name, base) in enumerate(written.made(program, folder, ticks, replays)):
        target = os.path.join(folder, 'exported%d' % k, 'a')
        os.mkdir(os.path.dirname(target))
        if name != written.RANDOM:
            as_they_stand(table, program, name, base)
        rows = [exported(program, base, target)]
        rows += compare.Pair(program, base, target).all(MOST_METRICS) if faulty.read(target) else []
        for row in rows:
            if name == written.RANDOM:
                replayed[row.what].append(row)
            else:
                table.row(name, row)
        if name in (written.GROWING, written.VOLUMES):
            passed_on(table, program, target)
    for rows in replayed.values():
        table.row('%d random replays' % len(rows), summed(rows))


def passed_on(table, program, target):
    """What stock tools make of an exported archive; pmlogextract takes the metrics that it is told, as it refuses one that was never described."""
    names = os.path.join(os.path.dirname(target), 'names')
    with open(names, 'w') as out:
        out.write('\n'.join(compare.Pair(program, target, target).found_names))
    rewrite = os.path.join(loggers.place('PCP_BINADM_DIR'), 'pmlogrewrite')
    for what, words in ('pmlogrewrite', [rewrite, '-V', '2']), ('pmlogextract -c', ['pmlogextract', '-V', '2', '-c', names]):
        base = os.path.join(os.path.dirname(target), what.split(' ')[0])
        loggers.run([*words, target, base])
        row = summed(compare.Pair(program, base, base).all(MOST_METRICS))
        row.what = 'all of these'
        table.row('%s of that' % what, row)


def stock_archives(table, program, folder):
    table.head('Archives of stock loggers, as the program shows them', 'Archive', 'Compared', 'Values', 'Result')
    for name, base, refused in list(loggers.logged(folder, written.images(program))):
        ran = subprocess.run([program, base, 'dump'], stdout=subprocess.PIPE)
        last = ran.stdout.decode('latin-1').split('\n')[-2:][0]
        if refused is None and ran.returncode == 0:
            for row in compare.Pair(program, base, base).all():
                table.row(name, row)
            continue
        said, row = explained(base, last)
        table.told(row == refused, name, 'dump', '', 'refused: `%s`; %s' % (last, said))


def explained(base, last):
    """What why.py says of a last line, and the row that it names."""
    words = last.split(' ')
    if words[0] == 'compressed':
        return 'row `compressed`', 'compressed'
    if words[:2] != ['not', 'archive']:
        return 'nothing is refused', None
    lines, row = why(base, words[2], int(words[3]))
    return '%s; row `%s`' % ('; '.join(lines), row), row


def faults(table, program, folder):
    table.head('Archives with one fault, what `check` says of them, and what pmlogcheck says', 'Fault', '`check`', 'why.py', 'pmlogcheck')
    sound = os.path.join(folder, 'sound')
    written.said(program, sound, ['make', '1', '40', '32768'])
    for name, base, row in faulty.made(sound, folder):
        ran = subprocess.run([program, base, 'check'], stdout=subprocess.PIPE)
        last = ran.stdout.decode('latin-1').split('\n')[-2:][0]
        said, named = explained(base, last)
        shown = pmlogcheck(base, os.path.join(folder, 'of_' + os.path.basename(base)))
        good = named == row and ran.returncode in ((6,) if row else (0, 10))
        table.told(good, name, '`%s`' % last, '`%s`' % row if row else '', shown)


def pmlogcheck(base, target):
    """The first thing that pmlogcheck says against an archive with the entry in front that stock readers want, without the names of its files."""
    for file, data in faulty.read(base).items():
        if file == 'index':
            data = data[:132] + data[12:20] + bytes(4) + b'\0\0\0\x84' * 2 + data[132:]
        with open('%s.%s' % (target, file), 'wb') as out:
            out.write(data)
    status, text, said = compare.run(['pmlogcheck', '-w', target])
    lines = [line for line in (text + said).split('\n') if line.strip()]
    told = re.sub(r'"?/\S*/([^/"\s:]+)"?', r'\1', lines[0]) if lines else 'nothing'
    return '%s; status %d' % (told[:110].replace('|', '/'), status)


def into(path, lines):
    """Writes the lines into the file, between its marks."""
    with open(path, encoding='utf-8') as it:
        text = it.read()
    front, rest = text.split(MARKS[0])
    with open(path, 'w', encoding='utf-8') as out:
        out.write('%s%s\n%s\n%s%s' % (front, MARKS[0], '\n'.join(lines), MARKS[1], rest.split(MARKS[1])[1]))


def main(program, ticks=600, replays=12, path=None):
    lacking = [tool for tool in TOOLS if not shutil.which(tool)]
    if lacking:
        return 'not installed: %s\n%s' % (', '.join(lacking), __doc__)
    signal.signal(signal.SIGTERM, lambda *_: sys.exit('stopped'))
    program, table = os.path.realpath(program), Table()
    version = compare.run(['pminfo', '-V'])
    table.say('\n%s; the longest archives have %d results.' % ((version[1] + version[2]).strip(), int(ticks)))
    for part in our_archives, stock_archives, faults:
        with tempfile.TemporaryDirectory() as folder:
            part(table, program, folder, *((int(ticks), int(replays)) if part is our_archives else ()))
    table.say('\n%d values compared, %d comparisons differ without an explanation.' % (table.compared, table.differing))
    if path:
        into(path, table.lines)
    return table.differing != 0


if __name__ == '__main__':
    if not 2 <= len(sys.argv) <= 5:
        sys.exit(__doc__)
    sys.exit(main(*sys.argv[1:]))
