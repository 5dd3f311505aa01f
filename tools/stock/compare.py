"""Comparisons of what the program and the stock tools say of one archive: `dump` beside pmdumplog, and so on.

Each comparison gives a `Found`: how many values were compared, what differs (lines, two for each difference), and how many differ in a way
that has an explanation, by the number of the explanation in docs/STOCK.md.
"""
import collections, os, re, subprocess, sys, time
import texts
from texts import Status

sys.path.insert(0, os.path.join(os.path.dirname(os.path.realpath(__file__)), '..'))
from archive import Archive, pmid_text

NAMELESS = object()


class Found:
    def __init__(self, what):
        self.what, self.values, self.differences, self.explained = what, 0, [], collections.Counter()

    def same(self, equal, ours, theirs, number=1):
        """Counts so many values, and notes both sides where they differ."""
        self.values += number
        if not equal:
            self.differences.append('ours  %s' % (ours,))
            self.differences.append('stock %s' % (theirs,))
        return equal


def run(command, folder=None):
    """Status, standard output and standard error of a command, in UTC and without derived metrics of the machine."""
    ran = subprocess.run(command, stdout=subprocess.PIPE, stderr=subprocess.PIPE, cwd=folder, stdin=subprocess.DEVNULL,
        env=dict(os.environ, TZ='UTC', LC_ALL='C', PCP_DERIVED_CONFIG=''))
    return ran.returncode, ran.stdout.decode('latin-1'), ran.stderr.decode('latin-1')


def moment(stamp):
    """A stamp as the stock tools read it, exact to the microsecond."""
    return '@%s.%06d %s' % (time.strftime('%a %b %d %H:%M:%S', time.gmtime(stamp[0])), stamp[1], time.strftime('%Y', time.gmtime(stamp[0])))


def names_of(meta):
    """Metric -> the names that pmdumplog shows for it; name -> metric where pminfo, pmval and pmlogsummary find it; what they don't, (metric, name).

    The stock library adds the names in the order of Meta. A name that another metric has, or that names so far continue, isn't added; one that
    a later name continues is no longer found, but still shown."""
    shown, found, lost, inner = {}, {}, set(), set()
    for pmid, desc in meta.descs.items():
        metric = pmid_text(pmid)
        shown[metric] = []
        for name in desc[-1]:
            name = name.decode('latin-1')
            if name in inner or name in found:
                lost.add((metric, name))
                continue
            shown[metric].append(name)
            found[name] = metric
            parts = name.split('.')
            inner |= {'.'.join(parts[:k]) for k in range(1, len(parts))}
    lost |= {(metric, name) for name, metric in found.items() if name in inner}
    return shown, {name: metric for name, metric in found.items() if name not in inner}, lost


class Pair:
    """An archive as the program reads it, and as the stock tools read it: the same files, or the exported ones."""

    def __init__(self, program, ours, theirs):
        self.program, self.ours, self.theirs = program, ours, theirs
        self.label, self.items = texts.our_dump(self.said('dump'))
        told = self.said('info').split('\n')[:-1]
        self.kinds = {line.split(' ')[1]: line.split(' ')[2] for line in told}
        with open(theirs + '.meta', 'rb') as it:
            self.meta = Archive({'meta': it.read()})
        self.pmids = {pmid_text(pmid): pmid for pmid in self.meta.descs}
        self.shown_names, self.found_names, self.lost_names = names_of(self.meta)
        self.names, self.pairs, self.stock_items = {}, {}, []
        self.metrics = {}
        for line in told:
            name, metric = line.split(' ')[:2]
            self.names.setdefault(metric, []).append(name)
            self.metrics.setdefault(name, []).append(metric)

    def said(self, *words):
        status, text, _ = run([self.program, self.ours, *(str(word) for word in words)])
        if status not in (0, 11):
            raise ValueError('%s: status %d, %s' % (words, status, text[-300:]))
        return text

    # ---- items

    def same_rows(self, found, metric, stamp, ours, theirs):
        found.same(len(ours) == len(theirs), (stamp, metric, len(ours), 'values'), (stamp, metric, len(theirs), 'values'), 0)
        for a, b in zip(ours, theirs):
            equal = a[0] == b[0] and texts.same_value(self.kinds.get(metric), a[1], b[1])
            found.same(equal, (stamp, metric, self.kinds.get(metric), a), (stamp, metric, b))
            if type(a[1]) is str and a[1].startswith('0x'):
                found.explained['hexadecimal'] += 1
            if self.kinds.get(metric) in ('elapsed', '10') and type(a[1]) is str:
                found.explained['event'] += 1

    def same_items(self, found, ours, theirs):
        found.same(len(ours) == len(theirs), '%d results' % len(ours), '%d results' % len(theirs), 0)
        for a, b in zip(ours, theirs):
            if not found.same(a[:2] == b[:2] and (a[2] is None) == (b[2] is None), a[:2] + (a[2] and len(a[2]),), b[:2] + (b[2] and len(b[2]),), 0):
                continue
            if a[2] is None:
                found.same(True, a, b)
                continue
            found.same(len(a[2]) == len(b[2]), (a[:2], len(a[2]), 'sets'), (b[:2], len(b[2]), 'sets'), 0)
            for (metric, names, rows), (other, stock_names, stock_rows) in zip(a[2], b[2]):
                known = self.shown_names.get(metric) or ['<nonames>']
                taken = (metric, names[0]) in self.lost_names and names[0] not in stock_names
                told = names[0] in stock_names or taken or names == ['?'] and not self.names.get(metric)
                equal = metric == other and sorted(stock_names) == sorted(known) and told
                found.same(equal, (a[:2], metric, names), (b[:2], other, stock_names), 0)
                found.explained['names'] += len(stock_names) > 1
                found.explained['taken'] += taken
                self.same_rows(found, metric, a[:2], rows, stock_rows)

    def dump(self):
        found = Found('dump, pmdumplog')
        _, text, said = run(['pmdumplog', '-L', self.theirs])
        _, items, complaint = run(['pmdumplog', '-M', '-m', '-xxx', self.theirs])
        self.stock_items = texts.stock_items(items)
        if not self.meta.descs:
            # an archive that describes nothing, as all that was logged are statuses
            found.explained['undescribed'] += len(self.items)
            found.same('Empty archive log file' in complaint, 'undescribed', complaint.strip())
            return found
        found.same(not complaint, 'nothing', complaint.strip(), 0)
        theirs = texts.stock_label(text) if 'PID for' in text else (text, said)
        found.same(self.label == theirs, self.label, theirs, 3)
        self.same_items(found, self.items, self.stock_items)
        return found

    def windows(self):
        """`range` and `at` at windows of a quarter of the archive each. Their ends lie a few microseconds beside stamps, since the stock
        tools read fractions of a second by way of a double."""
        found, stamps = Found('range, at, pmdumplog -S -T'), sorted({item[:2] for item in self.items})
        for k in range(4):
            if not stamps:
                break
            first, last = stamps[len(stamps) * k // 4], stamps[min(len(stamps) - 1, len(stamps) * (k + 1) // 4)]
            first, last = self.beside(first, 5 * (-1, 1)[k % 2]), self.beside(last, 5 * (1, 1, -1, -1)[k])
            if first > last or first < (0, 0) or any(abs(self.micros(stamp) - self.micros(end)) < 3 for stamp in stamps for end in (first, last)):
                continue
            ours = texts.our_items(self.said('range', *first, *last).split('\n')[:-1])
            window = ['-S', moment(first), '-T', moment(last)]
            _, text, said = run(['pmdumplog', '-M', '-m', '-xxx', *window, self.theirs])
            if not ours:
                found.same(not texts.stock_items(text), 'nothing', said.strip())
                continue
            self.same_items(found, ours, texts.stock_items(text))
            text = self.said('at', *last)
            found.same(texts.our_items(text.split('\n')[:-1]) == ours[-1:], text, ours[-1:])
        return found

    @staticmethod
    def micros(stamp):
        return stamp[0] * 1000000 + stamp[1]

    def beside(self, stamp, micros):
        return divmod(self.micros(stamp) + micros, 1000000)

    # ---- metrics

    def info(self):
        found = Found('info, pminfo -a')
        _, text, said = run(['pminfo', '-a', self.theirs, '-d', '-m'])
        theirs = texts.stock_descriptions(text) if text else {}
        for name, metric, description in texts.our_descriptions(self.said('info')):
            if (metric, name) in self.lost_names:
                found.explained['taken'] += 1
            else:
                told = theirs.pop(name, said.strip())
                found.same(told == (metric, description), (name, metric, description), (name, told))
            found.explained['elapsed'] += description.kind == 'event record array'
        # event.flags and event.missed are the library's own, and no archive holds them
        left = {name: told for name, told in theirs.items() if not told[0].startswith('511.')}
        found.same(not left, 'nothing', left, 0)
        return found

    def shown_of(self, metric):
        """(stamp, rows) of each result that holds the metric."""
        return [(item[:2], rows) for item in self.items for one, _, rows in item[2] or [] if one == metric]

    def same_column(self, found, metric, stamp, ours, theirs):
        """The values of a metric at a stamp as pmval shows them: columns hold instances in another order."""
        kind = self.kinds[metric]
        status = type(ours[0][1]) is Status
        if status or type(theirs) is str:
            found.same(status and ours[0][1].text == 'none' and theirs.startswith('No values'), (stamp, metric, ours), (stamp, metric, theirs))
            return
        by_name, shown = dict(theirs), 0
        for instance, value in ours:
            told = by_name.get(instance, self.elsewhere(found, metric, instance, by_name))
            if told is NAMELESS:
                continue
            shown += 1
            if told == '!' and (texts.real(kind, value) or 0) < 0:
                # what pmval shows of a floating-point number below 0
                found.explained['negative'] += 1
                continue
            equal = told is not None and (self.same_decimal(kind, value, told) or texts.same_value(kind, value, told))
            found.same(equal, (stamp, metric, kind, instance, value), (stamp, metric, told))
        found.same(shown == len(theirs), (stamp, metric, ours), (stamp, metric, theirs), 0)

    def elsewhere(self, found, metric, instance, by_name):
        """What pmval shows of an instance in a column of another name that its number has: a column has one name throughout."""
        if instance is None or instance in by_name:
            return None
        names = self.other_names(metric, instance)
        if instance.startswith('#') and names == [instance]:
            found.explained['nameless'] += 1
            return NAMELESS
        found.explained['renamed'] += 1
        return next((by_name[name] for name in names if name in by_name), None)

    @staticmethod
    def same_decimal(kind, ours, theirs):
        number = texts.real(kind, ours)
        return number is not None and theirs == '%.17f' % number

    def value(self, most=None):
        """Each result of each metric beside pmval, and `value` at some of their stamps."""
        found = Found('value, pmval -a')
        for k, metric in enumerate(list(self.names)[:most]):
            shown, names = self.shown_of(metric), [name for name in self.names[metric] if (metric, name) not in self.lost_names]
            if names:
                self.columns(found, metric, names[0], shown)
            else:
                found.explained['taken'] += 1
            asked = [name for name in self.names[metric] if next(iter(self.metrics[name])) == metric]
            for stamp, _ in shown[k % max(1, len(shown)):][:1] if asked else []:
                told = texts.our_items(self.said('value', *stamp, asked[0]).split('\n')[:-1])
                before = [(at, rows) for at, rows in shown if at <= stamp and type(rows[0][1]) is str][-1:]
                found.same([(one[:2], one[2][0][2]) for one in told] == before, told, before)
        return found

    def columns(self, found, metric, name, shown):
        """All results of a metric beside pmval."""
        form = ['-f', '17'] if self.kinds[metric] in ('float', 'double') else []
        width = 50 + max((len(str(cell)) for _, rows in shown for row in rows for cell in row), default=0)
        _, text, said = run(['pmval', '-U', self.theirs, '-r', '-X', '-w', str(width), *form, name])
        if not self.refused(found, metric, shown, said):
            self.same_values(found, metric, shown, texts.stock_columns(text, width), said)

    def refused(self, found, metric, shown, said):
        """Whether pmval refuses the whole metric for one of the reasons that have an explanation."""
        for words, key in (('Instance domain identifier not defined', 'no domain'), ('unknown performance metric value type', 'type'),
                ('is not numeric', 'type'), ('event record', 'type')):
            if words in said:
                found.explained[key] += 1
                good = key == 'type' or all(type(rows[0][1]) is Status for _, rows in shown)
                found.same(good, shown[:1], said.strip(), 0)
                return True
        return False

    def same_values(self, found, metric, shown, theirs, said):
        # An error of a result stands in pmval's other output, without its stamp.
        complaints = [line.split(': ', 2)[-1] for line in said.split('\n') if line]
        for stamp, rows in shown:
            if type(rows[0][1]) is Status and rows[0][1].text != 'none':
                told = complaints.pop(0) if complaints else 'nothing'
                found.same(texts.same_status(rows[0][1], Status(told)), (stamp, metric, rows), told)
                continue
            if stamp not in theirs:
                found.same(False, (stamp, metric, rows), said.strip() or 'not shown')
                continue
            self.same_column(found, metric, stamp, rows, theirs.pop(stamp))
        # At a mark pmval says that logging was suspended, whatever the metric.
        marks = {item[:2] for item in self.items if item[2] is None}
        for stamp in [stamp for stamp in theirs if stamp in marks]:
            found.same('Archive logging suspended' in str(theirs.pop(stamp)), (stamp, 'mark'), stamp)
        found.same(not theirs, 'nothing', list(theirs.items())[:1], 0)
        found.same(not complaints, 'nothing', complaints, 0)

    # ---- checks and sums

    def check(self):
        found = Found('check, pmlogcheck -w')
        ours, said = self.said('check').strip(), run(['pmlogcheck', '-w', '-v', self.theirs])
        counts = re.findall(r'^%s\.\d+: start pass0 \.\.\. found (\d+) records$' % re.escape(self.theirs), said[1] + said[2], re.M)
        records = sum(int(count) - 1 for count in counts)
        complaints = [line for line in (said[1] + said[2]).split('\n') if line and not re.search(r'start pass|^Scanning|^Processed', line)]
        nameless = ['PMID %s: no name in PMNS' % metric for metric, names in self.shown_names.items() if not names]
        for line in [line for line in complaints if any(words in line for words in nameless)]:
            complaints.remove(line)
            found.explained['taken'] += 1
        theirs = complaints or 'status %d, %d records' % (said[0], records)
        found.same(ours == 'sound %d' % records and not complaints and not said[0], ours, theirs, records)
        return found

    def summary(self):
        """Of metrics that are no counters the count, the least, the greatest and the sum; of counters the rise, from the first value to the last."""
        found = Found('summary, pmlogsummary')
        ours = texts.our_summary(self.said('summary', 2, 0, 0, 2147483647, 0))
        extremes = texts.stock_summary(run(['pmlogsummary', '-f', '-x', '-m', '-M', '-y', self.theirs])[1])
        sums = texts.stock_summary(run(['pmlogsummary', '-f', '-s', self.theirs])[1])
        semantics = {metric: description.semantics for _, metric, description in texts.our_descriptions(self.said('info'))}
        keyed = lambda table: {(self.found_names.get(name), instance): columns for (name, instance), columns in table.items()}
        extremes, sums = keyed(extremes), keyed(sums)
        for (name, instance), told in ours.items():
            metric = self.metrics[name][0]
            if len(self.metrics[name]) > 1 or (metric, name) in self.lost_names:
                # lines of several metrics, or of one that pmlogsummary doesn't find
                found.explained['taken'] += 1
                for one in self.metrics[name]:
                    extremes.pop((one, instance), None)
                continue
            key = metric, instance
            if key not in extremes and instance is not None:
                # pmlogsummary takes a name that the number has at another moment, and leaves an instance out that never has any
                names = [other for other in self.other_names(metric, instance) if (metric, other) in extremes]
                found.explained['renamed' if names else 'nameless'] += bool(names) or instance.startswith('#')
                if instance.startswith('#') and not names:
                    continue
                key = metric, (names or [instance])[0]
            theirs, total = extremes.pop(key, None), sums.pop(key, None)
            if semantics[metric] == 'counter':
                self.same_counter(found, metric, instance, theirs, total)
                continue
            count, least, greatest, amount = told
            shown = theirs and total and [theirs[-2], theirs[-4], theirs[-3], total[-2]]
            wanted = [str(count), three(least), three(greatest), three(amount)]
            equal = shown and shown[:3] == wanted[:3] and near(shown[3], wanted[3])
            found.same(equal, (name, instance, wanted), (name, instance, shown), 4)
        for metric, instance in extremes:
            if self.kinds.get(metric) in ('float', 'double'):
                found.explained['summary of floats'] += 1
            else:
                found.same(False, 'nothing', (metric, instance, extremes[metric, instance]))
        return found

    def numbered(self, metric):
        """(number, name) of all instances that the domain of the metric ever has, and `#NUMBER` of each."""
        if metric not in self.pairs:
            pairs = [pair for _, held in self.meta.domains.get(self.meta.domain(self.pmids[metric]), []) for pair in held]
            self.pairs[metric] = {(number, name.decode('latin-1')) for number, name in pairs} | {(number, '#%d' % number) for number, _ in pairs}
        return self.pairs[metric]

    def other_names(self, metric, name):
        """The names of all numbers that have this name at some moment."""
        numbers = {number for number, one in self.numbered(metric) if one == name}
        return sorted({one for number, one in self.numbered(metric) if number in numbers}) or [name]

    def same_counter(self, found, metric, instance, theirs, total):
        """pmlogsummary takes a counter as the rises between results that follow each other, without a mark between."""
        rises = self.rises(metric, instance)
        if any(rise < 0 for rise in rises) or any(item[2] is None for item in self.items):
            found.explained['counter'] += 1
            return
        shown = (theirs and theirs[-2], total and total[-2])
        if not rises:
            found.same(shown[1] is None or near(shown[1], '0.000'), (metric, instance, 'no rise'), (metric, instance, shown))
            return
        found.explained['rate'] += 1
        wanted = (str(len(rises)), three(sum(rises)))
        found.same(shown[0] == wanted[0] and near(shown[1], wanted[1]), (metric, instance, wanted), (metric, instance, shown), 2)

    def rises(self, metric, instance):
        """From value to value of the instance whose last name this is; both dumps showed them equal, and pmdumplog shows the number too."""
        rows = [row for item in self.stock_items for one, _, rows in item[2] or [] if one == metric for row in rows if type(row[1]) is str]
        number = ([row[2] for row in rows if row[0] == instance] or [None])[-1]
        # pmlogsummary takes each value as a double
        values = [float(row[1]) for row in rows if row[2] == number]
        return [after - before for before, after in zip(values, values[1:])]

    def all(self, most=None):
        if not self.meta.descs:
            return [self.dump()]
        return [self.dump(), self.windows(), self.info(), self.value(most), self.check(), self.summary()]


def three(number):
    return '%.3f' % float(number)


def near(shown, wanted):
    """Whether sums of doubles, which pmlogsummary adds one by one, are as near as their rounding lets them be."""
    return shown is not None and abs(float(shown) - float(wanted)) <= 0.001 + abs(float(wanted)) * 1e-12
