"""What the program and the stock tools print of an archive, read into the same values.

In the stock tools' rows the instance's number stands behind the value.

All texts are bytes that were decoded as Latin-1, so that each byte is one character. An item is `(seconds, microseconds, sets)`, a mark
having None as its sets. A set is `(metric, names, rows)`: the metric as `D.C.I`, the names that were printed for it, and rows
`(instance, value)`, the instance being None for the null instance, or one row `(None, STATUS)`, a `Status`. A value is the text that was
printed; `same_value` tells whether two texts show one value.
"""
import calendar, collections, re, struct, subprocess, time

Status = collections.namedtuple('Status', 'text')
Description = collections.namedtuple('Description', 'kind domain semantics units')

QUOTED = r'"(?:[^"\\]|\\.)*"'
OUR_STAMP = re.compile(r'^(\d{4}-\d\d-\d\dT\d\d:\d\d:\d\d)\.(\d{6})Z(?: (\d+)| (mark)|)$')
OUR_ROW = re.compile(r'^(\d+\.\d+\.\d+) ([^\[ ]+)(?:\[((?:[^"\\]|\\.)*)\])? (%s|-?\d+|0x[0-9a-f]*|error -?\d+|none)$' % QUOTED)
STOCK_STAMP = re.compile(r'^\w{3} \w{3} [ \d]\d \d\d:\d\d:\d\d\.(\d{6}) \d{4} \(-?[\d.]+\) (\d+) (?:(\d+) metrics?|\s*(<mark>))$', re.M)
STOCK_SAMPLE = re.compile(r'^\w{3} (\w{3} [ \d]\d \d\d:\d\d:\d\d)\.(\d{6}) (\d{4})', re.M)
STOCK_SET = re.compile(r'^    (\d+\.\d+\.\d+) \((.*?)\):\s(.*)$', re.S)
STOCK_ROW = re.compile(r'^inst \[(-?\d+) or (?:"(.*)"|\?\?\?)\] value (.*)$', re.S)

KINDS = {'i32': '32-bit int', 'u32': '32-bit unsigned int', 'i64': '64-bit int', 'u64': '64-bit unsigned int', 'float': 'float',
    'double': 'double', 'string': 'string', '7': 'aggregate', '8': 'aggregate static', 'elapsed': 'event record array',
    '10': 'highres event record array', '4294967295': 'Not Supported'}
INTEGERS = ('i32', 'u32', 'i64', 'u64')


def unescaped(text):
    return re.sub(r'\\x([0-9a-f]{2})|\\(.)', lambda m: chr(int(m[1], 16)) if m[1] else m[2], text)


# ---- the program's texts

def our_stamp(found):
    return calendar.timegm(time.strptime(found[1], '%Y-%m-%dT%H:%M:%S')), int(found[2])


def our_items(lines):
    """The items of `dump`, `at` and `range`; of `value` the stamp has one set behind it."""
    items = []
    for line in lines:
        if line.startswith('nothing at '):
            continue
        found = OUR_STAMP.match(line)
        if found:
            items.append((*our_stamp(found), None if found[4] else []))
            continue
        metric, name, instance, value = OUR_ROW.match(line).groups()
        sets = items[-1][2]
        shown = Status(value) if value == 'none' or value.startswith('error ') else value
        row = (None if instance is None else unescaped(instance), shown)
        # Of two sets of one metric in a result the lines can't be told apart; the count of sets is compared before.
        if sets and sets[-1][0] == metric and type(shown) is str and instance is not None and type(sets[-1][2][0][1]) is str:
            sets[-1][2].append(row)
        else:
            sets.append((metric, [name], [row]))
    return items


def our_dump(text):
    """The label of `dump` (process, host, zone), and its items."""
    lines = text.split('\n')[:-1]
    head = lines[0].split(' ')
    return (head[1], head[2], ' '.join(head[3:])), our_items(lines[1:])


def our_descriptions(text):
    """(name, metric, description) of each line of `info`."""
    out = []
    for line in text.split('\n')[:-1]:
        name, metric, kind, domain, semantics, units = line.split(' ')
        out.append((name, metric, Description(KINDS.get(kind, kind), domain, semantics, units_text(int(units, 16)))))
    return out


def our_summary(text):
    """(name, instance or None) -> (count, least, greatest, sum), of `summary`."""
    out = {}
    for line in text.split('\n')[:-1]:
        name, instance, *numbers = re.match(r'^([^\[ ]+)(?:\[(.*)\])? (\d+) (-?\d+) (-?\d+) (-?\d+)$', line).groups()
        out[name, None if instance is None else unescaped(instance)] = tuple(int(number) for number in numbers)
    return out


# ---- the stock tools' texts

def stock_label(text):
    """Process, host and zone, of `pmdumplog -L`."""
    found = re.search(r'^Performance metrics from host (.*)$', text, re.M), re.search(r'^Archive timezone: (.*)$', text, re.M)
    return re.search(r'^PID for pmlogger: (\d+)$', text, re.M)[1], found[0][1], found[1][1]


def stock_set(text):
    metric, names, rest = STOCK_SET.match(text).groups()
    if rest.startswith('value '):
        return metric, names.split(' or '), [(None, rest[6:], None)]
    if rest.startswith('inst [') or rest.startswith('        inst ['):
        rows = [STOCK_ROW.match(row).groups() for row in re.split(r'\n        (?=inst \[)', rest.strip(' '))]
        return metric, names.split(' or '), [('#' + number if name is None else name, value, number) for number, name, value in rows]
    return metric, names.split(' or '), [(None, Status(rest), None)]


def stock_items(text):
    """The items of `pmdumplog -M -xxx` in UTC."""
    items, heads = [], list(STOCK_STAMP.finditer(text))
    for found, behind in zip(heads, heads[1:] + [None]):
        body = text[found.end() + 1:behind.start() if behind else len(text)]
        body = re.sub(r'\n{1,2}$', '', body, count=1)
        sets = None
        if not found[4]:
            sets = [stock_set(one) for one in re.split(r'\n(?=    \d+\.\d+\.\d+ \()', body)] if body else []
        items.append((int(found[2]), int(found[1]), sets))
    return items


def stock_descriptions(text):
    """Name -> (metric, description), of `pminfo -d -m`."""
    out = {}
    for block in text.strip('\n').split('\n\n'):
        found = re.match(r'^(\S+) PMID: (\d+\.\d+\.\d+).*\n    Data Type: (.*?)  InDom: (\S+) \S+\n    Semantics: (.*?)  Units: (.*)$', block)
        if not found:
            out[block.split(' ')[0]] = block, None
            continue
        name, metric, kind, domain, semantics, units = found.groups()
        unknown = re.match(r'^\?\?\? \((\d+)\)$', semantics)
        out[name] = metric, Description(kind, '-' if domain == 'PM_INDOM_NULL' else domain, unknown[1] if unknown else semantics, units)
    return out


def stock_columns(text, width):
    """The samples of `pmval -U FILE -r -X -w WIDTH`: (seconds, microseconds) -> rows, or a text where no value is shown."""
    out, names, behind = {}, [None], text.partition('\nsamples:   all\n')[2]
    parts = STOCK_SAMPLE.split(behind)
    for part, at in zip(parts[0::4], range(0, len(parts), 4)):
        shown = part
        if at:
            day, micros, year = parts[at - 3:at]
            shown, _, part = part.partition('\n\n' + ' ' * 31) if '\n\n' + ' ' * 31 in part else (re.sub('\n$', '', part), '', '')
            stamp = calendar.timegm(time.strptime('%s %s' % (day, year), '%b %d %H:%M:%S %Y')), int(micros)
            if shown.startswith('  No values'):
                out[stamp] = shown.strip()
            elif names == [None]:
                out[stamp] = [(None, shown.strip(' '))]
            else:
                out[stamp] = [(name, cell) for name, cell in zip(names, cells_of(shown, width)) if cell != '?']
        else:
            part = part.lstrip('\n')[31:]
        if part.strip():
            names = cells_of(part.rstrip('\n'), width)
    return out


def cells_of(text, width):
    """The cells of a line behind its stamp: each stands to the right in its width, with a space behind it."""
    return [text[at:at + width + 1].strip(' ') for at in range(0, len(text), width + 1)]


def stock_summary(text):
    """(name, instance or None) -> the columns behind them, of `pmlogsummary -f`; None where it has too few values for any."""
    out = {}
    for found in re.finditer(r'^\*?(\S+)\t(?:\["(.*?)"\])?\t(.*)$', text, re.M):
        out[found[1], found[2]] = None if 'insufficient' in found[3] else found[3].split('\t')
    return out


# ---- values

ERRORS = {}


def error_text(status):
    """What the stock library says of a status below 0."""
    if status not in ERRORS:
        said = subprocess.run(['pmerr', str(status)], stdout=subprocess.PIPE).stdout.decode('latin-1')
        ERRORS[status] = said.partition('Text: ')[2].rstrip('\n')
    return ERRORS[status]


def same_status(ours, theirs):
    if ours.text == 'none':
        return theirs.text == 'No values returned!'
    return theirs.text == error_text(int(ours.text[6:]))


def same_value(kind, ours, theirs):
    """Whether both texts show one value of a metric of this kind, as `info` names kinds."""
    if type(ours) is Status or type(theirs) is Status:
        return type(ours) is type(theirs) and same_status(ours, theirs)
    if ours.startswith('"'):
        return theirs == '"%s"' % unescaped(ours[1:-1])
    if not ours.startswith('0x'):
        return kind in INTEGERS and theirs == ours
    data = bytes.fromhex(ours[2:])
    number = real(kind, ours)
    if number is not None:
        return theirs == ('%.8g' if kind == 'float' else '%.16g') % number
    return theirs.endswith('[%s]' % data.hex())


def real(kind, ours):
    """The floating-point number whose bytes the program prints in hexadecimal, or None."""
    data = bytes.fromhex(ours[2:]) if ours.startswith('0x') else b''
    if (kind, len(data)) in (('float', 4), ('double', 8)):
        return struct.unpack('>f' if kind == 'float' else '>d', data)[0]
    return None


SPACES = ['byte', 'Kbyte', 'Mbyte', 'Gbyte', 'Tbyte', 'Pbyte', 'Ebyte', 'Zbyte', 'Ybyte']
TIMES = ['nanosec', 'microsec', 'millisec', 'sec', 'min', 'hour']


def units_text(word):
    """What pmUnitsStr(3) says of units, or `none`."""
    dims = [(word >> shift & 15) - (16 if word >> shift & 8 else 0) for shift in (28, 24, 20)]
    space, moment, count = word >> 16 & 15, word >> 12 & 15, (word >> 8 & 15) - (16 if word >> 8 & 8 else 0)
    names = [SPACES[space] if space < len(SPACES) else 'space-%d' % space, TIMES[moment] if moment < len(TIMES) else 'time-%d' % moment,
        {0: 'count', 1: 'count x 10'}.get(count, 'count x 10^%d' % count)]
    powers = [(name if abs(dim) == 1 else '%s^%d' % (name, abs(dim)), dim) for name, dim in zip(names, dims)]
    above, below = [text for text, dim in powers if dim > 0], [text for text, dim in powers if dim < 0]
    return ' '.join(above + (['/'] + below if below else [])) or 'none'
