"""The scripts that numbers make (docs/FORMATS.md)."""
from images import Image, TOP
from plain_fold import Fold

NAMES = ['r0', 'r1', 'r2']


def made_image(cluster, late):
    counter = {'semantics': 'counter', 'units': 0x00100000, 'short': None, 'long': None}
    metrics = [dict(counter, name='c%d' % item, item=item, kind='u32', serial=None) for item in range(1, 13)]
    metrics.append(dict(counter, name='per', item=13, kind='u64', serial=1))
    values = [(item, None, 0) for item in range(1, 13)] + [(13, instance, 0) for instance in range(16)]
    if late:
        metrics.append(dict(counter, name='late', item=14, kind='i32', serial=None, semantics='instant', units=0))
        values.append((14, None, 0))
    domain = {'serial': 1, 'short': None, 'long': None, 'instances': [(n, 'i%d' % n) for n in range(16)]}
    return Image(1, 1, 0, cluster, [], [domain], metrics, values)


IMAGES = {'r0': made_image(1, False), 'r1': made_image(2, False), 'r2': made_image(3, False), 'r0late': made_image(1, True)}
REGIONS = [(name, name, 2048, 4) for name in NAMES]
GROUPS = [(1000000, ['mmv'])]


def head():
    lines = []
    for name, image in IMAGES.items():
        lines += ['image ' + name] + image.lines() + ['end']
    return lines + ['region %s %s %d %d' % row for row in REGIONS] + ['log mandatory on every 1 sec { mmv }', 'start']


def steps(number, ticks, behind=0):
    """The steps, and the sum of what they add; the ticks come behind a second."""
    out, total = ['attach %s %d' % (name, k) for name in NAMES for k in range(4)], 0
    for tick in range(1, ticks + 1):
        if tick % 256 == 0:
            out += ['detach r0 %d' % k for k in range(4)]
            out += ['begin r0 0 %s 0' % ('r0late' if tick // 256 % 2 else 'r0'), 'finish r0 0']
            out += ['attach r0 %d' % k for k in range(4)]
        for _ in range(3):
            number = (6364136223846793005 * number + 1442695040888963407) % TOP
            draw = number >> 32
            amount = 1 + draw // 65536 % 100
            total += amount
            out.append('add r%d %d %d - %d' % (draw % 3, draw // 3 % 4, 1 + draw // 12 % 12, amount))
        out.append('tick %d 0' % (behind + tick))
        if tick % 10 == 0:
            out.append('flush')
    return out + ['detach %s %d' % (name, k) for name in NAMES for k in range(4)], total


def made_run(lines, archive, limit):
    """Status and output of a run of such steps over an archive."""
    fold = Fold(IMAGES, REGIONS, GROUPS, archive, limit)
    for k, line in enumerate(lines, 1):
        fold.line(k, line)
    return fold.logged, fold.end(len(lines) + 1)
