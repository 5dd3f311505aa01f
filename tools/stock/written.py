"""Archives that the program writes, for the stock tools to read; and the plain way to put in front what their readers want.

`made(program, folder, ticks, replays)` gives the name of each and its base."""
import os, random, struct, subprocess, sys

HERE = os.path.dirname(os.path.realpath(__file__))
sys.path[:0] = [os.path.join(HERE, '..', 'fold')]
DATA = os.path.join(HERE, '..', '..', 'crates', 'cases', 'data')

RANDOM, GROWING, VOLUMES = 'random replay', 'all kinds, a domain that changes (version 1)', '`make 2`, several volumes'

# Metrics of all kinds at their ends; floating-point numbers, which a region doesn't serve; names, texts and instances of all bytes.
KINDS = r'''image A
mmv VERSION 5 0 0 9
string "busy"
indom 1 "disks" "all disks"
instance 1 3 "sda"
instance 1 0 "two words"
instance 1 2147483647 "q\"uote\\, [brackets] and caf\xe9"
indom 2 - -
metric small 1 i32 instant 00000000 - "short" "long"
metric count 2 u32 counter 00100000 - - -
metric large 3 i64 discrete 10020000 - - -
metric bytes.read 4 u64 counter 1f101000 1 - -
metric state 5 string discrete 00000000 - - -
metric per_disk.state 6 string instant 00000000 1 - -
metric ratio 7 float instant 00000000 - - -
metric mean 8 double instant 01003000 - - -
metric timer 9 elapsed counter 01003000 - - -
metric nobody 10 u32 instant 00000000 2 - -
value 1 - -2147483648
value 2 - 4294967295
value 3 - -9223372036854775808
value 4 3 18446744073709551615
value 4 0 0
value 4 2147483647 9007199254740993
value 5 - "on"
value 6 3 "a \"b\" \\ of\x0atwo lines"
value 6 0 ""
value 7 - 000000003fc00000 0000000000000000
value 8 - 3ff8000000000000 0000000000000000
value 9 - 0000000000000005 0000000000000000
end
'''
# The same program after it grew: instances come and go, a metric comes, one goes.
GROWN = r'''image B
mmv VERSION 1 0 0 9
indom 1 - -
instance 1 0 "two words"
instance 1 4 "sdb"
instance 1 5 "x\x09y"
metric small 1 i32 instant 00000000 - - -
metric count 2 u32 counter 00100000 - - -
metric bytes.read 4 u64 counter 1f101000 1 - -
metric per_disk.state 6 string instant 00000000 1 - -
metric later 11 i64 counter 00100000 - - -
value 1 - 2147483647
value 2 - 0
value 4 0 17
value 4 4 18
value 4 5 9223372036854775808
value 6 4 "idle"
value 6 5 "tab\x09and \xff"
value 11 - 9223372036854775807
end
'''
STEPS = '''region app A 1000 3
log mandatory on every 500 msec { mmv }
log mandatory on once { mmv.app.state }
start
tick 1000000000 0
attach app 0
add app 0 2 - 1
add app 0 1 - 5
swap app 0 5 - "busy"
add app 0 4 0 7
detach app 0
tick 1000000000 500000
flush
begin app 0 B 7
tick 1000000001 7
finish app 0
tick 1000000001 999999
attach app 1
add app 1 4 4 100
add app 1 11 - -1
swap app 1 4 5 1
detach app 1
tick 1000000002 1
begin app 2 A 9
finish app 2
tick 1000000003 123456
tick 2147483646 999999
flush
'''
# A program that renumbers its metric, and one whose later names continue an earlier one.
NAMED = '''image A
mmv 1 5 0 0 1
metric FIRST 2 i32 counter 00100000 - - -
metric other 4 i32 counter 00100000 - - -
value 2 - 7
value 4 - 70
end
image B
mmv 1 1 0 0 1
metric SECOND 3 u64 instant 00000000 - - -
value 3 - 9
end
region app A 60 2
log mandatory on every 1 sec { mmv }
start
tick 10 0
tick 11 0
begin app 0 B 7
finish app 0
tick 12 0
tick 13 0
'''


def kinds(version):
    return KINDS.replace('VERSION', version) + GROWN.replace('VERSION', version) + STEPS


def images(program):
    """Three images that the agent mmv serves in turn: all kinds, then grown in version 2, then all kinds again."""
    inside = lambda text: ''.join(line + '\n' for line in text.split('\n')[1:-2])
    texts = [inside(KINDS.replace('VERSION', '1')), inside(GROWN.replace('VERSION', '2'))]
    made = [subprocess.run([program, 'x', 'mmv-make'], input=text.encode('latin-1'), stdout=subprocess.PIPE).stdout for text in texts]
    return made + made[:1]


def said(program, base, words, text=''):
    """The last line of a command, which ended with 0."""
    ran = subprocess.run([program, base, *words], input=text.encode('latin-1'), stdout=subprocess.PIPE)
    lines = ran.stdout.decode('latin-1').split('\n')
    if ran.returncode:
        raise ValueError('%s: status %d, %s' % (words, ran.returncode, lines[-2:]))
    return lines[-2] if len(lines) > 1 else ''


def read(name):
    with open(os.path.join(DATA, name), encoding='latin-1', newline='') as it:
        return it.read()


def last_volume(base):
    return max(int(name[2:]) for name in os.listdir(os.path.dirname(base)) if name[2:].isdigit())


def cut(path, behind):
    os.truncate(path, os.path.getsize(path) - behind)


def random_replay(program, base, seed):
    """One to three runs of a random script, over one archive; not each of them logs something."""
    from plain_fold import Archive
    import scripts
    rng = random.Random('stock %d' % seed)
    head, archive, micros = scripts.some_head(rng), Archive(), rng.choice([0, 100000000, 1234567])
    for _ in range(rng.choice([1, 2, 3])):
        limit = rng.choice([1024, 2000, 1048576])
        lines, _, _, archive, micros = scripts.some_run(rng, head, archive, limit, micros)
        script = ''.join(line + '\n' for line in lines).encode('latin-1')
        subprocess.run([program, base, 'replay', str(limit)], input=script, stdout=subprocess.DEVNULL)


def made(program, folder, ticks, replays):
    """Makes each archive, and yields its name and its base; `ticks` is the length of the longest ones."""
    def base(name):
        os.mkdir(os.path.join(folder, name))
        return os.path.join(folder, name, 'a')
    counter = 'mmv 1 5 0 0 1\nmetric hits 2 i32 counter 00100000 - - -\nvalue 2 - 7\n'
    image = subprocess.run([program, 'x', 'mmv-make'], input=counter.encode(), stdout=subprocess.PIPE).stdout

    at = base('a first sample')
    said(program, at, ['once', '100', '0', 'app'], image.decode('latin-1'))
    yield '`once`: a first sample', at
    said(program, at, ['once', '100', '1', 'app'], image.decode('latin-1'))
    yield '`once` twice, a microsecond apart', at

    for version in '1', '2':
        at = base('kinds %s' % version)
        said(program, at, ['replay', '1048576'], kinds(version))
        yield GROWING.replace('1', version), at
    for what, first, second in ('one name of two metrics', 'hits', 'hits'), ('a name that a later one continues', 'hits', 'hits.now'), (
            'a name that continues a later one', 'hits.now', 'hits'):
        at = base(what)
        said(program, at, ['replay', '65536'], NAMED.replace('FIRST', first).replace('SECOND', second))
        yield what, at
    for name in 'two_regions', 'wide_texts':
        at, script = base(name), read('%s.script' % name)
        if '\nstart\n' not in script:
            script += 'log mandatory on every 1 sec { mmv }\nstart\ntick 5 0\ntick 6 0\n'
        said(program, at, ['replay', '65536'], script)
        yield 'replay of %s.script' % name, at

    at = base('one volume')
    said(program, at, ['make', '1', str(ticks), '1073741824'])
    yield '`make 1 %d`, one volume' % ticks, at
    at = base('volumes')
    said(program, at, ['make', '2', str(ticks), '16384'])
    yield VOLUMES, at
    said(program, at, ['retire', str((last_volume(at) + 1) // 2)])
    yield 'the same, half of the volumes retired', at

    at = base('torn')
    said(program, at, ['make', '3', '60', '16384'])
    cut('%s.%d' % (at, last_volume(at)), 7)
    cut(at + '.index', 3)
    yield '`make 3 60`, the last result and an entry torn', at

    at = base('merged')
    one, two = base('merged one'), base('merged two')
    said(program, one, ['make', '4', '40', '65536'])
    said(program, two, ['replay', '1048576'], kinds('1'))
    said(program, at, ['extract', one, two, '65536'])
    yield '`extract` of two of them', at

    at = base('recorded')
    with open(os.path.join(HERE, '..', '..', 'docs', 'counter.script'), encoding='latin-1') as it:
        said(program, at, ['record', '3', '65536'], it.read())
    yield '`record` of 3 samples', at

    seed = 0
    while replays:
        at = base('random %d' % seed)
        random_replay(program, at, seed)
        seed += 1
        if os.path.exists(at + '.meta') and os.path.getsize(at + '.meta') >= 132:
            replays -= 1
            yield RANDOM, at


def plain_export(source, target):
    """What `export` does, said plainly: whole records, the entry that stock readers begin at, no file of a volume that is empty, and no entry of
    a volume below the first one that isn't."""
    def held(name):
        try:
            with open('%s.%s' % (source, name), 'rb') as it:
                return it.read()
        except FileNotFoundError:
            return b''
    folder, name = os.path.split(source)
    endings = [file[len(name) + 1:] for file in os.listdir(folder) if file.startswith(name + '.')]
    files, volumes = {}, sorted(int(ending) for ending in endings if ending.isdigit() and held(ending))
    for name in ['meta', *volumes]:
        files[name] = whole(held(name))
    index = held('index')
    lowest = volumes[0] if volumes else 0
    entries = [index[at:at + 20] for at in range(132, len(index) - 19, 20)]
    kept = [entry for entry in entries if int.from_bytes(entry[8:12], 'big') >= lowest]
    files['index'] = index[:132] + index[12:20] + struct.pack('>3I', lowest, 132, 132) + b''.join(kept)
    for name, data in files.items():
        with open('%s.%s' % (target, name), 'wb') as out:
            out.write(data)


def whole(data):
    """The whole records of a file."""
    at = 0
    while at + 4 <= len(data) and at + int.from_bytes(data[at:at + 4], 'big') <= len(data):
        at += int.from_bytes(data[at:at + 4], 'big')
    return data[:at]
