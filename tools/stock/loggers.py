"""Archives that stock pmlogger writes on the spot: collectors (pmcd) and loggers of this script's own, in a temporary folder.

A collector listens at a free port of 127.0.0.1 alone, and has its configuration, its names, its sockets and logs in the folder; nothing of
the machine's own pmcd is used or changed, and any user may run it. Its agents are those of Debian's package: pmcd, sample, mmv, linux and proc.
"""
import getpass, os, re, shutil, signal, socket, subprocess, time

CONFIG = '/etc/pcp.conf'
AGENTS = [('pmcd', 2, 'dso', 'pmcd_init', 'pmcd/pmda_pmcd.so'), ('sample', 30, 'dso', 'sample_init', 'sample/pmda_sample.so'),
    ('mmv', 70, 'dso', 'mmv_init', 'mmv/pmda_mmv.so'), ('linux', 60, 'pipe', 'binary', 'linux/pmdalinux -U USER'),
    ('proc', 3, 'pipe', 'binary', 'proc/pmdaproc -A -U USER -d 3')]
ACCESS = '[access]\nallow "local:*" : all;\nallow ".*" : all;\n'
ASKED = ['kernel.all.load', 'proc.nprocs', 'sample.seconds', 'proc.psinfo.cmd']


def place(name):
    """A folder of the package."""
    with open(CONFIG) as it:
        return re.search(r'^%s=(.*)$' % name, it.read(), re.M)[1]


def free_port():
    with socket.socket() as it:
        it.bind(('127.0.0.1', 0))
        return it.getsockname()[1]


def names_text():
    """The names of all agents: their files' roots joined to one, and what is below."""
    files = [os.path.join(place('PCP_VAR_DIR'), 'pmns', 'root_%s' % name) for name in ('pmcd', 'linux', 'proc', 'mmv')]
    roots, below = ['sample'], ['#define SAMPLE 30']
    for path in files + [os.path.join(place('PCP_PMDAS_DIR'), 'sample', 'pmns')]:
        with open(path) as it:
            text = it.read()
        for found in re.findall(r'^root \{(.*?)^\}', text, re.M | re.S):
            roots += found.split('\n')
        below.append(re.sub(r'^root \{.*?^\}', '', text, flags=re.M | re.S))
    return '#define MMV 70\nroot {\n%s\n}\n%s\n' % ('\n'.join(roots), re.sub(r'^#undef MMV$', '', '\n'.join(below), flags=re.M))


class Collector:
    """A pmcd with its agents. What may be changed while loggers run: the instances of `sample.dynamic`, and images below `mmv`."""

    def __init__(self, folder, host, zone):
        self.folder, self.port, self.started = folder, free_port(), []
        for name in 'run', 'log', 'tmp/mmv', 'pmdas/sample':
            os.makedirs(os.path.join(folder, name))
        os.symlink(os.path.join(place('PCP_PMDAS_DIR'), 'pmcd'), os.path.join(folder, 'pmdas', 'pmcd'))
        self.put('names', names_text())
        pmdas = place('PCP_PMDAS_DIR')
        rows = ['%s\t%d\t%s\t%s\t%s/%s\n' % (*row[:4], pmdas, row[4].replace('USER', getpass.getuser())) for row in AGENTS]
        self.put('config', ''.join(rows) + ACCESS)
        self.dynamic([(1, 'one')])
        self.environment = dict(os.environ, TZ=zone, PCP_RUN_DIR=self.at('run'), PCP_LOG_DIR=self.at('log'), PCP_TMP_DIR=self.at('tmp'),
            PCP_PMDAS_DIR=self.at('pmdas'), PCP_DERIVED_CONFIG='', PMLOGGER_LOCAL='1', PMLOGGER_PORT=str(free_port()), LC_ALL='C')
        self.begin([os.path.join(place('PCP_BINADM_DIR'), 'pmcd'), '-f', '-A', '-H', host, '-c', self.at('config'), '-n', self.at('names'),
            '-p', str(self.port), '-i', '127.0.0.1', '-s', self.at('run/socket'), '-l', self.at('log/pmcd.log'), '-x', self.at('log/fatal'),
            '-U', getpass.getuser()])
        try:
            self.wait_until_there()
        except BaseException:
            self.end()
            raise

    def at(self, name):
        return os.path.join(self.folder, name)

    def put(self, name, text):
        with open(self.at(name), 'w') as out:
            out.write(text)

    def begin(self, words):
        child = subprocess.Popen(words, env=self.environment, stdin=subprocess.DEVNULL, stdout=subprocess.DEVNULL,
            stderr=subprocess.DEVNULL, cwd=self.folder)
        self.started.append(child)
        return child

    def wait_until_there(self):
        for _ in range(60):
            ran = subprocess.run(['pminfo', '-h', '127.0.0.1:%d' % self.port, '-f', *ASKED], env=self.environment,
                stdout=subprocess.PIPE, stderr=subprocess.STDOUT)
            if ran.returncode == 0 and b'Error' not in ran.stdout and b'No value' not in ran.stdout:
                return
            time.sleep(0.5)
        raise ValueError('pmcd does not answer: %s' % ran.stdout.decode('latin-1')[-500:])

    def dynamic(self, instances):
        """Gives `sample.dynamic` these instances, all at once."""
        self.put('pmdas/sample/next', ''.join('%d %s\n' % pair for pair in instances))
        os.rename(self.at('pmdas/sample/next'), self.at('pmdas/sample/dynamic.indom'))

    def image(self, name, image):
        """Puts an image where the agent mmv finds it, all at once."""
        with open(self.at('next'), 'wb') as out:
            out.write(image)
        os.rename(self.at('next'), self.at('tmp/mmv/%s' % name))

    def logger(self, base, config, seconds, *words):
        name = os.path.basename(base)
        self.put('%s.config' % name, config)
        return self.begin(['pmlogger', '-h', '127.0.0.1:%d' % self.port, '-c', self.at('%s.config' % name), '-l', self.at('log/%s.log' % name),
            '-T', '%gsec' % seconds, '-V', '2', *words, base])

    def end(self):
        for child in reversed(self.started):
            if child.poll() is None:
                child.send_signal(signal.SIGTERM)
                try:
                    child.wait(10)
                except subprocess.TimeoutExpired:
                    child.kill()
                    child.wait()


SAMPLES = 'log mandatory on %s { %s }\n'
KINDS = ' '.join('sample.%s' % name for name in ('long', 'ulong', 'longlong', 'ulonglong', 'float', 'double', 'string', 'aggregate', 'bin', 'drift',
    'mirage', 'wrap', 'negative', 'seconds', 'milliseconds', 'colour', 'lights', 'bad.novalues', 'bad.nosupport', 'noinst', 'bigid', 'dupnames',
    'dynamic.counter', 'dynamic.discrete', 'dynamic.instant', 'step_counter', 'many'))
LINUX = 'kernel.all kernel.percpu.cpu mem.util network.interface.in disk.all filesys hinv kernel.uname'
PROC = 'proc.psinfo.pid proc.psinfo.cmd proc.psinfo.psargs proc.psinfo.utime proc.memory.rss proc.nprocs'


def wait(*children):
    """Waits until loggers have ended; each had a time to end at."""
    for child in children:
        if child.wait(90):
            raise ValueError('%s: status %d' % (child.args, child.returncode))


def run(words):
    ran = subprocess.run(words, stdout=subprocess.PIPE, stderr=subprocess.STDOUT, env=dict(os.environ, TZ='UTC', PCP_DERIVED_CONFIG=''))
    if ran.returncode:
        raise ValueError('%s: status %d, %s' % (words, ran.returncode, ran.stdout.decode('latin-1')[-500:]))


def logged(folder, images):
    """Has the loggers write, and yields the name of each archive, its base, and the row that explains why it is refused, or None.

    `images` are three images that the agent mmv serves in turn."""
    first, second = Collector(os.path.join(folder, 'first'), 'first.example', 'UTC'), None
    try:
        yield from of_first(first, folder, images)
        second = Collector(os.path.join(folder, 'second'), 'second.example', 'Australia/Sydney')
        yield from of_second(second, folder)
    finally:
        first.end()
        if second:
            second.end()


def of_first(collector, folder, images):
    base = lambda name: os.path.join(folder, name)
    collector.image('app', images[0])
    wanted = [('kinds', '200 msec', KINDS, '-v', '5'), ('linux', '500 msec', LINUX), ('proc', '500 msec', PROC), ('mmv', '200 msec', 'mmv'),
        ('events', '500 msec', 'sample.event'), ('mode', '500 msec', 'sample.sysinfo sample.drift')]
    runs = [collector.logger(base(name), SAMPLES % (every, names), 3, *words) for name, every, names, *words in wanted]
    time.sleep(1)
    collector.dynamic([(1, 'one'), (2, '"quoted"'), (7, 'caf\u00e9'), (4194303, '[a]_]_5')])
    collector.image('app', images[1])
    some = subprocess.Popen(['sleep', '30'])
    time.sleep(1)
    collector.dynamic([(7, 'other')])
    collector.image('app', images[2])
    some.kill()
    some.wait()
    wait(*runs)
    yield 'pmlogger: sample.*, 200 msec, volumes of 5 results', base('kinds'), None
    yield 'pmlogger: Linux, 500 msec', base('linux'), None
    yield 'pmlogger: processes, which come and go', base('proc'), None
    yield 'pmlogger: three images that `mmv-make` made, in turn', base('mmv'), None
    yield 'pmlogger: event records', base('events'), 'storage mode'
    yield 'pmlogger: a value in storage mode 2', base('mode'), 'storage mode'
    collector.dynamic([(1, 'one'), (3, 'three')])
    wait(collector.logger(base('later'), SAMPLES % ('250 msec', KINDS), 1.5))
    yield from derived(folder)


def derived(folder):
    """What the other writers of the package make of those archives."""
    base = lambda name: os.path.join(folder, name)
    tools = place('PCP_BINADM_DIR')
    run(['pmlogextract', '-m', '-V', '2', base('kinds'), base('later'), base('marked')])
    yield 'pmlogextract of two archives, a mark between', base('marked'), None
    with open(base('rules'), 'w') as out:
        out.write('metric sample.drift { name -> sample.moved type -> 64 units -> 0,1,0,0,SEC,0 }\nindom 30.3 { inst 0 -> 17 }\n')
    run([os.path.join(tools, 'pmlogrewrite'), '-c', base('rules'), base('kinds'), base('rewritten')])
    yield 'pmlogrewrite: a name, a type, units, an instance', base('rewritten'), None
    run([os.path.join(tools, 'pmlogreduce'), '-t', '1sec', base('kinds'), base('reduced')])
    yield 'pmlogreduce to a result a second', base('reduced'), None
    run([os.path.join(tools, 'pmlogrewrite'), '-V', '3', base('linux'), base('third')])
    yield 'pmlogrewrite: version 3', base('third'), 'version'
    for name in os.listdir(folder):
        if re.match(r'linux\.(\d+|meta|index)$', name):
            shutil.copy(base(name), base(name.replace('linux', 'packed')))
    run(['xz', base('packed.0')])
    yield 'a volume compressed with xz', base('packed'), 'compressed'


def of_second(collector, folder):
    base = lambda name: os.path.join(folder, name)
    wait(collector.logger(base('sydney'), SAMPLES % ('300 msec', 'sample.string sample.double sample.float sample.longlong sample.wrap pmcd'), 2),
        collector.logger(base('renamed'), SAMPLES % ('300 msec', 'sample.drift sample.mirage'), 1, '-y', '-H', 'other.example'))
    yield 'pmlogger: another host, zone Australia/Sydney', base('sydney'), None
    yield 'pmlogger -y -H: the local zone, a host of another name', base('renamed'), None
