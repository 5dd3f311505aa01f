#!/usr/bin/env python3
"""Archives that are written, stopped, mended and retired in turn by the program `pcp`, and compared with a plain fold at each step.

Usage: retired.py PROGRAM RUNS [SEED]

A run is a sequence of `make`, `replay`, `once`, `recover` and `retire` over one archive of small volumes. Some are killed on their way
(SIGKILL; strace(1), where it is there, finds the moments), and behind some the files are put as a power cut in the command may have
left them. Compared are the status, the output and the bytes of all files, of a command that was killed whether the files are those of
one of its moments, and each time what `dump`, `check`, `at`, `range` and `info` print. The first run that differs is told with its
moves, each with the bytes of the files behind it, and the last script; the last line is `RUNS runs, N differ`.
"""
import collections, itertools, os, random, shutil, struct, subprocess, sys, tempfile, time
from concurrent.futures import ProcessPoolExecutor
from made import head as made_head, made_run, steps as made_steps
from plain_fold import Archive, Fold
from scripts import files_at, first_difference, program_says, some_head, some_run
from stopped import has_next_label, in_batches, mended, moment_of, moments, power_cut, present, retired

ONCE_LIMIT = 1073741824
STRACE = shutil.which('strace')
# how long commands took that weren't killed, by their first word
TOOK = {}


class Differs(Exception):
    """Program and fold differ."""


def stamp_of(micros):
    return divmod(max(0, micros), 1000000)


def micros_of(stamp):
    return stamp[0] * 1000000 + stamp[1]


def unlike(ours, theirs):
    """How an answer of the program differs from the fold's: by the statuses and the first line that does."""
    lines = itertools.zip_longest(ours[1].split('\n'), theirs[1].split('\n'))
    number, (a, b) = next(((n, pair) for n, pair in enumerate(lines, 1) if pair[0] != pair[1]), (0, (None, None)))
    return 'fold: status %d, program: %d; line %d of the output:\n%s\n%s' % (ours[0], theirs[0], number, a, b)


def changes(calls):
    """The system calls that change files, in their order."""
    names = {'put': 'write', 'cut': 'ftruncate'}
    return [names[kind] for kind, _, data in in_batches(calls) if kind in names and data != b'']


class Sequence:
    """One archive: what the fold says of it, and how much of each file is sure."""

    def __init__(self, program, folder, rng):
        self.program, self.folder, self.base, self.rng = program, folder, os.path.join(folder, 'base'), rng
        self.archive, self.history, self.sure, self.states = Archive(), Archive(), {}, [({}, {})]
        self.moves, self.script, self.tally = [], b'', collections.Counter()
        self.head = some_head(rng) if rng.random() < 0.8 else None

    # ---- commands that write

    def command(self, words, text, answer, after):
        """Runs a command that leads to an archive, and looks at what is said and left."""
        self.moves.append(' '.join(words))
        states = moments(self.archive.files(), self.sure, after.calls)
        kill = self.rng.random() < (0.2 if len(changes(after.calls)) > 1 else 0.03)
        said = self.killed(words, text, changes(after.calls)) if kill else self.timed(words, text)
        files, sure = files_at(self.folder), states[-1][1]
        if kill and said[0] in (-9, 137):
            self.tally['kills'] += 1
            sure = moment_of(files, states)
            self.tally['kills on the way'] += present(files) not in (present(states[0][0]), present(states[-1][0]))
            if sure is None:
                raise Differs('killed at no moment; ' + str(first_difference(after.files(), files)))
        elif said != answer:
            raise Differs(unlike(answer, said))
        else:
            self.tally['status %d' % answer[0]] += 1
            found = first_difference(after.files(), files)
            if found:
                raise Differs(found)
        self.history, self.states = after, states
        self.stand(files, sure)

    def stand(self, files, sure):
        self.archive, self.sure = self.history.found(files), sure
        ordered = sorted(files, key=lambda name: (name.isdigit(), name.rjust(5)))
        self.moves[-1] += ' (%s)' % ', '.join('%s %d' % (name, len(files[name])) for name in ordered)
        self.look()

    def timed(self, words, text):
        began = time.monotonic()
        said = program_says(self.program, self.base, words, text)
        TOOK[words[0]] = time.monotonic() - began
        return said

    def killed(self, words, text, calls):
        """Runs a command that is killed by SIGKILL: before one of its changes of a file where strace(1) is there, or else at some time."""
        which = self.rng.randrange(max(1, len(calls)))
        call = calls[which] if calls else 'write'
        command, seconds = [self.program, self.base] + words, self.rng.uniform(0, TOOK.get(words[0], 0.005))
        if STRACE:
            inject = 'inject=%s:signal=KILL:when=%d' % (call, max(1, calls[:which + 1].count(call)))
            command, seconds = [STRACE, '-f', '-qq', '-o', os.devnull, '-e', inject] + command, 60
        child = subprocess.Popen(command, stdin=subprocess.PIPE, stdout=subprocess.PIPE)
        try:
            said = child.communicate(text, timeout=seconds)[0]
        except subprocess.TimeoutExpired:
            child.kill()
            said = child.communicate()[0]
        return child.returncode, said.decode('latin-1')

    def power_cut(self):
        """The files as a power cut in the last command may have left them."""
        files = power_cut(self.rng, self.states)
        for name in os.listdir(self.folder):
            path = os.path.join(self.folder, name)
            if self.rng.random() < 0.5:
                os.remove(path)
            else:
                os.truncate(path, 0)
        for name, data in files.items():
            with open('%s.%s' % (self.base, name), 'wb') as file:
                file.write(data)
        sure = {name: len(data) for name, data in files.items()}
        self.moves.append('power cut')
        self.tally['power cuts'] += 1
        self.states = [(files, sure)]
        self.stand(files, sure)

    # ---- which

    def begin(self):
        """An archive, mostly of several volumes."""
        for _ in range(self.rng.choice([0, 4, 4, 4])):
            if self.archive.number < 2:
                self.make() if self.head is None and self.archive.start is None else self.replay()

    def some_command(self):
        rng, archive = self.rng, self.archive
        if archive.items and has_next_label(archive.files()) and rng.random() < 0.8:
            self.retire(archive.number)
        elif self.by_entry() and rng.random() < 0.8:
            rng.choice([self.once, self.once, self.replay])()
        elif archive.start is None:
            rng.choice([self.make, self.replay, self.replay, self.once, self.some_retire])()
        else:
            rng.choice([self.some_retire, self.some_retire, self.replay, self.replay, self.once, self.recover, self.make])()

    def by_entry(self):
        """Whether the greatest stamp is of an entry alone."""
        return self.archive.greatest is not None and self.archive.greatest > self.below_entries()

    def below_entries(self):
        archive = self.archive
        return max([item[0] for item in archive.items] + [held[-1][0] for held in archive.domains.values()], default=(0, 0))

    def some_moment(self):
        """A moment mostly behind the greatest stamp, in microseconds."""
        rng, greatest = self.rng, micros_of(self.archive.greatest or (0, 0))
        if self.by_entry() and rng.random() < 0.7:
            return rng.randint(micros_of(self.below_entries()) + 1, greatest)
        if rng.random() < 0.1:
            return rng.choice([greatest, rng.randint(0, greatest), 0])
        return greatest + rng.choice([1, 1000000, rng.randint(1, 5000000)])

    def count_refused(self, status, moment, before, after):
        """Counts the runs that nothing refuses but an entry of a volume that was emptied."""
        if status != 12 or len(after.items) > len(before.items) or moment <= micros_of(self.below_entries()):
            return
        later = [entry for entry in before.entries if micros_of(entry[0]) >= moment]
        if later and not any(before.size(str(entry[1])) for entry in later):
            self.tally['refused by entries of emptied volumes alone'] += 1
            self.tally['of these with a stamp before theirs'] += moment < micros_of(later[-1][0])

    def recover(self):
        after = mended(self.archive)
        self.command(['recover'], b'', (0, 'items %d\n' % len(after.items)), after)

    def some_retire(self):
        top, middle = self.archive.number, [self.rng.randint(0, self.archive.number) for _ in range(2)]
        self.retire(self.rng.choice([0, *middle, top, top, top + 1, 10000, 10001]))

    def retire(self, below):
        after = mended(self.archive) if below <= 10000 else self.unchanged()
        answer = retired(after, below) if below <= 10000 else (1, 'usage 1\n')
        self.command(['retire', str(below)], b'', answer, after)

    def unchanged(self):
        after = self.archive.found(self.archive.files())
        after.calls = []
        return after

    def once(self):
        rng, before, after, moment = self.rng, mended(self.archive), mended(self.archive), self.some_moment()
        images, regions = (self.head or some_head(rng))[:2]
        image, stamp = rng.choice(list(images.values())), stamp_of(moment)
        file = rng.choice(regions)[0]
        fold = Fold({'x': image}, [(file, 'x', len(image.words), 1)], [(None, ['mmv'])], after, ONCE_LIMIT)
        fold.line(1, 'tick %d %d' % stamp)
        status, output = fold.end(2)
        answer = status, output.splitlines()[-1] + '\n'
        self.count_refused(status, moment, before, after)
        self.command(['once', '%d' % stamp[0], '%d' % stamp[1], file], struct.pack('<%dQ' % len(image.words), *image.words), answer, after)

    def replay(self):
        rng, limit, before, moment = self.rng, self.rng.choice([1024, 1024, 1200, 2000]), mended(self.archive), self.some_moment()
        if self.head is None:
            lines, _ = made_steps(rng.randrange(1 << 64), rng.choice([3, 12, 25]), moment // 1000000)
            after = before.found(before.files())
            _, (status, output) = made_run(lines, after, limit)
            # a line's number counts the head's lines too, but none of these fails
            lines = made_head() + lines
        else:
            lines, status, output, after, _ = some_run(rng, self.head, before, limit, moment)
        if after is before:
            # a script that isn't read leaves the files unmended
            after = self.unchanged()
        self.count_refused(status, moment, before, after)
        self.script = ''.join(line + '\n' for line in lines).encode('latin-1')
        self.command(['replay', str(limit)], self.script, (status, output), after)

    def make(self):
        rng, after = self.rng, mended(self.archive)
        number, limit = rng.randrange(1 << 64), rng.choice([1024, 1024, 5000, 65536])
        ticks = 258 if rng.random() < 0.03 else rng.choice([1, 8, 15, 30])
        lines, total = made_steps(number, ticks)
        logged, (status, output) = made_run(lines, after, limit)
        counts = logged, after.number + 1, after.size('meta'), 3 * ticks, total
        output = 'items %d\nvolumes %d\nmeta %d\nadds %d\ntotal %d\n' % counts if status == 0 else output.splitlines()[-1] + '\n'
        self.command(['make', str(number), str(ticks), str(limit)], b'', (status, output), after)

    # ---- commands that read

    def look(self):
        """Compares what is read of the files, which stay as they are."""
        rng, archive, before = self.rng, self.archive, files_at(self.folder)
        known = [micros_of(stamp) for stamp in [item[0] for item in archive.items] + [entry[0] for entry in archive.entries]] or [0]
        some = lambda: stamp_of(rng.choice([rng.choice(known), rng.choice(known) + rng.choice([-1, 1]), rng.randint(0, max(known) + 1)]))
        (first, last), moment = sorted([some(), some()]), some()
        asked = [(['dump'], archive.dump()), (['check'], archive.check()), (['at', *moment], archive.at(moment)),
            (['range', *first, *last], archive.between(first, last)), (['info'], archive.info())]
        for words, ours in asked[:4 if rng.random() < 0.7 else 5]:
            said = program_says(self.program, self.base, [str(word) for word in words])
            self.tally['readings'] += 1
            if said != ours:
                raise Differs('%s: %s' % (words, unlike(ours, said)))
        if files_at(self.folder) != before:
            raise Differs('reading changed the files')


def one_run(program, number, seed):
    """What differs in a run, or None, and what was met."""
    rng = random.Random('%s %d' % (seed, number))
    with tempfile.TemporaryDirectory(dir='/dev/shm' if os.path.isdir('/dev/shm') else None) as folder:
        sequence = Sequence(program, folder, rng)
        try:
            sequence.begin()
            for _ in range(rng.randint(3, 8)):
                if rng.random() < 0.4:
                    sequence.power_cut()
                sequence.some_command()
        except Differs as found:
            script = sequence.script.decode('latin-1') if sequence.moves[-1].startswith('replay') else ''
            return '%sseed %s, run %d:\n%s\n%s' % (script, seed, number, '\n'.join(sequence.moves), found), sequence.tally
    return None, sequence.tally


def main(program, count, seed='1'):
    """Compares as many runs, several beside each other."""
    program, differing, tally = os.path.realpath(program), 0, collections.Counter()
    with ProcessPoolExecutor() as pool:
        for found, met in pool.map(one_run, [program] * count, range(count), [seed] * count):
            tally += met
            if found:
                differing += 1
                if differing == 1:
                    print(found, flush=True)
    print(', '.join('%s: %d' % pair for pair in sorted(tally.items())))
    print('%d runs, %d differ' % (count, differing))
    return 1 if differing else 0


if __name__ == '__main__':
    if len(sys.argv) not in (3, 4):
        sys.exit(__doc__)
    sys.exit(main(sys.argv[1], int(sys.argv[2]), *sys.argv[3:]))
