#!/usr/bin/env python3
"""Refuses memory to the program `pcp`: for each of its commands, on a small input, each growth fails once, and then each one and all
behind it. usage: refusals.py PROGRAM [COMMAND ..]

A growth is a call by which a process asks the C library for memory (malloc, calloc, realloc and the like). A small library, which cc
compiles and the loader puts in front of the C library's (LD_PRELOAD), counts them and refuses one. All COMMANDS are tried if none is
named. The inputs are the repository's own: the sample image, `docs/counter.script`, and the stored run of two regions in
`tests/books`, whose output and files the program has to give byte for byte where nothing is refused.

A run to which memory was refused must be told: status 9, and of its output a front alone, without a last line of its own; or 5 and the line
`disk fault`, where the files' own object wanted the memory, as for a file's name; or it is whole, with the output and the files of
a run to which nothing was refused. What a command says of lines of a script that it ran then stands: `recover` mends the files, and `dump` shows
all items from before and then the first ones of the run, of `replay` as many as it told; and `check` finds them sound. A
command that reads leaves the files as they were. It makes some 14,000 runs in half a minute."""
import os, re, shutil, signal, struct, subprocess, sys, tempfile

HERE = os.path.dirname(os.path.realpath(__file__))
WAIT = 20
FAILED = []

# The library in front. It shares five numbers with this script by the file that REFUSALS names: the first and the last growth that are
# refused (0 for none), how many growths there were, how many of them the program's own code asked for, and which one of these was the first.
SHIM = r"""
#define _GNU_SOURCE
#include <errno.h>
#include <fcntl.h>
#include <link.h>
#include <stdlib.h>
#include <sys/mman.h>
#include <unistd.h>

extern void *__libc_malloc(size_t), *__libc_calloc(size_t, size_t), *__libc_realloc(void *, size_t), *__libc_memalign(size_t, size_t);

typedef unsigned long Number;
struct shared { Number first, last, seen, own, first_own; };
static struct shared early, *shared = &early;
static Number begin, end;

static int program_lies(struct dl_phdr_info *info, size_t size, void *given) {
    for (int at = 0; at < info->dlpi_phnum; at++) {
        Number from = info->dlpi_addr + info->dlpi_phdr[at].p_vaddr, to = from + info->dlpi_phdr[at].p_memsz;
        if (info->dlpi_phdr[at].p_type != PT_LOAD || !(info->dlpi_phdr[at].p_flags & PF_X)) continue;
        if (!begin || from < begin) begin = from;
        if (to > end) end = to;
    }
    return 1;
}

__attribute__((constructor)) static void share(void) {
    int file = open(getenv("REFUSALS"), O_RDWR | O_CLOEXEC);
    if (file < 0) _exit(99);
    struct shared *told = mmap(0, sizeof *told, PROT_READ | PROT_WRITE, MAP_SHARED, file, 0);
    if (told == MAP_FAILED) _exit(99);
    close(file);
    told->seen = early.seen;
    shared = told;
    dl_iterate_phdr(program_lies, 0);
}

static int is_refused(void *caller) {
    Number number = __atomic_add_fetch(&shared->seen, 1, __ATOMIC_SEQ_CST), from = (Number)caller;
    if (from >= begin && from < end && __atomic_fetch_add(&shared->own, 1, __ATOMIC_SEQ_CST) == 0) shared->first_own = number;
    if (number < shared->first || number > shared->last) return 0;
    errno = ENOMEM;
    return 1;
}

#define REFUSED is_refused(__builtin_return_address(0))
void *malloc(size_t size) { return REFUSED ? 0 : __libc_malloc(size); }
void *calloc(size_t count, size_t size) { return REFUSED ? 0 : __libc_calloc(count, size); }
void *realloc(void *block, size_t size) { return REFUSED ? 0 : __libc_realloc(block, size); }
void *memalign(size_t alignment, size_t size) { return REFUSED ? 0 : __libc_memalign(alignment, size); }
void *aligned_alloc(size_t alignment, size_t size) { return REFUSED ? 0 : __libc_memalign(alignment, size); }
int posix_memalign(void **block, size_t alignment, size_t size) {
    return REFUSED || !(*block = __libc_memalign(alignment, size)) ? ENOMEM : 0;
}
"""


def content(*path):
    with open(os.path.join(HERE, "..", "..", *path), "rb") as it:
        return it.read()


IMAGE = content("crates", "pcp", "stdin")
COUNTER = content("docs", "counter.script")
TICKS = COUNTER + b"".join(b"tick %d 0\n" % at for at in range(100, 103)) + b"flush\ntick 103 0\n"
SCRIPT = content("tests", "books", "two_regions.script")
LAYOUT = SCRIPT.split(b"image X\n")[1].split(b"end\n")[0]
ENDS = ("meta", "index", "0", "1")
TWO = {"arch." + end: content("tests", "books", "two_regions." + end) for end in ENDS}
TORN = {name: held[:-5] if name == "arch.1" else held + b"\0\0\1" if name == "arch.index" else held for name, held in TWO.items()}
# The files that the program has to make of the script, and what it says.
KNOWN = {"replay 1024": (content("tests", "books", "two_regions.out"), TWO)}


class Bench:
    """A folder in which the program runs."""

    def __init__(self, program, top):
        self.program, self.top = os.path.realpath(program), top
        self.shim, self.numbers = os.path.join(top, "front.so"), os.path.join(top, "numbers")
        source = os.path.join(top, "front.c")
        with open(source, "w", encoding="ascii") as it:
            it.write(SHIM)
        subprocess.run(["cc", "-O2", "-fno-builtin", "-shared", "-fPIC", "-o", self.shim, source], check=True)
        self.base = os.path.join(top, "arch")
        self.given, self.said = os.path.join(top, "in"), os.path.join(top, "out")
        self.child = 0
        self.judged = {}
        signal.signal(signal.SIGALRM, lambda *_: self.child and os.kill(self.child, signal.SIGKILL))

    def run(self, *words, given=b"", env=None):
        """One run: its status (below 0 for a signal), and its output."""
        with open(self.given, "wb") as it:
            it.write(given)
        read, write = os.O_RDONLY, os.O_WRONLY | os.O_CREAT | os.O_TRUNC
        files = [(os.POSIX_SPAWN_OPEN, 0, self.given, read, 0), (os.POSIX_SPAWN_OPEN, 1, self.said, write, 0o600)]
        self.child = os.posix_spawn(self.program, [self.program, self.base, *words], env or {}, file_actions=files)
        signal.alarm(WAIT)
        _, ended = os.waitpid(self.child, 0)
        signal.alarm(0)
        self.child = 0
        with open(self.said, "rb") as it:
            return os.waitstatus_to_exitcode(ended), it.read()

    def refusing(self, first, last, *words, given=b""):
        """One run of which these growths are refused: its status and output, and the numbers that the library left."""
        with open(self.numbers, "wb") as it:
            it.write(struct.pack("5Q", first, last, 0, 0, 0))
        status, said = self.run(*words, given=given, env={"LD_PRELOAD": self.shim, "REFUSALS": self.numbers})
        with open(self.numbers, "rb") as it:
            return status, said, struct.unpack("5Q", it.read())[2:]

    def files(self):
        """The files of the archive."""
        held = {}
        for name in os.listdir(self.top):
            if name.startswith("arch."):
                with open(os.path.join(self.top, name), "rb") as it:
                    held[name] = it.read()
        return held

    def lay(self, files):
        """Makes these the files of the archive."""
        for name in os.listdir(self.top):
            if name.startswith("arch.") and name not in files:
                os.remove(os.path.join(self.top, name))
        for name, held in files.items():
            with open(os.path.join(self.top, name), "wb") as it:
                it.write(held)

    def items(self):
        """The items of the archive behind recovery, as they are printed; and what is wrong with it. The same files are recovered once."""
        found = tuple(sorted(self.files().items()))
        if found not in self.judged:
            self.judged[found] = self.recovered()
        return self.judged[found]

    def recovered(self):
        """The items behind recovery, and what is wrong with it."""
        status, said = self.run("recover")
        if status:
            return [], f"recover answers {status} {said!r}"
        count = int(said.split()[1])
        status, said = self.run("dump")
        items = re.split(rb"(?m)^(?=\d{4}-)", said)[1:]
        if status or len(items) != count:
            return [], f"dump answers {status} behind items {count}: {said[-80:]!r}"
        status, said = self.run("check")
        if status:
            return items, f"check answers {status} {said!r}"
        return items, ""


WRITES = ("once", "replay", "make", "record", "recover")


def examples(bench):
    """Each command with its input, and the files from before."""
    bench.lay({})
    for at in (b"10", b"20", b"30"):
        assert bench.run("once", at.decode(), "0", "app", given=IMAGE) == (0, b"logged 1\n")
    old = bench.files()
    wide = bench.run("mmv-make", given=LAYOUT)[1]
    return [
        (("mmv-dump",), IMAGE, {}),
        (("mmv-dump",), wide, {}),
        (("mmv-make",), LAYOUT, {}),
        (("once", "100", "0", "app"), IMAGE, {}),
        (("once", "100", "0", "app"), IMAGE, old),
        (("once", "200", "0", "web"), wide, TORN),
        (("replay", "1024"), SCRIPT, {}),
        (("replay", "1024"), TICKS, old),
        (("make", "7", "6", "1048576"), b"", {}),
        (("record", "1", "1048576"), COUNTER, old),
        (("recover",), b"", TWO),
        (("recover",), b"", TORN),
        (("dump",), b"", TWO),
        (("info",), b"", TWO),
        (("check",), b"", TWO),
        (("at", "105", "0"), b"", TWO),
        (("range", "101", "0", "108", "0"), b"", TWO),
        (("value", "107", "0", "mmv.app.hits"), b"", TWO),
    ]


def told_wrong(words, status, said, whole):
    """What is wrong with a status and an output, where memory was refused and the run isn't whole."""
    if status == 5:
        front, line = said[: -len(b"disk fault\n")], said[-len(b"disk fault\n") :]
        if line != b"disk fault\n":
            return "no line of a disk fault"
    elif status == 9:
        front = said
    else:
        return "no answer of these"
    # Of the script's lines those that ran are told; all other outputs here are below a page, and written at once.
    is_front = whole.startswith(front) and front != whole and front[-1:] in (b"", b"\n")
    if not is_front or (front and words[0] != "replay"):
        return "no front of the output"
    return ""


def left_wrong(bench, words, said, status, before, after):
    """What is wrong with the files behind a run that wasn't whole: these are the items from before, and those of a whole run."""
    items, wrong = bench.items()
    if wrong:
        return wrong
    least, most = len(before), len(after)
    if words[0] == "replay":
        # Each of these ticks logs one result.
        least += len(re.findall(rb"(?m)^tick [1-9]", said))
        most = least if status == 9 else most
    same = len(items) if words[0] != "record" else len(before)
    if not least <= len(items) <= most or items[:same] != after[:same]:
        return f"{len(items)} items stand, {len(before)} stood before, and {len(after)} stand behind a whole run"
    return ""


def tried(bench, example, first, last, whole, before, after):
    """A run of which these growths are refused: how it ended, and how many growths it had."""
    words, given, files = example
    bench.lay(files)
    status, said, (seen, _, _) = bench.refusing(first, last, *words, given=given)
    if seen < first:
        return None, seen
    now = bench.files()
    is_clocked = words[0] == "record"
    if status == 0 and said == whole[0] and (is_clocked or now == whole[1]):
        return "whole", seen
    wrong = told_wrong(words, status, said, whole[0])
    if not wrong and words[0] not in WRITES and now != files:
        wrong = "the files changed"
    if not wrong and words[0] in WRITES:
        wrong = left_wrong(bench, words, said, status, before, after)
    if wrong:
        FAILED.append(f"{' '.join(words)}, growth {first}{' and all behind it' if last > first else ''} refused: status {status}, output {said[-200:]!r}: {wrong}")
        return "WRONG", seen
    return f"status {status}", seen


def try_example(bench, example):
    """Each growth of a command refused alone, and then with all that follow it."""
    words, given, files = example
    bench.lay(files)
    before = bench.items()[0]
    bench.lay(files)
    status, said, (growths, own, first_own) = bench.refusing(0, 0, *words, given=given)
    assert status == 0, (words, status, said)
    whole = said, bench.files()
    if (known := KNOWN.get(" ".join(words))) and not files and whole != known:
        FAILED.append(f"{' '.join(words)}: not what the stored run has")
    after, wrong = bench.items()
    assert not wrong, (words, wrong)
    name = f"{words[0]} over {len(before)} items" if files else words[0]
    told = {}
    for mode, last in (("alone", lambda first: first), ("onward", lambda first: 2**63)):
        ends = told[mode] = {}
        first = 1
        while True:
            end, _ = tried(bench, example, first, last(first), whole, before, after)
            if not end:
                break
            ends[end] = ends.get(end, 0) + 1
            first += 1
    tell = lambda ends: ", ".join(f"{end} {count}" for end, count in sorted(ends.items()))
    print(f"{name}: {growths} growths, {own} by the program, the first of them is number {first_own}; each alone: {tell(told['alone'])}; and all behind: {tell(told['onward'])}", flush=True)
    return sum(map(sum, (ends.values() for ends in told.values())))


def main(program, *names):
    with tempfile.TemporaryDirectory(prefix="refusals-", dir="/dev/shm" if os.path.isdir("/dev/shm") else None) as top:
        if not shutil.which("cc"):
            sys.exit("refusals.py needs cc")
        bench = Bench(program, top)
        runs = sum(try_example(bench, it) for it in examples(bench) if not names or it[0][0] in names)
    print(f"{runs} runs, {len(FAILED)} wrong")
    for line in FAILED:
        print(line)
    return 1 if FAILED else 0


if __name__ == "__main__":
    if len(sys.argv) < 2:
        sys.exit(__doc__)
    sys.exit(main(*sys.argv[1:]))
