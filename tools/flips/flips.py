#!/usr/bin/env python3
"""Changes one byte of what the program `pcp` reads, or cuts it short, and runs the program over it, many times. usage:
flips.py PROGRAM TRIES SEED [PROCESSES [MIB]]

What is changed: images (`mmv-dump`, `once`), layout texts (`mmv-make`), scripts (`replay`), what a client sends to `serve` over
loopback, and the files of archives (`recover`, `dump`, `info`, `at`, `range`, `value`). Each try is one byte turned into another
in four cases of five, and else a front of the bytes; a SEED makes the same tries again. All inputs are small.

Each answer must be a text of the command with status 0, or a refusal by the table of statuses in docs/FORMATS.md: the status, and its
line as the last one. A session's replies must be whole PDUs of known types, and its server must serve on. No run may end by
a signal, or take more than a second of processor time, ten seconds in all, or MIB (64 if left out) of resident memory. What fails
is told, and its input is kept in the folder flips.failed. PROCESSES (as many as there are processors, if left out) run tries beside
each other, in batches over files in memory."""
import multiprocessing, os, random, re, resource, shutil, signal, socket, struct, sys, tempfile, time

HERE = os.path.dirname(os.path.realpath(__file__))
SHARED = "/dev/shm" if os.path.isdir("/dev/shm") else None
BATCH, SECONDS, WAIT = 200, 1.0, 10
NUMBER = rb"(0|[1-9][0-9]{0,19})"

# The last lines of refusals, by status; # is a number.
FAULT = rb"(Short #|TooLarge #|Magic|Version #|Generations # #|(Section|Offset|Name|Kind|Reference|Duplicate|Serial) #)"
LINE = rb"(Grammar|Condition|Name|Duplicate|Unknown #|Serial|Item|TooLarge #)"
FILE = rb"(meta|index|#)"
REFUSALS = {
    1: rb"usage #",
    2: rb"input (image " + FAULT + rb"|line # " + LINE + rb")",
    3: rb"read fault",
    5: rb"disk fault",
    6: rb"(compressed " + FILE + rb"|not archive " + FILE + rb" #)",
    7: rb"limit (input 16777217|regions 65|(sets|record|meta|index) #|volume 10000)",
    10: rb"unsound (items # # # #|boundary # " + FILE + rb" # #|late # # #)",
    11: rb"nothing at # #",
    12: rb"not later # #",
    13: rb"changed #\.#\.#",
    14: rb"live #",
}
REFUSALS = {status: re.compile(line.replace(b"#", NUMBER)) for status, line in REFUSALS.items()}

STAMP = rb"[0-9]{4}-[0-9]{2}-[0-9]{2}T[0-9]{2}:[0-9]{2}:[0-9]{2}\.[0-9]{6}Z"
# (a name of another writer's archive may have any byte but 0)
SET = rb"[0-9]+\.[0-9]+\.[0-9]+ [^\0]*"
ITEM = STAMP + rb" ([0-9]+|mark)"
OUTCOME = rb"attached|(Changing|Busy|Spent|begun|word|stable|tick|flushed) #|(TooLarge|Again) # #".replace(b"#", NUMBER)
# What a whole output is where the status is 0: each line by itself, and the last one.
ROWS = {
    "mmv-dump": (rb"(mmv|string|indom|instance|metric|value) .*", rb"(mmv|string|indom|instance|metric|value) .*"),
    "once": (rb"logged [01]", rb"logged [01]"),
    "replay": (OUTCOME, rb"logged " + NUMBER),
    "recover": (rb"items " + NUMBER, rb"items " + NUMBER),
    "retire": (rb"retired " + NUMBER, rb"retired " + NUMBER),
    "check": (rb"sound " + NUMBER, rb"sound " + NUMBER),
}
TEXTS = {
    "mmv-make": rb"MMV\0.*",
    "mmv-lift": rb"MMV\0.*",
    "dump": rb"archive none\n|archive " + NUMBER + rb" .*\n",
    "info": rb"(|[^\0]* [0-9]+\.[^\0]*\n)",
    "at": ITEM + rb"\n(" + SET + rb"\n)?",
    "range": rb"(|" + ITEM + rb"\n[^\0]*)",
    "value": STAMP + rb"\n" + SET + rb"\n",
}
ROWS = {name: tuple(re.compile(row, re.S) for row in rows) for name, rows in ROWS.items()}
TEXTS = {name: re.compile(text, re.S) for name, text in TEXTS.items()}

HEAD = b"""image A
mmv 1 5 0 0 1
metric hits 2 i32 counter 00100000 - - -
value 2 - 7
end
image C
mmv 1 1 0 0 1
metric misses 3 i32 counter 00100000 - - -
value 3 - 1
end
region app A 32 3
log mandatory on every 1 sec { mmv }
start
"""
STEPS = b"""attach app 0
add app 0 2 - 5
tick 100 0
detach app 0
load app 2
begin app 1 C 0
step app 1
tick 101 0
finish app 1
word app 2 22
done app 2
tick 102 0
flush
"""
WIDE = b"""image D
mmv 1 5 0 0 1
string "on"
indom 1 "who" -
instance 1 0 "a"
metric per 4 u64 counter 00100000 1 - "each"
metric state 5 string discrete 00000000 - - -
value 4 0 3
value 5 - "off"
end
region app D 256 3
log mandatory on 20 msec { mmv.app.per, mmv.app.state }
log mandatory on once { mmv }
start
tick 100 0
attach app 0
swap app 0 5 - "on"
swap app 0 4 0 18446744073709551615
tick 100 500000
detach app 0
"""
LAYOUT = b"""mmv 1 5 2 99 7
string "x"
indom 1 "x" "y"
instance 1 0 "a"
instance 1 7 "b"
metric state 5 string instant 00000000 - "z" -
metric load 6 i32 counter 00100000 1 - -
metric temp 7 float discrete 00000000 - - -
value 5 - "x"
value 6 7 -2
value 6 0 41
value 7 - 000000003fc00000 000000000000000b
"""
TICKS = b"".join(b"tick %d 0\n" % at for at in range(100, 123))


def pdu(kind, *words, text=b""):
    """A PDU of words, with a text behind them."""
    body = struct.pack(">%dI" % len(words), *(word & 0xFFFFFFFF for word in words)) + text
    return struct.pack(">3I", 12 + len(body), kind, 0) + body


def named(name):
    """A text of a PDU."""
    return struct.pack(">I", len(name)) + name + bytes(-len(name) % 4)


METRIC, DOMAIN = 0x11800404, 0x11800401
CREDS = pdu(0x700C, 1, 0x01020000)
SESSION = CREDS + b"".join(
    [
        pdu(0x7002, 0, 0, 1, 0, DOMAIN, 0, 1, 0, 7),
        pdu(0x7003, 0, 0, 0, 2, METRIC, METRIC + 1),
        pdu(0x7004, METRIC),
        pdu(0x7006, DOMAIN, -1),
        pdu(0x700E, 0, 1, text=named(b"mmv.app.per")),
        pdu(0x700D, 0, 1, METRIC),
        pdu(0x700F, text=named(b"mmv")),
        pdu(0x7010, text=named(b"mmv.app")),
    ]
)
REPLIES = {0x7000, 0x7001, 0x7005, 0x7007, 0x700D, 0x700E}


class Failed(Exception):
    """What a try did that it may not."""


class Worker:
    """A folder in memory, in which this process runs the program."""

    def __init__(self, program, mib):
        self.program, self.most = program, mib * 1024
        self.top = tempfile.mkdtemp(prefix="flips-", dir=SHARED)
        self.base = os.path.join(self.top, "arch")
        self.given, self.said = (os.path.join(self.top, name) for name in ("in", "out"))
        self.child = 0
        # A child that spins is stopped by the system: the limit is inherited, and this process itself ignores it.
        signal.signal(signal.SIGXCPU, signal.SIG_IGN)
        resource.setrlimit(resource.RLIMIT_CPU, (4, resource.getrlimit(resource.RLIMIT_CPU)[1]))
        resource.setrlimit(resource.RLIMIT_CORE, (0, 0))
        signal.signal(signal.SIGALRM, lambda *_: self.child and os.kill(self.child, signal.SIGKILL))

    def spawn(self, *words):
        """Begins a run over the input."""
        read, write = os.O_RDONLY, os.O_WRONLY | os.O_CREAT | os.O_TRUNC
        files = [(os.POSIX_SPAWN_OPEN, 0, self.given, read, 0), (os.POSIX_SPAWN_OPEN, 1, self.said, write, 0o600)]
        self.child = os.posix_spawn(self.program, [self.program, *words], {}, file_actions=files, setsigdef=[signal.SIGXCPU])

    def wait(self, seconds):
        """Waits for the run, and gives its status and output. A failure where it took too much."""
        signal.alarm(WAIT)
        _, ended, used = os.wait4(self.child, 0)
        signal.alarm(0)
        self.child = 0
        status = os.waitstatus_to_exitcode(ended)
        if status < 0:
            raise Failed(f"signal {-status}")
        if used.ru_utime + used.ru_stime > seconds:
            raise Failed(f"{used.ru_utime + used.ru_stime:.2f} seconds")
        if used.ru_maxrss > self.most:
            raise Failed(f"{used.ru_maxrss} KiB")
        with open(self.said, "rb") as it:
            return status, it.read()

    def run(self, *words, given=b""):
        """One run of the program at the folder's archive."""
        with open(self.given, "wb") as it:
            it.write(given)
        self.spawn(self.base, *words)
        return self.wait(SECONDS)

    def files(self):
        """The files of the archive."""
        held = {}
        for name in os.listdir(self.top):
            if name.startswith("arch."):
                with open(os.path.join(self.top, name), "rb") as it:
                    held[name] = it.read()
        return held

    def lay(self, files):
        """Makes these the files of the archive."""
        for name in os.listdir(self.top):
            if name.startswith("arch.") and name not in files:
                os.remove(os.path.join(self.top, name))
        for name, held in files.items():
            with open(os.path.join(self.top, name), "wb") as it:
                it.write(held)


def judge(command, status, said):
    """A failure unless this is an answer of the command."""
    lines = said.split(b"\n")
    if said and lines.pop() != b"" and command not in ("mmv-make", "mmv-lift"):
        raise Failed(f"status {status}, unfinished {said[-80:]!r}")
    if status:
        if status not in REFUSALS or not lines or not REFUSALS[status].fullmatch(lines[-1]):
            raise Failed(f"status {status}, {said[-80:]!r}")
    elif command in ROWS:
        row, last = ROWS[command]
        if not said or not last.fullmatch(lines[-1]) or not all(row.fullmatch(it) for it in lines[:-1]):
            raise Failed(f"status 0, {said[-80:]!r}")
    elif not TEXTS[command].fullmatch(said):
        raise Failed(f"status 0, {said[:80]!r}")


def changed(chance, held):
    """Bytes of which one is another, or a front of them."""
    at = chance.randrange(len(held))
    if chance.random() < 0.2:
        return held[:at]
    return held[:at] + bytes([held[at] ^ chance.randrange(1, 256)]) + held[at + 1 :]


def prepared(worker):
    """The inputs that are changed, and archives; the program itself makes images and archives."""
    make = lambda text: worker.run("mmv-make", given=text)[1]
    bare = HEAD.split(b"\n", 1)[1].split(b"end\n", 1)[0]
    archives = []
    for script, limit in ((HEAD + STEPS, "1048576"), (WIDE, "1048576"), (HEAD + TICKS, "1024")):
        worker.lay({})
        status, said = worker.run("replay", limit, given=script)
        assert status == 0, said
        archives.append(worker.files())
    worker.lay({})
    texts = [bare, LAYOUT, bare.replace(b"mmv 1", b"mmv 2"), LAYOUT.replace(b"mmv 1", b"mmv 2")]
    return {"images": [make(text) for text in texts], "archives": archives}


READS = [("dump",), ("info",), ("at", "101", "0"), ("at", "121", "500000"), ("range", "100", "0", "110", "0"), ("value", "200", "0", "mmv.app.hits"), ("value", "200", "0", "mmv.app.per"), ("check",), ("recover",), ("retire", "1")]
IMAGES = [("mmv-dump",), ("mmv-lift",), ("once", "200", "0", "app"), ("once", "90", "0", "web")]


def try_image(worker, inputs, chance):
    """An image, of an archive that is there or isn't."""
    given, words = changed(chance, chance.choice(inputs["images"])), chance.choice(IMAGES)
    if words[0] == "once":
        worker.lay(chance.choice(inputs["archives"]) if chance.random() < 0.3 else {})
    return words, given, {}


def try_text(worker, inputs, chance):
    return ("mmv-make",), changed(chance, LAYOUT), {}


def try_script(worker, inputs, chance):
    worker.lay(chance.choice(inputs["archives"]) if chance.random() < 0.2 else {})
    return ("replay", chance.choice(("1024", "1048576"))), changed(chance, chance.choice((HEAD + STEPS, WIDE))), {}


def try_archive(worker, inputs, chance):
    files = dict(chance.choice(inputs["archives"]))
    name = chance.choice(sorted(files))
    files[name] = changed(chance, files[name])
    worker.lay(files)
    return chance.choice(READS), b"", files


KINDS = {"image": try_image, "text": try_text, "script": try_script, "archive": try_archive}


def keep(kind, seed, number, given, files):
    """Keeps what a failed try was given."""
    folder = os.path.join("flips.failed", f"{kind}-{seed}-{number}")
    os.makedirs(folder, exist_ok=True)
    for name, held in {"in": given, **files}.items():
        with open(os.path.join(folder, name), "wb") as it:
            it.write(held)


def run_tries(worker, inputs, kind, seed, first):
    """A batch of tries, each a run of its own: how often each status came, and what failed."""
    told, failed = {}, []
    for number in range(first, first + BATCH):
        words, given, files = KINDS[kind](worker, inputs, random.Random(f"{seed} {kind} {number}"))
        try:
            status, said = worker.run(*words, given=given)
            judge(words[0], status, said)
            told[status] = told.get(status, 0) + 1
        except Failed as why:
            keep(kind, seed, number, given, files)
            failed.append(f"{kind} {seed} {number} {' '.join(words)}: {why}")
    return told, failed


def connect(port):
    """A connection, once the server listens."""
    end = time.monotonic() + WAIT
    while True:
        try:
            return socket.create_connection(("127.0.0.1", port), timeout=WAIT)
        except ConnectionRefusedError:
            if time.monotonic() > end:
                raise Failed("no server") from None
            time.sleep(0.002)


def ask(port, given):
    """Sends all to a session, and tells its replies."""
    with connect(port) as client:
        replies = []
        try:
            client.sendall(given)
            client.shutdown(socket.SHUT_WR)
            while piece := client.recv(65536):
                replies.append(piece)
        except ConnectionError:
            # The server refused a length and closed before it took all that was sent; then replies may be lost on the way.
            return
        except TimeoutError:
            raise Failed("no end of a session") from None
    said, at = b"".join(replies), 0
    while at < len(said):
        length, kind = struct.unpack(">II", said[at : at + 8]) if at + 8 <= len(said) else (0, 0)
        if not 12 <= length <= min(65536, len(said) - at) or kind not in REPLIES:
            raise Failed(f"a reply of type {kind:x} and length {length}")
        at += length
    if said[:16] != pdu(0x7000, 0):
        raise Failed(f"no greeting: {said[:16]!r}")


def run_sessions(worker, seed, first):
    """A batch of sessions with one server."""
    told, failed = {}, []
    with open(worker.given, "wb") as it:
        it.write(WIDE.split(b"tick", 1)[0])
    with socket.socket() as it:
        it.bind(("127.0.0.1", 0))
        port = it.getsockname()[1]
    worker.spawn(worker.base, "serve", str(port), str(BATCH))
    for number in range(first, first + BATCH):
        given = changed(random.Random(f"{seed} session {number}"), SESSION)
        try:
            ask(port, given)
            told["session"] = told.get("session", 0) + 1
        except Failed as why:
            keep("session", seed, number, given, {})
            failed.append(f"session {seed} {number}: {why}")
            break
    else:
        number += 1
    try:
        if number < first + BATCH:
            os.kill(worker.child, signal.SIGKILL)
        if worker.wait(SECONDS * BATCH) != (0, b"served %d\n" % BATCH):
            raise Failed("the server did not serve on")
    except Failed as why:
        failed.append(f"sessions {seed} {first}: {why}")
    return told, failed


def work(program, mib, seed, batches, results, spent):
    """Takes batches until there is none."""
    worker = Worker(program, mib)
    inputs = prepared(worker)
    while batch := batches.get():
        kind, first = batch
        try:
            run = run_sessions(worker, seed, first) if kind == "session" else run_tries(worker, inputs, kind, seed, first)
        except OSError as why:
            run = {}, [f"{kind} {seed} {first}: {why!r}"]
        results.put((kind, *run))
    shutil.rmtree(worker.top)
    used = [resource.getrusage(whose) for whose in (resource.RUSAGE_SELF, resource.RUSAGE_CHILDREN)]
    spent.put(sum(it.ru_utime + it.ru_stime for it in used))


def plan(tries):
    """The batches: of ten, four of archives, two each of images and scripts, and one each of texts and sessions."""
    turn = ["archive", "image", "script", "archive", "text", "archive", "image", "session", "script", "archive"]
    firsts, batches = {}, []
    for number in range(-(-tries // BATCH)):
        kind = turn[number % len(turn)]
        batches.append((kind, firsts.get(kind, 0)))
        firsts[kind] = firsts.get(kind, 0) + BATCH
    return batches


def main(program, tries, seed, processes=os.cpu_count(), mib=64):
    began = time.monotonic()
    batches, results, spent = (multiprocessing.Queue() for _ in range(3))
    planned = plan(int(tries))
    for batch in planned + [None] * int(processes):
        batches.put(batch)
    program = os.path.realpath(program)
    workers = [multiprocessing.Process(target=work, args=(program, int(mib), seed, batches, results, spent)) for _ in range(int(processes))]
    for it in workers:
        it.start()
    counts, all_failed = {}, []
    for _ in planned:
        kind, told, failed = results.get()
        for status, count in told.items():
            counts[kind, str(status)] = counts.get((kind, str(status)), 0) + count
        all_failed += failed
        for line in failed:
            print(line, flush=True)
    used = sum(spent.get() for _ in workers)
    for it in workers:
        it.join()
    for (kind, status), count in sorted(counts.items()):
        print(f"{kind} {status}: {count}")
    took = time.monotonic() - began
    done = len(planned) * BATCH
    print(f"{done} tries, {len(all_failed)} failed, {done / took:.0f} a second, {1000 * used / done:.2f} ms of processor time each")
    return 1 if all_failed else 0


if __name__ == "__main__":
    if not 4 <= len(sys.argv) <= 6:
        sys.exit(__doc__)
    sys.exit(main(*sys.argv[1:]))
