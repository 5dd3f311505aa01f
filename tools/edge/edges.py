#!/usr/bin/env python3
"""Tries the program `pcp` as the system runs it: descriptors that are closed, two programs at one archive, files of other kinds, odd
names, clients that keep silent, a terminal that is told, stopped or gone, signals, the help, and the words of each command line. usage: edges.py PROGRAM [NAME ..]

Each function `try_NAME` gets a folder of its own, and fails by an assertion. It takes a minute and a half in all."""
import fcntl, os, pty, random, re, resource, select, shutil, signal, socket, struct, subprocess, sys, tempfile, time
from concurrent.futures import ThreadPoolExecutor

HERE = os.path.dirname(os.path.realpath(__file__))
PROGRAM = ""
STARTED = []
IMAGE = os.path.join(HERE, "..", "..", "crates", "pcp", "stdin")
SCRIPT = os.path.join(HERE, "..", "..", "docs", "counter.script")
TICKS = b"".join(b"tick %d 0\n" % at for at in range(100, 105))


def content(path):
    """All bytes of a file."""
    with open(path, "rb") as it:
        return it.read()


def script(steps=b""):
    """The sample script, with further steps."""
    return content(SCRIPT) + steps


def start(*words, **how):
    """Starts the program beside this one."""
    child = subprocess.Popen([PROGRAM, *words], stdin=subprocess.PIPE, stdout=subprocess.PIPE, **how)
    STARTED.append(child)
    return child


def run(*words, given=b"", seconds=60, **how):
    """Runs the program and gives its status and output."""
    ran = subprocess.run([PROGRAM, *words], input=given, stdout=subprocess.PIPE, stderr=subprocess.PIPE, timeout=seconds, **how)
    return ran.returncode, ran.stdout


def files(base):
    """The files of an archive with their contents."""
    folder, stem = os.path.split(base)
    return {name: content(os.path.join(folder, name)) for name in sorted(os.listdir(folder)) if name.startswith(stem + ".")}


def items(base):
    """How many items a sound archive has: recovery changes nothing, and each is printed."""
    before = files(base)
    status, said = run(base, "recover")
    assert status == 0, (base, status, said)
    assert files(base) == before, "recovery had to mend"
    count = int(said.split()[1])
    status, said = run(base, "dump")
    assert status == 0 and said.count(b"mmv.app.hits") == count, (base, status, said[-200:])
    return count


def closing(*numbers):
    """Closes descriptors in the child, before the program begins."""

    def close():
        for number in numbers:
            os.close(number)

    return close


def try_closed_descriptors(folder):
    """Standard streams that are closed are the null device: no file of the archive gets their numbers."""
    writers = [("once", "100", "0", "app"), ("replay", "1048576"), ("make", "7", "20", "1048576"), ("record", "1", "1048576"), ("recover",)]
    for words in writers:
        given = {"once": content(IMAGE), "replay": script(TICKS), "record": script()}.get(words[0], b"")
        for closed in [(0,), (1,), (2,), (0, 1, 2)]:
            name = f"{words[0]}{''.join(map(str, closed))}"
            whole, tried = (os.path.join(folder, name + kind) for kind in ("whole", "tried"))
            if words[0] == "recover":
                for base in (whole, tried):
                    run(base, "replay", "1048576", given=script(TICKS))
                    os.truncate(base + ".0", os.path.getsize(base + ".0") - 5)
            with tempfile.TemporaryFile() as source:
                source.write(given)
                null = open(os.devnull, "r+b")
                how = [null if number in closed else usual for number, usual in enumerate([source, subprocess.DEVNULL, subprocess.DEVNULL])]
                source.seek(0)
                ordinary = subprocess.run([PROGRAM, whole, *words], stdin=how[0], stdout=how[1], stderr=how[2]).returncode
                source.seek(0)
                status = subprocess.run([PROGRAM, tried, *words], stdin=source, stdout=subprocess.DEVNULL, stderr=subprocess.DEVNULL, preexec_fn=closing(*closed)).returncode
                null.close()
            assert status == ordinary and (ordinary == 0 or 0 in closed), (words, closed, status, ordinary)
            left, right = ({key[len(name) + 5:]: it for key, it in files(base).items()} for base in (whole, tried))
            if words[0] == "record":
                left, right = ({key: len(it) for key, it in side.items()} for side in (left, right))
            assert left == right, (words, closed)


def recording(base, samples):
    """A recording under way, which has taken its first sample."""
    child = start(base, "record", str(samples), "1048576")
    child.stdin.write(script())
    child.stdin.close()
    end = time.monotonic() + 60
    while not (os.path.exists(base + ".0") and os.path.getsize(base + ".0") > 132):
        assert time.monotonic() < end and child.poll() is None, "no first sample"
        time.sleep(0.01)
    return child


def try_one_writer(folder):
    """While one program writes, another one is refused, and what it was refused leaves no trace."""
    base = os.path.join(folder, "rec")
    child = recording(base, 3)
    # (it holds the lock while it is stopped)
    child.send_signal(signal.SIGSTOP)
    assert run(base, "once", "4000000000"[:9], "0", "app", given=content(IMAGE)) == (5, b"disk fault\n")
    assert run(base, "recover") == (5, b"disk fault\n")
    assert run(base, "dump")[0] == 0
    child.send_signal(signal.SIGCONT)
    assert child.wait(60) == 0 and child.stdout.read() == b"logged 3\n"
    assert items(base) == 3
    # The other way round: once the lock is another's, a recording is refused.
    before = files(base)
    with open(base + ".meta", "rb") as held:
        fcntl.flock(held, fcntl.LOCK_EX)
        assert run(base, "record", "1", "1048576", given=script()) == (5, b"disk fault\n")
    assert files(base) == before
    fresh = os.path.join(folder, "fresh")
    with open(fresh + ".meta", "wb") as held:
        fcntl.flock(held, fcntl.LOCK_EX)
        assert run(fresh, "once", "100", "0", "app", given=content(IMAGE))[0] == 5
    assert files(fresh) == {"fresh.meta": b""}


def pair(base, stamps):
    """Two `once` begun at the same moment: how many items each left behind, and the sound archive's count."""
    started = [subprocess.Popen([PROGRAM, base, "once", str(at), "0", "app"], stdin=subprocess.PIPE, stdout=subprocess.DEVNULL) for at in stamps]
    for child in started:
        child.stdin.write(content(IMAGE))
    for child in started:
        child.stdin.close()
    return [child.wait(60) for child in started]


def try_pairs(folder, count=300):
    """Pairs of `once` over a new archive and over an old one: each ends with 0 and its item stands, or with 5."""
    told = {}

    def one(number):
        base = os.path.join(folder, f"pair{number}")
        old = 0
        if number % 2:
            assert run(base, "once", "50", "0", "app", given=content(IMAGE))[0] == 0
            old = 1
        stamps = (100, 100) if number % 4 < 2 else (100, 101)
        ended = pair(base, stamps)
        # The second of two items with one stamp, or with the earlier one, may come later: it is then refused as not later.
        assert 0 in ended and all(status in (0, 5, 12) for status in ended), ended
        stand = items(base)
        assert stand == old + ended.count(0), (ended, stand)
        said = run(base, "dump")[1]
        for status, at in zip(ended, stamps):
            assert status != 0 or b"00:01:%02d.000000Z" % (at - 60) in said, (ended, said)
        return tuple(ended)

    with ThreadPoolExecutor(4) as pool:
        for ended in pool.map(one, range(count)):
            told[ended] = told.get(ended, 0) + 1
    return told


def try_regular_files(folder):
    """What is no regular file is a fault at once; a link to a regular file is followed."""
    kinds = {"fifo": os.mkfifo, "folder": os.mkdir, "device": lambda path: os.symlink("/dev/zero", path)}
    commands = [("dump",), ("info",), ("check",), ("recover",), ("once", "200", "0", "app"), ("replay", "1048576"), ("record", "1", "1048576")]
    for kind, make in kinds.items():
        for end in ("meta", "index", "0", "3"):
            for words in commands:
                base = os.path.join(folder, f"{kind}{end}{words[0]}")
                run(base, "once", "100", "0", "app", given=content(IMAGE))
                if os.path.exists(f"{base}.{end}"):
                    os.remove(f"{base}.{end}")
                make(f"{base}.{end}")
                given = content(IMAGE) if words[0] == "once" else script(TICKS if words[0] == "replay" else b"")
                assert run(base, *words, given=given)[0] == 5, (kind, end, words)
    base = os.path.join(folder, "linked")
    run(base, "once", "100", "0", "app", given=content(IMAGE))
    os.rename(base + ".0", base + "-elsewhere")
    os.symlink(base + "-elsewhere", base + ".0")
    assert run(base, "once", "101", "0", "app", given=content(IMAGE))[0] == 0
    assert items(base) == 2


def seconds_of(*words):
    """The least processor time that a command takes, of some runs: other work on the machine doesn't count."""
    took = []
    for _ in range(5):
        child = subprocess.Popen([PROGRAM, *words], stdin=subprocess.DEVNULL, stdout=subprocess.DEVNULL)
        _, status, used = os.wait4(child.pid, 0)
        child.returncode = os.waitstatus_to_exitcode(status)
        took.append(used.ru_utime + used.ru_stime)
    return min(took)


def try_odd_names(folder):
    """Names that are no volume's cost nothing and change nothing."""
    base = os.path.join(folder, "arch")
    run(base, "replay", "1048576", given=script(TICKS))
    commands = [("dump",), ("info",), ("check",), ("at", "200", "0"), ("range", "0", "0", "900", "0"), ("value", "200", "0", "mmv.app.hits"), ("recover",)]
    without = {words: (run(base, *words), seconds_of(base, *words)) for words in commands}
    for end in ("2147483646", "4294967294", "20261128", "99999999999", "10000", "07", "1x", "", "0x1", "-1"):
        with open(f"{base}.{end}", "wb") as it:
            it.write(b"x")
    for words, (answer, took) in without.items():
        assert run(base, *words) == answer, words
        more = seconds_of(base, *words) - took
        assert more < 0.1, (words, more)


def connect(port):
    """A connection to a server that may still be starting."""
    end = time.monotonic() + 60
    while True:
        try:
            return socket.create_connection(("127.0.0.1", port), 60)
        except ConnectionRefusedError:
            assert time.monotonic() < end, "nobody listens"
            time.sleep(0.02)


def served_script():
    """The sample script as it is served: without its writers' lines."""
    lines = content(SCRIPT).split(b"\n")
    return b"\n".join(line for line in lines if line.split(b" ")[0] not in (b"attach", b"add", b"detach", b"log"))


def serving(port, count, given=None, **how):
    """A server of the script's regions."""
    child = start("x", "serve", str(port), str(count), **how)
    child.stdin.write(given or served_script())
    child.stdin.close()
    return child


def free_port():
    """A port that nobody has, below those that the system gives out by itself, so that nobody else is given it meanwhile."""
    while True:
        port = random.randrange(10240, 32768)
        with socket.socket() as it:
            try:
                it.bind(("127.0.0.1", port))
                return port
            except OSError:
                pass


HELLO = struct.pack(">IIIII", 20, 0x700C, 0, 1, 0x01020000)


def heard(client):
    """All that a client hears up to the end."""
    said = b""
    while True:
        more = client.recv(65536)
        if not more:
            return said
        said += more


def try_sources(folder):
    """Two archives are merged into a third; a source that is missing or is the archive itself is a bad word, and nothing is touched."""
    first, second, both = (os.path.join(folder, name) for name in ("first", "second", "both"))
    assert run(first, "once", "100", "0", "app", given=content(IMAGE)) == (0, b"logged 1\n")
    assert run(second, "once", "101", "0", "app", given=content(IMAGE)) == (0, b"logged 1\n")
    before = {base: files(base) for base in (first, second)}
    assert run(both, "extract", first, second, "1048576") == (0, b"extracted 2\n")
    assert run(both, "check") == (0, b"sound 2\n")
    assert run(both, "summary", "3", "0", "0", "200", "0") == (0, b"mmv.app.hits 2 7 7 14\n")
    assert run(both, "watch", "0", "0", "200", "0", given=b"rule same when all rise mmv.app.hits over 2 == 0\n") == (0, b"1970-01-01T00:01:41.000000Z same\nfired 1\n")
    assert run(both, "extract", first, second, "1048576") == (12, b"not later 101 0\n")
    # a file of the archive, under another name
    linked, hard = (os.path.join(folder, name) for name in ("linked", "hard"))
    os.symlink("first.0", linked + ".0")
    os.link(second + ".index", hard + ".index")
    for base, words, found in [
        (first, (first, second, "1048576"), 1),
        (second, (first, os.path.join(folder, ".", "second"), "1048576"), 2),
        (first, (second, linked, "1048576"), 2),
        (linked, (first, second, "1048576"), 1),
        (second, (hard, first, "1048576"), 1),
        (first, (), 1),
        (first, (second,), 2),
        (first, (b"\xff", second, "1048576"), 1),
        (first, (second, b"\xff", "1048576"), 2),
        (both, (first, second), 1),
        (both, (first, second, "1023"), 1),
        (both, (first, second, "1048576", "1"), 2),
        (both, (first, second, b"\xff"), 1),
    ]:
        assert run(base, "extract", *words) == (1, b"usage %d\n" % found), (base, words)
    assert {base: files(base) for base in (first, second)} == before


def try_faulty_sources(folder):
    """A source that isn't sound, or is no archive, is named, and leaves no archive."""
    first, second, fresh = (os.path.join(folder, name) for name in ("first", "second", "fresh"))
    for base, at in ((first, "100"), (second, "101")):
        assert run(base, "once", at, "0", "app", given=content(IMAGE)) == (0, b"logged 1\n")
    os.truncate(second + ".meta", 140)
    assert run(fresh, "extract", first, second, "1048576") == (10, b"source 2\nunsound boundary 0 meta 132 184\n")
    with open(second + ".meta", "r+b") as it:
        it.write(b"x")
    assert run(fresh, "extract", second, first, "1048576") == (6, b"source 1\nnot archive meta 0\n")
    assert not files(fresh)


def try_few_descriptors(folder):
    """A server without descriptors waits, and serves the others once there are some."""
    port = free_port()
    child = serving(port, 6, preexec_fn=lambda: resource.setrlimit(resource.RLIMIT_NOFILE, (8, 8)))
    clients = [connect(port) for _ in range(6)]
    time.sleep(0.5)
    assert child.poll() is None
    for client in clients:
        client.sendall(HELLO)
        client.shutdown(socket.SHUT_WR)
    for client in clients:
        assert len(heard(client)) == 16
    assert child.wait(60) == 0 and child.stdout.read() == b"served 6\n"


def try_begun_pdus(folder):
    """A client that begins a PDU and sends nothing is closed after 5 seconds, one that is only silent is not."""
    port = free_port()
    child = serving(port, 2)
    silent, begun = connect(port), connect(port)
    began = time.monotonic()
    begun.sendall(HELLO + HELLO[:7])
    heard(begun)
    took = time.monotonic() - began
    assert 4.5 < took < 60, took
    silent.sendall(HELLO)
    silent.shutdown(socket.SHUT_WR)
    assert len(heard(silent)) == 16
    assert child.wait(60) == 0


def try_untaken_replies(folder):
    """A client that takes none of its replies for 5 seconds is closed."""
    port = free_port()
    rows = b"".join(b'instance 1 %d "%s%d"\n' % (at, b"x" * 55, at) for at in range(1000, 1600))
    given = b"image A\nmmv 1 5 0 0 1\nindom 1 - -\n" + rows + b"metric per 4 u32 counter 00100000 1 - -\nend\nregion app A 65536 1\nstart\n"
    child = serving(port, 1, given)
    client = connect(port)
    began = time.monotonic()
    client.sendall(HELLO + struct.pack(">IIIII", 20, 0x7006, 0, 0x11800401, 0xFFFFFFFF) * 500)
    assert child.wait(170) == 0 and child.stdout.read() == b"served 1\n"
    took = time.monotonic() - began
    assert took > 4.5, took
    client.close()


def try_last_replies(folder):
    """A session that ends with unread input lets its client read all replies before the connection ends."""
    for _ in range(20):
        port = free_port()
        child = serving(port, 1)
        client = connect(port)
        client.sendall(HELLO + struct.pack(">I", 7) + bytes(40000))
        time.sleep(0.05)
        assert len(heard(client)) >= 16
        client.close()
        assert child.wait(60) == 0


def pulling(base, port, samples=1):
    """A pull of one metric."""
    return start(base, "pull", str(port), str(samples), "1048576", "mmv.app.hits")


def ended(child, seconds=60):
    """The status of a program, and what it said."""
    child.stdin.close()
    return child.wait(seconds), child.stdout.read()


def try_pulls(folder):
    """A pull where nobody listens, one of the program's own server, and one of a server that ends behind its greeting."""
    base, port = os.path.join(folder, "arch"), free_port()
    assert ended(pulling(base, port)) == (17, b"connect fault\n") and not files(base)
    child, end = serving(port, 1), time.monotonic() + 60
    told = 17, b""
    while told[0] == 17 and time.monotonic() < end:
        told = ended(pulling(base, port, 2))
    assert told == (0, b"logged 2\n"), told
    assert child.wait(60) == 0 and child.stdout.read() == b"served 1\n" and items(base) == 2
    with socket.create_server(("127.0.0.1", 0)) as listener:
        child = pulling(base, listener.getsockname()[1])
        client, _ = listener.accept()
        client.sendall(struct.pack(">IIII", 16, 0x7000, 0, 0))
        client.shutdown(socket.SHUT_WR)
        heard(client)
        told = ended(child)
        assert told == (16, b"peer 1 ended 0\n") and items(base) == 2, told


def try_begun_replies(folder):
    """A server that falls silent inside a reply is given up after 5 seconds."""
    with socket.create_server(("127.0.0.1", 0)) as listener:
        child = pulling(os.path.join(folder, "arch"), listener.getsockname()[1])
        client, _ = listener.accept()
        began = time.monotonic()
        client.sendall(struct.pack(">IIII", 16, 0x7000, 0, 0)[:7])
        told, took = ended(child), time.monotonic() - began
        assert told == (3, b"read fault\n") and 4.5 < took < 50, (told, took)
        client.close()


def shown_to_end(ours):
    """All that a terminal was shown whose other end is closed."""
    shown = b""
    while True:
        try:
            more = os.read(ours, 65536)
        except OSError:
            return shown
        if not more:
            return shown
        shown += more


def on_terminal(words, given, folder, seconds, stopped=False):
    """Runs the program with a terminal as standard error, which may be stopped: its status, and what the terminal showed."""
    ours, theirs = pty.openpty()
    if stopped:
        os.write(ours, b"\x13")
        time.sleep(0.1)
    child = start(*words, stderr=theirs, cwd=folder)
    child.stdin.write(given)
    child.stdin.close()
    status = child.wait(seconds)
    if stopped:
        os.write(ours, b"\x11")
    os.close(theirs)
    shown = shown_to_end(ours)
    os.close(ours)
    return status, shown.replace(b"\r\n", b"\n")


def try_reasons(folder):
    """A terminal is told which call on which file failed, and why."""
    run("held", "once", "100", "0", "app", given=content(IMAGE), cwd=folder)
    with open(os.path.join(folder, "held.meta"), "rb") as held:
        fcntl.flock(held, fcntl.LOCK_EX)
        told = on_terminal(["held", "once", "101", "0", "app"], content(IMAGE), folder, 60)
    assert told == (5, b"held.meta: another program is writing this archive (lock)\n"), told
    os.mkdir(os.path.join(folder, "held.4"))
    told = on_terminal(["held", "dump"], b"", folder, 60)
    assert told == (5, b"held.4: not a regular file (measure)\n"), told
    with open("/dev/full", "wb") as full:
        ran = subprocess.run([PROGRAM, "x", "make", "1", "5", "1048576"], stdin=subprocess.DEVNULL, stdout=full, stderr=subprocess.PIPE, cwd=folder)
    assert ran.returncode == 4 and ran.stderr == b"", ran
    assert on_terminal(["fine", "once", "100", "0", "app"], content(IMAGE), folder, 60) == (0, b"")


def try_stopped_terminal(folder):
    """A terminal that is stopped (Ctrl-S) never stops a recording."""
    status, _ = on_terminal(["stopped", "record", "3", "1048576"], script(), folder, 60, stopped=True)
    assert status == 0 and items(os.path.join(folder, "stopped")) == 3
    status, shown = on_terminal(["seen", "record", "2", "1048576"], script(), folder, 60)
    assert status == 0 and shown == b"sample 1 of 2: results 0, bytes 0\nsample 2 of 2: results 1, bytes 488\n", shown


# The help, whole: what the program is for, how it is begun, each command with its words and what it does, and what BASE is.
ABOUT = "Regions of memory mapped values, sessions with clients, and archives of what was logged"
STARTS = "Usage: pcp BASE COMMAND\n       pcp --help"
COMMANDS = {
    "once SEC USEC FILE": "Log the values of an image as one result",
    "replay VOLUME": "Run a script, line by line, and log its ticks",
    "make NUMBER TICKS VOLUME": "Run the script that a number makes, and log its ticks",
    "record SAMPLES VOLUME": "Run a script's writers, and log a sample each second",
    "serve PORT COUNT": "Serve a script's regions to clients",
    "pull PORT SAMPLES VOLUME NAME..": "Ask a server for metrics, and log a sample each second",
    "extract BASE1 BASE2 VOLUME": "Log the merge of two other archives",
    "export BASE2": "Write an archive again at another base, as stock tools show it whole",
    "recover": "Mend an archive that was stopped anywhere",
    "dump": "Print the label and all items of an archive",
    "at SEC USEC": "Print the last item not after a moment",
    "range SEC USEC SEC USEC": "Print the items between two moments",
    "value SEC USEC NAME": "Print the values that a metric last had at a moment",
    "watch SEC USEC SEC USEC": "Print which rules hold at each sample between two moments",
    "summary WORKERS SEC USEC SEC USEC": "Print what an archive's values come to between two moments",
    "info": "Print the descriptions of an archive",
    "check": "Tell whether an archive is sound, or where it isn't",
    "retire N": "Empty the volumes of an archive below a number",
    "mmv-make": "Make the image of a layout text",
    "mmv-dump": "Print an image as a layout text",
    "mmv-lift": "Make the version 2 image of an image",
}
ENDS = "BASE begins the names of the archive's files: BASE.meta, BASE.index, BASE.0 and so on."

# A good word for each of the help's words, and bad ones. Any word is a base, and the name that `value` asks for.
GOOD = dict(SEC="100", USEC="0", FILE="app", VOLUME="1048576", NUMBER="7", TICKS="2", SAMPLES="2", PORT="44321", COUNT="1", WORKERS="3", N="0", NAME="a..b")
GOOD |= {"NAME..": "mmv.app.hits", "BASE1": "first", "BASE2": "second"}
BAD = {
    "SEC": ("2147483648", "-1", "", "1x"),
    "USEC": ("1000000", "+0"),
    "FILE": ("9app", "a.b", "", "a" * 64, b"\xff"),
    "VOLUME": ("1023", "1073741825", b"\xff"),
    "NUMBER": ("18446744073709551616", "x"),
    "TICKS": ("0", "100001"),
    "SAMPLES": ("0", "100001"),
    "PORT": ("0", "65536", "x", b"\xff"),
    "COUNT": ("0", "100001"),
    "WORKERS": ("0", "65"),
    "N": ("10001", "-1"),
    "NAME..": ("a..b", ".a", "a" * 401, b"\xff"),
}
UNCOUNTED = ("PORT", "BASE1", "BASE2")


def try_help(folder):
    """The help is whole: it names each command with its words, and is written for a lone `--help` alone."""
    rows = "".join(f"  {words:33}  {does}\n" for words, does in COMMANDS.items())
    text = f"{ABOUT}\n\n{STARTS}\n\nCommands:\n{rows}\n{ENDS}\n".encode()
    told = run("--help", cwd=folder)
    assert told == (0, text), told
    for words in (("x", "--help"), ("--help", "--help"), ("-h",), ("help",), ()):
        told = run(*words, cwd=folder)
        assert told == (1, b"usage 0\n"), (words, told)
    told = run("--help", "dump", cwd=folder)
    assert told == (0, b"archive none\n"), told
    assert not os.listdir(folder)


def faulty(kinds):
    """The faulty lines of a command whose words are of these kinds, each with the number of its first bad or missing word."""
    good = [GOOD[kind] for kind in kinds]
    for at, kind in enumerate(kinds):
        # (a base or PORT is the program's: it isn't counted, but where it is bad or missing itself)
        number = 1 + at - (kind not in UNCOUNTED) * sum(it in UNCOUNTED for it in kinds[:at])
        yield good[:at], number
        for bad in BAD.get(kind, ()):
            yield [*good[:at], bad, *good[at + 1 :]], number
            yield [*good[:at], bad], number
    if "NAME.." in kinds:
        yield [*good, "a..b"], 4
        yield [*good, *["a"] * 64], 67
    else:
        yield [*good, "more"], 1 + sum(it not in UNCOUNTED for it in kinds)


def try_words(folder):
    """Each command names its first word that is bad, missing or one too many; then nothing is read, written, connected to or listened at."""
    count = 0
    for form in COMMANDS:
        name, *kinds = form.split(" ")
        for words, number in faulty(kinds):
            told = run("arch", name, *words, given=b"unread", cwd=folder)
            assert told == (1, b"usage %d\n" % number), (name, words, number, told)
            count += 1
    for name in ("", "Dump", "dumps", b"\xff"):
        assert run("arch", name, cwd=folder) == (1, b"usage 0\n"), name
    assert not os.listdir(folder)
    return f"ok, {count} faulty lines"


def try_crowded_folder(folder):
    """A run writes its archive into a folder beside 300 other files, and leaves these alone; without the folder it is a fault."""
    assert run("many/app", "once", "100", "0", "app", given=content(IMAGE), cwd=folder) == (5, b"disk fault\n")
    assert not os.listdir(folder)
    many = os.path.join(folder, "many")
    os.mkdir(many)
    others = {f"other.{number}": b"x" for number in range(300)}
    for name, it in others.items():
        with open(os.path.join(many, name), "wb") as other:
            other.write(it)
    assert run("many/app", "once", "100", "0", "app", given=content(IMAGE), cwd=folder) == (0, b"logged 1\n")
    made = files(os.path.join(many, "app"))
    sizes = {name: len(it) for name, it in made.items()}
    assert sizes == {"app.meta": 184, "app.index": 152, "app.0": 172}, sizes
    assert files(os.path.join(many, "other")) == others and len(os.listdir(many)) == 303
    assert items(os.path.join(many, "app")) == 1


def try_taken_port(folder):
    """A port that another program listens at is told, and its input isn't waited for; once it is free, clients are served there."""
    with socket.create_server(("127.0.0.1", 0)) as taken:
        port = taken.getsockname()[1]
        child = start("x", "serve", str(port), "1", cwd=folder)
        told = child.wait(60), child.stdout.read()
        assert told == (22, b"listen fault\n"), told
    child = serving(port, 1)
    client = connect(port)
    client.sendall(HELLO)
    client.shutdown(socket.SHUT_WR)
    assert len(heard(client)) == 16
    assert child.wait(60) == 0 and child.stdout.read() == b"served 1\n"


def status_to(out, *words, given=b""):
    """The status of a run with this output."""
    return subprocess.run([PROGRAM, *words], input=given, stdout=out, stderr=subprocess.DEVNULL, timeout=60).returncode


def try_failed_outputs(folder):
    """Where the output fails, since it is full or nobody reads it, the status says so, also of the help; what was logged stands."""
    base = os.path.join(folder, "arch")
    run(base, "once", "100", "0", "app", given=content(IMAGE))
    before, end = files(base), os.pipe()
    os.close(end[0])
    with open("/dev/full", "wb") as full, open(end[1], "wb") as unread:
        for name, out in (("full", full), ("unread", unread)):
            assert status_to(out, "--help") == 4
            for words in (("dump",), ("info",), ("check",), ("recover",), ("at", "100", "0"), ("summary", "1", "0", "0", "200", "0")):
                assert status_to(out, base, *words) == 4, (name, words)
            assert status_to(out, base, "at", "99", "0") == 11 and status_to(out, base, "nothing") == 1
            assert files(base) == before, name
            replayed, recorded = (os.path.join(folder, name + it) for it in ("replayed", "recorded"))
            assert status_to(out, replayed, "replay", "1048576", given=script(TICKS)) == 4 and items(replayed) == len(TICKS.splitlines())
            assert status_to(out, recorded, "record", "2", "1048576", given=script()) == 4 and items(recorded) == 2


def told_lines(samples, sizes):
    """What a terminal is told before each sample, where so many bytes are sure before each."""
    return b"".join(b"sample %d of %d: results %d, bytes %d\n" % (at + 1, samples, at, size) for at, size in enumerate(sizes))


def try_progress(folder):
    """Before each of several samples a terminal is told what is sure; nothing is told of one sample, or where there is no terminal."""
    # Before the second sample three labels (132 bytes each), a description (52) and a result (40) are sure, and then a result more each time.
    told = on_terminal(["told", "record", "3", "1048576"], script(), folder, 60)
    assert told == (0, told_lines(3, (0, 488, 528))), told
    assert items(os.path.join(folder, "told")) == 3
    # What was there before isn't counted: here only the two results of this run are.
    told = on_terminal(["told", "record", "2", "1048576"], script(), folder, 60)
    assert told == (0, told_lines(2, (0, 40))), told
    told = on_terminal(["one", "record", "1", "1048576"], script(), folder, 60)
    assert told == (0, b""), told
    told = on_terminal(["other", "replay", "1048576"], script(TICKS), folder, 60)
    assert told == (0, b""), told
    ran = subprocess.run([PROGRAM, "none", "record", "2", "1048576"], input=script(), capture_output=True, cwd=folder, timeout=60)
    assert (ran.returncode, ran.stdout, ran.stderr) == (0, b"logged 2\n", b""), ran
    port = free_port()
    child = serving(port, 1)
    status, shown = 17, b""
    end = time.monotonic() + 60
    while status == 17 and time.monotonic() < end:
        status, shown = on_terminal(["pulled", "pull", str(port), "2", "1048576", "mmv.app.hits"], b"", folder, 60)
    assert (status, shown) == (0, told_lines(2, (0, 488))), (status, shown)
    assert child.wait(60) == 0


def try_gone_terminal(folder):
    """A terminal that is gone after the first line changes nothing of a recording but what is told."""
    ours, theirs = pty.openpty()
    child = start("gone", "record", "3", "1048576", stderr=theirs, cwd=folder)
    os.close(theirs)
    child.stdin.write(script())
    child.stdin.close()
    shown = b""
    while b"\n" not in shown:
        assert select.select([ours], [], [], 60)[0], "no line"
        shown += os.read(ours, 65536)
    os.close(ours)
    assert child.wait(60) == 0 and child.stdout.read() == b"logged 3\n"
    assert items(os.path.join(folder, "gone")) == 3


def calls_of(words, folder):
    """What a recording writes to descriptors, syncs and waits for, in order, as strace(1) tells it."""
    log = os.path.join(folder, "log")
    asked = ["strace", "-f", "-o", log, "-e", "trace=write,fdatasync,clock_nanosleep"]
    ran = subprocess.run([*asked, PROGRAM, *words], input=script(), stdout=subprocess.DEVNULL, stderr=subprocess.DEVNULL, cwd=folder, timeout=60)
    assert ran.returncode == 0, ran
    return re.findall(rb"(?m)^\d+ +(write|fdatasync|clock_nanosleep)\((\w+)", content(log))


def try_sure_samples(folder):
    """A recording syncs what it wrote of a sample before it waits for the next one."""
    if not shutil.which("strace") or subprocess.run(["strace", "-o", os.devnull, "true"], stderr=subprocess.DEVNULL).returncode:
        return "skipped, since strace can't be run here"
    unsure, writes, waits = set(), 0, 0
    for call, number in calls_of(["arch", "record", "3", "1048576"], folder):
        if call == b"clock_nanosleep":
            assert writes and not unsure, (waits, writes, unsure)
            writes, waits = 0, waits + 1
        elif call == b"fdatasync":
            unsure.discard(number)
        elif number not in (b"1", b"2"):
            unsure.add(number)
            writes += 1
    assert waits == 2 and items(os.path.join(folder, "arch")) == 3, waits


def try_signals(folder):
    """SIGINT and SIGTERM end a recording and a server as a crash does: what was made sure stands."""
    for number in (signal.SIGINT, signal.SIGTERM):
        base = os.path.join(folder, f"rec{number}")
        child = recording(base, 100)
        time.sleep(1.2)
        child.send_signal(number)
        assert child.wait(60) == -number and child.stdout.read() == b""
        assert run(base, "recover")[0] == 0
        assert 1 <= items(base)
        port = free_port()
        child = serving(port, 1)
        client = connect(port)
        client.sendall(HELLO)
        client.recv(1)
        child.send_signal(number)
        assert child.wait(60) == -number and child.stdout.read() == b""


def main():
    """Runs each function `try_NAME` in a folder of its own, and tells how it ended."""
    global PROGRAM
    PROGRAM = os.path.realpath(sys.argv[1])
    failed = 0
    # (a shell that begins this in the background leaves SIGINT ignored, and a child would too)
    signal.signal(signal.SIGINT, signal.default_int_handler)
    for name, one in list(globals().items()):
        if not name.startswith("try_") or (sys.argv[2:] and name[4:] not in sys.argv[2:]):
            continue
        with tempfile.TemporaryDirectory(prefix="edges-") as folder:
            began = time.monotonic()
            try:
                said = one(folder) or ""
            except (AssertionError, OSError, subprocess.TimeoutExpired) as error:
                failed += 1
                said = f"FAILED: {type(error).__name__} {error}"
            for child in STARTED:
                if child.poll() is None:
                    child.kill()
                    child.wait()
            STARTED.clear()
            print(f"{name[4:]}: {said or 'ok'} ({time.monotonic() - began:.1f} s)", flush=True)
    return 1 if failed else 0


if __name__ == "__main__":
    sys.exit(main())
