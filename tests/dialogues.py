#!/usr/bin/env python3
"""Runs books of dialogues over loopback: clients of `serve`, and servers that `pull` asks, with the built program.

usage: dialogues.py PROGRAM [BOOK ..]               BOOK: those of the folder dialogues beside this script, unless given

A line `# NAME` begins a case, `## ..` is a remark, a line that begins with a space goes on with the one before it. Literals: `hex ..` (`0*60` is 60 zero
bytes), `text ..` (escapes `\\n`, `\\\\`, `\\xHH`), `kept NAME ..` (what lines `keep NAME LITERAL` named), `empty`. The bytes of the other side are `input LITERAL`,
`more LITERAL` behind it, `set OFFSET HEX` in it, and `cut N`, its first N bytes. All that comes must be asked for: `status`, `out` and the words below.

Of `serve`: `serve LITERAL` is the script, `moment SEC USEC` one of the clock, and the input what the client sends.
  session N        in pieces of N bytes
  session N again  two sessions on one seat, since others keep the three other seats busy
  session each     in pieces of each length, always with the same answer
  session torn     over each front of the input; tells how many bytes came instead of the bytes
  out END LEFT     `Closed` and `Torn N`: the program closes once the client has; `BadLength N`: by itself (what N is no client sees). LEFT moments weren't
                   taken. The clock is the system's: a result's stamp must be a time of the session, and stands then as the next moment.

Of `pull`: the input is what the server replies.
  before FILE LITERAL   what a file holds before the first run; FILE is `meta`, `index` or `volume K`
  wrap FILE             stands compressed, too
  slow, pieces N        the server replies byte by byte, or in pieces of N bytes
  fail source N         it breaks the connection instead of replying byte N, once it has heard all that is asked
  fail request N        it breaks the connection beside the reply that makes the program write the request that begins at byte N
  fail sink 1           the output is a full device
  plan CALL 1           no file of the archive can be opened, as Meta is a folder
  run WORDS             a run of the program, whose word `pull` gets its port
  requests LITERAL      what was asked
  turns N               so many samples were begun, and asked for with a second between them
  file FILE LITERAL, file FILE length N, files empty, files same (as before the run)
Where the status is 1 the server has heard of nobody. What differs is printed, and a line for each book; the exit status is 1 where a case differs.
"""
import itertools, os, random, select, signal, socket, struct, subprocess, sys, tempfile, threading, time
from concurrent.futures import ThreadPoolExecutor

HERE = os.path.dirname(os.path.realpath(__file__))
PROGRAM = ""
PAUSE = 0.0002
SETTLED = 0.3
PATIENCE = 20
# Ports that the system gives to nobody by itself.
PORTS = itertools.count(random.randrange(10000, 30000))
ESCAPES = {"n": b"\n", "\\": b"\\"}


class Differs(Exception):
    """Something else came than a line wants."""


# Books.


def hex_bytes(text):
    """The bytes of hexadecimal words: `6d6d*3` is six bytes, and a single 0 a zero byte."""
    out = b""
    for word in text.split():
        digits, _, count = word.partition("*")
        out += bytes.fromhex("00" if digits == "0" else digits) * int(count or 1)
    return out


def text_bytes(text):
    """The bytes of a text with escapes."""
    out, at = b"", 0
    while at < len(text):
        if text[at] != "\\":
            out, at = out + text[at].encode(), at + 1
        elif text[at + 1] == "x":
            out, at = out + bytes.fromhex(text[at + 2:at + 4]), at + 4
        else:
            out, at = out + ESCAPES[text[at + 1]], at + 2
    return out


def rows_of(path):
    """The lines of a book, each with all that goes on with it."""
    rows = []
    with open(path, encoding="utf-8") as book:
        for row in book.read().split("\n"):
            if row.startswith(" ") and rows:
                rows[-1] += row
            elif row:
                rows.append(row)
    return rows


def book_of(path):
    """The cases of a book, each a title with its lines, and what it keeps under names."""
    cases, kept = [], {}
    for row in rows_of(path):
        word, _, rest = row.partition(" ")
        if word == "#":
            cases.append((rest, []))
        elif word == "keep":
            name, _, value = rest.partition(" ")
            assert name not in kept, "kept twice: " + name
            kept[name] = literal(kept, value)
        elif word != "##":
            cases[-1][1].append(row)
    return cases, kept


def literal(kept, text):
    """The bytes of a literal."""
    form, _, rest = text.partition(" ")
    if form == "kept":
        return b"".join(kept[name] for name in rest.split())
    return {"hex": hex_bytes, "text": text_bytes, "empty": lambda _: b""}[form](rest)


def file_and_rest(text):
    """A file's name, `meta`, `index` or `volume K`, and what stands behind it."""
    words = text.split(" ", 2)
    count = 2 if words[0] == "volume" else 1
    return " ".join(words[:count]), text.split(" ", count)[count] if len(text.split(" ")) > count else ""


def file_at(folder, name):
    """Where an archive's file lies."""
    return os.path.join(folder, "a." + name.removeprefix("volume "))


class Answer:
    """What came, in parts with names, of which each has to be asked for."""

    def __init__(self):
        self.parts, self.unseen = {}, set()

    def put(self, name, came):
        """Something came."""
        self.parts[name] = came
        self.unseen.add(name)

    def ask(self, name, wanted):
        """The front of what is left of a part has to be this, and a status all of it."""
        left = self.parts.get(name, b"")
        same(wanted, left if name == "status" else left[:len(wanted)])
        self.parts[name] = left[len(wanted):]
        self.unseen.discard(name)

    def end(self):
        """Nothing is left."""
        for name, left in self.parts.items():
            if left or name in self.unseen:
                raise Differs(f"no line asks for this of {name}: {shown(left)}")


def shown(came):
    """Some bytes, to be read."""
    return f"{len(came)} bytes {came[:100]!r}"


def same(wanted, came):
    """Compares bytes."""
    if wanted != came:
        at = next((at for at, pair in enumerate(zip(wanted, came)) if pair[0] != pair[1]), min(len(wanted), len(came)))
        raise Differs(f"from byte {at} on wanted {shown(wanted[at:])}, came {shown(came[at:])}")


class Case:
    """One case: what its lines prepare, and what came of the last call."""

    def __init__(self, lines, kept, folder):
        self.lines, self.kept, self.folder = lines, kept, folder
        self.input, self.answer = b"", Answer()

    def literal(self, text):
        """The bytes of a literal of the book."""
        return literal(self.kept, text)

    def run(self):
        """Does line by line, and gives why the case differs, if it does."""
        line = "at its end"
        try:
            for at, line in enumerate(self.lines):
                self.step(at, *line.partition(" ")[::2])
            line = "at its end"
            self.answer.end()
        except (Differs, OSError, subprocess.TimeoutExpired, LookupError, ValueError) as why:
            return f"{line[:150]}: {type(why).__name__}: {why}"
        finally:
            self.end()
        return None

    def end(self):
        """Ends what the case began."""

    def step(self, at, word, rest):
        """Does a line."""
        if word in ("input", "more"):
            self.input = (self.input if word == "more" else b"") + self.literal(rest)
        elif word == "set":
            offset, _, digits = rest.partition(" ")
            new = hex_bytes(digits)
            self.input = self.input[:int(offset)] + new + self.input[int(offset) + len(new):]
        elif word == "cut":
            self.input = self.input[:int(rest)]
        elif word == "out":
            self.ask_out(rest)
        else:
            self.act(at, word, rest)

    def ask_out(self, rest):
        """A front of the output: a literal, or a text with a line feed behind it."""
        is_literal = rest.split(" ")[0] in ("hex", "text", "kept", "empty")
        self.answer.ask("out", self.literal(rest) if is_literal else text_bytes(rest) + b"\n")

    def act(self, at, word, rest):
        """Does a line that other cases don't have."""
        raise Differs("no such line")


# Connections.


def send_pieces(link, content, most):
    """Sends bytes in pieces, each by itself. False where the other side is gone."""
    try:
        for at in range(0, len(content), most):
            link.sendall(content[at:at + most])
            if at + most < len(content):
                time.sleep(PAUSE)
    except (BrokenPipeError, ConnectionResetError):
        return False
    return True


def free_port():
    """A port of 127.0.0.1 at which nobody listens."""
    for port in PORTS:
        with socket.socket() as tried:
            try:
                tried.bind(("127.0.0.1", port))
            except OSError:
                continue
            return port


def take(link):
    """Some bytes that came; none at the end."""
    try:
        return link.recv(65536)
    except ConnectionResetError:
        return b""


def take_all(link):
    """All bytes that come until the end."""
    out = b""
    while more := take(link):
        out += more
    return out


def take_some(link, count):
    """At least so many bytes, unless the end comes first."""
    out = b""
    while len(out) < count and (more := take(link)):
        out += more
    return out


def say_end(link):
    """Sends nothing further."""
    try:
        link.shutdown(socket.SHUT_WR)
    except OSError:
        pass  # (the other side has broken the connection)


def break_off(link):
    """Breaks a connection: the other side can read what came, and then fails."""
    link.setsockopt(socket.SOL_SOCKET, socket.SO_LINGER, struct.pack("ii", 1, 0))
    link.close()


def prompt(link):
    """Makes a connection send each piece at once, and wait for a while at most."""
    link.setsockopt(socket.IPPROTO_TCP, socket.TCP_NODELAY, 1)
    link.settimeout(PATIENCE)
    return link


def pdus_of(content):
    """The PDUs of a stream by their length words, as far as these are whole."""
    while len(content) >= 4:
        length = max(int.from_bytes(content[:4], "big"), 4)
        yield content[:length]
        content = content[length:]


# Sessions with `serve`.


class Session(Case):
    """A case of a session that the program serves."""

    def __init__(self, lines, kept, folder):
        super().__init__(lines, kept, folder)
        self.script, self.moments = b"", []

    def act(self, at, word, rest):
        """Prepares a session, or holds it."""
        if word == "serve":
            self.script = self.literal(rest)
        elif word == "moment":
            self.moments.append(struct.pack(">II", *map(int, rest.split())))
        elif word == "session":
            self.answer.end()
            self.answer = Answer()
            self.answer.put("out", self.told(rest, self.wanted_at(at)))
        else:
            super().act(at, word, rest)

    def wanted_at(self, at):
        """The bytes that the lines behind a session's want of its output, its end's line left out."""
        rests = [line.partition(" ")[2] for line in self.lines[at + 1:] if line.startswith("out ")]
        return b"".join(self.literal(rest) for rest in rests if rest.split(" ")[0] in ("hex", "text", "kept", "empty"))

    def told(self, rest, wanted):
        """What a line `session ..` tells."""
        ends = [line[4:] for line in self.lines if line.startswith(("out Closed", "out Torn", "out BadLength"))]
        if rest == "each":
            tolds = self.serve([(self.input, most, len(wanted), ends[0]) for most in range(1, max(len(self.input), 1) + 1)])
            for most, told in enumerate(tolds, 1):
                if told != tolds[0]:
                    raise Differs(f"in pieces of {most} came {shown(told)}")
            return tolds[0]
        if rest == "torn":
            fronts = [(self.input[:count], 5, 0, ends[count]) for count in range(len(self.input))]
            tolds = [told.partition(b"\n") for told in self.serve(fronts)]
            return b"".join(b"%s %d\n" % (line, len(came)) for line, _, came in tolds)
        words = rest.split(" ")
        one = (self.input, int(words[0]), len(wanted) // len(ends), ends[0])
        return b"".join(self.serve([one] * len(ends), 3 if words[1:] == ["again"] else 0))

    def serve(self, sessions, busy=0):
        """Serves sessions one after another, while so many other seats are busy, and gives what each tells."""
        child, port = self.listening(len(sessions) + busy)
        try:
            others = [self.connected(port) for _ in range(busy)]
            for other in others:
                take_some(other, 16)
            tolds = [self.session(port, *session) for session in sessions]
            for other in others:
                other.close()
            same(b"served %d\n" % (len(sessions) + busy), child.communicate(timeout=PATIENCE)[0])
            same(b"0", b"%d" % child.returncode)
            return tolds
        finally:
            child.kill()
            child.wait()

    def listening(self, count):
        """The program that serves so many sessions, and its port."""
        port = free_port()
        path = os.path.join(self.folder, "script")
        with open(path, "wb") as it:
            it.write(self.script)
        with open(path, "rb") as it:
            child = subprocess.Popen([PROGRAM, os.path.join(self.folder, "a"), "serve", str(port), str(count)], stdin=it, stdout=subprocess.PIPE)
        return child, port

    def connected(self, port):
        """A connection to the program, once it listens."""
        end = time.monotonic() + PATIENCE
        while True:
            try:
                return prompt(socket.create_connection(("127.0.0.1", port)))
            except ConnectionRefusedError:
                if time.monotonic() > end:
                    raise
                time.sleep(0.005)

    def session(self, port, content, most, wanted, end):
        """Holds one session: how it ended, and what came."""
        with self.connected(port) as link:
            begun = time.time()
            sent = send_pieces(link, content, most)
            came = take_some(link, wanted)
            if end.startswith("BadLength"):
                came += take_all(link)
                word = end.rpartition(" ")[0]
            else:
                is_over = not sent or select.select([link], [], [], 0.001)[0] and not link.recv(1, socket.MSG_PEEK)
                word = "Ended" if is_over else " ".join(end.split(" ")[:2 if end.startswith("Torn") else 1])
                say_end(link)
                came += take_all(link)
        stamped, left = self.stamp(came, begun, time.time())
        return b"%s %d\n" % (word.encode(), left) + stamped

    def stamp(self, came, begun, ended):
        """Puts the moments of the case for the times of the results, and counts the moments that are left."""
        out, moments = b"", list(self.moments)
        for pdu in pdus_of(came):
            if pdu[4:8] == b"\x00\x00\x70\x01" and len(pdu) >= 20 and moments:
                sec, usec = struct.unpack(">II", pdu[12:20])
                if not (begun - 0.001 <= sec + usec / 1e6 <= ended + 0.001 and usec < 1000000):
                    raise Differs(f"a result has the time {sec} {usec}, and not one from {begun} to {ended}")
                pdu = pdu[:12] + moments.pop(0) + pdu[20:]
            out += pdu
        return out + came[len(out):], len(moments)


# Servers for `pull`.


class Server(threading.Thread):
    """A server that the program asks: it replies what the case has, and keeps what it was asked."""

    def __init__(self, case, wanted):
        super().__init__(daemon=True)
        self.listener = socket.create_server(("127.0.0.1", 0))
        self.port = self.listener.getsockname()[1]
        self.case, self.faults, self.most, self.wanted = case, dict(case.faults), case.most, wanted
        self.child, self.told, self.asked, self.heard, self.fetches = None, threading.Event(), b"", False, []

    def begin(self, child):
        """The program that will ask was started."""
        self.child = child
        self.told.set()

    def run(self):
        """Hears the one connection that comes, if one does."""
        try:
            link = prompt(self.listener.accept()[0])
        except OSError:
            return
        self.heard = True
        self.told.wait()
        try:
            self.reply(link)
        except OSError:
            pass
        link.close()

    def reply(self, link):
        """Replies the input, whole or as far as no fault comes, and hears the requests."""
        if "source" in self.faults:
            send_pieces(link, self.case.input[:self.faults["source"] - 1], self.most)
            self.hear(link, len(self.wanted))
            time.sleep(SETTLED)  # (a connection that breaks at once isn't one)
            break_off(link)
        elif "request" in self.faults:
            self.break_at_request(link)
        else:
            if send_pieces(link, self.case.input, self.most):
                say_end(link)
            self.hear(link)

    def hear(self, link, count=None):
        """Hears so many bytes of requests, or all."""
        while (count is None or len(self.asked) < count) and (more := take(link)):
            self.asked += more
            fetches = sum(pdu[4:8] == b"\x00\x00\x70\x03" for pdu in pdus_of(self.asked))
            self.fetches += [time.monotonic()] * (fetches - len(self.fetches))

    def break_at_request(self, link):
        """Breaks the connection beside the reply behind which the program writes a request: it is stopped meanwhile."""
        replies = list(pdus_of(self.case.input))
        before = self.faults["request"] - 1
        same(b"%d" % before, b"%d" % len(self.wanted))
        # (the greeting lets it write two requests, and each further reply one)
        count = max(len(list(pdus_of(self.wanted))) - 1, 0)
        send_pieces(link, b"".join(replies[:count]), self.most)
        self.hear(link, before)
        time.sleep(0 if before else SETTLED)
        self.child.send_signal(signal.SIGSTOP)
        os.waitid(os.P_PID, self.child.pid, os.WSTOPPED | os.WNOWAIT)
        link.sendall(replies[count])
        break_off(link)
        self.child.send_signal(signal.SIGCONT)

    def end(self):
        """Hears no further connection, and waits until what was asked is heard."""
        try:
            self.listener.shutdown(socket.SHUT_RDWR)
        except OSError:
            pass
        self.join()
        self.listener.close()


class Pull(Case):
    """A case of a server that the program asks for samples."""

    def __init__(self, lines, kept, folder):
        super().__init__(lines, kept, folder)
        self.faults, self.most, self.output, self.before, self.server = {}, 1 << 30, subprocess.PIPE, {}, None

    def act(self, at, word, rest):
        """Prepares a run, makes it, or asks what came of it."""
        acts = {"before": self.lay, "wrap": self.wrap, "fail": self.fail, "plan": self.plan, "run": self.run_words}
        asks = {"status": self.ask_status, "turns": self.ask_turns, "file": self.ask_file, "files": self.ask_files}
        if word in ("slow", "pieces"):
            self.most = int(rest or 1)
        elif word == "run":
            self.run_words(rest, self.requests_behind(at))
        elif word == "requests":
            self.answer.ask(word, self.literal(rest))
        elif word in acts or word in asks:
            (acts | asks)[word](rest)
        else:
            super().act(at, word, rest)

    def lay(self, rest):
        """`before FILE LITERAL`"""
        name, value = file_and_rest(rest)
        with open(file_at(self.folder, name), "wb") as it:
            it.write(self.literal(value))

    def wrap(self, name):
        """`wrap FILE`"""
        with open(file_at(self.folder, name) + ".xz", "wb") as it:
            it.write(b"x")

    def fail(self, rest):
        """`fail source N`, `fail request N` and `fail sink 1`"""
        what, _, number = rest.partition(" ")
        if what == "sink" and number == "1":
            self.output = open("/dev/full", "wb")
        elif what in ("source", "request"):
            self.faults[what] = int(number)
        else:
            raise Differs("no such fault")

    def plan(self, rest):
        """`plan CALL 1`: Meta is a folder."""
        if not rest.endswith(" 1"):
            raise Differs("no such fault")
        os.makedirs(file_at(self.folder, "meta"), exist_ok=True)

    def files(self):
        """The archive's files that aren't empty, under their names."""
        found = {}
        for name in os.listdir(self.folder):
            path, end = os.path.join(self.folder, name), name.removeprefix("a.")
            if os.path.isfile(path) and os.path.getsize(path) and not end.endswith(".xz"):
                with open(path, "rb") as it:
                    found["volume " + end if end.isdigit() else end] = it.read()
        return found

    def requests_behind(self, at):
        """The bytes that the lines behind a run want of its requests."""
        wanted = b""
        for line in self.lines[at + 1:]:
            word, _, rest = line.partition(" ")
            if word == "run":
                break
            wanted += self.literal(rest) if word == "requests" else b""
        return wanted

    def run_words(self, rest, wanted):
        """`run WORDS`: the program, beside a server that is asked."""
        self.answer.end()
        self.answer, self.before = Answer(), self.files()
        self.server = Server(self, wanted)
        self.server.start()
        words = rest.split(" ") if rest else []
        if words[:1] == ["pull"]:
            words.insert(1, str(self.server.port))
        child = subprocess.Popen([PROGRAM, os.path.join(self.folder, "a"), *words], stdin=subprocess.DEVNULL, stdout=self.output)
        self.server.begin(child)
        try:
            out = child.communicate(timeout=PATIENCE)[0] or b""
        finally:
            child.kill()
            self.server.end()
        self.put_all(child.returncode, out)
        self.faults, self.most, self.output = {}, 1 << 30, subprocess.PIPE

    def put_all(self, status, out):
        """What came of a run, to be asked for."""
        self.answer.put("status", b"%d" % status)
        told = {"out": out, "requests": self.server.asked, "turns": b"turns" if self.server.fetches else b""}
        now = self.files()
        for name in now.keys() | self.before.keys():
            if now.get(name) != self.before.get(name):
                told[name] = now.get(name, b"")
        for name, came in told.items():
            if came or name in self.before:
                self.answer.put(name, came)

    def ask_status(self, rest):
        """`status N`: where it is 1, nobody has come to the server."""
        self.answer.ask("status", rest.encode())
        if rest == "1" and self.server.heard:
            raise Differs("the server was asked")

    def ask_turns(self, rest):
        """`turns N`: a request for each sample, but the last where it couldn't be written, and a second between them (less as it is heard)."""
        self.answer.put("turns", b"")
        self.answer.ask("turns", b"")
        fetches, is_broken = self.server.fetches, "request" in self.server.faults
        if int(rest) - len(fetches) not in ((0, 1) if is_broken else (0,)):
            raise Differs(f"{len(fetches)} samples were asked for")
        for one, next_one in zip(fetches, fetches[1:]):
            if next_one - one < 0.5:
                raise Differs(f"a sample was asked for {next_one - one} seconds behind the one before it")

    def ask_file(self, rest):
        """`file FILE LITERAL` and `file FILE length N`"""
        name, value = file_and_rest(rest)
        came = self.files().get(name, b"")
        self.answer.parts.pop(name, None)
        if value.startswith("length "):
            same(value[7:].encode(), b"%d" % len(came))
        else:
            same(self.literal(value), came)

    def ask_files(self, form):
        """`files empty` and `files same`"""
        now, wanted = self.files(), {"empty": {}, "same": self.before}[form]
        for name in now.keys() | wanted.keys():
            same(wanted.get(name, b""), now.get(name, b""))

    def end(self):
        """Closes what was opened."""
        if self.output != subprocess.PIPE:
            self.output.close()


# Runs of books.


def run_case(case, kept):
    """Runs a case in a folder of its own, and gives why it differs, if it does."""
    kind = Session if any(line.startswith("serve ") for line in case[1]) else Pull
    with tempfile.TemporaryDirectory() as folder:
        return kind(case[1], kept, folder).run()


def run_book(path):
    """Runs the cases of a book beside each other, prints those that differ, and gives how many there are."""
    cases, kept = book_of(path)
    with ThreadPoolExecutor(24) as pool:
        whys = list(pool.map(lambda case: run_case(case, kept), cases))
    differ = [(title, why) for (title, _), why in zip(cases, whys) if why]
    for title, why in differ:
        print(f"{title}\n  {why}", flush=True)
    print(f"{os.path.basename(path)}: {len(cases)} cases, {len(differ)} differ", flush=True)
    return len(differ)


def main():
    """Runs the books that the words name."""
    global PROGRAM
    if len(sys.argv) < 2:
        sys.exit(__doc__)
    PROGRAM = os.path.realpath(sys.argv[1])
    folder = os.path.join(HERE, "dialogues")
    books = sys.argv[2:] or [os.path.join(folder, name) for name in sorted(os.listdir(folder))]
    sys.exit(1 if sum([run_book(book) for book in books]) else 0)


if __name__ == "__main__":
    main()
