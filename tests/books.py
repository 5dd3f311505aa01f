#!/usr/bin/env python3
"""Runs books of cases by the built program, over real files.

usage: books.py PROGRAM [BOOK..]                    BOOK: each of books/*.cases beside this script, unless given

A book is a text. A line `# ..` begins a case and tells what it shows, `## ..` is a comment, and a line that begins with a space goes on with the line
before it. Bytes stand as `hex ..` (`6d6d` is two bytes, `0*60` is 60 zero bytes), `text ..` (with `\\n`, `\\\\` and `\\xHH`), `line ..` (a text with a line
feed behind it), `kept NAME ..`, `beside FILE` (a file beside the book) or `empty`; `keep NAME LITERAL` gives bytes a name. `came PART` is what came.

What a case has: `before FILE LITERAL` (FILE: `meta`, `index` or `volume K`), `wrap FILE` (it stands compressed, too), both with `first` or `second`
before them for a source of `extract`; `source K` (what stands becomes that source's); `disk append FILE LITERAL` and `disk cut FILE N` between runs;
`input`, `more` and `line` behind it, `set OFFSET HEX` and `cut N` in it; `fail source 1` and `fail sink 1`: the next run can't read its input, which is
a folder then, or can't write.
What is run: `run WORDS`, `extract WORDS` and `summary WORDS`; `export WORDS` of the first source; `call WORD ..`, the words behind the first as they
stand. Parts that a command shows: `image` is the input by `mmv-dump`, `script` by `replay`; `label read` and `meta read`, where they are refused, the
input as Meta's label and behind it, by `info`. `recovered cuts FILE NAME` recovers what stands with one file cut to each length.
What must come of it: `status N`, `out LITERAL` or `out TEXT` line by line, `file FILE LITERAL` or `file FILE length N`, and `files empty` or `files same`.
All that comes is to be asked for, and a source may not change.

Prints each case that differs and a line for each book, and at the end the total; the exit status is 1 where one differs.
"""
import concurrent.futures
import glob
import os
import resource
import shutil
import subprocess
import sys
import tempfile

LITERALS = ("hex", "text", "line", "kept", "beside", "empty")
# Where the files of a case stand, if there is such a folder: on a disk each sync of a run would wait.
MEMORY = "/dev/shm"
# The label of Meta in the books.
LABEL = bytes.fromhex("0000008450052602000000010000006400000000ffffffff6c6f63616c686f7374") + bytes(55) + b"UTC" + bytes(37) + bytes.fromhex("00000084")



class Differs(Exception):
    """A line doesn't hold, and why."""


def differ_unless(holds, why):
    """Ends the case where something doesn't hold."""
    if not holds:
        raise Differs(why)


def rows_of(text):
    """The lines of a book, each with those that go on with it."""
    rows = []
    for row in text.split("\n"):
        if row.startswith(" ") and rows:
            rows[-1] += row
        elif row:
            rows.append(row)
    return rows


def read_hex(text):
    """The bytes of hexadecimal words, as `6d6d`, `0*60` or `6d6d*3`."""
    parts = []
    for word in text.split():
        digits, _, count = word.partition("*")
        unit = bytes(1) if digits == "0" else bytes.fromhex(digits)
        parts.append(unit * int(count or 1))
    return b"".join(parts)


def read_text(text):
    """The bytes of a text with escapes."""
    raw, out, at = text.encode("latin-1"), bytearray(), 0
    while at < len(raw):
        if raw[at:at + 1] != b"\\":
            out += raw[at:at + 1]
            at += 1
        elif raw[at + 1:at + 2] == b"x":
            out += bytes.fromhex(raw[at + 2:at + 4].decode())
            at += 4
        else:
            out += {b"n": b"\n", b"\\": b"\\"}[raw[at + 1:at + 2]]
            at += 2
    return bytes(out)


def split_file(words):
    """A file's suffix, as `meta` or `0`, and what stands behind its name."""
    name, _, rest = words.partition(" ")
    if name == "volume":
        name, _, rest = rest.partition(" ")
    return name, rest


def shown(data):
    """The front of bytes as a text."""
    return repr(data[:100]).lstrip("b") + (" .. %d bytes" % len(data) if len(data) > 100 else "")


class Kept:
    """Bytes under names, and the folder of the book for the files beside it."""

    def __init__(self, folder):
        self.folder = folder
        self.named = {}

    def keep(self, name, data):
        """Gives bytes a name that has none yet."""
        differ_unless(name not in self.named, "%s is kept twice" % name)
        self.named[name] = data

    def read(self, literal):
        """The bytes of a literal."""
        form, _, rest = literal.partition(" ")
        if form == "kept":
            return b"".join(self.named[name] for name in rest.split())
        if form == "beside":
            with open(os.path.join(self.folder, rest), "rb") as file:
                return file.read()
        differ_unless(form in LITERALS, "no literal: " + literal)
        return {"hex": read_hex, "text": read_text, "line": lambda text: read_text(text) + b"\n", "empty": lambda _: b""}[form](rest)


def put_file(folder, name, data):
    """Lays a file of an archive."""
    with open(os.path.join(folder, "a." + name), "wb") as file:
        file.write(data)


def files_in(folder):
    """The files of an archive that hold bytes, without those that stand compressed."""
    found = {}
    for name in os.listdir(folder):
        if not name.endswith(".xz"):
            with open(os.path.join(folder, name), "rb") as file:
                data = file.read()
            if data:
                found[name[2:]] = data
    return found


class Answer:
    """What came of the last run, and what no line has asked for yet."""

    def __init__(self):
        self.status = None
        self.out = b""
        self.changed = set()
        self.compared = False

    def renew(self):
        """Ends the case where something that came isn't asked for."""
        differ_unless(self.status is None, "no line asks for the status %s" % self.status)
        differ_unless(not self.out, "no line asks for the output " + shown(self.out))
        differ_unless(not self.changed, "no line asks for the changed files " + " ".join(sorted(self.changed)))

    def compare(self, wanted, came):
        """Ends the case where two differ."""
        self.compared = True
        if wanted != came:
            at = len(os.path.commonprefix([wanted, came]))
            raise Differs("from %d on\n   wanted %s\n   came   %s" % (at, shown(wanted[at:]), shown(came[at:])))


class Case:
    """A case that is run: its folders, its input, and what came."""

    def __init__(self, program, kept, top):
        self.program = program
        self.kept = kept
        self.folders = {name: os.path.join(top, name) for name in ("out", "first", "second")}
        for folder in self.folders.values():
            os.mkdir(folder)
        self.input = b""
        self.failing = set()
        self.before = {}
        self.answer = Answer()

    def step(self, row):
        """Does a line."""
        word, _, rest = row.partition(" ")
        act = ACTS.get(word)
        differ_unless(act is not None, "no such line")
        act(self, rest)

    def end(self):
        """Looks whether all that came was asked for, and something was."""
        self.answer.renew()
        differ_unless(self.answer.compared, "nothing is compared")

    # What the case has.

    def keep(self, rest):
        """`keep NAME LITERAL` and `keep NAME came PART`"""
        name, _, literal = rest.partition(" ")
        form, _, part = literal.partition(" ")
        if form != "came":
            return self.kept.keep(name, self.kept.read(literal))
        came = self.answer.out if part == "out" else files_in(self.folders["out"]).get(split_file(part)[0], b"")
        return self.kept.keep(name, came)

    def lay(self, rest, where="out"):
        """`before FILE LITERAL`"""
        name, literal = split_file(rest)
        put_file(self.folders[where], name, self.kept.read(literal))

    def wrap(self, rest, where="out"):
        """`wrap FILE`"""
        put_file(self.folders[where], split_file(rest)[0] + ".xz", b"x")

    def lay_source(self, where, rest):
        """`before FILE LITERAL` or `wrap FILE` of a source."""
        word, _, rest = rest.partition(" ")
        {"before": self.lay, "wrap": self.wrap}[word](rest, where)

    def become_source(self, rest):
        """`source K`: what stands becomes that source's."""
        where = self.folders[{"1": "first", "2": "second"}[rest]]
        shutil.rmtree(where)
        os.rename(self.folders["out"], where)
        os.mkdir(self.folders["out"])

    def change(self, rest):
        """`disk append FILE LITERAL` and `disk cut FILE N`: between runs, by no program."""
        word, _, rest = rest.partition(" ")
        name, rest = split_file(rest)
        path = os.path.join(self.folders["out"], "a." + name)
        differ_unless(word in ("append", "cut"), "no such change")
        self.answer.renew()
        with open(path, "ab") as file:
            file.truncate(int(rest)) if word == "cut" else file.write(self.kept.read(rest))
        self.answer.out = b"done\n"

    def restart(self, rest):
        """`restart`: real files stay as they are."""
        differ_unless(not rest, "no such restart")

    def begin_input(self, rest):
        """`input LITERAL`"""
        self.input = self.kept.read(rest)

    def add_input(self, rest):
        """`more LITERAL`"""
        self.input += self.kept.read(rest)

    def add_line(self, rest):
        """`line TEXT`"""
        self.input += read_text(rest) + b"\n"

    def set_input(self, rest):
        """`set OFFSET HEX`"""
        offset, _, digits = rest.partition(" ")
        offset, data = int(offset), read_hex(digits)
        differ_unless(data and offset + len(data) <= len(self.input), "it reaches behind the end of the input")
        self.input = self.input[:offset] + data + self.input[offset + len(data):]

    def cut_input(self, rest):
        """`cut N`"""
        differ_unless(int(rest) < len(self.input), "the input isn't as long")
        self.input = self.input[:int(rest)]

    def fail(self, rest):
        """`fail source 1` and `fail sink 1`"""
        differ_unless(rest in ("source 1", "sink 1"), "no such failure")
        self.failing.add(rest[:-2])

    # What is run.

    def call(self, words, base="out"):
        """The status and the output of the program with these words behind an archive's base."""
        command = [self.program, os.path.join(self.folders[base], "a")] + words
        given = {"stdin": os.open(self.folders["out"], os.O_RDONLY)} if "source" in self.failing else {"input": self.input}
        sink = open("/dev/full", "wb") if "sink" in self.failing else subprocess.PIPE
        try:
            done = subprocess.run(command, stdout=sink, stderr=subprocess.PIPE, **given)
        finally:
            if "stdin" in given:
                os.close(given["stdin"])
            if "sink" in self.failing:
                sink.close()
        self.failing.clear()
        return done.returncode, done.stdout or b""

    def run(self, words, base="out"):
        """Runs the program, and takes what came: the status, the output and the files that changed."""
        self.answer.renew()
        real = {name: files_in(folder) for name, folder in self.folders.items()}
        self.answer.status, self.answer.out = self.call(words, base)
        now = {name: files_in(folder) for name, folder in self.folders.items()}
        differ_unless(all(now[name] == real[name] for name in ("first", "second")), "a source changed")
        self.before = real["out"]
        self.answer.changed = {name for name in {**real["out"], **now["out"]} if real["out"].get(name) != now["out"].get(name)}

    def run_words(self, rest):
        """`run WORDS`"""
        self.run(rest.split(" ") if rest else [])

    def extract(self, rest):
        """`extract WORDS`: both sources, and the words behind them."""
        self.run(["extract", os.path.join(self.folders["first"], "a"), os.path.join(self.folders["second"], "a")] + rest.split(" ") * bool(rest))

    def summary(self, rest):
        """`summary WORDS`"""
        self.run(["summary"] + rest.split(" ") * bool(rest))

    def export(self, rest):
        """`export WORDS`: the first source to the output."""
        self.run(["export", os.path.join(self.folders["out"], "a")] + rest.split(" ") * bool(rest), base="first")

    def call_words(self, rest):
        """`call WORD ..`: the words behind the first, as they stand."""
        _, _, words = rest.partition(" ")
        word, _, behind = words.partition(" ")
        self.extract(behind) if word == "extract" else self.run_words(words)

    # Parts that a command shows.

    def show(self, words, told):
        """Runs words over the input, and takes as output what the status and the output tell of the part."""
        self.answer.renew()
        self.answer.out = told(*self.call(words))
        differ_unless(not files_in(self.folders["out"]), "files changed")

    def image(self, rest):
        """`image`: the input, by `mmv-dump`."""
        differ_unless(not rest, "no command shows it")
        self.show(["mmv-dump"], lambda status, out: out if status else b"read\n")

    def script(self, rest):
        """`script`: the input where it is refused, by `replay`."""
        differ_unless(not rest, "no command shows it")
        self.show(["replay", "1000000"], lambda status, out: out if status == 2 else b"read\n")

    def refused(self, content, word, before):
        """What `info` tells where Meta holds this and is refused, as a word and an offset behind so many bytes."""
        self.answer.renew()
        self.lay_all({"meta": content})
        status, out = self.call(["info"])
        start = b"not archive meta "
        differ_unless(status == 6 and out.startswith(start), "it isn't refused")
        self.answer.out = b"%s %d\n" % (word, int(out[len(start):]) - before)

    def label(self, rest):
        """`label read`: the input as Meta's label, where it is refused; a volume's number becomes Meta's first."""
        differ_unless(rest == "read", "no command shows it")
        is_volume = self.input[20:24] == bytes(4)
        self.refused(self.input[:20] + LABEL[20:24] + self.input[24:] if is_volume else self.input, b"Label", 0)

    def meta(self, rest):
        """`meta read`: the input behind Meta's label, where it is refused."""
        differ_unless(rest == "read", "no command shows it")
        self.refused(LABEL + self.input, b"Record", len(LABEL))

    def recovered(self, rest):
        """`recovered cuts FILE NAME`: recovers each image of one cut file, and counts how each ends."""
        form, _, rest = rest.partition(" ")
        name, kept = split_file(rest)
        differ_unless(form == "cuts", "no command shows it")
        self.answer.renew()
        stands, wanted = files_in(self.folders["out"]), self.kept.named[kept]
        images = [{**stands, name: stands.get(name, b"")[:end]} for end in range(len(stands.get(name, b"")) + 1)]
        ends = [self.recover(image) for image in images]
        self.lay_all(stands)
        told = sum(out == wanted for out, _ in ends)
        same = sum({**stands, "index": b""} == {**left, "index": b""} for _, left in ends)
        empty = sum(not left for _, left in ends)
        self.answer.out = b"images %d, %d with %s, %d the same, %d empty\n" % (len(ends), told, kept.encode(), same, empty)

    def lay_all(self, files):
        """Makes the output's folder hold these files alone."""
        shutil.rmtree(self.folders["out"])
        os.mkdir(self.folders["out"])
        for name, data in files.items():
            put_file(self.folders["out"], name, data)

    def recover(self, files):
        """What `recover` of these files writes, and the files that it leaves."""
        self.lay_all(files)
        _, out = self.call(["recover"])
        return out, files_in(self.folders["out"])

    # What must come of it.

    def ask_status(self, rest):
        """`status N`"""
        self.answer.compare(rest, str(self.answer.status))
        self.answer.status = None

    def ask_out(self, rest):
        """`out LITERAL` or `out TEXT`: the front of what is left of the output."""
        wanted = self.kept.read(rest) if rest.split(" ")[0] in LITERALS else read_text(rest) + b"\n"
        self.answer.compare(wanted, self.answer.out[:len(wanted)])
        self.answer.out = self.answer.out[len(wanted):]

    def ask_file(self, rest):
        """`file FILE LITERAL` or `file FILE length N`"""
        name, literal = split_file(rest)
        came = files_in(self.folders["out"]).get(name, b"")
        self.answer.changed.discard(name)
        if literal.startswith("length "):
            self.answer.compare(literal, "length %d" % len(came))
        else:
            self.answer.compare(self.kept.read(literal), came)

    def ask_files(self, rest):
        """`files empty` or `files same`: all hold nothing, or what they held before the last run."""
        wanted, now = {"empty": {}, "same": self.before}[rest], files_in(self.folders["out"])
        for name in sorted({**wanted, **now}):
            self.answer.compare(wanted.get(name, b""), now.get(name, b""))
        self.answer.compared = True


ACTS = {
    "keep": Case.keep, "before": Case.lay, "wrap": Case.wrap, "source": Case.become_source, "disk": Case.change, "restart": Case.restart,
    "first": lambda case, rest: case.lay_source("first", rest), "second": lambda case, rest: case.lay_source("second", rest),
    "input": Case.begin_input, "more": Case.add_input, "line": Case.add_line, "set": Case.set_input, "cut": Case.cut_input, "fail": Case.fail,
    "run": Case.run_words, "extract": Case.extract, "summary": Case.summary, "export": Case.export, "call": Case.call_words,
    "image": Case.image, "script": Case.script, "label": Case.label, "meta": Case.meta, "recovered": Case.recovered,
    "status": Case.ask_status, "out": Case.ask_out, "file": Case.ask_file, "files": Case.ask_files,
}


def cases_of(rows):
    """The rows before the first case, and each case with its rows."""
    front, cases = [], []
    for row in rows:
        if row.startswith("# "):
            cases.append((row[2:], []))
        elif not row.startswith("## "):
            (cases[-1][1] if cases else front).append(row)
    return front, cases


def run_case(program, kept, rows):
    """Why a case differs, or nothing. What it keeps stays for the next ones."""
    top = tempfile.mkdtemp(dir=MEMORY if os.access(MEMORY, os.W_OK) else None)
    try:
        case = Case(program, kept, top)
        place, differs = "", None
        for row in rows:
            place = row[:100] + ": "
            if differs is None or row.startswith("keep "):
                differs = tried(case, place, row) or differs
        return differs or tried(case, "", None)
    finally:
        shutil.rmtree(top)


def tried(case, place, row):
    """Does a row of a case, or ends it where there is none; why it differs, or nothing."""
    try:
        case.end() if row is None else case.step(row)
    except Differs as differs:
        return place + str(differs)
    except (KeyError, ValueError, OSError) as fault:
        return place + repr(fault)
    return None


def run_book(program, path):
    """Runs a book, and answers how many cases it has and what is told of each that differs."""
    with open(path, encoding="latin-1") as file:
        front, cases = cases_of(rows_of(file.read()))
    kept = Kept(os.path.dirname(path))
    for row in front:
        _, name, literal = row.split(" ", 2)
        kept.keep(name, kept.read(literal))
    ends = [(title, run_case(program, kept, rows)) for title, rows in cases]
    return len(cases), ["# %s\n   %s" % (title, why) for title, why in ends if why is not None]


def run_books(program, paths):
    """Runs books, as many at a time as there are processors, and answers how many cases they have and how many of them differ."""
    cases, differ = 0, 0
    with concurrent.futures.ThreadPoolExecutor(os.cpu_count()) as workers:
        for path, (count, told) in zip(paths, workers.map(lambda path: run_book(program, path), paths)):
            cases, differ = cases + count, differ + len(told)
            for why in told:
                print(why)
            print("%s: %d cases, %d differ" % (os.path.basename(path), count, len(told)), flush=True)
    return cases, differ


def main():
    """Runs the books."""
    if len(sys.argv) < 2:
        sys.exit(__doc__)
    beside = os.path.dirname(os.path.realpath(__file__))
    books = sys.argv[2:] or sorted(glob.glob(os.path.join(beside, "books", "*.cases")))
    cases, differ = run_books(os.path.realpath(sys.argv[1]), books)
    spent = sum(sum(resource.getrusage(who)[:2]) for who in (resource.RUSAGE_SELF, resource.RUSAGE_CHILDREN))
    print("%d books, %d cases, %d differ, %.0f processor seconds" % (len(books), cases, differ, spent))
    sys.exit(1 if differ or not cases else 0)


if __name__ == "__main__":
    main()
