#!/usr/bin/env python3
"""Kills recordings of the program `pcp`, and looks whether each sample that was told on the terminal stands in the archive.
usage: kill.py PROGRAM [COUNT [SEED]]

COUNT recordings (50) of a hundred samples run side by side, a second between the samples, each with a terminal of its own as standard error. Each is
killed by SIGKILL: every other one at any moment of its first six seconds, the others within two milliseconds behind a line of the terminal, when the
sample of that line is taken and logged. Then `recover` and `dump` must end with 0, and the archive must have at least as many items as the
last whole line of the terminal told results; recovery changes nothing a second time. The moments are drawn from SEED, which is printed. It takes ten
seconds or so in all.

A kill isn't a power cut: the system keeps what a program wrote, synced or not. What a power cut leaves is proved over the disk that `docs/PROMISES.md`
supposes, and `tools/edge/edges.py` shows that each sample is synced before the next one is waited for."""
import os, pty, random, re, select, signal, subprocess, sys, tempfile, time
from concurrent.futures import ThreadPoolExecutor

HERE = os.path.dirname(os.path.realpath(__file__))
SCRIPT = os.path.join(HERE, "..", "..", "docs", "counter.script")
LINE = re.compile(rb"sample (\d+) of 100: results (\d+), bytes (\d+)\r?\n")
PROGRAM = ""


def content(path):
    with open(path, "rb") as it:
        return it.read()


def files(base):
    """The files of an archive with their contents."""
    folder, stem = os.path.split(base)
    return {name: content(os.path.join(folder, name)) for name in sorted(os.listdir(folder)) if name.startswith(stem + ".")}


def run(*words):
    """Runs the program and gives its status and output."""
    ran = subprocess.run([PROGRAM, *words], stdin=subprocess.DEVNULL, stdout=subprocess.PIPE, stderr=subprocess.DEVNULL, timeout=60)
    return ran.returncode, ran.stdout


class Terminal:
    """A terminal, and what it has shown."""

    def __init__(self):
        self.ours, self.theirs = pty.openpty()
        self.shown = b""

    def begin(self, *words):
        """Starts the program with this terminal as standard error."""
        with open(SCRIPT, "rb") as script:
            child = subprocess.Popen([PROGRAM, *words], stdin=script, stdout=subprocess.DEVNULL, stderr=self.theirs)
        os.close(self.theirs)
        return child

    def take(self, seconds):
        """Takes what is shown within so many seconds; whether there may be more."""
        if not select.select([self.ours], [], [], max(seconds, 0))[0]:
            return False
        try:
            more = os.read(self.ours, 65536)
        except OSError:
            return False  # (the other end is closed)
        self.shown += more
        return more != b""

    def lines(self):
        """The whole lines: the sample's number, how many results are told, how many bytes."""
        return [tuple(map(int, found)) for found in LINE.findall(self.shown)]


def kill_one(folder, number, draw):
    """One recording: how many results were told, how many items stand, and whether it was killed behind a line."""
    base = os.path.join(folder, f"rec{number}")
    terminal = Terminal()
    began = time.monotonic()
    child = terminal.begin(base, "record", "100", "1048576")
    behind_a_line = number % 2 == 1
    if behind_a_line:
        wanted = draw.randrange(1, 6)
        while len(terminal.lines()) < wanted:
            assert time.monotonic() < began + 60 and child.poll() is None, "no line"
            terminal.take(0.1)
        time.sleep(draw.uniform(0, 0.002))
    else:
        end = began + draw.uniform(0, 6)
        while time.monotonic() < end:
            terminal.take(end - time.monotonic())
    child.send_signal(signal.SIGKILL)
    assert child.wait(60) == -signal.SIGKILL, child.returncode
    while terminal.take(0.2):
        pass
    os.close(terminal.ours)
    told = max((results for _, results, _ in terminal.lines()), default=0)
    return told, items(base), behind_a_line


def items(base):
    """How many items recovery leaves of an archive."""
    status, said = run(base, "recover")
    assert status == 0, (base, status, said)
    count = int(said.split()[1])
    before = files(base)
    assert run(base, "recover") == (status, said) and files(base) == before, (base, "recovery had to mend again")
    status, said = run(base, "dump")
    assert status == 0 and said.count(b"mmv.app.hits") == count, (base, status, said[-200:])
    return count


def main():
    global PROGRAM
    PROGRAM = os.path.realpath(sys.argv[1])
    count = int(sys.argv[2]) if len(sys.argv) > 2 else 50
    seed = sys.argv[3] if len(sys.argv) > 3 else str(random.randrange(2**32))
    failed = 0
    kinds = {}
    with tempfile.TemporaryDirectory(prefix="kill-") as folder, ThreadPoolExecutor(count) as pool:
        runs = [pool.submit(kill_one, folder, number, random.Random(f"{seed} {number}")) for number in range(count)]
        for number, one in enumerate(runs):
            try:
                told, stand, behind_a_line = one.result()
                assert told <= stand, f"{told} told, {stand} stand"
                kinds[(behind_a_line, stand - told)] = kinds.get((behind_a_line, stand - told), 0) + 1
            except (AssertionError, OSError, ValueError, IndexError, subprocess.TimeoutExpired) as error:
                failed += 1
                print(f"run {number}: FAILED: {type(error).__name__} {error}", flush=True)
    for (behind_a_line, more), times in sorted(kinds.items()):
        moment = "behind a line" if behind_a_line else "at any moment"
        print(f"killed {moment}: {times} times all that was told stood, and {more} more")
    print(f"{count} killed, {failed} failed (seed {seed})")
    return 1 if failed else 0


if __name__ == "__main__":
    sys.exit(main())
