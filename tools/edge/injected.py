#!/usr/bin/env python3
"""Makes each system call of the commands that write fail once (strace(1), `-e inject`), and looks at what is told and what stands.
usage: injected.py PROGRAM

Each run either is whole (status 0, and files as without a failure) or told (another status of the program's own), and after a
recovery the items are those from before and a front of the run's: as many as the command says after status 0. `export` leaves its source as it
was, and at the other base a beginning of each file, with no byte of Meta before the others are whole. It prints a line for each command and call,
and takes some minutes."""
import os, re, subprocess, sys, tempfile
from concurrent.futures import ThreadPoolExecutor

HERE = os.path.dirname(os.path.realpath(__file__))
PROGRAM = ""
# The first call of main itself; what comes before is the loader's.
FIRST = '"/dev/null", O_RDWR'
ERRORS = ("EIO", "ENOSPC")
# Calls about memory, processes and threads, which the C library makes for itself: they have no such errors.
LEFT_OUT = (
    "execve exit exit_group mmap munmap brk mprotect madvise arch_prctl rseq set_robust_list set_tid_address restart_syscall gettid"
    " futex rt_sigprocmask rt_sigaction sigaltstack sched_getaffinity"
).split()


def content(*path):
    with open(os.path.join(HERE, "..", "..", *path), "rb") as it:
        return it.read()


IMAGE = content("crates", "pcp", "stdin")
SCRIPT = content("docs", "counter.script")
TICKS = SCRIPT + b"".join(b"tick %d 0\n" % at for at in range(100, 104)) + b"flush\ntick 104 0\n"

# The words of each command, its input, and the archive before it: none, one of three items, or that with a torn end.
COMMANDS = [
    (("once", "200", "0", "app"), IMAGE, ("none", "old", "torn")),
    (("replay", "1048576"), TICKS, ("none", "old")),
    (("make", "7", "6", "1048576"), b"", ("none",)),
    (("recover",), b"", ("old", "torn")),
    (("record", "2", "1048576"), SCRIPT, ("none", "old")),
    (("export", "other"), b"", ("old", "torn")),
]


def run(folder, words, given=b"", traced=()):
    ran = subprocess.run([*traced, PROGRAM, "arch", *words], input=given, cwd=folder, stdout=subprocess.PIPE, stderr=subprocess.DEVNULL, timeout=120)
    return ran.returncode, ran.stdout


def prepare(folder, state):
    """Makes the archive from before."""
    if state != "none":
        for at in (b"10", b"20", b"30"):
            run(folder, ("once", at.decode(), "0", "app"), IMAGE)
    if state == "torn":
        for end in ("0", "meta", "index"):
            with open(os.path.join(folder, "arch." + end), "ab") as it:
                it.write(b"\0\0\1")


def lines_of(folder):
    """The items of an archive, as they are printed."""
    status, said = run(folder, ("dump",))
    if status:
        return [b"status %d" % status]
    return re.split(rb"(?m)^(?=\d{4}-)", said)[1:]


def same(left, right, is_clocked):
    """Whether these are the same items. Of a recording, whose stamps and values are of its moments, only the number counts."""
    return len(left) == len(right) if is_clocked else left == right


def acknowledged(said, before):
    """How many items stand by what a command says."""
    word, number = re.search(rb"(?m)^(logged|items) (\d+)$", said).groups()
    return int(number) + (len(before) if word == b"logged" else 0)


def files_of(folder, base):
    """The files of an archive that hold something, by what stands behind the base's name."""
    found = {}
    for name in os.listdir(folder):
        if name.startswith(base + "."):
            with open(os.path.join(folder, name), "rb") as it:
                found[name[len(base) + 1 :]] = it.read()
    return {name: data for name, data in found.items() if data}


def calls_of(words, given, state):
    """Each system call of main with its number among the calls of that name, what stood before, and what stands without a failure."""
    is_export = words[0] == "export"
    with tempfile.TemporaryDirectory() as folder:
        prepare(folder, state)
        before = files_of(folder, "arch") if is_export else lines_of(folder) if state != "none" else []
        log = os.path.join(folder, "log")
        status, _ = run(folder, words, given, ("strace", "-f", "-o", log))
        assert status == 0, (words, state, status)
        counts, calls, begun = {}, [], False
        with open(log, encoding="utf-8", errors="replace") as it:
            for line in it:
                found = re.match(r"\d+ +(\w+)\(", line)
                if not found:
                    continue
                name = found[1]
                counts[name] = counts.get(name, 0) + 1
                begun = begun or FIRST in line
                if begun and name not in LEFT_OUT:
                    calls.append((name, counts[name]))
        return calls, before, files_of(folder, "other") if is_export else lines_of(folder)


def tried_export(words, given, state, call, number, error, before, after):
    """One export with one failure: how it ended, and what is wrong."""
    with tempfile.TemporaryDirectory() as folder:
        prepare(folder, state)
        status, _ = run(folder, words, given, ("strace", "-f", "-o", "/dev/null", "-e", f"inject={call}:error={error}:when={number}"))
        made, wrong = files_of(folder, "other"), ""
        if files_of(folder, "arch") != before:
            wrong = "the source isn't as it was"
        elif not all(after.get(name, b"").startswith(data) for name, data in made.items()):
            wrong = "something else stands there"
        elif "meta" in made and {**made, "meta": after["meta"]} != after:
            wrong = "Meta stands beside less than the others"
        elif status == 0 and made != after:
            wrong = "done, and not whole"
        elif status not in (0, 4, 5, 9):
            wrong = f"status {status}"
        return status, wrong and f"{' '.join(words)} ({state}): {call} {number} {error}: {wrong}"


def tried(words, given, state, call, number, error, before, after):
    """One run with one failure: how it ended, and what is wrong."""
    is_clocked = words[0] == "record"
    with tempfile.TemporaryDirectory() as folder:
        prepare(folder, state)
        status, said = run(folder, words, given, ("strace", "-f", "-o", "/dev/null", "-e", f"inject={call}:error={error}:when={number}"))
        mended, _ = run(folder, ("recover",))
        stands = lines_of(folder) if os.path.exists(os.path.join(folder, "arch.meta")) and os.path.getsize(os.path.join(folder, "arch.meta")) else []
        wrong = ""
        if mended:
            wrong = f"recover answers {mended}"
        elif status == 0 and len(stands) != acknowledged(said, before):
            wrong = f"{len(stands)} items stand after {said}"
        elif not (same(stands, after[: len(stands)], is_clocked) and len(stands) >= len(before)):
            wrong = f"{len(stands)} items stand, {len(before)} stood before"
        elif status not in (0, 3, 4, 5, 8, 9, 20):
            wrong = f"status {status}"
        return status, wrong and f"{' '.join(words)} ({state}): {call} {number} {error}: {wrong}"


def main():
    global PROGRAM
    PROGRAM = os.path.realpath(sys.argv[1])
    failures = []
    total = 0
    with ThreadPoolExecutor(8) as pool:
        for words, given, states in COMMANDS:
            for state in states:
                calls, before, after = calls_of(words, given, state)
                one = tried_export if words[0] == "export" else tried
                jobs = {(call, number, error): pool.submit(one, words, given, state, call, number, error, before, after) for call, number in calls for error in ERRORS}
                table = {}
                for (call, _, _), job in jobs.items():
                    status, wrong = job.result()
                    ends = table.setdefault(call, {})
                    ends[status] = ends.get(status, 0) + 1
                    total += 1
                    if wrong:
                        failures.append(wrong)
                for call, ends in sorted(table.items()):
                    told = ", ".join(f"{'whole' if status == 0 else f'status {status}'} {count}" for status, count in sorted(ends.items()))
                    print(f"| {words[0]} | {state} | {call} | {told} |", flush=True)
    print(f"{total} runs, {len(failures)} wrong")
    for wrong in failures:
        print(wrong)
    return 1 if failures else 0


if __name__ == "__main__":
    sys.exit(main())
