#!/usr/bin/env python3
"""Measures the program on a large archive, beside the tools of Debian's package pcp where they are installed, and prints a table.

usage: measure.py PROGRAM [TICKS [FOLDER]]                TICKS: 100,000 unless given

It makes the generated archive of TICKS results (174 MB at 100,000) in memory-backed storage, in one volume and in some hundred. A line of the
table says of a command how long it takes, the best of five runs, its processor time (which other work beside it changes less), and the most memory
that it had; and of the tool of the package that does the like the same, on the same files with the entry in front that its readers want, and
which part of the tool's time the command takes. It also replays a script of as many ticks, one with a flush behind each, and checks an index of
1,000,000 entries; and counts the calls by which runs write and sync, where strace(1) is installed. With a FOLDER the archives stand there, so that
syncs are a disk's. Nothing here is a promise: another machine gives other figures.
"""
import os
import shutil
import struct
import subprocess
import sys
import tempfile
import time

RUNS = 5


def run(words, folder, given=None):
    """Returns a command's status, seconds, seconds of processor time, peak of memory in MiB, and the last line that it wrote."""
    # The peak that wait4(2) tells is at least this script's own, so that time(1) is asked where it is installed.
    asked = ["time", "-q", "-f", "%M", "-o", f"{folder}/peak"] if shutil.which("time") else []
    with open(f"{folder}/out", "wb") as out, open(given or os.devnull, "rb") as source:
        begun = time.perf_counter()
        child = subprocess.Popen([*asked, *words], stdin=source, stdout=out, stderr=subprocess.DEVNULL, cwd=folder)
        _, status, usage = os.wait4(child.pid, 0)
        took = time.perf_counter() - begun
    with open(f"{folder}/out", "rb") as out:
        out.seek(max(0, os.path.getsize(f"{folder}/out") - 200))
        last = (out.read().split(b"\n")[-2:] or [b""])[0].decode(errors="replace")
    peak = usage.ru_maxrss
    if asked:
        with open(f"{folder}/peak", encoding="ascii") as it:
            peak = int(it.read())
        os.remove(f"{folder}/peak")
    return os.waitstatus_to_exitcode(status), took, usage.ru_utime + usage.ru_stime, peak / 1024, last


def best(words, folder, given=None, runs=RUNS, before=None):
    """Returns the quickest of some runs of a command."""
    found = []
    for _ in range(runs):
        if before:
            before()
        found.append(run(words, folder, given))
    return min(found, key=lambda it: it[1])


def cells(found):
    status, took, used, memory, _ = found
    return f"{took:.3f} | {used:.3f} | {memory:.1f} MiB{'' if status == 0 else f' (status {status})'}"


def told(what, words, folder, given=None, runs=RUNS, before=None, beside=None, before_beside=None):
    """Prints the table's line of a command, and of what the package has beside it, and returns the command's seconds."""
    found = best(words, folder, given, runs, before)
    line = f"| {what} | {cells(found)} |"
    if beside and shutil.which(beside[0]):
        other = best(beside, folder, None, runs, before_beside)
        line += f" {beside[0]} {cells(other)} | {found[1] / other[1]:.2f} |"
    else:
        line += " | | | |"
    print(line, flush=True)
    return found[1]


def begin_table():
    print("| work | seconds | of a processor | memory | of the package: seconds | of a processor | memory | part of its time |")
    print("|---|---:|---:|---:|---:|---:|---:|---:|", flush=True)


def with_first_entry(folder, name, to):
    """Copies an archive, and puts the entry in front that readers of the package begin at: the label's stamp, volume 0, both offsets 132."""
    for file in os.listdir(folder):
        if file.startswith(f"{name}."):
            shutil.copy(f"{folder}/{file}", f"{folder}/{to}.{file.split('.', 1)[1]}")
    with open(f"{folder}/{to}.index", "rb") as it:
        held = it.read()
    first = held[12:20] + struct.pack(">III", 0, 132, 132)
    with open(f"{folder}/{to}.index", "wb") as it:
        it.write(held[:132] + first + held[132:])


# An image of one counter, as its text; its cluster is none of the generated archive's.
LAYOUT = ["mmv 1 5 0 0 999", "metric hits 2 i32 counter 00100000 - - -", "value 2 - 7"]


def make_image(program, folder):
    """Makes the image from its text."""
    with open(f"{folder}/layout", "w") as out:
        out.write("\n".join(LAYOUT) + "\n")
    with open(f"{folder}/layout", "rb") as text, open(f"{folder}/image", "wb") as out:
        subprocess.run([program, "any", "mmv-make"], stdin=text, stdout=out, cwd=folder, check=True)


def ticking(ticks, flushes):
    """Returns a script of one counter and so many ticks, each with a flush behind it or none."""
    lines = ["image A", *LAYOUT, "end", "region app A 32 1", "log mandatory on every 1 sec { mmv }", "start"]
    for at in range(1, ticks + 1):
        lines.append(f"tick {at} 0")
        lines += ["flush"] * flushes
    return "\n".join(lines) + "\n"


WRITING = ("write", "writev", "pwrite64", "fsync", "fdatasync", "openat", "ftruncate")


def calls(what, words, folder, given=None):
    """Prints how often a command makes each of the calls that write and sync, and all calls that it makes."""
    if not shutil.which("strace"):
        return
    status, *_ = run(["strace", "-f", "-c", "-U", "name,calls", "-o", f"{folder}/counts", *words], folder, given)
    with open(f"{folder}/counts", encoding="ascii") as it:
        rows = dict(line.split() for line in it if len(line.split()) == 2 and line.split()[1].isdigit())
    os.remove(f"{folder}/counts")
    print(f"{what:46} {', '.join(f'{name} {rows[name]}' for name in WRITING if name in rows)}; all {rows.get('total')}; status {status}", flush=True)


def gone(folder, name):
    for file in os.listdir(folder):
        if file.startswith(f"{name}."):
            os.remove(f"{folder}/{file}")


def count_calls(program, folder):
    """The calls of runs: a made one over 17 volumes, and replays of a thousand ticks."""
    calls("calls of make 1 600 65536", [program, "few", "make", "1", "600", "65536"], folder)
    for flushes, what in ((0, "calls of a replay of 1,000 ticks"), (1, "calls of one with a flush behind each")):
        with open(f"{folder}/script", "w") as out:
            out.write(ticking(1000, flushes))
        gone(folder, "few")
        calls(what, [program, "few", "replay", "1073741824"], folder, f"{folder}/script")
    gone(folder, "few")


def copied(folder, name, to):
    """Copies an archive, in place of what the copy was."""
    gone(folder, to)
    for file in os.listdir(folder):
        if file.startswith(f"{name}."):
            shutil.copy(f"{folder}/{file}", f"{folder}/{to}.{file.split('.', 1)[1]}")


def at_times(program, folder, name, what, ticks):
    """What a metric had at a time, and the items at one, in the middle and at the end."""
    for place, at in (("in the middle", ticks // 2), ("at the end", ticks)):
        told(f"value {place}, {what}", [program, name, "value", str(at), "0", "mmv.r1.c3"], folder,
             beside=["pmval", "-a", f"stock-{name}", "-O", f"{at - 1}sec", "-s", "1", "-t", "1sec", "mmv.r1.c3"])
    told(f"at, in the middle, {what}", [program, name, "at", str(ticks // 2), "0"], folder)
    told(f"range of 101 results in the middle, {what}", [program, name, "range", str(ticks // 2), "0", str(ticks // 2 + 100), "0"], folder)


def read_archives(program, folder, ticks):
    """The commands that read the archive, in one volume and in a hundred."""
    for name, what in (("big", "one volume"), ("parts", "many volumes")):
        told(f"recover, {what}", [program, name, "recover"], folder, beside=["pmlogcheck", f"stock-{name}"])
        told(f"check, {what}", [program, name, "check"], folder, beside=["pmlogcheck", f"stock-{name}"])
        told(f"dump, {what}", [program, name, "dump"], folder, beside=["pmdumplog", "-a", f"stock-{name}"])
        at_times(program, folder, name, what, ticks)
        told(f"info, {what}", [program, name, "info"], folder, beside=["pmdumplog", "-d", f"stock-{name}"])
        told(f"once, one more result, {what}", [program, "more", "once", str(ticks + 1), "0", "beside"], folder, f"{folder}/image",
             before=lambda name=name: copied(folder, name, "more"))
        gone(folder, "more")


def replays(program, folder, ticks):
    """Replays of ticks of one metric, and the check of an index of 1,000,000 entries."""
    for flushes, what in ((0, "replay of ticks"), (1, "replay of ticks, a flush behind each")):
        with open(f"{folder}/script", "w") as out:
            out.write(ticking(ticks, flushes))
        told(f"{what}: {ticks}", [program, "run", "replay", "1073741824"], folder, f"{folder}/script", before=lambda: gone(folder, "run"))
    with open(f"{folder}/run.index", "rb") as it:
        held = it.read()
    with open(f"{folder}/run.index", "wb") as it:
        it.write(held[:132] + held[132:152] * 1000000)
    told("check of an index of 1,000,000 entries", [program, "run", "check"], folder)


def main(program, ticks=100000, place="/dev/shm" if os.path.isdir("/dev/shm") else None):
    program, ticks = os.path.realpath(program), int(ticks)
    with tempfile.TemporaryDirectory(dir=place) as folder:
        count_calls(program, folder)
        begin_table()
        for name, limit in (("big", "1073741824"), ("parts", "1750000")):
            told(f"make 1 {ticks} {limit}", [program, name, "make", "1", str(ticks), limit], folder, before=lambda name=name: gone(folder, name))
            with_first_entry(folder, name, f"stock-{name}")
        make_image(program, folder)
        read_archives(program, folder, ticks)
        print(f"bytes: {sum(os.path.getsize(f'{folder}/{it}') for it in os.listdir(folder) if it.startswith('big.')):,}; "
              f"volumes: {sum(1 for it in os.listdir(folder) if it.startswith('parts.')) - 2}")
        for name in ("parts", "stock-parts", "big", "stock-big"):
            gone(folder, name)
        replays(program, folder, ticks)


if __name__ == "__main__":
    if len(sys.argv) < 2:
        sys.exit(__doc__)
    main(*sys.argv[1:])
