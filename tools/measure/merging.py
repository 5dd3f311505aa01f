#!/usr/bin/env python3
"""Measures `extract`, `summary` and `watch` on a large archive, beside the tools of Debian's package pcp where they are installed.

usage: merging.py PROGRAM [TICKS [FOLDER]]                TICKS: 100,000 unless given

It makes the generated archive of TICKS results (174 MB at 100,000), in one volume and in some hundred, and a replay of as many ticks of one metric
beside it. It prints the table of measure.py: how long each command takes, the best of five runs, its processor time and the most memory that it had, and
the same of the tool of the package that does the like, on the same files with the entry in front that its readers want. Without a FOLDER all stands in memory-backed
storage, where a sync costs nothing; with one the archives stand there. Nothing here is a promise: another machine gives other figures.
"""
import os
import shutil
import sys
import tempfile

from measure import begin_table, gone, told, with_first_entry

# Another domain's region, so that no metric of it is one of the generated archive's.
BESIDE = ["image A", "mmv 1 5 0 0 999", "metric beside 2 i32 counter 00100000 - - -", "value 2 - 7", "end", "region beside A 32 1",
          "log mandatory on every 1 sec { mmv }", "start"]

AGGREGATES = ("min", "max", "sum", "rise")


def ticking(ticks):
    return "\n".join(BESIDE + [f"tick {at} 500000" for at in range(1, ticks + 1)]) + "\n"


def rules(names):
    """Returns 64 rules over windows of 1,000 values."""
    return "".join(f"rule r{at} when {('some', 'all')[at % 2]} {AGGREGATES[at % 4]} {names[at % len(names)]} over 1000 > {at * 1000}\n" for at in range(64))


def main(program, ticks=100000, place="/dev/shm" if os.path.isdir("/dev/shm") else None):
    program, ticks = os.path.realpath(program), int(ticks)
    with tempfile.TemporaryDirectory(dir=place) as folder:
        begin_table()
        told(f"make 1 {ticks} 1073741824", [program, "big", "make", "1", str(ticks), "1073741824"], folder, runs=1)
        told(f"make 1 {ticks} 1750000", [program, "parts", "make", "1", str(ticks), "1750000"], folder, runs=1)
        with open(f"{folder}/script", "w") as out:
            out.write(ticking(ticks))
        told(f"replay of {ticks} ticks of one metric", [program, "one", "replay", "1073741824"], folder, f"{folder}/script", runs=1)
        for name in ("big", "parts", "one"):
            with_first_entry(folder, name, f"stock-{name}")
        whole = ["0", "0", str(ticks + 1000), "0"]
        told("extract of it and the replay", [program, "both", "extract", "big", "one", "1073741824"], folder, before=lambda: gone(folder, "both"),
             beside=["pmlogextract", "stock-big", "stock-one", "stock-both"], before_beside=lambda: gone(folder, "stock-both"))
        gone(folder, "both")
        gone(folder, "stock-both")
        for workers in ("1", "4"):
            for name, what in (("big", "one volume"), ("parts", "many volumes")):
                told(f"summary {workers}, {what}", [program, name, "summary", workers, *whole], folder, beside=["pmlogsummary", f"stock-{name}"])
        told("export", [program, "big", "export", "out"], folder, before=lambda: gone(folder, "out"))
        gone(folder, "out")
        with open(f"{folder}/rules", "w") as out:
            out.write(rules([f"mmv.r{at}.c{at}" for at in range(4)]))
        told("watch of 64 rules over 1,000 values", [program, "big", "watch", *whole], folder, f"{folder}/rules")
        print(f"bytes: {sum(os.path.getsize(f'{folder}/{it}') for it in os.listdir(folder) if it.startswith('big.')):,}; "
              f"volumes: {sum(1 for it in os.listdir(folder) if it.startswith('parts.')) - 2}")


if __name__ == "__main__":
    if len(sys.argv) < 2:
        sys.exit(__doc__)
    main(*sys.argv[1:])
