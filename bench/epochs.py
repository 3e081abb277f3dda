#!/usr/bin/env python3
"""Measures what an input without punctuations costs, which is worked through in slices, and what slices cost between punctuations.

usage: bench/epochs.py [COUNT] [--before PATH] [--program PATH]

Over COUNT trades (1,000,000 if not given) and no punctuation, for a filter, a count in windows and a running count: seconds and
the most memory, wanted at most 110, 90 and 170 MB; the bytes are to be the same at --batch 7, 4096 and 8192. Over as many with a
punctuation after each 100, the seconds at --batch 1024. With --before PATH each is told beside that program, a punctuation wanted
at most 1.05 times; where valgrind is installed, by instructions over 20,000 trades too.
Ends with status 1 where two runs of a query write different bytes.
"""
import re
import shutil
import subprocess
import sys
import tempfile
from pathlib import Path

from runs import TRADES, arguments, beside, in_turn, timed, write_trades

# The query of each, and the most megabytes that it may take without punctuations.
QUERIES = {
    "filter": (f"{TRADES} | where px > 125", 110),
    "windows": (f"{TRADES} | tumble 60 | group by sym : count as n", 90),
    "running": (f"{TRADES} | group by sym : count as n", 170),
}
BATCHES = (7, 4096, 8192)
COUNTED = 20_000


def without_punctuations(path, to):
    """A copy of the lines without those of `*`."""
    with open(path, "rb") as lines, open(to, "wb") as out:
        out.writelines(line for line in lines if line[:1] != b"*")


def instructions(program, query, path):
    """The instructions of a run, by valgrind."""
    words = ["valgrind", "--tool=callgrind", "--callgrind-out-file=/dev/null", program, "--query", query]
    with open(path, "rb") as lines:
        ran = subprocess.run([str(word) for word in words], stdin=lines, stdout=subprocess.DEVNULL, stderr=subprocess.PIPE, check=True)
    return int(re.search(rb"Collected : (\d+)", ran.stderr)[1])


def compare(name, programs, query, path, wanted=None):
    """Times each program over the lines. Returns their runs, by name."""
    runs = in_turn({which: ([program, "--query", query], path) for which, program in programs.items()})
    now, before = runs["now"], runs.get("before")
    if before:
        beside(name, now, "the program before", before, wanted)
    else:
        print(f"{name}: {now.processor:.2f} s of processor, {now.wall:.2f} s by the clock, {now.kilobytes / 1024:.0f} MB", flush=True)
    return runs


def main():
    count = {"nargs": "?", "type": int, "default": 1_000_000}
    read = arguments(__doc__, ("count", count), ("--before", {"type": Path, "help": "an earlier program, run beside it"}))
    program = read.program
    programs = {"now": program} | ({"before": read.before.resolve()} if read.before else {})
    good = True
    with tempfile.TemporaryDirectory() as folder:
        trades, bare = Path(folder, "trades"), Path(folder, "bare")
        write_trades(trades, read.count)
        without_punctuations(trades, bare)
        for name, (query, most) in QUERIES.items():
            runs = compare(f"{read.count} trades, no punctuation, {name}", programs, query, bare)
            megabytes = runs["now"].kilobytes * 1024 / 1e6 * 1_000_000 / read.count
            print(f"  {megabytes:.0f} MB a million lines (wanted {most}: {'met' if megabytes <= most else 'MISSED'})", flush=True)
            others = [timed([program, "--query", query, "--batch", batch], bare).digest for batch in BATCHES]
            others += [run.digest for run in runs.values()]
            good = good and len(set(others)) == 1
            runs = compare(f"  a punctuation after each 100, {name}", programs, query, trades, 1.05 if read.before else None)
            good = good and len({run.digest for run in runs.values()}) == 1
        if read.before and shutil.which("valgrind"):
            write_trades(trades, COUNTED)
            for name, (query, _) in QUERIES.items():
                now, before = (instructions(programs[which], query, trades) for which in ("now", "before"))
                print(f"a punctuation after each 100, {name}: {now / before:.3f} times the instructions of the program before", flush=True)
    sys.exit(0 if good else 1)


if __name__ == "__main__":
    main()
