#!/usr/bin/env python3
"""Times the program over 10,000 intervals whose values are all distinct, all equal, or one of 50, and over 300,000 starts whose
ends come in opposite order.

usage: bench/intervals.py [COUNT [LONGEST]] [--program PATH]

COUNT is the number of intervals, and LONGEST the greatest length of a lifetime: about half as many rows are alive at once.
Ends with status 1 where a run does not end Done, or takes more than 5 seconds of the processor.
"""
import sys
import tempfile

from runs import arguments, timed

QUERY = "stream s(v int); s | where v > 0"
LIMIT = 5.0
STARTS = 300_000
MIX = 7919  # a prime: steps of it visit every place before one comes twice


def intervals(count, longest, value):
    lines = []
    for i in range(count):
        end = i + 1 + i * MIX % longest
        lines.append(f"s,interval,{i},{end},{value(i)}\n")
    return "".join(lines).encode()


def starts_and_ends():
    """Starts of rows in order, and then their ends, that of the last start first."""
    lines = [f"s,start,{i},inf,{1 + i % 977}\n" for i in range(STARTS)]
    lines += [f"s,end,{STARTS},{i},{1 + i % 977}\n" for i in reversed(range(STARTS))]
    return "".join(lines).encode()


def measured(program, name, lines):
    with tempfile.NamedTemporaryFile() as file, tempfile.TemporaryFile() as out:
        file.write(lines)
        file.flush()
        run = timed([program, "--query", QUERY], file.name, out)
        out.seek(0)
        written = list(out)
    starts = sum(line.startswith(b"out,start,") for line in written)
    ends = sum(line.startswith(b"out,end,") for line in written)
    print(f"{name:13} {run.processor:6.2f} s of processor, {run.kilobytes / 1024:.0f} MB  {starts:6} starts  {ends:6} ends")
    return run.processor <= LIMIT


def main(read):
    kinds = {
        "all distinct": lambda i: 1 + i * MIX % read.count,
        "all equal": lambda i: 7,
        "50 distinct": lambda i: 1 + i * MIX % 50,
    }
    print(f"{read.count} intervals, lifetimes of up to {read.longest} instants")
    runs = [measured(read.program, name, intervals(read.count, read.longest, value)) for name, value in kinds.items()]
    runs.append(measured(read.program, f"{STARTS} starts", starts_and_ends()))
    sys.exit(0 if all(runs) else 1)


if __name__ == "__main__":
    count = {"nargs": "?", "type": int, "default": 10_000}
    longest = {"nargs": "?", "type": int, "default": 5_000}
    main(arguments(__doc__, ("count", count), ("longest", longest)))
