#!/usr/bin/env python3
"""Times the queries of the benchmark NEXMark that the language can say, as events a second of one processor.

usage: bench/nexmark.py [COUNT] [--program PATH]

Over COUNT events (1,000,000 if not given) as examples/nexmark/make gives them, of each 50 events a person, 3 auctions and 46
bids, with a punctuation for each second of their time: for each query of examples/nexmark the events in a second, the least
time of three runs, the lines that it writes and the memory that it holds at most.
Ends with status 1 where the program fails, or where an answer over the first 10,000 events is not what SQLite gives.
"""
import subprocess
import sys
import tempfile
from pathlib import Path

from runs import BENCH, arguments, digest_of, in_turn, timed

EXAMPLES = BENCH.parent / "examples"
QUERIES = {path.stem: path.read_text().strip() for path in sorted((EXAMPLES / "nexmark").glob("*.query"))}
CHECKED = 10_000
SECOND = 1000


def write_events(path, count):
    with open(path, "wb") as out:
        subprocess.run([EXAMPLES / "nexmark/make", str(count)], stdout=out, check=True)


def gives_the_answers(program, path):
    """Whether each query writes over the lines what SQLite gives for them."""
    good = True
    for name, query in QUERIES.items():
        words = [EXAMPLES / "by_sql", EXAMPLES / f"nexmark/{name}.sql", path]
        wanted = subprocess.run(words, stdout=subprocess.PIPE, check=True).stdout.splitlines(True)
        if timed([program, "--query", query], path).digest != digest_of(wanted):
            print(f"{name}: not what SQLite gives")
            good = False
    return good


def main(read):
    with tempfile.TemporaryDirectory() as name:
        path, kept = Path(name) / "events", Path(name) / "out"
        write_events(path, min(read.count, CHECKED))
        good = gives_the_answers(read.program, path)
        write_events(path, read.count)
        jobs = {name: ([read.program, "--punctuate", SECOND, "--query", query], path) for name, query in QUERIES.items()}
        for name, run in in_turn(jobs, 3).items():
            with open(kept, "w+b") as out:
                timed(jobs[name][0], path, out)
                out.seek(0)
                lines = sum(line[:1] != b"*" for line in out)
            print(
                f"{name}: {read.count / run.processor:,.0f} events a second, {run.processor:.2f} s of processor, "
                f"{run.wall:.2f} s by the clock, {run.kilobytes / 1024:.0f} MB, {lines} lines written",
                flush=True,
            )
    sys.exit(0 if good else 1)


if __name__ == "__main__":
    main(arguments(__doc__, ("count", {"nargs": "?", "type": int, "default": 1_000_000})))
