#!/usr/bin/env python3
"""Says what `--workers` costs and gives, beside one worker and beside programs written by hand, and that it changes no byte.

usage: bench/workers.py [COUNT] [--query NAME ..] [--gap N ..] [--workers N ..] [--rounds N] [--no-instructions]
                        [--batch N] [--before PATH] [--program PATH]

Over COUNT lines (1,000,000 if not given), for a filter, windows with a group, a join, an anti-join and sessions, with a
punctuation after each 100 lines, after each 10,000 and none until the end (a gap of 0): the time by the clock and by the
processor of one worker beside the yardstick, of 2, 3, 4 and 16 workers beside one and beside the yardstick, and the most
memory, all of them in turn. --query, --gap and --workers take some of these. With a --batch of 4,096 or more the program makes
shards, and threads for a step of so many edges; with less, which is the default, any number of workers is as one. --before
names an earlier program, which is run beside one worker. Then the time from a line that makes a punctuation due to its bytes,
over a pipe, at one and at four workers; and where valgrind is installed, the instructions of 20,000 lines, which depend on
nothing else that the machine does: one worker is wanted at most 1.02 times the earlier program. The table at the end has the
ratios by the clock, and what is wanted of them.
Ends with status 1 where two numbers of workers, the yardstick or the earlier program write different bytes.
"""
import re
import shutil
import subprocess
import sys
import tempfile
from pathlib import Path

from program import answer_time
from runs import STREAMS, TRADES, arguments, in_turn, write_keyed, write_trades, yardstick

KEYS = 1000
WORKERS = (1, 2, 3, 4, 16)
COUNTED = (1, 2, 4)
COUNTED_LINES = 20_000
WANTED = 1.02
# The lines after which a punctuation stands, as they are generated; where a step has many edges; and none until the end.
NEAR, FAR, NONE = 100, 10_000, 0
QUERIES = {
    "filter": f"{TRADES} | where px > 125",
    "tumble": f"{TRADES} | tumble 60 | group by sym : count as n, sum qty as q",
    "join": STREAMS + "l | join r on k",
    "anti": STREAMS + "l | anti r on k",
    "session": STREAMS + "l | session 30 by k",
}
BEFORE, YARDSTICK = "the earlier program", "the yardstick"
# What is wanted of ratios by the clock: one worker beside the yardstick, four beside it, and one beside four; and four beside one.
ONE = {"filter": 1.0, "tumble": 1.6, "join": 1.5, "session": 1.3}
FOUR = {"filter": 1.0, "tumble": 1.1, "join": 1.0}
GAINS = {"filter": 1.3, "tumble": 1.5, "join": 1.6}
LOSS = 1.05
# The most memory of four workers beside one, and megabytes that the filter may take at four.
MEMORY, FILTER_MEGABYTES = 2, 64
# Queries that answer each punctuation with a line, and within how many seconds.
ANSWERED = {"filter": QUERIES["filter"], "group": f"{TRADES} | group by sym : count as n"}
SECONDS = 1e-3


def write_lines(path, query, count, gap):
    """The lines that the query reads, with a punctuation after each `gap` of them."""
    if QUERIES[query].startswith(TRADES):
        write_trades(path, count)
    else:
        write_keyed(path, count, KEYS)
    if gap == NEAR:
        return
    lines, seen = path.read_bytes().splitlines(True), 0
    with open(path, "wb") as out:
        for line in lines:
            if line[:1] != b"*":
                out.write(line)
                continue
            seen += 1
            if gap and seen % (gap // NEAR) == 0:
                out.write(line)


def words_of(read, query, name):
    """A program and its words: the earlier one has no option for workers."""
    if name == YARDSTICK:
        return [yardstick(), query]
    if name == BEFORE:
        return [read.before, "--query", QUERIES[query]]
    batch = ["--batch", str(read.batch)] if read.batch else []
    return [read.program, "--workers", str(name), *batch, "--query", QUERIES[query]]


def titled(name):
    return name if isinstance(name, str) else f"{name} worker{'s' * (name != 1)}"


def compare_times(read, query, path, gap):
    """Prints the times of each number of workers. Gives them, where all wrote the same bytes, and else None."""
    write_lines(path, query, read.count, gap)
    names = [YARDSTICK, *read.workers, *([BEFORE] if read.before else [])]
    runs = in_turn({name: (words_of(read, query, name), path) for name in names}, read.rounds)
    one, hand = runs[1], runs[YARDSTICK]
    told = f"a punctuation each {gap}" if gap else "no punctuation"
    print(f"{query}, {read.count} lines, {told}:", flush=True)
    for name, run in runs.items():
        same = "" if run.digest == one.digest else "; OTHER BYTES"
        print(f"    {titled(name)}: {run.wall:.2f} s by the clock, {run.processor:.2f} s of processor, {run.kilobytes / 1024:.0f} MB; "
              f"by the clock {run.wall / hand.wall:.2f} times the yardstick, {run.wall / one.wall:.2f} times one worker; "
              f"by the processor {run.processor / hand.processor:.2f}, {run.processor / one.processor:.2f}{same}", flush=True)
    return runs if len({run.digest for run in runs.values()}) == 1 else None


def instructions(words, path, folder):
    """How many instructions all threads of the run take over the lines."""
    counted = ["valgrind", "--tool=callgrind", f"--callgrind-out-file={folder / 'calls'}", *map(str, words)]
    with open(path) as lines:
        run = subprocess.run(counted, stdin=lines, stdout=subprocess.DEVNULL, stderr=subprocess.PIPE, check=True)
    return int(re.search(rb"Collected : (\d+)", run.stderr)[1])


def compare_instructions(read, query, path, folder):
    write_lines(path, query, COUNTED_LINES, NEAR)
    names = [*(number for number in COUNTED if number in read.workers), YARDSTICK, *([BEFORE] if read.before else [])]
    counts = {name: instructions(words_of(read, query, name), path, folder) for name in names}
    told = [f"{titled(name)} {counts[name] / counts[1]:.3f} times" for name in names[1:]]
    if read.before:
        ratio = counts[1] / counts[BEFORE]
        told.append(f"one worker {ratio:.3f} times the earlier program (wanted {WANTED}: {'met' if ratio <= WANTED else 'MISSED'})")
    print(f"{query}, instructions a line: one worker {counts[1] / COUNTED_LINES:.0f}; {'; '.join(told)}", flush=True)


def against(ratio, wanted, is_least=False):
    """A ratio as a cell of the table, with what is wanted of it."""
    if wanted is None:
        return f"{ratio:.2f}"
    met = ratio >= wanted if is_least else ratio <= wanted
    return f"{ratio:.2f} ({'' if met else '*MISSED* '}{wanted})"


def tell_table(figures):
    """The ratios by the clock, with what is wanted in brackets."""
    print("\n| query, punctuation | one worker beside the yardstick | four beside the yardstick | one beside four | four beside one | "
          "memory of four beside one; MB |\n|---|---|---|---|---|---|")
    for (query, gap), runs in figures.items():
        one, four, hand = runs[1], runs[4], runs[YARDSTICK]
        megabytes = four.kilobytes / 1024
        most = f"{megabytes:.0f}"
        if query == "filter":
            most += f" ({'' if megabytes <= FILTER_MEGABYTES else '*MISSED* '}{FILTER_MEGABYTES})"
        cells = [f"{query}, {f'each {gap}' if gap else 'none'}", against(one.wall / hand.wall, ONE.get(query)),
                 against(four.wall / hand.wall, FOUR.get(query)), against(one.wall / four.wall, GAINS.get(query), True),
                 against(four.wall / one.wall, LOSS), f"{against(four.kilobytes / max(one.kilobytes, 1), MEMORY)}; {most}"]
        print(f"| {' | '.join(cells)} |")


def main(read):
    good, figures = True, {}
    read.before = read.before and read.before.resolve()
    read.workers = sorted({1, *read.workers})
    with tempfile.TemporaryDirectory() as name:
        folder = Path(name)
        path = folder / "lines"
        for gap in read.gap:
            for query in read.query:
                runs = compare_times(read, query, path, gap)
                good = good and runs is not None
                if runs and 4 in runs:
                    figures[query, gap] = runs
        if not read.no_instructions and shutil.which("valgrind"):
            for query in read.query:
                compare_instructions(read, query, path, folder)
    for number in (1, 4):
        for name, query in ANSWERED.items():
            taken = answer_time(read.program, query, number)
            met = "met" if taken < SECONDS else "MISSED"
            print(f"from a line that makes a punctuation due to its bytes, {name}, {titled(number)}: {taken * 1e6:.0f} us (wanted "
                  f"below {SECONDS * 1e6:.0f}: {met})", flush=True)
    if figures:
        tell_table(figures)
    sys.exit(0 if good else 1)


if __name__ == "__main__":
    main(arguments(__doc__,
                   ("count", {"nargs": "?", "type": int, "default": 1_000_000}),
                   ("--query", {"nargs": "+", "choices": QUERIES, "default": list(QUERIES)}),
                   ("--gap", {"nargs": "+", "type": int, "default": [NEAR, FAR, NONE], "help": "a multiple of 100, or 0 for none"}),
                   ("--workers", {"nargs": "+", "type": int, "default": WORKERS}),
                   ("--batch", {"type": int, "help": "how many rows a batch of the program has, its own default if not given"}),
                   ("--rounds", {"type": int, "default": 5, "help": "runs of each, of which the least counts"}),
                   ("--no-instructions", {"action": "store_true"}),
                   ("--before", {"type": Path, "help": "an earlier program, run beside one worker"})))
