#!/usr/bin/env python3
"""Times `top`, `follow`, averages and `coalesce` beside programs written by hand, or beside what they stand next to.

usage: bench/operators.py [COUNT] [--keys KEYS] [--program PATH]

Over COUNT lines (1,000,000 if not given) of two streams and KEYS keys (1,000): `top 3 per k by w` beside the yardstick, wanted
at most 3 times, and `follow r on k within 30`, at most 2.5 times; the average of each key beside its sum, at most 1.1 times;
over as many trades, no two of which are equal, `coalesce` beside the stream alone, at most 1.3 times. Where valgrind is
installed, the instructions of a step over ten edges with 100,000 rows alive beside one with 100, at most 1.1 times; and those
of a replacement at the border of a top over 100,000 rows that tie beside one over 1,000, likewise. Then ten times as many lines
of ten times as many keys, wanted at most 11 times as long. What the program does not compute is left out.
Ends with status 1 where a program fails, or its bytes differ from the yardstick's or from those of the stream alone.
"""
import re
import shutil
import subprocess
import sys
import tempfile
from pathlib import Path

from runs import STREAMS, TRADES, arguments, beside, computes, in_turn, write_keyed, write_trades, yardstick

# The query of each program of the yardstick, what it is told beside, and how many times as long it may take.
QUERIES = {
    "top": ("l | top 3 per k by w", "the yardstick", 3),
    "follow": ("l | follow r on k within 30", "the yardstick", 2.5),
    "sum": ("l | group by k : sum w as m", "the yardstick", None),
    "average": ("l | group by k : avg w as m", "the sum", 1.1),
}
COALESCE = f"{TRADES} | coalesce"
FOREVER = 1 << 40
STEPPED = {
    "top": "l | top 3 per k by w",
    "follow": f"l | follow r on k within {FOREVER}",
    "average": "l | group by k : avg w as m",
    "coalesce": "l | coalesce",
}
BORDER = "l | top 1 by w"
STEPS = 1_000
REPLACEMENTS = 20_000


def write_steps(path, alive, steps):
    """So many left rows that never end, each of its own key, and then steps: three left rows and two right ones, of keys that no
    other row has, which start and end an instant later. Two of the left rows are followed by a right one in the next step."""
    with open(path, "w") as out:
        for i in range(alive):
            out.write(f"l,interval,0,inf,{i},{i}\n")
        for at in range(1, steps + 1):
            for i in range(3):
                out.write(f"l,interval,{at},{at + 1},{1_000_000 + 3 * (at % 7) + i},{at % 100}\n")
            for i in range(2):
                out.write(f"r,interval,{at},{at + 1},{1_000_000 + 3 * ((at - 1) % 7) + i},{at % 100}\n")
            out.write(f"*,punct,{at + 1}\n")


def write_replacements(path, ties, steps):
    """So many rows that tie at 2 and never end, and at each instant one row at 9 that takes the place of another."""
    with open(path, "w") as out:
        for i in range(ties):
            out.write(f"l,interval,0,inf,{i},2\n")
        for at in range(1, steps + 1):
            out.write(f"l,interval,{at},{at + 1},{1_000_000 + at % 2},9\n*,punct,{at + 1}\n")


def instructions(program, query, path, folder):
    """How many instructions the program runs over the lines."""
    words = ["valgrind", "--tool=callgrind", f"--callgrind-out-file={folder / 'calls'}", program, "--query", STREAMS + query]
    with open(path) as lines:
        run = subprocess.run(words, stdin=lines, stdout=subprocess.DEVNULL, stderr=subprocess.PIPE, check=True)
    return int(re.search(rb"Collected : (\d+)", run.stderr)[1])


def step_instructions(program, query, folder, write, alive, steps):
    """The instructions of a step with so many rows alive: the difference of runs of so many steps and of three times as many."""
    counts = []
    for many in (steps, 3 * steps):
        write(folder / "steps", alive, many)
        counts.append(instructions(program, query, folder / "steps", folder))
    return (counts[1] - counts[0]) / (2 * steps)


def compare_steps(name, program, query, folder, write, sizes, steps):
    few, many = (step_instructions(program, query, folder, write, alive, steps) for alive in sizes)
    met = "met" if many <= 1.1 * few else "MISSED"
    print(f"{name}: {few:.0f} instructions with {sizes[0]} rows alive, {many:.0f} with {sizes[1]}: "
          f"{many / few:.2f} times (wanted 1.1: {met})", flush=True)


def jobs_of(program, lines):
    """The runs of each query that the program computes, in the program and by hand."""
    ours = {name: ([program, "--query", STREAMS + query], lines) for name, (query, *_) in QUERIES.items()
            if computes(program, STREAMS + query)}
    return ours | {f"{name} by hand": ([yardstick(), name], lines) for name in ours}


def main(read):
    program, good = read.program, True
    with tempfile.TemporaryDirectory() as name:
        folder = Path(name)
        lines, trades = folder / "lines", folder / "trades"
        write_keyed(lines, read.count, read.keys)
        runs = in_turn(jobs_of(program, lines))
        for name, (query, other, wanted) in QUERIES.items():
            if name not in runs:
                continue
            by_hand = runs[f"{name} by hand"]
            beside(f"{read.count} lines, {query}", runs[name], "the yardstick", by_hand, wanted if other == "the yardstick" else None)
            if other == "the sum":
                beside("the same", runs[name], other, runs["sum"], wanted)
            if runs[name].digest != by_hand.digest:
                print(f"{name}: not the yardstick's bytes")
                good = False
        if computes(program, COALESCE):
            write_trades(trades, read.count)
            least = in_turn({"coalesce": ([program, "--query", COALESCE], trades), "alone": ([program, "--query", TRADES], trades)})
            beside(f"{read.count} trades, coalesce", least["coalesce"], "the stream alone", least["alone"], 1.3)
            good = good and least["coalesce"].digest == least["alone"].digest
        if shutil.which("valgrind"):
            for name, query in STEPPED.items():
                if computes(program, STREAMS + query):
                    compare_steps(f"a step over ten edges, {name}", program, query, folder, write_steps, (100, 100_000), STEPS)
            if computes(program, STREAMS + BORDER):
                compare_steps("a replacement at the border of a top", program, BORDER, folder, write_replacements,
                              (1_000, 100_000), REPLACEMENTS // 2)
        write_keyed(lines, 10 * read.count, 10 * read.keys)
        ours = {name: job for name, job in jobs_of(program, lines).items() if name in QUERIES}
        for name, run in in_turn(ours, 1).items():
            beside(f"{10 * read.count} lines, {10 * read.keys} keys, {name}", run, "a tenth of the lines", runs[name], 11)
    sys.exit(0 if good else 1)


if __name__ == "__main__":
    count = {"nargs": "?", "type": int, "default": 1_000_000}
    main(arguments(__doc__, ("count", count), ("--keys", {"type": int, "default": 1000})))
