#!/usr/bin/env python3
"""Times groups and their aggregates beside a program written by hand.

usage: bench/groups.py [COUNT] [--program PATH]

Over COUNT trades (1,000,000 if not given): the count and the sum by `sym` in windows of 60 beside the yardstick, wanted at most
2.5 times; `min` and `max` beside `sum`, in the windows and over the lifetimes as they are, wanted at most twice; then ten times as
many trades, wanted at most 11 times as long. Then 300,000 start edges that never end, in one group and each in a group of
its own, wanted below 3 seconds each.
Ends with status 1 where the program fails or its bytes differ from the yardstick's, from the definition's lines (for `min`
and `max`, over a tenth of the trades) or from the known answer (for the start edges).
"""
import sys
import tempfile
from pathlib import Path

from runs import TRADES, arguments, beside, changes, digest_of, in_turn, timed, write_trades, yardstick

TUMBLE = f"{TRADES} | tumble 60 | group by sym : count as n, sum qty as q"
AGGREGATES = {
    f"{form} of {over}": f"{TRADES}{window} | group by sym : {form} qty as q"
    for over, window in (("windows", " | tumble 60"), ("lifetimes as they are", ""))
    for form in ("sum", "min", "max")
}
EDGES = 300_000
EDGE_SECONDS = 3.0


def holds_definition(program, path):
    """Whether the least and the greatest of each window and `sym` are those of the definition."""
    sizes = {}
    with open(path) as lines:
        for line in lines:
            if not line.startswith("*"):
                _, _, start, _, _, sym, _, size = line.split(",")
                sizes.setdefault((int(start) // 60 * 60, sym), []).append(int(size))
    good = True
    for form, value in (("sum", sum), ("min", min), ("max", max)):
        name = f"{form} of windows"
        expected = digest_of(changes(((sym, value(all_of)), at, at + 60) for (at, sym), all_of in sizes.items()))
        if timed([program, "--query", AGGREGATES[name]], path, punctuations=False).digest != expected:
            print(f"{name}: not the lines of the definition")
            good = False
    return good


def running_sum():
    yield b"out,start,0,inf,1\n"
    for i in range(1, EDGES):
        yield f"out,end,{i},{i - 1},{i}\nout,start,{i},inf,{i + 1}\n".encode()
    yield b"*,punct,inf\n"


def groups_of_one():
    for i in range(EDGES):
        yield f"out,start,{i},inf,{i},1\n".encode()
    yield b"*,punct,inf\n"


def start_edges(program, path):
    """Times start edges that never end, and tells whether what is written is the known answer, in time."""
    good = True
    for query, value, answer in (
        ("group : sum v as t", lambda i: 1, running_sum),
        ("group by v : count as n", lambda i: i, groups_of_one),
    ):
        with open(path, "w") as out:
            for i in range(EDGES):
                out.write(f"s,start,{i},inf,a,{value(i)}\n")
        run = in_turn({query: ([program, "--query", f"stream s(k text, v int); s | {query}"], path)})[query]
        met = "met" if run.processor < EDGE_SECONDS else "MISSED"
        print(
            f"{EDGES} start edges, {query}: {run.processor:.2f} s of processor, {run.wall:.2f} s by the clock, "
            f"{run.kilobytes / 1024:.0f} MB (wanted below {EDGE_SECONDS:.0f} s: {met})",
            flush=True,
        )
        if run.digest != digest_of(answer()):
            print(f"{query}: not the known answer")
            good = False
    return good


def main(read):
    with tempfile.TemporaryDirectory() as name:
        path = Path(name) / "lines"
        ours, theirs = ([read.program, "--query", TUMBLE], path), ([yardstick(), "tumble"], path)
        write_trades(path, read.count // 10)
        good = holds_definition(read.program, path)
        good = start_edges(read.program, Path(name) / "edges") and good
        write_trades(path, read.count)
        least = in_turn({"ours": ours, "theirs": theirs})
        tumble = least["ours"]
        beside(f"{read.count} trades, count and sum by sym in windows of 60", tumble, "the yardstick", least["theirs"], 2.5)
        if tumble.digest != least["theirs"].digest:
            print("count and sum by sym in windows of 60: not the yardstick's bytes")
            good = False
        runs = in_turn({name: ([read.program, "--query", query], path) for name, query in AGGREGATES.items()})
        for name, run in runs.items():
            form, over = name.split(" of ")
            beside(f"{read.count} trades, {name}", run, "sum", runs[f"sum of {over}"], None if form == "sum" else 2)
        write_trades(path, 10 * read.count)
        least = in_turn({"ours": ours, "theirs": theirs}, 1)
        beside(f"{10 * read.count} trades, the same", least["ours"], "a tenth of the lines", tumble, 11)
        good = good and least["ours"].digest == least["theirs"].digest
    sys.exit(0 if good else 1)


if __name__ == "__main__":
    main(arguments(__doc__, ("count", {"nargs": "?", "type": int, "default": 1_000_000})))
