#!/usr/bin/env python3
"""Says where the program's instructions go: how many a line in reading, admission, the plan and output, beside the yardstick's.

usage: bench/parts.py [COUNT] [--program PATH]

Runs the program and the yardstick under valgrind over COUNT lines (20,000 if not given) and over none, and takes the
difference: for the filter, the windows with a group, the join, the anti-join, the sessions, the greatest, what follows and the
averages of the other scripts, as far as the program that is given computes them, and for open starts whose ends come in
opposite order, which the yardstick does not have. An instruction counts for the part whose function it is in; one in a
library, or in a crate that several parts call (rows, columns, edges, printing), counts for those that called it. Functions
that the compiler put into their callers count with these: a part of reading, admission and release is in `engine and program`.
Instructions do not depend on what else the machine does.
"""
import re
import shutil
import subprocess
import sys
import tempfile
from collections import defaultdict
from pathlib import Path

from runs import STREAMS, TRADES, arguments, computes, write_keyed, write_trades, yardstick

KEYS = 1000
PARTS = {
    "reading": "wire_lines row_reader",
    "admission": "ingress",
    "the plan": "dataflow where_select lane_expr lifetime_ops union_clip temporal_join anti_join session_window "
    "snapshot_agg coalesce_op outer_top follow_op sweep_sides synopsis agg_state end_queue",
    "output": "egress",
    "engine and program": "tempo tempo_cli tempo_engine command_line query_text query_plan",
}
PART_OF = {crate: part for part, crates in PARTS.items() for crate in crates.split()}
QUERIES = {
    "filter": f"{TRADES} | where px > 125",
    "tumble": f"{TRADES} | tumble 60 | group by sym : count as n, sum qty as q",
    "join": STREAMS + "l | join r on k",
    "anti": STREAMS + "l | anti r on k",
    "session": STREAMS + "l | session 30 by k",
    "top": STREAMS + "l | top 3 per k by w",
    "follow": STREAMS + "l | follow r on k within 30",
    "average": STREAMS + "l | group by k : avg w as m",
}
ROUNDS = 60
ENGINE = "engine and program"


def write_opens(path, count):
    """Half as many starts as lines, and their ends, the last start first."""
    with open(path, "w") as out:
        for i in range(count // 2):
            out.write(f"s,start,{i},inf,{i % 977}\n")
        for i in reversed(range(count // 2)):
            out.write(f"s,end,{count},{i},{i % 977}\n")


def profile(words, lines):
    """The instructions in each function of a run over the lines, and those below each call, by caller and function called."""
    with tempfile.TemporaryDirectory() as folder, open(lines) as stdin:
        file = Path(folder) / "calls"
        counted = ["valgrind", "--tool=callgrind", f"--callgrind-out-file={file}", *map(str, words)]
        run = subprocess.run(counted, stdin=stdin, stdout=subprocess.DEVNULL, stderr=subprocess.PIPE)
        if run.returncode != 0:
            sys.exit(run.stderr.decode())
        return parsed(file.read_text())


def parsed(text):
    names, own, calls = {}, defaultdict(int), defaultdict(int)
    caller = called = None
    for line in text.splitlines():
        if found := re.match(r"(c?)fn=\((\d+)\)(?: (.+))?", line):
            name = names.setdefault(found[2], found[3])
            if found[1]:
                called = name
            else:
                caller = name
        elif re.match(r"[+*\d-]", line):
            cost = int(line.split()[1]) if len(line.split()) > 1 else 0
            if called:
                calls[caller, called] += cost
                called = None
            else:
                own[caller] += cost
    return own, calls


def part_of(function):
    return PART_OF.get(re.match(r"<*(\w*)", function)[1])


def parts(words, lines):
    """The instructions of a run by part. What functions of no part take goes up to their callers, in the proportion of what is
    below each call."""
    own, calls = profile(words, lines)
    into = defaultdict(list)
    for (caller, called), cost in calls.items():
        if caller != called and not part_of(called):
            into[called].append((caller, cost))
    sums, moving = defaultdict(float), dict(own)
    for _ in range(ROUNDS):
        up = defaultdict(float)
        for function, cost in moving.items():
            callers = into[function]
            whole = sum(below for _, below in callers)
            if part_of(function) or not whole:
                sums[part_of(function) or ENGINE] += cost
            else:
                for caller, below in callers:
                    up[caller] += cost * below / whole
        moving = up
    sums[ENGINE] += sum(moving.values())
    return sums


def a_line(words, lines, none, count):
    """Instructions a line by part."""
    whole, idle = parts(words, lines), parts(words, none)
    return {part: (whole[part] - idle[part]) / count for part in PARTS}


def main(read):
    if not shutil.which("valgrind"):
        sys.exit("bench: install valgrind")
    with tempfile.TemporaryDirectory() as name:
        trades, keyed, opens, none = (Path(name) / word for word in ("trades", "keyed", "opens", "none"))
        write_trades(trades, read.count)
        write_keyed(keyed, read.count, KEYS)
        write_opens(opens, read.count)
        none.touch()
        taken = {kind: query for kind, query in QUERIES.items() if computes(read.program, query)}
        runs = {kind: (query, keyed if STREAMS in query else trades) for kind, query in taken.items()}
        runs["open starts"] = ("stream s(v int); s", opens)
        for kind, (query, lines) in runs.items():
            ours = a_line([read.program, "--query", query], lines, none, read.count)
            if not ours["reading"]:
                sys.exit("bench: the program has no names of functions: take the one that ./tempo --build makes, not that of dist/")
            told = ", ".join(f"{part} {cost:.0f}" for part, cost in ours.items())
            whole = sum(ours.values())
            beside = ""
            if kind in QUERIES:
                theirs = sum(a_line([yardstick(), kind], lines, none, read.count).values())
                beside = f"; {whole / theirs:.2f} times the yardstick's {theirs:.0f}"
            print(f"{kind}: {whole:.0f} instructions a line ({told}){beside}", flush=True)


if __name__ == "__main__":
    main(arguments(__doc__, ("count", {"nargs": "?", "type": int, "default": 20_000})))
