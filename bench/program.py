#!/usr/bin/env python3
"""Times the program over trades, and its answer to a line that makes a punctuation due.

usage: bench/program.py [COUNT] [--program PATH]

Three figures: `where px > 125` over COUNT trades (1,000,000 if not given) with a punctuation after each 100, beside the
yardstick, wanted at most 2 times; the same over ten times as many, with the memory that the program then holds, wanted at most
11 times as long; and the time from a line that makes a punctuation due to its bytes being there, over a pipe.
Ends with status 1 where the program fails or its bytes differ from the yardstick's.
"""
import subprocess
import sys
import tempfile
import time
from pathlib import Path

from runs import TRADES, arguments, beside, in_turn, write_trades, yardstick

QUERY = f"{TRADES} | where px > 125"
ROUNDS = 200


def answer_time(program, query=QUERY, workers=1):
    """The median of the seconds from a line that makes a punctuation due to the first bytes, over a pipe."""
    words = [program, "--query", query, *(["--workers", str(workers)] if workers > 1 else [])]
    run = subprocess.Popen(words, stdin=subprocess.PIPE, stdout=subprocess.PIPE, bufsize=0)
    times = []
    for i in range(1, ROUNDS + 1):
        run.stdin.write(f"trades,interval,{10 * i},{10 * i + 5},{i},S,130,1\n".encode())
        began = time.monotonic()
        run.stdin.write(f"*,punct,{10 * i + 7}\n".encode())
        run.stdout.read(1)
        times.append(time.monotonic() - began)
        while not run.stdout.read(4096).endswith(f"*,punct,{10 * i + 7}\n".encode()):
            pass
    run.stdin.close()
    run.stdout.read()
    run.wait()
    return sorted(times)[ROUNDS // 2]


def main(read):
    with tempfile.TemporaryDirectory() as name:
        path = Path(name) / "trades"
        ours, theirs = ([read.program, "--query", QUERY], path), ([yardstick(), "filter"], path)
        write_trades(path, read.count)
        least = in_turn({"ours": ours, "theirs": theirs})
        alone = least["ours"]
        beside(f"{read.count} trades, where px > 125", alone, "the yardstick", least["theirs"], 2)
        good = alone.digest == least["theirs"].digest
        write_trades(path, 10 * read.count)
        least = in_turn({"ours": ours, "theirs": theirs}, 1)
        beside(f"{10 * read.count} trades", least["ours"], "a tenth of the lines", alone, 11)
        good = good and least["ours"].digest == least["theirs"].digest
    print(f"from a line that makes a punctuation due to its bytes: {answer_time(read.program) * 1e6:.0f} us")
    sys.exit(0 if good else 1)


if __name__ == "__main__":
    main(arguments(__doc__, ("count", {"nargs": "?", "type": int, "default": 1_000_000})))
