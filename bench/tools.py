#!/usr/bin/env python3
"""Times the tools that stand before and behind the program: lines from CSV and JSON, cut and merge.

usage: bench/tools.py [COUNT] [--runs N]

COUNT records, 400,000 if nothing is said: a date or a number of seconds, one of 100 names, a price of two places at most
and a number. Times are the processor's (user and system) with the start of Python, the least of N runs, 5 if nothing is
said. Ends with status 1 where an answer is wrong, or a tool makes fewer than 400,000 lines a second.
"""
import argparse
import os
import random
import subprocess
import sys
import tempfile
from datetime import datetime, timezone
from pathlib import Path

EXAMPLES = Path(__file__).resolve().parent.parent / "examples"
WANTED = 400_000
QUERY = "stream trades(sym text, price dec(2), qty int); trades"
PARTS = 8


def records(count):
    draw, time = random.Random(1), 1777636800
    for _ in range(count):
        time += draw.randrange(3)
        yield time, f"S{draw.randrange(100)}", draw.randrange(10000), draw.randrange(1, 1000)


def price(hundredths):
    return f"{hundredths / 100:.2f}".rstrip("0").rstrip(".")


def write_inputs(folder, count):
    """The records as CSV and JSON, with dates and with numbers, and the lines that are to be made of them."""
    kinds = ["date.csv", "number.csv", "date.json", "number.json"]
    inputs, lines = {kind: open(folder / kind, "w") for kind in kinds}, open(folder / "lines", "w")
    for kind in kinds[:2]:
        inputs[kind].write("at,sym,price,qty\n")
    for time, name, hundredths, number in records(count):
        date, told = datetime.fromtimestamp(time, timezone.utc).strftime("%Y-%m-%dT%H:%M:%S+00:00"), price(hundredths)
        inputs["date.csv"].write(f"{date},{name},{told},{number}\n")
        inputs["number.csv"].write(f"{time},{name},{told},{number}\n")
        inputs["date.json"].write(f'{{"at": "{date}", "sym": "{name}", "price": {told}, "qty": {number}}}\n')
        inputs["number.json"].write(f'{{"at": {time}, "sym": "{name}", "price": {told}, "qty": {number}}}\n')
        lines.write(f"trades,interval,{time},{time + 1},{name},{hundredths / 100:.2f},{number}\n")
    for file in [*inputs.values(), lines]:
        file.close()
    return kinds


def write_outputs(folder, count):
    """An output, and the same in parts by its first column, with a punctuation after each thousand lines."""
    rows = sorted((time, name.encode(), hundredths, number) for time, name, hundredths, number in records(count))
    whole, parts = open(folder / "whole", "w"), [open(folder / f"out-{part}", "w") for part in range(PARTS)]
    before = None
    for at, (time, name, hundredths, number) in enumerate(rows):
        line = f"out,start,{time},inf,{name.decode()},{hundredths / 100:.2f},{number}\n"
        if at % 1000 == 0 and time != before:
            for file in [whole, *parts]:
                file.write(f"*,punct,{time}\n")
        before = time
        for file in (whole, parts[int(name[1:]) % PARTS]):
            file.write(line)
    for file in [whole, *parts]:
        file.close()


def least(runs, words, source, out):
    """The least seconds of the processor of so many runs."""
    seconds = []
    for _ in range(runs):
        with open(source, "rb") as read, open(out, "wb") as written:
            run = subprocess.Popen([sys.executable, *words], stdin=read, stdout=written)
            _, status, usage = os.wait4(run.pid, 0)
        if status:
            sys.exit(f"{words[0]} failed")
        seconds.append(usage.ru_utime + usage.ru_stime)
    return min(seconds)


def main():
    parser = argparse.ArgumentParser(description=__doc__, formatter_class=argparse.RawDescriptionHelpFormatter)
    parser.add_argument("count", nargs="?", type=int, default=400_000)
    parser.add_argument("--runs", type=int, default=5)
    options = parser.parse_args()
    good = True

    def tell(name, seconds, right):
        nonlocal good
        rate = options.count / seconds
        missed = "" if rate >= WANTED else "  *MISSED*"
        print(f"{name:20} {seconds:.2f} s, {rate / 1000:.0f},000 lines a second{missed}{'' if right else '  WRONG'}", flush=True)
        good = good and right and not missed

    with tempfile.TemporaryDirectory() as name:
        folder = Path(name)
        made = folder / "made"
        for kind in write_inputs(folder, options.count):
            words = [EXAMPLES / "lines", "from", kind.partition(".")[2], "--stream", "trades", "--time", "at",
                     "--columns", "sym,price:2,qty"]
            seconds = least(options.runs, words, folder / kind, made)
            tell(f"lines from {kind}", seconds, made.read_bytes() == (folder / "lines").read_bytes())
        seconds = least(options.runs, [EXAMPLES / "cut", "--query", QUERY, "--by", "trades=sym", "--parts", str(PARTS), "--punctuate", "60",
                                       "--into", folder], folder / "lines", made)
        cut = [line for part in range(PARTS) for line in (folder / f"part-{part}").read_text().splitlines() if line[0] != "*"]
        tell("cut", seconds, sorted(cut) == sorted((folder / "lines").read_text().splitlines()))
        write_outputs(folder, options.count)
        words = [EXAMPLES / "merge", "--kinds", "text,dec(2),int", *(folder / f"out-{part}" for part in range(PARTS))]
        seconds = least(options.runs, words, "/dev/null", made)
        tell("merge", seconds, made.read_bytes() == (folder / "whole").read_bytes())
    sys.exit(0 if good else 1)


if __name__ == "__main__":
    main()
