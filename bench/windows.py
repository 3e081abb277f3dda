#!/usr/bin/env python3
"""Times windows, changes of lifetimes and a union beside the query that is the stream alone.

usage: bench/windows.py [COUNT] [--program PATH]

Over COUNT trades (1,000,000 if not given) with a punctuation after each 100: `hop 60 60`, `tumble 60`, `delay 5`,
`extend 5`, `duration 5`, and the union of two streams that have half of the lines each, all in turn, the least of five runs;
wanted is at most 1.3 times the stream alone. The tumbling window is also told beside the stream alone over lifetimes that
are those windows already, which has the same output. Then a step over ten edges, five starts and five ends, with 100,000 rows
alive beside one with 100 alive: the difference of a run of many steps and of one that ends where so many are alive, by step.
Then ten times as many trades, wanted at most 11 times as long.
Ends with status 1 where the program fails, where two runs differ, or where what is written over a tenth of the trades is
not what the definition gives.
"""
import sys
import tempfile
from pathlib import Path

from runs import COLUMNS, TRADES, arguments, beside, changes, digest_of, in_turn, timed, write_trades

HALVES = f"stream a{COLUMNS}; stream b{COLUMNS}; a | union b"

# Each query with the lifetime that the definition gives for a lifetime from start to end.
LIVES = {
    "the stream alone": (TRADES, lambda start, end: (start, end)),
    "hop 60 60": (f"{TRADES} | hop 60 60", lambda start, end: (start // 60 * 60, start // 60 * 60 + 60)),
    "tumble 60": (f"{TRADES} | tumble 60", lambda start, end: (start // 60 * 60, start // 60 * 60 + 60)),
    "delay 5": (f"{TRADES} | delay 5", lambda start, end: (start + 5, end + 5)),
    "extend 5": (f"{TRADES} | extend 5", lambda start, end: (start, end + 5)),
    "duration 5": (f"{TRADES} | duration 5", lambda start, end: (start, start + 5)),
    "union of two halves": (HALVES, lambda start, end: (start, end)),
}
ROWS_A_STEP = 5
STEPS = 40_000


def write_halves(path, halves):
    """The same lines, each event in stream `a` or `b` in turn."""
    with open(path, "rb") as lines, open(halves, "wb") as out:
        for i, line in enumerate(lines):
            out.write(line if line.startswith(b"*") else line.replace(b"trades", b"ab"[i % 2 : i % 2 + 1], 1))


def write_windows(path, windows):
    """The same lines, each lifetime the window of 60 that its start is in, and the punctuations between windows."""
    with open(path) as lines, open(windows, "w") as out:
        last = 0
        for line in lines:
            stream, form, start, *rest = line.split(",")
            window = int(start) // 60 * 60
            if stream != "*":
                out.write(",".join([stream, form, str(window), str(window + 60), *rest[1:]]))
            elif window > last:
                out.write(f"*,punct,{window}\n")
                last = window


def events(path):
    with open(path) as lines:
        for line in lines:
            if not line.startswith("*"):
                _, _, start, end, number, sym, price, size = line.split(",")
                yield (int(number), sym, int(price), int(size)), int(start), int(end)


def holds_definition(program, path, halves):
    """Whether each query writes the lines of the definition."""
    all_events, good = list(events(path)), True
    for name, (query, life) in LIVES.items():
        run = timed([program, "--query", query], halves if query == HALVES else path, punctuations=False)
        expected = digest_of(changes((row, *life(start, end)) for row, start, end in all_events))
        if run.digest != expected:
            print(f"{name}: not the lines of the definition")
            good = False
    return good


def write_steps(path, steps, life):
    """Steps of one instant: five rows that start, of lifetimes so long, and a punctuation."""
    with open(path, "w") as out:
        for at in range(1, steps + 1):
            for i in range(ROWS_A_STEP):
                out.write(f"trades,interval,{at},{at + life},{at * ROWS_A_STEP + i},S{i},{100 + i},1\n")
            out.write(f"*,punct,{at + 1}\n")


def step_times(program, folder, step, alive):
    """The processor's microseconds of a step of each query with so many rows alive."""
    life = alive // ROWS_A_STEP
    short, long = folder / "short", folder / "long"
    write_steps(short, life, life)
    write_steps(long, life + STEPS, life)
    jobs = {}
    for name in step:
        query = f"{TRADES}{step[name].format(life=life)}"
        jobs[name, short] = ([program, "--query", query], short)
        jobs[name, long] = ([program, "--query", query], long)
    least = in_turn(jobs, 3)
    return {name: (least[name, long].processor - least[name, short].processor) / STEPS * 1e6 for name in step}


def main(read):
    with tempfile.TemporaryDirectory() as name:
        folder = Path(name)
        path, halves = folder / "trades", folder / "halves"
        write_trades(path, read.count // 10)
        write_halves(path, halves)
        good = holds_definition(read.program, path, halves)

        def jobs():
            return {n: ([read.program, "--query", q], halves if q == HALVES else path) for n, (q, _) in LIVES.items()}

        write_trades(path, read.count)
        write_halves(path, halves)
        least = in_turn(jobs())
        alone = least["the stream alone"]
        for name, run in least.items():
            beside(f"{read.count} trades, {name}", run, "the stream alone", alone, None if run is alone else 1.3)
        write_windows(path, folder / "windows")
        words = [read.program, "--query", TRADES]
        given = in_turn({"given": (words, folder / "windows")})["given"]
        beside("tumble 60", least["tumble 60"], "the stream alone over lifetimes that are windows", given)
        good = good and given.digest == least["tumble 60"].digest
        step = {"the stream alone": "", "hop": " | hop {life} 1", "duration": " | duration {life}"}
        step |= {"delay": " | delay 5", "extend": " | extend 5"}
        few, many = (step_times(read.program, folder, step, alive) for alive in (100, 100_000))
        for name in step:
            print(
                f"a step over ten edges, {name}: {few[name]:.1f} us with 100 rows alive, {many[name]:.1f} us with 100,000: "
                f"{many[name] / few[name]:.2f} times",
                flush=True,
            )
        write_trades(path, 10 * read.count)
        write_halves(path, halves)
        for name, run in in_turn(jobs(), 1).items():
            beside(f"{10 * read.count} trades, {name}", run, "a tenth of the lines", least[name], 11)
    sys.exit(0 if good else 1)


if __name__ == "__main__":
    main(arguments(__doc__, ("count", {"nargs": "?", "type": int, "default": 1_000_000})))
