#!/usr/bin/env python3
"""Measures what a checkpoint costs: to take it, to go on from it, its bytes and the memory that both hold; and to keep them.

usage: bench/checkpoints.py [ROWS] [--lines LINES] [--folder FOLDER] [--program PATH]

With ROWS rows of four columns alive (100,000 if not given), once as open starts of a stream, once on one side of a join and once
in a group: the seconds of the processor that a frozen run takes beyond a run over the same lines, and that a resumed run takes to
begin, each wanted below 0.5 s, and the memory beside that of the run, wanted at most 3 times; and the bytes of an entry, wanted
at most 120. (Both runs end at a line that is refused, so the end of the input costs nothing.) Then what a restart takes behind
LINES trades (3,000,000): from a checkpoint, wanted below 1 s, and from the first line on.
Then with --checkpoint, over files in a new folder below FOLDER (that of temporary files): what a checkpoint takes of the
processor, and how long it holds the run up by the clock, which the disk has a part in; once with ROWS rows alive, and once with
ROWS held rows, wanted below 50 ms of the processor. A held row is an entry that admission or an operator keeps (`Engine::held`
counts them): of a row in a join there are two, the row and its end, and of a row in this group six, the row, a state for each of
two aggregates, its key, the row that was emitted, and its end. And what a run over the trades takes in which no checkpoint is
due, beside one without, wanted at most 1.01 times the processor.
Ends with status 1 where a run that was cut in two, or that kept checkpoints, writes other bytes than one run.
"""
import subprocess
import sys
import tempfile
import time
from pathlib import Path
from typing import NamedTuple

from runs import TRADES, arguments, wait_for, write_trades

COLUMNS = "(id int, name text, px int, ok bool)"
ONE, TWO = f"stream s{COLUMNS}; ", f"stream s{COLUMNS}; stream r(id int, w int); "
HELD = {
    "open starts": (f"{ONE}s", "start"),
    "a join": (f"{TWO}s | join r on id", "interval"),
    "a group": (f"{ONE}s | group by id : count as n, sum px as t", "interval"),
}
HELD_EACH = {"open starts": 1, "a join": 2, "a group": 6}
COUNTED = f"{TRADES} | tumble 60 | group by sym : count as n, sum qty as q"
END = 1 << 40
STOP = b'"!\n'
ROUNDS = 5
SECONDS, TIMES, BYTES, RESTART = 0.5, 3, 120, 1.0
PAUSE, BETWEEN = 0.050, 1.01
PAUSES = 20
NEVER = (1 << 60) - 1


class Run(NamedTuple):
    """The seconds of the processor and by the clock, and the kilobytes held at most."""

    processor: float
    wall: float
    kilobytes: int


def ran(words, parts, out=subprocess.DEVNULL, wanted=0):
    """A run over files, one behind the other, which is to end with that status."""
    with tempfile.TemporaryFile() as fed:
        for part in parts:
            fed.write(part if isinstance(part, bytes) else part.read_bytes())
        fed.seek(0)
        began = time.monotonic()
        started = subprocess.Popen([str(word) for word in words], stdin=fed, stdout=out, stderr=subprocess.DEVNULL)
        status, usage, held = wait_for(started)
    if status != wanted:
        sys.exit(f"bench: {' '.join(map(str, words))} ended with {status}")
    return Run(usage.ru_utime + usage.ru_stime, time.monotonic() - began, held)


def least(words, parts, wanted=0):
    """The least times of some runs, and their most memory."""
    runs = [ran(words, parts, wanted=wanted) for _ in range(ROUNDS)]
    return Run(min(run.processor for run in runs), min(run.wall for run in runs), max(run.kilobytes for run in runs))


def written(words, parts):
    """What a run writes."""
    with tempfile.TemporaryFile() as out:
        ran(words, parts, out)
        out.seek(0)
        return out.read()


def parted(text):
    """The text of a frozen run, and its checkpoint."""
    at = 0 if text.startswith(b"#") else text.index(b"\n#tempo,") + 1
    return text[:at], text[at:]


def write_held(path, rows, kind):
    """So many rows of different keys, which are alive at the last punctuation."""
    with open(path, "w") as out:
        for i in range(rows):
            out.write(f"s,{kind},{i},{'inf' if kind == 'start' else END + i},{i},name{i % 1000},{i % 777},{'true' if i % 3 else 'false'}\n")
        out.write(f"*,punct,{rows}\n")


def told(value, wanted):
    return f"(wanted {wanted}: {'met' if value <= wanted else 'MISSED'})"


def measure_held(read, name, folder):
    """Prints the figures of one query with many rows alive, and returns whether the cut run wrote the bytes of one run."""
    query, kind = HELD[name]
    lines, words = folder / "lines", [read.program, "--query", query]
    write_held(lines, read.rows, kind)
    text, checkpoint = parted(written([*words, "--mode", "freeze"], [lines]))
    alone = least(words, [lines, STOP], 4)
    frozen = least([*words, "--mode", "freeze"], [lines])
    resumed = least([*words, "--mode", "resume"], [checkpoint, STOP], 4)
    entries = checkpoint.count(b"\n#entry,")
    each = sum(len(line) + 1 for line in checkpoint.split(b"\n") if line.startswith(b"#entry,")) / entries
    more = max(0.0, frozen.processor - alone.processor)
    print(f"{read.rows} rows alive, {name}: {entries} entries of {each:.0f} bytes {told(each, BYTES)}", flush=True)
    print(f"    to freeze {more:.2f} s {told(more, SECONDS)}, {frozen.kilobytes / alone.kilobytes:.2f} times the memory "
          f"{told(frozen.kilobytes / alone.kilobytes, TIMES)}")
    print(f"    to resume {resumed.processor:.2f} s {told(resumed.processor, SECONDS)}, "
          f"{resumed.kilobytes / alone.kilobytes:.2f} times the memory {told(resumed.kilobytes / alone.kilobytes, TIMES)}", flush=True)
    same = text + written([*words, "--mode", "resume"], [checkpoint]) == written(words, [lines])
    print("" if same else f"    {name}: OTHER BYTES than one run\n", end="")
    return same


def measure_restart(read, folder):
    """Prints what it takes to go on behind many lines, and returns whether the cut run wrote the bytes of one run."""
    lines, words = folder / "trades", [read.program, "--query", COUNTED]
    write_trades(lines, read.lines)
    all_lines = lines.read_bytes()
    at = all_lines.rindex(b"\n", 0, len(all_lines) - 10_000) + 1
    before, behind = folder / "before", all_lines[at:]
    before.write_bytes(all_lines[:at])
    text, checkpoint = parted(written([*words, "--mode", "freeze"], [before]))
    resumed = least([*words, "--mode", "resume"], [checkpoint, behind])
    whole = ran(words, [lines])
    print(f"a restart behind {read.lines} lines: {resumed.wall:.2f} s {told(resumed.wall, RESTART)}; "
          f"from the first line on {whole.wall:.2f} s; the checkpoint has {len(checkpoint)} bytes", flush=True)
    same = text + written([*words, "--mode", "resume"], [checkpoint, behind]) == written(words, [lines])
    print("" if same else "    OTHER BYTES than one run\n", end="")
    return same


def kept(read, folder, query, lines, every):
    """A run over a file that keeps checkpoints, from its first line on, and what it wrote."""
    state, out = folder / "state", folder / "out"
    for path in (state, out):
        path.unlink(missing_ok=True)
    run = ran([read.program, "--query", query, "--checkpoint", state, "--every", every, "--input", lines, "--output", out], [])
    return run, out.read_bytes()


def measure_pause(read, name, rows, folder):
    """Prints what a checkpoint with so many rows alive takes, and returns whether the run wrote the bytes of one run."""
    query, kind = HELD[name]
    lines = folder / "lines"
    write_held(lines, rows, kind)
    with open(lines, "a") as out:
        out.writelines(f"*,punct,{rows + 1 + i}\n" for i in range(PAUSES))
    # (Due at each of the last punctuations, or at none.)
    runs = [[kept(read, folder, query, lines, every) for _ in range(ROUNDS)] for every in (1, NEVER)]
    # (With --every 1 one is due at the punctuation behind the rows too.)
    processor, wall = ((min(each) - min(none)) / (PAUSES + 1) for each, none in (
        [[run.processor for run, _ in of] for of in runs], [[run.wall for run, _ in of] for of in runs]))
    held = rows * HELD_EACH[name]
    limit = f" {told(processor, PAUSE)}" if held <= read.rows else ""
    print(f"{rows} rows alive, {held} held, {name}: a checkpoint takes {1000 * processor:.1f} ms of the processor{limit}, "
          f"and holds the run up for {1000 * wall:.0f} ms", flush=True)
    text, _ = parted(written([read.program, "--query", query, "--mode", "freeze"], [lines]))
    same = all(out == text for of in runs for _, out in of)
    print("" if same else f"    {name}: OTHER BYTES than one run\n", end="")
    return same


def measure_between(read, folder):
    """Prints what a run takes while no checkpoint is due, beside one that keeps none, and returns whether both wrote the same."""
    lines, out = folder / "trades", folder / "plain"
    if not lines.exists():
        write_trades(lines, read.lines)
    plain, with_state, texts = [], [], []
    for _ in range(ROUNDS):
        with open(lines) as fed, open(out, "wb") as wrote:
            started = subprocess.Popen([str(read.program), "--query", COUNTED, "--mode", "freeze"], stdin=fed, stdout=wrote)
            status, usage, _ = wait_for(started)
        if status:
            sys.exit(f"bench: the run without checkpoints ended with {status}")
        plain.append(usage.ru_utime + usage.ru_stime)
        run, text = kept(read, folder, COUNTED, lines, NEVER)
        with_state.append(run.processor)
        texts.append(text)
    times = min(with_state) / min(plain)
    print(f"{read.lines} lines between two checkpoints: {times:.3f} times a run that keeps none {told(times, BETWEEN)}", flush=True)
    same = all(text == parted(out.read_bytes())[0] for text in texts)
    print("" if same else "    OTHER BYTES than one run\n", end="")
    return same


def main(read):
    good = True
    with tempfile.TemporaryDirectory(dir=read.folder) as name:
        for held in HELD:
            good = measure_held(read, held, Path(name)) and good
        good = measure_restart(read, Path(name)) and good
        for held, each in HELD_EACH.items():
            for rows in sorted({read.rows, read.rows // each}):
                good = measure_pause(read, held, rows, Path(name)) and good
        good = measure_between(read, Path(name)) and good
    sys.exit(0 if good else 1)


if __name__ == "__main__":
    main(arguments(__doc__, ("rows", {"nargs": "?", "type": int, "default": 100_000}), ("--lines", {"type": int, "default": 3_000_000}), ("--folder", {})))
