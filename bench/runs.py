"""What the scripts that time whole runs share: the yardstick and its lines, a run timed by the clock and by the processor, runs
of several programs in turn, and the lines that the definition of output gives for a list of events."""
import argparse
import hashlib
import os
import select
import subprocess
import sys
import tempfile
import time
from collections import defaultdict, deque
from pathlib import Path
from typing import NamedTuple

BENCH = Path(__file__).resolve().parent
PROGRAM = BENCH.parent / "crates/tempo/out/tempo"
COLUMNS = "(id int, sym text, px int, qty int)"
TRADES = f"stream trades{COLUMNS}; trades"
STREAMS = "stream l(k int, w int); stream r(k int, x int); "
SEED = 7


class Run(NamedTuple):
    """A run: seconds by the clock, user and system seconds, kilobytes held at most, and the digest of what was written."""

    wall: float
    processor: float
    kilobytes: int
    digest: str


def yardstick():
    """The program of the queries written by hand, built by `rustc` where its sources are newer."""
    program, sources = BENCH / "out/yardstick", sorted((BENCH / "yardstick").glob("*.rs"))
    if not program.exists() or any(source.stat().st_mtime > program.stat().st_mtime for source in sources):
        program.parent.mkdir(exist_ok=True)
        main = BENCH / "yardstick/main.rs"
        try:
            subprocess.run(["rustc", "-O", "--edition", "2021", "-o", program, main], check=True)
        except FileNotFoundError:
            sys.exit("bench: the yardstick is written in Rust: install rustc")
    return program


def write_trades(path, count):
    """Trades in order, 1 to 3 units apart, each alive for up to 20, with a punctuation after each 100."""
    with open(path, "wb") as out:
        subprocess.run([yardstick(), "trades", str(count), str(SEED)], stdout=out, check=True)


def write_keyed(path, count, keys):
    """Lines of the streams `l` and `r`, of so many keys, with a punctuation after each 100."""
    with open(path, "wb") as out:
        subprocess.run([yardstick(), "keyed", str(count), str(keys), str(SEED)], stdout=out, check=True)


def computes(program, query):
    """Whether the program takes the query."""
    words = [program, "--mode", "explain", "--query", query]
    return subprocess.run(words, stdout=subprocess.DEVNULL, stderr=subprocess.DEVNULL).returncode == 0


def digest_of(lines):
    digest = hashlib.sha256()
    for line in lines:
        digest.update(line)
    return digest.hexdigest()


def wait_for(run):
    """Waits for the end, and gives the status, the usage and the most kilobytes held. Those are read fifty times a second,
    since the usage counts what this script held when it started the program."""
    held, ended = 0, select.poll()
    descriptor = os.pidfd_open(run.pid)
    ended.register(descriptor, select.POLLIN)
    while not ended.poll(20):
        with open(f"/proc/{run.pid}/status") as lines:
            held = max([held] + [int(line.split()[1]) for line in lines if line.startswith("VmHWM:")])
    os.close(descriptor)
    _, status, usage = os.wait4(run.pid, 0)
    run.returncode = os.waitstatus_to_exitcode(status)
    return run.returncode, usage, held


def timed(words, path, keep=None, punctuations=True):
    """Runs the words over the file. What they write goes to a file, so that no reader's time counts. The digest is that of
    all bytes, or that of the lines other than punctuations."""
    keep = keep or tempfile.TemporaryFile()
    keep.seek(0)
    keep.truncate()
    began = time.monotonic()
    with open(path, "rb") as lines:
        run = subprocess.Popen([str(word) for word in words], stdin=lines, stdout=keep)
        status, usage, held = wait_for(run)
    wall = time.monotonic() - began
    if status != 0:
        sys.exit(f"bench: {' '.join(map(str, words))} ended with {status}")
    keep.seek(0)
    pieces = iter(lambda: keep.read(1 << 20), b"") if punctuations else (line for line in keep if line[:1] != b"*")
    return Run(wall, usage.ru_utime + usage.ru_stime, held, digest_of(pieces))


def in_turn(jobs, rounds=5):
    """Runs each job, words and a file, `rounds` times, all of them in turn. For each name the least of its times, its most
    memory and its digest. Ends the script where two runs of one job write different bytes."""
    runs = {name: [] for name in jobs}
    with tempfile.TemporaryFile() as keep:
        for _ in range(rounds):
            for name, (words, path) in jobs.items():
                runs[name].append(timed(words, path, keep))
    least = {}
    for name, all_runs in runs.items():
        if len({run.digest for run in all_runs}) != 1:
            sys.exit(f"bench: {name} wrote different bytes in two runs")
        wall, processor = (min(run[i] for run in all_runs) for i in (0, 1))
        least[name] = Run(wall, processor, max(run.kilobytes for run in all_runs), all_runs[0].digest)
    return least


def beside(name, run, other_name, other, wanted=None):
    """Prints a run and its ratio to another, by the processor and by the clock."""
    ratio = run.processor / other.processor
    limit = f" (wanted {wanted}: {'met' if ratio <= wanted else 'MISSED'})" if wanted else ""
    memory = f", {run.kilobytes / 1024:.0f} MB" if run.kilobytes else ""
    print(
        f"{name}: {run.processor:.2f} s of processor, {run.wall:.2f} s by the clock{memory}; "
        f"{ratio:.2f} times {other_name} by the processor, {run.wall / other.wall:.2f} by the clock{limit}",
        flush=True,
    )


def changes(events):
    """The start and end lines, without punctuations, that the definition of output gives for events: triples of a row of
    ints and texts, a start and an end. At each instant the net change of equal rows, ends before starts, each in row order,
    and an end names the earliest open start of its row."""
    net = defaultdict(lambda: defaultdict(int))
    for row, start, end in events:
        net[start][row] += 1
        net[end][row] -= 1
    opened = defaultdict(deque)
    for at in sorted(net):
        rows = sorted(net[at].items())
        for row, count in rows:
            for _ in range(-count):
                yield f"out,end,{at},{opened[row].popleft()},{','.join(map(str, row))}\n".encode()
        for row, count in rows:
            for _ in range(count):
                opened[row].append(at)
                yield f"out,start,{at},inf,{','.join(map(str, row))}\n".encode()


def arguments(text, *positional):
    """The arguments of a script: its own, and the program that is timed."""
    reader = argparse.ArgumentParser(description=text, formatter_class=argparse.RawDescriptionHelpFormatter)
    for name, options in positional:
        reader.add_argument(name, **options)
    reader.add_argument("--program", type=Path, default=PROGRAM, help="the program that is timed")
    read = reader.parse_args()
    if not read.program.exists():
        sys.exit(f"bench: there is no {read.program}: build the program first, or name one by --program")
    read.program = read.program.resolve()
    return read
