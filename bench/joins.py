#!/usr/bin/env python3
"""Times a join, an anti-join and sessions by key beside programs written by hand, and the join beside PostgreSQL and SQLite.

usage: bench/joins.py [COUNT] [--keys KEYS] [--program PATH]

Over COUNT lines (1,000,000 if not given) of two streams and KEYS keys (1,000): each beside the yardstick, wanted at most 2.5
times; the join beside PostgreSQL (two tables of lifetimes as ranges, an index of one by key, then one by key and lifetime, in a
server of this script's own) and SQLite (an index by key), once each, where they are installed: they write the pairs in no
order, and their loading counts. Then, of the join and the anti-join, a step over ten edges with 100,000 rows alive on each side
beside one with 100 alive, where each row that comes meets one: its time, beside that of the yardstick, whose rows leave the
caches too, and where valgrind is installed its instructions, which do not depend on that.
The first steps are left out: an anti-join groups its right side, and the first row of a group that ends out of turn brings
all rows into an index, once. Then ten times as many lines of ten times as many keys, wanted at most 11 times as long.
Ends with status 1 where a program fails, or its bytes differ from the yardstick's, or the pairs of a database do not give
the same lines by the definition.
"""
import os
import pwd
import re
import shutil
import subprocess
import sys
import tempfile
import time
from pathlib import Path

from runs import STREAMS, Run, arguments, beside, changes, digest_of, in_turn, timed, write_keyed, yardstick

QUERIES = {
    "join": STREAMS + "l | join r on k",
    "anti": STREAMS + "l | anti r on k",
    "session": STREAMS + "l | session 30 by k",
}
STEPPED = ("join", "anti")
STEPS = 50_000
COUNTED_STEPS = 1_000

POSTGRES_LOAD = """
create unlogged table l (life int8range, k int8, w int8);
create unlogged table r (life int8range, k int8, x int8);
\\copy l from '{left}' csv
\\copy r from '{right}' csv
{index}
analyze;
"""
POSTGRES_INDEXES = {
    "an index by key": "create index on r (k);",
    "an index by key and lifetime": "create extension btree_gist; create index on r using gist (k, life);",
}
POSTGRES_JOIN = """
create view b as select l.k, w, x, l.life * r.life as life from l join r on l.k = r.k where l.life && r.life;
\\copy (select lower(life), upper(life), k, w, x from b) to '{pairs}' csv
"""
SQLITE = """
create table l (start integer, stop integer, k integer, w integer);
create table r (start integer, stop integer, k integer, x integer);
.mode csv
.import {left} l
.import {right} r
create index by_key on r (k);
analyze;
.output {pairs}
select max(l.start, r.start), min(l.stop, r.stop), l.k, w, x from l join r on l.k = r.k
where l.start < r.stop and r.start < l.stop;
"""


def write_tables(lines, folder, life):
    """The lines of each stream as a table for a database, with a lifetime as that writes it."""
    with open(lines) as read, open(folder / "left", "w") as left, open(folder / "right", "w") as right:
        for line in read:
            if not line.startswith("*"):
                stream, _, start, end, rest = line.split(",", 4)
                (left if stream == "l" else right).write(f"{life.format(start, end)},{rest}")


def pairs_of(path):
    with open(path) as lines:
        for line in lines:
            start, end, *row = map(int, line.split(","))
            yield tuple(row), start, end


def child_seconds():
    times = os.times()
    return times.children_user + times.children_system


class Server:
    """A PostgreSQL server of this script's own, in the folder, that is reached by a socket there alone."""

    def __init__(self, programs, folder):
        self.programs, self.folder = programs, folder
        self.user = {}
        if os.geteuid() == 0:  # PostgreSQL refuses to run as root
            owner = pwd.getpwnam("postgres")
            self.user = {"user": owner.pw_uid, "group": owner.pw_gid, "extra_groups": []}
            os.chown(folder, owner.pw_uid, owner.pw_gid)
        words = [programs / "initdb", "-D", folder / "data", "-A", "trust", "-U", "bench", "--no-sync"]
        subprocess.run(words, check=True, stdout=subprocess.DEVNULL, cwd=folder, **self.user)

    def seconds(self, script):
        """The processor's seconds of the server and its client from start to stop, and those of the clock for the script."""
        before = child_seconds()
        words = [self.programs / "postgres", "-D", self.folder / "data", "-k", self.folder, "-h", ""]
        words += ["-c", "max_parallel_workers_per_gather=0", "-c", "work_mem=256MB", "-c", "shared_buffers=512MB"]
        server = subprocess.Popen(words, stderr=subprocess.DEVNULL, cwd=self.folder, **self.user)
        try:
            client = ["psql", "-q", "-h", self.folder, "-U", "bench", "-v", "ON_ERROR_STOP=1", "postgres"]
            while subprocess.run([*client, "-c", ""], stderr=subprocess.DEVNULL, cwd="/").returncode != 0:
                if server.poll() is not None:
                    sys.exit("bench: the PostgreSQL server did not start")
                time.sleep(0.1)
            began = time.monotonic()
            subprocess.run(client, input=script.encode(), stdout=subprocess.DEVNULL, cwd="/", check=True)
            wall = time.monotonic() - began
        finally:
            server.send_signal(2)
            server.wait()
        return child_seconds() - before, wall


def postgres(lines, folder):
    """Runs of the join in PostgreSQL with each index, from empty tables, less what a start and a stop take."""
    installed = sorted(Path("/usr/lib/postgresql").glob("*/bin"))
    if not installed or not shutil.which("psql"):
        return
    write_tables(lines, folder, '"[{},{})"')
    pairs = folder / "pairs"
    for number, (name, index) in enumerate(POSTGRES_INDEXES.items()):
        home = folder / f"server{number}"
        home.mkdir()
        server = Server(installed[-1], home)
        idle, _ = server.seconds("")
        script = POSTGRES_LOAD + POSTGRES_JOIN
        tables = {"left": folder / "left", "right": folder / "right", "index": index}
        spent, wall = server.seconds(script.format(pairs=pairs, **tables))
        yield f"PostgreSQL with {name}", Run(wall, spent - idle, 0, digest_of(changes(pairs_of(pairs))))


def sqlite(lines, folder):
    """A run of the join in SQLite, from empty tables."""
    if not shutil.which("sqlite3"):
        return
    write_tables(lines, folder, "{},{}")
    pairs = folder / "pairs"
    script = SQLITE.format(left=folder / "left", right=folder / "right", pairs=pairs)
    before, began = child_seconds(), time.monotonic()
    subprocess.run(["sqlite3", "-bail", folder / "sqlite"], input=script.encode(), check=True)
    spent, wall = child_seconds() - before, time.monotonic() - began
    yield "SQLite", Run(wall, spent, 0, digest_of(changes(pairs_of(pairs))))


def write_alive(path, alive, steps):
    """So many rows on each side that never end, each of its own key, and then steps: five rows that live for one instant, on
    both sides in turn, and a punctuation."""
    with open(path, "w") as out:
        for i in range(alive):
            out.write(f"l,interval,0,inf,{i},{i}\nr,interval,0,inf,{i},{i}\n")
        for at in range(1, steps + 1):
            for i in range(5):
                out.write(f"{'lr'[i % 2]},interval,{at},{at + 1},{(at * 5 + i) * 7919 % alive},{i}\n")
            out.write(f"*,punct,{at + 1}\n")


def step_files(folder, alive, steps):
    """Lines of so many steps and of three times as many, by their numbers of steps."""
    for count in (steps, 3 * steps):
        path = folder / f"steps{count}"
        write_alive(path, alive, count)
        yield count, path


def step_time(words, folder, alive):
    """The processor's microseconds of a step of the program called so, with so many rows alive on each side."""
    least = in_turn({count: (words, path) for count, path in step_files(folder, alive, STEPS)})
    return (least[3 * STEPS].processor - least[STEPS].processor) / (2 * STEPS) * 1e6


def step_instructions(words, folder, alive):
    """The instructions of such a step."""
    counts = {}
    for count, path in step_files(folder, alive, COUNTED_STEPS):
        counted = ["valgrind", "--tool=callgrind", f"--callgrind-out-file={folder / 'calls'}", *words]
        with open(path) as lines:
            run = subprocess.run(counted, stdin=lines, stdout=subprocess.DEVNULL, stderr=subprocess.PIPE, check=True)
        counts[count] = int(re.search(rb"Collected : (\d+)", run.stderr)[1])
    return (counts[3 * COUNTED_STEPS] - counts[COUNTED_STEPS]) / (2 * COUNTED_STEPS)


def jobs_of(program, kind, lines):
    """The runs of the kind of query over the lines, in the program and by hand."""
    return {"ours": ([program, "--query", QUERIES[kind]], lines), "theirs": ([yardstick(), kind], lines)}


def main(read):
    program = read.program
    with tempfile.TemporaryDirectory() as name:
        folder = Path(name)
        folder.chmod(0o755)
        lines = folder / "lines"
        write_keyed(lines, read.count, read.keys)
        good, runs = True, {}
        for kind in QUERIES:
            least = in_turn(jobs_of(program, kind, lines))
            runs[kind] = least["ours"]
            beside(f"{read.count} lines, {read.keys} keys, the {kind}", least["ours"], "the yardstick", least["theirs"], 2.5)
            good = good and least["ours"].digest == least["theirs"].digest
        jobs, ours = jobs_of(program, "join", lines), runs["join"]
        expected = timed(*jobs["ours"], punctuations=False).digest
        for database in (postgres, sqlite):
            place = folder / database.__name__
            place.mkdir(0o755)
            for name_of, run in database(lines, place):
                beside(f"the same in {name_of}", run, "the join", ours)
                good = good and run.digest == expected
            shutil.rmtree(place)
        for kind in STEPPED:
            words = [program, "--query", QUERIES[kind]]
            for name_of, called in (("", words), (" by hand", [yardstick(), kind])):
                few, many = (step_time(called, folder, alive) for alive in (100, 100_000))
                print(
                    f"a step of the {kind}{name_of} over ten edges: {few:.1f} us with 100 rows alive on each side, "
                    f"{many:.1f} us with 100,000: {many / few:.2f} times",
                    flush=True,
                )
            if shutil.which("valgrind"):
                few, many = (step_instructions(words, folder, alive) for alive in (100, 100_000))
                print(f"instructions of ours: {few:.0f} and {many:.0f}, {many / few:.2f} times", flush=True)
        write_keyed(lines, 10 * read.count, 10 * read.keys)
        least = in_turn(jobs, 1)
        beside(f"{10 * read.count} lines, {10 * read.keys} keys", least["ours"], "a tenth of the lines", ours, 11)
        good = good and least["ours"].digest == least["theirs"].digest
    sys.exit(0 if good else 1)


if __name__ == "__main__":
    count = {"nargs": "?", "type": int, "default": 1_000_000}
    main(arguments(__doc__, ("count", count), ("--keys", {"type": int, "default": 1000})))
