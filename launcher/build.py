#!/usr/bin/env python3
"""Proves the crates that the program needs, as many at a time as the machine allows, and builds the program.

usage: launcher/build.py

What it says goes to standard error: how many crates are proved, which are at work, and about how many minutes are left, by
the figures in bench/gate.json. What is proved is kept, so a build that was interrupted goes on where it was.
The program is crates/tempo/out/tempo, and the status is 0 where it was built.
"""
import collections
import json
import os
import re
import shutil
import subprocess
import sys
import threading
from pathlib import Path

ROOT = Path(__file__).resolve().parent.parent
TICK = os.sysconf("SC_CLK_TCK")
PROGRAM = "tempo"
TRY = ["--query", "stream s(v int); s | where v > 0"]
BYTES_A_CHECK = 3_000_000_000
# Where no figure is kept.
SOURCES, MINUTES = 3, 3


def say(text):
    print(f"tempo: {text}", file=sys.stderr, flush=True)


def crates():
    """Which crates of the repository each crate stands on, by crates.txt."""
    rows = [line.partition("#")[0].partition(":") for line in (ROOT / "crates.txt").read_text().splitlines()]
    named = {name.split()[0]: uses.split() for name, _, uses in rows if name.strip()}
    return {name: [it for it in uses if it in named] for name, uses in named.items()}


def below(name, uses):
    """The crates under a crate, each behind those that it stands on."""
    found = []
    for it in uses[name]:
        found += [low for low in [*below(it, uses), it] if low not in found]
    return found


def figures():
    """The processor minutes of the look at all sources, and of each crate's check, as bench/gate.py has kept them."""
    try:
        kept = json.loads((ROOT / "bench/gate.json").read_text())
        return kept.get("sources", SOURCES), {name: row["check"] for name, row in kept["crates"].items() if row.get("check")}
    except (OSError, ValueError, KeyError):
        return SOURCES, {}


def jobs():
    """How many checks this machine can do at a time."""
    found = re.search(r"MemAvailable:\s+(\d+)", Path("/proc/meminfo").read_text())
    fits = int(found.group(1)) * 1024 // BYTES_A_CHECK if found else 1
    return max(1, min(len(os.sched_getaffinity(0)), fits))


def at_work(root):
    """The processor minutes of the checks that run below a process, by crate."""
    parents, used = collections.defaultdict(list), {}
    for name in filter(str.isdigit, os.listdir("/proc")):
        try:
            fields = Path(f"/proc/{name}/stat").read_text().rpartition(")")[2].split()
            words = Path(f"/proc/{name}/cmdline").read_bytes().decode(errors="replace").split("\0")
        except OSError:
            continue
        parents[int(fields[1])].append((int(name), words, (int(fields[11]) + int(fields[12])) / TICK / 60))
    left = [root]
    while left:
        for pid, words, minutes in parents[left.pop()]:
            left.append(pid)
            if "--crate-name" in words:
                used[words[words.index("--crate-name") + 1]] = minutes
    return used


class Progress:
    """What is proved and what is left, and the line that says so."""

    def __init__(self, names, uses, at_once):
        self.names, self.uses, self.at_once = names, uses, at_once
        self.sources, kept = figures()
        self.minutes = {**dict.fromkeys(names, MINUTES), **kept}
        self.proved, self.used, self.said = set(), {}, ""

    def sees(self, used):
        self.used.update(used)
        now = [name for name in used if name in self.names and name not in self.proved]
        words = f"{len(self.proved)} of {len(self.names)} crates proved"
        if now:
            words += f", now {' and '.join(now)}" if self.begun(now) else ", now all sources are read once"
        if len(self.proved) < len(self.names):
            words += f"; about {max(1, round(self.left()))} minutes more"
        if words != self.said:
            self.said = words
            line = f"tempo: {words}"
            if sys.stderr.isatty():
                line = f"\r\033[K{line[:shutil.get_terminal_size().columns - 1]}"
            print(line, end="" if sys.stderr.isatty() else "\n", file=sys.stderr, flush=True)

    def begun(self, now):
        """Whether crates are proved by now: rt first reads the sources of the highest crate, with those of all below."""
        return bool(self.proved) or any(not self.uses[name] for name in now)

    def left(self):
        """The minutes that are left at the pace so far: the work shared by the processors, or the longest chain."""
        own = {it: max(0, self.minutes[it] - self.used.get(it, 0)) for it in self.names if it not in self.proved}
        chain = {}
        for it in self.names:
            chain[it] = own.get(it, 0) + max([chain[low] for low in self.uses[it] if low in chain], default=0)
        done = [it for it in self.proved if self.used.get(it, 0) > 0.1]
        told = sum(self.minutes[it] for it in done)
        pace = min(max(sum(self.used[it] for it in done) / told, 0.3), 4) if told > 3 else 1
        first = 0 if self.begun(self.used) else max(0, self.sources - sum(self.used.values()))
        return pace * (first + max(sum(own.values()) / self.at_once, *chain.values()))


def runs(words, folder, progress, log):
    """Runs a command of rt, follows how far it is, and returns its status."""
    with subprocess.Popen(words, cwd=folder, stdin=subprocess.DEVNULL, stdout=subprocess.PIPE, stderr=subprocess.STDOUT,
                          text=True, errors="replace") as ran:
        def read():
            for line in ran.stdout:
                log.append(line)
                if line.startswith("== ") and line[3:].strip() in progress.names:
                    progress.proved.add(line[3:].strip())

        reader = threading.Thread(target=read, daemon=True)
        reader.start()
        while reader.is_alive():
            progress.sees(at_work(ran.pid))
            reader.join(2)
        return ran.wait()


def failing(log):
    """Of what rt said the parts of crates that failed, or the end of it."""
    text = "".join(log)
    parts = re.split(r"(?m)^(?=== )", text)
    failed = re.findall(r"(?m)^(\w+): failed", parts[-1])
    told = [part for part in parts if any(part.startswith(f"== {name}\n") for name in failed)]
    return "".join(told) or "".join(log[-40:])


def main():
    uses = crates()
    names = [*below(PROGRAM, uses), PROGRAM]
    highest = max(uses[PROGRAM], key=lambda it: len(below(it, uses)))
    at_once, log = jobs(), []
    progress = Progress(names, uses, at_once)
    say(f"proving the crates, {at_once} at a time, and building the program; what is proved is kept, so this may be interrupted")
    status = runs(["rt", "all", "check", "--jobs", str(at_once)], ROOT / "crates" / highest, progress, log)
    if not status:
        progress.proved.update(names[:-1])
        status = runs(["rt", "run", "--", *TRY], ROOT / "crates" / PROGRAM, progress, log)
    if sys.stderr.isatty():
        print(file=sys.stderr)
    if status or not os.access(ROOT / "crates" / PROGRAM / "out" / PROGRAM, os.X_OK):
        print(failing(log), end="", file=sys.stderr)
        say("the build failed; what rt said stands above")
        return 1
    say("built")
    return 0


if __name__ == "__main__":
    try:
        sys.exit(main())
    except KeyboardInterrupt:
        print(file=sys.stderr)
        say("interrupted; ./tempo --build goes on where it was")
        sys.exit(1)
