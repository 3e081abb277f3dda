#!/usr/bin/env python3
"""Measures how many processor minutes the gate takes, crate by crate: for its check, its tests and its must-fail edits.

usage: bench/gate.py                    runs `rt ci`, the whole gate, prints the table and keeps the figures
       bench/gate.py --watch PID        the same for a run of rt that goes already, until it ends
       bench/gate.py --edits NAME ..    the same for `rt must-fail NAME`, crate by crate
       bench/gate.py --tests NAME ..    the same for `rt test` in each of these crates
       bench/gate.py --table            writes docs/gate.md from the figures that are kept, and measures nothing
       bench/gate.py --pace COMMIT      compares the figures that are kept with those that were kept at COMMIT, by the crates
                                        whose text is the same, and measures nothing

Every second it asks Linux for the processor time of each process of the run: those of the prover, the compiler and the tests.
A process counts for the crate that its words name by --crate-name, as those that it starts do, and for `other` where none is
named. What a process used after the last look at it is lost, so the sums are a few per cent too low.
`rt ci` tries a crate's edits over a second proof of the crate, or a single edit from nothing. So does `rt must-fail`, but in
the kits of KEEPING, where it begins with what a check kept: there the crate's check is added to what was seen.
Figures are kept in bench/gate.json, with the commit at which each crate was measured last, with a line for each dear crate
that says why, with notes that the table ends with, and with the pace of the machine: how many times as long it takes as the
one that the goal is told by. Where a kit keeps what `rt ci` passed before on this machine, that costs nothing, and keeps the
figure that it had.
./tempo --build says by these figures how long it takes yet. The variable TEMPO_RT has another command than `rt`.
The status is that of what was run.
"""
import collections
import json
import os
import subprocess
import sys
import time
from pathlib import Path

ROOT = Path(__file__).resolve().parent.parent
RT = os.environ.get("TEMPO_RT", "rt").split()
KEEPING = {"rattle-kit-13f"}
KEPT = ROOT / "bench/gate.json"
TABLE = ROOT / "docs/gate.md"
TICK = os.sysconf("SC_CLK_TCK")
PARTS = ("check", "tests", "edits")
# Less is a look at what was kept.
LEAST = 0.02
# What the gate is to take at most on the machine that the figures are told by, and a crate that takes more than this has a line
# that says why. On another machine both are so many times as much as `pace` of gate.json says.
GOAL, DEAR = 260, 8


def children(root):
    """The processes below this one, each behind the one that started it: itself and its starter, each as number and start,
    and its minutes."""
    below, starts = collections.defaultdict(list), {}
    for name in filter(str.isdigit, os.listdir("/proc")):
        try:
            fields = Path(f"/proc/{name}/stat").read_text().rpartition(")")[2].split()
        except OSError:
            continue
        starts[int(name)] = int(fields[19])
        below[int(fields[1])].append((int(name), (int(fields[11]) + int(fields[12])) / TICK / 60))
    left = [root]
    while left:
        above = left.pop(0)
        for pid, minutes in below[above]:
            yield (pid, starts[pid]), (above, starts.get(above)), minutes
            left.append(pid)


def owner(pid):
    """The crate that a process works for, and at which of the three parts, as its words and its folder say."""
    try:
        words = Path(f"/proc/{pid}/cmdline").read_bytes().decode(errors="replace").split("\0")
        folder = os.readlink(f"/proc/{pid}/cwd")
    except OSError:
        return None
    if "--crate-name" not in words:
        return None
    name = words[words.index("--crate-name") + 1]
    if "--only" in words and not words[words.index("--only") + 1]:
        # The look at all sources before anything is proved.
        return "sources", "check"
    if "/rt-edit" in folder or any("/rt-edits-" in word for word in words):
        return name, "edits"
    return name, "tests" if "--test" in words else "check"


def watch(pid, is_going):
    """The processor minutes of a run, by crate and part."""
    used, owners = {}, {}
    while is_going():
        for key, above, minutes in children(pid):
            used[key] = minutes
            if owners.get(key) is None:
                owners[key] = owner(key[0]) or owners.get(above)
        time.sleep(1)
    sums = collections.defaultdict(lambda: dict.fromkeys(PARTS, 0.0))
    for key, minutes in used.items():
        name, part = owners[key] or ("other", "check")
        sums[name][part] += minutes
    return sums


def kit():
    return subprocess.run(["rt", "version"], capture_output=True, text=True).stdout.strip()


def with_second_proof(sums):
    """What the gate takes for the edits that rt must-fail tried."""
    rows, is_kept = kept()["crates"], kit().partition(" ")[0] in KEEPING
    seen = {name: parts["edits"] for name, parts in sums.items() if parts["edits"]}
    return {name: {"edits": minutes + is_kept * rows.get(name, {}).get("check", 0)} for name, minutes in seen.items()}


def run(words, folder=ROOT):
    """Runs a command of rt. Gives its minutes, by crate and part, and its status."""
    going = subprocess.Popen([*RT, *words], cwd=folder)
    sums = watch(going.pid, lambda: going.poll() is None)
    return sums, going.returncode


def one_by_one(names, words, counted):
    """Runs a command for each of the crates, keeps the figures of each as it ends, and gives them all with the worst status."""
    found, worst = {}, 0
    for name in names:
        sums, status = run(*words(name))
        sums = {crate: parts for crate, parts in counted(sums).items() if crate == name}
        keep(sums)
        found.update(sums)
        worst = worst or status
    return found, worst


def commit():
    """The commit that is measured, with a + where something was changed since."""
    told = [subprocess.run(["git", *words], cwd=ROOT, capture_output=True, text=True).stdout.strip()
            for words in (["rev-parse", "--short", "HEAD"], ["status", "--porcelain", "--untracked-files=no"])]
    return told[0] + "+" * bool(told[1])


def machine():
    found = [line.partition(": ")[2] for line in Path("/proc/cpuinfo").read_text().splitlines() if line.startswith("model name")]
    return f"{len(os.sched_getaffinity(0))} processors, {found[0] if found else os.uname().machine}"


def kept():
    try:
        return json.loads(KEPT.read_text())
    except (OSError, ValueError):
        return {"crates": {}}


def keep(sums):
    """Puts the new figures in place of the old ones, each part by itself, and drops crates that are no more."""
    named = crates()
    rows = {name: {key: it for key, it in row.items() if key != "edits" or edits(name)}
            for name, row in kept()["crates"].items() if name in named}
    for name, parts in sums.items():
        new = {part: round(minutes, 2) for part, minutes in parts.items() if minutes >= LEAST}
        if name in named and new:
            rows[name] = {**rows.get(name, {}), **new, "at": commit()}
    sources = sums.get("sources", {}).get("check") or kept().get("sources")
    told = {"machine": machine(), "kit": kit(), "pace": kept().get("pace", 1), "notes": kept().get("notes", [])}
    if sources:
        told["sources"] = round(sources, 2)
    maps = {"why": {name: why for name, why in kept().get("why", {}).items() if name in named},
            "crates": {name: rows[name] for name in named if name in rows}}
    lines = [f"  {json.dumps(key)}: {json.dumps(value)}" for key, value in told.items()]
    for key, rows in maps.items():
        inside = ",\n".join(f"    {json.dumps(name)}: {json.dumps(row)}" for name, row in rows.items())
        lines.append(f"  {json.dumps(key)}: {{\n{inside}\n  }}")
    KEPT.write_text("{\n" + ",\n".join(lines) + "\n}\n")


def crates():
    """The crates, as crates.txt has them, lowest first."""
    rows = [line.partition("#")[0].partition(":")[0].strip() for line in (ROOT / "crates.txt").read_text().splitlines()]
    return [name for name in rows if name]


def edits(name):
    """How many edits the gate tries in a crate."""
    return len([*ROOT.glob(f"crates/{name}/must-fail/*.edit")])


def whole(row):
    return sum(row.get(part, 0) for part in PARTS)


def table(rows):
    """The table: for each crate the minutes of its parts and the number of its edits, the dearest one first."""
    sums = {part: sum(row.get(part, 0) for row in rows.values()) for part in PARTS}
    tried = {name: edits(name) for name in crates()}
    lines = ["| crate | check | tests | edits | together | number of edits |", "|---|---:|---:|---:|---:|---:|"]
    for name, row in sorted([*rows.items()], key=lambda it: -whole(it[1])) + [("together", sums)]:
        told = [f"{row[part]:.1f}" if row.get(part) else "" for part in PARTS]
        number = tried.get(name, sum(tried.values()) if row is sums else 0) or ""
        lines.append(f"| {name} | {' | '.join(told)} | {whole(row):.1f} | {number} |")
    return "\n".join(lines) + "\n"


def reasons(found):
    """A line for each dear crate, the dearest one first."""
    most = DEAR * found.get("pace", 1)
    dear = sorted((name for name, row in found["crates"].items() if whole(row) > most), key=lambda it: -whole(found["crates"][it]))
    lines = [f"- `{name}`: {found.get('why', {}).get(name, 'nobody has said why yet.')}" for name in dear]
    return f"\n## Why a crate takes more than {most:.3g} minutes\n\n" + "\n".join(lines) + "\n" if lines else ""


def goal(pace):
    """What the gate is to take, in words."""
    told = f"The goal is {GOAL} minutes"
    return f"{told}." if pace == 1 else f"{told} on a machine that takes 1/{pace} of the time of this one."


def write_table():
    found = kept()
    has = lambda name, part: found["crates"].get(name, {}).get(part)
    lacking = {"check": [name for name in crates() if not has(name, "check")],
               "tests": [name for name in crates() if name.startswith("tests_") and not has(name, "tests")],
               "edits": [name for name in crates() if edits(name) and not has(name, "edits")]}
    TABLE.write_text(
        "# What the gate takes\n\nProcessor minutes from nothing, by `bench/gate.py`, on "
        f"{found.get('machine', '?')}, with {found.get('kit', '?')}. An empty place was not measured, or takes less than a second. "
        f"{goal(found.get('pace', 1))}\n\n"
        "The gate proves a crate with two edits or more a second time, since each of them begins with what that proof leaves; a "
        "single edit is tried from nothing. So about as much as `check` of what stands under `edits` is the same whatever the "
        "number of edits. Each proof has one job (`.ci/run`).\n\n"
        + table(found["crates"]) + "".join(f"\n{note}\n" for note in found.get("notes", [])) + reasons(found)
        + "".join(f"\nNot measured by now, {part}: {', '.join(names)}.\n" for part, names in lacking.items() if names))


def text_of(name, part, at):
    """What git has of the files of a crate that a part of the gate reads, at a commit."""
    folders = ["src", "specs", "proofs"] + ["must-fail"] * (part == "edits")
    paths = [f"crates/{name}/{folder}" for folder in folders]
    told = subprocess.run(["git", "ls-tree", at, *paths], cwd=ROOT, capture_output=True, text=True, check=True)
    return told.stdout


def compare(at):
    """Says how many times as long the same text takes as by the figures that were kept at a commit, and what all takes by that."""
    told = subprocess.run(["git", "show", f"{at}:bench/gate.json"], cwd=ROOT, capture_output=True, text=True, check=True)
    old, new = json.loads(told.stdout)["crates"], kept()["crates"]
    sums, ratios = {}, []
    for part in PARTS:
        same = [name for name, row in new.items() if part in row and part in old.get(name, {})
                and text_of(name, part, at) == text_of(name, part, "HEAD")]
        sums[part] = [sum(rows[name][part] for name in same) for rows in (old, new)]
        ratios += [(new[name][part] / old[name][part], name, part) for name in same if old[name][part] >= 0.3]
        if same:
            print(f"{part}: {sums[part][0]:.1f} minutes then, {sums[part][1]:.1f} now: {', '.join(same)}")
    before, now = (sum(pair[k] for pair in sums.values()) for k in (0, 1))
    whole_now = sum(map(whole, new.values()))
    print(f"together: {before:.1f} minutes then, {now:.1f} now: {now / before:.2f} times")
    for ratio, name, part in (min(ratios), max(ratios)):
        print(f"  {ratio:.2f} times: {name}, {part}")
    print(f"all crates: {whole_now:.1f} minutes now, {whole_now * before / now:.1f} at the pace of then")


def main():
    words = sys.argv[1:]
    if words == ["--table"]:
        write_table()
        return 0
    if words[:1] == ["--pace"] and len(words) == 2:
        compare(words[1])
        return 0
    began, status = time.monotonic(), 0
    if words[:1] == ["--watch"]:
        pid = int(words[1])
        sums = watch(pid, lambda: os.path.exists(f"/proc/{pid}"))
    elif words[:1] == ["--edits"]:
        sums, status = one_by_one(words[1:], lambda name: (["must-fail", name],), with_second_proof)
    elif words[:1] == ["--tests"]:
        tests = lambda sums: {name: {"tests": parts["tests"]} for name, parts in sums.items()}
        sums, status = one_by_one(words[1:], lambda name: (["test"], ROOT / "crates" / name), tests)
    elif words:
        sys.exit(__doc__)
    else:
        sums, status = run(["ci"])
    keep(sums)
    write_table()
    print(table(sums), end="")
    print(f"{sum(sum(row.values()) for row in sums.values()):.1f} processor minutes, {(time.monotonic() - began) / 60:.1f} by the clock")
    print(f"status {status}")
    return status


if __name__ == "__main__":
    sys.exit(main())
