"""What examples/check tries of ./tempo: what it says at a terminal, and which program it runs."""
import fcntl
import gzip
import hashlib
import os
import pty
import re
import select
import shlex
import shutil
import struct
import subprocess
import tempfile
import termios
from pathlib import Path

ROOT = Path(__file__).resolve().parent.parent
SECONDS = 120
S_WORDS = "stream s(k text, v int); s"
NESTED = f"stream s(v int); s | where {'(' * 201}"
HINTS = [
    # the query, the input as a file or None; the note, and what stands below it, but for what to do
    ("stream s(v int); s | where v >", None, "query: syntax at 30", """
stream s(v int); s | where v >
                              ^
"""),
    ("stream s(v int); s | whre v > 1", None, "query: syntax at 21", """
stream s(v int); s | whre v > 1
                     ^^^^
no step is called whre; did you mean where? Those here are where, hop, left, delay, group, select, tumble, extend, follow, session, duration, coalesce, union, clip, join, anti, top
"""),
    ("stream s(v integer);\ns", None, "query: syntax at 11", """
stream s(v integer);
           ^^^^^^^
no kind is called integer; did you mean int? Those here are int, text, dec, bool
"""),
    ("stream s(v int); s | where v != 3", None, "query: syntax at 29", """
stream s(v int); s | where v != 3
                             ^
unequal is <>
"""),
    ("stream s(v int); s | where v == 3", None, "query: syntax at 30", """
stream s(v int); s | where v == 3
                              ^
equal is =
"""),
    ("stream s(v int); s | group : count(v) as n", None, "query: syntax at 34", """
stream s(v int); s | group : count(v) as n
                                  ^
a count stands alone, and sum, min, max and avg before a column: count as n, sum v as total
"""),
    (NESTED, None, "query: expression too long at 227", f"""
...{NESTED[136:]}
{' ' * 94}^
"""),
    (" " * 65537, None, "query: text too large", ""),
    ("stream trades(sym text, px int); trades | where prce > 3", None, "query: unknown name in item 2", """
stream trades(sym text, px int); trades | where prce > 3
                                          ~~~~~~^^^^~~~~
no column is called prce; those here are px, sym
"""),
    ("stream trades(px int); let dear = trades | where px > 9; tradse | union dear", None, "query: unknown name in item 3", """
stream trades(px int); let dear = trades | where px > 9; tradse | union dear
                                                         ^^^^^^
no stream or let is called tradse; did you mean trades? Those here are trades, dear
"""),
    ("stream s(v int); s | where v + 1 = 'a'", None, "query: type clash in item 2", """
stream s(v int); s | where v + 1 = 'a'
                     ~~~~~~^^^^^^^^^^^
v + 1 is int and 'a' is text; = compares two of one kind
"""),
    ("stream s(k text, v int); stream r(k int); s | join r on k", None, "query: type clash in item 3", """
stream s(k text, v int); stream r(k int); s | join r on k
                                              ~~~~~~~~~~^
k is text on the left and int in r
"""),
    ("stream s(v int); s | group : count as n | hop 20 10", None, "query: not event level in item 3", """
stream s(v int); s | group : count as n | hop 20 10
                                          ^^^^^^^^^
it stands behind group
"""),
    ("stream s(v int); s | hop 15 10", None, "query: bad window in item 2", """
stream s(v int); s | hop 15 10
                     ^^^^^^^^^
"""),
    ("stream s(v int); s | delay 1152921504606846977", None, "query: reach too long in item 2", """
stream s(v int); s | delay 1152921504606846977
                     ^^^^^^^^^^^^^^^^^^^^^^^^^
"""),
    ("stream s(v int); s\n" + "| where true\n" * 256, None, "query: too many nodes in item 257", """
| where true
  ^^^^^^^^^^
"""),
    ("stream s(" + ", ".join(f"c{i} int" for i in range(33)) + "); s", None, "query: too many columns in item 0", f"""
{("stream s(" + ", ".join(f"c{i} int" for i in range(33)))[:93]}...
{"^" * 96}
"""),
    ("stream s(v int, k int); s | select v as a, k as a", None, "query: name taken in item 2", """
stream s(v int, k int); s | select v as a, k as a
                            ~~~~~~~~~~~~~~~~~~~~^
two columns are called a
"""),
    (S_WORDS, b"x" * 65537, "line 1: too long", f"""
{"x" * 93}...
"""),
    (S_WORDS, b"s,interval,1,2,\377,1\n", "line 1: not utf-8", "\ns,interval,1,2,\\xff,1\n"),
    (S_WORDS, b"\ns,interval,1,2,a\rb,1\n", "line 2: stray return", "\ns,interval,1,2,a\\rb,1\n"),
    (S_WORDS, b's,interval,1,2,"a,1\n', "line 1: odd quotes", '\ns,interval,1,2,"a,1\n'),
    (S_WORDS, b"s,interval,1,2,a,1\nS,interval,1,2,a,1\n", "line 2: unknown stream", """
S,interval,1,2,a,1
^
the streams are s; did you mean s?
"""),
    (S_WORDS, b"s,jump,1,2,a,1\n", "line 1: unknown kind", """
s,jump,1,2,a,1
  ^^^^
"""),
    (S_WORDS, b"s,interval,1,2,a\n", "line 1: wrong number of fields", """
s,interval,1,2,a
s has the columns k text, v int: 6 fields with the first four, and here are 5
"""),
    (S_WORDS, b"s,interval,01,2,a,1\n", "line 1: bad time", """
s,interval,01,2,a,1
           ^^
"""),
    (S_WORDS, b"s,start,1,5,a,1\n", "line 1: bad time", """
s,start,1,5,a,1
          ^
the fourth field of a start line is inf; where the end is known, the line is an interval
"""),
    (S_WORDS, b"s,end,5,inf,a,1\n", "line 1: bad time", """
s,end,5,inf,a,1
        ^^^
"""),
    (S_WORDS, b"s,interval,2,2,a,1\n", "line 1: bad life", """
s,interval,2,2,a,1
           ^ ^
"""),
    (S_WORDS, b's,interval,2,3,"a, b",x1', "line 1: bad value in column 2", """
s,interval,2,3,"a, b",x1
                      ^^
column 2 of s is v int
"""),
    (S_WORDS, b"s,end,4,2,a,1\r\n", "line 1: no open start", "\ns,end,4,2,a,1\n"),
    (S_WORDS, b"s,interval,3,5,a,1\n" * 90000 + b"s,interval,2,5,a,1\n", "line 90001: late, 2 below 3", """
s,interval,2,5,a,1
           ^
"""),
    ("stream s(v int); s | group : sum v as t", b"s,interval,0,6,9223372036854775807\ns,interval,5,9,1\n",
     "node 1: overflow at 5, closing inf", "\nnode 1 group 0 snapshot 0 t:int\n"),
]
HEAD = f"#tempo,1\n#query,{S_WORDS.encode().hex()}\n"
RESUMED = [
    # the same in mode resume
    (S_WORDS, b"s,interval,1,2,a,1\n", "line 1: not a checkpoint", "\ns,interval,1,2,a,1\n"),
    (S_WORDS, b"#tempo,1\n#query,73\n", "line 2: not a checkpoint", "\n#query,73\nthe checkpoint is of another query\n"),
    (S_WORDS, f"{HEAD}#options,1,drop,5,0\n".encode(), "line 3: not a checkpoint", """
#options,1,drop,5,0
the checkpoint was taken with --workers 1 --late drop --lateness 5 --punctuate 0
"""),
]
KEPT_HEAD = f"#input,5\n#output,1\n{HEAD}".encode()
KEPT = [
    # the same with a checkpoint: what stands in its file, if that is there, and the lines of the input's file; note and more
    (None, b"s,interval,1,2,a,1\nS,interval,1,2,a,1\n", "line 2: unknown stream", """
S,interval,1,2,a,1
^
the streams are s; did you mean s?
"""),
    (b"#input,0\n#output,0\n#tempo,1\n#query,73\n", b"", "line 4: not a checkpoint", "\n#query,73\nthe checkpoint is of another query\n"),
    (KEPT_HEAD + b"#options,1,refuse,0,0\n#time,0,0\n#bound,0,0\n#end\n", b"*,", "checkpoint failed", """
FOLDER/lines has 2 bytes, and 5 are behind the state
there is no FOLDER/out
"""),
]


def at_terminal(command, stdin, env, keys=b""):
    """Runs a command whose notes, and whose input where `stdin` is None, are a terminal of 100 columns. Gives what it wrote on
    standard output, its notes, and its status. `keys` are typed once something was noted, or after ten seconds."""
    near, far = pty.openpty()
    fcntl.ioctl(far, termios.TIOCSWINSZ, struct.pack("HHHH", 25, 100, 0, 0))
    with tempfile.TemporaryFile() as out:
        ran = subprocess.Popen(command, stdin=far if stdin is None else stdin, stdout=out, stderr=far, cwd=ROOT,
                               env={**env, "COLUMNS": "100"}, start_new_session=True)
        os.close(far)
        if keys:
            select.select([near], [], [], 10)
            os.write(near, keys)
        noted = b""
        while True:
            try:
                noted += os.read(near, 1 << 16)
            except OSError:
                break
        os.close(near)
        status = ran.wait(SECONDS)
        out.seek(0)
        return out.read(), noted.decode(errors="replace").replace("\r\n", "\n"), status


def put(path, told):
    """Makes a file of these bytes, or takes it away."""
    if told is None:
        path.unlink(missing_ok=True)
    else:
        path.write_bytes(told)


def check_hint(report, words, stdin, env, prepare, note, below):
    """One refusal: alone its note, and at a terminal what stands below it and what to do; nothing else differs."""
    name, words = f"hint {note}", [ROOT / "tempo", *words]
    prepare()
    plain = subprocess.run(words, stdin=stdin, capture_output=True, env=env, timeout=SECONDS)
    prepare()
    out, noted, status = at_terminal(words, stdin, env)
    wanted = note + "\n" + "".join(f"  {line}\n" for line in below.strip("\n").split("\n") if line)
    last = noted.rstrip("\n").rpartition("\n")[2]
    told = plain.stderr.decode()
    if told != note + "\n":
        report.fails(name, f"without a terminal its note is {told!r}")
    elif (out, status) != (plain.stdout, plain.returncode):
        report.fails(name, f"at a terminal its output or its status {status} is another")
    elif not re.match(r"  What to do: \w.*\.$", last):
        report.fails(name, f"what to do is not said: {last!r}")
    else:
        report.compares(name, noted[:-len(last) - 1], wanted)


def check_terminal(report, program):
    """What ./tempo says at a terminal behind a refusal, and before lines are typed; nothing else differs there."""
    # The script takes this program and no other, and where the program is the script itself, what the script finds.
    path = shlex.split(program)[0]
    env = {name: value for name, value in os.environ.items() if name not in ("TEMPO_HINTS", "LINES")}
    if path != str(ROOT / "tempo"):
        env["TEMPO_PROGRAM"] = path
    tried = [([], it) for it in HINTS] + [(["--mode", "resume"], it) for it in RESUMED]
    for mode, (query, fed, note, below) in tried:
        if report.wants(f"hint {note}"):
            with tempfile.TemporaryFile() as stdin:
                stdin.write(fed or b"")
                check_hint(report, [*mode, "--query", query], stdin, env, lambda: stdin.seek(0), note, below)
    for state, fed, note, below in KEPT:
        if report.wants(f"hint {note}"):
            with tempfile.TemporaryDirectory() as folder, open(os.devnull) as stdin:
                kept, lines, out = (Path(folder, name) for name in ("state", "lines", "out"))
                lines.write_bytes(fed)
                words = ["--query", S_WORDS, "--checkpoint", kept, "--input", lines, "--output", out]
                check_hint(report, words, stdin, env, lambda: put(kept, state), note, below.replace("FOLDER", folder))
    if report.wants("hint how to type"):
        out, noted, status = at_terminal([ROOT / "tempo", "--query", S_WORDS], None, env, b"s,interval,1,5,a,7\n\4")
        typed = [line for line in noted.splitlines() if line.startswith("tempo: ")]
        wanted = ["tempo: type lines such as s,interval,1,5,a,7; Ctrl-D ends them, and < FILE reads a file"]
        if (typed, status, out) == (wanted, 0, b"out,start,1,inf,a,7\nout,end,5,1,a,7\n*,punct,inf\n"):
            report.passes("hint how to type")
        else:
            report.fails("hint how to type", f"{noted!r} {out!r} {status}")


def copy_with(program, folder):
    """A copy of what ./tempo reads, with a dist/ made of the program, and a toolchain that builds nothing."""
    sources = [f"crates/{it.parent.name}/src" for it in ROOT.glob("crates/*/src")]
    for name in ["tempo", "crates.txt", "launcher", "docs/refusals.tsv", *sources]:
        to = folder / name
        to.parent.mkdir(parents=True, exist_ok=True)
        shutil.copytree(ROOT / name, to) if (ROOT / name).is_dir() else shutil.copy2(ROOT / name, to)
    for name in ("dist", "bin"):
        (folder / name).mkdir()
    (folder / "bin/rt").write_text("#!/bin/sh\necho rt was called\nexit 1\n")
    (folder / "bin/rt").chmod(0o755)
    told = Path(program).read_bytes()
    (folder / "dist/tempo.gz").write_bytes(gzip.compress(told))
    sources = subprocess.run(["bash", "-c", "root=.; . launcher/lib.sh; sources_sum; uname -sm"], cwd=folder, check=True,
                             stdout=subprocess.PIPE, text=True).stdout.split("\n")
    (folder / "dist/built-from").write_text(f"sources: {sources[0]}\nprogram: {hashlib.sha256(told).hexdigest()}\n"
                                            f"kit: a toolchain\nmachine: {sources[1]}\n")


def check_launcher(report, program):
    """./tempo runs the program of dist/ over the sources that it was built from, and over no others."""
    path = Path(shlex.split(program)[0])
    if not report.wants("launcher"):
        return
    if path.read_bytes()[:4] != b"\x7fELF":
        report.skips("launcher", "--program names no program to put into dist/")
        return
    with tempfile.TemporaryDirectory() as room:
        folder = Path(room)
        copy_with(path, folder)
        source, packed = folder / "crates/tempo/src/main.rt", folder / "dist/tempo.gz"
        text, whole, old = source.read_bytes(), packed.read_bytes(), source.stat()
        changed, none = whole[:999] + bytes([whole[999] ^ 1]) + whole[1000:], "no program was built from these sources"

        def writes(to, what):
            to.write_bytes(what)
            os.utime(to, ns=(old.st_atime_ns, old.st_mtime_ns))

        steps = [
            # what is tried; what is done before; whether the program is run; what is said
            ("its first use is told", lambda: None, True, "running the program that comes with this copy"),
            ("its second use is not told", lambda: None, True, None),
            ("it is not run over a changed source of the same age", lambda: writes(source, text + b"// more\n"), False, none),
            ("it is run again over the first source", lambda: writes(source, text), True, None),
            ("it is not run with a changed byte", lambda: writes(packed, changed), False, "not the one that was recorded"),
            ("nothing is run without it", packed.unlink, False, none),
        ]
        env = {name: value for name, value in os.environ.items() if not name.startswith("TEMPO")}
        env["PATH"] = f"{folder / 'bin'}:{env['PATH']}"
        for what, does, is_run, said in steps:
            does()
            ran = subprocess.run([folder / "tempo", "--query", S_WORDS], input="s,interval,1,5,a,7\n", env=env,
                                 capture_output=True, text=True)
            notes = [line for line in ran.stderr.splitlines() if said is None or said in line]
            if (ran.returncode, bool(ran.stdout), bool(notes)) == (0 if is_run else 1, is_run, said is not None):
                report.passes(f"launcher: {what}")
            else:
                report.fails(f"launcher: {what}", f"{ran.returncode} {ran.stdout!r} {ran.stderr!r}")
