"""Builds a small program over the crates of this repository, in a folder of its own, and runs it."""
import os
import shutil
import subprocess
import sys
import tempfile
from pathlib import Path

ROOT = Path(__file__).resolve().parent.parent
COMMAND = os.environ.get("TEMPO_RUN", "rt run").split()


def below(listed, crates):
    """The crates and all that they stand on, by the lines of crates.txt."""
    stands = {head.split()[0]: low.split() for head, _, low in (line.partition(":") for line in listed.splitlines()) if low}
    found, left = [], list(crates)
    while left:
        crate = left.pop()
        if crate not in found:
            found.append(crate)
            left += stands.get(crate, [])
    return found


def run_inside(name, crates, source, stdin=b"", proofs=None):
    """What the program writes that has this `main.rt` and these proof files, and stands on these crates and those below them.

    It is proved first, and so are its crates; the variable TEMPO_RUN has another command than `rt run`.
    """
    with tempfile.TemporaryDirectory() as folder:
        copy = Path(folder)
        shutil.copytree(ROOT / "crates", copy / "crates", ignore=shutil.ignore_patterns("out"))
        shutil.copy(ROOT / "HANDLES", copy)
        listed = (ROOT / "crates.txt").read_text()
        (copy / "crates.txt").write_text(f"{listed}{name}: {' '.join(below(listed, crates))}\n")
        code = copy / "crates" / name / "src"
        code.mkdir(parents=True)
        (code / "main.rt").write_text(source)
        for path, text in (proofs or {}).items():
            file = code.parent / "proofs" / path
            file.parent.mkdir(parents=True)
            file.write_text(text)
        run = subprocess.run(COMMAND, cwd=code.parent, input=stdin, capture_output=True)
        if run.returncode != 0:
            sys.exit(run.stdout.decode() + run.stderr.decode())
        return run.stdout.decode()
