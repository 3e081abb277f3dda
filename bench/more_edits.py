#!/usr/bin/env python3
"""Tries the must-fail edits that stand outside the gate: crates/NAME/must-fail-more/*.edit.

Usage: bench/more_edits.py [NAME ..]    with no name, every crate that has such edits

The gate tries one edit a crate, or those that a promise names, since the first of a crate costs what its proof does, and each
further one up to a minute and a half of one processor. The others are kept in must-fail-more/ in the same form. This script
copies the repository, puts them in the place of the gate's edits, and lets `rt must-fail` try them there. Its status
is that of `rt must-fail`.
"""
import pathlib
import shutil
import subprocess
import sys
import tempfile

ROOT = pathlib.Path(__file__).resolve().parent.parent


def main() -> int:
    names = sys.argv[1:] or sorted(
        folder.parent.name for folder in ROOT.glob("crates/*/must-fail-more")
    )
    with tempfile.TemporaryDirectory() as temporary:
        copy = pathlib.Path(temporary) / "copy"
        shutil.copytree(ROOT, copy, ignore=shutil.ignore_patterns(".git", "wip", "out", "__pycache__"))
        for name in names:
            crate = copy / "crates" / name
            shutil.rmtree(crate / "must-fail", ignore_errors=True)
            (crate / "must-fail-more").rename(crate / "must-fail")
        return subprocess.run(["rt", "must-fail", *names], cwd=copy).returncode


if __name__ == "__main__":
    sys.exit(main())
