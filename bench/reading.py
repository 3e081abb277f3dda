#!/usr/bin/env python3
"""Times the program over 1,000,000 trade lines that it reads and then refuses.

usage: bench/reading.py [COUNT] [--program PATH]

The lines have no punctuation, and the last line is bad, so nothing is sorted or written: the time is that of cutting, reading
and keeping the lines. Ends with status 1 where the run does not refuse exactly the last line, or takes
more than 3 seconds of the processor.
"""
import os
import subprocess
import sys
import tempfile

from runs import TRADES, arguments, write_trades

LIMIT = 3.0


def main(read):
    with tempfile.NamedTemporaryFile() as file:
        write_trades(file.name, read.count)
        lines = b"".join(line for line in file if not line.startswith(b"*"))
    before = os.times()
    run = subprocess.run([read.program, "--query", TRADES], input=lines + b"x\n", capture_output=True)
    after = os.times()
    seconds = after.children_user + after.children_system - before.children_user - before.children_system
    print(f"{read.count} lines, {len(lines) / read.count:.1f} bytes each: {seconds:.2f} s of processor, exit {run.returncode}")
    good = run.returncode == 4 and run.stderr == f"line {read.count + 1}: unknown stream\n".encode()
    sys.exit(0 if good and seconds <= LIMIT else 1)


if __name__ == "__main__":
    main(arguments(__doc__, ("count", {"nargs": "?", "type": int, "default": 1_000_000})))
