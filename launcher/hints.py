#!/usr/bin/env python3
"""Runs tempo's program, and says what to do once it has refused something. ./tempo runs this at a terminal.

usage: launcher/hints.py PROGRAM WORD ..

What the program reads, what it writes and its status are as they are without this. Behind its note stand, on standard error:
the query with a mark under the place or the item, or the line where it came from a file; which names are there, the nearest
one first, which kinds clash, or which file cannot serve; and what to do, from docs/refusals.tsv.
"""
import os
import re
import select
import shutil
import signal
import stat
import subprocess
import sys
from pathlib import Path

sys.dont_write_bytecode = True
import query

ROOT = Path(__file__).resolve().parent.parent
ENTER = 0.3
VALUES = {"int": "7", "bool": "true", "text": "a"}
# Which field of a line may be `inf`, by the kind of line.
MAY_BE_INF = {b"interval": 3, b"start": 3, b"punct": 2}
SHOWN = 300


def option(words, name):
    """The value of an option, as the words give it."""
    for at, word in enumerate(words):
        if word == name and at + 1 < len(words):
            return words[at + 1]
        if word.startswith(name + "="):
            return word[len(name) + 1:]
    return None


def query_of(words):
    return os.fsencode(option(words, "--query") or "")


def how_to_type(words):
    """How to give lines at a terminal, with a line of the first stream of the query."""
    name, columns = next(iter(query.streams_of(query_of(words)).items()), ("s", []))
    values = [VALUES.get(kind) or f"1.{'0' * int(kind[4:-1])}" for _, kind in columns]
    return f"tempo: type lines such as {','.join([name, 'interval', '1', '5', *values])}; Ctrl-D ends them, and < FILE reads a file"


def advice(note, status):
    """What to do, by the table of refusals."""
    for row in (ROOT / "docs/refusals.tsv").read_text().splitlines():
        number, form, told = (row.split("\t") + ["", ""])[:3]
        wanted = re.sub(r"\b([A-Z])\b", r"(?P<\1>\\w+)", re.escape(form.strip("`")).replace(r"\ ", " "))
        found = re.fullmatch(wanted, note)
        if number == str(status) and (found or number == "2"):
            told = re.sub(r"\[([^]]*)\]\((\S*?)(#\S*)?\)", lambda it: f"{it[1]} (docs/{it[2] or 'QUERY.md'})", told)
            return re.sub(r"\b[A-Z]\b", lambda it: (found.groupdict() if found else {}).get(it[0], it[0]), told)
    return ""


def shown(text, marks, width):
    """A line of text and a line of marks below it, each a first byte, an end and a sign; cut to the width round the last mark."""
    cells, places = [], []
    for at, char in enumerate_chars(text):
        for cell in char if char.isprintable() else " " if char == "\t" else repr(char)[1:-1]:
            cells.append(cell)
            places.append(at)
    places.append(len(text))
    below = [" "] * (len(cells) + 1)
    for first, end, sign in marks:
        for i, place in enumerate(places):
            if first <= place < max(end, first + 1):
                below[i] = sign
    at = next((i for i in range(len(below)) if below[i] == (marks[-1][2] if marks else "")), 0)
    start = max(0, min(at - width // 2, len(below) - width))
    lines = ["".join(cells)[start:start + width], "".join(below)[start:start + width].rstrip()]
    if start:
        lines[0] = "..." + lines[0][3:]
    if start + width < len(cells):
        lines[0] = lines[0][:width - 3] + "..."
    return [line for line in lines if line]


def enumerate_chars(text):
    """The characters of a text with the numbers of their first bytes; a byte that is of none stands for itself."""
    at = 0
    while at < len(text):
        for size in (1, 2, 3, 4):
            try:
                char = text[at:at + size].decode()
                break
            except UnicodeDecodeError:
                char, size = f"\\x{text[at]:02x}", 1 if size == 4 else size
        yield at, char
        at += size


def at_line(text, marks, width):
    """The line of a text in which the last mark begins, and the marks below it."""
    first = marks[-1][0]
    start = text.rfind(b"\n", 0, first) + 1
    end = text.find(b"\n", first)
    line = text[start:end if end >= 0 else len(text)]
    return shown(line, [(max(a - start, 0), min(max(b - start, 0), len(line) + 1), sign) for a, b, sign in marks], width)


def of_query(note, text, width):
    """What to say of a query that was refused."""
    found = re.fullmatch(r"query: (?:syntax|expression too long) at (\d+)", note)
    if found:
        place = int(found[1])
        wrong = query.wrong_word(text, place)
        word = next((it for it in query.words_of(text) if it.start == place), None)
        lines = at_line(text, [(place, word.end if word and word.what != "bad" else place + 1, "^")], width)
        return lines + ([wrong.sentence] if wrong else [])
    found = re.fullmatch(r"query: (.*) in item (\d+)", note)
    if not found:
        return []
    planned = query.Planned(text)
    item = planned.items[int(found[2])]
    mark = item.words[0].start, item.words[-1].end
    wrong = None
    if found[1] in ("unknown name", "type clash", "name taken"):
        wrong = planned.upto(int(found[2]))
    if found[1] == "not event level":
        before = query.snapshot_before(item)
        wrong = before and query.Wrong(f"it stands behind {before.words[0].text}")
    marks = [(*mark, "^")]
    if wrong and wrong.words:
        marks = [(*mark, "~"), (wrong.words[0].start, wrong.words[-1].end, "^")]
    return at_line(text, marks, width) + ([wrong.sentence] if wrong else [])


def lines_of(words, cause, start):
    """The descriptor of the file whose line a note numbers, and the byte from which on it is read, or None for no file. `start`
    is that byte of standard input."""
    checkpoint, given = option(words, "--checkpoint"), option(words, "--input")
    if checkpoint is None:
        return None if start is None else (0, start)
    name = checkpoint if cause == "not a checkpoint" else given
    return None if name in (None, "-") else (os.open(name, os.O_RDONLY), 0)


def line_of_file(number, descriptor, start):
    """The beginning of a line of a file that is read from the byte `start` on."""
    at, rest, seen = start, b"", 1
    while True:
        part = os.pread(descriptor, 1 << 20, at)
        at += len(part)
        count = part.count(b"\n")
        if not part or seen + count >= number:
            break
        seen, rest = seen + count, part[part.rfind(b"\n") + 1:] if count else (rest + part)[:SHOWN]
    lines = (rest + part).split(b"\n") if seen < number or rest else part.split(b"\n")
    line = lines[number - seen] if number - seen < len(lines) else b""
    return line[:-1] if line.endswith(b"\r") else line


def fields_of(line):
    """The first and last bytes of the fields of a line."""
    found, first, is_quoted = [], 0, False
    for at, byte in enumerate(line):
        is_quoted ^= byte == ord('"')
        if byte == ord(",") and not is_quoted:
            found.append((first, at))
            first = at + 1
    return [*found, (first, len(line))]


def is_time(field, may_be_inf):
    """Whether a field is a time of a line."""
    field = field.strip(b'"')
    if field == b"inf":
        return may_be_inf
    return re.fullmatch(rb"0|[1-9]\d{0,18}", field) is not None and int(field) < 1 << 60


def of_checkpoint(fields):
    """What to say of the fields of a line at which a checkpoint is refused."""
    if fields[:1] == [b"#query"]:
        return ["the checkpoint is of another query"]
    if fields[:1] == [b"#options"] and len(fields) == 5:
        names = ("--workers", "--late", "--lateness", "--punctuate")
        told = " ".join(f"{name} {field.decode(errors='replace')}" for name, field in zip(names, fields[1:]))
        return [f"the checkpoint was taken with {told}"]
    return []


def of_line(note, line, text, width):
    """What to say of a line that was refused; `line` is None where it came from no file."""
    streams = query.streams_of(text)
    cause = note.partition(": ")[2]
    fields = fields_of(line) if line is not None else []
    texts = [line[first:end] for first, end in fields]
    told, at = [], []
    columns = streams.get(texts[0].decode(errors="replace").strip('"')) if texts else None
    if cause == "unknown stream":
        at = [0]
        name = texts[0].decode(errors="replace") if texts else ""
        told = [f"the streams are {', '.join(query.nearest(name, streams))}{query.did_you_mean(name, list(streams))}"]
    elif cause == "unknown kind":
        at = [1]
    elif cause == "wrong number of fields" and columns:
        told = [f"{texts[0].decode()} has the columns {query.listed(columns)}: {len(columns) + 4} fields with the first four, "
                f"and here are {len(fields)}"]
    elif cause == "bad time":
        kind = texts[1].strip(b'"') if len(texts) > 1 else b""
        at = [i for i in (2, 3) if i < len(texts) and not is_time(texts[i], i == MAY_BE_INF.get(kind))]
        if kind == b"start" and not at:
            at, told = [3], ["the fourth field of a start line is inf; where the end is known, the line is an interval"]
    elif cause == "bad life":
        at = [2, 3]
    elif cause.startswith("bad value in column "):
        number = int(cause.rpartition(" ")[2])
        at = [3 + number]
        if columns and number <= len(columns):
            told = [f"column {number} of {texts[0].decode()} is {' '.join(columns[number - 1])}"]
    elif cause.startswith("late"):
        at = [2]
    elif cause == "not a checkpoint":
        at, told = [], of_checkpoint(texts)
    marks = [(*fields[i], "^") for i in at if i < len(fields)]
    return (shown(line, marks, width) if line else []) + told


def places_of(checkpoint):
    """How many bytes of the input and of the output's file are behind a state."""
    try:
        with open(checkpoint, "rb") as file:
            found = re.match(rb"#input,(\d+)\n#output,(\d+)\n", file.read(SHOWN))
    except OSError:
        found = None
    return (int(found[1]), int(found[2])) if found else (0, 0)


def of_files(words):
    """Which of the files of a run with a checkpoint cannot serve it."""
    checkpoint, given, answer = (option(words, name) for name in ("--checkpoint", "--input", "--output"))
    taken, written = places_of(checkpoint)
    told = []
    for name, count, is_made in ((checkpoint, 0, True), (given, taken, False), (answer, written, written == 0)):
        folder = os.path.dirname(name or "") or "."
        if name in (None, "-"):
            continue
        if not os.path.isdir(folder):
            told.append(f"there is no folder {folder}")
        elif not os.path.exists(name):
            told += [] if is_made else [f"there is no {name}"]
        elif name == checkpoint and os.path.isdir(name):
            told.append(f"{name} is a folder")
        elif count and not os.path.isfile(name):
            told.append(f"{name} is no file, and {count} bytes of it are behind the state")
        elif count > os.path.getsize(name):
            told.append(f"{name} has {os.path.getsize(name)} bytes, and {count} are behind the state")
    return told


def of_node(note, program, text):
    """The node that a note names, as the plan has it."""
    number = re.match(r"node (\d+): ", note)[1]
    words = [program, "--mode", "explain", "--query", os.fsdecode(text)]
    plan = subprocess.run(words, stdin=subprocess.DEVNULL, capture_output=True)
    found = [line for line in plan.stdout.decode(errors="replace").splitlines() if line.startswith(number + " ")]
    return [f"node {found[0]}"] if found else []


def hints(program, words, note, status, start):
    """What to say behind a note, line by line."""
    width = max(shutil.get_terminal_size().columns - 4, 20)
    text, told = query_of(words), []
    try:
        if note.startswith("query: ") and text:
            told = of_query(note, text, width)
        elif note.startswith("line ") and text:
            numbered, _, cause = note.partition(": ")
            at = lines_of(words, cause, start)
            told = of_line(note, line_of_file(int(numbered.split()[1]), *at) if at else None, text, width)
        elif note.startswith("node "):
            told = of_node(note, program, text)
        elif note == "checkpoint failed":
            told = of_files(words)
    except (query.Wrong, LookupError, ValueError, OSError):
        # The note stands, and so does what to do about it.
        pass
    what = advice(note, status)
    return told + ([f"What to do: {what}."] if what else [])


def run(program, words):
    """Runs the program, passes on what it notes, and returns its notes and its status."""
    signal.signal(signal.SIGINT, signal.SIG_IGN)
    # Ctrl-C reaches both, and is the program's alone.
    ran = subprocess.Popen([program, *words], stderr=subprocess.PIPE,
                           preexec_fn=lambda: signal.signal(signal.SIGINT, signal.SIG_DFL))
    for number in (signal.SIGTERM, signal.SIGHUP):
        signal.signal(number, lambda number, _: ran.send_signal(number))
    if os.isatty(0) and "--query" in " ".join(words) and option(words, "--mode") in (None, "run", "freeze") \
            and option(words, "--input") in (None, "-"):
        # Not where it ends at once, as at a query that it refuses.
        if not select.select([ran.stderr], [], [], ENTER)[0]:
            # (In one write, so that nothing that is typed comes into the line.)
            os.write(2, f"{how_to_type(words)}\n".encode())
    noted = b""
    while True:
        part = os.read(ran.stderr.fileno(), 1 << 16)
        if not part:
            return noted, ran.wait()
        noted += part
        os.write(2, part)


def place_in_file():
    """The byte of standard input that is read next, where it is a file; else None."""
    try:
        return os.lseek(0, 0, os.SEEK_CUR) if stat.S_ISREG(os.fstat(0).st_mode) else None
    except OSError:
        return None


def main(program, *words):
    start = place_in_file()
    noted, status = run(program, words)
    if status < 0:
        signal.signal(-status, signal.SIG_DFL)
        os.kill(os.getpid(), -status)
    if status > 0 and "--help" not in words:
        note = noted.decode(errors="replace").strip().rpartition("\n")[2]
        for line in hints(program, words, note, status, start):
            print(f"  {line}", file=sys.stderr)
    return status


if __name__ == "__main__":
    sys.exit(main(*sys.argv[1:]))
