"""What the recipe parts asks of Redis: the stream lines:N has the lines of part N, numbered from 1 on.

usage: parts.py feed PORT < NUMBERED_LINES | parts.py read PORT PART PLACES
"""
import os
import re
import sys

import redis


def feed(port):
    """Adds lines, each behind its part's number and a tab; those that a stream has already are left out."""
    server, rest, numbers, known = redis.Redis("127.0.0.1", port), b"", {}, {}
    while data := sys.stdin.buffer.read1(1 << 16):
        whole, newline, rest = (rest + data).rpartition(b"\n")
        adding = server.pipeline(transaction=False)
        for numbered in whole.split(b"\n") if newline else []:
            part, _, line = numbered.partition(b"\t")
            stream = b"lines:" + part
            numbers[stream] = numbers.get(stream, 0) + 1
            if stream not in known:
                last = server.xrevrange(stream, count=1)
                known[stream] = int(last[0][0].split(b"-")[0]) if last else 0
            if numbers[stream] > known[stream]:
                adding.xadd(stream, {"line": line}, id=f"{numbers[stream]}-1")
        adding.execute()
    sys.exit("parts: the lines ended, and a file that is followed has no end")


def place_of(places, taken):
    """The last entry in the file of places behind which there are at most so many bytes, and how many these are."""
    last, count = "0", 0
    if os.path.exists(places):
        # (A line that a crash cut short has no full stop.)
        for entry, number in re.findall(r"^at (\d+-\d+) (\d+) \.$", open(places, errors="replace").read(), re.M):
            if int(number) <= taken:
                last, count = entry, int(number)
    return last, count


def read(port, part, places):
    """Writes the lines of a part from the byte $FROM of them on, and goes on as they come. Of each answer of the server a line in
    the file of places says how far it goes."""
    server, taken = redis.Redis("127.0.0.1", port), int(os.environ.get("FROM", 0))
    last, count = place_of(places, taken)
    while True:
        for _, entries in server.xread({f"lines:{part}": last}, count=1000, block=1000):
            for entry, fields in entries:
                if count >= taken:
                    sys.stdout.buffer.write(fields[b"line"] + b"\n")
                last, count = entry.decode(), count + len(fields[b"line"]) + 1
            sys.stdout.buffer.flush()
            with open(places, "a") as told:
                told.write(f"at {last} {count} .\n")


if __name__ == "__main__":
    try:
        if sys.argv[1] == "feed":
            feed(int(sys.argv[2]))
        else:
            read(int(sys.argv[2]), *sys.argv[3:])
    except redis.RedisError as fault:
        sys.exit(f"parts: {fault}")
    except BrokenPipeError:
        sys.exit(141)
