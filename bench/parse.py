#!/usr/bin/env python3
"""Times the parsing of a query of about 65,000 bytes, beside reading the same bytes once.

usage: bench/parse.py

Ends with status 1 where the query is not parsed, or takes more than 50 ms.
"""
import sys

from inside import run_inside

LIMIT = 50_000

SOURCE = """//! Times the parsing of a query.
#![tactic(auto)]

use query_text::parse;
use std::io::Read;
use std::time::Instant;

fn main(rt: HostRuntime) -> Result<(), anyhow::Error> {
    let mut text = String::new(rt.alloc());
    rt.stdin().read_to_string(&mut text)?;
    let began = Instant::now(&rt)?;
    let mut sum: u8 = 0;
    for byte in text.as_bytes() {
        sum = sum.wrapping_add(*byte);
    }
    let read = began.elapsed(&rt)?;
    let began = Instant::now(&rt)?;
    let parsed = parse(rt.alloc(), &text);
    let taken = began.elapsed(&rt)?;
    println!(rt; "{sum} {} {} {}", parsed.is_ok(), read.as_micros(), taken.as_micros())?;
    Ok(())
}
"""


def query(size):
    text, step = "stream s(v int, p dec(2)); s", " | where v + 1 > 2 * v and not v mod 7 = 3 | where p < 1.50 | top 9 per v by p"
    while len(text) + len(step) <= size:
        text += step
    return text.encode()


def main():
    text = query(65_000)
    words = run_inside("parse_bench", ["query_text", "anyhow"], SOURCE, text).split()
    good, read, taken = words[-3] == "true", int(words[-2]), int(words[-1])
    print(f"{len(text)} bytes: parsed in {taken} us, read once in {read} us")
    sys.exit(0 if good and taken <= LIMIT else 1)


if __name__ == "__main__":
    main()
