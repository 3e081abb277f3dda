//! Queries by key over two streams, and the lines of these streams.

use crate::changes::Changes;
use crate::draws::Draws;
use crate::text::{input, lines, number_of, push_fields, push_punctuation, write_much, INF};
use std::collections::BTreeMap;
use std::io::{self, Write};

pub struct Event {
    pub start: i64,
    pub end: i64,
    pub is_left: bool,
    pub key: i64,
    pub value: i64,
}

/// A row that starts or ends.
pub struct Move {
    pub starts: bool,
    pub is_left: bool,
    pub key: i64,
    pub value: i64,
}

/// Starts and ends of events that wait for their time.
#[derive(Default)]
pub struct Pending {
    moves: BTreeMap<i64, Vec<Move>>,
}

impl Pending {
    pub fn put(&mut self, Event { start, end, is_left, key, value }: Event) {
        self.wait(start, Move { starts: true, is_left, key, value });
        if end != INF {
            self.wait(end, Move { starts: false, is_left, key, value });
        }
    }

    fn wait(&mut self, at: i64, change: Move) {
        self.moves.entry(at).or_default().push(change);
    }

    /// Takes out what moves at the first instant, if that is before the time.
    pub fn next_before(&mut self, to: i64) -> Option<(i64, Vec<Move>)> {
        let first = self.moves.first_entry()?;
        (*first.key() < to).then(|| first.remove_entry())
    }
}

/// A query that is answered in steps.
pub trait Query {
    /// Takes the events that start before a time, in the order of their starts, and gives what it changes before that time.
    fn step(&mut self, events: Vec<Event>, to: i64, changes: &mut Changes);
}

pub fn generate(count: i64, keys: i64, seed: i64) -> io::Result<()> {
    let (mut draws, mut time, mut out) = (Draws::new(seed as u64), 0, Vec::new());
    let mut to = io::stdout().lock();
    for number in 1..=count {
        let [later, length, key, rest] = draws.four();
        time += later % 3;
        out.extend_from_slice(if rest % 2 == 0 { b"l,interval" } else { b"r,interval" });
        push_fields(&mut out, &[time, time + 1 + length % 20, key % keys, rest / 2 % 100]);
        out.push(b'\n');
        if number % 100 == 0 {
            push_punctuation(&mut out, time);
        }
        write_much(&mut to, &mut out)?;
    }
    to.write_all(&out)
}

/// Answers the query, whose rows have so many columns, over standard input.
pub fn answer(mut query: impl Query, width: usize) -> io::Result<()> {
    let bytes = input()?;
    let mut to = io::stdout().lock();
    let (mut changes, mut pending) = (Changes::new(width), Vec::new());
    for fields in lines(&bytes) {
        if fields[0] == b"*" {
            let time = number_of(fields[2]);
            if time > changes.closed() {
                step(&mut query, &mut pending, time, &mut changes);
            }
            write_much(&mut to, &mut changes.out)?;
        } else {
            pending.push(Event {
                start: number_of(fields[2]),
                end: number_of(fields[3]),
                is_left: fields[0] == b"l",
                key: number_of(fields[4]),
                value: number_of(fields[5]),
            });
        }
    }
    step(&mut query, &mut pending, INF, &mut changes);
    to.write_all(&changes.out)
}

fn step(query: &mut impl Query, pending: &mut Vec<Event>, to: i64, changes: &mut Changes) {
    pending.sort_by_key(|event| event.start);
    let due = pending.partition_point(|event| event.start < to);
    query.step(pending.drain(..due).collect(), to, changes);
    changes.close(to);
}
