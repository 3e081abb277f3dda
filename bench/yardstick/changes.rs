//! Output as it goes: at each instant the net change of equal rows, ends before starts, in row order. An end names the earliest
//! open start of its row.

use crate::text::{push_fields, push_number, push_punctuation, INF};
use std::collections::{BTreeMap, HashMap, VecDeque};

/// A row of ints; a query whose rows are shorter leaves the last ones at 0.
pub type Row = [i64; 3];

pub struct Changes {
    width: usize,
    due: BTreeMap<i64, Vec<(Row, i32)>>,
    open: HashMap<Row, VecDeque<i64>>,
    closed: i64,
    pub out: Vec<u8>,
}

impl Changes {
    pub fn new(width: usize) -> Changes {
        Changes {
            width,
            due: BTreeMap::new(),
            open: HashMap::new(),
            closed: 0,
            out: Vec::with_capacity(1 << 20),
        }
    }

    /// The time up to which output is written.
    pub fn closed(&self) -> i64 {
        self.closed
    }

    pub fn start(&mut self, row: Row, at: i64) {
        self.due.entry(at).or_default().push((row, 1));
    }

    pub fn end(&mut self, row: Row, at: i64) {
        self.due.entry(at).or_default().push((row, -1));
    }

    /// The row is there from the start to the end, if that is later.
    pub fn event(&mut self, row: Row, start: i64, end: i64) {
        if start < end {
            self.start(row, start);
            if end != INF {
                self.end(row, end);
            }
        }
    }

    /// Writes all changes before the time, and the punctuation.
    pub fn close(&mut self, to: i64) {
        while let Some(entry) = self.due.first_entry() {
            if *entry.key() >= to {
                break;
            }
            let (at, moves) = entry.remove_entry();
            self.instant(at, moves);
        }
        if to > self.closed {
            self.closed = to;
            push_punctuation(&mut self.out, to);
        }
    }

    fn instant(&mut self, at: i64, mut moves: Vec<(Row, i32)>) {
        moves.sort_unstable_by(|a, b| a.0.cmp(&b.0));
        let mut net: Vec<(Row, i32)> = Vec::with_capacity(moves.len());
        for (row, by) in moves {
            match net.last_mut() {
                Some(last) if last.0 == row => last.1 += by,
                _ => net.push((row, by)),
            }
        }
        for (row, by) in &net {
            for _ in *by..0 {
                let since = self.take_open(row);
                self.out.extend_from_slice(b"out,end,");
                push_number(&mut self.out, at);
                self.out.push(b',');
                push_number(&mut self.out, since);
                self.finish_line(row);
            }
        }
        for (row, by) in &net {
            for _ in 0..*by {
                self.open.entry(*row).or_default().push_back(at);
                self.out.extend_from_slice(b"out,start,");
                push_number(&mut self.out, at);
                self.out.extend_from_slice(b",inf");
                self.finish_line(row);
            }
        }
    }

    /// The earliest open start of the row, which is open no more.
    fn take_open(&mut self, row: &Row) -> i64 {
        let starts = self.open.get_mut(row).expect("an end has a start");
        let since = starts.pop_front().expect("an end has a start");
        if starts.is_empty() {
            self.open.remove(row);
        }
        since
    }

    fn finish_line(&mut self, row: &Row) {
        push_fields(&mut self.out, &row[..self.width]);
        self.out.push(b'\n');
    }
}
