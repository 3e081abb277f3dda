//! Trades, and two queries over them.

use crate::draws::Draws;
use crate::text::{input, lines, number_of, push_fields, push_number, push_punctuation, write_much, INF};
use std::collections::{BTreeMap, HashMap, HashSet};
use std::io::{self, Write};

const WINDOW: i64 = 60;

pub fn generate(count: i64, seed: i64) -> io::Result<()> {
    let (mut draws, mut time, mut out) = (Draws::new(seed as u64), 0, Vec::new());
    let mut to = io::stdout().lock();
    for id in 0..count {
        let [later, length, sym, rest] = draws.four();
        time += 1 + later % 3;
        out.extend_from_slice(b"trades,interval");
        push_fields(&mut out, &[time, time + 1 + length % 20, id]);
        out.extend_from_slice(b",S");
        push_number(&mut out, sym % 5);
        push_fields(&mut out, &[100 + rest % 50, 1 + rest / 64 % 10]);
        out.push(b'\n');
        if (id + 1) % 100 == 0 {
            push_punctuation(&mut out, time);
        }
        write_much(&mut to, &mut out)?;
    }
    to.write_all(&out)
}

/// Begins a line of a row that ends at a time, or starts there.
fn push_end(out: &mut Vec<u8>, at: i64, since: i64) {
    out.extend_from_slice(b"out,end");
    push_fields(out, &[at, since]);
    out.push(b',');
}

fn push_start(out: &mut Vec<u8>, at: i64) {
    out.extend_from_slice(b"out,start");
    push_fields(out, &[at]);
    out.extend_from_slice(b",inf,");
}

/// In the order of rows: its columns are in the order of the stream's.
#[derive(Clone, PartialEq, Eq, PartialOrd, Ord)]
struct Trade {
    id: i64,
    sym: Vec<u8>,
    px: i64,
    qty: i64,
}

impl Trade {
    fn push(&self, out: &mut Vec<u8>) {
        push_number(out, self.id);
        out.push(b',');
        out.extend_from_slice(&self.sym);
        push_fields(out, &[self.px, self.qty]);
        out.push(b'\n');
    }
}

#[derive(Default)]
struct Filter {
    starts: BTreeMap<i64, Vec<Trade>>,
    ends: BTreeMap<i64, Vec<(Trade, i64)>>,
}

impl Filter {
    fn take(&mut self, fields: &[&[u8]]) {
        let px = number_of(fields[6]);
        if px > 125 {
            let sym = fields[5].to_vec();
            let trade = Trade { id: number_of(fields[4]), sym, px, qty: number_of(fields[7]) };
            let (start, end) = (number_of(fields[2]), number_of(fields[3]));
            self.starts.entry(start).or_default().push(trade.clone());
            self.ends.entry(end).or_default().push((trade, start));
        }
    }

    /// Every trade has a row of its own, so no two of an instant cancel.
    fn close(&mut self, to: i64, out: &mut Vec<u8>) {
        loop {
            let start = self.starts.keys().next().copied().unwrap_or(INF);
            let end = self.ends.keys().next().copied().unwrap_or(INF);
            let at = start.min(end);
            if at >= to {
                break;
            }
            let mut ends = self.ends.remove(&at).unwrap_or_default();
            ends.sort();
            for (trade, since) in ends {
                push_end(out, at, since);
                trade.push(out);
            }
            let mut starts = self.starts.remove(&at).unwrap_or_default();
            starts.sort();
            for trade in starts {
                push_start(out, at);
                trade.push(out);
            }
        }
        push_punctuation(out, to);
    }
}

pub fn filter() -> io::Result<()> {
    let bytes = input()?;
    let (mut filter, mut out) = (Filter::default(), Vec::with_capacity(1 << 20));
    let mut to = io::stdout().lock();
    for fields in lines(&bytes) {
        if fields[0] == b"*" {
            filter.close(number_of(fields[2]), &mut out);
            write_much(&mut to, &mut out)?;
        } else {
            filter.take(&fields);
        }
    }
    filter.close(INF, &mut out);
    to.write_all(&out)
}

/// How many trades of a symbol, and of how many pieces together.
#[derive(Clone, Copy, Default, PartialEq, Eq, PartialOrd, Ord)]
struct Total {
    count: i64,
    sum: i64,
}

/// A row of the answer that is there.
#[derive(Clone, Copy, PartialEq, Eq, PartialOrd, Ord)]
struct Shown {
    total: Total,
    since: i64,
    until: i64,
}

#[derive(Default)]
struct Windows {
    totals: BTreeMap<i64, HashMap<Vec<u8>, Total>>,
    shown: BTreeMap<Vec<u8>, Shown>,
    closed: i64,
}

fn push_total(out: &mut Vec<u8>, sym: &[u8], total: Total) {
    out.extend_from_slice(sym);
    push_fields(out, &[total.count, total.sum]);
    out.push(b'\n');
}

impl Windows {
    fn take(&mut self, fields: &[&[u8]]) {
        let window = self.totals.entry(number_of(fields[2]) / WINDOW * WINDOW).or_default();
        let qty = number_of(fields[7]);
        if let Some(total) = window.get_mut(fields[5]) {
            total.count += 1;
            total.sum += qty;
        } else {
            window.insert(fields[5].to_vec(), Total { count: 1, sum: qty });
        }
    }

    fn close(&mut self, to: i64, out: &mut Vec<u8>) {
        loop {
            let start = self.totals.keys().next().copied().unwrap_or(INF);
            let end = self.shown.values().map(|shown| shown.until).min().unwrap_or(INF);
            let at = start.min(end);
            if at >= to {
                break;
            }
            let totals = self.totals.remove(&at).unwrap_or_default();
            self.instant(at, totals, out);
        }
        if to > self.closed {
            self.closed = to;
            push_punctuation(out, to);
        }
    }

    /// A row that starts where an equal one ends stays.
    fn instant(&mut self, at: i64, totals: HashMap<Vec<u8>, Total>, out: &mut Vec<u8>) {
        let mut stay = HashSet::new();
        let mut ends = Vec::new();
        for (sym, shown) in self.shown.iter_mut().filter(|(_, shown)| shown.until == at) {
            if totals.get(sym) == Some(&shown.total) {
                shown.until = at + WINDOW;
                stay.insert(sym.clone());
            } else {
                ends.push((sym.clone(), *shown));
            }
        }
        for (sym, shown) in &ends {
            self.shown.remove(sym);
            push_end(out, at, shown.since);
            push_total(out, sym, shown.total);
        }
        let mut starts: Vec<_> = totals.into_iter().filter(|(sym, _)| !stay.contains(sym)).collect();
        starts.sort();
        for (sym, total) in starts {
            push_start(out, at);
            push_total(out, &sym, total);
            self.shown.insert(sym, Shown { total, since: at, until: at + WINDOW });
        }
    }
}

pub fn tumble() -> io::Result<()> {
    let bytes = input()?;
    let (mut windows, mut out) = (Windows::default(), Vec::with_capacity(1 << 20));
    let mut to = io::stdout().lock();
    for fields in lines(&bytes) {
        if fields[0] == b"*" {
            windows.close(number_of(fields[2]) / WINDOW * WINDOW, &mut out);
            write_much(&mut to, &mut out)?;
        } else {
            windows.take(&fields);
        }
    }
    windows.close(INF, &mut out);
    to.write_all(&out)
}
