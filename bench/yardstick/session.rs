//! Sessions: the rows of a key end together, once the key has had no start for the timeout.

use crate::changes::{Changes, Row};
use crate::keyed::{Event, Query};
use crate::text::INF;
use std::collections::{BTreeMap, HashMap};

const TIMEOUT: i64 = 30;

struct Session {
    last: i64,
    rows: Vec<Row>,
}

#[derive(Default)]
pub struct Sessions {
    open: HashMap<i64, Session>,
    /// When to look at which keys again.
    looks: BTreeMap<i64, Vec<i64>>,
}

impl Query for Sessions {
    fn step(&mut self, events: Vec<Event>, to: i64, changes: &mut Changes) {
        for event in events.iter().filter(|event| event.is_left) {
            let Event { start, key, value, .. } = *event;
            self.end_up_to(start, changes);
            let looks = &mut self.looks;
            let session = self.open.entry(key).or_insert_with(|| {
                looks.entry(start + TIMEOUT).or_default().push(key);
                Session { last: start, rows: Vec::new() }
            });
            session.last = start;
            session.rows.push([key, value, 0]);
            changes.start([key, value, 0], start);
        }
        self.end_up_to(if to == INF { INF } else { to - 1 }, changes);
    }
}

impl Sessions {
    /// Ends the sessions whose timeout is over at the time or earlier.
    fn end_up_to(&mut self, time: i64, changes: &mut Changes) {
        while let Some(entry) = self.looks.first_entry() {
            if *entry.key() > time {
                break;
            }
            let (at, keys) = entry.remove_entry();
            for key in keys {
                let end = self.open[&key].last + TIMEOUT;
                if end > at {
                    self.looks.entry(end).or_default().push(key);
                } else if let Some(session) = self.open.remove(&key) {
                    for row in session.rows {
                        changes.end(row, end);
                    }
                }
            }
        }
    }
}
