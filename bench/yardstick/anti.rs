//! An anti-join: instant by instant, which keys have a right row, and which left rows come, go and change for it.

use crate::changes::{Changes, Row};
use crate::keyed::{Event, Move, Pending, Query};
use std::collections::{BTreeMap, HashMap};

#[derive(Default)]
pub struct Anti {
    pending: Pending,
    /// How many right rows of each key are there.
    rights: HashMap<i64, i64>,
    /// The left rows that are there, by key, with their numbers.
    lefts: HashMap<i64, BTreeMap<Row, i64>>,
}

impl Query for Anti {
    fn step(&mut self, events: Vec<Event>, to: i64, changes: &mut Changes) {
        events.into_iter().for_each(|event| self.pending.put(event));
        while let Some((at, moves)) = self.pending.next_before(to) {
            self.instant(at, &moves, changes);
        }
    }
}

impl Anti {
    fn instant(&mut self, at: i64, moves: &[Move], changes: &mut Changes) {
        let mut was_blocked: BTreeMap<i64, bool> = BTreeMap::new();
        let (mut came, mut went) = (Vec::new(), Vec::new());
        for Move { starts, is_left, key, value } in moves {
            let rights = self.rights.entry(*key).or_insert(0);
            was_blocked.entry(*key).or_insert(*rights > 0);
            match (is_left, starts) {
                (false, true) => *rights += 1,
                (false, false) => *rights -= 1,
                (true, true) => came.push((*key, [*key, *value, 0])),
                (true, false) => went.push((*key, [*key, *value, 0])),
            }
        }
        for (key, row) in went {
            self.take_left(key, &row);
            if !was_blocked[&key] {
                changes.end(row, at);
            }
        }
        for (key, was) in &was_blocked {
            let is = self.rights[key] > 0;
            if *was != is {
                self.turn(*key, is, at, changes);
            }
        }
        for (key, row) in came {
            *self.lefts.entry(key).or_default().entry(row).or_insert(0) += 1;
            if self.rights[&key] == 0 {
                changes.start(row, at);
            }
        }
    }

    /// Takes one left row out.
    fn take_left(&mut self, key: i64, row: &Row) {
        let rows = self.lefts.get_mut(&key).expect("an end has a start");
        let count = rows.get_mut(row).expect("an end has a start");
        *count -= 1;
        if *count == 0 {
            rows.remove(row);
        }
    }

    /// All left rows of the key end, if it is now blocked, or start.
    fn turn(&self, key: i64, blocked: bool, at: i64, changes: &mut Changes) {
        for (row, count) in self.lefts.get(&key).into_iter().flatten() {
            for _ in 0..*count {
                match blocked {
                    true => changes.end(*row, at),
                    false => changes.start(*row, at),
                }
            }
        }
    }
}
