//! At each instant the sum, or the average, of the rows of each key.

use crate::changes::Changes;
use crate::keyed::{Event, Pending, Query};
use std::collections::{BTreeMap, HashMap};

#[derive(Clone, Copy, Default)]
struct Total {
    count: i64,
    sum: i64,
}

pub struct Totals {
    average: bool,
    pending: Pending,
    keys: HashMap<i64, Total>,
}

impl Totals {
    /// The sums, or the averages, rounded down.
    pub fn new(average: bool) -> Totals {
        Totals { average, pending: Pending::default(), keys: HashMap::new() }
    }

    /// What is shown of a key.
    fn shown(&self, total: Total) -> Option<i64> {
        match (total.count, self.average) {
            (0, _) => None,
            (count, true) => Some(total.sum.div_euclid(count)),
            (_, false) => Some(total.sum),
        }
    }
}

impl Query for Totals {
    fn step(&mut self, events: Vec<Event>, to: i64, changes: &mut Changes) {
        let lefts = events.into_iter().filter(|event| event.is_left);
        lefts.for_each(|event| self.pending.put(event));
        while let Some((at, moves)) = self.pending.next_before(to) {
            let mut before = BTreeMap::new();
            for change in &moves {
                let total = self.keys.entry(change.key).or_default();
                before.entry(change.key).or_insert(*total);
                let by = if change.starts { 1 } else { -1 };
                total.count += by;
                total.sum += by * change.value;
            }
            for (key, was) in before {
                let (was, is) = (self.shown(was), self.shown(self.keys[&key]));
                if was != is {
                    was.iter().for_each(|value| changes.end([key, *value, 0], at));
                    is.iter().for_each(|value| changes.start([key, *value, 0], at));
                }
            }
        }
    }
}
