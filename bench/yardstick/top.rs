//! The greatest rows of each key, in a sorted map a key: from its values to how many rows have them.

use crate::changes::Changes;
use crate::keyed::{Event, Move, Pending, Query};
use std::collections::{BTreeMap, BTreeSet, HashMap};

const MOST: i64 = 3;

/// Values with their numbers of rows.
type Counts = BTreeMap<i64, i64>;

#[derive(Default)]
struct Values {
    counts: Counts,
    shown: Counts,
}

#[derive(Default)]
pub struct Top {
    pending: Pending,
    keys: HashMap<i64, Values>,
}

impl Query for Top {
    fn step(&mut self, events: Vec<Event>, to: i64, changes: &mut Changes) {
        let lefts = events.into_iter().filter(|event| event.is_left);
        lefts.for_each(|event| self.pending.put(event));
        while let Some((at, moves)) = self.pending.next_before(to) {
            for change in &moves {
                self.keys.entry(change.key).or_default().count(change);
            }
            let touched: BTreeSet<i64> = moves.iter().map(|change| change.key).collect();
            for key in touched {
                self.keys.entry(key).or_default().show(key, at, changes);
            }
        }
    }
}

impl Values {
    fn count(&mut self, change: &Move) {
        let count = self.counts.entry(change.value).or_insert(0);
        *count += if change.starts { 1 } else { -1 };
        if *count == 0 {
            self.counts.remove(&change.value);
        }
    }

    /// Shows the greatest rows in place of those that were shown.
    fn show(&mut self, key: i64, at: i64, changes: &mut Changes) {
        let mut above = 0;
        let mut greatest = Counts::new();
        for (value, count) in self.counts.iter().rev() {
            if above >= MOST {
                break;
            }
            greatest.insert(*value, *count);
            above += count;
        }
        for (value, count) in &self.shown {
            for _ in greatest.get(value).copied().unwrap_or(0)..*count {
                changes.end([key, *value, 0], at);
            }
        }
        for (value, count) in &greatest {
            for _ in self.shown.get(value).copied().unwrap_or(0)..*count {
                changes.start([key, *value, 0], at);
            }
        }
        self.shown = greatest;
    }
}
