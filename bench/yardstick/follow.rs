//! What follows: each left row waits in a deque of its key for the next start of a right row, for a time at most.

use crate::changes::Changes;
use crate::keyed::{Event, Query};
use std::collections::{HashMap, VecDeque};

const WITHIN: i64 = 30;

struct Waiting {
    start: i64,
    value: i64,
}

#[derive(Default)]
pub struct Follow {
    keys: HashMap<i64, VecDeque<Waiting>>,
}

impl Query for Follow {
    fn step(&mut self, events: Vec<Event>, _to: i64, changes: &mut Changes) {
        for instant in events.chunk_by(|a, b| a.start == b.start) {
            let rights = || instant.iter().filter(|event| !event.is_left);
            rights().for_each(|right| self.meet(right, changes));
            for right in rights() {
                self.keys.entry(right.key).or_default().clear();
            }
            instant.iter().filter(|event| event.is_left).for_each(|left| self.wait(left));
        }
    }
}

impl Follow {
    /// A right row starts: it goes with each left row of its key that waits.
    fn meet(&self, right: &Event, changes: &mut Changes) {
        for left in self.keys.get(&right.key).into_iter().flatten() {
            changes.event([right.key, left.value, right.value], right.start, left.start + WITHIN);
        }
    }

    fn wait(&mut self, left: &Event) {
        let rows = self.keys.entry(left.key).or_default();
        while rows.front().is_some_and(|row| row.start + WITHIN <= left.start) {
            rows.pop_front();
        }
        rows.push_back(Waiting { start: left.start, value: left.value });
    }
}
