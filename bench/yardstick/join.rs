//! A join: each new row meets the rows of the other side that are still there.

use crate::changes::Changes;
use crate::keyed::{Event, Query};
use std::collections::HashMap;

struct Alive {
    start: i64,
    end: i64,
    value: i64,
}

#[derive(Default)]
struct Sides {
    left: Vec<Alive>,
    right: Vec<Alive>,
}

#[derive(Default)]
pub struct Join {
    keys: HashMap<i64, Sides>,
}

impl Query for Join {
    fn step(&mut self, events: Vec<Event>, _to: i64, changes: &mut Changes) {
        for Event { start, end, is_left, key, value } in events {
            let sides = self.keys.entry(key).or_default();
            sides.left.retain(|row| row.end > start);
            sides.right.retain(|row| row.end > start);
            let (own, others) = match is_left {
                true => (&mut sides.left, &sides.right),
                false => (&mut sides.right, &sides.left),
            };
            for other in others {
                let row = if is_left { [key, value, other.value] } else { [key, other.value, value] };
                changes.event(row, start.max(other.start), end.min(other.end));
            }
            own.push(Alive { start, end, value });
        }
    }
}
