//! Queries written by hand, each for one core: what tempo is measured beside. For the same bytes in they write the same bytes
//! out, and read the whole input before they begin.
//!
//! usage: yardstick trades COUNT SEED        writes COUNT trades, as mode sample of tempo generates them
//!        yardstick filter                   trades | where px > 125
//!        yardstick tumble                   trades | tumble 60 | group by sym : count as n, sum qty as q
//!        yardstick keyed COUNT KEYS SEED    writes COUNT lines of two streams, l(k int, w int) and r(k int, x int)
//!        yardstick join                     l | join r on k
//!        yardstick anti                     l | anti r on k
//!        yardstick session                  l | session 30 by k
//!        yardstick top                      l | top 3 per k by w
//!        yardstick follow                   l | follow r on k within 30
//!        yardstick sum                      l | group by k : sum w as m
//!        yardstick average                  l | group by k : avg w as m
//!
//! The lines have to be as these generators write them: intervals in the order of their starts, and a punctuation for all
//! streams after each hundred. Built by `rustc -O --edition 2021 main.rs`.

mod anti;
mod changes;
mod draws;
mod follow;
mod join;
mod keyed;
mod session;
mod text;
mod top;
mod totals;
mod trades;

use std::io;
use text::number_of;

fn main() -> io::Result<()> {
    let args: Vec<String> = std::env::args().skip(1).collect();
    let words: Vec<&str> = args.iter().map(String::as_str).collect();
    let number = |word: &str| number_of(word.as_bytes());
    match words[..] {
        ["trades", count, seed] => trades::generate(number(count), number(seed)),
        ["filter"] => trades::filter(),
        ["tumble"] => trades::tumble(),
        ["keyed", count, keys, seed] => keyed::generate(number(count), number(keys), number(seed)),
        ["join"] => keyed::answer(join::Join::default(), 3),
        ["anti"] => keyed::answer(anti::Anti::default(), 2),
        ["session"] => keyed::answer(session::Sessions::default(), 2),
        ["top"] => keyed::answer(top::Top::default(), 2),
        ["follow"] => keyed::answer(follow::Follow::default(), 3),
        ["sum"] => keyed::answer(totals::Totals::new(false), 2),
        ["average"] => keyed::answer(totals::Totals::new(true), 2),
        _ => Err(io::Error::other("usage: yardstick trades|filter|tumble|keyed|join|anti|session|top|follow|sum|average ..")),
    }
}
