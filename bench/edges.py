#!/usr/bin/env python3
"""Times lists of edges in batches of 1,024 rows: adding an edge, merging two lists, reading an edge by a cursor, copying
a list, and cutting it into pieces of 1,000 edges from the front.

usage: bench/edges.py

The program that is timed is proved first. Ends with status 1 where an edge is lost.
"""
import sys

from inside import run_inside

EDGES = 1_000_000
CRATES = ["edge_stream", "anyhow"]

SOURCE = """//! Times lists of edges.
#![tactic(auto)]

ghost use Rattle.std.specs.Prelude.{◌≡◌, [], ◌∷◌, map, All, IfOk, IfSome};
ghost use Rattle.tw_rows.specs.Cells.{datum_kind};

use batch::Pools;
use edge_history::keeps_order;
use edge_stream::EdgeList;
use std::alloc::Global;
use std::time::Instant;
use tw_rows::{CellKind, Cells, Datum, Edge, Kind, Memory, Time};

const HALF: u64 = 500000;
const PIECE: u64 = 1000;

fn edge(alloc: Global, number: u64) -> Result<Edge, Memory>
    ensures { IfOk result (λ e. map datum_kind e.cells ≡ CellKind.Whole ∷ []) }
{
    let (first, last) = Time::bounds();
    Ok(Edge {
        sync: first.plus(number),
        other: last,
        cells: Cells::from_slice(alloc, &[Datum::Int(7)])?,
    })
}

// Every other edge, from the first one or the second one on.
fn edges(alloc: Global, first: u64) -> Result<Vec<Edge>, Memory>
    ensures { IfOk result (λ edges. All (λ e. map datum_kind e.cells ≡ CellKind.Whole ∷ []) edges.items) }
{
    let mut edges = Vec::new(alloc);
    for i in 0..HALF {
        edges.push(edge(alloc, first.wrapping_add(i.wrapping_mul(2)))?)?;
    }
    Ok(edges)
}

// The list of these edges, which are added one by one.
fn time_append(rt: &HostRuntime, alloc: Global, pools: &mut Pools, edges: &[Edge]) -> Result<Option<EdgeList>, anyhow::Error>
    requires cells { All (λ e. map datum_kind e.cells ≡ CellKind.Whole ∷ []) edges.now }
    ensures kinds { IfOk result (λ list. IfSome list (λ l. l.kinds ≡ Kind.Int ∷ [])) }
{
    if !keeps_order(edges) || pools.capacity() < 1 {
        return Ok(None);
    }
    let began = Instant::now(rt)?;
    let list = EdgeList::from_edges(alloc, pools, &[Kind::Int], edges)?;
    println!(rt; "append {} {}", list.len(), began.elapsed(rt)?.as_nanos())?;
    Ok(Some(list))
}

fn time_merge(rt: &HostRuntime, pools: &mut Pools, a: EdgeList, b: EdgeList) -> Result<Option<EdgeList>, anyhow::Error>
    requires a { a.kinds ≡ Kind.Int ∷ [] }
    requires b { b.kinds ≡ Kind.Int ∷ [] }
{
    if a.capacity() != pools.capacity() || b.capacity() != a.capacity() {
        return Ok(None);
    }
    let began = Instant::now(rt)?;
    let whole = EdgeList::merge(pools, a, b)?;
    println!(rt; "merge {} {}", whole.len(), began.elapsed(rt)?.as_nanos())?;
    Ok(Some(whole))
}

fn merged(rt: &HostRuntime, alloc: Global, pools: &mut Pools, first: &[Edge], second: &[Edge]) -> Result<Option<EdgeList>, anyhow::Error>
    requires first { All (λ e. map datum_kind e.cells ≡ CellKind.Whole ∷ []) first.now }
    requires second { All (λ e. map datum_kind e.cells ≡ CellKind.Whole ∷ []) second.now }
{
    let Some(a) = time_append(rt, alloc, pools, first)? else {
        return Ok(None);
    };
    let Some(b) = time_append(rt, alloc, pools, second)? else {
        return Ok(None);
    };
    time_merge(rt, pools, a, b)
}

fn counted(list: &EdgeList) -> Result<u64, Memory> {
    let mut count: u64 = 0;
    let mut cursor = list.cursor();
    while let Some(_edge) = cursor.next()? {
        count = count.wrapping_add(1);
    }
    Ok(count)
}

fn time_cursor(rt: &HostRuntime, list: &EdgeList) -> Result<(), anyhow::Error> {
    let began = Instant::now(rt)?;
    let count = counted(list)?;
    println!(rt; "cursor {count} {}", began.elapsed(rt)?.as_nanos())?;
    Ok(())
}

fn time_copy(rt: &HostRuntime, pools: &mut Pools, list: &EdgeList) -> Result<(), anyhow::Error> {
    if pools.capacity() != list.capacity() {
        return Ok(());
    }
    let began = Instant::now(rt)?;
    let copy = list.copy(pools)?;
    println!(rt; "copy {} {}", copy.len(), began.elapsed(rt)?.as_nanos())?;
    Ok(())
}

// Cuts the edges below `t` off, and tells how many they are.
fn cut(pools: &mut Pools, list: &mut EdgeList, t: Time) -> Result<u64, Memory> {
    if pools.capacity() != list.capacity() {
        return Ok(0);
    }
    let front = list.split_below(pools, t)?;
    let count = front.len();
    if front.capacity() == pools.capacity() {
        front.give_back(pools);
    }
    Ok(count)
}

fn time_split(rt: &HostRuntime, pools: &mut Pools, list: &mut EdgeList) -> Result<(), anyhow::Error> {
    let (first, _) = Time::bounds();
    let began = Instant::now(rt)?;
    let mut count: u64 = 0;
    let mut below: u64 = 0;
    for _ in 0..2 * HALF / PIECE {
        below = below.wrapping_add(PIECE);
        count = count.wrapping_add(cut(pools, list, first.plus(below))?);
    }
    println!(rt; "split_below {count} {}", began.elapsed(rt)?.as_nanos())?;
    Ok(())
}

fn time_whole(rt: &HostRuntime, pools: &mut Pools, list: &mut EdgeList) -> Result<(), anyhow::Error> {
    time_cursor(rt, list)?;
    time_copy(rt, pools, list)?;
    time_split(rt, pools, list)
}

fn time_lists(rt: &HostRuntime, alloc: Global, first: &[Edge], second: &[Edge]) -> Result<(), anyhow::Error>
    requires first { All (λ e. map datum_kind e.cells ≡ CellKind.Whole ∷ []) first.now }
    requires second { All (λ e. map datum_kind e.cells ≡ CellKind.Whole ∷ []) second.now }
{
    let mut pools = Pools::new(alloc, 64, 1024)?;
    if let Some(mut whole) = merged(rt, alloc, &mut pools, first, second)? {
        time_whole(rt, &mut pools, &mut whole)?;
    }
    Ok(())
}

fn main(rt: HostRuntime) -> Result<(), anyhow::Error> {
    let alloc = rt.alloc();
    let first = edges(alloc, 0)?;
    let second = edges(alloc, 1)?;
    time_lists(&rt, alloc, &first, &second)
}
"""

PROOFS = {
    "edges/Invariants.antt": """-- The edges so far have one int each.
use Rattle.std.proofs.Common.{◌≡◌, [], ◌∷◌, map}
use Rattle.std.specs.Prelude.{All}
use Rattle.tw_rows.specs.Cells.{datum_kind}
use Rattle.tw_rows.specs.declared.kind.CellKind.TheVariants.{Whole}
use Rattle.edges_bench.proofs.edges.Given as goal

abbrev pub invariant-loop-i : goal.invariant-loop-i
invariant-loop-i l = All (λ e. map datum_kind e.cells ≡ Whole ∷ []) l.edges.items
""",
    "counted/Invariants.antt": """-- Each round reads one of the edges that are still to come.
use Rattle.std.proofs.Common.{length}
use Rattle.edges_bench.proofs.counted.Given as goal

abbrev pub decreases-loop-edge : goal.decreases-loop-edge
decreases-loop-edge l = length l.cursor.edges
""",
}


def main():
    lines = run_inside("edges_bench", CRATES, SOURCE, proofs=PROOFS).split("\n")
    timed = [line.split() for line in lines if line.startswith(("append ", "merge ", "cursor ", "copy ", "split_below "))]
    for name, edges, taken in timed:
        print(f"{name}: {int(taken) / max(int(edges), 1):.1f} ns an edge")
    wanted = [EDGES // 2, EDGES // 2, EDGES, EDGES, EDGES, EDGES]
    sys.exit(0 if [int(edges) for _, edges, _ in timed] == wanted else 1)


if __name__ == "__main__":
    main()
