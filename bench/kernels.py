#!/usr/bin/env python3
"""Times masks over 1,000 batches of 1,024 rows, each beside a plain loop over a slice: `v mod 7 = 0 and v > 100`,
`v < 1000 and v > 100`, and the equality of a text with a constant beside a loop that compares places.

usage: bench/kernels.py

The program that is timed is proved first. In each of forty rounds the mask is timed and then its loop, and of each the
best round counts. Ends with status 1 where a mask and its loop do not find the same number of rows.
"""
import sys

from inside import run_inside

ROWS = 1_024_000
CRATES = ["lane_expr", "anyhow"]

SOURCE = """//! Times masks over batches, beside plain loops over slices.
#![tactic(auto)]

ghost use Rattle.std.specs.Prelude.{◌≡◌, ◌<◌, ◌≤◌, [], ◌∷◌, length, IfOk};
ghost use Rattle.plan_model.specs.IsExpr.{IsExpr};
ghost use Rattle.plan_model.specs.Typed.{IsTyped, kind_of};
ghost use Rattle.lane_expr.specs.Kernels.{HoldsPlaces, CanRead, result_kind};

use batch::{Batch, Pools};
use lane_expr::Kernel;
use occupancy::Occupancy;
use plan_model::{CompareOp, Expr, ExprNode};
use std::alloc::Global;
use std::time::Instant;
use tw_rows::{CellKind, Cells, Datum, Edge, Kind, Label, TextTable, Time};

const ROWS: usize = 1024;
const BATCHES: usize = 1000;
const ROUNDS: usize = 40;

// The nodes of `v mod 7 = 0 and v > 100`.
fn with_mod(alloc: Global) -> Result<Vec<ExprNode>, anyhow::Error>
    ensures expr { IfOk result (λ v. IsExpr v.items) }
    ensures typed { IfOk result (λ v. IsTyped (CellKind.Whole ∷ CellKind.Place ∷ []) v.items) }
    ensures kind { IfOk result (λ v. kind_of v.items (CellKind.Whole ∷ CellKind.Place ∷ []) ≡ CellKind.Bit) }
{
    Ok(vec![in alloc;
        ExprNode::Column(0),
        ExprNode::Mod { of: 0, by: 7 },
        ExprNode::Int(0),
        ExprNode::Compare {
            op: CompareOp::Eq,
            left: 1,
            right: 2
        },
        ExprNode::Int(100),
        ExprNode::Compare {
            op: CompareOp::Gt,
            left: 0,
            right: 4
        },
        ExprNode::And { left: 3, right: 5 },
    ]?)
}

// The nodes of `v < 1000 and v > 100`.
fn between(alloc: Global) -> Result<Vec<ExprNode>, anyhow::Error>
    ensures expr { IfOk result (λ v. IsExpr v.items) }
    ensures typed { IfOk result (λ v. IsTyped (CellKind.Whole ∷ CellKind.Place ∷ []) v.items) }
    ensures kind { IfOk result (λ v. kind_of v.items (CellKind.Whole ∷ CellKind.Place ∷ []) ≡ CellKind.Bit) }
{
    Ok(vec![in alloc;
        ExprNode::Column(0),
        ExprNode::Int(1000),
        ExprNode::Compare {
            op: CompareOp::Lt,
            left: 0,
            right: 1
        },
        ExprNode::Int(100),
        ExprNode::Compare {
            op: CompareOp::Gt,
            left: 0,
            right: 3
        },
        ExprNode::And { left: 2, right: 4 },
    ]?)
}

// The nodes of `k = 'b'`.
fn same_text(alloc: Global) -> Result<Vec<ExprNode>, anyhow::Error>
    ensures expr { IfOk result (λ v. IsExpr v.items) }
    ensures typed { IfOk result (λ v. IsTyped (CellKind.Whole ∷ CellKind.Place ∷ []) v.items) }
    ensures kind { IfOk result (λ v. kind_of v.items (CellKind.Whole ∷ CellKind.Place ∷ []) ≡ CellKind.Bit) }
{
    Ok(vec![in alloc;
        ExprNode::Column(1),
        ExprNode::Text(Label::new(alloc, "b")?),
        ExprNode::Compare {
            op: CompareOp::Eq,
            left: 0,
            right: 1
        },
    ]?)
}

fn push_row(
    alloc: Global,
    texts: &TextTable,
    batch: &mut Batch,
    number: i64,
    place: u64,
) -> Result<bool, anyhow::Error>
    requires kinds { batch.old.kinds ≡ CellKind.Whole ∷ CellKind.Place ∷ [] }
    requires places { HoldsPlaces texts.now batch.old.rows }
    requires place { place < length texts.now }
    ensures kinds { batch.new.kinds ≡ batch.old.kinds }
    ensures places { HoldsPlaces texts.now batch.new.rows }
{
    let cells = Cells::from_slice(alloc, &[Datum::Int(number), Datum::Text(place)])?;
    let edge = Edge {
        sync: Time::ZERO,
        other: Time::ZERO,
        cells,
    };
    let pushed = batch.push_edge(&edge);
    Ok(pushed.is_ok())
}

fn batch_of(alloc: Global, texts: &TextTable, numbers: &[i64], places: &[u64]) -> Result<Batch, anyhow::Error>
    ensures kinds { IfOk result (λ b. b.kinds ≡ CellKind.Whole ∷ CellKind.Place ∷ []) }
    ensures places { IfOk result (λ b. HoldsPlaces texts.now b.rows) }
{
    let mut pools = Pools::new(alloc, 8, ROWS)?;
    let mut batch = Batch::new(alloc, &mut pools, &[Kind::Int, Kind::Text])?;
    for (number, place) in numbers.iter().zip(places.iter()) {
        if *place < texts.len() {
            push_row(alloc, texts, &mut batch, *number, *place)?;
        }
    }
    Ok(batch)
}

fn kernel_of(alloc: Global, nodes: Vec<ExprNode>, texts: &mut TextTable) -> Result<Kernel, anyhow::Error>
    requires expr { IsExpr nodes.items }
    requires typed { IsTyped (CellKind.Whole ∷ CellKind.Place ∷ []) nodes.items }
    ensures result { IfOk result (λ k. result_kind k ≡ kind_of nodes.items (CellKind.Whole ∷ CellKind.Place ∷ [])) }
    ensures reads { IfOk result (λ k. (b : Batch) → b.kinds ≡ CellKind.Whole ∷ CellKind.Place ∷ [] → length b.rows ≤ 1024 → HoldsPlaces texts.new b.rows → CanRead texts.new k b) }
{
    let expr = Expr::from_vec(nodes);
    Ok(Kernel::compile(alloc, &expr, &[Kind::Int, Kind::Text], texts, ROWS)?)
}

// How many rows the masks of all batches hold, where each batch has these rows.
fn masked(kernel: &mut Kernel, batch: &Batch, texts: &TextTable, mask: &mut Occupancy) -> usize
    requires kind { result_kind kernel.old ≡ CellKind.Bit }
    requires reads { CanRead texts.now kernel.old batch.now }
    requires room { length batch.now.rows ≤ mask.old.capacity }
    ensures same { kernel.new ≡ kernel.old }
    ensures room { mask.new.capacity ≡ mask.old.capacity }
{
    let mut found = 0usize;
    for _ in 0..BATCHES {
        mask.reset();
        kernel.mask(batch, texts, mask);
        found = found.wrapping_add(mask.count());
    }
    found
}

// Times all masks over these rows, and the plain loops over the same.
fn time_masks(
    rt: &HostRuntime,
    alloc: Global,
    kernel: &mut Kernel,
    batch: &Batch,
    texts: &TextTable,
    plain: &Plain,
) -> Result<(), anyhow::Error>
    requires kind { result_kind kernel.old ≡ CellKind.Bit }
    requires reads { CanRead texts.now kernel.old batch.now }
{
    let mut mask = Occupancy::new(alloc, batch.rows())?;
    let mut found = 0;
    let mut plainly = 0;
    let mut best = u128::MAX;
    let mut best_loop = u128::MAX;
    for _ in 0..ROUNDS {
        let began = Instant::now(rt)?;
        found = masked(kernel, batch, texts, &mut mask);
        best = best.min(began.elapsed(rt)?.as_nanos());
        let began = Instant::now(rt)?;
        plainly = plain.count();
        best_loop = best_loop.min(began.elapsed(rt)?.as_nanos());
    }
    println!(rt; "{found} {plainly} {best} {best_loop}")?;
    Ok(())
}

fn by_kernel(
    rt: &HostRuntime,
    alloc: Global,
    nodes: Vec<ExprNode>,
    numbers: &[i64],
    places: &[u64],
    plain: &Plain,
) -> Result<(), anyhow::Error>
    requires expr { IsExpr nodes.items }
    requires typed { IsTyped (CellKind.Whole ∷ CellKind.Place ∷ []) nodes.items }
    requires kind { kind_of nodes.items (CellKind.Whole ∷ CellKind.Place ∷ []) ≡ CellKind.Bit }
{
    let mut texts = TextTable::new(alloc);
    for text in ["a", "b", "c"] {
        texts.intern(text)?;
    }
    let mut kernel = kernel_of(alloc, nodes, &mut texts)?;
    let batch = batch_of(alloc, &texts, numbers, places)?;
    if batch.rows() <= ROWS {
        time_masks(rt, alloc, &mut kernel, &batch, &texts, plain)?;
    }
    Ok(())
}

// A test by a plain loop over a slice.
#[derive(Clone, Copy)]
enum Plain<'a> {
    WithMod(&'a [i64]),
    Between(&'a [i64]),
    SamePlace(&'a [u64]),
}

impl Plain<'_> {
    fn count(&self) -> usize {
        match self {
            Plain::WithMod(numbers) => loop_with_mod(numbers),
            Plain::Between(numbers) => loop_between(numbers),
            Plain::SamePlace(places) => loop_same_place(places, 1),
        }
    }
}

// The first test by a plain loop.
fn loop_with_mod(numbers: &[i64]) -> usize {
    let mut found = 0usize;
    for _ in 0..BATCHES {
        for v in numbers {
            if v.rem_euclid(7) == 0 && *v > 100 {
                found = found.wrapping_add(1);
            }
        }
    }
    found
}

// The second test by a plain loop.
fn loop_between(numbers: &[i64]) -> usize {
    let mut found = 0usize;
    for _ in 0..BATCHES {
        for v in numbers {
            if *v < 1000 && *v > 100 {
                found = found.wrapping_add(1);
            }
        }
    }
    found
}

// How often the place stands in the slice, by a plain loop.
fn loop_same_place(places: &[u64], place: u64) -> usize {
    let mut found = 0usize;
    for _ in 0..BATCHES {
        for p in places {
            if *p == place {
                found = found.wrapping_add(1);
            }
        }
    }
    found
}

fn main(rt: HostRuntime) -> Result<(), anyhow::Error> {
    let alloc = rt.alloc();
    let mut numbers = Vec::new(alloc);
    let mut places = Vec::new(alloc);
    for i in 0..ROWS {
        numbers.push(i as i64)?;
        places.push((i % 3) as u64)?;
    }
    by_kernel(&rt, alloc, with_mod(alloc)?, &numbers, &places, &Plain::WithMod(&numbers))?;
    by_kernel(&rt, alloc, between(alloc)?, &numbers, &places, &Plain::Between(&numbers))?;
    by_kernel(&rt, alloc, same_text(alloc)?, &numbers, &places, &Plain::SamePlace(&places))
}
"""

PROOFS = {
    "push_row/Answers.antt": """use Rattle.std.proofs.Common.{sym, subst}
use Rattle.tw_rows.specs.Cells.{ArePlaced}
use Rattle.lane_expr.proofs.Placing.{HoldsPlaces-pushed}
use Rattle.kernels_bench.proofs.push_row.Goals as goal

pub returns-clause-places : goal.returns-clause-places
returns-clause-places c =
    HoldsPlaces-pushed c.push_edge-pushed.result c.args.texts.now c.args.batch.now c.push_edge-pushed.new.self _ c.push_edge-pushed.ensures.ok c.push_edge-pushed.ensures.err c.requires.places
    (subst (ArePlaced c.args.texts.now) (sym c.in_ok-cells.ensures.ok) (tt, (c.requires.place, tt)))
""",
    "batch_of/Invariants.antt": """-- The batch is of the kinds, and its rows are placed.
use Rattle.std.proofs.Common.{◌≡◌, [], ◌∷◌}
use Rattle.tw_rows.specs.declared.kind.CellKind.TheVariants.{Whole, Place}
use Rattle.lane_expr.specs.Kernels.{HoldsPlaces}
use Rattle.kernels_bench.proofs.batch_of.Given as goal

abbrev pub invariant-loop-number : goal.invariant-loop-number
invariant-loop-number l = record {
  kinds : l.batch.kinds ≡ Whole ∷ Place ∷ [];
  places : HoldsPlaces l.texts l.batch.rows;
}
""",
    "masked/Invariants.antt": """-- The kernel reads the batch, and the mask has room for its rows.
use Rattle.std.proofs.Common.{◌≡◌}
use Rattle.kernels_bench.proofs.masked.Given as goal

abbrev pub invariant-loop : goal.invariant-loop
invariant-loop l = record {
  kernel : l.kernel ≡ l.fn.kernel;
  room : l.mask.capacity ≡ l.fn.mask.capacity;
}
""",
    "time_masks/Invariants.antt": """-- The kernel is as it was, and the mask has room for the rows.
use Rattle.std.proofs.Common.{◌≡◌, ◌≤◌, length}
use Rattle.kernels_bench.proofs.time_masks.Given as goal

abbrev pub invariant-loop : goal.invariant-loop
invariant-loop l = record {
  kernel : l.kernel ≡ l.fn.kernel;
  room : length l.batch.rows ≤ l.mask.capacity;
}
""",
}

NAMES = ("v mod 7 = 0 and v > 100", "v < 1000 and v > 100", "k = 'b'")


def main():
    lines = run_inside("kernels_bench", CRATES, SOURCE, proofs=PROOFS).split("\n")[-4:]
    right = True
    for name, line in zip(NAMES, lines):
        found, plain, kernel, loop = map(int, line.split())
        right = right and found == plain
        print(f"{name}: kernel {kernel / ROWS:.2f} ns a row, plain loop {loop / ROWS:.2f}, {kernel / loop:.1f} times")
    sys.exit(0 if right else 1)


if __name__ == "__main__":
    main()
