#!/usr/bin/env bash
# Times pivots of bl_tableau against the same dictionary in plain Rust with 128-bit fractions.
#
# Both take 20 pivots (five there and back, twice) of dictionaries of 20 rows by 20 columns and of
# 60 by 60, with coefficients from -1000 to 1000, and print the best time of five for three seeds.
# The proved program is built in a copy of the crates, which takes some minutes the first time.
# Needs rt and rustc on the PATH.
#
# usage: tools/measure_pivots.sh
set -euo pipefail

. "$(dirname "$0")/common.sh"
enter_fresh_folder
make_workspace anyhow bl_bound bl_frac bl_simplex bl_tableau bl_terms
mkdir crates/measure/proofs/measure

cat > crates/measure/src/main.rt <<'RATTLE'
//! Times twenty pivots of a dictionary.
#![tactic(auto)]

ghost use Rattle.std.specs.Prelude.{◌≡◌, ◌+◌, ◌<◌, ◌≤◌, false, length, OnOk};
ghost use Rattle.bl_simplex.specs.Dictionaries.{columns, cost_row};

use anyhow::{Result, bail};
use bl_bound::Problem;
use bl_frac::parts;
use bl_tableau::{Tableau, Wide};
use std::rt::Clock;
use std::time::Instant;

fn next(state: u64) -> u64 {
    state
        .wrapping_mul(6364136223846793005)
        .wrapping_add(1442695040888963407)
}

fn step(tableau: &mut Tableau<'_, '_>, row: u32, column: u32) -> Result<(), Wide>
    requires not_spent { tableau.old.spent ≡ false }
    requires room { length tableau.old.pivots < tableau.old.most }
    requires row_in { row ≤ cost_row tableau.old.problem }
    requires column_in { column < columns tableau.old.problem }
    ensures problem { OnOk result (tableau.new.problem ≡ tableau.old.problem) }
    ensures most { OnOk result (tableau.new.most ≡ tableau.old.most) }
    ensures not_spent { OnOk result (tableau.new.spent ≡ false) }
    ensures count { OnOk result (length tableau.new.pivots ≡ length tableau.old.pivots + 1) }
{
    let (num, _) = parts(tableau.entry(row, column));
    if num == 0 {
        return Err(Wide {
            pivot: 99,
            row,
            column,
        });
    }
    tableau.pivot(row, column)
}

fn five(tableau: &mut Tableau<'_, '_>) -> Result<(), Wide>
    requires not_spent { tableau.old.spent ≡ false }
    requires room { length tableau.old.pivots + 10 ≤ tableau.old.most }
    requires column_in { 5 ≤ columns tableau.old.problem }
    requires row_in { 5 ≤ cost_row tableau.old.problem }
    ensures problem { OnOk result (tableau.new.problem ≡ tableau.old.problem) }
    ensures most { OnOk result (tableau.new.most ≡ tableau.old.most) }
    ensures not_spent { OnOk result (tableau.new.spent ≡ false) }
    ensures count { OnOk result (length tableau.new.pivots ≡ length tableau.old.pivots + 10) }
{
    step(tableau, 0, 0)?;
    step(tableau, 1, 1)?;
    step(tableau, 2, 2)?;
    step(tableau, 3, 3)?;
    step(tableau, 4, 4)?;
    step(tableau, 4, 4)?;
    step(tableau, 3, 3)?;
    step(tableau, 2, 2)?;
    step(tableau, 1, 1)?;
    step(tableau, 0, 0)
}

fn twenty(tableau: &mut Tableau<'_, '_>) -> Result<(), Wide>
    requires not_spent { tableau.old.spent ≡ false }
    requires room { length tableau.old.pivots + 20 ≤ tableau.old.most }
    requires column_in { 5 ≤ columns tableau.old.problem }
    requires row_in { 5 ≤ cost_row tableau.old.problem }
{
    five(tableau)?;
    five(tableau)
}

fn number(state: &mut u64) -> i64 {
    *state = next(*state);
    (*state >> 33) as i64 % 2001 - 1000
}

fn measure<const N: usize>(rt: &(impl Clock + AllocGlobal), seed: u64) -> Result<u128>
    requires few { N ≤ 60 }
    requires enough { 5 ≤ N }
{
    let mut state = seed;
    let mut coefs = [[0i64; N]; N];
    for row in coefs.iter_mut() {
        for x in row.iter_mut() {
            *x = number(&mut state);
        }
    }
    let cost = [-1i64; N];
    let lo = [0i64; N];
    let hi = [10i64; N];
    let mut problem = Problem::start(rt.alloc(), &cost, &lo, &hi);
    for row in coefs.iter() {
        problem.row(row, 100)?;
    }
    if !problem.fits() {
        bail!("the problem does not fit");
    }
    let mut best = u128::MAX;
    for _ in 0..5u32 {
        let mut tableau = Tableau::start(rt.alloc(), &problem, 20)?;
        let begun = Instant::now(rt)?;
        let outcome = twenty(&mut tableau);
        let taken = begun.elapsed(rt)?.as_nanos();
        if outcome.is_err() {
            bail!("a pivot passes 128 bits");
        }
        best = best.min(taken);
    }
    Ok(best)
}

fn main(rt: HostRuntime) -> Result<()> {
    for seed in 1..4u64 {
        let small = measure::<20>(&rt, seed)?;
        let large = measure::<60>(&rt, seed)?;
        println!(rt; "seed {seed}: 20 by 20 {small} ns, 60 by 60 {large} ns")?;
    }
    Ok(())
}
RATTLE

cat > crates/measure/proofs/measure/Invariants.antt <<'ANTT'
use Rattle.std.proofs.Common.{◌≡◌, length}
use Rattle.measure.proofs.measure.Given as goal

abbrev pub invariant-loop-row-2 : goal.invariant-loop-row-2
invariant-loop-row-2 g l = length l.problem.area.lo ≡ g.row.N
ANTT

cat > plain/plain.rs <<'RUST'
use std::time::Instant;
#[derive(Clone, Copy)]
struct F { n: i128, d: i128 }
fn gcd(mut a: i128, mut b: i128) -> i128 { while b != 0 { let r = a % b; a = b; b = r; } a.abs() }
fn mul(a: F, b: F) -> Option<F> {
    let g = gcd(a.n, b.d); let h = gcd(b.n, a.d);
    Some(F { n: (a.n / g).checked_mul(b.n / h)?, d: (a.d / h).checked_mul(b.d / g)? })
}
fn sub(a: F, b: F) -> Option<F> {
    let g = gcd(a.d, b.d);
    let l = a.n.checked_mul(b.d / g)?; let r = b.n.checked_mul(a.d / g)?;
    let t = l.checked_sub(r)?; let d = (a.d / g).checked_mul(b.d)?;
    let h = gcd(t, d);
    Some(F { n: t / h, d: d / h })
}
fn div(a: F, b: F) -> Option<F> {
    let s = if b.n < 0 { -1 } else { 1 };
    mul(a, F { n: s * b.d, d: s * b.n })
}
fn pivot(cells: &mut Vec<F>, rows: usize, w: usize, r: usize, c: usize) -> Option<()> {
    let p = cells[r * w + c];
    for j in 0..w {
        let x = cells[r * w + j];
        if j == c { cells[r * w + j] = div(F { n: 1, d: 1 }, p)?; }
        else if x.n != 0 { cells[r * w + j] = div(x, p)?; }
    }
    for i in 0..rows {
        if i == r { continue; }
        let e = cells[i * w + c];
        if e.n == 0 { continue; }
        for j in 0..w {
            let f = cells[r * w + j];
            if j == c { let t = mul(e, f)?; cells[i * w + j] = F { n: -t.n, d: t.d }; }
            else if f.n != 0 { cells[i * w + j] = sub(cells[i * w + j], mul(e, f)?)?; }
        }
    }
    Some(())
}
fn next(s: u64) -> u64 { s.wrapping_mul(6364136223846793005).wrapping_add(1442695040888963407) }
fn number(s: &mut u64) -> i64 { *s = next(*s); (*s >> 33) as i64 % 2001 - 1000 }
fn measure(n: usize, seed: u64) -> Option<u128> {
    let mut s = seed;
    let coefs: Vec<Vec<i64>> = (0..n).map(|_| (0..n).map(|_| number(&mut s)).collect()).collect();
    let w = n + 1; let rows = 2 * n + 1;
    let mut best = u128::MAX;
    for _ in 0..5 {
        let mut cells = Vec::new();
        for i in 0..n {
            let mut right = 100i128;
            for j in 0..n { cells.push(F { n: -(coefs[i][j] as i128), d: 1 }); right -= coefs[i][j] as i128 * 10; }
            cells.push(F { n: right, d: 1 });
        }
        for k in 0..n { for j in 0..n { cells.push(F { n: (j == k) as i128, d: 1 }); } cells.push(F { n: 10, d: 1 }); }
        for _ in 0..n { cells.push(F { n: -1, d: 1 }); }
        cells.push(F { n: -10 * n as i128, d: 1 });
        let begun = Instant::now();
        for _ in 0..2 {
            for k in 0..5 { pivot(&mut cells, rows, w, k, k)?; }
            for k in (0..5).rev() { pivot(&mut cells, rows, w, k, k)?; }
        }
        let t = begun.elapsed().as_nanos();
        if t < best { best = t; }
        std::hint::black_box(&cells);
    }
    Some(best)
}
fn main() {
    for seed in 1..4 {
        println!("seed {seed}: 20 by 20 {} ns, 60 by 60 {} ns", measure(20, seed).unwrap(), measure(60, seed).unwrap());
    }
}
RUST

rustc -O -o plain/plain plain/plain.rs
build_measure
echo 'bl_tableau'
crates/measure/out/measure
echo 'plain Rust'
plain/plain
