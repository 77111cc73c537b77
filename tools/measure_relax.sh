#!/usr/bin/env bash
# Times relaxations of bl_relax beside a dual simplex method in doubles, in plain Rust.
#
# Both take 200 problems of each of three kinds, made by one recurrence: 20 rows by 20 columns, dense, with entries
# from -50 to 50; 60 by 60 with a tenth of the entries; 30 by 20 with binary columns and entries from -10 to 10. A
# random point meets every row. It prints the time of all 200 and how many answers there are of each kind, and of the
# method in doubles also the pivots; both take the leaving row by the same rule.
# The proved program is built in a copy of the crates, which takes some minutes the first time. Needs
# rt and rustc on the PATH.
#
# usage: tools/measure_relax.sh
set -euo pipefail

. "$(dirname "$0")/common.sh"
enter_fresh_folder
make_workspace anyhow bl_bound bl_licence bl_relax

cat > crates/measure/src/main.rt <<'RATTLE'
//! Times relaxations.
#![tactic(auto)]

ghost use Rattle.std.specs.Prelude.{◌≡◌, ◌<◌, ◌≤◌, IfOk};

use anyhow::{Result, bail};
use bl_bound::Problem;
use bl_relax::{Relaxed, Why, relax};
use std::rt::Clock;
use std::time::Instant;

fn next(state: &mut u64) -> u32 {
    *state = (*state)
        .wrapping_mul(6364136223846793005)
        .wrapping_add(1442695040888963407);
    (*state >> 33) as u32
}

// A number from 0 to `most`.
fn natural(state: &mut u64, most: u32) -> i64
    requires { most < 1000 }
{
    i64::from(next(state) % (most + 1))
}

// A number from -most to most.
fn number(state: &mut u64, most: u32) -> i64
    requires { most < 1000 }
{
    i64::from(next(state) % (2 * most + 1)) - i64::from(most)
}

fn kind_of(answer: &Relaxed) -> usize
    ensures { result < 6 }
{
    match answer {
        Relaxed::Closed(_) => 0,
        Relaxed::Whole(_) => 1,
        Relaxed::Stuck(Why::Fraction(_)) => 2,
        Relaxed::Stuck(Why::Wide { .. }) => 3,
        Relaxed::Stuck(Why::Tired { .. }) => 4,
        Relaxed::Stuck(_) => 5,
    }
}

// Fills a row of which one entry in so many places stands.
fn fill(state: &mut u64, row: &mut [i64], most: u32, places: u32)
    requires small { most < 1000 }
    requires some { 0 < places }
{
    for x in row.iter_mut() {
        if next(state) % places == 0 {
            *x = number(state, most);
        }
    }
}

// A right side at which the point meets the row.
fn right_side(state: &mut u64, row: &[i64], point: &[i64], most: u32) -> i64
    requires { most < 1000 }
{
    let mut rhs = natural(state, most);
    for (x, z) in row.iter().zip(point.iter()) {
        rhs = rhs.saturating_add((*x).saturating_mul(*z));
    }
    rhs
}

// The time of one relaxation, and its answer's kind.
fn solve<const M: usize, const N: usize>(
    rt: &(impl Clock + AllocGlobal),
    state: &mut u64,
    most: u32,
    places: u32,
    upper: u32,
) -> Result<(u128, usize)>
    requires few_rows { M ≤ 60 }
    requires few { N ≤ 60 }
    requires small { most < 1000 }
    requires some { 0 < places }
    requires low { upper < 1000 }
    ensures { IfOk result (λ p. p.1 < 6) }
{
    let mut point = [0i64; N];
    let mut cost = [0i64; N];
    for j in 0..N {
        point[j] = natural(state, upper);
        cost[j] = number(state, most);
    }
    let mut coefs = [[0i64; N]; M];
    for row in coefs.iter_mut() {
        fill(state, row, most, places);
    }
    let lo = [0i64; N];
    let hi = [i64::from(upper); N];
    let mut problem = Problem::start(rt.alloc(), &cost, &lo, &hi);
    for row in coefs.iter() {
        let rhs = right_side(state, row, &point, most);
        problem.row(row, rhs)?;
    }
    if !problem.fits() {
        bail!("the problem does not fit");
    }
    let begun = Instant::now(rt)?;
    let answer = relax(rt.alloc(), &problem, None)?;
    let taken = begun.elapsed(rt)?.as_nanos();
    Ok((taken, kind_of(&answer)))
}

// The time of 200 relaxations, and how many answers there are of each kind.
fn measure<const M: usize, const N: usize>(
    rt: &(impl Clock + AllocGlobal),
    most: u32,
    places: u32,
    upper: u32,
) -> Result<(u128, [u32; 6])>
    requires few_rows { M ≤ 60 }
    requires few { N ≤ 60 }
    requires small { most < 1000 }
    requires some { 0 < places }
    requires low { upper < 1000 }
{
    let mut counts = [0u32; 6];
    let mut taken: u128 = 0;
    let mut state = 1u64;
    for _ in 0..200u32 {
        let (time, kind) = solve::<M, N>(rt, &mut state, most, places, upper)?;
        taken = taken.saturating_add(time);
        counts[kind] = counts[kind].saturating_add(1);
    }
    Ok((taken / 1000, counts))
}

fn main(rt: HostRuntime) -> Result<()> {
    let (time, c) = measure::<20, 20>(&rt, 50, 1, 10)?;
    println!(rt; "20 by 20: {time} us, {:?} closed, whole, fraction, wide, tired, large", c)?;
    let (time, c) = measure::<60, 60>(&rt, 50, 10, 10)?;
    println!(rt; "60 by 60: {time} us, {:?} closed, whole, fraction, wide, tired, large", c)?;
    let (time, c) = measure::<30, 20>(&rt, 10, 1, 1)?;
    println!(rt; "30 by 20: {time} us, {:?} closed, whole, fraction, wide, tired, large", c)?;
    Ok(())
}
RATTLE

mkdir -p crates/measure/proofs/solve
cat > crates/measure/proofs/solve/Invariants.antt <<'ANTT'
use Rattle.std.proofs.Common.{◌≡◌, length}
use Rattle.measure.proofs.solve.Given as goal

abbrev pub invariant-loop-row-2 : goal.invariant-loop-row-2
invariant-loop-row-2 g l = length l.problem.area.lo ≡ g.row.N
ANTT

cat > plain/plain.rs <<'RUST'
use std::time::Instant;
const SMALL: f64 = 1e-9;
fn next(s: &mut u64) -> u64 { *s = s.wrapping_mul(6364136223846793005).wrapping_add(1442695040888963407); *s >> 33 }
fn number(s: &mut u64, most: u64) -> f64 { (next(s) % (2 * most + 1)) as f64 - most as f64 }
fn leaving(cells: &[Vec<f64>], rows: usize, n: usize) -> Option<usize> {
    let (mut row, mut greatest) = (None, 0.0);
    for i in 0..rows {
        let b = cells[i][n];
        if b < -SMALL {
            let length: f64 = 1.0 + cells[i][..n].iter().map(|x| x * x).sum::<f64>();
            if b * b / length > greatest { greatest = b * b / length; row = Some(i); }
        }
    }
    row
}
fn pivot(cells: &mut [Vec<f64>], n: usize, r: usize, c: usize) {
    let p = cells[r][c];
    for j in 0..=n { cells[r][j] = if j == c { 1.0 / p } else { cells[r][j] / p }; }
    let row = cells[r].clone();
    for (i, other) in cells.iter_mut().enumerate() {
        if i == r || other[c] == 0.0 { continue; }
        let e = other[c];
        for j in 0..=n { if j == c { other[j] = -e * row[j] } else { other[j] -= e * row[j] } }
    }
}
// the pivots, and whether the box is closed (0), the vertex whole (1) or not (2)
fn relax(m: usize, n: usize, a: &[Vec<f64>], b: &[f64], c: &[f64], upper: f64) -> (u32, usize) {
    let start: Vec<f64> = c.iter().map(|x| if *x < 0.0 { upper } else { 0.0 }).collect();
    let sign: Vec<f64> = c.iter().map(|x| if *x < 0.0 { -1.0 } else { 1.0 }).collect();
    let mut cells: Vec<Vec<f64>> = Vec::new();
    for i in 0..m {
        let mut row: Vec<f64> = (0..n).map(|j| a[i][j] * sign[j]).collect();
        row.push(b[i] - (0..n).map(|j| a[i][j] * start[j]).sum::<f64>());
        cells.push(row);
    }
    for k in 0..n { let mut row = vec![0.0; n + 1]; row[k] = 1.0; row[n] = upper; cells.push(row); }
    let mut cost: Vec<f64> = c.iter().map(|x| -x.abs()).collect();
    cost.push((0..n).map(|j| c[j] * start[j]).sum());
    cells.push(cost);
    let mut basis: Vec<usize> = (n..2 * n + m).collect();
    let mut columns: Vec<usize> = (0..n).collect();
    let mut pivots = 0;
    while let Some(r) = leaving(&cells, m + n, n) {
        let mut best: Option<(f64, usize)> = None;
        for j in 0..n {
            if cells[r][j] < -SMALL {
                let ratio = cells[m + n][j] / cells[r][j];
                if best.map_or(true, |(x, k)| ratio < x - SMALL || ratio < x + SMALL && columns[j] < columns[k]) {
                    best = Some((ratio, j));
                }
            }
        }
        let Some((_, col)) = best else { return (pivots, 0) };
        pivot(&mut cells, n, r, col);
        std::mem::swap(&mut basis[r], &mut columns[col]);
        pivots += 1;
        if pivots > 5000 { break; }
    }
    let whole = (0..m + n).all(|i| basis[i] >= n || (cells[i][n] - cells[i][n].round()).abs() < 1e-7);
    (pivots, if whole { 1 } else { 2 })
}
fn measure(m: usize, n: usize, most: u64, places: u64, upper: u64) {
    let (mut counts, mut pivots, mut taken, mut s) = ([0; 3], 0, 0, 1u64);
    for _ in 0..200 {
        let (mut point, mut c) = (vec![0.0; n], vec![0.0; n]);
        for j in 0..n { point[j] = (next(&mut s) % (upper + 1)) as f64; c[j] = number(&mut s, most); }
        let (mut a, mut b) = (vec![vec![0.0; n]; m], vec![0.0; m]);
        for row in a.iter_mut() {
            for x in row.iter_mut() { if next(&mut s) % places == 0 { *x = number(&mut s, most); } }
        }
        for i in 0..m {
            b[i] = (next(&mut s) % (most + 1)) as f64 + (0..n).map(|j| a[i][j] * point[j]).sum::<f64>();
        }
        let begun = Instant::now();
        let (count, answer) = relax(m, n, &a, &b, &c, upper as f64);
        taken += begun.elapsed().as_nanos();
        pivots += count;
        counts[answer] += 1;
    }
    println!("{m} by {n}: {} us, {pivots} pivots, closed {} whole vertex {} fraction {}", taken / 1000, counts[0],
        counts[1], counts[2]);
}
fn main() {
    measure(20, 20, 50, 1, 10);
    measure(60, 60, 50, 10, 10);
    measure(30, 20, 10, 1, 1);
}
RUST

rustc -O -o plain/plain plain/plain.rs
build_measure
echo 'bl_relax'
crates/measure/out/measure
echo 'doubles in plain Rust'
plain/plain
