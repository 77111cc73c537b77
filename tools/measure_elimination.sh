#!/usr/bin/env bash
# Times the elimination of bl_elimination against the same elimination in plain Rust with 128-bit fractions.
#
# Both take 20 systems of each of two kinds of 60 rows by 60 columns, made by one recurrence: dense rows with entries
# from -10 to 10, which pass 128 bits on the way; and 10 such rows, before 50 sides of columns. They print the time of
# all 20 and how many end with an inverse, with too few rows, and with a number that is too large. The plain one tests
# the limits of the inverse too, but makes no lists of it.
# The proved program is built in a copy of the crates, which takes some minutes the first time. Needs
# rt and rustc on the PATH.
#
# usage: tools/measure_elimination.sh
set -euo pipefail

. "$(dirname "$0")/common.sh"
enter_fresh_folder
make_workspace anyhow bl_bound bl_elimination

cat > crates/measure/src/main.rt <<'RATTLE'
//! Times eliminations.
#![tactic(auto)]

ghost use Rattle.std.specs.Prelude.{◌≡◌, ◌<◌, ◌≤◌, IfOk};

use anyhow::{Result, bail};
use bl_bound::Problem;
use bl_elimination::{Basis, NoBasis, eliminate};
use std::rt::Clock;
use std::time::Instant;

fn next(state: &mut u64) -> u32 {
    *state = (*state)
        .wrapping_mul(6364136223846793005)
        .wrapping_add(1442695040888963407);
    (*state >> 33) as u32
}

// A number from -most to most.
fn number(state: &mut u64, most: u32) -> i64
    requires { most < 1000 }
{
    i64::from(next(state) % (2 * most + 1)) - i64::from(most)
}

fn kind_of(answer: &Result<Basis, NoBasis>) -> usize
    ensures { result < 4 }
{
    match answer {
        Ok(_) => 0,
        Err(NoBasis::NotUnique { .. }) => 1,
        Err(NoBasis::TooLarge { .. }) => 2,
        Err(NoBasis::Memory) => 3,
    }
}

fn fill(state: &mut u64, row: &mut [i64]) {
    for x in row.iter_mut() {
        *x = number(state, 10);
    }
}

// The time of one elimination of so many dense rows and sides of the other columns, and its answer's kind.
fn solve<const N: usize>(
    rt: &(impl Clock + AllocGlobal),
    state: &mut u64,
    dense: usize,
) -> Result<(u128, usize)>
    requires few { N ≤ 60 }
    ensures { IfOk result (λ p. p.1 < 4) }
{
    let zeros = [0i64; N];
    let mut coefs = [[0i64; N]; N];
    let mut place: usize = 0;
    for row in coefs.iter_mut() {
        if place < dense {
            fill(state, row);
        } else if place < N {
            row[place] = 1;
        }
        place = place.saturating_add(1);
    }
    let mut problem = Problem::start(rt.alloc(), &zeros, &zeros, &zeros);
    for row in coefs.iter() {
        problem.row(row, 0)?;
    }
    if !problem.fits() {
        bail!("the problem does not fit");
    }
    let begun = Instant::now(rt)?;
    let answer = eliminate(rt.alloc(), &problem);
    let taken = begun.elapsed(rt)?.as_nanos();
    Ok((taken, kind_of(&answer)))
}

// The time of 20 eliminations, and how many answers there are of each kind.
fn measure<const N: usize>(
    rt: &(impl Clock + AllocGlobal),
    dense: usize,
) -> Result<(u128, [u32; 4])>
    requires few { N ≤ 60 }
{
    let mut counts = [0u32; 4];
    let mut taken: u128 = 0;
    let mut state = 1u64;
    for _ in 0..20u32 {
        let (time, kind) = solve::<N>(rt, &mut state, dense)?;
        taken = taken.saturating_add(time);
        counts[kind] = counts[kind].saturating_add(1);
    }
    Ok((taken / 1000, counts))
}

fn main(rt: HostRuntime) -> Result<()> {
    let (time, c) = measure::<60>(&rt, 60)?;
    println!(rt; "dense: {time} us, {:?} inverse, too few, too large, memory", c)?;
    let (time, c) = measure::<60>(&rt, 10)?;
    println!(rt; "10 rows and sides: {time} us, {:?} inverse, too few, too large, memory", c)?;
    Ok(())
}
RATTLE

mkdir -p crates/measure/proofs/solve
cat > crates/measure/proofs/solve/Invariants.antt <<'ANTT'
use Rattle.std.proofs.Common.{◌≡◌, length}
use Rattle.measure.proofs.solve.Given as goal

abbrev pub invariant-loop-row-2 : goal.invariant-loop-row-2
invariant-loop-row-2 g l = length l.problem.area.lo ≡ g.row.N
ANTT

cat > plain/plain.rs <<'RUST'
use std::time::Instant;

#[derive(Clone, Copy)]
struct Frac {
    num: i128,
    den: i128,
}

fn gcd(mut a: u128, mut b: u128) -> u128 {
    while b != 0 {
        (a, b) = (b, a % b);
    }
    a
}

fn reduced(num: i128, den: i128) -> Option<Frac> {
    let g = gcd(num.unsigned_abs(), den.unsigned_abs()) as i128;
    let (num, den) = (num / g, den / g);
    if den < 0 { Some(Frac { num: num.checked_neg()?, den: den.checked_neg()? }) } else { Some(Frac { num, den }) }
}

fn mul(x: Frac, y: Frac) -> Option<Frac> {
    let g = gcd(x.num.unsigned_abs(), y.den.unsigned_abs()) as i128;
    let h = gcd(y.num.unsigned_abs(), x.den.unsigned_abs()) as i128;
    Some(Frac { num: (x.num / g).checked_mul(y.num / h)?, den: (x.den / h).checked_mul(y.den / g)? })
}

fn sub(x: Frac, y: Frac) -> Option<Frac> {
    let left = x.num.checked_mul(y.den)?;
    let right = y.num.checked_mul(x.den)?;
    reduced(left.checked_sub(right)?, x.den.checked_mul(y.den)?)
}

fn without(row: &mut [Frac], factor: Frac, by: &[Frac]) -> Option<()> {
    if factor.num != 0 {
        for (x, y) in row.iter_mut().zip(by) {
            if y.num != 0 {
                *x = sub(*x, mul(factor, *y)?)?;
            }
        }
    }
    Some(())
}

/// Takes a row to those that are kept. None where a number passes 128 bits.
fn take(n: usize, coef: &[i128], kept: &mut Vec<(usize, Vec<Frac>)>) -> Option<()> {
    let slot = kept.len();
    let whole = |num| Frac { num, den: 1 };
    let mut row: Vec<Frac> = coef.iter().map(|c| whole(*c)).collect();
    row.extend((0..n).map(|t| whole(i128::from(t == slot))));
    for (column, by) in kept.iter() {
        let factor = row[*column];
        without(&mut row, factor, by)?;
    }
    let Some(pivot) = row[..n].iter().position(|x| x.num != 0) else { return Some(()) };
    let inverse = reduced(row[pivot].den, row[pivot].num)?;
    for x in row.iter_mut() {
        *x = mul(*x, inverse)?;
    }
    for (_, other) in kept.iter_mut() {
        let factor = other[pivot];
        without(other, factor, &row)?;
    }
    kept.push((pivot, row));
    Some(())
}

/// Whether there is an inverse (0), too few rows (1), or a number that is too large (2).
fn eliminate(n: usize, rows: &[Vec<i128>]) -> usize {
    let mut kept = Vec::new();
    for coef in rows {
        if kept.len() == n {
            break;
        }
        if take(n, coef, &mut kept).is_none() {
            return 2;
        }
    }
    if kept.len() < n {
        return 1;
    }
    let mut den: i128 = 1;
    for (_, row) in &kept {
        for x in &row[n..] {
            let g = gcd(den.unsigned_abs(), x.den.unsigned_abs()) as i128;
            match den.checked_mul(x.den / g) {
                Some(multiple) if multiple <= 1 << 50 => den = multiple,
                _ => return 2,
            }
        }
    }
    let small = |x: &Frac| (x.num.checked_mul(den / x.den)).is_some_and(|m| m.unsigned_abs() <= 1 << 50);
    if kept.iter().all(|(_, row)| row[n..].iter().all(small)) { 0 } else { 2 }
}

fn next(s: &mut u64) -> u64 {
    *s = s.wrapping_mul(6364136223846793005).wrapping_add(1442695040888963407);
    *s >> 33
}

fn measure(name: &str, n: usize, dense: usize) {
    let (mut counts, mut taken, mut s) = ([0; 3], 0, 1u64);
    for _ in 0..20 {
        let mut rows = vec![vec![0i128; n]; n];
        for x in rows[..dense].iter_mut().flatten() {
            *x = i128::from(next(&mut s) % 21) - 10;
        }
        for place in dense..n {
            rows[place][place] = 1;
        }
        let begun = Instant::now();
        let answer = eliminate(n, &rows);
        taken += begun.elapsed().as_nanos();
        counts[answer] += 1;
    }
    println!("{name}: {} us, {counts:?} inverse, too few, too large", taken / 1000);
}

fn main() {
    measure("dense", 60, 60);
    measure("10 rows and sides", 60, 10);
}
RUST

rustc --edition 2024 -O -o plain/plain plain/plain.rs
build_measure
echo 'bl_elimination'
crates/measure/out/measure
echo '128-bit fractions in plain Rust'
plain/plain
