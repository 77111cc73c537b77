#!/usr/bin/env bash
# Compares relaxations of bl_relax with enumeration.
#
# Makes 500 problems of 3 columns and 4 rows by a recurrence, each with and without a cutoff, and relaxes them. Ends
# with status 1 at the first wrong answer: a box that is closed though a point of it meets the rows below the cutoff,
# or by a proof that doesn't hold; a whole point that breaks a row or costs too much; a licence that doesn't hold.
# Prints how many answers there are of each kind.
# The proved program is built in a copy of the crates, which takes some minutes the first time. Needs rt on the PATH.
#
# usage: tools/compare_relax.sh
set -euo pipefail

. "$(dirname "$0")/common.sh"
enter_fresh_folder
make_workspace anyhow bl_bound bl_licence bl_relax

cat > crates/measure/src/main.rt <<'RATTLE'
//! Compares relaxations with enumeration.
#![tactic(auto)]

ghost use Rattle.std.specs.Prelude.{◌<◌, ◌≤◌, IfOk};

use anyhow::{Result, bail};
use bl_bound::{Problem, holds};
use bl_relax::{Relaxed, Why, relax, whole_at, why_holds};

fn next(state: &mut u64) -> u32 {
    *state = (*state)
        .wrapping_mul(6364136223846793005)
        .wrapping_add(1442695040888963407);
    (*state >> 33) as u32
}

// A number from -most to most.
fn number(state: &mut u64, most: u32) -> i64
    requires { most < 1000 }
{
    i64::from(next(state) % (2 * most + 1)) - i64::from(most)
}

// Whether a point of the box with numbers from -3 to 3 is better than the cutoff.
fn is_better_somewhere(problem: &Problem<'_>, cutoff: Option<i64>) -> Result<bool> {
    if !problem.fits() {
        bail!("the problem does not fit");
    }
    for x in -3..4i64 {
        for y in -3..4i64 {
            for z in -3..4i64 {
                if whole_at(problem, cutoff, &[x, y, z]) {
                    return Ok(true);
                }
            }
        }
    }
    Ok(false)
}

// The kind of the answer, where it is right.
fn kind_of(
    rt: &impl AllocGlobal,
    problem: &Problem<'_>,
    cutoff: Option<i64>,
    answer: &Relaxed,
) -> Result<usize>
    ensures { IfOk result (λ kind. kind < 4) }
{
    if !problem.fits() {
        bail!("the problem does not fit");
    }
    let (right, kind) = match answer {
        Relaxed::Closed(proof) => {
            let proved = holds(problem, cutoff, proof);
            (proved && !is_better_somewhere(problem, cutoff)?, 0)
        }
        Relaxed::Whole(point) => (whole_at(problem, cutoff, point.as_slice()), 1),
        Relaxed::Stuck(why) => {
            let kind = if matches!(why, Why::Fraction(_)) { 2 } else { 3 };
            (why_holds(rt.alloc(), problem, cutoff, why)?, kind)
        }
    };
    if !right {
        bail!("a wrong answer of kind {kind}");
    }
    Ok(kind)
}

fn compare(rt: &impl AllocGlobal, state: &mut u64, with_cutoff: bool) -> Result<usize>
    ensures { IfOk result (λ kind. kind < 4) }
{
    let cost = [number(state, 9), number(state, 9), number(state, 9)];
    let (lo, hi) = ([-3, -2, 0], [3, 1, 3]);
    let mut coefs = [[0i64; 3]; 4];
    for row in coefs.iter_mut() {
        for x in row.iter_mut() {
            *x = number(state, 7);
        }
    }
    let mut problem = Problem::start(rt.alloc(), &cost, &lo, &hi);
    for row in coefs.iter() {
        problem.row(row, number(state, 9))?;
    }
    if !problem.fits() {
        bail!("the problem does not fit");
    }
    let cutoff = if with_cutoff { Some(number(state, 30)) } else { None };
    let answer = relax(rt.alloc(), &problem, cutoff)?;
    kind_of(rt, &problem, cutoff, &answer)
}

fn main(rt: HostRuntime) -> Result<()> {
    let mut state = 1u64;
    let mut counts = [0u32; 4];
    for _round in 0..500u32 {
        for with_cutoff in [false, true] {
            let kind = compare(&rt, &mut state, with_cutoff)?;
            counts[kind] = counts[kind].saturating_add(1);
        }
    }
    println!(rt; "closed {} whole {} fraction {} other {}", counts[0], counts[1], counts[2], counts[3])?;
    Ok(())
}
RATTLE

mkdir -p crates/measure/proofs/compare
cat > crates/measure/proofs/compare/Invariants.antt <<'ANTT'
use Rattle.std.proofs.Common.{◌≡◌, length}
use Rattle.measure.proofs.compare.Given as goal

abbrev pub invariant-loop-row-2 : goal.invariant-loop-row-2
invariant-loop-row-2 g l = length l.problem.area.lo ≡ 3
ANTT

build_measure
crates/measure/out/measure
