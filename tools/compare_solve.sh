#!/usr/bin/env bash
# Compares the program `mibs` with enumeration on small models.
#
# Makes models of 1 to 3 leader's and 0 to 3 follower's columns and 1 to 5 rows by a recurrence, and solves each with
# budgets of twice the points of its boxes less one, which always suffice. Ends with status 1 at the first wrong answer:
# a status that the definition of bilevel feasibility refutes, another value, or a point that isn't bilevel feasible or
# has another cost. Prints how many models have an answer and how many have none.
# Build `mibs` first, by `rt run` in crates/mibs_run. Needs rustc on the PATH.
#
# usage: tools/compare_solve.sh [MIBS] [MODELS]
set -euo pipefail

. "$(dirname "$0")/common.sh"
find_mibs "${1:-}"
models=${2:-500}
enter_fresh_folder
cp "$top/tools/small_models.rs" .

cat > compare.rs <<'RUST'
//! What the program says of small models.
mod small_models;

use small_models::{best, generate, wrong};
use std::env;
use std::process::{Command, exit};

fn main() {
    let words: Vec<String> = env::args().collect();
    let models: u64 = words[2].parse().expect("a number of models");
    let (mut solved, mut without) = (0, 0);
    for seed in 1..=models {
        let model = generate(seed);
        model.write();
        let [nodes, lower] = model.budgets();
        let options = ["solve", "s.mps", "s.aux", "--nodes", &nodes, "--follower-nodes", &lower];
        let output = Command::new(&words[1]).args(options).output().expect("a program that runs");
        let best = best(&model);
        if let Some(fault) = wrong(&model, best, output.status.code(), &String::from_utf8_lossy(&output.stdout)) {
            eprintln!("seed {seed}: {fault}{}", String::from_utf8_lossy(&output.stderr));
            exit(1);
        }
        if best.is_some() { solved += 1 } else { without += 1 }
    }
    println!("{models} models: {solved} have an answer, {without} have none");
}
RUST

rustc --edition 2024 -O -o compare compare.rs
./compare "$mibs" "$models"
