#!/usr/bin/env bash
# Changes certificates at random and checks them.
#
# Makes the small models of small_models.rs, solves each with a certificate, and checks it: it has to be accepted with
# the report that `solve` gave. Then changes it so many times in one place: a byte, a number, a line that is left out,
# doubled or put elsewhere, or the end that is cut off. Ends with status 1 where a changed text is accepted that states
# what enumeration refutes, or where `check` ends otherwise than by accepting or refusing it. Prints how many changed
# texts were accepted and how many refused, by rule.
# Build `mibs` first, by `rt run` in crates/mibs_run. Needs rustc on the PATH.
#
# usage: tools/change_certificates.sh [MIBS] [MODELS] [CHANGES]
set -euo pipefail

. "$(dirname "$0")/common.sh"
find_mibs "${1:-}"
models=${2:-60}
changes=${3:-200}
enter_fresh_folder
cp "$top/tools/small_models.rs" .

cat > change.rs <<'RUST'
//! Certificates of small models, changed in one place and checked.
mod small_models;

use small_models::{Model, Numbers, best, generate, wrong};
use std::collections::BTreeMap;
use std::process::{Command, Output, exit};
use std::{env, fs};

/// A text that differs in one place from this one.
fn changed(text: &[u8], numbers: &mut Numbers) -> Vec<u8> {
    match numbers.between(0, 5) {
        0 => with_byte(text, numbers),
        1 => text[..place(text.len(), numbers)].to_vec(),
        2 => with_lines(text, numbers),
        _ => with_number(text, numbers),
    }
}

fn place(len: usize, numbers: &mut Numbers) -> usize {
    numbers.between(0, len as i64 - 1) as usize
}

/// Another byte in place of one, before it, or none.
fn with_byte(text: &[u8], numbers: &mut Numbers) -> Vec<u8> {
    let at = place(text.len(), numbers);
    let mut other = text.to_vec();
    let byte = b"0123456789 -:\nvrulc"[numbers.between(0, 18) as usize];
    match numbers.between(0, 2) {
        0 => other[at] = byte,
        1 => other.insert(at, byte),
        _ => drop(other.remove(at)),
    }
    other
}

/// A line left out, doubled, or moved before another one.
fn with_lines(text: &[u8], numbers: &mut Numbers) -> Vec<u8> {
    let mut lines: Vec<&[u8]> = text.split_inclusive(|byte| *byte == b'\n').collect();
    let (from, to) = (place(lines.len(), numbers), place(lines.len(), numbers));
    match numbers.between(0, 2) {
        0 => drop(lines.remove(from)),
        1 => lines.insert(to, lines[from]),
        _ => {
            let line = lines.remove(from);
            lines.insert(to.min(lines.len()), line);
        }
    }
    lines.concat()
}

/// A number that is one or two greater or less, negated, doubled, or 0.
fn with_number(text: &[u8], numbers: &mut Numbers) -> Vec<u8> {
    let words: Vec<&[u8]> = text.split_inclusive(|byte| b" :\n".contains(byte)).collect();
    let value = |word: &[u8]| -> Option<i64> { std::str::from_utf8(&word[..word.len() - 1]).ok()?.parse().ok() };
    let places: Vec<usize> = (0..words.len()).filter(|at| value(words[*at]).is_some()).collect();
    let at = places[place(places.len(), numbers)];
    let old = value(words[at]).expect("a number");
    let new = match numbers.between(0, 6) {
        0 => old + 1,
        1 => old - 1,
        2 => old + 2,
        3 => old - 2,
        4 => -old,
        5 => 2 * old,
        _ => 0,
    };
    let end = words[at][words[at].len() - 1];
    let word = [new.to_string().as_bytes(), &[end]].concat();
    [&words[..at].concat(), &word[..], &words[at + 1..].concat()].concat()
}

fn run(mibs: &str, words: &[&str]) -> Output {
    Command::new(mibs).args(words).output().expect("a program that runs")
}

fn give_up(seed: u64, what: &str, output: &Output) -> ! {
    let told = [&output.stdout[..], &output.stderr[..]].concat();
    eprintln!("seed {seed}: {what}, status {:?}\n{}", output.status.code(), String::from_utf8_lossy(&told));
    exit(1);
}

/// The certificate of the model, which is accepted with the report of its answer.
fn certificate(mibs: &str, seed: u64, model: &Model, best: Option<i64>) -> Vec<u8> {
    model.write();
    let [nodes, lower] = model.budgets();
    let solved = run(
        mibs,
        &["solve", "s.mps", "s.aux", "--cert", "s.cert", "--nodes", &nodes, "--follower-nodes", &lower],
    );
    if wrong(model, best, solved.status.code(), &String::from_utf8_lossy(&solved.stdout)).is_some() {
        give_up(seed, "a wrong answer", &solved);
    }
    let checked = run(mibs, &["check", "s.mps", "s.aux", "s.cert"]);
    if checked.status.code() != Some(0) || checked.stdout != [b"accepted\n", &solved.stdout[..]].concat() {
        give_up(seed, "the certificate isn't accepted", &checked);
    }
    fs::read("s.cert").expect("a file to read")
}

/// By which rule a changed text is refused; `accepted` where it isn't, and states what is right.
fn verdict(mibs: &str, seed: u64, model: &Model, best: Option<i64>, text: &[u8]) -> String {
    fs::write("c.cert", text).expect("a file to write");
    let checked = run(mibs, &["check", "s.mps", "s.aux", "c.cert"]);
    let told = String::from_utf8_lossy(if checked.stdout.is_empty() { &checked.stderr } else { &checked.stdout });
    match (checked.status.code(), told.strip_prefix("accepted\n")) {
        (Some(0), Some(report)) => {
            let status = if report == "infeasible\n" { 1 } else { 0 };
            if wrong(model, best, Some(status), report).is_some() {
                give_up(seed, "a wrong statement is accepted", &checked);
            }
            String::from("accepted")
        }
        (Some(9), None) => String::from(told.trim_end().rsplit(' ').next().unwrap_or_default()),
        _ => give_up(seed, "neither accepted nor refused", &checked),
    }
}

fn main() {
    let words: Vec<String> = env::args().collect();
    let [models, changes] = [2, 3].map(|at| words[at].parse::<u64>().expect("a number"));
    let mut verdicts: BTreeMap<String, u64> = BTreeMap::new();
    for seed in 1..=models {
        let model = generate(seed);
        let best = best(&model);
        let text = certificate(&words[1], seed, &model, best);
        let mut numbers = Numbers(seed);
        for _ in 0..changes {
            let other = changed(&text, &mut numbers);
            *verdicts.entry(verdict(&words[1], seed, &model, best, &other)).or_default() += 1;
        }
    }
    println!("{models} certificates are accepted; of {} changed texts:", models * changes);
    for (verdict, count) in verdicts {
        println!("{count} {verdict}");
    }
}
RUST

rustc --edition 2024 -O -o change change.rs
./change "$mibs" "$models" "$changes"
