# What the tools on the follower share: a program that answers every link of a model, and one in plain Rust that makes
# models and walks the follower's box. They source it after common.sh.

# Makes and builds the crate `measure`, behind make_links: it reads s.mps and s.aux in the present folder, and prints
# the answer of bl_follower to every link, the first linking column the fastest, and last the time of all answers.
make_answers() {
    make_workspace anyhow bl_aux bl_follower bl_fproof bl_model bl_mps bl_outer bl_raw
    cat > crates/measure/src/main.rt <<'RATTLE'
//! What the follower answers to each link of a model, and the time that it takes.
#![tactic(auto)]

ghost use Rattle.std.specs.Prelude.{length, IfOk};
ghost use Rattle.bl_raw.specs.Raw.{IsRawModel, FitsModel};

use anyhow::{Result, bail};
use bl_aux::read_aux;
use bl_follower::{Scratch, Solved, solve_follower_with};
use bl_fproof::{Answered, is_link};
use bl_model::{Bilevel, RawAux, RawMps, build};
use bl_mps::read_mps;
use bl_outer::{DirShelf, Got, read_text};
use std::alloc::Global;
use std::rt::Clock;
use std::sync::Arc;
use std::time::Instant;

const BUDGET: u32 = 1_000_000;

fn mps_of(alloc: Global, text: &[u8]) -> Result<RawMps>
    ensures { IfOk result IsRawModel }
{
    match read_mps(alloc, text, 1) {
        Ok(mps) => Ok(mps),
        Err(_) => bail!("s.mps is refused"),
    }
}

fn aux_of(alloc: Global, text: &[u8], mps: &RawMps) -> Result<RawAux>
    requires { IsRawModel mps.now }
    ensures { IfOk result (FitsModel (length mps.now.columns) (length mps.now.rows)) }
{
    let columns = mps.columns.as_slice().len() as u32;
    let rows = mps.rows.as_slice().len() as u32;
    match read_aux(alloc, text, columns, rows) {
        Ok(aux) => Ok(aux),
        Err(_) => bail!("s.aux is refused"),
    }
}

fn model_of(alloc: Global, mps: &[u8], aux: &[u8]) -> Result<Bilevel> {
    let mps = mps_of(alloc, mps)?;
    let aux = aux_of(alloc, aux, &mps)?;
    Ok(build(alloc, &mps, &aux)?)
}

// The numbers at the linking columns.
fn at_links(alloc: Global, model: &Bilevel, numbers: &[i64]) -> Result<Vec<i64>> {
    let mut list = Vec::new(alloc);
    for column in model.links() {
        match numbers.get(*column as usize) {
            Some(number) => list.push(*number)?,
            None => bail!("a link without a column"),
        }
    }
    Ok(list)
}

// Goes to the next link. Whether there is one.
fn advance(link: &mut [i64], lo: &[i64], hi: &[i64]) -> bool {
    for place in 0..link.len() {
        if place < lo.len() && place < hi.len() {
            if link[place] < hi[place] {
                link[place] = link[place] + 1;
                return true;
            }
            link[place] = lo[place];
        }
    }
    false
}

fn answer(
    alloc: Global,
    model: &Arc<Bilevel, Global>,
    link: &[i64],
    scratch: &mut Scratch,
) -> Result<Solved> {
    if !is_link(model, link) {
        bail!("not a link");
    }
    match solve_follower_with(alloc, model.clone()?, link, BUDGET, scratch) {
        Ok(solved) => Ok(solved),
        Err(_) => bail!("the budget is spent, or memory"),
    }
}

// Prints the answer to a link, and gives the time that it took.
fn timed(
    rt: &(impl Clock + AllocGlobal + Print),
    model: &Arc<Bilevel, Global>,
    link: &[i64],
    scratch: &mut Scratch,
) -> Result<u128> {
    let begun = Instant::now(rt)?;
    let solved = answer(rt.alloc(), model, link, scratch)?;
    let taken = begun.elapsed(rt)?.as_nanos();
    match &solved.answered {
        Answered::Best {
            response,
            value,
            ..
        } => println!(rt; "{:?} {value} {:?}", link, response.as_slice())?,
        Answered::NoResponse { .. } => println!(rt; "{:?} none", link)?,
    }
    Ok(taken)
}

fn main(rt: HostRuntime) -> Result<()> {
    let alloc = rt.alloc();
    let mut files = DirShelf::new(&rt, alloc, "");
    let (mut mps, mut aux) = (Vec::new(alloc), Vec::new(alloc));
    let (Ok(Got::Whole), Ok(Got::Whole)) = (
        read_text(&mut files, "s.mps", 1_000_000, &mut mps),
        read_text(&mut files, "s.aux", 1_000_000, &mut aux),
    ) else {
        bail!("s.mps and s.aux aren't there");
    };
    let model = Arc::new(alloc, model_of(alloc, &mps, &aux)?)?;
    let lo = at_links(alloc, &model, model.lo())?;
    let hi = at_links(alloc, &model, model.hi())?;
    let mut link = Vec::from_slice(alloc, &lo)?;
    let mut scratch = Scratch::new(alloc);
    let mut taken: u128 = 0;
    for _ in 0..100_000u32 {
        let time = timed(&rt, &model, &link, &mut scratch)?;
        taken = taken.saturating_add(time);
        if !advance(&mut link, &lo, &hi) {
            break;
        }
    }
    println!(rt; "time {} us", taken / 1000)?;
    Ok(())
}
RATTLE
    # The program runs once when it is built, so it needs a model beside it.
    (cd crates/measure && ../../plain/links model small 1)
    build_measure
}

# Builds plain/links. `links model KIND SEED` writes s.mps and s.aux; `links check KIND SEED` compares the file
# `answers` with the walk of the follower's box at every link; `links walk KIND SEED COUNT` times the walk at so many
# links.
make_links() {
    mkdir -p plain
    cp "$top/tools/small_models.rs" plain/
    cat > plain/links.rs <<'RUST'
//! Models of followers, and his answers by a walk of his box.
mod small_models;

use small_models::{Model, Numbers, Row};
use std::process::exit;
use std::time::Instant;
use std::{env, fs};

fn list(numbers: &mut Numbers, count: usize, least: i64, most: i64) -> Vec<i64> {
    (0..count).map(|_| numbers.between(least, most)).collect()
}

/// A model whose rows are the follower's. `coef` has their coefficients column by column, and `cost` the follower's on
/// his columns.
fn followers(hi: Vec<i64>, coef: &[Vec<i64>], rhs: &[i64], cost: &[i64]) -> Model {
    let leaders = hi.len() - cost.len();
    let row = |(at, rhs): (usize, &i64)| {
        let coef = coef.iter().map(|column| column[at]).collect();
        Row { coef, rhs: *rhs, lower: true }
    };
    Model {
        leaders,
        rows: rhs.iter().enumerate().map(row).collect(),
        cost: vec![1; hi.len()],
        follower_cost: [&vec![0; leaders], cost].concat(),
        hi,
    }
}

/// 1 or 2 leader's and 1 to 3 follower's columns, and 1 to 4 rows.
fn small(numbers: &mut Numbers) -> Model {
    let leaders = numbers.between(1, 2) as usize;
    let columns = leaders + numbers.between(1, 3) as usize;
    let rows = numbers.between(1, 4) as usize;
    let hi = list(numbers, columns, 1, 4);
    let coef: Vec<Vec<i64>> = (0..columns).map(|_| list(numbers, rows, -6, 6)).collect();
    let rhs = list(numbers, rows, -6, 12);
    let cost = list(numbers, columns - leaders, -5, 5);
    followers(hi, &coef, &rhs, &cost)
}

/// 20 things of size and worth up to 1000, and room for ten times the leader's number.
fn knapsack(numbers: &mut Numbers) -> Model {
    let hi = [vec![999], vec![1; 20]].concat();
    let sizes = list(numbers, 20, 1, 1000);
    let coef: Vec<Vec<i64>> = [-10].into_iter().chain(sizes).map(|size| vec![size]).collect();
    let cost = list(numbers, 20, -1000, -1);
    followers(hi, &coef, &[0], &cost)
}

/// 10 columns from 0 to 5 in 8 dense rows, which a random point meets, moved by two numbers of the leader.
fn dense(numbers: &mut Numbers) -> Model {
    let hi = [vec![39, 24], vec![5; 10]].concat();
    let mut coef: Vec<Vec<i64>> = (0..2).map(|_| list(numbers, 8, -3, 3)).collect();
    coef.extend((0..10).map(|_| list(numbers, 8, -10, 10)));
    let point: Vec<i64> = hi.iter().map(|most| numbers.between(0, *most)).collect();
    let at = |row: usize| coef.iter().zip(&point).map(|(c, z)| c[row] * z).sum::<i64>();
    let rhs: Vec<i64> = (0..8).map(|row| at(row) + numbers.between(0, 10)).collect();
    let cost = list(numbers, 10, -10, 10);
    followers(hi, &coef, &rhs, &cost)
}

fn generate(kind: &str, seed: &str) -> Model {
    let mut numbers = Numbers(seed.parse().expect("a seed"));
    match kind {
        "small" => small(&mut numbers),
        "knapsack" => knapsack(&mut numbers),
        _ => dense(&mut numbers),
    }
}

/// The next point of a box from zeros, the first number the fastest. Whether there is one.
fn advance(point: &mut [i64], hi: &[i64]) -> bool {
    for (z, most) in point.iter_mut().zip(hi) {
        if *z < *most {
            *z += 1;
            return true;
        }
        *z = 0;
    }
    false
}

/// The leader's columns that stand in a row.
fn linking(model: &Model) -> Vec<usize> {
    (0..model.leaders).filter(|j| model.rows.iter().any(|row| row.coef[*j] != 0)).collect()
}

/// What the rows leave for the follower.
fn room(model: &Model, links: &[usize], link: &[i64]) -> Vec<i64> {
    let taken = |row: &Row| links.iter().zip(link).map(|(j, x)| row.coef[*j] * x).sum::<i64>();
    model.rows.iter().map(|row| row.rhs - taken(row)).collect()
}

/// The least cost of a response, by a walk of the follower's box that changes sums as it goes.
fn walk(model: &Model, mut room: Vec<i64>) -> Option<i64> {
    let (hi, costs) = (&model.hi[model.leaders..], &model.follower_cost[model.leaders..]);
    let column = |j: usize| model.rows.iter().map(|row| row.coef[j]).collect();
    let coef: Vec<Vec<i64>> = (model.leaders..model.hi.len()).map(column).collect();
    let (mut y, mut cost, mut best) = (vec![0; hi.len()], 0, None);
    loop {
        if room.iter().all(|left| *left >= 0) && best.is_none_or(|least| cost < least) {
            best = Some(cost);
        }
        let Some(at) = (0..hi.len()).find(|j| y[*j] < hi[*j]) else { return best };
        for j in 0..at {
            room.iter_mut().zip(&coef[j]).for_each(|(left, c)| *left += c * y[j]);
            cost -= costs[j] * y[j];
            y[j] = 0;
        }
        room.iter_mut().zip(&coef[at]).for_each(|(left, c)| *left -= c);
        cost += costs[at];
        y[at] += 1;
    }
}

/// Whether a line says the link and what the walk says of it.
fn is_right(model: &Model, links: &[usize], link: &[i64], line: &str) -> bool {
    let text = line.replace(['[', ']', ','], " ");
    let words: Vec<&str> = text.split_whitespace().collect();
    if words.len() <= links.len() {
        return false;
    }
    let numbers = |words: &[&str]| words.iter().map(|w| w.parse::<i64>().ok()).collect::<Option<Vec<i64>>>();
    let left = room(model, links, link);
    let told = numbers(&words[..links.len()]).is_some_and(|told| told == link);
    let Some(best) = walk(model, left.clone()) else {
        return told && words[links.len()..] == ["none"];
    };
    let Some(answer) = numbers(&words[links.len()..]) else { return false };
    let (hi, y) = (&model.hi[model.leaders..], &answer[1..]);
    let sum = |coef: &[i64]| coef[model.leaders..].iter().zip(y).map(|(c, v)| c * v).sum::<i64>();
    told && answer[0] == best
        && y.len() == hi.len()
        && y.iter().zip(hi).all(|(v, h)| (0..=*h).contains(v))
        && model.rows.iter().zip(&left).all(|(row, left)| sum(&row.coef) <= *left)
        && sum(&model.follower_cost) == best
}

fn check(model: &Model) {
    let text = fs::read_to_string("answers").expect("answers");
    let links = linking(model);
    let hi: Vec<i64> = links.iter().map(|j| model.hi[*j]).collect();
    let (mut link, mut lines, mut some) = (vec![0; links.len()], text.lines(), 0);
    loop {
        let line = lines.next().unwrap_or("");
        if !is_right(model, &links, &link, line) {
            eprintln!("link {link:?}: {line}");
            exit(1);
        }
        some += i32::from(!line.ends_with("none"));
        if !advance(&mut link, &hi) {
            break;
        }
    }
    let count: i64 = hi.iter().map(|h| h + 1).product();
    println!("{some} {}", count - i64::from(some));
}

fn time(model: &Model, count: u32) {
    let links = linking(model);
    let hi: Vec<i64> = links.iter().map(|j| model.hi[*j]).collect();
    let (mut link, mut sum) = (vec![0; links.len()], 0);
    let begun = Instant::now();
    for _ in 0..count {
        sum += walk(model, room(model, &links, &link)).unwrap_or(0);
        // Links from all of the box, not the first of it alone.
        for _ in 0..41 {
            advance(&mut link, &hi);
        }
    }
    let taken = begun.elapsed().as_secs_f64();
    println!("{:.2} links a second by the walk of the box (sum {sum})", f64::from(count) / taken);
}

fn main() {
    let words: Vec<String> = env::args().collect();
    let model = generate(&words[2], &words[3]);
    match words[1].as_str() {
        "model" => model.write(),
        "check" => check(&model),
        _ => time(&model, words[4].parse().expect("a count")),
    }
}
RUST
    rustc --edition 2024 -O -A dead_code -o plain/links plain/links.rs
}
