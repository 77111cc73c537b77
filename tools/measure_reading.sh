#!/usr/bin/env bash
# Times the program `mibs` on a full MPS text against a straightforward reader in plain Rust.
#
# The text has 120 columns and 200 rows with a coefficient at each place, and comments that fill it up to 16 MiB. All
# columns are fixed, so the box has one point, and reading is nearly all that `mibs` does. The plain reader keeps the
# same rules, looks names up in a `HashMap`, and makes the same model. Both run several times by turns, each as a whole
# process that reads the file, and the best time of each counts. With a second text, of half a million rows of kind N,
# the reading of the rows alone is timed. Build `mibs` first, by `rt run` in crates/mibs_run. Needs rustc on the PATH.
#
# usage: tools/measure_reading.sh [MIBS]
set -euo pipefail

. "$(dirname "$0")/common.sh"
find_mibs "${1:-}"
enter_fresh_folder

cat > reading.rs <<'RUST'
//! A straightforward reader of the MPS profile in plain Rust, and the texts that it reads.
use std::collections::{HashMap, HashSet};
use std::fmt::Write;
use std::process::{Command, Stdio};
use std::time::{Duration, Instant};
use std::{env, fs};

const COLUMNS: usize = 120;
const ROWS: usize = 200;
const MAX_BYTES: usize = 16_777_216;
const RUNS: usize = 9;

type Fault = (&'static str, usize);

#[derive(Clone, Copy, PartialEq, Eq, Hash)]
enum Section { Name, ObjSense, Rows, Columns, Rhs, Ranges, Bounds, End }

#[derive(Clone, Copy)]
struct Bounds { lo: Option<i64>, hi: Option<i64>, named: bool, integer: bool, sets_lower: bool }

struct Column { entries: HashMap<usize, i64>, bounds: Bounds }

#[derive(Default)]
struct Reader {
    seen: HashSet<Section>,
    present: Option<Section>,
    maximise: Option<bool>,
    rows: HashMap<Vec<u8>, usize>,
    kinds: Vec<u8>,
    columns: HashMap<Vec<u8>, usize>,
    list: Vec<Column>,
    inside: bool,
    rhs: HashMap<usize, i64>,
    ranges: HashMap<usize, i64>,
}

enum Number { Bad, Broken, Large, Whole(i128) }

/// A number of the profile: a sign, digits with a point, and an exponent.
fn number(text: &[u8]) -> Number {
    let (minus, body) = match text {
        [b'-', body @ ..] => (true, body),
        [b'+', body @ ..] => (false, body),
        _ => (false, text),
    };
    let mark = body.iter().position(|b| matches!(b, b'e' | b'E'));
    let (mantissa, exponent) = match mark {
        Some(at) => (&body[..at], &body[at + 1..]),
        None => (body, &b"0"[..]),
    };
    let (turned, power) = match exponent {
        [b'-', power @ ..] => (true, power),
        [b'+', power @ ..] => (false, power),
        _ => (false, exponent),
    };
    let point = mantissa.iter().position(|b| *b == b'.');
    let (whole, fraction) = match point {
        Some(at) => (&mantissa[..at], &mantissa[at + 1..]),
        None => (mantissa, &b""[..]),
    };
    let digits: Vec<u8> = whole.iter().chain(fraction).copied().collect();
    if digits.is_empty() || power.is_empty() || !digits.iter().chain(power).all(u8::is_ascii_digit) {
        return Number::Bad;
    }
    let power = power.iter().fold(0i64, |p, d| (p * 10 + i64::from(d - b'0')).min(1 << 40));
    let shift = if turned { -power } else { power } - fraction.len() as i64;
    let digits: &[u8] = match digits.iter().position(|d| *d != b'0') {
        Some(first) => &digits[first..],
        None => return Number::Whole(0),
    };
    let zeros = digits.iter().rev().take_while(|d| **d == b'0').count();
    if shift < -(zeros as i64) {
        return Number::Broken;
    }
    if digits.len() as i64 + shift > 37 {
        return Number::Large;
    }
    let kept = if shift < 0 { &digits[..digits.len() - (-shift) as usize] } else { digits };
    let value = kept.iter().fold(0i128, |v, d| v * 10 + i128::from(d - b'0'));
    let value = value * 10i128.pow(shift.max(0) as u32);
    if value > 10i128.pow(36) {
        return Number::Large;
    }
    Number::Whole(if minus { -value } else { value })
}

fn within(text: &[u8], most: i128) -> Result<i64, &'static str> {
    match number(text) {
        Number::Bad => Err("BadNumber"),
        Number::Broken => Err("NotWhole"),
        Number::Whole(v) if v.abs() <= most => Ok(v as i64),
        _ => Err("TooLarge"),
    }
}

fn bound(text: &[u8]) -> Result<Option<i64>, &'static str> {
    match number(text) {
        Number::Bad => Err("BadNumber"),
        Number::Broken => Err("NotWhole"),
        Number::Whole(v) if v.abs() <= 10_000_000 => Ok(Some(v as i64)),
        Number::Whole(v) if v.abs() < 10i128.pow(20) => Err("TooLarge"),
        _ => Ok(None),
    }
}

fn is_blank(b: &u8) -> bool {
    matches!(b, b' ' | b'\t' | b'\r')
}

impl Reader {
    fn heading(&mut self, fields: &[&[u8]]) -> Result<(), &'static str> {
        let section = match fields[0] {
            b"NAME" => Section::Name,
            b"OBJSENSE" => Section::ObjSense,
            b"ROWS" => Section::Rows,
            b"COLUMNS" => Section::Columns,
            b"RHS" => Section::Rhs,
            b"RANGES" => Section::Ranges,
            b"BOUNDS" => Section::Bounds,
            b"ENDATA" => Section::End,
            _ => return Err("BadSection"),
        };
        let has = |s: Section| self.seen.contains(&s);
        let fits = match section {
            Section::Name => self.seen.is_empty(),
            Section::ObjSense => !has(section) && !has(Section::Rows),
            Section::Rows => !has(section),
            Section::Columns => has(Section::Rows) && !has(section),
            Section::End => has(Section::Columns),
            _ => has(Section::Columns) && !has(section),
        };
        if !fits {
            return Err("BadSection");
        }
        if section == Section::ObjSense && fields.len() > 1 {
            self.maximise = Some(sense(fields[1])?);
        }
        self.seen.insert(section);
        self.present = Some(section);
        Ok(())
    }

    fn pair(&self, name: &[u8], text: &[u8], most: i128) -> Result<(usize, i64), &'static str> {
        let row = *self.rows.get(name).ok_or("UnknownRow")?;
        Ok((row, within(text, most)?))
    }

    fn row(&mut self, fields: &[&[u8]]) -> Result<(), &'static str> {
        let [kind, name] = fields else { return Err("BadFields") };
        if !matches!(*kind, b"N" | b"L" | b"G" | b"E") || *name == b"'MARKER'" {
            return Err("BadFields");
        }
        if self.rows.contains_key(*name) {
            return Err("DuplicateRow");
        }
        if kind[0] != b'N' && self.kinds.iter().filter(|k| **k != b'N').take(ROWS).count() == ROWS {
            return Err("TooMany");
        }
        self.rows.insert(name.to_vec(), self.kinds.len());
        self.kinds.push(kind[0]);
        Ok(())
    }

    fn column(&mut self, fields: &[&[u8]]) -> Result<(), &'static str> {
        if fields.len() > 1 && fields[1] == b"'MARKER'" {
            self.inside = match fields {
                [_, _, b"'INTORG'"] => true,
                [_, _, b"'INTEND'"] => false,
                _ => return Err("BadFields"),
            };
            return Ok(());
        }
        if fields.len() != 3 && fields.len() != 5 {
            return Err("BadFields");
        }
        match self.columns.get(fields[0]) {
            Some(at) if at + 1 == self.list.len() => {}
            Some(_) => return Err("DuplicateColumn"),
            None if self.list.len() == COLUMNS => return Err("TooMany"),
            None => {
                self.columns.insert(fields[0].to_vec(), self.list.len());
                let bounds = Bounds { lo: Some(0), hi: None, named: false, integer: self.inside, sets_lower: false };
                self.list.push(Column { entries: HashMap::new(), bounds });
            }
        }
        for pair in fields[1..].chunks(2) {
            let (row, value) = self.pair(pair[0], pair[1], 10_000_000)?;
            let last = self.list.last_mut().unwrap();
            if last.entries.insert(row, value).is_some() {
                return Err("DuplicateEntry");
            }
        }
        Ok(())
    }

    fn side(&mut self, fields: &[&[u8]], ranges: bool) -> Result<(), &'static str> {
        if !(2..=5).contains(&fields.len()) {
            return Err("BadFields");
        }
        for pair in fields[fields.len() % 2..].chunks(2) {
            let (row, value) = self.pair(pair[0], pair[1], 1_000_000_000_000_000)?;
            let sides = if ranges { &mut self.ranges } else { &mut self.rhs };
            if sides.insert(row, value).is_some() {
                return Err("DuplicateEntry");
            }
            let objective = self.kinds.iter().position(|k| *k == b'N');
            if !ranges && value != 0 && objective == Some(row) {
                return Err("ObjectiveConstant");
            }
        }
        Ok(())
    }

    fn bound(&mut self, fields: &[&[u8]]) -> Result<(), &'static str> {
        let numbered = matches!(fields[0], b"UP" | b"LO" | b"FX" | b"UI" | b"LI");
        let plain = matches!(fields[0], b"BV" | b"FR" | b"MI" | b"PL");
        let (name, text) = match (numbered, plain, fields.len()) {
            (true, _, 3) => (fields[1], Some(fields[2])),
            (true, _, 4) => (fields[2], Some(fields[3])),
            (_, true, 2) => (fields[1], None),
            (_, true, 3 | 4) => (fields[2], None),
            _ => return Err("BadFields"),
        };
        let at = *self.columns.get(name).ok_or("UnknownColumn")?;
        let value = text.map_or(Ok(None), bound)?;
        let b = &mut self.list[at].bounds;
        b.named = true;
        b.integer |= matches!(fields[0], b"UI" | b"LI" | b"BV");
        b.sets_lower |= matches!(fields[0], b"LO" | b"LI" | b"FX" | b"BV");
        match fields[0] {
            b"UP" | b"UI" => b.hi = value,
            b"LO" | b"LI" => b.lo = value,
            b"FX" => (b.lo, b.hi) = (value, value),
            b"BV" => (b.lo, b.hi) = (Some(0), Some(1)),
            b"FR" => (b.lo, b.hi) = (None, None),
            b"MI" => b.lo = None,
            _ => b.hi = None,
        }
        Ok(())
    }

    fn line(&mut self, line: &[u8]) -> Result<(), &'static str> {
        if line.first() == Some(&b'*') {
            return Ok(());
        }
        let fields: Vec<&[u8]> = line.split(is_blank).filter(|f| !f.is_empty()).collect();
        if fields.is_empty() {
            return Ok(());
        }
        if !is_blank(&line[0]) {
            return self.heading(&fields);
        }
        match self.present {
            Some(Section::ObjSense) if fields.len() != 1 => Err("BadFields"),
            Some(Section::ObjSense) if self.maximise.is_some() => Err("BadObjSense"),
            Some(Section::ObjSense) => {
                self.maximise = Some(sense(fields[0])?);
                Ok(())
            }
            Some(Section::Rows) => self.row(&fields),
            Some(Section::Columns) => self.column(&fields),
            Some(Section::Rhs) => self.side(&fields, false),
            Some(Section::Ranges) => self.side(&fields, true),
            Some(Section::Bounds) => self.bound(&fields),
            _ => Err("BadSection"),
        }
    }

    fn whole(&self, default: i64) -> Result<(), Fault> {
        if !self.kinds.contains(&b'N') {
            return Err(("NoObjective", 0));
        }
        for (at, column) in self.list.iter().enumerate() {
            let b = column.bounds;
            let hi = if b.named { b.hi } else { Some(default) };
            match (b.integer, b.lo, hi) {
                (false, _, _) => return Err(("Continuous", at)),
                (_, None, _) | (_, _, None) => return Err(("Unbounded", at)),
                (_, _, Some(hi)) if hi < 0 && !b.sets_lower => return Err(("NegativeUpper", at)),
                (_, Some(lo), Some(hi)) if hi < lo => return Err(("EmptyBounds", at)),
                _ => {}
            }
        }
        Ok(())
    }
}

fn sense(word: &[u8]) -> Result<bool, &'static str> {
    match word {
        b"MAX" | b"MAXIMIZE" => Ok(true),
        b"MIN" | b"MINIMIZE" => Ok(false),
        _ => Err("BadObjSense"),
    }
}

/// The number of coefficients other than 0, or the first fault.
fn read(text: &[u8]) -> Result<usize, Fault> {
    if text.len() > MAX_BYTES {
        return Err(("TooLong", 0));
    }
    let mut reader = Reader::default();
    let mut number = 0;
    for line in text.strip_suffix(b"\n").unwrap_or(text).split(|b| *b == b'\n') {
        number += 1;
        reader.line(line).map_err(|rule| (rule, number))?;
        if reader.present == Some(Section::End) {
            reader.whole(1)?;
            return Ok(reader.list.iter().map(|c| c.entries.values().filter(|v| **v != 0).count()).sum());
        }
    }
    Err(("NoEnd", number + 1))
}

/// A full model whose columns are all fixed, with comments up to the limit.
fn full() -> String {
    let mut text = String::from("NAME FULL\nROWS\n N COST\n");
    for row in 0..ROWS {
        writeln!(text, " L  ROW{row}").unwrap();
    }
    text += "COLUMNS\n    M1        'MARKER'  'INTORG'\n";
    for column in 0..COLUMNS {
        writeln!(text, "    COLUMN{column}   COST      {}", column + 1).unwrap();
        for row in (0..ROWS).step_by(2) {
            let (a, b) = (row + column + 1, row * column + 1);
            writeln!(text, "    COLUMN{column}   ROW{row}      {a}   ROW{}      {b}", row + 1).unwrap();
        }
    }
    text += "    M2        'MARKER'  'INTEND'\nRHS\n";
    for row in 0..ROWS {
        writeln!(text, "    RHS       ROW{row}      100000000").unwrap();
    }
    text += "BOUNDS\n";
    for column in 0..COLUMNS {
        writeln!(text, " FX BND       COLUMN{column}   1").unwrap();
    }
    let remark = "* A comment of the usual length, which says nothing of the model and is skipped.\n";
    while text.len() + remark.len() + "ENDATA\n".len() <= MAX_BYTES {
        text += remark;
    }
    text + "ENDATA\n"
}

/// Half a million rows of kind N, and one column that has none of them.
fn free_rows() -> String {
    let mut text = String::from("ROWS\n N COST\n");
    for row in 0..500_000 {
        writeln!(text, " N A_LONG_NAME_OF_A_ROW_{row}").unwrap();
    }
    text + "COLUMNS\n M 'MARKER' 'INTORG'\n X COST 1\nBOUNDS\n FX X 1\nENDATA\n"
}

fn timed(program: &str, words: &[&str]) -> (bool, Duration) {
    let start = Instant::now();
    let output = Command::new(program).args(words).stderr(Stdio::inherit()).output();
    let time = start.elapsed();
    (output.expect("a program that runs").status.success(), time)
}

fn compare(plain: &str, mibs: &str, file: &str) {
    let (mut plain_best, mut mibs_best) = (Duration::MAX, Duration::MAX);
    for _ in 0..RUNS {
        let (plain_read, plain_time) = timed(plain, &["read", file]);
        let (mibs_read, mibs_time) = timed(mibs, &["solve", file, "none.aux"]);
        assert!(plain_read && mibs_read, "a text wasn't read");
        plain_best = plain_best.min(plain_time);
        mibs_best = mibs_best.min(mibs_time);
    }
    let size = fs::metadata(file).expect("a file").len() as f64 / 1e6;
    let (plain_time, mibs_time) = (plain_best.as_secs_f64(), mibs_best.as_secs_f64());
    println!("{file}: plain Rust {:.0} MB/s, mibs {:.0} MB/s", size / plain_time, size / mibs_time);
    println!("ratio {:.2}", mibs_time / plain_time);
}

fn main() {
    let words: Vec<String> = env::args().collect();
    match words[1].as_str() {
        "read" => match read(&fs::read(&words[2]).expect("a file to read")) {
            Ok(count) => println!("{count}"),
            Err((rule, at)) => {
                println!("{rule} {at}");
                std::process::exit(3);
            }
        },
        "write" => {
            fs::write("full.mps", full()).expect("a file to write");
            fs::write("free_rows.mps", free_rows()).expect("a file to write");
            fs::write("none.aux", "N 0\nM 0\nOS 1\n").expect("a file to write");
        }
        _ => compare(&words[0], &words[2], &words[3]),
    }
}
RUST

rustc --edition 2024 -O -o reading reading.rs
./reading write
./reading time "$mibs" full.mps
./reading time "$mibs" free_rows.mps
