//! Small models with their texts, and their answers by enumeration.
use std::fmt::Write;
use std::fs;

/// A row `coef·z <= rhs`, the follower's where it is a lower one.
pub struct Row {
    pub coef: Vec<i64>,
    pub rhs: i64,
    pub lower: bool,
}

/// All columns are from 0; the leader's come first. The follower's cost is 0 in them.
pub struct Model {
    pub leaders: usize,
    pub hi: Vec<i64>,
    pub rows: Vec<Row>,
    pub cost: Vec<i64>,
    pub follower_cost: Vec<i64>,
}

/// Numbers by a linear congruence (Knuth's MMIX).
pub struct Numbers(pub u64);

impl Numbers {
    pub fn between(&mut self, least: i64, most: i64) -> i64 {
        self.0 = self.0.wrapping_mul(6364136223846793005).wrapping_add(1442695040888963407);
        least + ((self.0 >> 33) % (most - least + 1) as u64) as i64
    }
}

pub fn generate(seed: u64) -> Model {
    let mut numbers = Numbers(seed);
    let leaders = numbers.between(1, 3) as usize;
    let columns = leaders + numbers.between(0, 3) as usize;
    let hi: Vec<i64> = (0..columns).map(|_| numbers.between(1, 4)).collect();
    let mut rows = Vec::new();
    for _ in 0..numbers.between(1, 5) {
        let coef: Vec<i64> = (0..columns).map(|_| numbers.between(-6, 6)).collect();
        let most: i64 = coef.iter().zip(&hi).map(|(c, h)| (c * h).max(0)).sum();
        let least: i64 = coef.iter().zip(&hi).map(|(c, h)| (c * h).min(0)).sum();
        let rhs = numbers.between((least + most).div_euclid(2) - 3, most);
        rows.push(Row { coef, rhs, lower: numbers.between(0, 2) > 0 });
    }
    let cost = (0..columns).map(|_| numbers.between(-9, 9)).collect();
    let follower_cost = (0..columns).map(|c| if c < leaders { 0 } else { numbers.between(-3, 3) }).collect();
    Model { leaders, hi, rows, cost, follower_cost }
}

fn mps(model: &Model) -> String {
    let mut text = String::from("NAME SMALL\nROWS\n N COST\n");
    for row in 0..model.rows.len() {
        writeln!(text, " L R{row}").unwrap();
    }
    text += "COLUMNS\n M1 'MARKER' 'INTORG'\n";
    for column in 0..model.hi.len() {
        writeln!(text, " C{column} COST {}", model.cost[column]).unwrap();
        for (at, row) in model.rows.iter().enumerate() {
            writeln!(text, " C{column} R{at} {}", row.coef[column]).unwrap();
        }
    }
    text += " M2 'MARKER' 'INTEND'\nRHS\n";
    for (at, row) in model.rows.iter().enumerate() {
        writeln!(text, " RHS R{at} {}", row.rhs).unwrap();
    }
    text += "BOUNDS\n";
    for (column, hi) in model.hi.iter().enumerate() {
        writeln!(text, " UP BND C{column} {hi}").unwrap();
    }
    text + "ENDATA\n"
}

fn aux(model: &Model) -> String {
    let followers = model.leaders..model.hi.len();
    let lower: Vec<usize> = (0..model.rows.len()).filter(|at| model.rows[*at].lower).collect();
    let mut text = format!("N {}\nM {}\n", followers.len(), lower.len());
    for column in followers.clone() {
        writeln!(text, "LC {column}").unwrap();
    }
    for row in lower {
        writeln!(text, "LR {row}").unwrap();
    }
    for column in followers {
        writeln!(text, "LO {}", model.follower_cost[column]).unwrap();
    }
    text + "OS 1\n"
}

fn dot(coef: &[i64], z: &[i64]) -> i64 {
    coef.iter().zip(z).map(|(c, v)| c * v).sum()
}

/// All points of a box from zeros, in some order.
fn points(hi: &[i64]) -> Vec<Vec<i64>> {
    let mut all = vec![Vec::new()];
    for most in hi {
        all = all.iter().flat_map(|z| (0..=*most).map(|v| [z.as_slice(), &[v]].concat())).collect();
    }
    all
}

/// Whether a point is bilevel feasible, by the definition.
fn is_feasible(model: &Model, z: &[i64]) -> bool {
    let in_box = z.len() == model.hi.len() && z.iter().zip(&model.hi).all(|(v, h)| (0..=*h).contains(v));
    in_box
        && model.rows.iter().all(|row| dot(&row.coef, z) <= row.rhs)
        && points(&model.hi[model.leaders..]).iter().all(|y| {
            let other = [&z[..model.leaders], y].concat();
            let answers = model.rows.iter().all(|row| !row.lower || dot(&row.coef, &other) <= row.rhs);
            !answers || dot(&model.follower_cost, z) <= dot(&model.follower_cost, &other)
        })
}

/// The least cost of a bilevel feasible point, none where there is none.
pub fn best(model: &Model) -> Option<i64> {
    let all = points(&model.hi);
    let feasible = all.iter().filter(|z| is_feasible(model, z));
    feasible.map(|z| dot(&model.cost, z)).min()
}

fn ample(hi: &[i64]) -> String {
    (2 * hi.iter().map(|h| h + 1).product::<i64>() - 1).to_string()
}

impl Model {
    /// Budgets of nodes that always suffice: twice the points of a box less one, of all columns and of the follower's.
    pub fn budgets(&self) -> [String; 2] {
        [ample(&self.hi), ample(&self.hi[self.leaders..])]
    }

    /// Writes both texts to the present folder, as `s.mps` and `s.aux`.
    pub fn write(&self) {
        fs::write("s.mps", mps(self)).expect("a file to write");
        fs::write("s.aux", aux(self)).expect("a file to write");
    }
}

/// What is wrong with the report of an answer, if anything. The status is the exit status of the program.
pub fn wrong(model: &Model, best: Option<i64>, status: Option<i32>, text: &str) -> Option<String> {
    let Some(value) = best else {
        return (status != Some(1)).then(|| format!("status {status:?}, and there is no answer"));
    };
    if status != Some(0) {
        return Some(format!("status {status:?}, and the answer is {value}"));
    }
    let told = |line: &str| line.rsplit(' ').next().and_then(|last| last.parse().ok());
    let z: Vec<i64> = text.lines().filter(|line| line.starts_with("column ")).filter_map(told).collect();
    if !is_feasible(model, &z) || dot(&model.cost, &z) != value || !text.contains(&format!("value {value}\n")) {
        return Some(format!("the answer is {value}, and the program says\n{text}"));
    }
    None
}
