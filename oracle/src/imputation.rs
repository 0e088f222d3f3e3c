//! Request #104 written anew from its words: for every missing cell both sides are searched, cell by cell. It shares nothing with the crate `series`.
use crate::bits::bits32;
use crate::random::Random;
use crate::words::{singles, wholes, word};

#[derive(Clone, Copy, PartialEq)]
pub enum Rule {
    Fixed,
    Previous,
    Next,
    Linear,
}

pub const RULES: [Rule; 4] = [Rule::Fixed, Rule::Previous, Rule::Next, Rule::Linear];

/// What is lent to one call.
#[derive(Clone)]
pub struct Given {
    pub rule: Rule,
    pub d: u64,
    pub cells: Vec<f32>,
    pub marks: Vec<u8>,
    pub fixed: Vec<f32>,
}

/// The number of the row, 0 for none: 2, 4, 10, 21, 11.
pub fn row(g: &Given) -> u64 {
    if g.d == 0 {
        return 2;
    }
    if g.d > 16 {
        return 4;
    }
    let d = g.d as usize;
    let whole = g.cells.chunks(d).all(|reading| reading.len() == d);
    if !whole || g.marks.len() != g.cells.len() || g.fixed.len() != d {
        return 10;
    }
    if g.cells.chunks(d).count() > 2000 || g.marks.iter().any(|m| ![0, 1].contains(m)) {
        return 21;
    }
    let present = g.cells.iter().zip(&g.marks).filter(|(_, m)| **m == 0).map(|(x, _)| x);
    if present.chain(&g.fixed).any(|x| !x.is_finite()) {
        return 11;
    }
    0
}

/// What the cells are after the call.
pub fn filled(g: &Given) -> Vec<f32> {
    if row(g) != 0 {
        return g.cells.clone();
    }
    let d = g.d as usize;
    let n = g.cells.len() / d;
    // reading by reading, a cell that is missing being none
    let cell = |i: usize, c: usize| (g.marks[i * d + c] == 0).then(|| g.cells[i * d + c]);
    let mut answer = Vec::new();
    for i in 0..n {
        for c in 0..d {
            let previous = (0..i).rev().find_map(|j| cell(j, c).map(|x| (j, x)));
            let next = (i + 1..n).find_map(|j| cell(j, c).map(|x| (j, x)));
            answer.push(cell(i, c).unwrap_or_else(|| value(g.rule, previous, next, i, g.fixed[c])));
        }
    }
    answer
}

fn value(rule: Rule, previous: Option<(usize, f32)>, next: Option<(usize, f32)>, i: usize, fixed: f32) -> f32 {
    match (rule, previous, next) {
        (Rule::Previous, Some((_, a)), _) => a,
        (Rule::Next, _, Some((_, b))) => b,
        (Rule::Linear, Some((j, a)), Some((k, b))) => {
            let (p, q) = ((i - j) as f32, (k - j) as f32);
            let share = p / q;
            let step = (b - a) * share;
            a + step
        }
        (Rule::Linear, Some((_, a)), None) => a,
        (Rule::Linear, None, Some((_, b))) => b,
        _ => fixed,
    }
}

// ---- cases

/// A cell's value: most such as a control unit gives, some whose difference overflows, signed zeros, subnormals.
fn number(r: &mut Random) -> f32 {
    match r.below(10) {
        0 => r.pick(&[f32::MAX, f32::MIN, 3.0e38, -3.0e38]),
        1 => r.pick(&[0.0, -0.0]),
        2 => r.pick(&[1.0e-45, -1.0e-45, 1.0e-40, -1.0e-40, f32::MIN_POSITIVE]),
        _ => r.value32(),
    }
}

/// Marks of n readings, channel by channel: gaps of every kind.
fn marks(r: &mut Random, n: usize, d: usize) -> Vec<u8> {
    let mut marks = vec![0u8; n * d];
    for c in 0..d {
        let kind = r.below(8);
        let cut = r.below(n as u64 + 1) as usize;
        for i in 0..n {
            let missing = match kind {
                0 => true,
                1 => false,
                2 => i < cut,
                3 => i >= cut,
                4 => i != cut,
                5 => i > 0 && i + 1 < n,
                _ => r.once_in(2),
            };
            marks[i * d + c] = missing as u8;
        }
    }
    marks
}

fn case(r: &mut Random, rule: Rule, d: usize, n: usize) -> Given {
    let marks = marks(r, n, d);
    // a missing cell may hold anything
    let cells = marks.iter().map(|m| if *m == 0 { number(r) } else { r.wild32() }).collect();
    Given { rule, d: d as u64, cells, marks, fixed: r.list32(d, number) }
}

/// A case with one fault or two, so that the order of the rows shows.
fn fault(r: &mut Random, mut g: Given) -> Given {
    for _ in 0..r.from(1, 2) {
        match r.below(9) {
            0 => g.d = r.pick(&[0, 17, 256, 272, 1 << 32, u64::MAX]),
            1 => g.d = g.d.wrapping_add(1),
            2 => g.cells.truncate(g.cells.len().saturating_sub(1)),
            3 => g.marks.push(1),
            4 => g.fixed.push(0.0),
            5 => g.fixed.truncate(g.fixed.len().saturating_sub(1)),
            6 if !g.marks.is_empty() => {
                let k = r.below(g.marks.len() as u64) as usize;
                g.marks[k] = r.pick(&[2, 3, 128, 255]);
            }
            7 if !g.cells.is_empty() => {
                let k = r.below(g.cells.len() as u64) as usize;
                g.cells[k] = r.pick(&[f32::INFINITY, f32::NEG_INFINITY, f32::NAN]);
            }
            _ => {
                if let Some(x) = g.fixed.last_mut() {
                    *x = r.pick(&[f32::INFINITY, f32::NEG_INFINITY, f32::NAN]);
                }
            }
        }
    }
    g
}

/// One channel of five readings by its marks, with a, b and c in the readings 0, 2 and 4.
fn channel(rule: Rule, marks: [u8; 5], a: f32, b: f32, c: f32, fixed: f32) -> Given {
    Given { rule, d: 1, cells: vec![a, f32::NAN, b, f32::NAN, c], marks: marks.to_vec(), fixed: vec![fixed] }
}

/// What every rule must meet: rows 11 and 21 with what hides or is hidden by them, gaps of every place, and cells at the ends of the range.
fn chosen(rule: Rule) -> Vec<Given> {
    let mut all = vec![];
    let sound = channel(rule, [0, 1, 0, 1, 0], 1.0, 5.0, 2.0, 9.0);
    for x in [f32::INFINITY, f32::NEG_INFINITY, f32::NAN] {
        // a present cell, a missing one, the fixed value, the fixed value of no readings
        all.push(channel(rule, [0, 1, 0, 1, 0], 1.0, x, 2.0, 9.0));
        all.push(channel(rule, [0, 1, 1, 1, 0], 1.0, x, 2.0, 9.0));
        all.push(channel(rule, [0, 1, 0, 1, 0], 1.0, 5.0, 2.0, x));
        all.push(Given { rule, d: 2, cells: vec![], marks: vec![], fixed: vec![1.0, x] });
    }
    for mark in [2, 3, 128, 255] {
        // the mark alone, before a cell that is not finite, behind unequal shapes
        all.push(channel(rule, [0, 1, mark, 1, 0], 1.0, 5.0, 2.0, 9.0));
        all.push(channel(rule, [0, 1, 0, 1, mark], f32::NAN, 5.0, 2.0, f32::INFINITY));
        all.push(Given { fixed: vec![], ..channel(rule, [mark, 1, 0, 1, 0], 1.0, 5.0, 2.0, 9.0) });
    }
    for d in [0, 16, 17, 1 << 32, (1 << 32) + 1, u64::MAX] {
        all.push(Given { d, ..sound.clone() });
        all.push(Given { rule, d, cells: vec![], marks: vec![], fixed: vec![0.5; 16] });
    }
    let pairs = [
        (f32::MAX, f32::MIN),
        (f32::MIN, f32::MAX),
        (3.0e38, -1.0e38),
        (-0.0, -0.0),
        (0.0, -0.0),
        (1.0e-45, -1.0e-45),
        (1.0e-40, 3.0e-45),
        (-1.0e-45, f32::MIN_POSITIVE),
    ];
    for (a, b) in pairs {
        // between two, before the first, behind the last, two gaps, the whole channel
        for marks in [[0, 1, 1, 1, 0], [1, 1, 0, 0, 0], [0, 1, 1, 1, 1], [0, 1, 0, 1, 0], [1, 1, 1, 1, 1]] {
            all.push(channel(rule, marks, a, b, b, -a));
        }
    }
    for mark in [0, 1] {
        all.push(Given { rule, d: 1, cells: vec![-0.0], marks: vec![mark], fixed: vec![1.0e-45] });
    }
    all
}

/// n readings, in each channel the first and the last present and zeros in the cells between, every 500th of which is present too.
fn long(rule: Rule, d: usize, n: usize, ends: [f32; 2]) -> Given {
    let marks = (0..n * d).map(|k| (k / d % 500 != 0 && k / d != n - 1) as u8).collect();
    let mut g = Given { rule, d: d as u64, cells: vec![0.0; n * d], marks, fixed: vec![-0.0; d] };
    g.cells[..d].fill(ends[0]);
    g.cells[(n - 1) * d..].fill(ends[1]);
    g
}

/// The cases of a seed: small ones of every rule, one in six of them with faults; the chosen ones; 20 readings of 16 channels; 2,000 and 2,001 readings.
pub fn cases(seed: u64, count: usize) -> Vec<Given> {
    let mut r = Random::new(seed);
    let mut all = Vec::new();
    for k in 0..count {
        let d = if r.once_in(4) { r.from(1, 16) } else { r.from(1, 3) } as usize;
        let n = r.pick(&[0, 1, 1, 2, 3, 5, 8, 13]);
        let g = case(&mut r, RULES[k % 4], d, n);
        all.push(if r.once_in(6) { fault(&mut r, g) } else { g });
    }
    for rule in RULES {
        all.extend(chosen(rule));
        all.push(case(&mut r, rule, 16, 20));
        all.push(long(rule, 1, 2000, [-7.25, 1.0e6]));
        all.push(long(rule, 1, 2001, [-7.25, 1.0e6]));
    }
    all.push(long(Rule::Linear, 2, 2000, [f32::MAX, f32::MIN]));
    all.push(long(Rule::Next, 16, 2000, [1.0e-45, 0.0]));
    // 21 before 11
    let mut over = long(Rule::Linear, 1, 2001, [0.0, 0.0]);
    over.fixed[0] = f32::NAN;
    all.push(over);
    all
}

/// A line: the rule's number, d, the cells, the marks, the fixed values; then the row, and the cells after the call.
fn line(g: &Given, row: u64, after: &[f32]) -> String {
    let mut line = String::new();
    word(&mut line, RULES.iter().position(|x| *x == g.rule).unwrap() as u64);
    word(&mut line, g.d);
    singles(&mut line, &g.cells);
    wholes(&mut line, &g.marks.iter().map(|m| *m as u64).collect::<Vec<_>>());
    singles(&mut line, &g.fixed);
    word(&mut line, row);
    for x in after {
        word(&mut line, bits32(*x) as u64);
    }
    line.pop();
    line + "\n"
}

/// The cases, then one whose answer is wrong by purpose: the cell that PREVIOUS fills has the value behind it.
pub fn file(seed: u64, count: usize) -> String {
    let mut text = String::new();
    for g in cases(seed, count) {
        text += &line(&g, row(&g), &filled(&g));
    }
    let g = channel(Rule::Previous, [0, 1, 0, 0, 0], 1.0, 5.0, 2.0, 9.0);
    let g = Given { cells: vec![1.0, 3.0, 5.0, 6.0, 2.0], ..g };
    text + &line(&g, 0, &[1.0, 5.0, 5.0, 6.0, 2.0])
}

#[cfg(test)]
mod tests {
    use super::*;

    #[test]
    fn every_row_by_every_rule() {
        for rule in RULES {
            let rows: std::collections::BTreeSet<u64> = chosen(rule).iter().map(row).collect();
            assert_eq!(rows.into_iter().collect::<Vec<u64>>(), [0, 2, 4, 10, 11, 21]);
        }
    }
}
