//! The calls that take no preprocessor, on the library and by the oracle: random cases, refusals among them.
use oracle::alignment::{align as paired, Call};
use oracle::bits::{all32, all64};
use oracle::common::deviation::Deviation;
use oracle::digits::digits_tried;
use oracle::imputation::{cases, filled, row, Given, RULES};
use oracle::random::Random;
use oracle::stranding::by_table;
use veerycouch::{align_into, impute_by_number, sqrt, sqrt_digits, strandings, Readings, Refusal, Statistic};

/// One more than the last row.
pub const ROWS: usize = 29;

/// Cases by their row, and how many differed.
#[derive(Default)]
pub struct Tally {
    pub rows: [u64; ROWS],
    pub differences: u64,
}

impl Tally {
    fn case(&mut self, row: u64, agree: bool, what: impl Fn() -> String) {
        self.rows[row as usize] += 1;
        if !agree {
            self.differences += 1;
            if self.differences <= 5 {
                println!("{}", what());
            }
        }
    }
}

fn answered(row: u64) -> Result<(), Refusal> {
    if row == 0 {
        Ok(())
    } else {
        Err(Refusal(row))
    }
}

// ---- impute

/// A number of 64 bits that names no rule.
fn no_rule(r: &mut Random) -> u64 {
    r.pick(&[4, 5, 255, 256, 1 << 32, (1 << 32) + 1, u64::MAX, u64::MAX - 3])
}

fn impute_one(t: &mut Tally, number: u64, g: &Given, row: u64, after: &[f32]) {
    let mut cells = g.cells.clone();
    let given = impute_by_number(number, g.d, &mut cells, &g.marks, &g.fixed);
    let agree = given == answered(row) && all32(&cells) == all32(after);
    t.case(row, agree, || format!("impute: rule {number}, d {}, {given:?} for {row}: {:?} {:?} {:?}", g.d, g.cells, g.marks, g.fixed));
}

/// The oracle's cases; one in ten also with a number that names no rule, which 19 refuses whatever else is wrong.
pub fn impute(seed: u64, count: u64) -> Tally {
    let mut t = Tally::default();
    let mut r = Random::new(seed ^ 0x104);
    for g in cases(seed, count as usize) {
        let number = RULES.iter().position(|&x| x == g.rule).unwrap() as u64;
        impute_one(&mut t, number, &g, row(&g), &filled(&g));
        if r.once_in(10) {
            impute_one(&mut t, no_rule(&mut r), &g, 19, &g.cells);
        }
    }
    t
}

// ---- align

/// Times that do not fall, near those of `beside`.
fn times(r: &mut Random, beside: &[u64]) -> Vec<u64> {
    let mut list = Vec::new();
    if beside.is_empty() || r.once_in(4) {
        let (n, step) = (r.from(0, 12), r.pick(&[0, 1, 4, 30]));
        let mut at = r.pick(&[0, 3, 1_700_000_000_000, u64::MAX - 100]);
        for _ in 0..n {
            at = at.saturating_add(r.from(0, step));
            list.push(at);
        }
        return list;
    }
    for &t in beside {
        for _ in 0..r.pick(&[0, 1, 1, 1, 2]) {
            let by = r.from(0, 6);
            list.push(if r.once_in(2) { t.saturating_add(by) } else { t.saturating_sub(by) });
        }
    }
    list.sort();
    list
}

/// Cells that lie near those of `beside`, or anything.
fn cells(r: &mut Random, n: usize, beside: &[f32]) -> Vec<f32> {
    let near = r.once_in(2);
    (0..n).map(|k| if near && k < beside.len() && !r.once_in(5) { beside[k] } else { r.wild32() }).collect()
}

/// Lists of one shape, with outputs of room for any answer.
fn case(r: &mut Random) -> Call {
    let d = r.pick(&[1, 1, 2, 3, 5, 16]);
    let left_times = times(r, &[]);
    let right_times = times(r, &left_times);
    let left = cells(r, left_times.len() * d as usize, &[]);
    let right = cells(r, right_times.len() * d as usize, &left);
    let tolerance = r.pick(&[0, 0, 1, 2, 5, 40, u64::MAX]);
    let most = left_times.len().min(right_times.len());
    let outs = [most + r.from(0, 2) as usize, most + r.from(0, 2) as usize, d as usize + r.from(0, 2) as usize];
    Call { d, tolerance, left, left_times, right, right_times, outs }
}

/// A fault in one place.
fn fault(r: &mut Random, c: &mut Call) {
    let (times, cells) = if r.once_in(2) { (&mut c.left_times, &mut c.left) } else { (&mut c.right_times, &mut c.right) };
    match r.below(6) {
        0 => c.d = r.pick(&[0, 17, 256, 1 << 32, (1 << 32) + 1, u64::MAX]),
        1 => cells.push(0.0),
        2 => drop(times.pop()),
        3 if times.len() > 1 => {
            let k = r.from(1, times.len() as u64 - 1) as usize;
            times[k] = times[k - 1].saturating_sub(r.from(0, 2));
        }
        4 if r.once_in(20) => {
            let last = times.last().copied().unwrap_or(0);
            times.resize(r.from(4095, 4098) as usize, last);
            cells.resize(times.len() * (c.d.min(16) as usize), 1.0);
        }
        _ => {
            let k = r.below(3) as usize;
            c.outs[k] = r.below(c.outs[k] as u64 + 1) as usize;
        }
    }
}

const OLD: u64 = 0x4b5a_1234_5678_9abc;
const OLD32: u32 = 0x4b5a_1234;

fn align_one(t: &mut Tally, c: &Call) {
    let answer = paired(c);
    let (mut lefts, mut rights) = (vec![OLD; c.outs[0]], vec![OLD; c.outs[1]]);
    let mut gaps = vec![f32::from_bits(OLD32); c.outs[2]];
    let (left, right) = (Readings { cells: &c.left, times: &c.left_times }, Readings { cells: &c.right, times: &c.right_times });
    let given = align_into(c.d, left, right, c.tolerance, &mut lefts, &mut rights, &mut gaps);
    // what the outputs must hold: the answer, and behind it what they held
    let behind = |answer: Vec<u64>, n: usize| -> Vec<u64> { answer.into_iter().chain(std::iter::repeat(OLD)).take(n).collect() };
    let sizes: Vec<u32> = all32(&answer.gaps).into_iter().chain(std::iter::repeat(OLD32)).take(c.outs[2]).collect();
    let agree = given == answered(answer.row).map(|()| answer.pairs.len())
        && lefts == behind(answer.pairs.iter().map(|p| p.0).collect(), c.outs[0])
        && rights == behind(answer.pairs.iter().map(|p| p.1).collect(), c.outs[1])
        && all32(&gaps) == sizes;
    t.case(answer.row, agree, || {
        format!("align: d {}, tolerance {}, {given:?} for {answer:?}: {:?} {:?} {:?} {:?} {:?}", c.d, c.tolerance, c.left, c.left_times, c.right, c.right_times, c.outs)
    });
}

pub fn align(seed: u64, count: u64) -> Tally {
    let mut t = Tally::default();
    for k in 0..count {
        let mut r = Random::new((seed ^ 0x108).wrapping_mul(0x1_0000_0001).wrapping_add(k));
        let mut c = case(&mut r);
        if r.once_in(2) {
            for _ in 0..r.from(1, 2) {
                fault(&mut r, &mut c);
            }
        }
        align_one(&mut t, &c);
    }
    t
}

// ---- strandings

fn number(r: &mut Random) -> u64 {
    match r.below(8) {
        0 => r.pick(&[0, 21, 256 + 1, (1 << 32) + 1, (1 << 63) + 20, u64::MAX]),
        _ => r.from(1, 20),
    }
}

pub fn stranding(seed: u64, count: u64) -> Tally {
    let mut t = Tally::default();
    let mut r = Random::new(seed ^ 0x110);
    let in_range = |n: u64| (1..=20).contains(&n);
    // each pair of the range and of its borders, then any
    let mut pairs: Vec<(u64, u64)> = (0..=21).flat_map(|start| (0..=21).map(move |calls| (start, calls))).collect();
    while (pairs.len() as u64) < count {
        pairs.push((number(&mut r), number(&mut r)));
    }
    for (start, calls) in pairs {
        let given = strandings(start, calls).map(|s| (s.waiting, s.drained, s.stranded));
        let accepted = in_range(start) && in_range(calls);
        let expected = if accepted {
            let c = by_table(start, calls);
            Ok((c.waiting, c.drained, c.stranded))
        } else {
            Err(Refusal(25))
        };
        t.case(if accepted { 0 } else { 25 }, given == expected, || format!("strandings {start} {calls}: {given:?} for {expected:?}"));
    }
    t
}

// ---- corrected: the Rust has no such call, so its answer is the Rust's statistic of the changed list

const READING: f64 = 65_536.0;

fn reading(r: &mut Random) -> f32 {
    match r.below(8) {
        0 => r.pick(&[0.0, -0.0, 65_536.0, -65_536.0, 1.0, -1.0]),
        1 | 2 => r.from(0, 131_072) as f32 - 65_536.0,
        _ => r.from(0, 40) as f32 - 20.0,
    }
}

fn fed(discount: f64, readings: &[f32]) -> Deviation {
    let mut s = Deviation::new(discount).unwrap();
    readings.iter().for_each(|&x| s.update(x as f64));
    s
}

fn statistic(s: &Deviation) -> Statistic {
    Statistic { discount: s.discount, weight: s.weight, sum: s.sum, sum_squared: s.sum_squared, count: s.count as u64 }
}

/// Row 26, from the request's words.
fn row26(s: &Statistic, wrong: f32, right: f32) -> u64 {
    let whole = |x: f64, limit: f64| x.is_finite() && x == x.trunc() && x.abs() <= limit;
    let n = s.count as f64;
    let kept = s.discount == 0.0
        && whole(wrong as f64, READING)
        && whole(right as f64, READING)
        && (1..=1_048_576).contains(&s.count)
        && s.weight == n
        && whole(s.sum, READING * n)
        && whole(s.sum_squared, READING * READING * n)
        && s.sum_squared >= 0.0;
    if kept {
        0
    } else {
        26
    }
}

/// One number of the statistic, or a reading, that may not be.
fn spoiled(r: &mut Random, s: &mut Statistic, wrong: &mut f32, right: &mut f32) {
    let odd = r.pick(&[0.5, -1.0, f64::NAN, f64::INFINITY, 1.0e300]);
    match r.below(7) {
        0 => s.discount = r.pick(&[0.1, 5.0e-324, -0.1, 1.0, f64::NAN]),
        1 => s.weight += odd,
        2 => s.sum = odd,
        3 => s.sum_squared = odd,
        4 => s.count = r.pick(&[0, s.count + 1, s.count + (1 << 32), 1_048_577, u64::MAX]),
        5 => *wrong = r.pick(&[0.5, 65_537.0, -65_537.0, f32::NAN, f32::INFINITY, 1.0e-45]),
        _ => *right = r.pick(&[0.5, 65_537.0, -65_537.0, f32::NAN, f32::NEG_INFINITY, 3.0e38]),
    }
}

/// A list and one of its places; one in three with a fault. A fault that row 26 does not meet leaves a statistic that is no list's, and is passed over.
pub fn corrected(seed: u64, count: u64) -> Tally {
    let mut t = Tally::default();
    for k in 0..count {
        let mut r = Random::new((seed ^ 0x111).wrapping_mul(0x1_0000_0001).wrapping_add(k));
        let n = if r.once_in(50) { r.from(1, 3000) } else { r.from(1, 12) } as usize;
        let discount = r.pick(&[0.0, 0.0, -0.0]);
        let mut readings: Vec<f32> = (0..n).map(|_| reading(&mut r)).collect();
        let place = r.below(n as u64) as usize;
        let (mut wrong, mut right) = (readings[place], reading(&mut r));
        let mut s = statistic(&fed(discount, &readings));
        let faulty = r.once_in(3);
        if faulty {
            spoiled(&mut r, &mut s, &mut wrong, &mut right);
        }
        let mut row = row26(&s, wrong, right);
        if faulty && row == 0 {
            continue;
        }
        readings[place] = right;
        let room = r.pick(&[2, 3, 3, 4, 5]);
        if row == 0 && room < 3 {
            row = 20;
        }
        let mut output = vec![f64::from_bits(OLD); room];
        let mut expected = output.clone();
        if row == 0 {
            let after = fed(discount, &readings);
            expected[..3].copy_from_slice(&[after.weight, after.sum, after.sum_squared]);
        }
        let given = s.corrected_into(wrong, right, &mut output);
        let agree = given == answered(row) && all64(&output) == all64(&expected);
        t.case(row, agree, || format!("corrected: {s:?} {wrong} {right}: {given:?} {output:?} for {row} {expected:?}"));
    }
    t
}

// ---- sqrt

/// The pattern of a square of an odd number of 1 to 27 digits at any exponent, or one beside it.
fn near_square(r: &mut Random) -> u64 {
    let top = r.from(1, 27);
    let q = (r.below(1 << (top - 1)) | 1 << (top - 1) | 1).min(94_906_265);
    let b = ((q * q) as f64).to_bits();
    let moved = if r.once_in(4) { q * q << r.below((q * q).leading_zeros() as u64 - 10) } else { (b - (511 << 52)) + (r.below(1400) << 52) };
    moved + r.pick(&[1, 1, 1, 0, 2]) - 1
}

/// Roots of any pattern, of squares and what lies beside them, subnormals among them, and of powers of two: the bits of the machine's root, and the digits that the oracle tries.
pub fn roots(seed: u64, count: u64) -> Tally {
    let mut t = Tally::default();
    let mut r = Random::new(seed ^ 0x109);
    for _ in 0..count {
        let b = match r.below(6) {
            0 => r.next(),
            1 => r.next() >> r.from(12, 63),
            2 => r.from(0, 2047) << 52 | r.pick(&[0, 0, 1]),
            3 => r.pick(&[0, 1 << 63, 1, 1 << 63 | 1, 0x7ff << 52, 0xfff << 52, 0x7ff8 << 48, 0x7fef_ffff_ffff_ffff]),
            _ => near_square(&mut r),
        };
        let x = f64::from_bits(b);
        let (root, digits) = (sqrt(x), sqrt_digits(x));
        let agree = all64(&[root]) == all64(&[x.sqrt()]) && digits == digits_tried(x);
        t.case(0, agree, || format!("sqrt: {b:016x}: {root:e} of {:e}, {digits} digits of {}", x.sqrt(), digits_tried(x)));
    }
    t
}
