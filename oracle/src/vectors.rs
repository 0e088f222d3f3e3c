//! Vector files: one call a line, its arguments, then the Rust's answer. docs/VECTORS.md states each format.
pub mod gap;

use crate::bits::{bits32, bits64};
use crate::calls::*;
use crate::common::deviation::Deviation;
use crate::common::rangevector::RangeVector;
use crate::counts::{feed_channels, held, update, RUST_COUNT};
use crate::random::{bad_settings, expected_codes, gapped, settings, Calls, Random, Sizes};
use crate::reference::{rust_method, Reference};
use crate::snapshot::{read, take_up, Refused, Snapshot, ROOMY};
use crate::texts;
use crate::trcf::transformer::WeightedTransformer;

/// A line in the making: fields parted by single blanks.
#[derive(Default)]
pub struct Line(String);

impl Line {
    fn new(name: &str) -> Line {
        Line(name.to_string())
    }

    fn field(mut self, text: &str) -> Line {
        self.0 += " ";
        self.0 += text;
        self
    }

    fn whole(self, n: u64) -> Line {
        self.field(&n.to_string())
    }

    fn double(self, x: f64) -> Line {
        self.field(&format!("{:016x}", bits64(x)))
    }

    fn single(self, x: f32) -> Line {
        self.field(&format!("{:08x}", bits32(x)))
    }

    /// The length, then the elements.
    fn list<T: Element>(self, list: &[T]) -> Line {
        list.iter().fold(self.whole(list.len() as u64), |line, x| line.field(&x.hex()))
    }

    /// The number of codes, then the codes in decimal.
    fn codes(self, codes: &[u16]) -> Line {
        codes.iter().fold(self.whole(codes.len() as u64), |line, &c| line.whole(c as u64))
    }

    /// 0, or 1 and the list.
    fn option(self, list: &Option<Vec<f32>>) -> Line {
        match list {
            None => self.whole(0),
            Some(list) => self.whole(1).list(list),
        }
    }

    fn end(self, out: &mut String) {
        *out += &self.0;
        *out += "\n";
    }
}

/// A float, or its canonical bits.
pub trait Element: Copy {
    fn hex(&self) -> String;
}

impl Element for f32 {
    fn hex(&self) -> String {
        format!("{:08x}", bits32(*self))
    }
}

impl Element for f64 {
    fn hex(&self) -> String {
        format!("{:016x}", bits64(*self))
    }
}

impl Element for u32 {
    fn hex(&self) -> String {
        format!("{self:08x}")
    }
}

impl Element for u64 {
    fn hex(&self) -> String {
        format!("{self:016x}")
    }
}

// deviation

fn deviation_line(line: Line, row: u8, s: &Deviation, out: &mut String) {
    counted_line(line, row, s, s.count as u64, out);
}

/// The same of a statistic whose count may be past the Rust's.
fn counted_line(line: Line, row: u8, s: &Deviation, count: u64, out: &mut String) {
    line.whole(row as u64)
        .double(s.discount)
        .double(s.weight)
        .double(s.sum)
        .double(s.sum_squared)
        .whole(count)
        .double(s.mean())
        .double(s.deviation())
        .whole(s.is_empty() as u64)
        .end(out);
}

const BAD_DISCOUNTS: [f64; 8] = [1.0, -0.001, -5.0e-324, f64::NAN, f64::INFINITY, f64::NEG_INFINITY, 1.000_000_000_000_000_2, 2.0];
const LARGE_COUNTS: [u64; 5] = [RUST_COUNT + 1, RUST_COUNT + 2, 3_000_000_000, u32::MAX as u64, RUST_COUNT + 3];
const BAD_COUNTS: [u64; 6] = [COUNT_LIMIT + 1, COUNT_LIMIT + 2, COUNT_LIMIT + 3, 1 << 63, u64::MAX, 10_000_000_000_000_000];

fn discount(r: &mut Random) -> f64 {
    if r.once_in(6) {
        r.pick(&BAD_DISCOUNTS)
    } else {
        r.decay()
    }
}

fn count(r: &mut Random) -> u64 {
    match r.below(5) {
        0 => r.pick(&LARGE_COUNTS),
        1 => RUST_COUNT - r.below(4),
        2 => r.below(RUST_COUNT),
        _ => r.below(40),
    }
}

fn row6(discount: f64) -> u8 {
    if discount >= 0.0 && discount < 1.0 {
        0
    } else {
        6
    }
}

fn row18(count: u64) -> u8 {
    if count > COUNT_LIMIT {
        18
    } else {
        0
    }
}

fn deviation(r: &mut Random, lines: u64) -> String {
    let mut out = String::new();
    let (mut s, mut n) = (Deviation::new(0.0).unwrap(), 0);
    let mut tame = true;
    for _ in 0..lines {
        match r.below(40) {
            0 | 1 => {
                let d = discount(r);
                tame = r.once_in(2);
                assert_eq!(Deviation::new(d).is_ok(), row6(d) == 0);
                if let Ok(new) = Deviation::new(d) {
                    (s, n) = (new, 0);
                }
                counted_line(Line::new("n").double(d), row6(d), &s, n, &mut out);
            }
            2 | 3 => {
                let (d, w, a, q, c) = (discount(r), r.wild64(), r.wild64(), r.wild64(), count(r));
                let row = if row6(d) != 0 { 6 } else { row18(c) };
                if row == 0 {
                    (s, n) = (Deviation::create(d, w, a, q, held(c)), c);
                }
                counted_line(Line::new("c").double(d).double(w).double(a).double(q).whole(c), row, &s, n, &mut out);
            }
            4 => {
                let c = count(r);
                if row18(c) == 0 {
                    s.set_count(held(c));
                    n = c;
                }
                counted_line(Line::new("k").whole(c), row18(c), &s, n, &mut out);
            }
            5 => {
                let d = discount(r);
                s.set_discount(d);
                counted_line(Line::new("d").double(d), 0, &s, n, &mut out);
            }
            6 => {
                s.reset();
                n = 0;
                deviation_line(Line::new("r"), 0, &s, &mut out);
            }
            7 => {
                (s, n) = (Deviation::default(), 0);
                deviation_line(Line::new("e"), 0, &s, &mut out);
            }
            _ => {
                let score = if tame && !r.once_in(40) { r.from(0, 400) as f64 / 8.0 - 20.0 } else { r.wild64() };
                n += fed_line(&mut s, n, score, &mut out);
            }
        }
    }
    corrections(r, &mut out);
    first_factors(&mut out);
    far_counts(r, &mut out);
    out
}

/// Updates at the ends of the table of factors, where the code cuts it, and past it, with discounts on both sides of 1/(count + 2), where the factor turns from the
/// one number to the other (request 103).
fn first_factors(out: &mut String) {
    for count in [0, 1, 249, 250, 499, 500, 749, 750, 998, 999, 1_000, 1_001] {
        let edge = 1.0 / (count + 2) as f64;
        let (below, above) = (f64::from_bits(edge.to_bits() - 1), f64::from_bits(edge.to_bits() + 1));
        for discount in [0.0, edge / 2.0, below, edge, above, edge * 1.5] {
            let mut s = Deviation::create(discount, 3.25, -7.5, 41.0, held(count));
            let line = Line::new("c").double(discount).double(3.25).double(-7.5).double(41.0).whole(count);
            counted_line(line, 0, &s, count, out);
            fed_line(&mut s, count, 2.5, out);
        }
    }
}

/// An update, and by how much it raises the count: 0 where row 18 refuses it.
fn fed_line(s: &mut Deviation, count: u64, score: f64, out: &mut String) -> u64 {
    let row = row18(count + 1);
    let fed = (row == 0) as u64;
    if row == 0 {
        update(s, count, score);
    }
    counted_line(Line::new("u").double(score), row, s, count + fed, out);
    fed
}

/// Created and set at counts around the Rust's last one and around the limit, and fed across both.
fn far_counts(r: &mut Random, out: &mut String) {
    for n in 0..48 {
        let given = if n < 12 { [RUST_COUNT - 3, COUNT_LIMIT - 3][n % 2] + n as u64 / 4 } else { texts::far_count(r) };
        let discount = texts::far_decay(r, given);
        let mut s = Deviation::create(discount, r.from(0, 1 << 40) as f64 / 8.0, r.from(0, 400) as f64 / 8.0, r.from(0, 1 << 50) as f64 / 3.0, held(given));
        let line = Line::new("c").double(discount).double(s.weight).double(s.sum).double(s.sum_squared).whole(given);
        counted_line(line, 0, &s, given, out);
        let mut count = given;
        for _ in 0..5 {
            let score = r.from(0, 400) as f64 / 8.0 - 20.0;
            count += fed_line(&mut s, count, score, out);
        }
        if n % 3 == 0 {
            let bad = r.pick(&BAD_COUNTS);
            let line = Line::new("c").double(discount).double(1.0).double(1.0).double(1.0).whole(bad);
            counted_line(line, 18, &s, count, out);
            counted_line(Line::new("k").whole(bad), 18, &s, count, out);
            count = texts::far_count(r);
            s.set_count(held(count));
            counted_line(Line::new("k").whole(count), 0, &s, count, out);
            fed_line(&mut s, count, 0.1, out);
        }
    }
}

// corrected: the Rust has no such function, so the answer is the Rust's statistic of the changed list, and where no list made the statistic the written rule

/// A reading that may be put right is a whole number of at most this size, of a list of at most so many.
const READING_LIMIT: f64 = 65_536.0;
const LENGTH_LIMIT: u64 = 1_048_576;

fn row26(s: &Deviation, wrong: f32, right: f32) -> u8 {
    let whole = |x: f64, limit: f64| x.is_finite() && x == x.trunc() && x.abs() <= limit;
    let count = s.count as f64;
    let kept = s.discount == 0.0
        && whole(wrong as f64, READING_LIMIT)
        && whole(right as f64, READING_LIMIT)
        && 1.0 <= count
        && count <= LENGTH_LIMIT as f64
        && s.weight == count
        && whole(s.sum, READING_LIMIT * count)
        && whole(s.sum_squared, READING_LIMIT * READING_LIMIT * count)
        && s.sum_squared >= 0.0;
    if kept {
        0
    } else {
        26
    }
}

/// The statistic of a list, from the Rust's own updates.
fn fed(discount: f64, readings: &[f32]) -> Deviation {
    let mut s = Deviation::new(discount).unwrap();
    for &x in readings {
        s.update(x as f64);
    }
    s
}

fn create_line(s: &Deviation, out: &mut String) {
    let line = Line::new("c").double(s.discount).double(s.weight).double(s.sum).double(s.sum_squared).whole(s.count as u64);
    deviation_line(line, 0, s, out);
}

/// One reading of a list put right, and back again: both answers are the Rust's.
fn correction(discount: f64, readings: &[f32], place: usize, right: f32, out: &mut String) {
    let wrong = readings[place];
    let mut changed = readings.to_vec();
    changed[place] = right;
    let (old, new) = (fed(discount, readings), fed(discount, &changed));
    assert_eq!((row26(&old, wrong, right), row26(&new, right, wrong)), (0, 0));
    deviation_line(Line::new("o").single(wrong).single(right), 0, &new, out);
    deviation_line(Line::new("o").single(right).single(wrong), 0, &old, out);
}

fn whole_reading(r: &mut Random) -> f32 {
    match r.below(8) {
        0 => r.pick(&[0.0, -0.0, 65_536.0, -65_536.0, 1.0, -1.0]),
        1 | 2 => r.from(0, 131_072) as f32 - 65_536.0,
        _ => r.from(0, 40) as f32 - 20.0,
    }
}

/// Every place of short lists, fed reading by reading.
fn short_corrections(r: &mut Random, out: &mut String) {
    for length in [1, 1, 2, 2, 3, 3, 4, 5, 6] {
        let discount = r.pick(&[0.0, 0.0, -0.0]);
        let readings: Vec<f32> = (0..length).map(|_| whole_reading(r)).collect();
        deviation_line(Line::new("n").double(discount), 0, &fed(discount, &[]), out);
        for n in 0..length {
            deviation_line(Line::new("u").double(readings[n] as f64), 0, &fed(discount, &readings[..n + 1]), out);
        }
        for place in 0..length {
            for right in [whole_reading(r), 65_536.0, -readings[place]] {
                correction(discount, &readings, place, right, out);
            }
        }
    }
}

/// Random places of long lists, whose statistic is created as the Rust has it; the last two are as long as may be.
fn long_corrections(r: &mut Random, out: &mut String) {
    for length in [1_000, 4_097, 65_536, LENGTH_LIMIT - 1, LENGTH_LIMIT, LENGTH_LIMIT] {
        let large = r.once_in(2);
        let readings: Vec<f32> = (0..length).map(|_| if large { 65_536.0 - r.below(3) as f32 } else { whole_reading(r) }).collect();
        create_line(&fed(0.0, &readings), out);
        for _ in 0..4 {
            let (place, right) = (r.below(length) as usize, whole_reading(r));
            correction(0.0, &readings, place, right, out);
        }
    }
}

/// Both sides of each border of row 26. Accepted calls on statistics of no list follow the written rule, in whole numbers.
fn bordered_corrections(out: &mut String) {
    let three = fed(0.0, &[3.0, 5.0, -7.0]);
    let statistic = |d: f64, w: f64, a: f64, q: f64, n: u64| Deviation::create(d, w, a, q, n as i32);
    let readings = [65_536.0, -65_536.0, 65_537.0, -65_537.0, 1.5, 0.0, -0.0, f32::NAN, f32::INFINITY, f32::NEG_INFINITY, 1.0e-45, 3.0e38];
    let mut cases: Vec<(Deviation, f32, f32)> = Vec::new();
    for x in readings {
        cases.push((three.clone(), x, 5.0));
        cases.push((three.clone(), 5.0, x));
    }
    let most = LENGTH_LIMIT as f64;
    for s in [
        statistic(-0.0, 3.0, 1.0, 83.0, 3),
        statistic(0.1, 3.0, 1.0, 83.0, 3),
        statistic(5.0e-324, 3.0, 1.0, 83.0, 3),
        statistic(0.0, 0.0, 0.0, 0.0, 0),
        statistic(0.0, 1.0, 0.0, 0.0, 1),
        statistic(0.0, most, 0.0, 0.0, LENGTH_LIMIT),
        statistic(0.0, most + 1.0, 0.0, 0.0, LENGTH_LIMIT + 1),
        statistic(0.0, most, READING_LIMIT * most, READING_LIMIT * READING_LIMIT * most, LENGTH_LIMIT),
        statistic(0.0, most, READING_LIMIT * most + 1.0, 0.0, LENGTH_LIMIT),
        statistic(0.0, most, 0.0, READING_LIMIT * READING_LIMIT * most + 1.0, LENGTH_LIMIT),
        statistic(0.0, 2.0, 1.0, 83.0, 3),
        statistic(0.0, 4.0, 1.0, 83.0, 3),
        statistic(0.0, f64::NAN, 1.0, 83.0, 3),
        statistic(0.0, 3.0, 196_608.0, 83.0, 3),
        statistic(0.0, 3.0, 196_609.0, 83.0, 3),
        statistic(0.0, 3.0, -196_608.0, 83.0, 3),
        statistic(0.0, 3.0, -196_609.0, 83.0, 3),
        statistic(0.0, 3.0, 0.5, 83.0, 3),
        statistic(0.0, 3.0, -0.0, 83.0, 3),
        statistic(0.0, 3.0, f64::NAN, 83.0, 3),
        statistic(0.0, 3.0, 1.0, 12_884_901_888.0, 3),
        statistic(0.0, 3.0, 1.0, 12_884_901_889.0, 3),
        statistic(0.0, 3.0, 1.0, -1.0, 3),
        statistic(0.0, 3.0, 1.0, -0.0, 3),
        statistic(0.0, 3.0, 1.0, 0.0, 3),
        statistic(0.0, 3.0, 1.0, 0.5, 3),
        statistic(0.0, 3.0, 1.0, f64::INFINITY, 3),
    ] {
        cases.push((s, 5.0, 3.0));
    }
    for (s, wrong, right) in cases {
        create_line(&s, out);
        let row = row26(&s, wrong, right);
        let mut after = s;
        if row == 0 {
            let (w, r) = (wrong as i64, right as i64);
            after.sum = (after.sum as i64 + (r - w)) as f64;
            after.sum_squared = (after.sum_squared as i64 + (r * r - w * w)) as f64;
        }
        deviation_line(Line::new("o").single(wrong).single(right), row, &after, out);
    }
}

/// What is appended to the lines of the kind deviation.
fn corrections(r: &mut Random, out: &mut String) {
    short_corrections(r, out);
    long_corrections(r, out);
    bordered_corrections(out);
}

// ranges

/// The two widths of a range.
trait Width: Element + PartialOrd + std::ops::AddAssign + std::ops::MulAssign {
    fn random(r: &mut Random) -> Self;
    fn beside(self, r: &mut Random, sign: f32) -> Self;
}

impl Width for f32 {
    fn random(r: &mut Random) -> f32 {
        r.wild32()
    }

    fn beside(self, r: &mut Random, sign: f32) -> f32 {
        self + sign * r.from(0, 6) as f32 / 4.0
    }
}

impl Width for f64 {
    fn random(r: &mut Random) -> f64 {
        r.wild64()
    }

    fn beside(self, r: &mut Random, sign: f32) -> f64 {
        self + (sign * r.from(0, 6) as f32 / 4.0) as f64
    }
}

/// Three lists of one length: bounds around the values, or anything.
fn three<T: Width>(r: &mut Random, n: usize) -> [Vec<T>; 3] {
    let values: Vec<T> = (0..n).map(|_| T::random(r)).collect();
    if r.once_in(3) {
        return [values, (0..n).map(|_| T::random(r)).collect(), (0..n).map(|_| T::random(r)).collect()];
    }
    let upper = values.iter().map(|v| v.beside(r, 1.0)).collect();
    let lower = values.iter().map(|v| v.beside(r, -1.0)).collect();
    [values, upper, lower]
}

/// Makes one of the three lists longer or shorter.
fn unequal<T: Width>(r: &mut Random, lists: &mut [Vec<T>; 3]) {
    let which = r.below(3) as usize;
    if r.once_in(2) || lists[which].is_empty() {
        let more = T::random(r);
        lists[which].push(more);
    } else {
        lists[which].pop();
    }
}

fn given<T: Width>(line: Line, lists: &[Vec<T>; 3]) -> Line {
    lists.iter().fold(line, |line, list| line.list(list))
}

fn as_range<T: Width>(lists: &[Vec<T>; 3]) -> RangeVector<T> {
    let [values, upper, lower] = lists.clone();
    RangeVector { values, upper, lower }
}

fn lists_of<T: Width>(range: RangeVector<T>) -> [Vec<T>; 3] {
    [range.values, range.upper, range.lower]
}

fn finish<T: Width>(line: Line, row: u8, answer: Option<RangeVector<T>>, out: &mut String) {
    let line = line.whole(row as u64);
    match answer {
        Some(range) => given(line, &lists_of(range)).end(out),
        None => line.end(out),
    }
}

fn range_create<T: Width>(r: &mut Random, out: &mut String) {
    let n = r.from(0, 9) as usize;
    let mut lists: [Vec<T>; 3] = three(r, n);
    if r.once_in(5) {
        unequal(r, &mut lists);
    }
    // Most lists are put in order, so that create accepts them, or meets one crossed place.
    if !r.once_in(4) {
        let crossed = if r.once_in(3) { r.below(n as u64 + 1) as usize } else { n };
        for i in 0..lists.iter().map(Vec::len).min().unwrap() {
            let v = lists[0][i];
            if !(v <= lists[1][i] && lists[2][i] <= v) && i != crossed {
                while !(lists[0][i] <= lists[0][i]) {
                    lists[0][i] = T::random(r);
                }
                lists[1][i] = lists[0][i];
                lists[2][i] = lists[0][i];
            }
        }
    }
    let outs = three_lent(r, lists[0].len());
    let made = RangeVector::create(&lists[0], &lists[1], &lists[2]);
    let row = match &made {
        Err(_) if lists.iter().any(|l| l.len() != lists[0].len()) => 16,
        Err(_) => 17,
        Ok(_) if outs.iter().any(|&o| o < lists[0].len()) => 20,
        Ok(_) => 0,
    };
    let line = outs.iter().fold(given(Line::new("c"), &lists), |line, &o| line.whole(o as u64));
    finish(line, row, made.ok().filter(|_| row == 0), out);
}

/// Lengths of three lent lists that need `n`.
fn three_lent(r: &mut Random, n: usize) -> [usize; 3] {
    let mut outs = [n + r.below(2) as usize; 3];
    if n > 0 && r.once_in(4) {
        outs[r.below(3) as usize] = r.pick(&[0, n - 1]);
    }
    outs
}

/// `new` (zeros) and `from` (one list as values, upper and lower).
fn range_filled<T: Width>(r: &mut Random, zeros: impl Fn(usize) -> RangeVector<T>, out: &mut String) {
    let n = r.from(0, 9) as usize;
    let outs = three_lent(r, n);
    let row = if outs.iter().any(|&o| o < n) { 20 } else { 0 };
    let (line, made) = if r.once_in(2) {
        (Line::new("z").whole(n as u64), zeros(n))
    } else {
        let list: Vec<T> = (0..n).map(|_| T::random(r)).collect();
        (Line::new("f").list(&list), RangeVector::from(list))
    };
    let line = outs.iter().fold(line, |line, &o| line.whole(o as u64));
    finish(line, row, (row == 0).then_some(made), out);
}

/// `shift` or `scale` at one index.
fn range_at<T: Width>(r: &mut Random, name: &str, act: fn(&mut RangeVector<T>, usize, T), out: &mut String) {
    let n = r.from(0, 6) as usize;
    let mut lists: [Vec<T>; 3] = three(r, n);
    if r.once_in(4) {
        unequal(r, &mut lists);
    }
    let index = if r.once_in(12) { r.pick(&[u64::MAX, 1 << 32, 1 << 63]) } else { r.from(0, n as u64) };
    let amount = T::random(r);
    let line = lists.iter().fold(Line::new(name), |line, list| line.list(list)).whole(index).field(&amount.hex());
    let row = if lists.iter().any(|l| index >= l.len() as u64) { 14 } else { 0 };
    let answer = (row == 0).then(|| {
        let mut range = as_range(&lists);
        act(&mut range, index as usize, amount);
        range
    });
    finish(line, row, answer, out);
}

fn range_cascade<T: Width>(r: &mut Random, out: &mut String) {
    let d = if r.once_in(20) { 16 } else { r.from(0, 5) };
    let n = match r.below(6) {
        0 => 0,
        1 => r.from(0, 3 * d + 1),
        2 => d.saturating_sub(1),
        _ => d * r.from(1, 4),
    };
    let mut lists: [Vec<T>; 3] = three(r, n as usize);
    if r.once_in(8) {
        unequal(r, &mut lists);
    }
    let base: Vec<T> = (0..d).map(|_| T::random(r)).collect();
    let n = lists[0].len();
    let equal = lists.iter().all(|l| l.len() == n);
    let whole = d > 0 && n > 0 && n as u64 % d == 0;
    let row = if equal && whole { 0 } else { 16 };
    let answer = (row == 0).then(|| {
        let mut range = as_range(&lists);
        range.cascaded_add(&base).expect("no row refuses");
        range
    });
    finish(given(Line::new("a"), &lists).list(&base), row, answer, out);
}

fn range<T: Width>(r: &mut Random, lines: u64, zeros: fn(usize) -> RangeVector<T>) -> String {
    let mut out = String::new();
    for _ in 0..lines {
        match r.below(11) {
            10 => range_filled(r, zeros, &mut out),
            0..=2 => range_create::<T>(r, &mut out),
            3 | 4 => range_at::<T>(r, "s", RangeVector::shift, &mut out),
            5 | 6 => range_at::<T>(r, "m", RangeVector::scale, &mut out),
            _ => range_cascade::<T>(r, &mut out),
        }
    }
    out
}

// transformer

/// A transformer with what its rows need.
struct Transformer {
    rust: WeightedTransformer,
    method: u8,
    d: usize,
    count: u64,
}

impl Transformer {
    fn count(&self) -> u64 {
        assert!(self.rust.statistics().iter().all(|s| s.count == held(self.count)));
        self.count
    }

    fn set_count(&mut self, count: u64) {
        self.rust.statistics_mut().iter_mut().for_each(|s| s.count = held(count));
        self.count = count;
    }

    /// By the Rust, or past its counts by the written rule.
    fn update(&mut self, input: &[f32], previous: &[f32]) {
        if self.count < RUST_COUNT {
            self.rust.update(input, previous).expect("no row refuses");
        } else {
            feed_channels(self.rust.statistics_mut(), self.count, input, previous);
        }
        self.count += 1;
    }

    fn inputs(&self, r: &mut Random) -> [Vec<f32>; 2] {
        let mut lengths = [self.d, self.d];
        if r.once_in(12) {
            lengths[r.below(2) as usize] = r.pick(&[0, self.d - 1, self.d + 1]);
        }
        let wild = if r.once_in(3) { Random::wild32 } else { |r: &mut Random| r.from(0, 400) as f32 / 4.0 - 20.0 };
        lengths.map(|n| r.list32(n, wild))
    }

    fn row10(&self, lists: &[Vec<f32>]) -> u8 {
        if lists.iter().any(|l| l.len() != self.d) {
            10
        } else {
            0
        }
    }
}

fn new_transformer(r: &mut Random, out: &mut String) -> Option<Transformer> {
    let method = r.below(6) as u8;
    let d = if r.once_in(12) { 16 } else { r.from(1, 4) } as usize;
    let decay = discount(r);
    let n = if r.once_in(10) { r.pick(&[d - 1, d + 1]) } else { d };
    let plain = method == NONE && !r.once_in(6);
    let weights: Vec<f32> = (0..n).map(|_| if plain { 1.0 } else { r.weight() }).collect();
    let row = if n != d {
        5
    } else if row6(decay) != 0 {
        6
    } else if method == NONE && weights.iter().any(|&w| w != 1.0) {
        9
    } else {
        0
    };
    let made = WeightedTransformer::new(rust_method(method), d, decay, &weights);
    assert_eq!(made.is_ok(), row == 0);
    Line::new("n").whole(method as u64).whole(d as u64).double(decay).list(&weights).whole(row as u64).end(out);
    made.ok().map(|rust| Transformer { rust, method, d, count: 0 })
}

fn transformer_statistics(t: &Transformer, out: &mut String) {
    let line = Line::new("q").whole(t.count());
    let all: Vec<f64> = t.rust.statistics().iter().flat_map(|s| [s.weight, s.sum, s.sum_squared]).collect();
    line.list(&all).end(out);
}

fn transformer_forecast(t: &Transformer, r: &mut Random, out: &mut String) {
    let [_, previous] = t.inputs(r);
    let blocks = if t.d > 4 { r.from(0, 2) } else { r.from(0, 5) } as usize;
    let n = if r.once_in(4) { r.below(t.d as u64 * 3) as usize } else { t.d * blocks };
    let mut lists: [Vec<f32>; 3] = three(r, n);
    if r.once_in(10) {
        unequal(r, &mut lists);
    }
    let n = lists[0].len();
    let cascades = t.method == DIFFERENCE || t.method == NORMALIZE_DIFFERENCE;
    let broken = cascades && (n == 0 || n % t.d != 0);
    let row = if previous.len() != t.d {
        10
    } else if lists.iter().any(|l| l.len() != n) || broken {
        16
    } else {
        0
    };
    let answer = (row == 0).then(|| {
        let mut range = as_range(&lists);
        t.rust.invert_forecast(&mut range, &previous).expect("no row refuses");
        range
    });
    finish(given(Line::new("f"), &lists).list(&previous), row, answer, out);
}

fn lent(r: &mut Random, n: usize) -> usize {
    if r.once_in(10) {
        r.pick(&[0, n - 1])
    } else {
        n + if r.once_in(3) { r.below(4) as usize } else { 0 }
    }
}

fn transformer_line(t: &mut Transformer, r: &mut Random, out: &mut String) {
    let listed = |line: Line, row: u8, answer: Vec<f32>, out: &mut String| {
        let line = line.whole(row as u64);
        if row == 0 {
            line.list(&answer).end(out)
        } else {
            line.end(out)
        }
    };
    match r.below(24) {
        0..=9 => {
            let [input, previous] = t.inputs(r);
            let mut row = t.row10(&[input.clone(), previous.clone()]);
            if row == 0 {
                row = row18(t.count() + 1);
            }
            let line = Line::new("u").list(&input).list(&previous).whole(row as u64);
            if row == 0 {
                t.update(&input, &previous);
            }
            line.end(out);
        }
        at @ 10..=15 => {
            let [input, previous] = t.inputs(r);
            let lent = lent(r, t.d);
            let row10 = t.row10(&[input.clone(), previous.clone()]);
            let row = if row10 == 0 && lent < t.d { 20 } else { row10 };
            let name = if at < 13 { "t" } else { "i" };
            let line = Line::new(name).list(&input).list(&previous).whole(lent as u64);
            let answer = match row {
                0 if at < 13 => t.rust.transform(&input, &previous),
                0 => t.rust.invert(&input, &previous),
                _ => Vec::new(),
            };
            listed(line, row, answer, out);
        }
        16..=18 => transformer_forecast(t, r, out),
        at @ 19..=21 => {
            let lent = lent(r, t.d);
            let row = if lent < t.d { 20 } else { 0 };
            let (name, answer) = match at {
                19 => ("c", t.rust.scale()),
                20 => ("h", t.rust.shift()),
                _ => ("d", t.rust.difference_deviations()),
            };
            listed(Line::new(name).whole(lent as u64), row, answer, out);
        }
        22 if r.once_in(4) => {
            let count = if r.once_in(2) { RUST_COUNT - r.below(3) } else { r.below(1000) };
            t.set_count(count);
            Line::new("k").whole(count).end(out);
        }
        _ => transformer_statistics(t, out),
    }
}

fn transformer(r: &mut Random, lines: u64) -> String {
    let mut out = String::new();
    let mut written = 0;
    while written < lines {
        written += 1;
        let Some(mut t) = new_transformer(r, &mut out) else { continue };
        let calls = if t.d > 4 { r.from(4, 16) } else { r.from(0, 40) };
        for _ in 0..calls.min(lines - written) {
            transformer_line(&mut t, r, &mut out);
            written += 1;
        }
    }
    for _ in 0..24 {
        far_transformer(r, &mut out);
    }
    out
}

/// A transformer whose count is set around the Rust's last one or around the limit, and then fed.
fn far_transformer(r: &mut Random, out: &mut String) {
    let count = texts::far_count(r);
    let (method, d, decay) = (r.from(1, 5) as u8, r.from(1, 2) as usize, texts::far_decay(r, count));
    let weights: Vec<f32> = (0..d).map(|_| r.weight()).collect();
    let rust = WeightedTransformer::new(rust_method(method), d, decay, &weights).expect("no row refuses");
    Line::new("n").whole(method as u64).whole(d as u64).double(decay).list(&weights).whole(0).end(out);
    let mut t = Transformer { rust, method, d, count: 0 };
    let quarter = |r: &mut Random| r.from(0, 400) as f32 / 4.0 - 20.0;
    let mut previous = r.list32(d, quarter);
    for n in 0..7 {
        if n == 2 {
            t.set_count(count);
            Line::new("k").whole(count).end(out);
        }
        let input = r.list32(d, quarter);
        let row = row18(t.count() + 1);
        Line::new("u").list(&input).list(&previous).whole(row as u64).end(out);
        if row == 0 {
            t.update(&input, &previous);
        }
        previous = input;
    }
    transformer_statistics(&t, out);
    let input = r.list32(d, quarter);
    let answer = t.rust.transform(&input, &previous);
    Line::new("t").list(&input).list(&previous).whole(d as u64).whole(0).list(&answer).end(out);
}

// preprocessor

fn settings_line(s: &Settings) -> Line {
    let mode = s.letter().unwrap_or("I");
    let line = Line::new("b").field(mode).whole(s.method as u64).whole(s.d).whole(s.k).whole(s.start).whole(s.stop);
    line.double(s.decay).single(s.weight_time).list(&s.weights).codes(&s.codes)
}

fn call_line(call: &Call) -> Line {
    match call {
        Call::Point { input, timestamp, out } => Line::new("p").whole(*timestamp).list(input).whole(*out as u64),
        Call::Learn(c) => {
            let line = Line::new("l").whole(c.timestamp).list(&c.input).option(&c.point).single(c.grade);
            let line = line.field(&c.relative_index.to_string()).option(&c.expected);
            line.whole(c.deviations_out as u64).whole(c.past_out as u64).whole(c.expected_out as u64)
        }
        Call::Drain => Line::new("d"),
        Call::Transform { input, timestamp, out } => Line::new("t").whole(*timestamp).list(input).whole(*out as u64),
        Call::TurnBack { values, upper, lower, outs } => {
            let line = Line::new("v").list(values).list(upper).list(lower);
            outs.iter().fold(line, |line, &o| line.whole(o as u64))
        }
        Call::Scale { out } => Line::new("c").whole(*out as u64),
        Call::Shift { out } => Line::new("h").whole(*out as u64),
        Call::Status { out } => Line::new("s").whole(*out as u64),
    }
}

fn answered(line: Line, call: &Call, answer: &Answer) -> Line {
    let line = line.whole(answer.row() as u64);
    match answer {
        Answer::No(_) | Answer::Done => line,
        Answer::None => line.whole(0),
        Answer::Numbers(list) if matches!(call, Call::Point { .. }) => line.whole(1).list(list),
        Answer::Numbers(list) => line.list(list),
        Answer::Learned { deviations, anomaly } => {
            let line = match deviations {
                None => line.whole(0),
                Some(list) => line.whole(1).list(list),
            };
            match anomaly {
                None => line.whole(0),
                Some(a) => line.whole(1).list(&a.past_values).whole(a.past_timestamp).list(&a.expected_values),
            }
        }
        Answer::Ranges { numbers, times } => {
            let line = numbers.iter().fold(line, |line, list| line.list(list));
            match times {
                None => line.whole(0),
                Some(times) => times.iter().fold(line.whole(1), |line, list| line.list(list)),
            }
        }
        Answer::Status { values_seen, internal, ready, d, k, dimension, start, panel, deviations } => {
            let line = line.whole(*values_seen).whole(*internal).whole(*ready as u64).whole(*d);
            line.whole(*k).whole(*dimension).whole(*start).whole(*panel).list(deviations)
        }
    }
}

/// The state as fields: counters, statistics, inputs, point, times, initial values.
fn state_line(name: &str, w: &Snapshot) -> Line {
    let statistics: Vec<f64> = w.statistics.iter().flatten().copied().collect();
    let line = Line::new(name).whole(w.values_seen).whole(w.internal).whole(w.count).list(&statistics).list(&w.inputs).list(&w.point);
    let line = w.times.iter().fold(line.whole(w.times.len() as u64), |line, &t| line.whole(t));
    let line = line.whole(w.initial.len() as u64);
    w.initial.iter().fold(line, |line, (t, x)| x.iter().fold(line.whole(*t), |line, &v| line.single(v)))
}

/// Adler-32 of the text.
fn checksum(text: &[u8]) -> u64 {
    let (a, b) = text.iter().fold((1u64, 0u64), |(a, b), &byte| {
        let a = (a + byte as u64) % 65521;
        (a, (b + a) % 65521)
    });
    b * 65536 + a
}

/// Its settings built, and the state set.
fn set_lines(snapshot: &Snapshot, out: &mut String) {
    settings_line(&snapshot.settings).whole(0).end(out);
    state_line("g", snapshot).end(out);
}

/// One list: settings, calls with their answers, the state, and the length and checksum of its text.
fn preprocessor_list(r: &mut Random, out: &mut String, sizes: Sizes, most: u64, unreached: bool) -> Snapshot {
    let reference = if unreached {
        // A state that only a text can bring about: it is set, and row 18 can be met. A count near the Rust's last one is moved to the limit.
        let mut snapshot = if r.once_in(3) { texts::undrained(r, sizes) } else { texts::snapshot(r, sizes) };
        if snapshot.count > RUST_COUNT - 8 {
            snapshot.count += COUNT_LIMIT - RUST_COUNT;
        }
        set_lines(&snapshot, out);
        snapshot.restore()
    } else {
        let s = settings(r, sizes);
        settings_line(&s).whole(0).end(out);
        Reference::build(&s).unwrap()
    };
    calls_lines(r, out, reference, &[], (0, most))
}

/// The calls given, then random ones, at least and at most so many; the state after them, and its text.
fn calls_lines(r: &mut Random, out: &mut String, mut reference: Reference, first: &[Call], (least, most): (u64, u64)) -> Snapshot {
    let mut maker = Calls::new(r, &reference.settings);
    for n in 0..first.len() + r.from(least, most) as usize {
        let call = if n < first.len() { first[n].clone() } else { maker.next(r) };
        let answer = reference.call(&call);
        answered(call_line(&call), &call, &answer).end(out);
        if let (Call::Point { .. }, Answer::Numbers(point)) = (&call, &answer) {
            maker.last_point = Some(point.iter().map(|&b| f32::from_bits(b)).collect());
        }
    }
    let last = Snapshot::of(&reference);
    state_line("q", &last).end(out);
    let text = last.text();
    Line::new("x").whole(text.len() as u64).whole(checksum(text.as_bytes())).end(out);
    last
}

fn preprocessor(r: &mut Random, lines: u64) -> String {
    let mut out = String::new();
    let mut lists = 0u64;
    while (out.lines().count() as u64) < lines {
        lists += 1;
        // The limits of d and k in few lists, since their lines are long.
        let (d, k, exact) = match lists % 32 {
            5 => (16, 64, true),
            11 | 27 => (16, 1, true),
            17 | 23 => (1, 64, true),
            _ => (3, 5, false),
        };
        let sizes = Sizes { d, k, start: 6, exact };
        if lists % 3 == 0 {
            let bad = bad_settings(r, sizes);
            settings_line(&bad).whole(bad.row() as u64).end(&mut out);
            if bad.row() == 0 {
                let fresh = Snapshot::of(&Reference::build(&bad).unwrap());
                state_line("q", &fresh).end(&mut out);
            }
        }
        let most = if d * k > 100 { 12 } else { 30 };
        preprocessor_list(r, &mut out, sizes, most, lists % 6 == 0);
    }
    out
}

/// Lists that begin with a count around the Rust's last one or around the limit. In the first twelve a drain, or a point that drains, ends one below, at and one above both.
fn far(r: &mut Random, lines: u64) -> String {
    let mut out = String::new();
    let sizes = Sizes { d: 2, k: 3, start: 5, exact: false };
    for n in 0..12 {
        let mut snapshot = texts::far_drain(r, sizes);
        let s = &snapshot.settings;
        let (d, dimension) = (s.d as usize, s.dimension());
        snapshot.count = [RUST_COUNT, COUNT_LIMIT][n % 2] - s.start - 1 + n as u64 / 2 % 3;
        let point = Call::Point { input: r.list32(d, |r| r.from(0, 400) as f32 / 4.0), timestamp: 60, out: dimension };
        let first = if n < 6 { Call::Drain } else { point };
        set_lines(&snapshot, &mut out);
        calls_lines(r, &mut out, snapshot.restore(), &[first], (2, 6));
    }
    while (out.lines().count() as u64) < lines {
        let snapshot = texts::far(r, sizes);
        set_lines(&snapshot, &mut out);
        calls_lines(r, &mut out, snapshot.restore(), &[], (3, 14));
    }
    out
}

// snapshot and bench

/// A text behind a line with its length in bytes, the codes expected, the length of the list lent for its times, and the row and bad line by which it is
/// refused (0 and 0: taken up); it is followed by an LF.
fn text_line(r: &Random, out: &mut String, good: &Snapshot, text: &[u8]) {
    let settings = read(text).map_or(good.settings.clone(), |taken| taken.settings);
    let expected = expected_codes(r, &settings.codes);
    let k = settings.k as usize;
    let times = r.aside(20).pick(&[k + 6, k + 1, k, k, k, k - 1, 0]);
    expected_line(out, text, &expected, times);
}

/// With these codes expected, and so much room for the times.
fn expected_line(out: &mut String, text: &[u8], expected: &[u16], times: usize) {
    let mut room = ROOMY;
    room[3] = times;
    let Refused { row, line } = take_up(text, expected, &room).err().unwrap_or(Refused { row: 0, line: 0 });
    let head = Line::new("r").whole(text.len() as u64).codes(expected).whole(times as u64);
    head.whole(row as u64).whole(line as u64).end(out);
    *out += std::str::from_utf8(text).expect("the damage is plain");
    *out += "\n";
}

/// A snapshot, and whether its text has the line of the codes. In each eight texts four lack it.
fn coded(r: &mut Random, sizes: Sizes, n: u64) -> (Snapshot, bool) {
    let mut good = texts::snapshot(r, sizes);
    let lined = n / 4 % 2 == 0;
    if !lined {
        good.settings.codes = good.settings.zero_codes();
    }
    (good, lined)
}

fn snapshot(r: &mut Random, count: u64) -> String {
    let mut out = String::new();
    for n in 0..count {
        let sizes = if n % 50 == 7 { Sizes { d: 16, k: 8, start: 6, exact: true } } else { Sizes { d: 2, k: 3, start: 4, exact: false } };
        let (good, lined) = coded(r, sizes, n);
        let text = match n % 4 {
            0 => good.written(lined).into_bytes(),
            1 => texts::scratched_as(r, &good, lined),
            _ => texts::damaged_as(r, &good, lined).0,
        };
        text_line(r, &mut out, &good, &text);
    }
    out
}

fn near(r: &mut Random, count: u64) -> String {
    let mut out = String::new();
    for n in 0..count {
        let (good, lined) = coded(r, Sizes { d: 2, k: 3, start: 4, exact: false }, n / 3);
        let text = texts::near(r, &good, lined, n % 12);
        text_line(r, &mut out, &good, &text);
    }
    out
}

/// Texts whose count is around the Rust's last one or around the limit, the half of them with another number in its place.
fn far_texts(r: &mut Random, count: u64) -> String {
    let mut out = String::new();
    for n in 0..count {
        let mut good = texts::far(r, Sizes { d: 2, k: 3, start: 4, exact: false });
        let lined = n % 2 == 0;
        if !lined {
            good.settings.codes = good.settings.zero_codes();
        }
        let text = texts::far_text(r, &good, lined);
        text_line(r, &mut out, &good, &text);
    }
    out
}

/// One input for the bench, of `count` call lines, most of the form.
fn bench(r: &mut Random, count: u64, mode: fn(Settings) -> Settings) -> String {
    let s = mode(settings(r, Sizes { d: 4, k: 8, start: 6, exact: false }));
    let fresh = Snapshot::of(&Reference::build(&s).unwrap()).text();
    let mut out: String = fresh.split_inclusive('\n').take(2).collect();
    let mut time = r.below(100);
    for _ in 0..count {
        time += r.below(9);
        let t = if r.once_in(12) { time.saturating_sub(r.below(20)) } else { time };
        let n = if r.once_in(15) { r.below(s.d + 2) } else { s.d };
        let value = if r.once_in(6) { Random::wild32 } else { |r: &mut Random| r.from(0, 400) as f32 / 4.0 };
        let values: String = r.list32(n as usize, value).iter().map(|&v| format!("\t{:08x}", bits32(v))).collect();
        let line = match r.below(30) {
            0..=9 => format!("p\t{t}{values}"),
            10..=22 => format!("l\t{t}{values}"),
            23 | 24 => "d".to_string(),
            25..=27 => "s".to_string(),
            _ => r
                .pick(&["", "x", "d\t", "s\t1", "p", "l\t", "P\t1", "p\t01\t3f800000", "l\t1\t7fc00001", "p\t18446744073709551616", "d ", "s\r"])
                .to_string(),
        };
        out += &line;
        out += "\n";
    }
    if r.once_in(6) {
        out.pop();
    }
    out
}

/// The file of a kind: `count` lines, and for `snapshot`, `near`, `far_texts` and `gap_texts` as many texts; `edges` and `edge_texts` have a length of their own.
pub fn file(kind: &str, seed: u64, count: u64) -> Option<String> {
    let r = &mut Random::new(seed);
    Some(match kind {
        "deviation" => deviation(r, count),
        "range32" => range(r, count, RangeVector::<f32>::new),
        "range64" => range(r, count, RangeVector::<f64>::new),
        "transformer" => transformer(r, count),
        "preprocessor" => preprocessor(r, count),
        "snapshot" => snapshot(r, count),
        "near" => near(r, count),
        "far" => far(r, count),
        "far_texts" => far_texts(r, count),
        "gap" => gap::lists(r, count),
        "gap_texts" => gap::texts_of(r, count),
        "edges" => gap::edges(r),
        "edge_texts" => gap::edge_texts(r),
        "bench" => bench(r, count, |s| s),
        "bench_gap" => bench(r, count, gapped),
        _ => return None,
    })
}

/// A file of texts of before there were codes, judged anew: the same texts, and the first bad line of each as it is today.
pub fn judged(file: &str) -> String {
    let (mut out, mut rest) = (String::new(), file);
    while let Some((head, behind)) = rest.split_once('\n') {
        let length: usize = head.split(' ').nth(1).and_then(|n| n.parse().ok()).expect("t length line");
        let text = &behind[..length];
        Line::new("t").whole(length as u64).whole(read(text.as_bytes()).err().unwrap_or(0) as u64).end(&mut out);
        out += text;
        out += "\n";
        rest = &behind[length + 1..];
    }
    out
}

/// Where the last line with an answer ends: before its LF. A line `k` of the kind transformer has none; a text's answer stands in the line before it.
fn last_answer(kind: &str, file: &str) -> usize {
    if !["snapshot", "near", "far_texts", "gap_texts", "edge_texts"].contains(&kind) {
        let kept = file.lines().rev().skip_while(|l| l.starts_with("k ")).map(|l| l.len() + 1).sum::<usize>();
        return kept - 1;
    }
    let (mut at, mut last) = (0, 0);
    while at < file.len() {
        last = at + file[at..].find('\n').expect("a line");
        let length: usize = file[at..last].split(' ').nth(1).and_then(|n| n.parse().ok()).expect("a length");
        at = last + 1 + length + 1;
    }
    last
}

/// The file with a wrong answer: the last digit of the last one is another.
pub fn with_wrong_line(kind: &str, file: &str) -> String {
    let end = last_answer(kind, file);
    let digit = if file[..end].ends_with('0') { "1" } else { "0" };
    [&file[..end - 1], digit, &file[end..]].concat()
}

/// Short lists with the text after the last call, for cross-checks by computing in the proof language.
pub fn traces(seed: u64, count: u64) -> String {
    let mut out = String::new();
    for list in 0..count {
        let mut r = Random::new(seed.wrapping_mul(0x1_0000_0007).wrapping_add(list));
        let last = preprocessor_list(&mut r, &mut out, Sizes { d: 2, k: 3, start: 3, exact: false }, 12, false);
        let text = last.text();
        out += &format!("text {}\n", text.lines().count());
        out += &text;
    }
    out
}
