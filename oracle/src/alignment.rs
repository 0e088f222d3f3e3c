//! Request #108, written from its words: two lists of readings paired by their times, and the largest size of difference per channel.
//! Knows nothing of the Rattle: the pairs are checked against the best of all order-keeping pairings where the lists are short.
use crate::random::Random;
use crate::words::{singles, wholes, word};

/// A call: the readings' cells one after the other, d to a reading, and how long the lent outputs are.
#[derive(Clone, Default)]
pub struct Call {
    pub d: u64,
    pub tolerance: u64,
    pub left: Vec<f32>,
    pub left_times: Vec<u64>,
    pub right: Vec<f32>,
    pub right_times: Vec<u64>,
    pub outs: [usize; 3],
}

#[derive(Clone, Debug, PartialEq)]
pub struct Answer {
    pub row: u64,
    pub pairs: Vec<(u64, u64)>,
    pub gaps: Vec<f32>,
}

fn falls(times: &[u64]) -> bool {
    times.windows(2).any(|w| w[1] < w[0])
}

fn refused(row: u64) -> Answer {
    Answer { row, pairs: vec![], gaps: vec![] }
}

/// "if the heads' times differ by at most the tolerance they are paired, otherwise the earlier is skipped"
fn paired(call: &Call) -> Vec<(u64, u64)> {
    let mut left: std::collections::VecDeque<(usize, u64)> = call.left_times.iter().copied().enumerate().collect();
    let mut right: std::collections::VecDeque<(usize, u64)> = call.right_times.iter().copied().enumerate().collect();
    let mut pairs = vec![];
    while let (Some(&(i, x)), Some(&(j, y))) = (left.front(), right.front()) {
        if x.abs_diff(y) <= call.tolerance {
            pairs.push((i as u64, j as u64));
            left.pop_front();
            right.pop_front();
        } else if x < y {
            left.pop_front();
        } else {
            right.pop_front();
        }
    }
    pairs
}

/// The number of pairs of the best order-keeping pairing within the tolerance, every one of them tried.
fn best(left: &[u64], right: &[u64], tolerance: u64) -> usize {
    let Some((x, rest)) = left.split_first() else { return 0 };
    let mut most = best(rest, right, tolerance);
    for (j, y) in right.iter().enumerate() {
        if x.abs_diff(*y) <= tolerance {
            most = most.max(1 + best(rest, &right[j + 1..], tolerance));
        }
    }
    most
}

fn size(l: f32, r: f32) -> f32 {
    let x = l - r;
    if x.is_nan() {
        f32::INFINITY
    } else {
        x.abs()
    }
}

pub fn align(call: &Call) -> Answer {
    let d = call.d as usize;
    if call.d == 0 {
        return refused(2);
    }
    if call.d > 16 {
        return refused(4);
    }
    if call.left.len() != d * call.left_times.len() || call.right.len() != d * call.right_times.len() {
        return refused(10);
    }
    for times in [&call.left_times, &call.right_times] {
        if falls(times) || times.len() > 4096 {
            return refused(24);
        }
    }
    let pairs = paired(call);
    if call.left_times.len() <= 7 && call.right_times.len() <= 7 {
        assert_eq!(pairs.len(), best(&call.left_times, &call.right_times, call.tolerance), "the pairs are a best pairing");
    }
    if call.outs[0] < pairs.len() || call.outs[1] < pairs.len() || call.outs[2] < d {
        return refused(20);
    }
    let gap = |c: usize| {
        let of = |p: &(u64, u64)| size(call.left[p.0 as usize * d + c], call.right[p.1 as usize * d + c]);
        pairs.iter().map(of).fold(0.0, f32::max)
    };
    Answer { row: 0, gaps: (0..d).map(gap).collect(), pairs }
}

// ---- the calls

fn times(random: &mut Random, n: usize) -> Vec<u64> {
    let step = random.pick(&[0, 1, 3, 10, 1000]);
    let mut t = random.pick(&[0, 0, 5, 1_700_000_000_000, u64::MAX - 20_000]);
    (0..n)
        .map(|_| {
            t = t.saturating_add(random.from(0, step));
            t
        })
        .collect()
}

/// The second list near the first: shifted a little, with readings left out and put in twice.
fn beside(random: &mut Random, first: &[u64]) -> Vec<u64> {
    let mut list = vec![];
    for &t in first {
        for _ in 0..random.pick(&[0, 1, 1, 1, 2]) {
            let by = random.pick(&[0, 0, 1, 2, 7]);
            list.push(if random.once_in(2) { t.saturating_add(by) } else { t.saturating_sub(by) });
        }
    }
    list.sort();
    list
}

fn filled(random: &mut Random, mut call: Call) -> Call {
    let d = call.d as usize;
    call.left = random.list32(call.left_times.len() * d, Random::wild32);
    call.right = random.list32(call.right_times.len() * d, Random::wild32);
    if random.once_in(3) {
        // nearly the same cells
        for k in 0..call.right.len().min(call.left.len()) {
            call.right[k] = call.left[k];
        }
    }
    let n = paired(&call).len();
    call.outs = [n + random.pick(&[0, 0, 1, 3]), n + random.pick(&[0, 0, 1, 3]), d + random.pick(&[0, 0, 1, 2])];
    call
}

fn any_call(random: &mut Random) -> Call {
    let n = random.pick(&[0, 1, 2, 3, 4, 5, 6, 7, 12, 40]);
    let left_times = times(random, n);
    let m = random.pick(&[0, 1, 2, 3, 4, 5, 6, 7, 12]);
    let right_times = if random.once_in(4) { times(random, m) } else { beside(random, &left_times) };
    let tolerance = random.pick(&[0, 0, 1, 2, 3, 10, 5000, u64::MAX]);
    let d = random.pick(&[1, 1, 2, 3, 16]);
    let call = Call { d, tolerance, left_times, right_times, ..Call::default() };
    filled(random, call)
}

/// A call that a row refuses, or nearly.
fn spoiled(random: &mut Random) -> Call {
    let mut call = any_call(random);
    match random.below(9) {
        0 => call.d = random.pick(&[0, 17, 16, u64::MAX, 1 << 32, (1 << 32) + 1]),
        1 => call.left.push(1.0),
        2 => call.right_times.push(u64::MAX),
        3 => {
            call.left.pop();
        }
        4 | 5 => {
            // the last time below the one before it
            let d = call.d as usize;
            let t = call.left_times.last().copied().unwrap_or(0);
            call.left_times.extend([t.max(1), t.max(1) - 1]);
            call.left.extend(vec![0.0; 2 * d]);
        }
        k => {
            let k = k as usize - 6;
            let need = [paired(&call).len(), paired(&call).len(), call.d as usize][k];
            call.outs[k] = need.saturating_sub(1);
        }
    }
    call
}

/// n by m readings, the cells zeros but for a few.
fn long(random: &mut Random, d: u64, n: usize, m: usize, step: u64) -> Call {
    let of = |n: usize| (0..n as u64).map(|i| i * step).collect::<Vec<u64>>();
    let mut call = Call {
        d,
        tolerance: 1,
        left: vec![0.0; n * d as usize],
        left_times: of(n),
        right: vec![0.0; m * d as usize],
        right_times: of(m),
        outs: [n, n, d as usize],
    };
    for _ in 0..20 {
        let k = random.below(call.left.len() as u64) as usize;
        call.left[k] = random.value32();
    }
    call
}

/// A line: the call, then the row, and where it is 0 the number of pairs, the positions and the sizes.
fn line(call: &Call, answer: &Answer) -> String {
    let mut line = String::new();
    word(&mut line, call.d);
    word(&mut line, call.tolerance);
    singles(&mut line, &call.left);
    wholes(&mut line, &call.left_times);
    singles(&mut line, &call.right);
    wholes(&mut line, &call.right_times);
    for n in call.outs {
        word(&mut line, n as u64);
    }
    word(&mut line, answer.row);
    word(&mut line, answer.pairs.len() as u64);
    for p in &answer.pairs {
        word(&mut line, p.0);
    }
    for p in &answer.pairs {
        word(&mut line, p.1);
    }
    for g in &answer.gaps {
        word(&mut line, crate::bits::bits32(*g) as u64);
    }
    line.pop();
    line.push('\n');
    line
}

/// `count` calls by turns of any kind and spoiled, then the long ones, then one whose answer is wrong by purpose.
pub fn file(seed: u64, count: usize) -> String {
    let mut random = Random::new(seed);
    let mut calls = vec![];
    for k in 0..count {
        calls.push(if k % 3 == 2 { spoiled(&mut random) } else { any_call(&mut random) });
    }
    calls.push(long(&mut random, 1, 4096, 4096, 10));
    calls.push(long(&mut random, 16, 4096, 4096, 0));
    calls.push(long(&mut random, 1, 4097, 3, 10));
    calls.push(long(&mut random, 1, 3, 4097, 10));
    let mut last = long(&mut random, 1, 4096, 4096, 10);
    last.right_times[4095] = last.right_times[4094] - 1;
    calls.push(last);
    let mut text = String::new();
    for call in &calls {
        text += &line(call, &align(call));
    }
    let call =
        Call { d: 1, tolerance: 2, left: vec![1.0, 2.0], left_times: vec![0, 10], right: vec![1.5, 4.0], right_times: vec![1, 11], outs: [2, 2, 1] };
    let mut wrong = align(&call);
    wrong.pairs[1].1 = 0;
    text + &line(&call, &wrong)
}

#[cfg(test)]
mod tests {
    use super::*;

    #[test]
    fn rows_in_their_order() {
        let mut random = Random::new(1);
        let mut seen = std::collections::BTreeSet::new();
        for _ in 0..3000 {
            seen.insert(align(&spoiled(&mut random)).row);
        }
        assert_eq!(seen.into_iter().collect::<Vec<u64>>(), [0, 2, 4, 10, 20, 24]);
    }
}
