//! Request #110: how many of all lists of calls leave the start's readings waiting, drained or stranded. Once by running every list on the history
//! sheet, and once by a program that follows how many lists stand where, call by call; neither looks at the other.
use crate::calls::{Call, Learn, Settings, NORMALIZE};
use crate::history::{Entry, History};
use crate::random::{settings, Random, FULL};

#[derive(Clone, Copy, Debug, Default, PartialEq)]
pub struct Counts {
    pub waiting: u64,
    pub drained: u64,
    pub stranded: u64,
}

/// Settings that no row refuses, with NORMALIZE and the start; everything else by chance.
pub fn normalizing(random: &mut Random, start: u64) -> Settings {
    loop {
        let mut s = settings(random, FULL);
        s.method = NORMALIZE;
        s.start = start;
        s.stop = s.stop.max(start);
        if s.row() == 0 {
            return s;
        }
    }
}

/// What the entries show: "W's without F wait. An L before F strands them for good."
fn count_one(history: &History, counts: &mut Counts) {
    if history.entries.iter().any(|e| matches!(e, Entry::Drained)) {
        counts.drained += 1;
    } else if history.entries.iter().any(|e| matches!(e, Entry::Learned(..))) {
        counts.stranded += 1;
    } else {
        counts.waiting += 1;
    }
}

fn reading(random: &mut Random, s: &Settings) -> Vec<f32> {
    (0..s.d).map(|_| random.value32()).collect()
}

/// An accepted learn with a forest point, at the time given.
fn learn(random: &mut Random, s: &Settings, timestamp: u64) -> Call {
    let point = |random: &mut Random| (0..s.dimension()).map(|_| random.value32()).collect::<Vec<f32>>();
    Call::Learn(Learn {
        input: reading(random, s),
        timestamp,
        point: Some(point(random)),
        grade: random.pick(&[0.0, 0.5, 1.0]),
        relative_index: -(random.below(s.k) as i32),
        expected: if random.once_in(2) { Some(point(random)) } else { None },
        deviations_out: s.width() + random.below(2) as usize,
        past_out: s.d as usize + random.below(2) as usize,
        expected_out: s.d as usize + random.below(2) as usize,
    })
}

/// The three calls, each with arguments of its own; the rows that a call may meet and still count.
fn calls(random: &mut Random, s: &Settings, time: u64) -> [(Call, &'static [u8]); 3] {
    let point = Call::Point { input: reading(random, s), timestamp: random.below(time + 9), out: s.dimension() + random.below(2) as usize };
    [(point, &[0]), (learn(random, s, time), &[0]), (Call::Drain, &[0, 15])]
}

/// All lists of `left` calls after those that the history has, each run on the history.
fn follow(random: &mut Random, history: &History, time: u64, left: u64, counts: &mut Counts) {
    if left == 0 {
        return count_one(history, counts);
    }
    let next = time + random.below(3);
    for (call, counted) in calls(random, &history.settings, next) {
        let mut then = history.clone();
        let row = then.call(&call);
        assert!(counted.contains(&row), "row {row} of {call:?}");
        follow(random, &then, next, left - 1, counts);
    }
}

/// By running all 3^calls lists on the history sheet.
pub fn by_history(random: &mut Random, s: &Settings, calls: u64) -> Counts {
    let mut counts = Counts::default();
    follow(random, &History::new(s), random.clone().below(5), calls, &mut counts);
    counts
}

/// How many lists stand where, from none onward: with j of the start's readings, drained, stranded.
pub fn by_table(start: u64, calls: u64) -> Counts {
    let full = start as usize;
    let mut waiting = vec![0u64; full + 1];
    waiting[0] = 1;
    let (mut drained, mut stranded) = (0u64, 0u64);
    for _ in 0..calls {
        drained = 3 * drained + 2 * waiting[full];
        stranded = 3 * stranded + waiting[full];
        waiting[full] = waiting[full - 1];
        for j in (1..full).rev() {
            waiting[j] = 2 * waiting[j] + waiting[j - 1];
        }
        waiting[0] *= 2;
    }
    Counts { waiting: waiting.iter().sum(), drained, stranded }
}

#[cfg(test)]
mod tests {
    use super::*;

    /// "For n 2 and s 1 they are 6, 2 and 1."
    #[test]
    fn two_calls() {
        assert_eq!(by_table(1, 2), Counts { waiting: 6, drained: 2, stranded: 1 });
        let mut random = Random::new(1);
        let s = normalizing(&mut random, 1);
        assert_eq!(by_history(&mut random, &s, 2), by_table(1, 2));
    }
}
