//! Counts past the Rust's (request #101). The Rust's count is an i32, and from 2,147,483,646 on its `count + 2` overflows: from there the written rule of document 01
//! stands in its place, in f64. Below, the Rust is asked as ever. Only feeding is written here; mean, deviation and transform, which read no count, stay the Rust's.
use crate::bits::all32;
use crate::calls::{Answer, Call, Learn};
use crate::common::deviation::Deviation;
use crate::reference::Reference;

/// The first count at which the Rust cannot update.
pub const RUST_COUNT: u64 = 2_147_483_646;

/// What the Rust's field holds of a count: past the last i32 that one, at which an update of the Rust's own would panic.
pub fn held(count: u64) -> i32 {
    i32::try_from(count).unwrap_or(i32::MAX)
}

/// "The factor is 1.0 when discount is 0, otherwise the smaller of 1 − discount and 1 − 1/(count + 2)."
fn factor(discount: f64, count: u64) -> f64 {
    let divisor = (count + 2) as f64;
    assert_eq!(divisor as u64, count + 2, "count + 2 is exact as f64");
    let (old, young) = (1.0 - discount, 1.0 - 1.0 / divisor);
    if discount == 0.0 {
        1.0
    } else if old < young {
        old
    } else {
        young
    }
}

/// "Update multiplies weight, sum and squares by it, then adds 1, score and score × score." `count` is the statistic's count.
pub fn written(s: &mut Deviation, count: u64, score: f64) {
    let f = factor(s.discount, count);
    s.weight = s.weight * f + 1.0;
    s.sum = s.sum * f + score;
    s.sum_squared = s.sum_squared * f + score * score;
    s.count = held(count + 1);
}

/// By the Rust, and from its last count on by the written rule.
pub fn update(s: &mut Deviation, count: u64, score: f64) {
    assert_eq!(s.count, held(count));
    if count < RUST_COUNT {
        s.update(score);
    } else {
        written(s, count, score);
    }
}

/// "Five statistics a channel: value; difference from the previous; deviation of the first; mean of the second; deviation of the second." They stand `apart` from each other.
fn feed(all: &mut [Deviation], first: usize, apart: usize, count: u64, value: f64, difference: f64) {
    update(&mut all[first], count, value);
    update(&mut all[first + apart], count, difference);
    let scores = [all[first].deviation(), all[first + apart].mean(), all[first + apart].deviation()];
    for (i, score) in scores.into_iter().enumerate() {
        update(&mut all[first + (2 + i) * apart], count, score);
    }
}

/// A reading fed to all channels.
pub fn feed_channels(all: &mut [Deviation], count: u64, input: &[f32], previous: &[f32]) {
    for (i, (x, before)) in input.iter().zip(previous).enumerate() {
        feed(all, i, input.len(), count, *x as f64, (x - before) as f64);
    }
}

impl Reference {
    /// How many readings the call feeds, where no row refuses it: those that wait, or its own.
    pub fn feeds(&self, call: &Call) -> u64 {
        let (seen, s) = (self.values_seen(), &self.settings);
        match call {
            Call::Learn(c) => (!self.waits() && c.point.is_some() && seen < s.stop) as u64,
            Call::Drain | Call::Point { .. } if seen == s.start => self.rust.initial().0.len() as u64,
            _ => 0,
        }
    }

    /// A call of which some reading is fed at a count that the Rust has not.
    pub fn call_past(&mut self, call: &Call) -> Answer {
        match call {
            Call::Learn(c) => self.learn_past(c),
            Call::Drain => {
                self.drain_past();
                Answer::Done
            }
            // Nothing waits any more: the rest is the Rust's.
            _ => {
                self.drain_past();
                self.asked(call)
            }
        }
    }

    /// With stop 0 the Rust does all of a learn but the feeding.
    fn learn_past(&mut self, c: &Learn) -> Answer {
        let inputs = self.rust.shingled_input();
        let previous = inputs[inputs.len() - c.input.len()..].to_vec();
        let newest = *self.rust.timestamps().last().unwrap();
        let stop = std::mem::replace(self.rust.state().stop_normalization, 0);
        let answer = self.learn(c);
        let count = self.count;
        let state = self.rust.state();
        *state.stop_normalization = stop;
        feed_channels(state.statistics, count, &c.input, &previous);
        feed(state.time_statistics, 0, 1, count, c.timestamp as f64, (c.timestamp - newest) as f64);
        let Answer::Learned { anomaly, .. } = answer else { panic!("an accepted learn") };
        Answer::Learned { deviations: Some(all32(&self.rust.difference_deviations())), anomaly }
    }

    /// All readings that wait are fed, each after the one before it and the first after itself; then each is transformed and shifted in, the first standing before all.
    fn drain_past(&mut self) {
        let (times, values) = self.rust.initial();
        let (times, values) = (times.to_vec(), values.to_vec());
        let count = self.count;
        let state = self.rust.state();
        for (i, x) in values.iter().enumerate() {
            let before = i.saturating_sub(1);
            let at = count + i as u64;
            feed_channels(state.statistics, at, x, &values[before]);
            feed(state.time_statistics, 0, 1, at, times[i] as f64, (times[i] - times[before]) as f64);
        }
        let (d, inputs, stamps) = (values[0].len(), state.last_shingled_input, state.previous_timestamps);
        let at = inputs.len() - d;
        inputs[at..].copy_from_slice(&values[0]);
        *stamps.last_mut().unwrap() = times[0];
        for (x, t) in values.iter().zip(&times) {
            let point = self.rust.transform(x, *t);
            let state = self.rust.state();
            *state.internal_timestamp += 1;
            shift_in(state.last_shingled_input, x);
            shift_in(state.last_shingled_point, &point);
            shift_in(state.previous_timestamps, &[*t]);
        }
        let state = self.rust.state();
        state.initial_timestamps.clear();
        state.initial_values.clear();
    }
}

/// The oldest out in front, the newest in behind.
fn shift_in<T: Copy>(list: &mut Vec<T>, new: &[T]) {
    list.drain(..new.len());
    list.extend_from_slice(new);
}
