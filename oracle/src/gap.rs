//! Mode G (request #114), which the Rust has not: it runs in TIME_AUGMENTED, and whatever of a call is another in G is put in here by the written rule: the time
//! elements, the turned-back times and the time shift. All else, feeding among it, stays the Rust's.
use crate::bits::{all64, bits32};
use crate::calls::{Answer, Call};
use crate::common::rangevector::RangeVector;
use crate::reference::Reference;

/// What the rule asks of the state before the call.
pub struct Before {
    newest: u64,
    /// The times of the readings that wait, drained or not.
    waiting: Vec<u64>,
}

impl Before {
    pub fn of(reference: &Reference) -> Before {
        Before { newest: reference.newest(), waiting: reference.rust.initial().0.to_vec() }
    }
}

/// "(timestamp − newest time) × weight_time / timescale, […] subtracted as whole numbers, turned to f64, multiplied, divided and narrowed once". The gap comes subtracted.
pub fn element(gap: u64, weight_time: f32, timescale: f64) -> f32 {
    let weighted = gap as f64 * weight_time as f64;
    (weighted / timescale) as f32
}

impl Reference {
    /// As the Rust has it: the mean of time's fifth statistic, and 1.
    fn timescale(&mut self) -> f64 {
        self.rust.state().time_statistics[4].mean() + 1.0
    }

    /// The element of a reading that is given: "with row 12's newest", and "0 gap while `values_seen` is 0".
    fn element_of(&mut self, timestamp: u64, newest: u64) -> f32 {
        let gap = if self.values_seen() == 0 { 0 } else { timestamp - newest };
        element(gap, self.settings.weight_time, self.timescale())
    }

    /// What the Rust answered in TIME_AUGMENTED, made G's; and the points that a drain has left.
    pub fn by_gap(&mut self, call: &Call, before: Before, answer: Answer) -> Answer {
        if !before.waiting.is_empty() && self.rust.initial().0.is_empty() {
            self.drained_by_gap(&before.waiting);
        }
        match (call, answer) {
            (Call::Point { timestamp, .. }, Answer::Numbers(given)) => {
                let width = self.settings.width();
                let mut point: Vec<u32> = self.rust.kept_point()[width..].iter().map(|&x| bits32(x)).collect();
                point.extend(&given[given.len() - width..given.len() - 1]);
                point.push(bits32(self.element_of(*timestamp, before.newest)));
                Answer::Numbers(point)
            }
            (Call::Transform { timestamp, .. }, Answer::Numbers(mut given)) => {
                *given.last_mut().unwrap() = bits32(self.element_of(*timestamp, before.newest));
                Answer::Numbers(given)
            }
            (Call::Shift { .. }, Answer::Numbers(mut given)) => {
                *given.last_mut().unwrap() = bits32(*self.rust.timestamps().last().unwrap() as f32);
                Answer::Numbers(given)
            }
            (Call::TurnBack { values, upper, lower, .. }, Answer::Ranges { numbers, .. }) => {
                let times = self.times_by_gap(values, upper, lower);
                Answer::Ranges { numbers, times: Some([all64(&times.values), all64(&times.upper), all64(&times.lower)]) }
            }
            (_, answer) => answer,
        }
    }

    /// "In F each W's newest is the W before, the first its own": the last of them stand in the point, with the statistics as all W's have left them.
    fn drained_by_gap(&mut self, times: &[u64]) {
        let (width, weight_time, timescale) = (self.settings.width(), self.settings.weight_time, self.timescale());
        let point = self.rust.state().last_shingled_point;
        for (block, i) in point.rchunks_mut(width).zip((0..times.len()).rev()) {
            let gap = times[i] - times[i.saturating_sub(1)];
            block[width - 1] = element(gap, weight_time, timescale);
        }
    }

    /// "Turned-back gaps […] omit the drift"; then they are cascaded from the last of `tim`, as in TIME_AUGMENTED.
    fn times_by_gap(&mut self, values: &[f32], upper: &[f32], lower: &[f32]) -> RangeVector<f64> {
        let (width, block) = (self.settings.dimension(), (self.settings.d * self.settings.k) as usize);
        let timescale = self.timescale();
        let factor = if self.settings.weight_time == 0.0 { 0.0 } else { 1.0 / self.settings.weight_time as f64 };
        let turned = |list: &[f32]| -> Vec<f64> { list.chunks_exact(width).map(|b| b[block] as f64 * factor * timescale).collect() };
        let mut times = RangeVector { values: turned(values), upper: turned(upper), lower: turned(lower) };
        for i in 0..times.values.len() {
            if times.upper[i] < times.values[i] {
                times.upper[i] = times.values[i];
            }
            if times.lower[i] > times.values[i] {
                times.lower[i] = times.values[i];
            }
        }
        times.cascaded_add(&[*self.rust.timestamps().last().unwrap() as f64]).expect("no row refuses");
        times
    }
}
