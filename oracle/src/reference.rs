//! The Rust's `Preprocessor` behind document 01's rows: every row is asked, in order, before the Rust is called, so that it never panics.
use crate::bits::{all32, all64};
use crate::calls::*;
use crate::common::descriptor::Descriptor;
use crate::common::rangevector::RangeVector;
use crate::counts::{held, RUST_COUNT};
use crate::gap::Before;
use crate::rcf::RCFLarge;
use crate::trcf::preprocessor::{Preprocessor, PreprocessorBuilder};
use crate::trcf::types::{ForestMode, TransformMethod};

pub fn rust_mode(mode: Mode) -> ForestMode {
    match mode {
        Mode::Standard => ForestMode::STANDARD,
        Mode::TimeAugmented => ForestMode::TIME_AUGMENTED,
        Mode::StreamingImpute => ForestMode::STREAMING_IMPUTE,
        // Where mode G is another, gap.rs stands in the Rust's place.
        Mode::GapAugmented => ForestMode::TIME_AUGMENTED,
    }
}

pub fn rust_method(method: u8) -> TransformMethod {
    match method {
        0 => TransformMethod::NONE,
        1 => TransformMethod::WEIGHTED,
        2 => TransformMethod::DIFFERENCE,
        3 => TransformMethod::SUBTRACT_MA,
        4 => TransformMethod::NORMALIZE,
        5 => TransformMethod::NORMALIZE_DIFFERENCE,
        _ => panic!("no such method"),
    }
}

/// What the Rust's own `build` answers, with no row asked before it.
pub fn rust_build(s: &Settings) -> crate::types::Result<Preprocessor> {
    let mut builder = PreprocessorBuilder::new(s.d as usize, s.k as usize);
    builder
        .forest_mode(rust_mode(s.mode))
        .transform_method(rust_method(s.method))
        .start_normalization(s.start as usize)
        .stop_normalization(s.stop as usize)
        .transform_decay(s.decay)
        .weights(&s.weights);
    let mut built = builder.build()?;
    built.set_weight_time(s.weight_time);
    Ok(built)
}

#[derive(Clone)]
pub struct Reference {
    pub settings: Settings,
    pub rust: Preprocessor,
    /// Readings fed: the count of every statistic, past the Rust's too.
    pub count: u64,
}

impl Reference {
    pub fn build(settings: &Settings) -> Result<Reference, u8> {
        match settings.row() {
            0 => Ok(Reference { settings: settings.clone(), rust: rust_build(settings).expect("no row refuses these settings"), count: 0 }),
            row => Err(row),
        }
    }

    pub fn values_seen(&self) -> u64 {
        self.rust.values_seen() as u64
    }

    pub fn internal(&self) -> u64 {
        self.rust.internal_timestamp() as u64
    }

    /// All statistics of the Rust hold this count, or past the last i32 that one.
    pub fn count(&self) -> u64 {
        assert!(self.rust.all_statistics().all(|s| s.count == held(self.count)), "the statistics' counts differ");
        self.count
    }

    pub fn waits(&self) -> bool {
        self.settings.method >= NORMALIZE && self.values_seen() < self.settings.start
    }

    /// Row 12's newest time.
    pub fn newest(&self) -> u64 {
        if self.internal() > 0 {
            *self.rust.timestamps().last().unwrap()
        } else {
            self.rust.initial().0.last().copied().unwrap_or(0)
        }
    }

    fn row_of_input(&self, input: &[f32]) -> u8 {
        if input.len() as u64 != self.settings.d {
            10
        } else if !input.iter().all(|x| x.is_finite()) {
            11
        } else {
            0
        }
    }

    /// Row 18 of a drain that feeds the initial values.
    fn row_of_feeding(&self) -> u8 {
        let start = self.settings.start;
        if self.count() + start > COUNT_LIMIT || self.internal() + start > SEEN_LIMIT {
            18
        } else {
            0
        }
    }

    /// Row 28: "point or transform in G with a time below the newest".
    fn row_of_gap(&self, timestamp: u64) -> u8 {
        if self.settings.gap() && timestamp < self.newest() {
            28
        } else {
            0
        }
    }

    fn row_of_point(&self, input: &[f32], timestamp: u64, out: usize) -> u8 {
        let row = match self.row_of_input(input) {
            0 => self.row_of_gap(timestamp),
            row => row,
        };
        if row != 0 || self.waits() {
            return row;
        }
        let drains = !self.rust.initial().0.is_empty() && self.values_seen() == self.settings.start;
        if drains && self.row_of_feeding() != 0 {
            18
        } else if out < self.settings.dimension() {
            20
        } else {
            0
        }
    }

    fn row_of_learn(&self, c: &Learn) -> u8 {
        let row = self.row_of_input(&c.input);
        if row != 0 {
            return row;
        }
        if c.timestamp < self.newest() {
            return 12;
        }
        let s = &self.settings;
        if self.waits() {
            let completes = self.values_seen() + 1 == s.start;
            return if completes && c.deviations_out < s.width() { 20 } else { 0 };
        }
        let wrong = |list: &Option<Vec<f32>>| list.as_ref().is_some_and(|l| l.len() != s.dimension());
        if wrong(&c.point) || wrong(&c.expected) {
            return 13;
        }
        if c.point.is_none() {
            return 0;
        }
        let graded = c.grade > 0.0;
        if graded && !(1 - s.k as i64 <= c.relative_index as i64 && c.relative_index <= 0) {
            return 14;
        }
        let feeds = self.values_seen() < s.stop;
        if self.values_seen() >= SEEN_LIMIT || self.internal() >= SEEN_LIMIT || (feeds && self.count() >= COUNT_LIMIT) {
            return 18;
        }
        let d = s.d as usize;
        let anomaly = graded && c.expected.is_some();
        if c.deviations_out < s.width() || (anomaly && (c.past_out < d || c.expected_out < d)) {
            return 20;
        }
        0
    }

    fn row_of_drain(&self) -> u8 {
        if self.values_seen() != self.settings.start {
            0
        } else if self.rust.initial().0.is_empty() {
            15
        } else {
            self.row_of_feeding()
        }
    }

    fn row_of_turn_back(&self, values: &[f32], upper: &[f32], lower: &[f32], outs: &[usize; 6]) -> u8 {
        let s = &self.settings;
        if values.len() != upper.len() || upper.len() != lower.len() {
            return 16;
        }
        if s.timed() {
            let blocks = values.len() / s.dimension();
            let numbers = blocks * (s.d * s.k) as usize;
            if blocks == 0 {
                16
            } else if outs[..3].iter().any(|&o| o < numbers) || outs[3..].iter().any(|&o| o < blocks) {
                20
            } else {
                0
            }
        } else {
            let cascades = s.method == DIFFERENCE || s.method == NORMALIZE_DIFFERENCE;
            let whole = !values.is_empty() && values.len() % s.d as usize == 0;
            if cascades && !whole {
                16
            } else {
                0
            }
        }
    }

    /// The row that refuses the call, or 0.
    pub fn row(&self, call: &Call) -> u8 {
        let short = |out: usize| if out < self.settings.width() { 20 } else { 0 };
        match call {
            Call::Point { input, timestamp, out } => self.row_of_point(input, *timestamp, *out),
            Call::Learn(c) => self.row_of_learn(c),
            Call::Drain => self.row_of_drain(),
            Call::Transform { input, timestamp, out } => {
                if input.len() as u64 != self.settings.d {
                    10
                } else if self.row_of_gap(*timestamp) != 0 {
                    28
                } else {
                    short(*out)
                }
            }
            Call::TurnBack { values, upper, lower, outs } => self.row_of_turn_back(values, upper, lower, outs),
            Call::Scale { out } | Call::Shift { out } | Call::Status { out } => short(*out),
        }
    }

    pub fn call(&mut self, call: &Call) -> Answer {
        let row = self.row(call);
        if row != 0 {
            return Answer::No(row);
        }
        let fed = self.feeds(call);
        let past = fed > 0 && self.count + fed > RUST_COUNT;
        let before = self.settings.gap().then(|| Before::of(self));
        let answer = if past { self.call_past(call) } else { self.asked(call) };
        self.count += fed;
        match before {
            Some(before) => self.by_gap(call, before, answer),
            None => answer,
        }
    }

    /// The Rust's answer, where no row refuses the call.
    pub fn asked(&mut self, call: &Call) -> Answer {
        match call {
            Call::Point { input, timestamp, .. } => {
                let given = self.rust.shingled_point(None as Option<&RCFLarge<u64, u64>>, input, *timestamp).expect("no row refuses");
                given.map_or(Answer::None, |p| Answer::Numbers(all32(&p)))
            }
            Call::Learn(c) => self.learn(c),
            Call::Drain => {
                self.rust.drain(None).expect("no row refuses");
                Answer::Done
            }
            Call::Transform { input, timestamp, .. } => Answer::Numbers(all32(&self.rust.transform(input, *timestamp))),
            Call::TurnBack { values, upper, lower, .. } => self.turn_back(values, upper, lower),
            Call::Scale { .. } => Answer::Numbers(all32(&self.rust.scale())),
            Call::Shift { .. } => Answer::Numbers(all32(&self.rust.shift())),
            Call::Status { .. } => Answer::Status {
                values_seen: self.values_seen(),
                internal: self.internal(),
                ready: self.rust.is_ready(),
                d: self.rust.input_dimensions() as u64,
                k: self.rust.shingle_size() as u64,
                dimension: self.rust.get_dimension() as u64,
                start: self.rust.start_normalization() as u64,
                panel: self.count(),
                deviations: all32(&self.rust.difference_deviations()),
            },
        }
    }

    pub fn learn(&mut self, c: &Learn) -> Answer {
        let mut result = Descriptor {
            rcf_point: c.point.clone(),
            anomaly_grade: c.grade,
            relative_index: c.relative_index,
            expected_rcf_point: c.expected.clone(),
            ..Default::default()
        };
        self.rust.post_process(&mut result, &c.input, c.timestamp, &Descriptor::default()).expect("no row refuses");
        Answer::Learned {
            deviations: result.deviations_post.map(|d| all32(&d)),
            anomaly: result.last_anomaly.map(|a| Anomaly {
                past_values: all32(&a.past_values),
                past_timestamp: a.past_timestamp,
                expected_values: all32(&a.expected_values_list[0]),
            }),
        }
    }

    fn turn_back(&self, values: &[f32], upper: &[f32], lower: &[f32]) -> Answer {
        let range = RangeVector { values: values.to_vec(), upper: upper.to_vec(), lower: lower.to_vec() };
        let (numbers, times) = self.rust.invert_extrapolation(range).expect("no row refuses");
        Answer::Ranges {
            numbers: [all32(&numbers.values), all32(&numbers.upper), all32(&numbers.lower)],
            times: times.map(|t| [all64(&t.values), all64(&t.upper), all64(&t.lower)]),
        }
    }
}
