//! The history sheet of document 01, on its own, with request #113's codes and request #114's mode G: entries, the refusals they decide, and the text, in closed form.
//! It is fed the settings and the calls, never an answer, and uses nothing of the Rust's code.
use crate::bits::{hex32, hex64};
use crate::calls::{Call, Learn, Mode, Settings, COUNT_LIMIT, DIFFERENCE, NORMALIZE, NORMALIZE_DIFFERENCE, SEEN_LIMIT};

#[derive(Clone, Debug)]
pub enum Entry {
    /// W(x, t)
    Initial(Vec<f32>, u64),
    /// L(x, t, y)
    Learned(Vec<f32>, u64, Vec<f32>),
    /// F
    Drained,
}
use Entry::{Drained, Initial, Learned};

#[derive(Clone, Debug)]
pub struct History {
    pub settings: Settings,
    pub entries: Vec<Entry>,
}

/// "A running statistic": weight, sum and sum of squares; its discount and its count are given from outside.
#[derive(Clone, Copy, Default)]
struct Statistic {
    weight: f64,
    sum: f64,
    squares: f64,
}

impl Statistic {
    /// "The factor is 1.0 when discount is 0, otherwise the smaller of 1 − discount and 1 − 1/(count + 2)."
    fn update(&mut self, discount: f64, count: u64, score: f64) {
        let slow = 1.0 - discount;
        let young = 1.0 - 1.0 / ((count + 2) as f64);
        let factor = if discount == 0.0 {
            1.0
        } else if slow < young {
            slow
        } else {
            young
        };
        self.weight = self.weight * factor + 1.0;
        self.sum = self.sum * factor + score;
        self.squares = self.squares * factor + score * score;
    }

    fn mean(&self) -> f64 {
        if self.weight <= 0.0 {
            0.0
        } else {
            self.sum / self.weight
        }
    }

    fn deviation(&self) -> f64 {
        if self.weight <= 0.0 {
            return 0.0;
        }
        let mean = self.mean();
        let variance = self.squares / self.weight - mean * mean;
        if variance > 0.0 {
            variance.sqrt()
        } else {
            0.0
        }
    }
}

/// "Five statistics a channel: value; difference from the previous; deviation of the first; mean of the second; deviation of the second."
#[derive(Clone, Copy, Default)]
struct Five([Statistic; 5]);

impl Five {
    fn feed(&mut self, decay: f64, count: u64, value: f64, difference: f64) {
        let slow = 0.1 * decay;
        self.0[0].update(decay, count, value);
        self.0[1].update(decay, count, difference);
        self.0[2].update(slow, count, self.0[0].deviation());
        self.0[3].update(slow, count, self.0[1].mean());
        self.0[4].update(slow, count, self.0[1].deviation());
    }
}

/// The statistics after some readings fed, and their number.
struct Fed {
    channels: Vec<Five>,
    time: Five,
    count: u64,
}

impl Fed {
    fn new(settings: &Settings) -> Fed {
        Fed { channels: vec![Five::default(); settings.d as usize], time: Five::default(), count: 0 }
    }

    fn feed(&mut self, decay: f64, input: &[f32], previous: &[f32], time: u64, previous_time: u64) {
        for (i, five) in self.channels.iter_mut().enumerate() {
            five.feed(decay, self.count, input[i] as f64, (input[i] - previous[i]) as f64);
        }
        self.time.feed(decay, self.count, time as f64, (time - previous_time) as f64);
        self.count += 1;
    }
}

impl History {
    pub fn new(settings: &Settings) -> History {
        History { settings: settings.clone(), entries: Vec::new() }
    }

    /// The W's, with their times.
    fn initial(&self) -> Vec<(&[f32], u64)> {
        self.entries.iter().filter_map(|e| if let Initial(x, t) = e { Some((&x[..], *t)) } else { None }).collect()
    }

    /// The L's.
    fn learned(&self) -> Vec<(&[f32], u64, &[f32])> {
        self.entries.iter().filter_map(|e| if let Learned(x, t, y) = e { Some((&x[..], *t, &y[..])) } else { None }).collect()
    }

    fn drained(&self) -> bool {
        self.entries.iter().any(|e| matches!(e, Drained))
    }

    /// "values_seen = W's + L's."
    fn values_seen(&self) -> u64 {
        (self.initial().len() + self.learned().len()) as u64
    }

    /// "internal = L's, plus W's if F stands."
    fn internal(&self) -> u64 {
        let initial = if self.drained() { self.initial().len() } else { 0 };
        (self.learned().len() + initial) as u64
    }

    /// "W's without F wait. An L before F strands them": both are the `buf` lines.
    fn undrained(&self) -> Vec<(&[f32], u64)> {
        if self.drained() {
            Vec::new()
        } else {
            self.initial()
        }
    }

    /// "The watch waits while the method is NORMALIZE or NORMALIZE_DIFFERENCE and values_seen < start."
    fn waits(&self) -> bool {
        self.settings.method >= NORMALIZE && self.values_seen() < self.settings.start
    }

    /// "Inputs and times: zeros; if F, the first W, then all W's; then L's", before the last `n` learned ones.
    fn shingle(&self, learned: usize) -> (Vec<Vec<f32>>, Vec<u64>) {
        let k = self.settings.k as usize;
        let mut inputs = vec![vec![0.0f32; self.settings.d as usize]; k];
        let mut times = vec![0u64; k];
        if self.drained() {
            let initial = self.initial();
            for &(x, t) in initial[..1].iter().chain(&initial) {
                inputs.push(x.to_vec());
                times.push(t);
            }
        }
        for &(x, t, _) in &self.learned()[..learned] {
            inputs.push(x.to_vec());
            times.push(t);
        }
        (inputs.split_off(inputs.len() - k), times.split_off(times.len() - k))
    }

    /// Each W with its previous: "the W before, the first with itself".
    fn initial_pairs(&self) -> Vec<((&[f32], u64), (&[f32], u64))> {
        let initial = self.initial();
        (0..initial.len()).map(|i| (initial[i], initial[i.saturating_sub(1)])).collect()
    }

    fn feed_initial(&self) -> Fed {
        let mut fed = Fed::new(&self.settings);
        for ((x, t), (previous, previous_time)) in self.initial_pairs() {
            fed.feed(self.settings.decay, x, previous, t, previous_time);
        }
        fed
    }

    /// "F feeds the statistics each W in order […]. An L feeds them if values_seen before it is below stop, previous = newest input and time."
    fn fed(&self) -> Fed {
        let s = &self.settings;
        let mut fed = if self.drained() { self.feed_initial() } else { Fed::new(s) };
        for (n, &(x, t, _)) in self.learned().iter().enumerate() {
            let before = (self.initial().len() + n) as u64;
            if before < s.stop {
                let (inputs, times) = self.shingle(n);
                fed.feed(s.decay, x, inputs.last().unwrap(), t, *times.last().unwrap());
            }
        }
        fed
    }

    /// Request #102: "The sheet's 'readings fed' defines the panel number". Counted from the entries, without feeding anything: all W's where F stands, and each
    /// L that came while values_seen was below stop.
    pub fn panel(&self) -> u64 {
        let (mut seen, mut initial, mut fed) = (0, 0, 0);
        for entry in &self.entries {
            match entry {
                Initial(..) => initial += 1,
                Learned(..) if seen < self.settings.stop => fed += 1,
                Learned(..) => {}
                Drained => fed += initial,
            }
            seen += !matches!(entry, Drained) as u64;
        }
        fed
    }

    /// "Points: zeros; F shifts in each W's transform, made with all W's fed and its previous as above; each L replaces them by y."
    fn point(&self) -> Vec<f32> {
        if let Some(&(_, _, y)) = self.learned().last() {
            return y.to_vec();
        }
        let mut point = vec![0.0f32; self.settings.dimension()];
        if self.drained() {
            let fed = self.feed_initial();
            for (w, previous) in self.initial_pairs() {
                point.extend(self.transformed(&fed, w, previous));
            }
        }
        point.split_off(point.len() - self.settings.dimension())
    }

    /// A reading in the six methods, and its time in TIME_AUGMENTED, its gap in mode G.
    fn transformed(&self, fed: &Fed, (x, t): (&[f32], u64), (previous, previous_time): (&[f32], u64)) -> Vec<f32> {
        let s = &self.settings;
        let mut answer: Vec<f32> = (0..x.len())
            .map(|i| {
                let mean = fed.channels[i].0[0].mean() as f32;
                let scale = (fed.channels[i].0[2].mean() + 1.0) as f32;
                match s.method {
                    1 => x[i] * s.weights[i],
                    2 => x[i] - previous[i],
                    3 => x[i] - mean,
                    4 => (x[i] - mean) / scale,
                    5 => (x[i] - previous[i]) / scale,
                    _ => x[i],
                }
            })
            .collect();
        let scale = fed.time.0[4].mean() + 1.0;
        match s.mode {
            Mode::TimeAugmented => answer.push((t as f64 - previous_time as f64 * s.weight_time as f64 / scale) as f32),
            // Request #114: "(timestamp − newest time) × weight_time / timescale, […] in F each W's newest is the W before, the first its own".
            Mode::GapAugmented => answer.push(((t - previous_time) as f64 * s.weight_time as f64 / scale) as f32),
            _ => {}
        }
        answer
    }

    /// Row 12's newest: "last in `tim`; with internal 0 the last `buf`, else 0".
    fn newest(&self) -> u64 {
        if self.internal() > 0 {
            *self.shingle(self.learned().len()).1.last().unwrap()
        } else {
            self.undrained().last().map_or(0, |w| w.1)
        }
    }

    /// Request #114, row 28: "point or transform in G with a time below the newest".
    fn falls(&self, timestamp: u64) -> bool {
        self.settings.mode == Mode::GapAugmented && timestamp < self.newest()
    }

    /// Row 18 where F would stand next.
    fn feeding_passes(&self) -> bool {
        let start = self.settings.start;
        self.fed().count + start > COUNT_LIMIT || self.internal() + start > SEEN_LIMIT
    }

    /// "exactly start W's and start > 0"
    fn complete(&self) -> bool {
        let all_initial = self.entries.iter().all(|e| matches!(e, Initial(..)));
        all_initial && self.entries.len() as u64 == self.settings.start && self.settings.start > 0
    }

    fn row_of_learn(&self, c: &Learn) -> u8 {
        let s = &self.settings;
        let (d, dimension) = (s.d as usize, s.dimension());
        let waits = self.waits();
        let adds = waits || c.point.is_some();
        let anomaly = !waits && c.point.is_some() && c.grade > 0.0;
        let feeds = adds && !waits && self.values_seen() < s.stop;
        let writes_deviations = (waits && self.values_seen() + 1 == s.start) || (!waits && adds);
        let tests = [
            (10, c.input.len() != d),
            (11, c.input.iter().any(|x| !x.is_finite())),
            (12, c.timestamp < self.newest()),
            (13, !waits && c.point.iter().chain(&c.expected).any(|p| p.len() != dimension)),
            (14, anomaly && (c.relative_index > 0 || (c.relative_index as i64) < 1 - s.k as i64)),
            (18, adds && self.values_seen() + 1 > SEEN_LIMIT),
            (18, adds && !waits && self.internal() + 1 > SEEN_LIMIT),
            (18, feeds && self.fed().count + 1 > COUNT_LIMIT),
            (20, writes_deviations && c.deviations_out < s.width()),
            (20, anomaly && c.expected.is_some() && c.past_out.min(c.expected_out) < d),
        ];
        first(&tests)
    }

    fn row_of_turn_back(&self, values: &[f32], upper: &[f32], lower: &[f32], outs: &[usize; 6]) -> u8 {
        let s = &self.settings;
        let lengths = [values.len(), upper.len(), lower.len()];
        let n = lengths[0];
        let cascades = s.method == DIFFERENCE || s.method == NORMALIZE_DIFFERENCE;
        let blocks = n / s.dimension();
        let numbers = n / s.dimension() * (s.d * s.k) as usize;
        first(&[
            (16, lengths.iter().any(|&l| l != n)),
            (16, !s.timed() && cascades && (n == 0 || n % s.d as usize != 0)),
            (16, s.timed() && n < s.dimension()),
            (20, s.timed() && outs[..3].iter().any(|&o| o < numbers)),
            (20, s.timed() && outs[3..].iter().any(|&o| o < blocks)),
        ])
    }

    /// The row that refuses the call, or 0.
    pub fn row(&self, call: &Call) -> u8 {
        let s = &self.settings;
        let d = s.d as usize;
        match call {
            Call::Point { input, timestamp, out } => first(&[
                (10, input.len() != d),
                (11, input.iter().any(|x| !x.is_finite())),
                (28, self.falls(*timestamp)),
                (18, self.complete() && self.feeding_passes()),
                (20, !self.waits() && *out < s.dimension()),
            ]),
            Call::Learn(c) => self.row_of_learn(c),
            Call::Drain => {
                let at_start = self.values_seen() == s.start;
                first(&[(15, at_start && self.undrained().is_empty()), (18, self.complete() && self.feeding_passes())])
            }
            Call::Transform { input, timestamp, out } => first(&[(10, input.len() != d), (28, self.falls(*timestamp)), (20, *out < s.width())]),
            Call::TurnBack { values, upper, lower, outs } => self.row_of_turn_back(values, upper, lower, outs),
            Call::Scale { out } | Call::Shift { out } | Call::Status { out } => first(&[(20, *out < s.width())]),
        }
    }

    /// Adds what the call adds; gives the row that refused it, or 0.
    pub fn call(&mut self, call: &Call) -> u8 {
        let row = self.row(call);
        if row != 0 {
            return row;
        }
        match call {
            Call::Learn(c) if self.waits() => self.entries.push(Initial(c.input.clone(), c.timestamp)),
            Call::Learn(c) => {
                if let Some(y) = &c.point {
                    self.entries.push(Learned(c.input.clone(), c.timestamp, y.clone()));
                }
            }
            Call::Drain | Call::Point { .. } if self.complete() => self.entries.push(Drained),
            _ => {}
        }
        0
    }

    /// The text, written from the settings and the entries.
    pub fn text(&self) -> String {
        let s = &self.settings;
        let fed = self.fed();
        let (inputs, times) = self.shingle(self.learned().len());
        let mode = match s.mode {
            Mode::Standard => "S",
            Mode::TimeAugmented => "T",
            Mode::GapAugmented => "G",
            Mode::StreamingImpute => panic!("row 1"),
        };
        let mut lines = vec![
            format!("set\t{mode}\t{}\t{}\t{}\t{}\t{}\t{}\t{}", s.method, s.d, s.k, s.start, s.stop, hex64(s.decay), hex32(s.weight_time)),
            line("wgt", s.weights.iter().map(|&w| hex32(w))),
            line("chn", s.codes.iter().map(u16::to_string)),
            format!("cnt\t{}\t{}\t{}", self.values_seen(), self.internal(), fed.count),
        ];
        let dev = |s: &Statistic| line("dev", [s.weight, s.sum, s.squares].iter().map(|&x| hex64(x)));
        for statistic in 0..5 {
            lines.extend(fed.channels.iter().map(|five| dev(&five.0[statistic])));
        }
        lines.extend(fed.time.0.iter().map(dev));
        lines.push(line("inp", inputs.concat().iter().map(|&x| hex32(x))));
        lines.push(line("pnt", self.point().iter().map(|&x| hex32(x))));
        lines.push(line("tim", times.iter().map(u64::to_string)));
        for (x, t) in self.undrained() {
            lines.push(line(&format!("buf\t{t}"), x.iter().map(|&v| hex32(v))));
        }
        lines.concat_lines()
    }
}

/// The first row whose test holds, or 0.
fn first(tests: &[(u8, bool)]) -> u8 {
    tests.iter().find(|t| t.1).map_or(0, |t| t.0)
}

fn line(name: &str, fields: impl Iterator<Item = String>) -> String {
    fields.fold(name.to_string(), |all, field| all + "\t" + &field)
}

trait ConcatLines {
    fn concat_lines(&self) -> String;
}

impl ConcatLines for Vec<String> {
    fn concat_lines(&self) -> String {
        self.iter().fold(String::new(), |all, line| all + line + "\n")
    }
}
