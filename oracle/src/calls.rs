//! Settings, calls and answers: what a list of calls is made of (demand 3), with lent outputs given by their lengths.

#[derive(Clone, Copy, Debug, PartialEq)]
pub enum Mode {
    Standard,
    TimeAugmented,
    StreamingImpute,
    /// Request #114, which the Rust has not.
    GapAugmented,
}

pub const NONE: u8 = 0;
pub const WEIGHTED: u8 = 1;
pub const DIFFERENCE: u8 = 2;
pub const SUBTRACT_MA: u8 = 3;
pub const NORMALIZE: u8 = 4;
pub const NORMALIZE_DIFFERENCE: u8 = 5;

/// Request #101: count + 2 is exact as f64 up to 2^53.
pub const COUNT_LIMIT: u64 = (1 << 53) - 2;
pub const SEEN_LIMIT: u64 = (1 << 63) - 1;

#[derive(Clone, Debug)]
pub struct Settings {
    pub mode: Mode,
    pub method: u8,
    pub d: u64,
    pub k: u64,
    pub start: u64,
    pub stop: u64,
    pub decay: f64,
    pub weight_time: f32,
    pub weights: Vec<f32>,
    /// One for each channel (request #113); the Rust knows none.
    pub codes: Vec<u16>,
}

impl Settings {
    /// Rows 1 to 9 in their order; 0 where none refuses.
    pub fn row(&self) -> u8 {
        if self.mode == Mode::StreamingImpute {
            1
        } else if self.d == 0 {
            2
        } else if self.k == 0 {
            3
        } else if self.d > 16 || self.k > 64 {
            4
        } else if self.weights.len() as u64 != self.d || self.codes.len() as u64 != self.d {
            5
        } else if !(self.decay >= 0.0 && self.decay < 1.0) {
            6
        } else if self.start > self.stop {
            7
        } else if self.start >= 2000 {
            8
        } else if self.method == NONE && !self.weights.iter().all(|&w| w == 1.0) {
            9
        } else {
            0
        }
    }

    /// Codes of zeros; none beyond the seventeenth, since row 4 then comes first.
    pub fn zero_codes(&self) -> Vec<u16> {
        vec![0; self.d.min(17) as usize]
    }

    /// Whether a block has an element for the time.
    pub fn timed(&self) -> bool {
        self.mode == Mode::TimeAugmented || self.gap()
    }

    /// Whether that element is a gap.
    pub fn gap(&self) -> bool {
        self.mode == Mode::GapAugmented
    }

    /// The letter of the `set` line; none for the mode that row 1 refuses.
    pub fn letter(&self) -> Option<&'static str> {
        match self.mode {
            Mode::Standard => Some("S"),
            Mode::TimeAugmented => Some("T"),
            Mode::GapAugmented => Some("G"),
            Mode::StreamingImpute => None,
        }
    }

    /// `get_dimension`
    pub fn dimension(&self) -> usize {
        let width = if self.timed() { self.d + 1 } else { self.d };
        (width * self.k) as usize
    }

    /// Channels, and one more for time in TIME_AUGMENTED and in mode G: the length of transform's, scale's, shift's and the deviations' answer.
    pub fn width(&self) -> usize {
        (if self.timed() { self.d + 1 } else { self.d }) as usize
    }
}

#[derive(Clone, Debug)]
pub enum Call {
    /// `shingled_point`; `out` is the length of the lent output.
    Point {
        input: Vec<f32>,
        timestamp: u64,
        out: usize,
    },
    Learn(Learn),
    Drain,
    Transform {
        input: Vec<f32>,
        timestamp: u64,
        out: usize,
    },
    /// `invert_extrapolation`; the outputs (values, upper, lower of the numbers, then of the times) are lent where blocks have times only.
    TurnBack {
        values: Vec<f32>,
        upper: Vec<f32>,
        lower: Vec<f32>,
        outs: [usize; 6],
    },
    Scale {
        out: usize,
    },
    Shift {
        out: usize,
    },
    Status {
        out: usize,
    },
}

/// `post_process`: the fields of the descriptor that it reads, and the lengths of its three outputs.
#[derive(Clone, Debug)]
pub struct Learn {
    pub input: Vec<f32>,
    pub timestamp: u64,
    pub point: Option<Vec<f32>>,
    pub grade: f32,
    pub relative_index: i32,
    pub expected: Option<Vec<f32>>,
    pub deviations_out: usize,
    pub past_out: usize,
    pub expected_out: usize,
}

/// What a call gives back: the return, and what it wrote to the outputs.
#[derive(Clone, Debug, PartialEq)]
pub enum Answer {
    No(u8),
    /// A point while waiting.
    None,
    Done,
    Learned {
        deviations: Option<Vec<u32>>,
        anomaly: Option<Anomaly>,
    },
    Numbers(Vec<u32>),
    Ranges {
        numbers: [Vec<u32>; 3],
        times: Option<[Vec<u64>; 3]>,
    },
    Status {
        values_seen: u64,
        internal: u64,
        ready: bool,
        d: u64,
        k: u64,
        dimension: u64,
        start: u64,
        /// Request #102: how many readings the statistics were fed. The Rust has no panel.
        panel: u64,
        deviations: Vec<u32>,
    },
}

#[derive(Clone, Debug, PartialEq)]
pub struct Anomaly {
    pub past_values: Vec<u32>,
    pub past_timestamp: u64,
    pub expected_values: Vec<u32>,
}

impl Answer {
    pub fn row(&self) -> u8 {
        match self {
            Answer::No(row) => *row,
            _ => 0,
        }
    }
}
