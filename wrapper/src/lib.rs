//! The preprocessor of a streaming anomaly detector, over the proved static library: safe, and with memory of its own.
//!
//! Several roles may share a preprocessor: `Rights` says what each may do and which one calls. By default every role may do everything.
//!
//! A call that is refused returns `Err(Refusal(row))`, with document 01's row, and has changed nothing.
mod raw;

/// The row of a refused call, as include/veerycouch.h lists them.
#[derive(Clone, Copy, Debug, PartialEq, Eq)]
pub struct Refusal(pub u64);

impl std::fmt::Display for Refusal {
    fn fmt(&self, f: &mut std::fmt::Formatter) -> std::fmt::Result {
        write!(f, "refused by row {}", self.0)
    }
}

impl std::error::Error for Refusal {}

fn checked(row: u64) -> Result<(), Refusal> {
    if row == 0 {
        Ok(())
    } else {
        Err(Refusal(row))
    }
}

/// What a role may do: its place in the role's cells.
#[derive(Clone, Copy, Debug, PartialEq, Eq)]
#[repr(usize)]
pub enum Right {
    See = 0,
    Learn = 1,
    Save = 2,
    Restore = 3,
}

/// Every role may do everything.
pub const EVERY_RIGHT: [u8; 16] = [1; 16];

/// The table of four roles by four rights, and the role that calls: the right r of a role stands in `table[4 * role + r]`, 1 granted and 0 withheld. The fields
/// are open so that a table of any length and any cells, and any role, can be handed in; the library refuses by 22 what is none.
#[derive(Clone, Debug, PartialEq, Eq)]
pub struct Rights {
    pub table: Vec<u8>,
    pub role: u64,
}

impl Default for Rights {
    fn default() -> Rights {
        Rights { table: EVERY_RIGHT.to_vec(), role: 0 }
    }
}

impl Rights {
    /// Each role with just these rights, and role 0 to call.
    pub fn granting(roles: [&[Right]; 4]) -> Rights {
        let mut table = vec![0; 16];
        for (role, rights) in roles.iter().enumerate() {
            for &right in rights.iter() {
                table[4 * role + right as usize] = 1;
            }
        }
        Rights { table, role: 0 }
    }
}

/// Their numbers are those of the head's words.
#[derive(Clone, Copy, Debug, PartialEq, Eq)]
#[repr(u64)]
pub enum ForestMode {
    Standard = 0,
    TimeAugmented = 1,
    StreamingImpute = 2,
    /// The time element is the gap since the newest time.
    GapAugmented = 3,
}

#[derive(Clone, Copy, Debug, PartialEq, Eq)]
#[repr(u64)]
pub enum TransformMethod {
    None = 0,
    Weighted = 1,
    Difference = 2,
    SubtractMa = 3,
    Normalize = 4,
    NormalizeDifference = 5,
}

#[derive(Clone, Debug)]
pub struct Settings {
    pub forest_mode: ForestMode,
    pub transform_method: TransformMethod,
    pub input_dimensions: usize,
    pub shingle_size: usize,
    pub start_normalization: usize,
    pub stop_normalization: usize,
    pub transform_decay: f64,
    pub weight_time: f32,
    pub weights: Vec<f32>,
    /// One for each channel.
    pub codes: Vec<u16>,
}

/// What the library asks to be lent: see include/veerycouch.h for the lengths. The fields are open so that memory of any length and any
/// contents can be handed in; the library refuses what it cannot use.
#[derive(Clone, Debug)]
pub struct Memory {
    pub head: Vec<u64>,
    pub statistics: Vec<f64>,
    pub last_shingled_input: Vec<f32>,
    pub last_shingled_point: Vec<f32>,
    pub previous_timestamps: Vec<u64>,
    pub initial_values: Vec<f32>,
    pub initial_timestamps: Vec<u64>,
}

pub const HEAD_WORDS: usize = 44;

impl Memory {
    /// Enough for these settings; settings past the limits get memory as of the limits, and `build` refuses them.
    pub fn sized(d: usize, k: usize, start: usize) -> Memory {
        let (d, k, start) = (d.min(16), k.min(64), start.min(1999));
        Memory {
            head: vec![0; HEAD_WORDS],
            statistics: vec![0.0; 3 * (5 * d + 5)],
            last_shingled_input: vec![0.0; d * k],
            last_shingled_point: vec![0.0; (d + 1) * k],
            previous_timestamps: vec![0; k],
            initial_values: vec![0.0; start * d],
            initial_timestamps: vec![0; start],
        }
    }
}

/// What `post_process` is given beside the reading.
#[derive(Clone, Copy, Debug, Default)]
pub struct Learn<'a> {
    /// The point of a forest, if any.
    pub y: Option<&'a [f32]>,
    pub expected: Option<&'a [f32]>,
    pub grade: f32,
    pub relative_index: i32,
}

/// The numbers that `post_process` answers beside its lists.
#[derive(Clone, Copy, Debug, Default, PartialEq)]
pub struct Learned {
    pub written: bool,
    pub has_anomaly: bool,
    pub past_timestamp: u64,
    pub likelihood: f32,
}

/// A forecast's values and bounds, or times and bounds.
pub struct Ranges<'a, T> {
    pub values: &'a mut [T],
    pub upper: &'a mut [T],
    pub lower: &'a mut [T],
}

macro_rules! lent {
    (&mut $m:expr) => {
        (
            $m.statistics.as_mut_ptr(), $m.statistics.len(), $m.last_shingled_input.as_mut_ptr(), $m.last_shingled_input.len(),
            $m.last_shingled_point.as_mut_ptr(), $m.last_shingled_point.len(), $m.previous_timestamps.as_mut_ptr(), $m.previous_timestamps.len(),
        )
    };
    (& $m:expr) => {
        (
            $m.statistics.as_ptr(), $m.statistics.len(), $m.last_shingled_input.as_ptr(), $m.last_shingled_input.len(),
            $m.last_shingled_point.as_ptr(), $m.last_shingled_point.len(), $m.previous_timestamps.as_ptr(), $m.previous_timestamps.len(),
        )
    };
}

macro_rules! getter {
    ($doc:literal, $name:ident, $place:literal) => {
        #[doc = $doc]
        pub fn $name(&self) -> Result<u64, Refusal> {
            Ok(self.numbers()?[$place])
        }
    };
}

macro_rules! list {
    ($doc:literal, $name:ident, $raw:ident) => {
        #[doc = $doc]
        pub fn $name(&self, output: &mut [f32]) -> Result<(), Refusal> {
            let m = &self.memory;
            let (a, an, b, bn, c, cn, d, dn) = lent!(&m);
            // SAFETY: every part is a slice that lives through the call; the output is apart from the memory, which is borrowed shared.
            checked(unsafe {
                raw::$raw(
                    self.rights.table.as_ptr(), self.rights.table.len(), self.rights.role, m.head.as_ptr(), m.head.len(), a, an, b, bn, c, cn, d, dn, m.initial_values.as_ptr(), m.initial_values.len(),
                    m.initial_timestamps.as_ptr(), m.initial_timestamps.len(), output.as_mut_ptr(), output.len(),
                )
            })
        }
    };
}

/// A preprocessor with its memory, and the rights by which it is called.
#[derive(Clone, Debug)]
pub struct Preprocessor {
    memory: Memory,
    rights: Rights,
}

impl Preprocessor {
    pub fn build(settings: &Settings) -> Result<Preprocessor, Refusal> {
        let memory = Memory::sized(settings.input_dimensions, settings.shingle_size, settings.start_normalization);
        Preprocessor::build_in(settings, memory).map_err(|(refusal, _)| refusal)
    }

    /// In memory of any length and contents, which a refusal hands back as it was.
    pub fn build_in(settings: &Settings, memory: Memory) -> Result<Preprocessor, (Refusal, Memory)> {
        Preprocessor::build_by_numbers(settings.forest_mode as u64, settings.transform_method as u64, settings, memory)
    }

    /// With the mode and the method as any numbers.
    pub fn build_by_numbers(mode: u64, method: u64, settings: &Settings, mut memory: Memory) -> Result<Preprocessor, (Refusal, Memory)> {
        let m = &mut memory;
        let (a, an, b, bn, c, cn, d, dn) = lent!(&mut m);
        // SAFETY: every part is a slice of its own that lives through the call.
        let row = unsafe {
            raw::veerycouch_build(
                mode, method, settings.input_dimensions, settings.shingle_size, settings.start_normalization, settings.stop_normalization,
                settings.transform_decay, settings.weight_time, settings.weights.as_ptr(), settings.weights.len(), settings.codes.as_ptr(), settings.codes.len(),
                m.head.as_mut_ptr(), m.head.len(), a, an, b, bn, c, cn, d, dn, m.initial_values.as_ptr(), m.initial_values.len(), m.initial_timestamps.as_ptr(), m.initial_timestamps.len(),
            )
        };
        match checked(row) {
            Ok(()) => Ok(Preprocessor::from_memory(memory)),
            Err(refusal) => Err((refusal, memory)),
        }
    }

    /// Memory that some other library, or an older run, has filled: the calls refuse what no `build` made.
    pub fn from_memory(memory: Memory) -> Preprocessor {
        Preprocessor { memory, rights: Rights::default() }
    }

    /// By which table and which role the calls are made from now on.
    pub fn set_rights(&mut self, rights: Rights) {
        self.rights = rights;
    }

    pub fn rights(&self) -> &Rights {
        &self.rights
    }

    /// Another role of the same table.
    pub fn set_role(&mut self, role: u64) {
        self.rights.role = role;
    }

    pub fn memory(&self) -> &Memory {
        &self.memory
    }

    pub fn into_memory(self) -> Memory {
        self.memory
    }

    /// Feeds the initial values, once they are complete.
    pub fn drain(&mut self) -> Result<(), Refusal> {
        let m = &mut self.memory;
        let (a, an, b, bn, c, cn, d, dn) = lent!(&mut m);
        // SAFETY: every part is a slice of its own that lives through the call.
        checked(unsafe {
            raw::veerycouch_drain(
                self.rights.table.as_ptr(), self.rights.table.len(), self.rights.role, m.head.as_mut_ptr(), m.head.len(), a, an, b, bn, c, cn, d, dn, m.initial_values.as_ptr(), m.initial_values.len(),
                m.initial_timestamps.as_ptr(), m.initial_timestamps.len(),
            )
        })
    }

    /// The shingled point of a reading, or none while waiting.
    pub fn shingled_point(&mut self, input: &[f32], timestamp: u64) -> Result<Option<Vec<f32>>, Refusal> {
        let mut output = vec![0.0; self.get_dimension()? as usize];
        Ok(self.shingled_point_into(input, timestamp, &mut output)?.then_some(output))
    }

    /// Whether a point was given; it then stands in the first `get_dimension` numbers of the output.
    pub fn shingled_point_into(&mut self, input: &[f32], timestamp: u64, output: &mut [f32]) -> Result<bool, Refusal> {
        let m = &mut self.memory;
        let mut given = 0;
        let (a, an, b, bn, c, cn, d, dn) = lent!(&mut m);
        // SAFETY: every part is a slice of its own that lives through the call.
        checked(unsafe {
            raw::veerycouch_shingled_point(
                self.rights.table.as_ptr(), self.rights.table.len(), self.rights.role, m.head.as_mut_ptr(), m.head.len(), a, an, b, bn, c, cn, d, dn, m.initial_values.as_ptr(), m.initial_values.len(),
                m.initial_timestamps.as_ptr(), m.initial_timestamps.len(), input.as_ptr(), input.len(), timestamp, &mut given, output.as_mut_ptr(),
                output.len(),
            )
        })?;
        Ok(given != 0)
    }

    /// Learns a reading, or keeps it while waiting. The deviations, the past values and the expected values go into the lists.
    pub fn post_process(
        &mut self, input: &[f32], timestamp: u64, learn: Learn, deviations: &mut [f32], past: &mut [f32], expected: &mut [f32],
    ) -> Result<Learned, Refusal> {
        let m = &mut self.memory;
        let (y, e) = (learn.y.unwrap_or(&[]), learn.expected.unwrap_or(&[]));
        let (mut written, mut has_anomaly, mut past_timestamp, mut likelihood) = (0, 0, 0, 0.0);
        let (a, an, b, bn, c, cn, d, dn) = lent!(&mut m);
        // SAFETY: every part is a slice of its own that lives through the call.
        checked(unsafe {
            raw::veerycouch_post_process(
                self.rights.table.as_ptr(), self.rights.table.len(), self.rights.role, m.head.as_mut_ptr(), m.head.len(), a, an, b, bn, c, cn, d, dn, m.initial_values.as_mut_ptr(), m.initial_values.len(),
                m.initial_timestamps.as_mut_ptr(), m.initial_timestamps.len(), input.as_ptr(), input.len(), timestamp, learn.y.is_some() as u64,
                y.as_ptr(), y.len(), learn.expected.is_some() as u64, e.as_ptr(), e.len(), learn.grade, learn.relative_index,
                deviations.as_mut_ptr(), deviations.len(), past.as_mut_ptr(), past.len(), expected.as_mut_ptr(), expected.len(),
                &mut written, &mut has_anomaly, &mut past_timestamp, &mut likelihood,
            )
        })?;
        Ok(Learned { written: written != 0, has_anomaly: has_anomaly != 0, past_timestamp, likelihood })
    }

    /// A reading, transformed, into the first numbers of the output.
    pub fn transform(&self, input: &[f32], timestamp: u64, output: &mut [f32]) -> Result<(), Refusal> {
        let m = &self.memory;
        let (a, an, b, bn, c, cn, d, dn) = lent!(&m);
        // SAFETY: every part is a slice that lives through the call; the output is apart from the rest.
        checked(unsafe {
            raw::veerycouch_transform(
                self.rights.table.as_ptr(), self.rights.table.len(), self.rights.role, m.head.as_ptr(), m.head.len(), a, an, b, bn, c, cn, d, dn, m.initial_values.as_ptr(), m.initial_values.len(),
                m.initial_timestamps.as_ptr(), m.initial_timestamps.len(), input.as_ptr(), input.len(), timestamp, output.as_mut_ptr(), output.len(),
            )
        })
    }

    list!("The scale of each channel.", scale, veerycouch_scale);
    list!("The shift of each channel.", shift, veerycouch_shift);
    list!("The deviation of the differences of each channel.", difference_deviations, veerycouch_difference_deviations);

    /// A forecast turned back: in STANDARD in its own place, in TIME_AUGMENTED into the outputs.
    pub fn invert_extrapolation(&self, forecast: Ranges<f32>, numbers: Ranges<f32>, times: Ranges<f64>) -> Result<(), Refusal> {
        let m = &self.memory;
        // SAFETY: nine slices, each borrowed alone, apart from the memory, which is borrowed shared.
        checked(unsafe {
            raw::veerycouch_invert_extrapolation(
                self.rights.table.as_ptr(), self.rights.table.len(), self.rights.role, m.head.as_ptr(), m.head.len(), m.statistics.as_ptr(), m.statistics.len(), m.last_shingled_input.as_ptr(), m.last_shingled_input.len(),
                m.previous_timestamps.as_ptr(), m.previous_timestamps.len(), forecast.values.as_mut_ptr(), forecast.values.len(),
                forecast.upper.as_mut_ptr(), forecast.upper.len(), forecast.lower.as_mut_ptr(), forecast.lower.len(), numbers.values.as_mut_ptr(),
                numbers.values.len(), numbers.upper.as_mut_ptr(), numbers.upper.len(), numbers.lower.as_mut_ptr(), numbers.lower.len(),
                times.values.as_mut_ptr(), times.values.len(), times.upper.as_mut_ptr(), times.upper.len(), times.lower.as_mut_ptr(), times.lower.len(),
            )
        })
    }

    /// The text, into the first bytes of the output; its length.
    pub fn save_into(&self, output: &mut [u8]) -> Result<usize, Refusal> {
        let m = &self.memory;
        let mut length = 0;
        let (a, an, b, bn, c, cn, d, dn) = lent!(&m);
        // SAFETY: every part is a slice that lives through the call; the output is apart from the rest.
        checked(unsafe {
            raw::veerycouch_save(
                self.rights.table.as_ptr(), self.rights.table.len(), self.rights.role, m.head.as_ptr(), m.head.len(), a, an, b, bn, c, cn, d, dn, m.initial_values.as_ptr(), m.initial_values.len(),
                m.initial_timestamps.as_ptr(), m.initial_timestamps.len(), &mut length, output.as_mut_ptr(), output.len(),
            )
        })?;
        Ok(length as usize)
    }

    /// The text. No text is longer than 363,245 bytes.
    pub fn save(&self) -> Result<Vec<u8>, Refusal> {
        let mut text = vec![0; 363_245];
        let length = self.save_into(&mut text)?;
        text.truncate(length);
        Ok(text)
    }

    /// The text taken up, where its codes are those expected, otherwise row 27; a text not of the form gives row 19 and its first bad line.
    pub fn restore(text: &[u8], codes: &[u16]) -> Result<Preprocessor, (Refusal, u64)> {
        Preprocessor::restore_in(text, codes, Memory::sized(16, 64, 1999)).map_err(|(refusal, line, _)| (refusal, line))
    }

    /// The same in memory of any length and contents, which a refusal hands back as it was; the line is 0 but for row 19.
    pub fn restore_in(text: &[u8], codes: &[u16], memory: Memory) -> Result<Preprocessor, (Refusal, u64, Memory)> {
        Preprocessor::restore_by(Rights::default(), text, codes, memory)
    }

    /// The same by a role of a table, which calls from then on.
    pub fn restore_by(rights: Rights, text: &[u8], codes: &[u16], mut memory: Memory) -> Result<Preprocessor, (Refusal, u64, Memory)> {
        let m = &mut memory;
        let mut line = 0;
        let (a, an, b, bn, c, cn, d, dn) = lent!(&mut m);
        // SAFETY: every part is a slice of its own that lives through the call.
        let row = unsafe {
            raw::veerycouch_restore(
                rights.table.as_ptr(), rights.table.len(), rights.role, text.as_ptr(), text.len(), codes.as_ptr(), codes.len(), m.head.as_mut_ptr(), m.head.len(), a, an, b, bn, c, cn, d, dn,
                m.initial_values.as_mut_ptr(), m.initial_values.len(), m.initial_timestamps.as_mut_ptr(), m.initial_timestamps.len(), &mut line,
            )
        };
        match checked(row) {
            Ok(()) => Ok(Preprocessor { memory, rights }),
            Err(refusal) => Err((refusal, line, memory)),
        }
    }

    /// All the numbers of the getters below, in the header's order.
    pub fn numbers(&self) -> Result<[u64; 10], Refusal> {
        let mut numbers = [0; 10];
        self.numbers_into(&mut numbers)?;
        Ok(numbers)
    }

    /// The same into the first ten numbers of the output.
    pub fn numbers_into(&self, output: &mut [u64]) -> Result<(), Refusal> {
        let m = &self.memory;
        // SAFETY: the words are ours, and the output is apart from them.
        checked(unsafe {
            raw::veerycouch_numbers(self.rights.table.as_ptr(), self.rights.table.len(), self.rights.role, m.head.as_ptr(), m.head.len(), output.as_mut_ptr(), output.len())
        })
    }

    getter!("How many readings were learnt or wait.", values_seen, 0);
    getter!("How many readings were learnt.", internal_timestamp, 1);
    getter!("How many channels a reading has.", input_dimensions, 3);
    getter!("How many readings a shingled point has.", shingle_size, 4);
    getter!("How many numbers a shingled point has.", get_dimension, 5);
    getter!("How many readings wait until the statistics begin.", start_normalization, 6);
    getter!("The number of the method.", transformation_method, 7);
    getter!("The number of the mode.", forest_mode, 8);
    getter!("The number on the panel: how many readings the statistics were fed.", panel, 9);

    /// The codes of the channels, one for each, into the first numbers of the output.
    pub fn codes_into(&self, output: &mut [u16]) -> Result<(), Refusal> {
        let m = &self.memory;
        // SAFETY: the words are ours, and the output is apart from them.
        checked(unsafe {
            raw::veerycouch_codes(self.rights.table.as_ptr(), self.rights.table.len(), self.rights.role, m.head.as_ptr(), m.head.len(), output.as_mut_ptr(), output.len())
        })
    }

    /// The codes of the channels.
    pub fn codes(&self) -> Result<Vec<u16>, Refusal> {
        let mut codes = vec![0; self.input_dimensions()? as usize];
        self.codes_into(&mut codes)?;
        Ok(codes)
    }

    /// Whether the shingle is full.
    pub fn is_ready(&self) -> Result<bool, Refusal> {
        Ok(self.numbers()?[2] != 0)
    }
}

/// The rules that fill in a missing cell: a value fixed for its channel, the nearest present cell before it or after it, or the line between the two.
#[derive(Clone, Copy, Debug, PartialEq, Eq)]
#[repr(u64)]
pub enum ImputationMethod {
    Fixed = 0,
    Previous = 1,
    Next = 2,
    Linear = 3,
}

/// Fills in the missing cells (mark 1) of readings of d cells, reading by reading; `fixed` has a value for each channel.
pub fn impute(method: ImputationMethod, d: u64, cells: &mut [f32], marks: &[u8], fixed: &[f32]) -> Result<(), Refusal> {
    impute_by_number(method as u64, d, cells, marks, fixed)
}

/// With the rule as any number.
pub fn impute_by_number(method: u64, d: u64, cells: &mut [f32], marks: &[u8], fixed: &[f32]) -> Result<(), Refusal> {
    // SAFETY: three slices that live through the call, of which the one that is written is borrowed alone.
    checked(unsafe { raw::veerycouch_impute(method, d, cells.as_mut_ptr(), cells.len(), marks.as_ptr(), marks.len(), fixed.as_ptr(), fixed.len()) })
}

/// A list of readings of d cells, reading by reading, and the time of each.
#[derive(Clone, Copy, Debug)]
pub struct Readings<'a> {
    pub cells: &'a [f32],
    pub times: &'a [u64],
}

/// Two lists paired by their times. The number of pairs; their positions stand in the first numbers of `left_out` and `right_out`, and the largest size of
/// difference of each channel in the first d of `gaps_out`.
pub fn align_into(
    d: u64, left: Readings, right: Readings, tolerance: u64, left_out: &mut [u64], right_out: &mut [u64], gaps_out: &mut [f32],
) -> Result<usize, Refusal> {
    let mut pairs = 0;
    // SAFETY: every part is a slice that lives through the call, and those that are written are borrowed alone.
    checked(unsafe {
        raw::veerycouch_align(
            d, left.cells.as_ptr(), left.cells.len(), left.times.as_ptr(), left.times.len(), right.cells.as_ptr(), right.cells.len(),
            right.times.as_ptr(), right.times.len(), tolerance, left_out.as_mut_ptr(), left_out.len(), right_out.as_mut_ptr(), right_out.len(),
            gaps_out.as_mut_ptr(), gaps_out.len(), &mut pairs,
        )
    })?;
    Ok(pairs as usize)
}

/// The pairs, as positions in the two lists, and a size of difference for each channel.
#[derive(Clone, Debug, PartialEq)]
pub struct Aligned {
    pub pairs: Vec<(usize, usize)>,
    pub gaps: Vec<f32>,
}

/// Two lists paired by their times, in memory of its own.
pub fn align(d: u64, left: Readings, right: Readings, tolerance: u64) -> Result<Aligned, Refusal> {
    let most = left.times.len().min(right.times.len());
    let (mut lefts, mut rights, mut gaps) = (vec![0; most], vec![0; most], vec![0.0; d.min(16) as usize]);
    let number = align_into(d, left, right, tolerance, &mut lefts, &mut rights, &mut gaps)?;
    let pairs = lefts.iter().zip(&rights).take(number).map(|(&i, &j)| (i as usize, j as usize)).collect();
    Ok(Aligned { pairs, gaps })
}

/// Of all lists of so many calls, how many leave the initial values waiting, drained or stranded.
#[derive(Clone, Copy, Debug, Default, PartialEq, Eq)]
pub struct Strandings {
    pub waiting: u64,
    pub drained: u64,
    pub stranded: u64,
}

/// Of the 3^calls lists of points, learns with a forest point and drains on a fresh preprocessor of NORMALIZE that awaits `start` initial values.
pub fn strandings(start: u64, calls: u64) -> Result<Strandings, Refusal> {
    let mut s = Strandings::default();
    // SAFETY: three numbers of their own.
    checked(unsafe { raw::veerycouch_strandings(start, calls, &mut s.waiting, &mut s.drained, &mut s.stranded) })?;
    Ok(s)
}

/// The running statistic of a list.
#[derive(Clone, Copy, Debug, PartialEq)]
pub struct Statistic {
    pub discount: f64,
    pub weight: f64,
    pub sum: f64,
    pub sum_squared: f64,
    pub count: u64,
}

impl Statistic {
    /// Of the statistic of a list, that of the list with `right` in a place that held `wrong`.
    pub fn corrected(self, wrong: f32, right: f32) -> Result<Statistic, Refusal> {
        let mut numbers = [0.0; 3];
        self.corrected_into(wrong, right, &mut numbers)?;
        let [weight, sum, sum_squared] = numbers;
        Ok(Statistic { weight, sum, sum_squared, ..self })
    }

    /// The new weight, sum and sum of squares, into the first three numbers of the output; discount and count stay.
    pub fn corrected_into(self, wrong: f32, right: f32, output: &mut [f64]) -> Result<(), Refusal> {
        // SAFETY: numbers, and a slice that is borrowed alone.
        checked(unsafe {
            raw::veerycouch_corrected(self.discount, self.weight, self.sum, self.sum_squared, self.count, wrong, right, output.as_mut_ptr(), output.len())
        })
    }
}

/// The square root, rounded once.
pub fn sqrt(x: f64) -> f64 {
    // SAFETY: numbers alone.
    unsafe { raw::veerycouch_sqrt(x) }
}

/// How many binary digits of the square root are tried, one after the other from the top: those up to the first whose prefix has the square x, and else 54;
/// 0 for zeros, negatives, infinities and not-a-numbers.
pub fn sqrt_digits(x: f64) -> u64 {
    // SAFETY: numbers alone.
    unsafe { raw::veerycouch_sqrt_digits(x) }
}

/// The nearest f32.
pub fn to_f32(x: f64) -> f32 {
    // SAFETY: numbers alone.
    unsafe { raw::veerycouch_to_f32(x) }
}
