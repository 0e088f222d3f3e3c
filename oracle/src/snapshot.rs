//! The trace text of document 01 with request #113's codes: written from the Rust's state, read line by line, and put back into the Rust's state.
use crate::bits::{bits32, bits64, hex32, hex64};
use crate::calls::{Mode, Settings, COUNT_LIMIT, NORMALIZE, SEEN_LIMIT};
use crate::counts::held;
use crate::reference::Reference;

/// Exactly what a text holds.
#[derive(Clone, Debug)]
pub struct Snapshot {
    pub settings: Settings,
    pub values_seen: u64,
    pub internal: u64,
    pub count: u64,
    /// weight, sum, squares
    pub statistics: Vec<[f64; 3]>,
    pub inputs: Vec<f32>,
    pub point: Vec<f32>,
    pub times: Vec<u64>,
    pub initial: Vec<(u64, Vec<f32>)>,
}

impl Snapshot {
    pub fn of(reference: &Reference) -> Snapshot {
        let rust = &reference.rust;
        let (stop, decay, weight_time, weights) = rust.kept_settings();
        let (initial_times, initial_values) = rust.initial();
        assert_eq!(initial_times.len(), initial_values.len());
        Snapshot {
            settings: Settings {
                mode: reference.settings.mode,
                method: reference.settings.method,
                d: rust.input_dimensions() as u64,
                k: rust.shingle_size() as u64,
                start: rust.start_normalization() as u64,
                stop: stop as u64,
                decay,
                weight_time,
                weights: weights.to_vec(),
                codes: reference.settings.codes.clone(),
            },
            values_seen: reference.values_seen(),
            internal: reference.internal(),
            count: reference.count(),
            statistics: rust.all_statistics().map(|s| [s.weight, s.sum, s.sum_squared]).collect(),
            inputs: rust.shingled_input().to_vec(),
            point: rust.kept_point().to_vec(),
            times: rust.timestamps().to_vec(),
            initial: initial_times.iter().copied().zip(initial_values.iter().cloned()).collect(),
        }
    }

    /// Put away: the line of the codes is written always.
    pub fn text(&self) -> String {
        self.written(true)
    }

    /// The text with the line of the codes, or without it; one without it is of this snapshot only where the codes are zeros.
    pub fn written(&self, lined: bool) -> String {
        let mut out = String::new();
        let s = &self.settings;
        let mode = s.letter().expect("a mode that row 1 does not refuse");
        out += &format!("set\t{mode}\t{}\t{}\t{}\t{}\t{}", s.method, s.d, s.k, s.start, s.stop);
        out += &format!("\t{}\t{}\n", hex64(s.decay), hex32(s.weight_time));
        let singles = |out: &mut String, list: &[f32]| {
            for &x in list {
                *out += "\t";
                *out += &hex32(x);
            }
            *out += "\n";
        };
        out += "wgt";
        singles(&mut out, &s.weights);
        if lined {
            out += "chn";
            for code in &s.codes {
                out += &format!("\t{code}");
            }
            out += "\n";
        }
        out += &format!("cnt\t{}\t{}\t{}\n", self.values_seen, self.internal, self.count);
        for [weight, sum, squares] in &self.statistics {
            out += &format!("dev\t{}\t{}\t{}\n", hex64(*weight), hex64(*sum), hex64(*squares));
        }
        out += "inp";
        singles(&mut out, &self.inputs);
        out += "pnt";
        singles(&mut out, &self.point);
        out += "tim";
        for t in &self.times {
            out += &format!("\t{t}");
        }
        out += "\n";
        for (time, values) in &self.initial {
            out += &format!("buf\t{time}");
            singles(&mut out, values);
        }
        out
    }

    /// A built `Preprocessor` with every part of its state set.
    pub fn restore(&self) -> Reference {
        let mut reference = Reference::build(&self.settings).expect("a text of the form has settings that no row refuses");
        let state = reference.rust.state();
        *state.values_seen = self.values_seen as usize;
        *state.internal_timestamp = self.internal as usize;
        let places = state.statistics.iter_mut().chain(state.time_statistics.iter_mut());
        for (place, [weight, sum, squares]) in places.zip(&self.statistics) {
            place.weight = *weight;
            place.sum = *sum;
            place.sum_squared = *squares;
            place.count = held(self.count);
        }
        *state.last_shingled_input = self.inputs.clone();
        *state.last_shingled_point = self.point.clone();
        *state.previous_timestamps = self.times.clone();
        *state.initial_timestamps = self.initial.iter().map(|w| w.0).collect();
        *state.initial_values = self.initial.iter().map(|w| w.1.clone()).collect();
        reference.count = self.count;
        reference
    }
}

/// Decimal without leading zeros, at most 2^64 − 1.
pub fn whole(field: &[u8]) -> Option<u64> {
    let digits = !field.is_empty() && field.iter().all(u8::is_ascii_digit);
    if !digits || (field[0] == b'0' && field.len() > 1) {
        return None;
    }
    std::str::from_utf8(field).unwrap().parse().ok()
}

fn hexadecimal(field: &[u8], digits: usize) -> Option<u64> {
    let lower = |c: &u8| c.is_ascii_digit() || (b'a'..=b'f').contains(c);
    if field.len() != digits || !field.iter().all(lower) {
        return None;
    }
    u64::from_str_radix(std::str::from_utf8(field).unwrap(), 16).ok()
}

/// Eight digits; a not-a-number in the one pattern only.
pub fn single(field: &[u8]) -> Option<f32> {
    let bits = hexadecimal(field, 8)? as u32;
    let value = f32::from_bits(bits);
    (bits32(value) == bits).then_some(value)
}

/// Sixteen digits; a not-a-number in the one pattern only.
pub fn double(field: &[u8]) -> Option<f64> {
    let bits = hexadecimal(field, 16)?;
    let value = f64::from_bits(bits);
    (bits64(value) == bits).then_some(value)
}

/// The fields behind the line's name, or None where the name is another.
pub fn fields<'a>(line: &'a [u8], name: &str) -> Option<Vec<&'a [u8]>> {
    let mut parts = line.split(|&b| b == b'\t');
    (parts.next()? == name.as_bytes()).then(|| parts.collect())
}

/// Every field by one reader; exactly `n` of them where a number is given.
pub fn every<T>(fields: &[&[u8]], n: Option<usize>, read: fn(&[u8]) -> Option<T>) -> Option<Vec<T>> {
    if n.is_some_and(|n| n != fields.len()) {
        return None;
    }
    fields.iter().map(|f| read(f)).collect()
}

/// The form of a `set` line, rows aside; the weights and codes stay empty.
pub fn set_line(line: &[u8]) -> Option<Settings> {
    let f = fields(line, "set")?;
    if f.len() != 8 {
        return None;
    }
    let mode = match f[0] {
        b"S" => Mode::Standard,
        b"T" => Mode::TimeAugmented,
        b"G" => Mode::GapAugmented,
        _ => return None,
    };
    let method = whole(f[1]).filter(|&m| m <= 5)? as u8;
    Some(Settings {
        mode,
        method,
        d: whole(f[2])?,
        k: whole(f[3])?,
        start: whole(f[4])?,
        stop: whole(f[5])?,
        decay: double(f[6])?,
        weight_time: single(f[7])?,
        weights: Vec::new(),
        codes: Vec::new(),
    })
}

/// A code: decimal, 0 to 65,535.
pub fn code(field: &[u8]) -> Option<u16> {
    u16::try_from(whole(field)?).ok()
}

/// Takes lines off a text; a line without its LF is none.
struct Lines<'a> {
    rest: &'a [u8],
    number: usize,
}

impl<'a> Lines<'a> {
    /// Reads the next line by `read`; otherwise its number is the bad line.
    fn next<T>(&mut self, read: impl FnOnce(&'a [u8]) -> Option<T>) -> Result<T, usize> {
        self.number += 1;
        let end = self.rest.iter().position(|&b| b == b'\n').ok_or(self.number)?;
        let (line, rest) = (&self.rest[..end], &self.rest[end + 1..]);
        self.rest = rest;
        read(line).ok_or(self.number)
    }
}

fn rising(times: &[u64]) -> bool {
    times.windows(2).all(|t| t[0] <= t[1])
}

/// Line 3 holds the codes, or already the counters.
enum Third {
    Codes(Vec<u16>),
    Counters([u64; 3]),
}

/// A `cnt` line that the settings allow.
fn counters(line: &[u8], settings: &Settings) -> Option<[u64; 3]> {
    let n = every(&fields(line, "cnt")?, Some(3), whole)?;
    let within = n[0] <= SEEN_LIMIT && n[1] <= SEEN_LIMIT && n[2] <= COUNT_LIMIT;
    let waits = settings.method >= NORMALIZE && n[0] < settings.start;
    (within && !(waits && n[1] > 0)).then_some([n[0], n[1], n[2]])
}

/// The snapshot that the text holds, or its first bad line, from 1.
pub fn read(text: &[u8]) -> Result<Snapshot, usize> {
    let mut lines = Lines { rest: text, number: 0 };
    let mut settings = lines.next(|line| {
        let settings = set_line(line)?;
        // Rows 1 to 8 but for 5 are settled by this line alone: judged with weights that pass.
        let judged = Settings { weights: vec![1.0; settings.d.min(17) as usize], codes: settings.zero_codes(), ..settings.clone() };
        (judged.row() == 0).then_some(settings)
    })?;
    let (d, k) = (settings.d as usize, settings.k as usize);
    settings.weights = lines.next(|line| {
        let weights = every(&fields(line, "wgt")?, Some(d), single)?;
        let judged = Settings { weights: weights.clone(), codes: settings.zero_codes(), ..settings.clone() };
        (judged.row() == 0).then_some(weights)
    })?;
    // "a text lacking it is read as all zeros"
    let third = lines.next(|line| {
        let codes = fields(line, "chn").and_then(|f| every(&f, Some(d), code));
        codes.map(Third::Codes).or_else(|| counters(line, &settings).map(Third::Counters))
    })?;
    let [values_seen, internal, count] = match third {
        Third::Codes(codes) => {
            settings.codes = codes;
            lines.next(|line| counters(line, &settings))?
        }
        Third::Counters(given) => {
            settings.codes = vec![0; d];
            given
        }
    };
    let normalizes = settings.method >= NORMALIZE;
    let mut statistics = Vec::new();
    for _ in 0..5 * d + 5 {
        let dev = lines.next(|line| every(&fields(line, "dev")?, Some(3), double))?;
        statistics.push([dev[0], dev[1], dev[2]]);
    }
    let inputs = lines.next(|line| every(&fields(line, "inp")?, Some(d * k), single))?;
    let point = lines.next(|line| every(&fields(line, "pnt")?, Some(settings.dimension()), single))?;
    let times = lines.next(|line| {
        let times = every(&fields(line, "tim")?, Some(k), whole)?;
        (rising(&times) && (internal > 0 || times.iter().all(|&t| t == 0))).then_some(times)
    })?;
    let waits = normalizes && values_seen < settings.start;
    let mut initial: Vec<(u64, Vec<f32>)> = Vec::new();
    let allowed = if waits {
        values_seen
    } else if normalizes && !(values_seen == settings.start && internal > 0) {
        settings.start
    } else {
        0
    };
    // While waiting all must come; later none, or all of them.
    while (initial.len() as u64) < allowed && (waits || !initial.is_empty() || !lines.rest.is_empty()) {
        let newest = initial.last().map_or(0, |w| w.0);
        let next = lines.next(|line| {
            let f = fields(line, "buf")?;
            let time = whole(f.first()?)?;
            let values = every(&f[1..], Some(d), single)?;
            (time >= newest && values.iter().all(|v| v.is_finite())).then_some((time, values))
        })?;
        initial.push(next);
    }
    if !lines.rest.is_empty() {
        return Err(lines.number + 1);
    }
    Ok(Snapshot { settings, values_seen, internal, count, statistics, inputs, point, times, initial })
}

/// Why a text is not taken up: the row, and with 19 the bad line, otherwise 0.
#[derive(Clone, Copy, Debug, PartialEq)]
pub struct Refused {
    pub row: u8,
    pub line: usize,
}

/// The lengths of the six lists lent to taking up: statistics, inputs, point, times, initial values, initial times.
pub type Room = [usize; 6];

/// Lists long enough for every text.
pub const ROOMY: Room = [255, 1024, 1088, 64, 31984, 1999];

impl Settings {
    /// What a preprocessor of these settings needs of each lent list, its initial values as many as it may come to hold: none under methods that never wait.
    pub fn room(&self) -> Room {
        let (d, k, start) = (self.d as usize, self.k as usize, self.initial_room());
        [3 * (5 * d + 5), d * k, self.dimension(), k, start * d, start]
    }

    /// How many readings may wait.
    pub fn initial_room(&self) -> usize {
        if self.method >= NORMALIZE {
            self.start as usize
        } else {
            0
        }
    }
}

/// Takes a text up: 19 with its first bad line, then 27 where the codes are not those expected, then 20 where a lent list is too short.
pub fn take_up(text: &[u8], expected: &[u16], room: &Room) -> Result<Snapshot, Refused> {
    let taken = read(text).map_err(|line| Refused { row: 19, line })?;
    if taken.settings.codes != expected {
        return Err(Refused { row: 27, line: 0 });
    }
    if taken.settings.room().iter().zip(room).any(|(needed, lent)| needed > lent) {
        return Err(Refused { row: 20, line: 0 });
    }
    Ok(taken)
}
