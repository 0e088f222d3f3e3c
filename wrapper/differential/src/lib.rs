//! What the programs share: the oracle's settings and calls, made on the library by a role; and the calls that take no preprocessor.
pub mod lists;

use oracle::bits::{all32, all64};
use oracle::calls::{Anomaly, Answer, Call, Learn as Learning, Mode, Settings as Given};
use veerycouch::{ForestMode, Learn, Memory, Preprocessor, Ranges, Refusal, Rights, Settings, TransformMethod};

const METHODS: [TransformMethod; 6] = [
    TransformMethod::None,
    TransformMethod::Weighted,
    TransformMethod::Difference,
    TransformMethod::SubtractMa,
    TransformMethod::Normalize,
    TransformMethod::NormalizeDifference,
];

/// A role under a table.
pub fn by(table: &[u8], role: u64) -> Rights {
    Rights { table: table.to_vec(), role }
}

pub fn settings(s: &Given) -> Settings {
    Settings {
        forest_mode: match s.mode {
            Mode::Standard => ForestMode::Standard,
            Mode::TimeAugmented => ForestMode::TimeAugmented,
            Mode::StreamingImpute => ForestMode::StreamingImpute,
            Mode::GapAugmented => ForestMode::GapAugmented,
        },
        transform_method: METHODS[s.method as usize],
        input_dimensions: s.d as usize,
        shingle_size: s.k as usize,
        start_normalization: s.start as usize,
        stop_normalization: s.stop as usize,
        transform_decay: s.decay,
        weight_time: s.weight_time,
        weights: s.weights.clone(),
        codes: s.codes.clone(),
    }
}

/// What stands in outputs before a call.
const OLD32: u32 = 0x4b5a_1234;
const OLD64: u64 = 0x4b5a_1234_5678_9abc;

fn lent32(n: usize) -> Vec<f32> {
    vec![f32::from_bits(OLD32); n]
}

fn lent64(n: usize) -> Vec<f64> {
    vec![f64::from_bits(OLD64); n]
}

/// The first n, where what lies behind is as it was.
fn first32(list: &[f32], n: usize) -> Result<Vec<u32>, String> {
    if list.len() < n || list[n..].iter().any(|x| x.to_bits() != OLD32) {
        return Err(format!("an output past its {n} numbers was written"));
    }
    Ok(all32(&list[..n]))
}

fn first64(list: &[f64], n: usize) -> Result<Vec<u64>, String> {
    if list.len() < n || list[n..].iter().any(|x| x.to_bits() != OLD64) {
        return Err(format!("an output past its {n} numbers was written"));
    }
    Ok(all64(&list[..n]))
}

/// A refusal has left every output.
fn refused(refusal: Refusal, outputs: &[&[f32]], times: &[&[f64]]) -> Result<Answer, String> {
    for o in outputs {
        first32(o, 0)?;
    }
    for o in times {
        first64(o, 0)?;
    }
    Ok(Answer::No(refusal.0 as u8))
}

/// Whether both memories hold the same bits.
pub fn same(a: &Memory, b: &Memory) -> bool {
    let single = |x: &[f32], y: &[f32]| x.len() == y.len() && x.iter().zip(y).all(|(p, q)| p.to_bits() == q.to_bits());
    let double = |x: &[f64], y: &[f64]| x.len() == y.len() && x.iter().zip(y).all(|(p, q)| p.to_bits() == q.to_bits());
    a.head == b.head
        && double(&a.statistics, &b.statistics)
        && single(&a.last_shingled_input, &b.last_shingled_input)
        && single(&a.last_shingled_point, &b.last_shingled_point)
        && a.previous_timestamps == b.previous_timestamps
        && single(&a.initial_values, &b.initial_values)
        && a.initial_timestamps == b.initial_timestamps
}

fn learn(p: &mut Preprocessor, c: &Learning, s: &Given) -> Result<Answer, String> {
    let (mut deviations, mut past, mut expected) = (lent32(c.deviations_out), lent32(c.past_out), lent32(c.expected_out));
    let given = Learn { y: c.point.as_deref(), expected: c.expected.as_deref(), grade: c.grade, relative_index: c.relative_index };
    let done = match p.post_process(&c.input, c.timestamp, given, &mut deviations, &mut past, &mut expected) {
        Err(refusal) => return refused(refusal, &[&deviations, &past, &expected], &[]),
        Ok(done) => done,
    };
    let d = if done.has_anomaly { s.d as usize } else { 0 };
    let (past, expected) = (first32(&past, d)?, first32(&expected, d)?);
    if done.likelihood != done.has_anomaly as u32 as f32 || (!done.has_anomaly && done.past_timestamp != 0) {
        return Err(format!("{done:?}"));
    }
    let deviations = first32(&deviations, if done.written { s.width() } else { 0 })?;
    Ok(Answer::Learned {
        deviations: done.written.then_some(deviations),
        anomaly: done.has_anomaly.then_some(Anomaly { past_values: past, past_timestamp: done.past_timestamp, expected_values: expected }),
    })
}

fn turn_back(p: &Preprocessor, lists: [&[f32]; 3], outs: &[usize; 6], s: &Given) -> Result<Answer, String> {
    let mut work: Vec<Vec<f32>> = lists.iter().map(|l| l.to_vec()).collect();
    let mut numbers: Vec<Vec<f32>> = outs[..3].iter().map(|&n| lent32(n)).collect();
    let mut times: Vec<Vec<f64>> = outs[3..].iter().map(|&n| lent64(n)).collect();
    fn ranges<T>(l: &mut [Vec<T>]) -> Ranges<'_, T> {
        let [values, upper, lower] = l else { unreachable!() };
        Ranges { values, upper, lower }
    }
    let row = p.invert_extrapolation(ranges(&mut work), ranges(&mut numbers), ranges(&mut times));
    if let Err(refusal) = row {
        if work.iter().zip(lists).any(|(w, l)| all32(w) != all32(l)) {
            return Err("a refused turn-back changed the forecast".to_string());
        }
        return refused(refusal, &[&numbers[0], &numbers[1], &numbers[2]], &[&times[0], &times[1], &times[2]]);
    }
    if !s.timed() {
        for i in 0..3 {
            first32(&numbers[i], 0)?;
            first64(&times[i], 0)?;
        }
        return Ok(Answer::Ranges { numbers: [all32(&work[0]), all32(&work[1]), all32(&work[2])], times: None });
    }
    if work.iter().zip(lists).any(|(w, l)| all32(w) != all32(l)) {
        return Err("a turn-back with times changed the forecast".to_string());
    }
    let blocks = lists[0].len() / s.dimension();
    let n = blocks * (s.d * s.k) as usize;
    Ok(Answer::Ranges {
        numbers: [first32(&numbers[0], n)?, first32(&numbers[1], n)?, first32(&numbers[2], n)?],
        times: Some([first64(&times[0], blocks)?, first64(&times[1], blocks)?, first64(&times[2], blocks)?]),
    })
}

fn numbers(row: Result<(), Refusal>, output: &[f32], n: usize) -> Result<Answer, String> {
    match row {
        Err(refusal) => refused(refusal, &[output], &[]),
        Ok(()) => Ok(Answer::Numbers(first32(output, n)?)),
    }
}

/// The codes in an output one longer, and none where it is one too short.
fn codes(p: &Preprocessor, s: &Given) -> Result<(), String> {
    let n = s.codes.len();
    let mut output = vec![0x1234; n + 1];
    let short = p.codes_into(&mut output[..n - 1]);
    if short != Err(Refusal(20)) || output.iter().any(|&c| c != 0x1234) {
        return Err(format!("codes in too short an output: {short:?}"));
    }
    let told = p.codes_into(&mut output);
    if told.is_err() || output[..n] != s.codes || output[n] != 0x1234 {
        return Err(format!("codes: {told:?} {output:?}"));
    }
    Ok(())
}

/// The ten numbers in an output one longer, and none where it is one too short.
fn numbers_told(p: &Preprocessor) -> Result<(), String> {
    let mut output = [OLD64; 11];
    let short = p.numbers_into(&mut output[..9]);
    if short != Err(Refusal(20)) || output != [OLD64; 11] {
        return Err(format!("numbers in too short an output: {short:?}"));
    }
    let told = p.numbers_into(&mut output);
    if told.is_err() || output[10] != OLD64 || output[2] > 1 {
        return Err(format!("numbers: {told:?} {output:?}"));
    }
    Ok(())
}

fn status(p: &Preprocessor, out: usize, s: &Given) -> Result<Answer, String> {
    let mut output = lent32(out);
    if let Err(refusal) = p.difference_deviations(&mut output) {
        return refused(refusal, &[&output], &[]);
    }
    let told = || -> Result<Answer, Refusal> {
        assert_eq!((p.transformation_method()?, p.forest_mode()?), (s.method as u64, settings(s).forest_mode as u64));
        Ok(Answer::Status {
            values_seen: p.values_seen()?,
            internal: p.internal_timestamp()?,
            ready: p.is_ready()?,
            d: p.input_dimensions()?,
            k: p.shingle_size()?,
            dimension: p.get_dimension()?,
            start: p.start_normalization()?,
            panel: p.panel()?,
            deviations: all32(&output[..s.width()]),
        })
    };
    first32(&output, s.width())?;
    codes(p, s)?;
    numbers_told(p)?;
    told().map_err(|refusal| format!("a getter: {refusal}"))
}

/// The oracle's call on the library by a role, with the oracle's answer; an error where lent memory was written that should not be.
pub fn call(p: &mut Preprocessor, by: &Rights, c: &Call, s: &Given) -> Result<Answer, String> {
    p.set_rights(by.clone());
    let width = s.width();
    match c {
        Call::Point { input, timestamp, out } => {
            let mut output = lent32(*out);
            match p.shingled_point_into(input, *timestamp, &mut output) {
                Err(refusal) => refused(refusal, &[&output], &[]),
                Ok(false) => first32(&output, 0).map(|_| Answer::None),
                Ok(true) => Ok(Answer::Numbers(first32(&output, s.dimension())?)),
            }
        }
        Call::Learn(c) => learn(p, c, s),
        Call::Drain => match p.drain() {
            Err(refusal) => Ok(Answer::No(refusal.0 as u8)),
            Ok(()) => Ok(Answer::Done),
        },
        Call::Transform { input, timestamp, out } => {
            let mut output = lent32(*out);
            numbers(p.transform(input, *timestamp, &mut output), &output, width)
        }
        Call::TurnBack { values, upper, lower, outs } => turn_back(p, [values, upper, lower], outs, s),
        Call::Scale { out } => {
            let mut output = lent32(*out);
            numbers(p.scale(&mut output), &output, width)
        }
        Call::Shift { out } => {
            let mut output = lent32(*out);
            numbers(p.shift(&mut output), &output, width)
        }
        Call::Status { out } => status(p, *out, s),
    }
}
