//! The wrapper's own tests: samples of document 01, refusals, the head's words, and memory past the need.
use veerycouch::{
    align, align_into, impute, impute_by_number, sqrt, sqrt_digits, strandings, to_f32, Aligned, ForestMode, ImputationMethod, Learn, Memory, Preprocessor, Ranges, Readings, Refusal,
    Right, Rights, Settings, Statistic, Strandings, TransformMethod, EVERY_RIGHT, HEAD_WORDS,
};

const FUEL_TRIM: u16 = 6;
const LOAD: u16 = 4;

fn settings(method: TransformMethod, d: usize, k: usize, start: usize) -> Settings {
    Settings {
        forest_mode: ForestMode::Standard,
        transform_method: method,
        input_dimensions: d,
        shingle_size: k,
        start_normalization: start,
        stop_normalization: start + 100,
        transform_decay: 0.1,
        weight_time: 1.0,
        weights: vec![1.0; d],
        codes: (0..d as u16).map(|i| FUEL_TRIM + i).collect(),
    }
}

fn learn(p: &mut Preprocessor, x: f32, t: u64) -> bool {
    let mut deviations = [0.0; 17];
    p.post_process(&[x], t, Learn::default(), &mut deviations, &mut [], &mut []).unwrap().written
}

/// "Start 2, k 4, W's 4, 6, then drain: inputs 0, 4, 4, 6"
#[test]
fn drained_inputs() {
    let mut p = Preprocessor::build(&settings(TransformMethod::Normalize, 1, 4, 2)).unwrap();
    assert_eq!(p.shingled_point(&[4.0], 1), Ok(None));
    assert!(!learn(&mut p, 4.0, 1));
    assert!(learn(&mut p, 6.0, 2));
    assert_eq!(p.drain(), Ok(()));
    assert_eq!(p.memory().last_shingled_input, [0.0, 4.0, 4.0, 6.0]);
    assert_eq!(p.drain(), Err(Refusal(15)));
    assert_eq!((p.values_seen(), p.internal_timestamp(), p.panel()), (Ok(2), Ok(2), Ok(2)));
}

/// The panel counts what was fed: not what waits, not what is stranded, not what comes after stop.
#[test]
fn the_panel() {
    let mut s = settings(TransformMethod::Normalize, 1, 1, 2);
    s.stop_normalization = 3;
    let counts = |p: &Preprocessor| (p.values_seen().unwrap(), p.internal_timestamp().unwrap(), p.panel().unwrap());
    let fed = |p: &mut Preprocessor, t| p.post_process(&[1.0], t, Learn { y: Some(&[0.0]), ..Learn::default() }, &mut [0.0], &mut [], &mut []).unwrap();
    let mut p = Preprocessor::build(&s).unwrap();
    learn(&mut p, 4.0, 1);
    learn(&mut p, 6.0, 2);
    assert_eq!(counts(&p), (2, 0, 0));
    let mut q = p.clone();
    p.drain().unwrap();
    assert_eq!(counts(&p), (2, 2, 2));
    fed(&mut p, 3);
    fed(&mut p, 4);
    assert_eq!(counts(&p), (4, 4, 3));
    fed(&mut q, 3);
    q.drain().unwrap();
    assert_eq!(counts(&q), (3, 1, 1));
    let taken = Preprocessor::restore(&q.save().unwrap(), &s.codes).unwrap();
    assert_eq!(counts(&taken), (3, 1, 1));
}

/// "WEIGHTED 2: 3 becomes 6"
#[test]
fn weighted() {
    let mut s = settings(TransformMethod::Weighted, 1, 1, 0);
    s.weights = vec![2.0];
    let mut p = Preprocessor::build(&s).unwrap();
    assert_eq!(p.shingled_point(&[3.0], 5), Ok(Some(vec![6.0])));
    let mut output = [7.0; 2];
    p.transform(&[3.0], 5, &mut output).unwrap();
    assert_eq!(output, [6.0, 7.0]);
    assert_eq!(p.transform(&[3.0], 5, &mut []), Err(Refusal(20)));
    assert_eq!(p.transform(&[3.0, 1.0], 5, &mut output), Err(Refusal(10)));
    assert_eq!(p.shingled_point(&[f32::INFINITY], 5), Err(Refusal(11)));
}

/// "A gap of 30 is 60 with weight_time 2", counted from the newest reading, also one that waits; 0 while nothing was seen; row 28 below the newest.
#[test]
fn gaps() {
    let s = Settings { forest_mode: ForestMode::GapAugmented, stop_normalization: 9, transform_decay: 0.0, weight_time: 2.0, ..settings(TransformMethod::Normalize, 1, 2, 2) };
    let mut p = Preprocessor::build(&s).unwrap();
    let gap = |p: &Preprocessor, t: u64| {
        let mut output = [7.0; 2];
        p.transform(&[1.0], t, &mut output).map(|()| output[1])
    };
    assert_eq!((p.forest_mode(), gap(&p, 5)), (Ok(3), Ok(0.0)));
    learn(&mut p, 4.0, 100);
    assert_eq!((gap(&p, 99), gap(&p, 100), gap(&p, 130)), (Err(Refusal(28)), Ok(0.0), Ok(60.0)));
    assert_eq!((p.shingled_point(&[1.0], 99), p.shingled_point(&[f32::NAN], 99)), (Err(Refusal(28)), Err(Refusal(11))));
    let text = p.save().unwrap();
    assert!(text.starts_with(b"set\tG\t4\t1\t2\t2\t9\t"));
    let q = Preprocessor::restore(&text, &s.codes).unwrap();
    assert_eq!((gap(&q, 99), gap(&q, 130), q.save()), (Err(Refusal(28)), Ok(60.0), Ok(text)));
}

/// A text taken up with this count, and what one learn more gives: the row, and the count that is put away.
fn fed_at(count: &str) -> Result<(u64, String), (Refusal, u64)> {
    let p = Preprocessor::build(&settings(TransformMethod::None, 1, 1, 0)).unwrap();
    let text = String::from_utf8(p.save().unwrap()).unwrap().replace("cnt\t0\t0\t0\n", &format!("cnt\t0\t0\t{count}\n"));
    let mut p = Preprocessor::restore(text.as_bytes(), &[FUEL_TRIM])?;
    let given = Learn { y: Some(&[0.0]), ..Learn::default() };
    let row = p.post_process(&[1.0], 1, given, &mut [0.0], &mut [], &mut []).err().map_or(0, |refusal| refusal.0);
    let text = String::from_utf8(p.save().unwrap()).unwrap();
    Ok((row, text.lines().nth(3).unwrap().split('\t').nth(3).unwrap().to_string()))
}

/// Counts past 32 bits, and row 18 at the limit; past it a text is not of the form.
#[test]
fn counts_up_to_the_limit() {
    let told = |row: u64, count: &str| Ok((row, count.to_string()));
    assert_eq!(fed_at("2147483646"), told(0, "2147483647"));
    assert_eq!(fed_at("4294967295"), told(0, "4294967296"));
    assert_eq!(fed_at("9007199254740989"), told(0, "9007199254740990"));
    assert_eq!(fed_at("9007199254740990"), told(18, "9007199254740990"));
    assert_eq!(fed_at("9007199254740991"), Err((Refusal(19), 4)));
}

#[test]
fn every_row_of_build() {
    let good = settings(TransformMethod::None, 2, 3, 4);
    type Change = fn(&mut Settings);
    let rows: [(Change, u64); 11] = [
        (|s| s.forest_mode = ForestMode::StreamingImpute, 1),
        (|s| s.input_dimensions = 0, 2),
        (|s| s.shingle_size = 0, 3),
        (|s| s.shingle_size = 65, 4),
        (|s| s.weights = vec![1.0], 5),
        (|s| s.codes = vec![FUEL_TRIM], 5),
        (|s| s.codes.push(0), 5),
        (|s| s.transform_decay = 1.0, 6),
        (|s| s.stop_normalization = 3, 7),
        (|s| (s.start_normalization, s.stop_normalization) = (2000, 2000), 8),
        (|s| s.weights[1] = 2.0, 9),
    ];
    for (change, row) in rows {
        let mut s = good.clone();
        change(&mut s);
        assert_eq!(Preprocessor::build(&s).err(), Some(Refusal(row)));
    }
    assert!(Preprocessor::build(&good).is_ok());
    let memory = || Memory::sized(2, 3, 4);
    assert_eq!(Preprocessor::build_by_numbers(4, 0, &good, memory()).unwrap_err().0, Refusal(19));
    assert_eq!(Preprocessor::build_by_numbers(0, 6, &good, memory()).unwrap_err().0, Refusal(19));
    let mut short = memory();
    short.head.pop();
    assert_eq!(Preprocessor::build_in(&good, short).unwrap_err().0, Refusal(20));
}

#[test]
fn the_words_of_a_head() {
    let p = Preprocessor::build(&settings(TransformMethod::NormalizeDifference, 2, 4, 10)).unwrap();
    let mut words = vec![0, 5, 2, 4, 10, 110, 0.1f64.to_bits(), 0x3f80_0000, 0, 0, 0, 0, 0x3f80_0000, 0x3f80_0000];
    words.resize(28, 0);
    words.extend([6, 7]);
    words.resize(HEAD_WORDS, 0);
    assert_eq!(p.memory().head, words);
    assert_eq!(p.codes(), Ok(vec![6, 7]));
    let mut output = [9; 3];
    assert_eq!((p.codes_into(&mut output[..1]), output), (Err(Refusal(20)), [9; 3]));
    assert_eq!((p.codes_into(&mut output), output), (Ok(()), [6, 7, 9]));
    assert_eq!((p.get_dimension(), p.input_dimensions(), p.shingle_size(), p.start_normalization()), (Ok(8), Ok(2), Ok(4), Ok(10)));
    assert_eq!((p.is_ready(), p.transformation_method(), p.forest_mode()), (Ok(false), Ok(5), Ok(0)));
}

#[test]
fn damaged_heads() {
    let p = Preprocessor::build(&settings(TransformMethod::Normalize, 2, 4, 10)).unwrap();
    for (at, word, row) in [(0, 2, 1), (0, 4, 19), (0, 1 << 32, 19), (1, 6, 19), (2, 0, 2), (3, 0, 3), (2, 17, 4), (3, 65, 4), (6, 0x7ff8_0000_0000_0000, 6), (4, 200, 7), (28, 65536, 19), (43, u64::MAX, 19)] {
        let mut memory = p.clone().into_memory();
        memory.head[at] = word;
        let mut other = Preprocessor::from_memory(memory);
        let rows = [other.drain().err(), other.panel().err(), other.codes_into(&mut [0; 16]).err(), other.save().err(), other.shift(&mut [0.0; 4]).err(), other.shingled_point(&[1.0, 2.0], 1).err()];
        assert_eq!(rows, [Some(Refusal(row)); 6], "word {at} is {word}");
    }
}

/// Every pattern of a not-a-number is read as one, and a weight's high bits do not count.
#[test]
fn patterns() {
    let mut s = settings(TransformMethod::Weighted, 1, 1, 0);
    s.weights = vec![f32::from_bits(0xffc0_1234)];
    let p = Preprocessor::build(&s).unwrap();
    assert_eq!(p.memory().head[12], 0x7fc0_0000);
    let mut memory = p.into_memory();
    let mut output = [0.0];
    for (word, nan) in [(0x7f80_0001, true), (0xffff_ffff, true), (0x1_7f80_0000, false), (0xdead_beef_3f80_0000, false)] {
        memory.head[12] = word;
        let p = Preprocessor::from_memory(memory.clone());
        p.transform(&[3.0], 0, &mut output).unwrap();
        assert_eq!(output[0].is_nan(), nan, "{word:x}");
    }
    assert_eq!(output, [3.0]);
}

#[test]
fn text_and_its_length() {
    let p = Preprocessor::build(&settings(TransformMethod::None, 1, 1, 10)).unwrap();
    let text = p.save().unwrap();
    assert!(text.starts_with(b"set\tS\t0\t1\t1\t10\t110\t3fb999999999999a\t3f800000\nwgt\t3f800000\nchn\t6\ncnt\t0\t0\t0\ndev\t"));
    let mut output = vec![9; text.len() + 1];
    assert_eq!(p.save_into(&mut output[..text.len() - 1]), Err(Refusal(20)));
    assert!(output.iter().all(|&b| b == 9));
    assert_eq!(p.save_into(&mut output), Ok(text.len()));
    assert_eq!((&output[..text.len()], output[text.len()]), (&text[..], 9));
}

#[test]
fn taken_up() {
    let s = settings(TransformMethod::Normalize, 1, 2, 3);
    let mut p = Preprocessor::build(&s).unwrap();
    for t in 0..2 {
        learn(&mut p, t as f32, t);
    }
    let text = p.save().unwrap();
    // memory of rubbish, longer than the need
    let mut memory = Memory::sized(2, 3, 5);
    memory.statistics.fill(7.0);
    memory.initial_timestamps.fill(9);
    let mut q = Preprocessor::restore_in(&text, &s.codes, memory).unwrap();
    assert_eq!((q.save().unwrap(), q.values_seen()), (text.clone(), Ok(2)));
    assert_eq!(q.memory().initial_timestamps, [0, 1, 9, 9, 9]);
    for r in [&mut p, &mut q] {
        learn(r, 2.0, 2);
    }
    assert_eq!((q.shingled_point(&[3.0], 3), q.save()), (p.shingled_point(&[3.0], 3), p.save()));
    // the waiting readings are missing: the line after the last
    let cut = text.iter().rposition(|&b| b == b'b').unwrap();
    let lines = text[..cut].iter().filter(|&&b| b == b'\n').count() as u64;
    assert_eq!(Preprocessor::restore(&text[..cut], &s.codes).unwrap_err(), (Refusal(19), lines + 1));
    let (refusal, _, memory) = Preprocessor::restore_in(&text, &s.codes, Memory::sized(1, 2, 2)).unwrap_err();
    assert_eq!((refusal, memory.head), (Refusal(20), vec![0; HEAD_WORDS]));
    assert_eq!(Preprocessor::restore(&text, &s.codes).unwrap().save().unwrap(), text);
}

/// "A trace of fuel trims was taken up on a load screen."
#[test]
fn other_channels() {
    let text = Preprocessor::build(&settings(TransformMethod::Normalize, 2, 3, 4)).unwrap().save().unwrap();
    let load: &[u16] = &[LOAD, FUEL_TRIM + 1];
    let memory = Memory::sized(2, 3, 4);
    for codes in [load, &[FUEL_TRIM], &[FUEL_TRIM, FUEL_TRIM + 1, 0], &[]] {
        let (refusal, line, after) = Preprocessor::restore_in(&text, codes, memory.clone()).unwrap_err();
        assert_eq!((refusal, line, after.head, after.statistics), (Refusal(27), 0, memory.head.clone(), memory.statistics.clone()));
    }
    // 19 comes before 27, and 27 before 20, too few words among it
    assert_eq!(Preprocessor::restore(&text[1..], load).unwrap_err(), (Refusal(19), 1));
    let mut short = Memory::sized(1, 1, 0);
    short.head.pop();
    assert_eq!(Preprocessor::restore_in(&text, load, short.clone()).unwrap_err().0, Refusal(27));
    let trims = [FUEL_TRIM, FUEL_TRIM + 1];
    assert_eq!(Preprocessor::restore_in(&text, &trims, short).unwrap_err().0, Refusal(20));
    assert_eq!(Preprocessor::restore(&text, &trims).unwrap().codes(), Ok(trims.to_vec()));
}

/// A text of before there were codes is read as one with zeros, and put away with them.
#[test]
fn without_codes() {
    let mut s = settings(TransformMethod::None, 2, 1, 0);
    s.codes = vec![0, 0];
    let text = Preprocessor::build(&s).unwrap().save().unwrap();
    let line = b"chn\t0\t0\n";
    let at = text.windows(line.len()).position(|w| w == line).unwrap();
    let old = [&text[..at], &text[at + line.len()..]].concat();
    assert_eq!(Preprocessor::restore(&old, &[0, 0]).unwrap().save().unwrap(), text);
    assert_eq!(Preprocessor::restore(&old, &[FUEL_TRIM, FUEL_TRIM + 1]).unwrap_err(), (Refusal(27), 0));
}

#[test]
fn turned_back() {
    let mut s = settings(TransformMethod::Difference, 1, 2, 0);
    let p = Preprocessor::build(&s).unwrap();
    let (mut values, mut upper, mut lower) = ([1.0, 2.0, 3.0], [1.0, 2.0, 3.0], [1.0, 2.0, 3.0]);
    let none = || Ranges { values: &mut [], upper: &mut [], lower: &mut [] };
    let times = || Ranges { values: &mut [], upper: &mut [], lower: &mut [] };
    p.invert_extrapolation(Ranges { values: &mut values, upper: &mut upper, lower: &mut lower }, none(), times()).unwrap();
    assert_eq!((values, upper, lower), ([1.0, 3.0, 6.0], [1.0, 3.0, 6.0], [1.0, 3.0, 6.0]));
    assert_eq!(p.invert_extrapolation(none(), none(), times()), Err(Refusal(16)));
    s.forest_mode = ForestMode::TimeAugmented;
    let p = Preprocessor::build(&s).unwrap();
    let (mut values, mut upper, mut lower) = ([1.0; 4], [1.0; 4], [1.0; 4]);
    let forecast = Ranges { values: &mut values, upper: &mut upper, lower: &mut lower };
    assert_eq!(p.invert_extrapolation(forecast, none(), times()), Err(Refusal(20)));
    let (mut a, mut b, mut c) = ([9.0; 3], [9.0; 3], [9.0; 3]);
    let (mut x, mut y, mut z) = ([9.0; 2], [9.0; 2], [9.0; 2]);
    p.invert_extrapolation(
        Ranges { values: &mut values, upper: &mut upper, lower: &mut lower },
        Ranges { values: &mut a, upper: &mut b, lower: &mut c },
        Ranges { values: &mut x, upper: &mut y, lower: &mut z },
    )
    .unwrap();
    assert_eq!((a[2], x[1]), (9.0, 9.0));
    assert!(a[0] != 9.0 && x[0] != 9.0);
}

/// What every call of a preprocessor answers by these rights: the row of each, or 0.
fn rows(p: &Preprocessor, rights: &Rights, text: &[u8], codes: &[u16]) -> Vec<(&'static str, u64)> {
    let mut p = p.clone();
    p.set_rights(rights.clone());
    let before = p.memory().clone();
    let row = |r: Result<(), Refusal>| r.err().map_or(0, |refusal| refusal.0);
    let mut out = [0.0; 2];
    let none = || Ranges { values: &mut [], upper: &mut [], lower: &mut [] };
    let times = || Ranges { values: &mut [], upper: &mut [], lower: &mut [] };
    let (mut a, mut b, mut c) = ([1.0], [1.0], [1.0]);
    let mut told = vec![
        ("transform", row(p.transform(&[1.0], 9, &mut out))),
        ("scale", row(p.scale(&mut out))),
        ("shift", row(p.shift(&mut out))),
        ("difference_deviations", row(p.difference_deviations(&mut out))),
        ("invert_extrapolation", row(p.invert_extrapolation(Ranges { values: &mut a, upper: &mut b, lower: &mut c }, none(), times()))),
        ("numbers", row(p.numbers().map(|_| ()))),
        ("codes", row(p.codes_into(&mut [0]))),
        ("save", row(p.save().map(|_| ()))),
    ];
    let taken = Preprocessor::restore_by(rights.clone(), text, codes, Memory::sized(1, 1, 1));
    told.push(("restore", taken.err().map_or(0, |(refusal, line, _)| refusal.0 + 100 * line)));
    assert_eq!(format!("{before:?}"), format!("{:?}", p.memory()));
    let changing: [(&str, fn(&mut Preprocessor) -> Result<(), Refusal>); 3] = [
        ("shingled_point", |p| p.shingled_point_into(&[1.0], 9, &mut [0.0]).map(|_| ())),
        ("post_process", |p| p.post_process(&[1.0], 9, Learn::default(), &mut [0.0], &mut [], &mut []).map(|_| ())),
        ("drain", |p| p.drain()),
    ];
    for (name, call) in changing {
        let mut q = p.clone();
        let n = row(call(&mut q));
        assert!(n != 22 || format!("{before:?}") == format!("{:?}", q.memory()), "{name} changed something");
        told.push((name, n));
    }
    told
}

/// Each cell of the table decides its calls, and no other; and point needs two.
#[test]
fn every_cell() {
    let s = settings(TransformMethod::Normalize, 1, 1, 1);
    let mut p = Preprocessor::build(&s).unwrap();
    learn(&mut p, 4.0, 1);
    let text = p.save().unwrap();
    assert!(rows(&p, &Rights::default(), &text, &s.codes).iter().all(|&(_, row)| row == 0));
    let needs = |call: &str| match call {
        "save" => vec![Right::Save],
        "restore" => vec![Right::Restore],
        "post_process" | "drain" => vec![Right::Learn],
        "shingled_point" => vec![Right::See, Right::Learn],
        _ => vec![Right::See],
    };
    for role in 0..4 {
        for right in [Right::See, Right::Learn, Right::Save, Right::Restore] {
            let at = 4 * role as usize + right as usize;
            let (mut without, mut alone) = (Rights { table: EVERY_RIGHT.to_vec(), role }, Rights { table: vec![0; 16], role });
            without.table[at] = 0;
            alone.table[at] = 1;
            for (call, row) in rows(&p, &without, &text, &s.codes) {
                assert_eq!(row, if needs(call).contains(&right) { 22 } else { 0 }, "{call} without {right:?} of role {role}");
            }
            for (call, row) in rows(&p, &alone, &text, &s.codes) {
                assert_eq!(row, if needs(call) == [right] { 0 } else { 22 }, "{call} with {right:?} of role {role} alone");
            }
            for other in (0..4).filter(|&other| other != role) {
                alone.role = other;
                assert!(rows(&p, &alone, &text, &s.codes).iter().all(|&(_, row)| row == 22));
            }
        }
    }
}

/// What is no table, or no role, is 22 for every call, before any other row: of a damaged head, of too few words, of a text that is none.
#[test]
fn no_table() {
    let s = settings(TransformMethod::Normalize, 1, 1, 1);
    let p = Preprocessor::build(&s).unwrap();
    let mut damaged = p.clone().into_memory();
    damaged.head[2] = 0;
    let mut short = p.clone().into_memory();
    short.head.truncate(3);
    let mut tables: Vec<Rights> = [vec![], vec![1; 15], vec![1; 17]].map(|table| Rights { table, role: 0 }).to_vec();
    for cell in 0..16 {
        for bad in [2, 255] {
            let mut table = EVERY_RIGHT.to_vec();
            table[cell] = bad;
            tables.push(Rights { table, role: 0 });
        }
    }
    for role in [4, 1 << 32, 1 << 62, u64::MAX] {
        tables.push(Rights { table: EVERY_RIGHT.to_vec(), role });
    }
    for rights in &tables {
        for p in [p.clone(), Preprocessor::from_memory(damaged.clone()), Preprocessor::from_memory(short.clone())] {
            assert!(rows(&p, rights, b"no text", &s.codes).iter().all(|&(_, row)| row == 22), "{rights:?}");
        }
    }
    // with every right it is the head that refuses
    let damaged = Preprocessor::from_memory(damaged);
    assert!(rows(&damaged, &Rights::default(), b"no text", &s.codes).iter().all(|&(call, row)| row == if call == "restore" { 119 } else { 2 }));
}

/// One preprocessor, three people: one looks, one learns, one puts away and takes up.
#[test]
fn shared() {
    let rights = Rights::granting([&[], &[Right::See], &[Right::See, Right::Learn], &[Right::Save, Right::Restore]]);
    let s = settings(TransformMethod::None, 1, 1, 0);
    let mut p = Preprocessor::build(&s).unwrap();
    p.set_rights(rights.clone());
    assert_eq!(p.shingled_point(&[3.0], 1), Err(Refusal(22)));
    p.set_role(1);
    assert_eq!((p.values_seen(), p.shingled_point(&[3.0], 1), p.drain()), (Ok(0), Err(Refusal(22)), Err(Refusal(22))));
    p.set_role(2);
    assert_eq!(p.shingled_point(&[3.0], 1), Ok(Some(vec![3.0])));
    p.post_process(&[3.0], 1, Learn { y: Some(&[3.0]), ..Learn::default() }, &mut [0.0], &mut [], &mut []).unwrap();
    assert_eq!((p.values_seen(), p.save()), (Ok(1), Err(Refusal(22))));
    p.set_role(3);
    let text = p.save().unwrap();
    assert_eq!(p.values_seen(), Err(Refusal(22)));
    let mut q = Preprocessor::restore_by(p.rights().clone(), &text, &s.codes, Memory::sized(1, 1, 0)).unwrap();
    assert_eq!((q.save(), q.rights()), (Ok(text.clone()), p.rights()));
    q.set_role(2);
    assert_eq!(q.values_seen(), Ok(1));
    let (refusal, line, _) = Preprocessor::restore_by(Rights { role: 2, ..rights }, &text, &s.codes, Memory::sized(1, 1, 0)).unwrap_err();
    assert_eq!((refusal, line), (Refusal(22), 0));
}

/// The ten numbers at once, in just their room and in more; in less, nothing is written.
#[test]
fn ten_numbers() {
    let p = Preprocessor::build(&settings(TransformMethod::NormalizeDifference, 2, 4, 10)).unwrap();
    let mut output = [7; 11];
    assert_eq!((p.numbers_into(&mut output[..9]), output), (Err(Refusal(20)), [7; 11]));
    assert_eq!((p.numbers_into(&mut output), output), (Ok(()), [0, 0, 0, 2, 4, 8, 10, 5, 0, 0, 7]));
}

#[test]
fn numbers() {
    assert_eq!(sqrt(f64::from_bits(1)).to_bits(), 0x1e60_0000_0000_0000);
    assert!(sqrt(-1.0).is_nan());
    let digits = [1.0, 4.0, f64::from_bits(1), 2.25, 2.0, 0.0, -0.0, -4.0, f64::INFINITY, f64::NAN].map(sqrt_digits);
    assert_eq!(digits, [1, 1, 1, 2, 54, 0, 0, 0, 0, 0]);
    assert_eq!((to_f32(16777217.0), to_f32(16777219.0)), (16777216.0, 16777220.0));
}

/// Two channels, three readings: in the first channel the middle cell is missing, in the second all are.
#[test]
fn filled_in() {
    let marks = [0, 1, 1, 1, 0, 1];
    let fixed = [9.0, -1.0];
    for (method, middle) in [
        (ImputationMethod::Fixed, 9.0),
        (ImputationMethod::Previous, 2.0),
        (ImputationMethod::Next, 6.0),
        (ImputationMethod::Linear, 4.0),
    ] {
        // what stands in a missing cell is not read
        let mut cells = [2.0, f32::NAN, f32::INFINITY, 0.0, 6.0, 7.0];
        assert_eq!(impute(method, 2, &mut cells, &marks, &fixed), Ok(()));
        assert_eq!(cells, [2.0, -1.0, middle, -1.0, 6.0, -1.0], "{method:?}");
    }
    let old = [2.0, 3.0, 4.0, 5.0, 6.0, 7.0];
    let mut cells = old;
    type Refused<'a> = (u64, u64, &'a [u8], &'a [f32], u64);
    let refused: [Refused; 10] = [
        (4, 0, &[3], &[f32::NAN], 19),
        (u64::MAX, 2, &marks, &fixed, 19),
        (1 << 32, 2, &marks, &fixed, 19),
        (0, 0, &marks, &fixed, 2),
        (1, 17, &marks, &fixed, 4),
        (1, u64::MAX, &marks, &fixed, 4),
        (2, 2, &marks[1..], &fixed, 10),
        (2, 2, &marks, &fixed[1..], 10),
        (3, 2, &[0, 1, 2, 1, 0, 1], &[f32::NAN, 1.0], 21),
        (3, 2, &marks, &[f32::NAN, 1.0], 11),
    ];
    for (method, d, marks, fixed, row) in refused {
        assert_eq!((impute_by_number(method, d, &mut cells, marks, fixed), cells), (Err(Refusal(row)), old), "rule {method}, d {d}");
    }
}

#[test]
fn compared() {
    let left = Readings { cells: &[1.0, 2.0, 5.0], times: &[0, 10, 20] };
    let right = Readings { cells: &[1.5, 7.0], times: &[1, 21] };
    assert_eq!(align(1, left, right, 2), Ok(Aligned { pairs: vec![(0, 0), (2, 1)], gaps: vec![2.0] }));
    assert_eq!(align(1, left, right, 0), Ok(Aligned { pairs: vec![], gaps: vec![0.0] }));
    // what lies past the answer is kept, and a refusal writes nothing
    let (mut i, mut j, mut gaps) = ([7; 3], [8; 3], [9.0; 2]);
    for (d, left, right, row) in [
        (0, left, right, 2),
        (u64::MAX, left, right, 4),
        (2, left, right, 10),
        (1, Readings { times: &[0, 10, 9], ..left }, right, 24),
    ] {
        assert_eq!((align_into(d, left, right, 2, &mut i, &mut j, &mut gaps), i, j, gaps), (Err(Refusal(row)), [7; 3], [8; 3], [9.0; 2]));
    }
    assert_eq!(align_into(1, left, right, 2, &mut i[..1], &mut j, &mut gaps), Err(Refusal(20)));
    assert_eq!(align_into(1, left, right, 2, &mut i, &mut j, &mut []), Err(Refusal(20)));
    assert_eq!((align_into(1, left, right, 2, &mut i, &mut j, &mut gaps), i, j, gaps), (Ok(2), [0, 2, 7], [0, 1, 8], [2.0, 9.0]));
    let nan = Readings { cells: &[f32::NAN], times: &[5] };
    assert_eq!(align(1, nan, nan, 0), Ok(Aligned { pairs: vec![(0, 0)], gaps: vec![f32::INFINITY] }));
}

/// "For n 2 and s 1 they are 6, 2 and 1."
#[test]
fn stranded_starts() {
    assert_eq!(strandings(1, 2), Ok(Strandings { waiting: 6, drained: 2, stranded: 1 }));
    for (start, calls) in [(0, 1), (1, 0), (21, 1), (1, 21), ((1 << 32) + 1, 1), (1, u64::MAX)] {
        assert_eq!(strandings(start, calls), Err(Refusal(25)), "{start} {calls}");
    }
    let s = strandings(20, 20).unwrap();
    assert_eq!(s.waiting + s.drained + s.stranded, 3u64.pow(20));
}

/// Of the list 2, 6 the 6 was a 4.
#[test]
fn put_right() {
    let s = Statistic { discount: 0.0, weight: 2.0, sum: 8.0, sum_squared: 40.0, count: 2 };
    assert_eq!(s.corrected(6.0, 4.0), Ok(Statistic { sum: 6.0, sum_squared: 20.0, ..s }));
    // what lies past the answer is kept, a refusal writes nothing, and 26 comes before 20
    let mut output = [9.0; 4];
    assert_eq!((s.corrected_into(6.0, 4.0, &mut output[..2]), output), (Err(Refusal(20)), [9.0; 4]));
    for (other, wrong) in [
        (Statistic { discount: 0.1, ..s }, 6.0),
        (Statistic { weight: 3.0, ..s }, 6.0),
        (Statistic { sum: 0.5, ..s }, 6.0),
        (Statistic { sum_squared: -1.0, ..s }, 6.0),
        (Statistic { count: (1 << 32) + 2, ..s }, 6.0),
        (s, 6.5),
        (s, 65537.0),
        (s, f32::NAN),
    ] {
        assert_eq!((other.corrected_into(wrong, 4.0, &mut output[..2]), output), (Err(Refusal(26)), [9.0; 4]), "{other:?} {wrong}");
    }
    assert_eq!((s.corrected_into(6.0, 4.0, &mut output), output), (Ok(()), [2.0, 6.0, 20.0, 9.0]));
}
