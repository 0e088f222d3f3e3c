//! Times of the static library and of the unchanged Rust, in one run: medians of repeats that alternate between the sides, and the median and the quartiles of
//! the repeats' ratios. tools/speed prints it beside the instructions.
//! Usage: measure [REPEATS [--tabs]]; build it with `--profile speed`, which leaves overflow checks out. With --tabs a row is fields between tabs: what, the
//! unit, units a call, and the repeats' nanoseconds a call, of the library and of the Rust, between spaces.
use differential::settings;
use oracle::bits::bits32;
use oracle::calls::{Mode, Settings, DIFFERENCE, NONE, NORMALIZE, NORMALIZE_DIFFERENCE, SUBTRACT_MA, WEIGHTED};
use oracle::common::descriptor::Descriptor;
use oracle::common::rangevector::RangeVector;
use oracle::random::Random;
use oracle::rcf::RCFLarge;
use oracle::reference::rust_build;
use oracle::trcf::preprocessor::Preprocessor as Rust;
use std::hint::black_box;
use std::time::Instant;
use veerycouch::{align_into, impute, sqrt, sqrt_digits, to_f32, ImputationMethod, Learn, Preprocessor, Ranges, Readings};

const METHODS: [(u8, &str); 6] = [
    (NONE, "NONE"),
    (WEIGHTED, "WEIGHTED"),
    (DIFFERENCE, "DIFFERENCE"),
    (SUBTRACT_MA, "SUBTRACT_MA"),
    (NORMALIZE, "NORMALIZE"),
    (NORMALIZE_DIFFERENCE, "NORMALIZE_DIFFERENCE"),
];

const STARTS: [u64; 6] = [1, 10, 100, 500, 1000, 1999];

fn given(method: u8, d: u64, k: u64, start: u64) -> Settings {
    Settings { mode: Mode::Standard, method, d, k, start, stop: u64::MAX, decay: 0.001, weight_time: 1.0, weights: vec![1.0; d as usize], codes: vec![0; d as usize] }
}

fn input(r: &mut Random, n: u64) -> Vec<f32> {
    (0..n).map(|_| r.from(0, 4000) as f32 / 16.0).collect()
}

fn rust_step(p: &mut Rust, x: &[f32], time: u64) -> u32 {
    let point = p.shingled_point(None as Option<&RCFLarge<u64, u64>>, x, time).unwrap();
    let mut result = Descriptor { rcf_point: point, ..Default::default() };
    p.post_process(&mut result, x, time, &Descriptor::default()).unwrap();
    result.deviations_post.map_or(0, |d| bits32(d[0]))
}

fn our_step(p: &mut Preprocessor, x: &[f32], time: u64, point: &mut [f32], deviations: &mut [f32]) -> u32 {
    let y = p.shingled_point_into(x, time, point).unwrap();
    let learn = Learn { y: y.then_some(&*point), ..Default::default() };
    let done = p.post_process(x, time, learn, deviations, &mut [], &mut []).unwrap();
    if done.written {
        bits32(deviations[0])
    } else {
        0
    }
}

/// Both sides after the same 200 readings.
fn filled(s: &Settings) -> (Rust, Preprocessor) {
    let mut r = Random::new(1);
    let (mut rust, mut ours) = (rust_build(s).unwrap(), Preprocessor::build(&settings(s)).unwrap());
    let (mut point, mut deviations) = (vec![0.0; s.dimension()], vec![0.0; s.width()]);
    for t in 0..200 {
        let x = input(&mut r, s.d);
        assert_eq!(rust_step(&mut rust, &x, t * 10), our_step(&mut ours, &x, t * 10, &mut point, &mut deviations));
    }
    (rust, ours)
}

/// Nanoseconds a call, repeat by repeat; none of the Rust where there is nothing to compare.
struct Times {
    ours: Vec<f64>,
    rust: Vec<f64>,
}

fn quartiles(mut list: Vec<f64>) -> [f64; 3] {
    list.sort_by(f64::total_cmp);
    [1, 2, 3].map(|q| list[list.len() * q / 4])
}

/// The rows as a table, or as fields between tabs.
struct Table {
    repeats: usize,
    tabs: bool,
}

impl Table {
    fn begin(&self) {
        if !self.tabs {
            println!("{:<68} {:>12} {:>12} {:>7} {:>16}", format!("medians of {}, nanoseconds", self.repeats), "library", "the Rust", "ratio", "quartiles");
        }
    }

    /// A call has so many units; the table has the figure of one.
    fn told(&self, what: &str, unit: &str, units: usize, times: Times) {
        if self.tabs {
            let list = |times: &[f64]| times.iter().map(|t| format!("{t:.2}")).collect::<Vec<_>>().join(" ");
            println!("{what}\t{unit}\t{units}\t{}\t{}", list(&times.ours), list(&times.rust));
            return;
        }
        let [ratios, theirs] = match times.rust.len() {
            0 => [None, None],
            _ => [Some(quartiles(times.ours.iter().zip(&times.rust).map(|(a, b)| a / b).collect())), Some(quartiles(times.rust))],
        };
        let (ours, rust) = (quartiles(times.ours)[1], theirs.map(|t| t[1]));
        let many = units as f64;
        let rust = rust.map_or("-".to_string(), |t| format!("{:.2}", t / many));
        let ratio = ratios.map_or(String::new(), |[low, middle, high]| format!("{middle:>7.2} {:>16}", format!("{low:.2} to {high:.2}")));
        let speed = if unit == "byte" { format!(" ({:.0} MB/s)", many / ours * 1000.0) } else { String::new() };
        println!("{:<68} {:>12.2} {rust:>12} {ratio}{speed}", format!("{what}: a {unit}"), ours / many);
    }
}

fn timed<T>(work: impl FnOnce() -> T) -> f64 {
    let begun = Instant::now();
    let answer = black_box(work());
    let time = begun.elapsed().as_nanos() as f64;
    drop(answer);
    time
}

/// Each side per call, of which a repeat makes so many, the sides in turn.
fn both(repeats: usize, calls: usize, mut ours: impl FnMut() -> f64, mut rust: impl FnMut() -> f64) -> Times {
    ours();
    rust();
    let mut times = Times { ours: Vec::new(), rust: Vec::new() };
    for _ in 0..repeats {
        times.ours.push(ours() / calls as f64);
        times.rust.push(rust() / calls as f64);
    }
    times
}

/// The library alone.
fn alone(repeats: usize, calls: usize, mut ours: impl FnMut() -> f64) -> Times {
    ours();
    Times { ours: (0..repeats).map(|_| ours() / calls as f64).collect(), rust: Vec::new() }
}

/// So many blocks of a forecast.
fn turn_back(repeats: usize, s: &Settings, blocks: usize) -> Times {
    let (rust, ours) = filled(s);
    let mut r = Random::new(2);
    let length = if s.timed() { s.dimension() } else { s.width() } * blocks;
    let values = input(&mut r, length as u64);
    let upper: Vec<f32> = values.iter().map(|v| v + 1.0).collect();
    let lower: Vec<f32> = values.iter().map(|v| v - 1.0).collect();
    let range = RangeVector { values: values.clone(), upper: upper.clone(), lower: lower.clone() };
    let mut work = [values.clone(), upper.clone(), lower.clone()];
    // the outputs of the modes with a time element
    let room = if s.timed() { blocks } else { 0 };
    let (mut numbers, mut times) = ([(); 3].map(|()| vec![0.0f32; room * (s.d * s.k) as usize]), [(); 3].map(|()| vec![0.0f64; room]));
    let by_us = || {
        work[0].copy_from_slice(&values);
        work[1].copy_from_slice(&upper);
        work[2].copy_from_slice(&lower);
        let [v, u, l] = black_box(&mut work);
        let ([a, b, c], [x, y, z]) = (&mut numbers, &mut times);
        timed(|| {
            let (numbers, times) = (Ranges { values: a, upper: b, lower: c }, Ranges { values: x, upper: y, lower: z });
            ours.invert_extrapolation(Ranges { values: v, upper: u, lower: l }, numbers, times).unwrap()
        })
    };
    let by_rust = || {
        let lent = black_box(range.clone());
        timed(|| rust.invert_extrapolation(lent).unwrap())
    };
    both(repeats, 1, by_us, by_rust)
}

/// A list of readings, over and over, on two that grow old: past the table of factors before the first repeat that counts. A repeat is short, so that few
/// repeats are held up where other work runs beside.
fn readings(repeats: usize, s: &Settings) -> Times {
    let (mut rust, mut ours) = filled(s);
    let mut r = Random::new(3);
    let inputs: Vec<Vec<f32>> = (0..200).map(|_| input(&mut r, s.d)).collect();
    let (mut point, mut deviations) = (vec![0.0; s.dimension()], vec![0.0; s.width()]);
    let (mut at, mut there) = (10_000, 10_000);
    let mut by_us = || {
        timed(|| {
            for x in &inputs {
                at += 10;
                black_box(our_step(&mut ours, black_box(x), at, &mut point, &mut deviations));
            }
        })
    };
    let mut by_rust = || {
        timed(|| {
            for x in &inputs {
                there += 10;
                black_box(rust_step(&mut rust, black_box(x), there));
            }
        })
    };
    for _ in 0..4 {
        by_us();
        by_rust();
    }
    both(repeats, inputs.len(), by_us, by_rust)
}

/// Readings 201 to 400, within the table of factors, again and again from copies.
fn young_readings(repeats: usize, s: &Settings) -> Times {
    let (rust, ours) = filled(s);
    let mut r = Random::new(3);
    let inputs: Vec<Vec<f32>> = (0..200).map(|_| input(&mut r, s.d)).collect();
    let (mut point, mut deviations) = (vec![0.0; s.dimension()], vec![0.0; s.width()]);
    let by_us = || {
        let mut p = black_box(ours.clone());
        timed(|| (0..).zip(&inputs).fold(0, |a, (t, x)| a ^ our_step(&mut p, black_box(x), 10_000 + t * 10, &mut point, &mut deviations)))
    };
    let by_rust = || {
        let mut p = black_box(rust.clone());
        timed(|| (0..).zip(&inputs).fold(0, |a, (t, x)| a ^ rust_step(&mut p, black_box(x), 10_000 + t * 10)))
    };
    both(repeats, inputs.len(), by_us, by_rust)
}

/// Mode G, which the Rust has not.
fn gap_readings(repeats: usize, s: &Settings) -> Times {
    let mut ours = Preprocessor::build(&settings(s)).unwrap();
    let mut r = Random::new(3);
    let inputs: Vec<Vec<f32>> = (0..1000).map(|_| input(&mut r, s.d)).collect();
    let (mut point, mut deviations) = (vec![0.0; s.dimension()], vec![0.0; s.width()]);
    let mut at = 0;
    alone(repeats, 1000, || {
        timed(|| {
            for x in &inputs {
                at += 10;
                black_box(our_step(&mut ours, black_box(x), at, &mut point, &mut deviations));
            }
        })
    })
}

/// `start` initial values, complete and not yet fed.
fn awaited(start: u64) -> (Rust, Preprocessor) {
    let s = given(NORMALIZE, 1, 8, start);
    let mut r = Random::new(4);
    let (mut rust, mut ours) = (rust_build(&s).unwrap(), Preprocessor::build(&settings(&s)).unwrap());
    let mut deviations = [0.0; 1];
    for t in 0..start {
        let x = input(&mut r, 1);
        rust.post_process(&mut Descriptor::default(), &x, t * 10, &Descriptor::default()).unwrap();
        ours.post_process(&x, t * 10, Learn::default(), &mut deviations, &mut [], &mut []).unwrap();
    }
    (rust, ours)
}

fn drain(repeats: usize, start: u64) -> Times {
    let (rust, ours) = awaited(start);
    let by_us = || {
        let mut p = black_box(ours.clone());
        timed(|| {
            p.drain().unwrap();
            p
        })
    };
    let by_rust = || {
        let mut p = black_box(rust.clone());
        timed(|| {
            p.drain(None).unwrap();
            p
        })
    };
    both(repeats, 1, by_us, by_rust)
}

/// Putting away, and taking up in memory of just its size; and the text's length.
fn text(repeats: usize, ours: &Preprocessor) -> (Times, Times, usize) {
    let (text, codes) = (ours.save().unwrap(), ours.codes().unwrap());
    let mut memory = Some(ours.memory().clone());
    let restores = alone(repeats, 1, || {
        let mut taken = None;
        let lent = memory.take().unwrap();
        let time = timed(|| taken = Some(Preprocessor::restore_in(black_box(&text), &codes, lent).unwrap()));
        memory = taken.map(Preprocessor::into_memory);
        time
    });
    let mut output = vec![0; text.len()];
    let saves = alone(repeats, 1, || timed(|| black_box(ours).save_into(&mut output).unwrap()));
    (saves, restores, text.len())
}

/// A full one: d 16, k 64, start 1,999, all its initial values there.
fn full() -> Preprocessor {
    let mut r = Random::new(6);
    let mut ours = Preprocessor::build(&settings(&given(NORMALIZE, 16, 64, 1999))).unwrap();
    for t in 0..1999 {
        ours.post_process(&input(&mut r, 16), t * 10, Learn::default(), &mut [0.0; 16], &mut [], &mut []).unwrap();
    }
    ours
}

/// Both behind a call. Independent: the calls may overlap; dependent: each argument waits for the answer before it.
fn numbers<T: Copy>(table: &Table, what: &str, list: &[f64], ours: fn(f64) -> T, machine: fn(f64) -> T, wide: fn(T) -> f64) {
    let independent = |f: fn(f64) -> T| {
        let f = black_box(f);
        timed(|| black_box(list).iter().fold(0.0, |a: f64, &x| a.max(wide(f(x)))))
    };
    let dependent = |f: fn(f64) -> T| {
        let f = black_box(f);
        timed(|| black_box(list).iter().fold(0.0, |a: f64, &x| wide(f(x + (a - a)))))
    };
    let times = both(table.repeats, list.len(), || independent(ours), || independent(machine));
    table.told(&format!("{what}, independent"), "number", 1, times);
    let times = both(table.repeats, list.len(), || dependent(ours), || dependent(machine));
    table.told(&format!("{what}, dependent"), "number", 1, times);
}

fn roots(table: &Table) {
    let mut r = Random::new(5);
    let list: Vec<f64> = (0..1000).map(|_| r.from(1, 1 << 40) as f64 / 1024.0).collect();
    numbers(table, "sqrt", &list, sqrt, f64::sqrt, |x| x);
    let fours: Vec<f64> = (0..1000).map(|_| 4f64.powi(r.from(0, 40) as i32 - 20)).collect();
    numbers(table, "sqrt of powers of four", &fours, sqrt, f64::sqrt, |x| x);
    numbers(table, "sqrt_digits", &list, sqrt_digits, |x| x.sqrt() as u64, |n| n as f64);
    numbers(table, "to_f32", &list, to_f32, |x| x as f32, |x| x as f64);
}

/// Filling in 2,000 readings of one channel, of which one in `every` is present.
fn filling(repeats: usize, method: ImputationMethod, every: usize) -> Times {
    let cells = input(&mut Random::new(2), 2000);
    let marks: Vec<u8> = (0..2000).map(|i| u8::from(i % every != 0)).collect();
    alone(repeats, 1, || {
        let mut lent = cells.clone();
        timed(|| impute(method, 1, black_box(&mut lent), &marks, &[1.0]).unwrap())
    })
}

/// Comparing two lists of 4,096 readings of d channels, all of them paired.
fn aligning(repeats: usize, d: u64) -> Times {
    let mut r = Random::new(3);
    let (left, right) = (input(&mut r, 4096 * d), input(&mut r, 4096 * d));
    let times: Vec<u64> = (0..4096).map(|i| i * 10).collect();
    let (mut lefts, mut rights, mut gaps) = (vec![0; 4096], vec![0; 4096], vec![0.0; d as usize]);
    let (one, other) = (Readings { cells: &left, times: &times }, Readings { cells: &right, times: &times });
    alone(repeats, 1, || timed(|| align_into(d, black_box(one), black_box(other), 3, &mut lefts, &mut rights, &mut gaps).unwrap()))
}

/// 1,000 calls a repeat.
fn many<T>(table: &Table, what: &str, mut call: impl FnMut() -> T) {
    let times = alone(table.repeats, 1000, || {
        timed(|| {
            for _ in 0..1000 {
                black_box(call());
            }
        })
    });
    table.told(what, "call", 1, times);
}

fn small_calls(table: &Table) {
    let s = given(NORMALIZE, 16, 8, 10);
    let ours = filled(&s).1;
    let (mut output, x) = ([0.0; 16], [1.0; 16]);
    let (asked, mut memory) = (settings(&s), Some(ours.memory().clone()));
    many(table, "build, d 16, k 8", || memory = Preprocessor::build_in(black_box(&asked), memory.take().unwrap()).ok().map(Preprocessor::into_memory));
    many(table, "transform, d 16, k 8", || black_box(&ours).transform(&x, 10_000, &mut output));
    many(table, "scale, d 16, k 8", || black_box(&ours).scale(&mut output));
    many(table, "shift, d 16, k 8", || black_box(&ours).shift(&mut output));
    many(table, "difference_deviations, d 16, k 8", || black_box(&ours).difference_deviations(&mut output));
    many(table, "numbers", || black_box(&ours).numbers());
    many(table, "a getter", || black_box(&ours).panel());
}

fn turn_backs(table: &Table) {
    for (method, name) in METHODS {
        table.told(&format!("turn-back, {name}, 16 by 1000"), "call", 1, turn_back(table.repeats, &given(method, 16, 8, 10), 1000));
    }
    for (d, blocks) in [(1, 1000), (4, 1000), (16, 1), (16, 100), (16, 250), (16, 500), (16, 2000)] {
        let times = turn_back(table.repeats, &given(NORMALIZE_DIFFERENCE, d, 8, 10), blocks);
        table.told(&format!("turn-back, NORMALIZE_DIFFERENCE, {d} by {blocks}"), "call", 1, times);
    }
    let timed = Settings { mode: Mode::TimeAugmented, ..given(NORMALIZE_DIFFERENCE, 16, 1, 10) };
    table.told("turn-back, NORMALIZE_DIFFERENCE, 16 by 1000, TIME_AUGMENTED", "call", 1, turn_back(table.repeats, &timed, 1000));
}

fn all_readings(table: &Table) {
    for (d, k) in [(1, 1), (1, 2), (1, 4), (1, 8), (1, 16), (1, 32), (1, 64), (2, 8), (4, 8), (8, 8), (16, 8), (16, 64)] {
        table.told(&format!("point and learn, d {d}, k {k}"), "reading", 1, readings(table.repeats, &given(NORMALIZE, d, k, 10)));
    }
    for (d, k) in [(1, 8), (4, 8), (16, 8), (16, 64)] {
        table.told(&format!("point and learn, d {d}, k {k}, young"), "reading", 1, young_readings(table.repeats, &given(NORMALIZE, d, k, 10)));
    }
    let timed = Settings { mode: Mode::TimeAugmented, ..given(NORMALIZE, 4, 8, 10) };
    table.told("point and learn, d 4, k 8, TIME_AUGMENTED", "reading", 1, readings(table.repeats, &timed));
    let gap = Settings { mode: Mode::GapAugmented, ..given(NORMALIZE, 4, 8, 10) };
    table.told("point and learn, d 4, k 8, GAP_AUGMENTED", "reading", 1, gap_readings(table.repeats, &gap));
}

fn texts(table: &Table) {
    for start in STARTS {
        let (saves, restores, length) = text(table.repeats, &awaited(start).1);
        table.told(&format!("save, start {start}"), "byte", length, saves);
        table.told(&format!("restore, start {start}"), "byte", length, restores);
    }
    let (saves, restores, length) = text(table.repeats, &full());
    table.told("save, full", "byte", length, saves);
    table.told("restore, full", "byte", length, restores);
}

fn main() {
    let words: Vec<String> = std::env::args().skip(1).collect();
    let repeats = words.first().map_or(101, |a| a.parse().expect("REPEATS"));
    let table = Table { repeats, tabs: words.get(1).is_some_and(|w| w == "--tabs") };
    table.begin();
    turn_backs(&table);
    all_readings(&table);
    for start in STARTS {
        table.told(&format!("drain, start {start}"), "value", start as usize, drain(repeats, start));
    }
    texts(&table);
    small_calls(&table);
    roots(&table);
    for (method, name) in [(ImputationMethod::Fixed, "FIXED"), (ImputationMethod::Previous, "PREVIOUS"), (ImputationMethod::Next, "NEXT"), (ImputationMethod::Linear, "LINEAR")] {
        for (every, gaps) in [(2, "gaps of 1"), (1999, "one gap of 1998")] {
            table.told(&format!("impute, {name}, {gaps}"), "cell", 2000, filling(repeats, method, every));
        }
    }
    for d in [1, 16] {
        table.told(&format!("align, 4096 by 4096, d {d}"), "reading", 4096, aligning(repeats, d));
    }
}
