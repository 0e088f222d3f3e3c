//! Times of the Rust: turn-back on a long horizon, and a point with its learn. Prints medians in nanoseconds.
use oracle::bits::bits32;
use oracle::calls::{Mode, Settings, NORMALIZE_DIFFERENCE};
use oracle::common::descriptor::Descriptor;
use oracle::common::rangevector::RangeVector;
use oracle::random::Random;
use oracle::rcf::RCFLarge;
use oracle::reference::rust_build;
use oracle::trcf::preprocessor::Preprocessor;
use std::hint::black_box;
use std::time::Instant;

fn settings(d: u64, k: u64) -> Settings {
    Settings {
        mode: Mode::Standard,
        method: NORMALIZE_DIFFERENCE,
        d,
        k,
        start: 10,
        stop: u64::MAX,
        decay: 0.001,
        weight_time: 1.0,
        weights: vec![1.0; d as usize],
        codes: vec![0; d as usize],
    }
}

fn input(r: &mut Random, d: u64) -> Vec<f32> {
    (0..d).map(|_| r.from(0, 4000) as f32 / 16.0).collect()
}

/// One reading: its point, then its learn.
fn step(p: &mut Preprocessor, input: &[f32], time: u64) -> u32 {
    let point = p.shingled_point(None as Option<&RCFLarge<u64, u64>>, input, time).unwrap();
    let mut result = Descriptor { rcf_point: point, ..Default::default() };
    p.post_process(&mut result, input, time, &Descriptor::default()).unwrap();
    result.deviations_post.map_or(0, |d| bits32(d[0]))
}

fn filled(d: u64, k: u64) -> Preprocessor {
    let mut r = Random::new(1);
    let mut p = rust_build(&settings(d, k)).unwrap();
    for t in 0..200 {
        step(&mut p, &input(&mut r, d), t * 10);
    }
    p
}

fn median(mut times: Vec<f64>) -> f64 {
    times.sort_by(f64::total_cmp);
    times[times.len() / 2]
}

/// Turn-back of `d` channels by `blocks`; the lists are filled beforehand, outside the time.
fn turn_back(d: u64, blocks: usize) -> f64 {
    let p = filled(d, 8);
    let mut r = Random::new(2);
    let values = input(&mut r, d * blocks as u64);
    let upper = values.iter().map(|v| v + 1.0).collect();
    let lower = values.iter().map(|v| v - 1.0).collect();
    let range = RangeVector { values, upper, lower };
    median(
        (0..401)
            .map(|_| {
                let lent = black_box(range.clone());
                let begun = Instant::now();
                let answer = black_box(p.invert_extrapolation(lent).unwrap());
                let time = begun.elapsed().as_nanos() as f64;
                drop(answer);
                time
            })
            .collect(),
    )
}

fn readings(d: u64, k: u64) -> f64 {
    let mut p = filled(d, k);
    let mut r = Random::new(3);
    let inputs: Vec<Vec<f32>> = (0..1000).map(|_| input(&mut r, d)).collect();
    let mut time = 10_000;
    median(
        (0..101)
            .map(|_| {
                let begun = Instant::now();
                for x in &inputs {
                    time += 10;
                    black_box(step(&mut p, black_box(x), time));
                }
                begun.elapsed().as_nanos() as f64 / inputs.len() as f64
            })
            .collect(),
    )
}

fn main() {
    println!("turn-back, 16 channels by 1000 blocks, NORMALIZE_DIFFERENCE, STANDARD: {:.0} ns", turn_back(16, 1000));
    for (d, k) in [(1, 8), (4, 8), (16, 64)] {
        println!("point and learn, d {d}, k {k}, NORMALIZE_DIFFERENCE, STANDARD: {:.0} ns a reading", readings(d, k));
    }
}
