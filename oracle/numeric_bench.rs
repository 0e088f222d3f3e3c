// Nanoseconds a call of the functions of `numeric` and of the machine's own, in one run: independent calls, and calls that each wait for the one before.
// docs/PERFORMANCE.md says how it is built.
use std::hint::black_box;
use std::time::Instant;

extern "C" {
    fn veery_sqrt(x: f64) -> f64;
    fn veery_to_f32(x: f64) -> f32;
    fn veery_u64_to_f64(x: u64) -> f64;
    fn veery_u64_to_f32(x: u64) -> f32;
}

// the machine's own, behind a call as well
#[inline(never)]
extern "C" fn machine_sqrt(x: f64) -> f64 {
    x.sqrt()
}
#[inline(never)]
extern "C" fn machine_to_f32(x: f64) -> f32 {
    x as f32
}
#[inline(never)]
extern "C" fn machine_u64_to_f64(x: u64) -> f64 {
    x as f64
}
#[inline(never)]
extern "C" fn machine_u64_to_f32(x: u64) -> f32 {
    x as f32
}

fn best(count: usize, mut run: impl FnMut() -> u64) -> f64 {
    (0..15)
        .map(|_| {
            let t = Instant::now();
            black_box(run());
            t.elapsed().as_nanos() as f64 / count as f64
        })
        .fold(f64::MAX, f64::min)
}

fn measure(name: &str, xs: &[u64], veery: impl Fn(u64) -> u64, machine: impl Fn(u64) -> u64) {
    let n = xs.len();
    let a = best(n, || xs.iter().fold(0, |s, &x| s ^ veery(black_box(x))));
    let b = best(n, || xs.iter().fold(0, |s, &x| s ^ machine(black_box(x))));
    let c = best(n, || xs.iter().fold(0, |p, &x| veery(x ^ (p & 1))));
    let d = best(n, || xs.iter().fold(0, |p, &x| machine(x ^ (p & 1))));
    println!("{name}: independent {a:.1} ns against {b:.1} ns, {:.1} times; dependent {c:.1} ns against {d:.1} ns, {:.1} times", a / b, c / d);
}

fn main() {
    let mut s = 1u64;
    let mut next = || {
        s = s
            .wrapping_mul(6364136223846793005)
            .wrapping_add(1442695040888963407);
        s ^ (s >> 32)
    };
    let floats: Vec<u64> = (0..1 << 16)
        .map(|_| next() >> 12 | (1023 - 40 + next() % 80) << 52)
        .collect();
    let words: Vec<u64> = (0..1 << 16)
        .map(|_| {
            let n = next();
            n >> (next() % 64)
        })
        .collect();
    unsafe {
        measure(
            "sqrt",
            &floats,
            |x| veery_sqrt(f64::from_bits(x)).to_bits(),
            |x| machine_sqrt(f64::from_bits(x)).to_bits(),
        );
        measure(
            "to_f32",
            &floats,
            |x| veery_to_f32(f64::from_bits(x)).to_bits() as u64,
            |x| machine_to_f32(f64::from_bits(x)).to_bits() as u64,
        );
        measure(
            "u64_to_f64",
            &words,
            |x| veery_u64_to_f64(x).to_bits(),
            |x| machine_u64_to_f64(x).to_bits(),
        );
        measure(
            "u64_to_f32",
            &words,
            |x| veery_u64_to_f32(x).to_bits() as u64,
            |x| machine_u64_to_f32(x).to_bits() as u64,
        );
    }
}
