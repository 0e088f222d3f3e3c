// Writes the vectors that crates/numeric_vectors replays: a line for each, with a letter for the function, its argument and the machine's own answer, the two
// numbers as 16 hexadecimal digits (bit patterns, or the integer itself). s: f64 square root. n: f64 to f32. w: f32 to f64. d: u64 to f64. f: u64 to f32.
// c: how many binary digits of the f64 square root are tried, for which the machine has no answer: here they are tried, one after the other, over whole numbers.
// Every not-a-number is written in one pattern. Made with: rustc -O oracle/numeric_vectors.rs -o /tmp/numeric_vectors && /tmp/numeric_vectors > crates/numeric_vectors/data/vectors
use std::hint::black_box;
use std::io::Write;

#[path = "src/digits.rs"]
mod digits;

// A linear congruential generator (Knuth's MMIX), so that each run writes the same bytes.
struct Random(u64);

impl Random {
    fn next(&mut self) -> u64 {
        self.0 = self
            .0
            .wrapping_mul(6364136223846793005)
            .wrapping_add(1442695040888963407);
        self.0 ^ (self.0 >> 32)
    }
}

fn bits64(x: f64) -> u64 {
    if x.is_nan() {
        0x7ff8_0000_0000_0000
    } else {
        x.to_bits()
    }
}

fn bits32(x: f32) -> u64 {
    if x.is_nan() {
        0x7fc0_0000
    } else {
        x.to_bits() as u64
    }
}

// black_box: the answer is the machine's at run time, and not the compiler's.
fn answer(letter: char, given: u64) -> u64 {
    let given = black_box(given);
    match letter {
        's' => bits64(f64::from_bits(given).sqrt()),
        'n' => bits32(f64::from_bits(given) as f32),
        'w' => bits64(f32::from_bits(given as u32) as f64),
        'd' => bits64(given as f64),
        'c' => digits::digits_tried(f64::from_bits(given)),
        _ => bits32(given as f32),
    }
}

struct Out {
    text: Vec<u8>,
}

impl Out {
    fn put(&mut self, letter: char, given: u64) {
        writeln!(
            self.text,
            "{letter}\t{given:016x}\t{:016x}",
            answer(letter, given)
        )
        .unwrap();
    }

    // with both signs
    fn signs(&mut self, letter: char, given: u64, sign: u64) {
        self.put(letter, given);
        self.put(letter, given | sign);
    }
}

const SIGN64: u64 = 1 << 63;
const SIGN32: u64 = 1 << 31;

// Every exponent's field with the ends of the digits' range and two random ones; zeros, infinities and not-a-numbers are among them.
fn every_f64(out: &mut Out, letter: char, random: &mut Random) {
    for field in 0..2048u64 {
        for digits in [0, 1, random.next() >> 12, (1 << 52) - 1] {
            out.put(letter, field << 52 | digits);
        }
        out.put(letter, SIGN64 | field << 52 | random.next() >> 12);
    }
    for b in [
        SIGN64,
        SIGN64 | 1,
        SIGN64 | 0x7ff << 52,
        0x7ff8 << 48,
        SIGN64 | 0x7ff8 << 48,
        SIGN64 | 0x3ff << 52,
    ] {
        out.put(letter, b);
    }
}

// Squares and their neighbours: the exact roots, and those that come nearest to a value or a midpoint.
fn roots(out: &mut Out, random: &mut Random) {
    for i in 0..1000 {
        let q = if i < 64 { i } else { random.next() >> 38 } as f64;
        let b = (q * q).to_bits();
        for near in [b.saturating_sub(1), b, b + 1] {
            out.put('s', near);
        }
        // the square of a midpoint of two f64s, to the nearest f64
        let m = f64::from_bits((random.next() >> 12) | (1000 + random.next() % 40) << 52);
        let half = f64::from_bits(m.to_bits() & !((1 << 26) - 1) | 1 << 25);
        out.put('s', (half * half).to_bits());
    }
}

// The midpoint of two f32s that are neighbours, and one unit either side, at every exponent and for every size of a subnormal.
fn halfway_f32(out: &mut Out, random: &mut Random) {
    for field in 0..255u64 {
        for _ in 0..3 {
            let low = if field == 0 {
                (random.next() >> 41) >> (random.next() % 23)
            } else {
                random.next() >> 41
            };
            let f = f32::from_bits((field << 23 | low) as u32) as f64;
            let g = f32::from_bits((field << 23 | low) as u32 + 1);
            // above the largest f32 the next would be 2^128
            let g = if g.is_infinite() {
                2f64.powi(128)
            } else {
                g as f64
            };
            let b = ((f + g) / 2.0).to_bits();
            for near in [b - 1, b, b + 1] {
                out.signs('n', near, SIGN64);
            }
        }
    }
    // each power of two below the smallest normal f32, the smallest f32 and its half among them
    for e in 120..=160 {
        let b = 2f64.powi(-e).to_bits();
        for near in [b - 1, b, b + 1] {
            out.signs('n', near, SIGN64);
        }
    }
    // the largest f32, the midpoint above it, from which on all is infinite, and 2^128
    for b in [
        0x47ef_ffff_e000_0000u64,
        0x47ef_ffff_f000_0000,
        0x47f0_0000_0000_0000,
    ] {
        for near in [b - 1, b, b + 1] {
            out.signs('n', near, SIGN64);
        }
    }
}

fn every_f32(out: &mut Out, random: &mut Random) {
    for field in 0..256u64 {
        for digits in [0, 1, random.next() >> 41, (1 << 23) - 1] {
            out.signs('w', field << 23 | digits, SIGN32);
        }
    }
    for bit in 0..23 {
        out.signs('w', 1 << bit, SIGN32);
    }
}

// Powers of two and the numbers next to them, and midpoints of the format's values with the numbers next to them.
fn integers(out: &mut Out, letter: char, keeps: u32, random: &mut Random) {
    for n in 0..32 {
        out.put(letter, n);
        out.put(letter, u64::MAX - n);
    }
    for e in 1..64u32 {
        for near in [-2i64, -1, 0, 1, 2, 3] {
            out.put(letter, (1u64 << e).wrapping_add_signed(near));
        }
        for _ in 0..4 {
            let n = 1u64 << e | random.next() % (1u64 << e);
            out.put(letter, n);
            if e >= keeps {
                let half = 1u64 << (e - keeps);
                let mid = n & !(2 * half - 1) | half;
                for near in [mid - 1, mid, mid + 1] {
                    out.put(letter, near);
                }
            }
        }
    }
}

// A pattern and its neighbours.
fn beside(out: &mut Out, b: u64) {
    for near in [b.wrapping_sub(1), b, b + 1] {
        out.put('c', near);
    }
}

// Roots of every number of digits that an exact one can have, at several exponents; subnormals; every power of two, each second of them a power of four; what has no digits; random ones.
fn counts(out: &mut Out, random: &mut Random) {
    for size in 1..=27u32 {
        // a square of 53 digits at most
        let top = if size == 27 { 94_906_265 } else { (1u64 << size) - 1 };
        let low = 1u64 << (size - 1);
        let mut list = vec![low | 1, top];
        list.extend((0..4).map(|_| (low + random.next() % (top - low + 1)) | 1).filter(|q| *q <= top));
        for q in list {
            let b = ((q * q) as f64).to_bits();
            beside(out, b);
            // with other powers of four, and with one of two, which is no square
            beside(out, b - (random.next() % 500 << 53));
            beside(out, b + (random.next() % 400 << 53));
            out.put('c', b + (1 << 52));
            // subnormal: q * q * 4^j units of 2^-1074
            if size < 27 {
                let room = ((q * q).leading_zeros() - 12) / 2;
                let j = random.next() % (room + 1) as u64;
                beside(out, q * q << (2 * j));
                out.put('c', q * q * 2);
            }
        }
    }
    for e in 0..52 {
        out.put('c', 1 << e);
    }
    for field in 1..2047u64 {
        out.put('c', field << 52);
    }
    for _ in 0..400 {
        out.put('c', random.next() >> 1);
        out.put('c', random.next() >> (12 + random.next() % 52));
    }
    for b in [0, 1, 0x7ff << 52, 0x7ff << 52 | 1, 0x7ff8 << 48, 0x7fef_ffff_ffff_ffff, 0x3ff << 52] {
        out.signs('c', b, SIGN64);
    }
}

// What the replay must report: for each function one answer whose last bit is another, and a line of no function.
fn wrong(out: &mut Out) {
    for (letter, given) in [
        ('s', 2.0f64.to_bits()),
        ('n', 0.1f64.to_bits()),
        ('w', 0.1f32.to_bits() as u64),
        ('d', (1 << 53) + 1),
        ('f', (1 << 24) + 1),
        ('c', 2.25f64.to_bits()),
    ] {
        writeln!(
            out.text,
            "{letter}\t{given:016x}\t{:016x}",
            answer(letter, given) ^ 1
        )
        .unwrap();
    }
    writeln!(out.text, "x\t{:016x}\t{:016x}", 0, 0).unwrap();
}

fn main() {
    let mut out = Out { text: Vec::new() };
    let mut random = Random(1);
    every_f64(&mut out, 's', &mut random);
    roots(&mut out, &mut random);
    every_f64(&mut out, 'n', &mut random);
    halfway_f32(&mut out, &mut random);
    every_f32(&mut out, &mut random);
    integers(&mut out, 'd', 53, &mut random);
    integers(&mut out, 'f', 24, &mut random);
    counts(&mut out, &mut Random(2));
    wrong(&mut out);
    std::io::stdout().write_all(&out.text).unwrap();
}
