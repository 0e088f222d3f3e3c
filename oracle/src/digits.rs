//! How many binary digits of a square root are tried, by trying them: whole numbers alone.
use std::hint::black_box;

/// Tries the binary digits of the root of x one after the other, from the top of a radicand whose root has 54 digits, until the square of those tried is the radicand; answers how many.
pub fn digits_tried(x: f64) -> u64 {
    if !(x > 0.0 && x < f64::INFINITY) {
        return 0;
    }
    let field = (x.to_bits() >> 52) as i32;
    let low = x.to_bits() & ((1 << 52) - 1);
    // x = n * 2^e, n of 53 digits
    let (mut n, mut e) = if field == 0 { (low as u128, -1074) } else { ((low | 1 << 52) as u128, field - 1075) };
    while n < 1 << 52 {
        n *= 2;
        e -= 1;
    }
    // x is n times a power of four, n of 107 or 108 digits
    n <<= if e % 2 == 0 { 54 } else { 55 };
    let mut root = 0u128;
    let mut tried = 0;
    while tried < 54 && root * root != n {
        tried += 1;
        let with = root | 1 << (54 - tried);
        if with * with <= n {
            root = with;
        }
    }
    // the 54th digit rounds: the trial has found the machine's root
    let mut nearest = (root + 1) / 2;
    if nearest == 1 << 53 {
        nearest /= 2;
    }
    assert_eq!(nearest as u64, black_box(x).sqrt().to_bits() & ((1 << 52) - 1) | 1 << 52, "{x:e}");
    tried
}
