//! Floats as bits, every not-a-number as the one canonical pattern.

pub fn bits32(x: f32) -> u32 {
    if x.is_nan() {
        0x7fc0_0000
    } else {
        x.to_bits()
    }
}

pub fn bits64(x: f64) -> u64 {
    if x.is_nan() {
        0x7ff8_0000_0000_0000
    } else {
        x.to_bits()
    }
}

pub fn hex32(x: f32) -> String {
    format!("{:08x}", bits32(x))
}

pub fn hex64(x: f64) -> String {
    format!("{:016x}", bits64(x))
}

pub fn all32(list: &[f32]) -> Vec<u32> {
    list.iter().map(|&x| bits32(x)).collect()
}

pub fn all64(list: &[f64]) -> Vec<u64> {
    list.iter().map(|&x| bits64(x)).collect()
}
