//! The words of a vector file of `series`: hexadecimal numbers, each followed by a blank; a list has its length before it.
use std::fmt::Write;

pub fn word(line: &mut String, value: u64) {
    write!(line, "{value:x} ").unwrap();
}

pub fn singles(line: &mut String, list: &[f32]) {
    word(line, list.len() as u64);
    for x in list {
        word(line, crate::bits::bits32(*x) as u64);
    }
}

pub fn wholes(line: &mut String, list: &[u64]) {
    word(line, list.len() as u64);
    for x in list {
        word(line, *x);
    }
}
