//! The bench over the Rust: reads standard input, writes standard output.
use std::io::{Read, Write};

fn main() {
    let mut input = Vec::new();
    std::io::stdin().read_to_end(&mut input).expect("standard input");
    std::io::stdout().write_all(oracle::bench::run(&input).as_bytes()).expect("standard output");
}
