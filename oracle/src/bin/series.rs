//! Writes a vector file of `series` to standard output: series KIND SEED COUNT (docs/VECTORS.md).
use std::io::Write;

fn main() {
    let given: Vec<String> = std::env::args().skip(1).collect();
    let usage = "series KIND SEED COUNT; kinds: alignment, imputation";
    let [kind, seed, count] = &given[..] else { panic!("{usage}") };
    let (seed, count) = (seed.parse().expect(usage), count.parse().expect(usage));
    let file = match kind.as_str() {
        "alignment" => oracle::alignment::file(seed, count),
        "imputation" => oracle::imputation::file(seed, count),
        _ => panic!("{usage}"),
    };
    std::io::stdout().write_all(file.as_bytes()).expect("standard output");
}
