//! Writes short lists of calls with their answers and last text: traces SEED COUNT (docs/VECTORS.md); with a third word `antt`, as theorems over the specs in CRATES
//! (by default `../crates`); with `read`, texts as theorems over the reader's definition; with `far`, texts with a large count, taken
//! up, fed and put away; with `gap`, lists in mode G.
use std::io::Write;
use std::path::Path;

fn main() {
    let given: Vec<String> = std::env::args().skip(1).collect();
    let number = |i: usize| given[i].parse::<u64>().expect("traces SEED COUNT [antt|read|far|gap [CRATES]]");
    let crates = Path::new(given.get(3).map_or("../crates", String::as_str));
    let file = match given.get(2).map(String::as_str) {
        None => oracle::vectors::traces(number(0), number(1)),
        Some("antt") => oracle::antt::file(number(0), number(1), crates),
        Some("read") => oracle::antt::read_file(number(0), number(1), crates),
        Some("far") => oracle::antt::far_file(number(0), number(1), crates),
        Some("gap") => oracle::antt::gap_file(number(0), number(1), crates),
        Some(other) => panic!("unknown form {other}"),
    };
    std::io::stdout().write_all(file.as_bytes()).expect("standard output");
}
