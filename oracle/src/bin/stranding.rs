//! Request #110's numbers.
//! Usage: stranding (the lines of crates/stranding_vectors/data/vectors: 400, those that row 25 refuses, and a wrong one)
//!        stranding check CALLS (all lists of up to CALLS calls run on the history, for a start of 1 to 20, against the table)
use oracle::random::Random;
use oracle::stranding::{by_history, by_table, normalizing, Counts};

const MOST: u64 = 20;

fn line(start: u64, calls: u64, row: u64, c: Counts) {
    println!("{start:016x}\t{calls:016x}\t{row:016x}\t{:016x}\t{:016x}\t{:016x}", c.waiting, c.drained, c.stranded);
}

fn vectors() {
    for start in 1..=MOST {
        for calls in 1..=MOST {
            line(start, calls, 0, by_table(start, calls));
        }
    }
    for out in [0, MOST + 1, (1 << 32) + 1, (1 << 63) + 1, u64::MAX] {
        line(out, 1, 25, Counts::default());
        line(1, out, 25, Counts::default());
        line(out, out, 25, Counts::default());
    }
    // wrong on purpose: the replaying program must report it as its one difference
    line(1, 2, 0, Counts { waiting: 6, drained: 1, stranded: 2 });
}

fn check(most: u64) {
    let mut random = Random::new(110);
    let (mut lists, mut differ) = (0u64, 0u64);
    for start in 1..=MOST {
        for calls in 1..=most {
            let s = normalizing(&mut random, start);
            let run = by_history(&mut random, &s, calls);
            lists += run.waiting + run.drained + run.stranded;
            if run != by_table(start, calls) {
                differ += 1;
                println!("differ: start {start}, calls {calls}: {run:?}, {:?}", by_table(start, calls));
            }
        }
    }
    println!("{lists} lists run on the history: {} triples agree, {differ} differ", MOST * most - differ);
}

fn main() {
    let words: Vec<String> = std::env::args().skip(1).collect();
    match words.first().map(String::as_str) {
        None => vectors(),
        Some("check") => check(words[1].parse().expect("a number of calls")),
        Some(_) => panic!("see the usage in src/bin/stranding.rs"),
    }
}
