//! The settling program over the Rust. Without arguments: standard input to standard output. `cases inputs|gap|wrong`: a file of crates/settle_vectors/data.
//! `compare SEED COUNT PROGRAM [ST]`: random inputs through PROGRAM too, byte for byte; with ST none in mode G.
use oracle::settle::run;
use oracle::settle_cases::{file, inputs, random_input, wrong};
use std::collections::BTreeMap;
use std::io::{Read, Write};
use std::process::{Command, Stdio};

fn program(path: &str, input: &[u8]) -> Vec<u8> {
    let mut child = Command::new(path).stdin(Stdio::piped()).stdout(Stdio::piped()).spawn().expect(path);
    let mut stdin = child.stdin.take().unwrap();
    let given = input.to_vec();
    // A program may answer before it has read all: what is left unread is no fault.
    let writer = std::thread::spawn(move || drop(stdin.write_all(&given)));
    let output = child.wait_with_output().expect("its output");
    writer.join().unwrap();
    output.stdout
}

fn compare(seed: u64, count: u64, path: &str, modes: &[&'static str]) {
    let (mut differ, mut readings, mut met) = (0u64, 0u64, BTreeMap::new());
    for n in seed..seed + count {
        let input = random_input(n, modes);
        let answer = run(&input);
        match answer.strip_prefix("no\t") {
            Some(row) => *met.entry(row.trim().to_string()).or_insert(0u64) += 1,
            None => {
                *met.entry("answered".to_string()).or_insert(0) += 1;
                let (pairs, signal) = oracle::settle::read(&input).unwrap();
                readings += pairs.len() as u64 * signal.n;
            }
        }
        if program(path, &input) != answer.as_bytes() {
            differ += 1;
            println!("differs: seed {n}\n{}\n---\n{answer}", String::from_utf8_lossy(&input));
        }
    }
    println!("seeds {seed} to {}: {count} inputs, {readings} readings, {differ} differ; met {met:?}", seed + count - 1);
    std::process::exit((differ > 0) as i32);
}

fn main() {
    let given: Vec<String> = std::env::args().skip(1).collect();
    let words: Vec<&str> = given.iter().map(String::as_str).collect();
    let number = |w: &str| w.parse::<u64>().expect("a number");
    match words[..] {
        [] => {
            let mut input = Vec::new();
            std::io::stdin().read_to_end(&mut input).expect("standard input");
            print!("{}", run(&input));
        }
        ["cases", "wrong"] => print!("{}", wrong()),
        ["cases", name] => print!("{}", file(&inputs(name).expect("inputs, gap or wrong"))),
        ["compare", seed, count, path] => compare(number(seed), number(count), path, &["S", "T", "G"]),
        ["compare", seed, count, path, "ST"] => compare(number(seed), number(count), path, &["S", "T"]),
        _ => panic!("cases inputs|gap|wrong, or compare SEED COUNT PROGRAM [ST]"),
    }
}
