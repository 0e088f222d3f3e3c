//! Writes a vector file to standard output: vectors KIND SEED COUNT [wrong] (docs/VECTORS.md).
use std::io::Write;

fn main() {
    let given: Vec<String> = std::env::args().skip(1).collect();
    let usage = "vectors KIND SEED COUNT [wrong], or judged FILE; kinds: deviation range32 range64 transformer preprocessor far gap edges snapshot near far_texts gap_texts edge_texts bench bench_gap";
    if let [word, path] = &given[..] {
        assert_eq!(word, "judged", "{usage}");
        return print!("{}", oracle::vectors::judged(&std::fs::read_to_string(path).expect("a file of texts")));
    }
    let (kind, seed, count, wrong) = match &given[..] {
        [kind, seed, count] => (kind, seed, count, false),
        [kind, seed, count, word] if word == "wrong" => (kind, seed, count, true),
        _ => panic!("{usage}"),
    };
    let mut file = oracle::vectors::file(kind, seed.parse().expect(usage), count.parse().expect(usage)).expect(usage);
    if wrong {
        file = oracle::vectors::with_wrong_line(kind, &file);
    }
    std::io::stdout().write_all(file.as_bytes()).expect("standard output");
}
