//! Compares the Rust behind document 01's rows with the history sheet, on random lists of calls: refusals, text and panel at every place.
//! Usage: crosscheck SEED LISTS
use oracle::calls::{Answer, Call, Settings, DIFFERENCE, NORMALIZE, NORMALIZE_DIFFERENCE};
use oracle::common::rangevector::RangeVector;
use oracle::history::History;
use oracle::random::{any_mode, bad_settings, settings, Calls, Random, FULL};
use oracle::rcf::RCFLarge;
use oracle::reference::{rust_build, Reference};
use oracle::snapshot::Snapshot;

/// What the lists met.
#[derive(Default)]
struct Met {
    calls: u64,
    rows: [u64; 29],
    drained: u64,
    stranded: u64,
    stopped: u64,
    /// Lists in mode G.
    gap: u64,
    differences: u64,
    built: [u64; 10],
    codes: u64,
    /// Places whose panel was compared, and those among them where it is below values_seen.
    panels: u64,
    lower: u64,
}

/// The row that the Rust's own message stands for.
fn row_of_message(message: &str) -> u8 {
    match message {
        "not yet supported" => 1,
        "input_dimensions cannot be 0" => 2,
        "shingle size cannot be 0" => 3,
        "incorrect length of weights" => 5,
        "transform decay must be in [0,1]" | "incorrect discount value" => 6,
        " cannot stop normalization before starting" => 7,
        "can cause delays, large memory usage" => 8,
        "incorrect setting for NONE transformation" => 9,
        other => panic!("unknown message {other}"),
    }
}

/// Rows 1 to 9 against the Rust's own build; row 4 is added, so the Rust is asked only where it does not hold.
fn check_build(s: &Settings, met: &mut Met) {
    met.built[s.row() as usize] += 1;
    // The Rust knows no codes: it is asked as if they were right, and codes of another number are row 5, behind rows 1 to 4.
    let row = Settings { codes: s.zero_codes(), ..s.clone() }.row();
    let coded = if (1..5).contains(&row) || s.codes.len() as u64 == s.d { row } else { 5 };
    met.codes += (coded != row) as u64;
    if s.row() != coded {
        met.differences += 1;
        println!("build differs: row {}, by the codes {coded}: {s:?}", s.row());
    }
    if row == 4 {
        return;
    }
    let rust = match rust_build(s) {
        Ok(_) => 0,
        Err(e) => row_of_message(&e.to_string()),
    };
    if rust != row {
        met.differences += 1;
        println!("build differs: row {row}, the Rust's message is row {rust}: {s:?}");
    }
}

/// Where a row is the Rust's own check, the Rust must refuse too: a point by rows 10 and 11, a broken forecast by row 16.
fn rust_refuses(reference: &Reference, call: &Call) -> bool {
    let s = &reference.settings;
    match call {
        Call::Point { input, timestamp, .. } => {
            let short_or_infinite = input.len() as u64 != s.d || !input.iter().all(|x| x.is_finite());
            let mut rust = reference.rust.clone();
            !short_or_infinite || rust.shingled_point(None as Option<&RCFLarge<u64, u64>>, input, *timestamp).is_err()
        }
        Call::TurnBack { values, upper, lower, .. } => {
            let equal = values.len() == upper.len() && upper.len() == lower.len();
            let broken = !s.timed() && equal && values.len() % s.d as usize != 0;
            let cascades = s.method == DIFFERENCE || s.method == NORMALIZE_DIFFERENCE;
            let range = RangeVector { values: values.clone(), upper: upper.clone(), lower: lower.clone() };
            !(broken && cascades) || reference.rust.invert_extrapolation(range).is_err()
        }
        _ => true,
    }
}

fn difference(met: &mut Met, list: u64, place: usize, what: &str, settings: &Settings, calls: &[Call]) {
    met.differences += 1;
    if met.differences <= 5 {
        println!("list {list}, place {place}: {what}\n  {settings:?}");
        calls.iter().for_each(|c| println!("  {c:?}"));
    }
}

fn run_list(seed: u64, list: u64, met: &mut Met) {
    let mut r = Random::new(seed.wrapping_mul(0x1_0000_0001).wrapping_add(list));
    check_build(&bad_settings(&mut r, FULL), met);
    let s = settings(&mut r, FULL);
    let s = any_mode(&r, s);
    met.gap += s.gap() as u64;
    check_build(&s, met);
    let mut reference = Reference::build(&s).unwrap();
    let mut history = History::new(&s);
    let mut maker = Calls::new(&mut r, &s);
    let mut calls = Vec::new();
    let mut was_stranded = false;
    let length = r.from(0, 30);
    for place in 0..=length as usize {
        let text = Snapshot::of(&reference).text();
        if text != history.text() {
            difference(met, list, place, &format!("text\n{text}\n---\n{}", history.text()), &s, &calls);
            return;
        }
        let asked = reference.clone().call(&Call::Status { out: s.width() });
        let Answer::Status { panel, .. } = asked else { panic!("status with room is not refused") };
        if panel != history.panel() {
            difference(met, list, place, &format!("panel {panel} and {}", history.panel()), &s, &calls);
            return;
        }
        met.panels += 1;
        met.lower += (panel < reference.values_seen()) as u64;
        if place as u64 == length {
            break;
        }
        let call = maker.next(&mut r);
        calls.push(call.clone());
        met.calls += 1;
        let waiting = !reference.rust.initial().0.is_empty();
        let answer = reference.call(&call);
        let row = history.call(&call);
        if row != 0 && !rust_refuses(&reference, &call) {
            difference(met, list, place, &format!("row {row}, which the Rust does not refuse"), &s, &calls);
            return;
        }
        met.rows[row as usize] += 1;
        if answer.row() != row {
            difference(met, list, place, &format!("refusal {} and {row}", answer.row()), &s, &calls);
            return;
        }
        if let (Call::Point { .. }, Answer::Numbers(point)) = (&call, &answer) {
            maker.last_point = Some(point.iter().map(|&b| f32::from_bits(b)).collect());
        }
        met.drained += (waiting && reference.rust.initial().0.is_empty()) as u64;
        let stranded = waiting && reference.internal() > 0 && !reference.rust.initial().0.is_empty();
        met.stranded += (stranded && !was_stranded) as u64;
        was_stranded |= stranded;
    }
    met.stopped += (s.method >= NORMALIZE && reference.values_seen() > s.stop) as u64;
}

fn main() {
    let given: Vec<u64> = std::env::args().skip(1).map(|a| a.parse().expect("SEED LISTS")).collect();
    let (seed, lists) = (given[0], given[1]);
    let mut met = Met::default();
    for list in 0..lists {
        run_list(seed, list, &mut met);
    }
    println!("lists {lists}, calls {}, places {}", met.calls, met.calls + lists);
    println!("accepted {}; refused by row {:?}", met.rows[0], (10..=20).chain([28]).map(|i| (i, met.rows[i])).collect::<Vec<_>>());
    println!("builds by row {:?}; row 5 by the codes alone, or before a later row {}", met.built, met.codes);
    println!("drained {}, lists stranded {}, lists past stop {}, lists in mode G {}", met.drained, met.stranded, met.stopped, met.gap);
    println!("panels {}, below values_seen {}", met.panels, met.lower);
    println!("differences {}", met.differences);
    std::process::exit((met.differences > 0) as i32);
}
