//! Short lists of calls as theorems of the proof language: what the definitions compute must be what the Rust gave.
use std::path::Path;

use crate::bits::{bits32, bits64};
use crate::calls::{Answer, Call, Learn, Mode, Settings};
use crate::random::{settings, Calls, Random, Sizes};
use crate::reference::Reference;
use crate::snapshot::{read, Snapshot};
use crate::texts;
use crate::vectors::gap::short;

const METHODS: [&str; 6] = ["NONE", "WEIGHTED", "DIFFERENCE", "SUBTRACT_MA", "NORMALIZE", "NORMALIZE_DIFFERENCE"];

fn mode(s: &Settings) -> &'static str {
    match s.mode {
        Mode::Standard => "STANDARD",
        Mode::TimeAugmented => "TIME_AUGMENTED",
        Mode::GapAugmented => "GAP_AUGMENTED",
        Mode::StreamingImpute => panic!("row 1 refuses this mode"),
    }
}

fn single(x: f32) -> String {
    if x.is_nan() {
        "nan".to_string()
    } else {
        format!("(of_bits binary32 {:#x})", bits32(x))
    }
}

fn double(x: f64) -> String {
    if x.is_nan() {
        "nan".to_string()
    } else {
        format!("(of_bits binary64 {:#x})", bits64(x))
    }
}

fn list(items: impl Iterator<Item = String>) -> String {
    let all: String = items.map(|i| i + " ∷ ").collect();
    format!("({all}[])")
}

fn singles(l: &[f32]) -> String {
    list(l.iter().map(|&x| single(x)))
}

/// A lent output before the call: zeros.
fn lent(n: usize) -> String {
    format!("(replicate {n} (of_bits binary32 0))")
}

/// A lent output after the call: the answer, then zeros.
fn written(answer: &[u32], n: usize) -> String {
    let zeros = vec![0u32; n - answer.len()];
    singles(&answer.iter().chain(&zeros).map(|&b| f32::from_bits(b)).collect::<Vec<_>>())
}

fn written64(answer: &[u64], n: usize) -> String {
    let zeros = vec![0u64; n - answer.len()];
    list(answer.iter().chain(&zeros).map(|&b| double(f64::from_bits(b))))
}

fn option(l: &Option<Vec<f32>>) -> String {
    l.as_ref().map_or("none".to_string(), |l| format!("(some {})", singles(l)))
}

fn integer(n: i32) -> String {
    if n >= 0 {
        format!("(pos {n})")
    } else {
        format!("(negsuc {})", -(n as i64) - 1)
    }
}

fn settings_term(s: &Settings) -> String {
    format!(
        "record {{ mode = {}; method = {}; d = {}; k = {}; start = {}; stop = {}; decay = {}; weight_time = {}; weights = {}; codes = {} }}",
        mode(s),
        METHODS[s.method as usize],
        s.d,
        s.k,
        s.start,
        s.stop,
        double(s.decay),
        single(s.weight_time),
        singles(&s.weights),
        list(s.codes.iter().map(u16::to_string))
    )
}

fn learn_term(c: &Learn) -> String {
    format!(
        "record {{ input = {}; timestamp = {}; rcf_point = {}; expected_point = {}; grade = {}; relative_index = {}; deviations_out = {}; past_out = {}; expected_out = {} }}",
        singles(&c.input), c.timestamp, option(&c.point), option(&c.expected), single(c.grade), integer(c.relative_index),
        lent(c.deviations_out), lent(c.past_out), lent(c.expected_out)
    )
}

fn lent_ranges(outs: &[usize]) -> String {
    format!("(ranges {} {} {})", lent(outs[0]), lent(outs[1]), lent(outs[2]))
}

fn call_term(call: &Call) -> String {
    match call {
        Call::Point { input, timestamp, out } => format!("shingled_point {} {timestamp} {}", singles(input), lent(*out)),
        Call::Learn(c) => format!("post_process ({})", learn_term(c)),
        Call::Drain => "drain".to_string(),
        Call::Transform { input, timestamp, out } => format!("transform {} {timestamp} {}", singles(input), lent(*out)),
        Call::TurnBack { values, upper, lower, outs } => format!(
            "invert_extrapolation (record {{ forecast = ranges {} {} {}; values_out = {}; times_out = {} }})",
            singles(values),
            singles(upper),
            singles(lower),
            lent_ranges(&outs[..3]),
            lent_ranges(&outs[3..])
        ),
        Call::Scale { out } => format!("scale {}", lent(*out)),
        Call::Shift { out } => format!("shift {}", lent(*out)),
        Call::Status { out } => format!("status {}", lent(*out)),
    }
}

fn turned_term(call: &Call, numbers: &[Vec<u32>; 3], times: &Option<[Vec<u64>; 3]>) -> String {
    let Call::TurnBack { values, upper, lower, outs } = call else { panic!("a turn-back") };
    let three = |l: Vec<String>| format!("(ranges {} {} {})", l[0], l[1], l[2]);
    let (forecast, values_out, times_out) = match times {
        None => {
            let in_place = numbers.iter().map(|l| written(l, l.len())).collect();
            (three(in_place), lent_ranges(&outs[..3]), lent_ranges(&outs[3..]))
        }
        Some(times) => (
            format!("(ranges {} {} {})", singles(values), singles(upper), singles(lower)),
            three((0..3).map(|i| written(&numbers[i], outs[i])).collect()),
            three((0..3).map(|i| written64(&times[i], outs[i + 3])).collect()),
        ),
    };
    format!("turned (record {{ forecast = {forecast}; values_out = {values_out}; times_out = {times_out} }})")
}

fn answer_term(s: &Settings, call: &Call, answer: &Answer) -> String {
    let out = match call {
        Call::Point { out, .. } | Call::Transform { out, .. } => *out,
        Call::Scale { out } | Call::Shift { out } | Call::Status { out } => *out,
        _ => 0,
    };
    match answer {
        Answer::No(row) => format!("refused {row}"),
        Answer::None => "absent".to_string(),
        Answer::Done => "done".to_string(),
        Answer::Numbers(l) => format!("wrote {}", written(l, out)),
        Answer::Learned { deviations, anomaly } => {
            let Call::Learn(c) = call else { panic!("a learn") };
            let given = deviations.as_ref().map_or(&[][..], |d| &d[..]);
            let (past, expected) = anomaly.as_ref().map_or((&[][..], &[][..]), |a| (&a.past_values[..], &a.expected_values[..]));
            let anomaly = anomaly.as_ref().map_or("none".to_string(), |a| {
                format!("some (record {{ past_timestamp = {}; likelihood = {} }})", a.past_timestamp, single(1.0))
            });
            format!(
                "learnt (record {{ written = {}; anomaly = {anomaly}; deviations_out = {}; past_out = {}; expected_out = {} }})",
                deviations.is_some(), written(given, c.deviations_out), written(past, c.past_out), written(expected, c.expected_out)
            )
        }
        Answer::Ranges { numbers, times } => turned_term(call, numbers, times),
        Answer::Status { values_seen, internal, ready, d, k, dimension, start, panel, deviations } => format!(
            "told (record {{ values_seen = {values_seen}; internal_timestamp = {internal}; ready = {ready}; input_dimensions = {d}; shingle_size = {k}; dimensions = {dimension}; method = {}; mode = {}; start = {start}; panel = {panel}; deviations_out = {} }})",
            METHODS[s.method as usize], mode(s), written(deviations, out)
        ),
    }
}

/// The theorems of one list: the run's text, the history's text, and the answers.
fn theorems(n: u64, s: &Settings, calls: &[Call], answers: &[Answer], text: &str) -> String {
    let calls_term = list(calls.iter().map(|c| format!("\n    {}", call_term(c))));
    let answers_term = list(calls.iter().zip(answers).map(|(c, a)| format!("\n    {}", answer_term(s, c, a))));
    let lines = list(text.lines().map(|l| format!("\n    \"{}\"", l.replace('\t', "\\t"))));
    format!(
        "\nabbrev s{n} : Settings\ns{n} = {}\n\nabbrev c{n} : List Call\nc{n} = {calls_term}\n\nabbrev t{n} : List ℕ\nt{n} = text {lines}\n\n\
         run{n} : render (run (fresh s{n}) c{n}) ≡ t{n}\nunfolding trace_all\nrun{n} = refl\n\n\
         history{n} : history_text s{n} c{n} ≡ t{n}\nunfolding trace_all\nhistory{n} = refl\n\n\
         answers{n} : answers (fresh s{n}) c{n} ≡ {answers_term}\nunfolding trace_all\nanswers{n} = refl\n",
        settings_term(s)
    )
}

const TITLE: &str = "-- Lists of calls whose texts and answers the unchanged Rust gave (oracle: traces SEED COUNT antt), computed by the definitions.";

const FAR_TITLE: &str = "-- Texts whose count is around the Rust's last one or around the limit (document 02, #101), taken up, fed and put away; as the oracle has it
-- (traces SEED COUNT far: the Rust, and past its counts the written rule), computed by the definitions.";

const USES: &str = "\
use Prim.Native.Nat.{ℕ}
use mathlib.Core.Path.{◌≡◌, refl}
use mathlib.Core.Bool.{true, false}
use mathlib.Core.List.{List, [], ◌∷◌}
use mathlib.Core.Option.{none, some}
use lib.IntN.{pos, negsuc}
use lib.ListN.{replicate}
use lib.Ieee.{Float, nan, binary32, binary64, of_bits}
use lib.Ieee as Ieee
use Rattle.numeric.specs.Narrow as Narrow
use Rattle.numeric.specs.Root as Root
use Rattle.common.specs.Deviation as Deviation
use Rattle.refusal.specs.Lent as Lent
use Rattle.ranges.specs.RangeVector as RangeVector
use Rattle.ranges.specs.RangeVector.{ranges}
use Rattle.trcf.specs.Lists as Lists
use Rattle.trcf.specs.Settings as Settings
use Rattle.trcf.specs.Calls as Calls
use Rattle.trcf.specs.Transformer as Transformer
use Rattle.trcf.specs.Preprocessor as Preprocessor
use Rattle.trcf.specs.Settings.{Settings}
use Rattle.trcf.specs.Calls.{Learn, Forecast, Call, shingled_point, post_process, drain, transform, invert_extrapolation, scale, shift, status}
use Rattle.trcf.specs.Preprocessor.{fresh, run, answers, Answer, refused, absent, done, wrote, learnt, turned, told, Anomaly, Learned, Status}
use Rattle.trcf.specs.declared.types.TransformMethod.TheVariants.{NONE, WEIGHTED, DIFFERENCE, SUBTRACT_MA, NORMALIZE, NORMALIZE_DIFFERENCE}
use Rattle.trcf.specs.declared.types.ForestMode.TheVariants.{STANDARD, TIME_AUGMENTED}
use Rattle.snapshot.specs.Text as Text
use Rattle.snapshot.specs.Text.{render}
use Rattle.snapshot.specs.Ascii.{text}
use Rattle.restart.specs.Statistics as Statistics
use Rattle.restart.specs.History as History
use Rattle.restart.specs.History.{history_text}
";

/// The specs whose definitions the theorems compute with.
const SPECS: [&str; 13] = [
    "numeric/specs/Narrow",
    "numeric/specs/Root",
    "common/specs/Deviation",
    "refusal/specs/Lent",
    "ranges/specs/RangeVector",
    "trcf/specs/Lists",
    "trcf/specs/Settings",
    "trcf/specs/Calls",
    "trcf/specs/Transformer",
    "trcf/specs/Preprocessor",
    "snapshot/specs/Text",
    "restart/specs/Statistics",
    "restart/specs/History",
];

/// The float operations of the proof library that must be unfolded.
const IEEE: &str = "span climb size odd units round neg sum add sub mul div lt eq le ne of_int fits of_fields of_bits to_bits";

/// Brings in the definitions, and names all that are to be unfolded, as the repository's specs have them.
fn head(crates: &Path, title: &str, uses: &str, more: &[&str]) -> String {
    let mut names: Vec<String> = IEEE.split(' ').map(|n| format!("Ieee.{n}")).collect();
    for spec in SPECS.iter().chain(more) {
        let path = crates.join(spec).with_extension("antt");
        let text = std::fs::read_to_string(&path).unwrap_or_else(|e| panic!("{}: {e}", path.display()));
        let module = spec.rsplit('/').next().unwrap();
        for line in text.lines().filter_map(|l| l.trim_start().strip_prefix("unfoldable pub ")) {
            // A definition, and not a `use` that hands one on.
            if let Some((name, _)) = line.split_once(" : ") {
                names.push(format!("{module}.{name}"));
            }
        }
    }
    format!(
        "{title}\n{USES}{uses}\n-- to unfold this is to unfold whatever its line names\ntrace_all : Unit {{0}}\nunfolding {}\ntrace_all = tt\n",
        names.join(" ")
    )
}

const READ_USES: &str = "\
use Rattle.snapshot.specs.Read as Read
use Rattle.snapshot.specs.Read.{Read, taken, bad, read}

-- the first bad line, 0 for none
abbrev line_of : Read → ℕ
line_of (taken w) = 0
line_of (bad n) = n

-- what was read, written again
abbrev again : Read → List ℕ
again (taken w) = render w
again (bad n) = []
";

/// `count` texts as theorems over the reader's definition: the first bad line; a text of the form is written again as it was, with the line of its codes.
pub fn read_file(seed: u64, count: u64, crates: &Path) -> String {
    let mut out = head(crates, TITLE, READ_USES, &["snapshot/specs/Read", "snapshot/specs/Form"]);
    for n in 0..count {
        let mut r = Random::new(seed.wrapping_mul(0x1_0000_0009).wrapping_add(n));
        let good = texts::snapshot(&mut r, Sizes { d: 2, k: 2, start: 3, exact: false });
        let (text, line) = match n % 4 {
            0 => (texts::given(&r, &good), 0),
            1 => {
                let text = texts::scratched(&mut r, &good);
                let line = read(&text).err().unwrap_or(0);
                (text, line)
            }
            _ => texts::damaged(&mut r, &good),
        };
        let bytes = list(text.iter().map(|b| b.to_string()));
        out += &format!("\nabbrev t{n} : List ℕ\nt{n} = {bytes}\n\nline{n} : line_of (read t{n}) ≡ {line}\nunfolding trace_all\nline{n} = refl\n");
        if line == 0 {
            let d = read(&text).expect("a text of the form").settings.d as usize;
            let away = list(texts::put_away(&text, d).iter().map(|b| b.to_string()));
            out += &format!("\nagain{n} : again (read t{n}) ≡ {away}\nunfolding trace_all\nagain{n} = refl\n");
        }
    }
    out
}

const FAR_USES: &str = "\
use Rattle.snapshot.specs.Read as Read
use Rattle.snapshot.specs.Read.{Read, taken, bad, read}

-- the text after the calls, of what was taken up
abbrev away : Read → List Call → List ℕ
away (taken w) cs = render (run w cs)
away (bad n) cs = []

abbrev answered : Read → List Call → List Answer
answered (taken w) cs = answers w cs
answered (bad n) cs = []
";

/// Points, learns and drains from a state whose count is far out, with the answers; none where no reading is fed.
fn far_calls(r: &mut Random, first: &Snapshot) -> Option<(Vec<Call>, Vec<Answer>, String)> {
    let mut reference = first.restore();
    let mut maker = Calls::new(r, &first.settings);
    let (mut calls, mut answers) = (Vec::new(), Vec::new());
    while calls.len() < 6 {
        let call = maker.next(r);
        if !matches!(call, Call::Point { .. } | Call::Learn(_) | Call::Drain) {
            continue;
        }
        let answer = reference.call(&call);
        if let (Call::Point { .. }, Answer::Numbers(point)) = (&call, &answer) {
            maker.last_point = Some(point.iter().map(|&b| f32::from_bits(b)).collect());
        }
        calls.push(call);
        answers.push(answer);
    }
    (reference.count() > first.count).then(|| (calls, answers, Snapshot::of(&reference).text()))
}

/// Texts with a count around the Rust's last one or around the limit, as theorems: taken up, fed and put away.
pub fn far_file(seed: u64, count: u64, crates: &Path) -> String {
    let mut out = head(crates, FAR_TITLE, FAR_USES, &["snapshot/specs/Read", "snapshot/specs/Form"]);
    let (mut n, mut tried) = (0, 0);
    while n < count {
        let mut r = Random::new(seed.wrapping_mul(0x1_0000_000b).wrapping_add(tried));
        tried += 1;
        let first = texts::far(&mut r, Sizes { d: 1, k: 2, start: 2, exact: false });
        let Some((calls, answers, last)) = far_calls(&mut r, &first) else { continue };
        let lines = |text: &str| list(text.lines().map(|l| format!("\n    \"{}\"", l.replace('\t', "\\t"))));
        let s = &first.settings;
        out += &format!(
            "\nabbrev f{n} : List ℕ\nf{n} = text {}\n\nabbrev c{n} : List Call\nc{n} = {}\n\nabbrev t{n} : List ℕ\nt{n} = text {}\n\n\
             away{n} : away (read f{n}) c{n} ≡ t{n}\nunfolding trace_all\naway{n} = refl\n\n\
             answers{n} : answered (read f{n}) c{n} ≡ {}\nunfolding trace_all\nanswers{n} = refl\n",
            lines(&first.text()),
            list(calls.iter().map(|c| format!("\n    {}", call_term(c)))),
            lines(&last),
            list(calls.iter().zip(&answers).map(|(c, a)| format!("\n    {}", answer_term(s, c, a))))
        );
        n += 1;
    }
    out
}

const GAP_TITLE: &str = "-- Lists of calls in mode G (document 02, #114), whose texts and answers the oracle gave (traces SEED COUNT gap: the Rust, and the written rule
-- where G is another), computed by the definitions.";

const GAP_USES: &str = "use Rattle.trcf.specs.declared.types.ForestMode.TheVariants.{GAP_AUGMENTED}\n";

/// `count` lists in mode G.
pub fn gap_file(seed: u64, count: u64, crates: &Path) -> String {
    let mut out = head(crates, GAP_TITLE, GAP_USES, &[]);
    for n in 0..count {
        let mut r = Random::new(seed.wrapping_mul(0x1_0000_000d).wrapping_add(n));
        let (s, calls) = short(&mut r, n);
        let mut reference = Reference::build(&s).unwrap();
        let answers: Vec<Answer> = calls.iter().map(|c| reference.call(c)).collect();
        out += &theorems(n, &s, &calls, &answers, &Snapshot::of(&reference).text());
    }
    out
}

/// `count` short lists as theorems over the definitions of the repository whose `crates` folder is given.
pub fn file(seed: u64, count: u64, crates: &Path) -> String {
    let mut out = head(crates, TITLE, "", &[]);
    for n in 0..count {
        let mut r = Random::new(seed.wrapping_mul(0x1_0000_0007).wrapping_add(n));
        let s = settings(&mut r, Sizes { d: 2, k: 3, start: 3, exact: false });
        let mut reference = Reference::build(&s).unwrap();
        let mut maker = Calls::new(&mut r, &s);
        let (mut calls, mut answers) = (Vec::new(), Vec::new());
        for _ in 0..r.from(0, 12) {
            let call = maker.next(&mut r);
            let answer = reference.call(&call);
            if let (Call::Point { .. }, Answer::Numbers(point)) = (&call, &answer) {
                maker.last_point = Some(point.iter().map(|&b| f32::from_bits(b)).collect());
            }
            calls.push(call);
            answers.push(answer);
        }
        out += &theorems(n, &s, &calls, &answers, &Snapshot::of(&reference).text());
    }
    out
}
