//! Inputs of the settling program: made by hand, every refusal and border among them, and at random.
use crate::random::Random;
use crate::settle::run;

/// The fields of a `set` line; a case changes some.
#[derive(Clone)]
struct Set {
    mode: &'static str,
    method: String,
    d: String,
    k: String,
    start: String,
    stop: String,
    decay: String,
    weight_time: String,
}

const ONE: &str = "3f800000";
const ZERO: &str = "0000000000000000";
const GOOD: &str = "sig\t100\t1\t5\t-40\t20\t60\n";

fn set(mode: &'static str, method: u64, k: u64, start: u64) -> Set {
    let word = |n: u64| n.to_string();
    let (d, stop, decay) = (word(1), word(2000), ZERO.to_string());
    Set { mode, method: word(method), d, k: word(k), start: word(start), stop, decay, weight_time: ONE.to_string() }
}

impl Set {
    fn line(&self) -> String {
        let Set { mode, method, d, k, start, stop, decay, weight_time } = self;
        format!("set\t{mode}\t{method}\t{d}\t{k}\t{start}\t{stop}\t{decay}\t{weight_time}\n")
    }

    /// With its line of weights.
    fn pair(&self, weights: &[&str]) -> String {
        weights.iter().fold(self.line() + "wgt", |all, w| all + "\t" + w) + "\n"
    }

    fn with(mut self, change: impl FnOnce(&mut Set)) -> Set {
        change(&mut self);
        self
    }
}

fn plain() -> String {
    set("S", 4, 4, 10).pair(&[ONE])
}

/// Signals that rise, fall, ripple, jump and stay, of 1 to 1,000 readings.
const SIGNALS: [&str; 8] = [
    GOOD,
    "sig\t0\t0\t0\t0\t0\t1\n",
    "sig\t0\t0\t0\t0\t0\t40\n",
    "sig\t-1000\t1000\t-1000\t1000\t500\t1000\n",
    "sig\t1000\t-1000\t1000\t-1000\t1000\t1000\n",
    "sig\t7\t0\t-14\t0\t0\t33\n",
    "sig\t-3\t0\t0\t9\t0\t25\n",
    "sig\t5\t-2\t0\t300\t999\t200\n",
];

/// Every method with every signal, in several shingles and starts, and in one mode.
fn settled(mode: &'static str) -> Vec<String> {
    let mut all = Vec::new();
    let decays = [ZERO, "3f50624dd2f1a9fc", "3fe0000000000000", "3fefffffffffffff", "8000000000000000", "3fb999999999999a"];
    for (n, signal) in SIGNALS.iter().enumerate() {
        let mut input = String::new();
        for method in 0..6 {
            let (k, start) = ([1, 4, 64, 2, 8, 3][(method + n) % 6], [10, 0, 1, 30, 5, 3][(method + 2 * n) % 6]);
            let s = set(mode, method as u64, k, start).with(|s| {
                s.decay = decays[(method + n) % 6].to_string();
                s.stop = ["2000", "30", "18446744073709551615", "31"][(method + n) % 4].to_string();
                s.weight_time = [ONE, "40000000", "3dcccccd", "00000000", "bf000000"][(method + n) % 5].to_string();
            });
            let weight = if method == 0 { ONE } else { ["40000000", "bf800000", "3e800000", ONE][(method + n) % 4] };
            input += &s.pair(&[weight]);
        }
        all.push(input + signal);
    }
    all
}

/// Ready at the first, at the last, or never; none, one or many points; starts at and past the bench's limit; ties, zeros of both signs, infinities, not-a-numbers.
fn borders(mode: &'static str) -> Vec<String> {
    let mut all = Vec::new();
    let one = |s: Set, weight: &str, signal: &str| s.pair(&[weight]) + signal;
    for (k, n) in [(1, 1), (2, 1), (2, 2), (64, 63), (64, 64), (64, 1000), (3, 2)] {
        all.push(one(set(mode, 0, k, 0), ONE, &format!("sig\t1\t1\t0\t0\t0\t{n}\n")));
    }
    for (start, n) in [(1, 1), (1, 2), (2, 2), (500, 501), (501, 502), (501, 501), (999, 1000), (1000, 1000), (1999, 1000)] {
        all.push(one(set(mode, 4, 3, start), ONE, &format!("sig\t9\t-1\t3\t8\t4\t{n}\n")));
    }
    // stop as early as it may be
    for (method, start) in [(3, 0), (4, 5), (5, 5)] {
        all.push(one(set(mode, method, 2, start).with(|s| s.stop = start.to_string()), "40000000", GOOD));
    }
    // -0 first or +0 first: equal, so that the first is kept
    for base in ["5", "-5", "0"] {
        all.push(one(set(mode, 1, 1, 0), "80000000", &format!("sig\t{base}\t0\t0\t10\t3\t9\n")));
        all.push(one(set(mode, 1, 1, 0), "00000000", &format!("sig\t{base}\t0\t0\t-10\t3\t9\n")));
    }
    // weights that make infinities and not-a-numbers: of some elements, of all
    for weight in ["7f800000", "ff800000", "7fc00000", "7f7fffff", "00000001"] {
        for signal in ["sig\t0\t0\t0\t3\t4\t8\n", "sig\t0\t0\t0\t0\t0\t5\n", "sig\t3\t-1\t0\t0\t0\t9\n", "sig\t-1\t0\t1\t0\t0\t3\n"] {
            all.push(one(set(mode, 1, 2, 0), weight, signal));
        }
    }
    for weight in ["7f800000", "ff800000", "7fc00000", "80000000", "c0000000", "7f7fffff"] {
        for method in [0, 5] {
            all.push(one(set(mode, method, 2, 3).with(|s| s.weight_time = weight.to_string()), ONE, GOOD));
        }
    }
    // several pairs answer each for itself
    all.push(
        set(mode, 1, 2, 0).pair(&["7fc00000"])
            + &set(mode, 0, 64, 0).pair(&[ONE])
            + &set(mode, 4, 1, 1999).pair(&[ONE])
            + &set(mode, 2, 1, 7).pair(&[ONE])
            + GOOD,
    );
    all.push(set(mode, 5, 3, 2).pair(&[ONE]).repeat(8) + GOOD);
    all
}

/// Settings that a row refuses, with that row.
fn refused_pairs() -> Vec<String> {
    let base = || set("S", 4, 4, 10);
    vec![
        base().with(|s| s.d = "0".into()).pair(&[]),
        base().with(|s| s.k = "0".into()).pair(&[ONE]),
        base().with(|s| s.d = "17".into()).pair(&[ONE]),
        base().with(|s| s.k = "65".into()).pair(&[ONE]),
        base().pair(&[]),
        base().pair(&[ONE, ONE]),
        base().with(|s| s.d = "2".into()).pair(&[ONE]),
        base().with(|s| s.decay = "3ff0000000000000".into()).pair(&[ONE]),
        base().with(|s| s.decay = "7ff8000000000000".into()).pair(&[ONE]),
        base().with(|s| s.decay = "bfb999999999999a".into()).pair(&[ONE]),
        base().with(|s| s.stop = "9".into()).pair(&[ONE]),
        base().with(|s| s.start = "2000".into()).pair(&[ONE]),
        base().with(|s| s.method = "0".into()).pair(&["40000000"]),
        base().with(|s| s.method = "0".into()).pair(&["7fc00000"]),
        // d other than 1, behind the rows
        base().with(|s| s.d = "2".into()).pair(&[ONE, ONE]),
        base().with(|s| s.d = "16".into()).pair(&[ONE; 16]),
        base()
            .with(|s| {
                s.d = "2".into();
                s.start = "2000".into();
            })
            .pair(&[ONE, ONE]),
        base()
            .with(|s| {
                s.d = "2".into();
                s.method = "0".into();
            })
            .pair(&[ONE, "40000000"]),
        // another form
        base().with(|s| s.mode = "g").pair(&[ONE]),
        base().with(|s| s.mode = "I").pair(&[ONE]),
        base().with(|s| s.mode = "").pair(&[ONE]),
        base().with(|s| s.method = "6".into()).pair(&[ONE]),
        base().with(|s| s.d = "01".into()).pair(&[ONE]),
        base().with(|s| s.k = "+4".into()).pair(&[ONE]),
        base().with(|s| s.stop = "18446744073709551616".into()).pair(&[ONE]),
        base().with(|s| s.decay = "7ff8000000000001".into()).pair(&[ONE]),
        base().with(|s| s.weight_time = "3F800000".into()).pair(&[ONE]),
        base().pair(&["7fc00001"]),
        base().pair(&[""]),
        base().pair(&["3f80000"]),
        base().line() + "Wgt\t3f800000\n",
        base().line() + "\n",
        base().line() + &base().line(),
        // d 0, and the weights of another form: the form comes first
        base().with(|s| s.d = "0".into()).pair(&["x"]),
    ]
}

/// Each refusal by the first pair, by the second, before and behind another fault.
fn refused() -> Vec<String> {
    let mut all = Vec::new();
    let many = refused_pairs();
    for pair in &many {
        all.push(pair.clone() + GOOD);
        all.push(plain() + pair + GOOD);
    }
    // the first pair at fault decides, whatever comes behind it
    for i in 0..many.len() {
        all.push(many[i].clone() + &many[(i + 7) % many.len()] + "sig\tx\n");
    }
    // a pair's fault before the signal's, and before a ninth `set`
    all.push(plain() + &many[1] + "sig\n");
    all.push(plain().repeat(2) + &many[1] + &plain().repeat(6) + GOOD);
    all.push(plain().repeat(7) + &many[14] + &plain() + GOOD);
    all
}

/// Where lines end, how many pairs there are, and where the signal line is looked for.
fn shapes() -> Vec<String> {
    let p = plain();
    let cut = |text: &str, n: usize| text[..text.len() - n].to_string();
    let line = set("S", 4, 4, 10).line();
    let mut all: Vec<String> =
        ["", "\n", "set", "set\n", "set\t", "set\t\n", "wgt\t3f800000\n", GOOD, "sig\n", "sig", "x", "\t", "SET\n", "setx\n", " set\n"]
            .map(String::from)
            .into();
    all.extend([
        p.clone(),
        line.clone(),
        cut(&line, 1),
        cut(&p, 1),
        line.clone() + "wgt",
        line.clone() + GOOD,
        p.clone() + &line,
        p.clone() + &cut(&line, 1),
        p.clone() + &cut(&p, 1),
    ]);
    all.extend([
        p.clone() + "set",
        p.clone() + "set\n",
        p.clone() + "set" + GOOD,
        p.clone() + "\n" + GOOD,
        p.clone() + "x\n" + GOOD,
        p.clone() + "wgt\t3f800000\n" + GOOD,
    ]);
    all.extend([
        cut(&(p.clone() + GOOD), 1),
        p.clone() + GOOD + "\n",
        p.clone() + GOOD + "x",
        p.clone() + GOOD + GOOD,
        p.clone() + GOOD + &p,
        p.clone() + GOOD + "\0",
        p.clone() + GOOD + "set",
    ]);
    all.extend([
        p.clone() + "set\t" + GOOD,
        p.clone() + "sets\t1\n",
        p.clone() + "se\n",
        line.clone() + "\r\n" + GOOD,
        line.replace('\n', "\r\n") + "wgt\t3f800000\n" + GOOD,
    ]);
    for n in 2..=9 {
        all.push(p.repeat(n) + GOOD);
    }
    let eight = p.repeat(8);
    for behind in ["set", "set\n", "set\tx\n", "sets\n", "", "sig\n", "SET\n", "set\tS\t4\t2\t4\t10\t20\t0000000000000000\t3f800000\nwgt\n"] {
        all.push(eight.clone() + behind);
        all.push(eight.clone() + behind + GOOD);
    }
    all.push(eight.clone() + &refused_pairs()[0] + GOOD);
    all.push(p.repeat(9));
    all.push(p.repeat(12) + "sig\tx");
    all
}

/// The form of the signal line and its limits on both sides, field by field.
fn signals() -> Vec<String> {
    let mut fields: Vec<Vec<String>> = Vec::new();
    let good = ["3", "-2", "10", "-4", "5", "12"].map(String::from);
    let any = [
        "-0",
        "00",
        "01",
        "-01",
        "+1",
        " 1",
        "1 ",
        "-",
        "--1",
        "",
        "1.0",
        "0x1",
        "a",
        "1001",
        "-1001",
        "18446744073709551617",
        "99999999999999999999999",
        "1000",
        "0",
        "1",
        "-1",
        "-1000",
        "999",
        "- 1",
        "1-",
        "\0",
        "1\r",
    ];
    for place in 0..6 {
        for field in any {
            let mut f = good.to_vec();
            f[place] = field.to_string();
            fields.push(f);
        }
    }
    let mut all: Vec<String> = fields.into_iter().map(|f| plain() + "sig\t" + &f.join("\t") + "\n").collect();
    for line in [
        "sig",
        "sig\t",
        "sig\t1\t1\t1\t1\t1",
        "sig\t1\t1\t1\t1\t1\t1\t",
        "sig\t1\t1\t1\t1\t1\t1\t1",
        "sig 1 1 1 1 1 1",
        "Sig\t1\t1\t1\t1\t1\t1",
        "sig\t\t1\t1\t1\t1\t1\t1",
        "\tsig\t1\t1\t1\t1\t1\t1",
        "sigs\t1\t1\t1\t1\t1\t1",
        "sig\t1\t1\t1\t1\t1\t1 ",
    ] {
        all.push(plain() + line + "\n");
    }
    all.push(plain() + "sig\t-1000\t-1000\t-1000\t-1000\t0\t1000\n");
    all.push(plain() + "sig\t1000\t1000\t1000\t1000\t1000\t1000\n");
    all
}

/// The inputs of a file: `inputs` in modes S and T, `gap` in mode G.
pub fn inputs(name: &str) -> Option<Vec<String>> {
    let all = match name {
        "inputs" => [settled("S"), settled("T"), borders("S"), borders("T"), refused(), shapes(), signals()].concat(),
        "gap" => {
            let pair = set("G", 4, 4, 10).pair(&[ONE]);
            let mixed = plain() + &pair + &set("T", 4, 4, 10).pair(&[ONE]) + &set("G", 5, 2, 0).pair(&["40000000"]) + GOOD;
            let two = set("G", 4, 4, 10).with(|s| s.d = "2".into());
            let odd =
                vec![mixed, pair.repeat(8) + GOOD, pair.repeat(9) + GOOD, two.pair(&[ONE, ONE]) + GOOD, two.pair(&[ONE]) + GOOD, pair + "sig\n"];
            [settled("G"), borders("G"), odd].concat()
        }
        _ => return None,
    };
    Some(all)
}

/// Each input behind a line with its length and that of its output, and before its output.
pub fn file(inputs: &[String]) -> String {
    inputs.iter().fold(String::new(), |all, input| {
        let output = run(input.as_bytes());
        all + &format!("{} {}\n{input}{output}", input.len(), output.len())
    })
}

/// A right answer, and the same with one digit changed: what the replaying program must report.
pub fn wrong() -> String {
    let input = plain() + GOOD;
    let output = run(input.as_bytes());
    let changed = output.replacen("1\t", "2\t", 1);
    assert_ne!(output, changed);
    [output, changed].iter().fold(String::new(), |all, said| all + &format!("{} {}\n{input}{said}", input.len(), said.len()))
}

// ---- at random

fn single(r: &mut Random) -> String {
    let x = if r.once_in(3) { r.weight() } else { r.pick(&[1.0, 2.0, -1.0, 0.5]) };
    crate::bits::hex32(x)
}

fn random_pair(r: &mut Random, modes: &[&'static str]) -> String {
    let method = r.below(6);
    let k = r.pick(&[1, 1, 2, 3, 4, 8, 20, 64]);
    let start = if r.once_in(8) { r.from(0, 1999) } else { r.from(0, 30) };
    let mut s = set(r.pick(modes), method, k, start);
    s.stop = r.pick(&[start, start + 3, start + 100, u64::MAX]).to_string();
    s.decay = crate::bits::hex64(r.decay());
    s.weight_time = single(r);
    let mut weights = vec![if method == 0 { ONE.to_string() } else { single(r) }];
    // one pair in thirty meets a row, or has d other than 1
    if r.once_in(30) {
        match r.below(8) {
            0 => s.d = r.pick(&["0", "2", "17", "16"]).into(),
            1 => s.k = r.pick(&["0", "65"]).into(),
            2 => s.decay = r.pick(&["3ff0000000000000", "7ff8000000000000", "bff0000000000000"]).into(),
            3 => s.stop = (start.saturating_sub(1)).to_string(),
            4 => (s.start, s.stop) = ("2000".into(), "3000".into()),
            5 => weights = vec![ONE.to_string(); r.below(3) as usize],
            6 => {
                s.d = "2".into();
                weights.push(single(r));
            }
            _ => s.method = r.pick(&["0", "6", "05"]).into(),
        }
    }
    s.pair(&weights.iter().map(String::as_str).collect::<Vec<_>>())
}

fn random_signal(r: &mut Random) -> String {
    let mut number = |edge: bool| -> i64 {
        let size = match r.below(10) {
            0 if edge => 1001,
            1 => 1000,
            2 => 0,
            _ => r.from(0, 1000),
        } as i64;
        if size > 0 && r.once_in(2) {
            -size
        } else {
            size
        }
    };
    let first = [number(false), number(false), number(false), number(false)];
    let wild = number(true);
    let place = if r.once_in(10) { r.pick(&[0, 999, 1000, 1001]) } else { r.from(0, 60) };
    let n = if r.once_in(6) { r.pick(&[0, 1, 2, 999, 1000, 1001]) } else { r.from(1, 150) };
    let base = if r.once_in(20) { wild } else { first[0] };
    format!("sig\t{base}\t{}\t{}\t{}\t{place}\t{n}\n", first[1], first[2], first[3])
}

/// A seed's input: pairs and a signal, some of them damaged.
pub fn random_input(seed: u64, modes: &[&'static str]) -> Vec<u8> {
    let r = &mut Random::new(seed.wrapping_mul(0x1_0000_0106));
    let pairs = match r.below(12) {
        0 => r.from(7, 10),
        1 => 0,
        _ => r.from(1, 4),
    };
    let mut text = String::new();
    for _ in 0..pairs {
        text += &random_pair(r, modes);
    }
    text += &random_signal(r);
    let mut text = text.into_bytes();
    for _ in 0..r.pick(&[0, 0, 0, 0, 0, 1, 1, 3]) {
        let at = r.below(text.len() as u64 + 1) as usize;
        match r.below(6) {
            0 => text.truncate(at),
            1 => text.insert(at, r.pick(b"0123456789abcdefSTG\t\n -x\r\0")),
            2 | 3 if at < text.len() => text[at] = r.pick(b"0123456789abcdefSTG\t\n -setwgsig"),
            4 if at < text.len() => drop(text.remove(at)),
            _ => text.extend_from_slice(r.pick(&[&b"\n"[..], b"x", b"set", b"\t", GOOD.as_bytes()])),
        }
    }
    text
}
