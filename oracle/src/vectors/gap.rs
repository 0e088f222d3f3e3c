//! Kinds gap and gap_texts: lists of calls and texts in mode G (request #114). Kinds edges and edge_texts: the last settings that rows 4 and 8 accept.
use super::{calls_lines, expected_line, set_lines, settings_line, state_line, text_line};
use crate::calls::*;
use crate::random::{bad_settings, codes, gapped, settings, Random, Sizes};
use crate::reference::Reference;
use crate::snapshot::Snapshot;
use crate::texts;

const WEIGHTS_OF_TIME: [f32; 12] = [1.0, 2.0, 0.0, -2.0, 0.1, f32::INFINITY, -0.0, f32::NAN, 1.0e-45, f32::NEG_INFINITY, 3.0e38, -0.5];
const FIRST_TIMES: [u64; 6] = [100, 0, (1 << 53) - 20, u64::MAX - 400, (1 << 24) - 11, 1 << 63];

/// A maker of calls on settings of mode G, with outputs of room.
struct Maker<'a> {
    s: &'a Settings,
    calls: Vec<Call>,
}

impl Maker<'_> {
    fn input(&self, r: &mut Random) -> Vec<f32> {
        r.list32(self.s.d as usize, |r| r.from(0, 400) as f32 / 4.0 - 20.0)
    }

    fn point(&mut self, r: &mut Random, timestamp: u64, input: Option<Vec<f32>>, out: Option<usize>) {
        let input = input.unwrap_or_else(|| self.input(r));
        self.calls.push(Call::Point { input, timestamp, out: out.unwrap_or(self.s.dimension() + 1) });
    }

    fn transform(&mut self, r: &mut Random, timestamp: u64, input: Option<Vec<f32>>, out: Option<usize>) {
        let input = input.unwrap_or_else(|| self.input(r));
        self.calls.push(Call::Transform { input, timestamp, out: out.unwrap_or(self.s.width()) });
    }

    fn learn(&mut self, r: &mut Random, timestamp: u64, y: bool) {
        let (input, n, d) = (self.input(r), self.s.dimension(), self.s.d as usize);
        let point = y.then(|| r.list32(n, Random::value32));
        let anomaly = y && r.once_in(3);
        let expected = anomaly.then(|| r.list32(n, Random::value32));
        self.calls.push(Call::Learn(Learn {
            input,
            timestamp,
            point,
            grade: anomaly as u32 as f32,
            relative_index: -(r.below(self.s.k) as i32),
            expected,
            deviations_out: self.s.width() + 1,
            past_out: d,
            expected_out: d,
        }));
    }

    /// At the newest time, one below it (row 28) and some above it.
    fn around(&mut self, r: &mut Random, newest: u64) {
        self.transform(r, newest, None, None);
        self.transform(r, newest.saturating_add(9), None, None);
        if newest > 0 {
            self.transform(r, newest - 1, None, None);
            self.point(r, newest - 1, None, None);
        }
    }

    /// Row 28 between its neighbours: behind 10 and 11, before 20.
    fn order(&mut self, r: &mut Random, newest: u64) {
        let d = self.s.d as usize;
        let infinite = Some(vec![f32::INFINITY; d]);
        let long = Some(vec![1.0; d + 1]);
        let below = newest.saturating_sub(1);
        self.point(r, below, None, Some(0));
        self.point(r, below, infinite.clone(), None);
        self.point(r, below, long.clone(), None);
        self.transform(r, below, infinite.clone(), None);
        self.transform(r, below, long, Some(0));
        self.transform(r, below, None, Some(0));
        self.transform(r, newest, infinite, None);
        self.transform(r, newest, None, Some(0));
        self.point(r, newest, None, Some(self.s.dimension() - 1));
    }

    fn turn_back(&mut self, r: &mut Random, blocks: usize) {
        let n = blocks * self.s.dimension();
        let values = r.list32(n, Random::value32);
        let upper: Vec<f32> = values.iter().map(|v| v + r.from(0, 5) as f32).collect();
        let lower: Vec<f32> = values.iter().map(|v| v - r.from(0, 5) as f32).collect();
        let numbers = blocks * (self.s.d * self.s.k) as usize;
        self.calls.push(Call::TurnBack { values, upper, lower, outs: [numbers, numbers + 1, numbers, blocks, blocks, blocks + 2] });
    }

    fn told(&mut self, r: &mut Random) {
        let out = self.s.width();
        self.turn_back(r, 2);
        self.calls.extend([Call::Scale { out }, Call::Shift { out }, Call::Status { out }]);
    }
}

/// From the first call to a turn-back: gaps with nothing seen, while readings wait, after they were drained by a drain or a point, or stranded, and later.
fn directed(r: &mut Random, n: usize, out: &mut String) {
    let method = (n % 6) as u8;
    let (d, k) = ([1, 2, 3][n % 3], [1, 3, 2, 5][n % 4]);
    let weights = (0..d).map(|_| if method == NONE { 1.0 } else { r.pick(&[2.0, 0.5, -1.0, 3.0]) }).collect();
    let start = if method >= NORMALIZE { 3 } else { r.below(3) };
    let s = Settings {
        mode: Mode::GapAugmented,
        method,
        d,
        k,
        start,
        stop: if n % 5 == 4 { start + 2 } else { u64::MAX },
        decay: r.decay(),
        weight_time: WEIGHTS_OF_TIME[n % 12],
        weights,
        codes: codes(r, d as usize),
    };
    // Where readings wait the times lie at the end of a u64, around 2^53 and 2^63, and at 0.
    let base = FIRST_TIMES[match n % 6 {
        4 => [3, 2, 1][n / 6 % 3],
        5 => [2, 3, 5][n / 6 % 3],
        m => (m + 2 * (n / 6)) % 6,
    }];
    let m = &mut Maker { s: &s, calls: Vec::new() };
    m.transform(r, base + 5, None, None);
    m.point(r, base + 5, None, None);
    // The first with nothing seen, the second at the same time, the third later.
    let waits = method >= NORMALIZE;
    for (i, t) in [base + 10, base + 10, base + 37].into_iter().enumerate() {
        m.learn(r, t, !waits);
        if i != 1 {
            m.around(r, t);
        }
    }
    let newest = base + 37;
    match n / 6 % 3 {
        0 => m.calls.push(Call::Drain),
        1 => m.point(r, newest + 21, None, None),
        _ => m.learn(r, newest, true),
    }
    m.around(r, newest);
    m.order(r, newest);
    m.learn(r, newest + 60, true);
    m.told(r);
    m.learn(r, if base == 0 { u64::MAX } else { newest + 300 }, true);
    m.point(r, u64::MAX, None, None);
    m.told(r);
    let calls = std::mem::take(&mut m.calls);
    settings_line(&s).whole(0).end(out);
    calls_lines(r, out, Reference::build(&s).unwrap(), &calls, (0, 3));
}

/// A short list for the prover, of 12 to 14 calls: the readings that wait are drained by a drain or a point, or stranded, or there are none.
pub fn short(r: &mut Random, n: u64) -> (Settings, Vec<Call>) {
    let method = [NORMALIZE, NORMALIZE_DIFFERENCE, NORMALIZE, WEIGHTED, DIFFERENCE, SUBTRACT_MA][n as usize % 6];
    let d = [1, 1, 2, 1, 1, 1][n as usize % 6];
    let s = Settings {
        mode: Mode::GapAugmented,
        method,
        d,
        k: [2, 3, 2, 1, 2, 2][n as usize % 6],
        start: if method >= NORMALIZE { 2 } else { 0 },
        stop: if n % 6 == 5 { 1 } else { 1000 },
        decay: [0.0, 0.5, 0.1, 0.25, 0.01, 0.0][n as usize % 6],
        weight_time: [1.0, 0.5, 3.0, -2.0, 0.1, 0.0][n as usize % 6],
        weights: vec![if method == WEIGHTED { 0.5 } else { 1.0 }; d as usize],
        codes: codes(r, d as usize),
    };
    let waits = method >= NORMALIZE;
    let base = if n % 6 == 4 { u64::MAX - 60 } else { 100 };
    let m = &mut Maker { s: &s, calls: Vec::new() };
    m.transform(r, base + 3, None, None);
    m.learn(r, base + 10, !waits);
    m.transform(r, base + 9, None, None);
    m.transform(r, base + 13, None, None);
    m.learn(r, base + 17, !waits);
    match n % 6 {
        0 => m.calls.push(Call::Drain),
        2 => m.learn(r, base + 17, true),
        _ => m.point(r, base + 17, None, None),
    }
    m.point(r, base + 30, None, None);
    m.learn(r, base + 31, true);
    m.point(r, base + 30, None, None);
    m.point(r, base + 58, None, None);
    m.turn_back(r, 1);
    m.calls.extend([Call::Scale { out: s.width() }, Call::Shift { out: s.width() }, Call::Status { out: s.width() }]);
    let calls = std::mem::take(&mut m.calls);
    (s, calls)
}

/// States that only a text can bring about: where the newest time is not the last learnt one, and row 28 beside row 18.
fn unreached(r: &mut Random, n: usize, out: &mut String) {
    let sizes = Sizes { d: 2, k: 3, start: 4, exact: false };
    let drawn = texts::undrained(r, sizes);
    let mut w = texts::gapped(r, drawn);
    w.settings.weight_time = WEIGHTS_OF_TIME[n % 4];
    w.initial.iter_mut().for_each(|i| i.0 %= 50);
    w.initial.sort_by_key(|i| i.0);
    let times = |k: usize| (0..k as u64).map(|i| 40 + 20 * i).collect::<Vec<_>>();
    match n % 4 {
        // nothing seen, and times that stand above
        0 => {
            w.settings.start = 0;
            w.initial.clear();
            (w.values_seen, w.internal, w.count) = (0, 7, 3);
            w.times = times(w.times.len());
        }
        // readings that neither wait nor were stranded by a learn: the newest is the last of them
        1 => (w.values_seen, w.count) = (w.settings.start + 1 + r.below(3), 5),
        // seen, but neither waiting nor learnt: the newest is 0
        2 => {
            w.initial.clear();
            w.count = 9;
        }
        // a drain, or a point that drains, would pass the limit
        _ => w.count = COUNT_LIMIT - w.settings.start + 1,
    }
    let m = &mut Maker { s: &w.settings, calls: Vec::new() };
    let newest = w.restore().newest();
    m.around(r, newest);
    m.order(r, newest);
    m.point(r, newest, None, None);
    m.calls.push(Call::Drain);
    m.learn(r, newest, true);
    m.around(r, newest);
    m.told(r);
    let calls = std::mem::take(&mut m.calls);
    set_lines(&w, out);
    calls_lines(r, out, w.restore(), &calls, (0, 3));
}

/// weight_time, timescale and gaps whose product is, divided, halfway between two f32: divided before it is multiplied (the first), or by a quotient of weight_time
/// and timescale (the second), it would narrow to the other of the two.
pub const HALFWAY: [(f32, f64, [u64; 2]); 2] = [(49.0, 49.0, [25_690_113, 25_690_143]), (3.0, 11.0, [123_032_899, 123_032_855])];

/// The order of the operations.
fn operations(r: &mut Random, (weight_time, timescale, gaps): (f32, f64, [u64; 2]), out: &mut String) {
    let s = Settings {
        mode: Mode::GapAugmented,
        method: WEIGHTED,
        d: 1,
        k: 1,
        start: 0,
        stop: 9,
        decay: 0.0,
        weight_time,
        weights: vec![1.0],
        codes: vec![7],
    };
    let mut w = Snapshot::of(&Reference::build(&s).unwrap());
    (w.values_seen, w.internal, w.count) = (1, 1, 1);
    w.statistics.iter_mut().for_each(|s| *s = [1.0, timescale - 1.0, 2304.0]);
    w.times = vec![1000];
    let m = &mut Maker { s: &s, calls: Vec::new() };
    for gap in gaps {
        m.transform(r, 1000 + gap, None, None);
        m.point(r, 1000 + gap, None, None);
    }
    let calls = std::mem::take(&mut m.calls);
    set_lines(&w, out);
    calls_lines(r, out, w.restore(), &calls, (0, 0));
}

/// Directed lists, then random ones until there are so many lines.
pub fn lists(r: &mut Random, lines: u64) -> String {
    let mut out = String::new();
    for n in 0..18 {
        directed(r, n, &mut out);
    }
    for n in 0..8 {
        unreached(r, n, &mut out);
    }
    let mut lists = 0;
    while (out.lines().count() as u64) < lines {
        lists += 1;
        let (d, k, exact) = match lists % 24 {
            5 => (16, 64, true),
            11 => (16, 1, true),
            17 => (1, 64, true),
            _ => (3, 5, false),
        };
        let sizes = Sizes { d, k, start: 6, exact };
        if lists % 8 == 0 {
            let bad = gapped(bad_settings(r, sizes));
            settings_line(&bad).whole(bad.row() as u64).end(&mut out);
            if bad.row() == 0 {
                state_line("q", &Snapshot::of(&Reference::build(&bad).unwrap())).end(&mut out);
            }
        }
        let most = if d * k > 100 { 10 } else { 30 };
        if lists % 4 == 0 {
            let drawn = texts::far(r, sizes);
            let w = texts::gapped(r, drawn);
            set_lines(&w, &mut out);
            calls_lines(r, &mut out, w.restore(), &[], (0, most));
        } else {
            let s = gapped(settings(r, sizes));
            settings_line(&s).whole(0).end(&mut out);
            calls_lines(r, &mut out, Reference::build(&s).unwrap(), &[], (0, most));
        }
    }
    out
}

/// Texts in mode G: of the form, damaged, scratched, missing the form by little, or with another letter.
pub fn texts_of(r: &mut Random, count: u64) -> String {
    let mut out = String::new();
    for n in 0..count {
        let sizes = if n % 60 == 7 { Sizes { d: 16, k: 8, start: 6, exact: true } } else { Sizes { d: 2, k: 3, start: 4, exact: false } };
        let drawn = if n % 10 == 9 { texts::far(r, sizes) } else { texts::snapshot(r, sizes) };
        let mut good = texts::gapped(r, drawn);
        let lined = n / 8 % 2 == 0;
        if !lined {
            good.settings.codes = good.settings.zero_codes();
        }
        let text = match n % 8 {
            0 | 1 => good.written(lined).into_bytes(),
            2 | 3 => texts::damaged_as(r, &good, lined).0,
            4 => texts::scratched_as(r, &good, lined),
            5 => texts::lettered(r, &good, lined),
            _ => texts::near(r, &good, lined, n / 4 % 12),
        };
        text_line(r, &mut out, &good, &text);
    }
    out
}

// ---- edges

/// Settings at, or one past, the limits of d, k and start.
fn edge(mode: Mode, method: u8, d: u64, k: u64, start: u64) -> Settings {
    let weights = (0..d).map(|i| if method == NONE { 1.0 } else { 1.0 + (i % 3) as f32 }).collect();
    let codes = (0..d).map(|i| 65535 - i as u16).collect();
    Settings { mode, method, d, k, start, stop: start.max(u64::MAX - 1), decay: 0.01, weight_time: 2.0, weights, codes }
}

/// A state that waits for its last initial value: `start` − 1 of them are there.
fn almost(r: &mut Random, s: &Settings) -> Snapshot {
    let mut w = Snapshot::of(&Reference::build(s).unwrap());
    w.values_seen = s.start - 1;
    let d = s.d as usize;
    w.initial = (0..s.start - 1).map(|i| (3 * i, r.list32(d, |r| r.from(0, 400) as f32 / 4.0))).collect();
    w
}

const MODES: [Mode; 3] = [Mode::Standard, Mode::TimeAugmented, Mode::GapAugmented];

/// Rows 4 and 8 on both sides; starts of 1,999 and 501 completed and drained, in every mode; and the order of the operations in mode G's element.
pub fn edges(r: &mut Random) -> String {
    let mut out = String::new();
    for mode in MODES {
        for (d, k, start) in
            [(16, 64, 1999), (16, 1, 501), (1, 64, 1999), (17, 1, 0), (1, 65, 0), (1, 1, 2000), (16, 65, 2000), (17, 64, 1999), (16, 64, 2000)]
        {
            // Where lines would be long the method is one that waits.
            let method = if d * k > 100 { r.from(4, 5) } else { r.below(6) } as u8;
            let s = edge(mode, method, d, k, start);
            settings_line(&s).whole(s.row() as u64).end(&mut out);
            if s.row() == 0 {
                let m = &mut Maker { s: &s, calls: Vec::new() };
                m.learn(r, 5, method < NORMALIZE);
                m.transform(r, 9, None, None);
                m.point(r, 9, None, None);
                let calls = std::mem::take(&mut m.calls);
                calls_lines(r, &mut out, Reference::build(&s).unwrap(), &calls, (0, 0));
            }
        }
    }
    for (n, start) in [1999, 501, 1999].into_iter().enumerate() {
        let s = edge(MODES[n], 4 + (n % 2) as u8, 1, [2, 64, 3][n], start);
        let w = almost(r, &s);
        let newest = 3 * start;
        let m = &mut Maker { s: &s, calls: Vec::new() };
        m.point(r, newest, None, None);
        m.learn(r, newest, false);
        m.calls.push(Call::Status { out: s.width() });
        if n == 1 {
            m.point(r, newest + 4, None, None);
        } else {
            m.calls.extend([Call::Drain, Call::Drain]);
        }
        m.learn(r, newest + 5, true);
        m.around(r, newest + 5);
        m.told(r);
        let calls = std::mem::take(&mut m.calls);
        set_lines(&w, &mut out);
        calls_lines(r, &mut out, w.restore(), &calls, (0, 0));
    }
    for case in HALFWAY {
        operations(r, case, &mut out);
    }
    out
}

/// With its own codes expected and just the room that its times need.
fn judged_text(out: &mut String, w: &Snapshot, text: &[u8]) {
    expected_line(out, text, &w.settings.codes, w.settings.k as usize);
}

/// The same of texts: d 16 and k 64, starts of 1,999 and 501 with all, all but one, none of their `buf` lines, and one too many; and one past each limit.
/// d × start is at most 4,000, which is the room of the replaying program.
pub fn edge_texts(r: &mut Random) -> String {
    let mut out = String::new();
    for mode in MODES {
        for (d, k, start) in [(16, 64, 0), (1, 64, 1999), (2, 3, 1999), (1, 1, 501), (16, 1, 0)] {
            let w = Snapshot::of(&Reference::build(&edge(mode, r.below(4) as u8, d, k, start)).unwrap());
            judged_text(&mut out, &w, w.text().as_bytes());
            // one past a limit: line 1
            for (place, one) in [(3, "17"), (4, "65"), (5, "2000")] {
                if d * k < 100 {
                    judged_text(&mut out, &w, &texts::with_set_field(&w, place, one));
                }
            }
        }
    }
    for (n, start) in [1999, 501].into_iter().enumerate() {
        let w = almost(r, &edge(MODES[2 - n], 5, 1, 2, start));
        judged_text(&mut out, &w, w.text().as_bytes());
        let mut all = w.clone();
        all.initial.push((3 * start, vec![1.0]));
        // complete; then one more than start
        all.values_seen = start;
        judged_text(&mut out, &all, all.text().as_bytes());
        all.initial.push((3 * start, vec![1.0]));
        judged_text(&mut out, &all, all.text().as_bytes());
        if n == 0 {
            continue;
        }
        // waiting with a line too many
        let mut more = w.clone();
        more.initial.push((3 * start, vec![1.0]));
        judged_text(&mut out, &more, more.text().as_bytes());
        // complete, and a line missing
        all.initial.truncate(start as usize - 1);
        judged_text(&mut out, &all, all.text().as_bytes());
    }
    out
}
