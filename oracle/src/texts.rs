//! Texts of document 01's form (with request #113's line or without it) that need not be reachable by calls, and damaged ones with the line at which each is bad.
use crate::calls::{COUNT_LIMIT, NONE, NORMALIZE, SEEN_LIMIT};
use crate::counts::RUST_COUNT;
use crate::calls::Mode;
use crate::random::{settings, Random, Sizes};
use crate::snapshot::Snapshot;

fn rising_times(r: &mut Random, n: usize) -> Vec<u64> {
    let mut times: Vec<u64> = (0..n).map(|_| if r.once_in(4) { r.next() } else { r.from(0, 50) }).collect();
    times.sort();
    times
}

fn counter(r: &mut Random, limit: u64) -> u64 {
    match r.below(6) {
        0 => limit - r.below(4),
        1 => r.next() % (limit + 1),
        _ => r.from(0, 12),
    }
}

/// The Rust's last count, or the limit of the count. Takes nothing from the generator.
fn a_limit(r: &Random) -> u64 {
    r.aside(101).pick(&[RUST_COUNT, COUNT_LIMIT])
}

/// A snapshot that has the form: "nothing ties the counts but what document 01 says".
pub fn snapshot(r: &mut Random, sizes: Sizes) -> Snapshot {
    let s = settings(r, sizes);
    let (d, k) = (s.d as usize, s.k as usize);
    let normalizes = s.method >= NORMALIZE;
    let values_seen = match r.below(4) {
        0 => s.start,
        1 => r.from(0, s.start),
        2 => s.start + r.from(0, 3),
        _ => counter(r, SEEN_LIMIT),
    };
    let waits = normalizes && values_seen < s.start;
    let internal = if waits || r.once_in(3) { 0 } else { counter(r, SEEN_LIMIT) };
    let may_hold = normalizes && !(values_seen == s.start && internal > 0);
    let lines = if waits {
        values_seen
    } else if may_hold && r.once_in(2) {
        s.start
    } else {
        0
    };
    let initial_times = rising_times(r, lines as usize);
    Snapshot {
        values_seen,
        internal,
        count: counter(r, RUST_COUNT),
        statistics: (0..5 * d + 5).map(|_| [r.wild64(), r.wild64(), r.wild64()]).collect(),
        inputs: r.list32(d * k, Random::wild32),
        point: r.list32(s.dimension(), Random::wild32),
        times: if internal == 0 { vec![0; k] } else { rising_times(r, k) },
        initial: initial_times.into_iter().map(|t| (t, r.list32(d, Random::value32))).collect(),
        settings: s,
    }
}

/// As `snapshot`, with initial values that a drain would feed, and a count near the Rust's last one.
pub fn undrained(r: &mut Random, sizes: Sizes) -> Snapshot {
    let mut w = snapshot(r, sizes);
    let s = &mut w.settings;
    if s.method == NONE {
        s.weights.iter_mut().for_each(|x| *x = 2.0);
    }
    s.method = r.from(4, 5) as u8;
    s.start = r.from(1, 5);
    s.stop = s.stop.max(s.start);
    w.values_seen = s.start;
    w.internal = 0;
    w.times.iter_mut().for_each(|t| *t = 0);
    w.count = RUST_COUNT - r.below(8);
    let (d, times) = (s.d as usize, rising_times(r, s.start as usize));
    w.initial = times.into_iter().map(|t| (t, r.list32(d, Random::value32))).collect();
    w
}

/// The same snapshot in mode G: where it had no time elements, its point gets them. Takes nothing from the generator.
pub fn gapped(r: &Random, mut w: Snapshot) -> Snapshot {
    w.settings.mode = Mode::GapAugmented;
    let more = w.settings.dimension() - w.point.len();
    w.point.extend(r.aside(114).list32(more, Random::wild32));
    w
}

/// A third of them in mode G.
pub fn any_mode(r: &Random, w: Snapshot) -> Snapshot {
    if r.aside(115).once_in(3) {
        gapped(r, w)
    } else {
        w
    }
}

/// Its text with another letter of the mode: where the new one has time elements too, or none as the old one, the text is of the form.
pub fn lettered(r: &mut Random, good: &Snapshot, lined: bool) -> Vec<u8> {
    let mut all = lines(good.written(lined).as_bytes());
    let mut set = split(&all[0]);
    set[1] = r.pick(&["S", "T", "G", "T", "g", "GG", "", "I", "GAP_AUGMENTED", "3", " G", "G "]).into();
    all[0] = join(&set);
    all.concat()
}

/// Its text with another field in the `set` line.
pub fn with_set_field(good: &Snapshot, place: usize, field: &str) -> Vec<u8> {
    let mut all = lines(good.text().as_bytes());
    let mut set = split(&all[0]);
    set[place] = field.into();
    all[0] = join(&set);
    all.concat()
}

/// A count around the Rust's last one, around the limit, or between both.
pub fn far_count(r: &mut Random) -> u64 {
    match r.below(8) {
        0..=2 => RUST_COUNT - 6 + r.below(12),
        3..=6 => COUNT_LIMIT - r.below(10),
        _ => (1 << r.from(32, 53)) - 2 - r.below(4),
    }
}

/// A decay with which a count as large decides the factor, or with which it does not.
pub fn far_decay(r: &mut Random, count: u64) -> f64 {
    match r.below(5) {
        0 => r.decay(),
        1 => r.pick(&[0.0, -0.0, 5.0e-324, 1.0e-300, 1.0e-17]),
        2 => r.pick(&[f64::EPSILON / 2.0, f64::EPSILON, f64::EPSILON / 4.0]),
        _ => r.pick(&[0.5, 1.0, 1.0, 2.0, 5.0, 10.0, 20.0]) / (count + 2) as f64,
    }
}

/// A state that only a text can bring about, whose count is far out. Half of them have initial values that a drain would feed.
pub fn far(r: &mut Random, sizes: Sizes) -> Snapshot {
    if r.once_in(2) {
        return far_drain(r, sizes);
    }
    let w = snapshot(r, sizes);
    let count = far_count(r);
    tamed(r, w, count)
}

/// As `far`, with initial values; most have a count with which their drain ends around the limit or around the Rust's last count.
pub fn far_drain(r: &mut Random, sizes: Sizes) -> Snapshot {
    let w = undrained(r, sizes);
    let count = if r.once_in(4) { far_count(r) } else { r.pick(&[RUST_COUNT, COUNT_LIMIT, COUNT_LIMIT]) - w.settings.start - 1 + r.below(3) };
    tamed(r, w, count)
}

/// With this count, a decay to go with it, and mostly statistics that an update changes and times that a call's may follow.
fn tamed(r: &mut Random, mut w: Snapshot, count: u64) -> Snapshot {
    w.count = count;
    w.settings.decay = far_decay(r, count);
    if !r.once_in(8) {
        w.settings.stop = u64::MAX;
    }
    if !r.once_in(8) {
        w.statistics.iter_mut().for_each(|s| *s = [r.from(1, 1 << 40) as f64 / 8.0, r.from(0, 1 << 40) as f64 / 16.0 - 1.0e10, r.from(0, 1 << 50) as f64 / 3.0]);
    }
    w.times.iter_mut().for_each(|t| *t %= 50);
    w.times.sort();
    w.initial.iter_mut().for_each(|i| i.0 %= 50);
    w.initial.sort_by_key(|i| i.0);
    w
}

/// The text of such a state; half of them have another number in the count's place, and a third of the others miss it by a byte.
pub fn far_text(r: &mut Random, good: &Snapshot, lined: bool) -> Vec<u8> {
    let mut all = lines(good.written(lined).as_bytes());
    let mut fields = split(&all[counters_at(lined)]);
    let limit = r.pick(&[RUST_COUNT, COUNT_LIMIT, COUNT_LIMIT]);
    fields[3] = match r.below(6) {
        0 => (limit - 1 + r.below(4)).to_string().into_bytes(),
        1 => r.pick(&["9007199254740992", "9007199254740993", "90071992547409900", "9007199254740990 ", "9223372036854775807", "18446744073709551615"]).into(),
        2 => r.pick(&["09007199254740990", "9007199254740991", "9007199254740990", "2147483647", "4294967296", "18446744073709551616"]).into(),
        _ => return all.concat(),
    };
    all[counters_at(lined)] = join(&fields);
    all.concat()
}

/// The lines of a text, each with its LF.
pub fn lines(text: &[u8]) -> Vec<Vec<u8>> {
    text.split_inclusive(|&b| b == b'\n').map(|l| l.to_vec()).collect()
}

fn split(line: &[u8]) -> Vec<Vec<u8>> {
    line[..line.len() - 1].split(|&b| b == b'\t').map(|f| f.to_vec()).collect()
}

fn join(fields: &[Vec<u8>]) -> Vec<u8> {
    let mut line = fields.join(&b'\t');
    line.push(b'\n');
    line
}

/// A field that is bad in every place.
fn bad_field(r: &mut Random) -> &'static [u8] {
    let never: [&[u8]; 12] =
        [b"", b"zz", b"01", b"-1", b"+1", b" 1", b"7FC00000", b"0x000000", b"ffffffff", b"7fc00001", b"18446744073709551616", b"fff8000000000000"];
    r.pick(&never)
}

/// What a text of d channels is put away as once it was taken up: itself, or with the line of zeros that it lacks.
pub fn put_away(text: &[u8], d: usize) -> Vec<u8> {
    let mut all = lines(text);
    if !all[2].starts_with(b"chn\t") {
        all.insert(2, format!("chn{}\n", "\t0".repeat(d)).into_bytes());
    }
    all.concat()
}

/// The line of a text's counters, from 0: behind the line of the codes where it has one.
fn counters_at(lined: bool) -> usize {
    2 + lined as usize
}

/// Whether a text of the snapshot is to have the line of the codes: half of those whose codes are zeros are without it. Takes nothing from the generator.
pub fn lined(r: &Random, good: &Snapshot) -> bool {
    good.settings.codes.iter().any(|&c| c != 0) || r.aside(59).once_in(2)
}

/// A text of the form: with the line of the codes, or without it.
pub fn given(r: &Random, good: &Snapshot) -> Vec<u8> {
    good.written(lined(r, good)).into_bytes()
}

/// A damaged text and its bad line (0: the damage left a text of the form). The line is known from how the damage was made, not from the reader.
pub fn damaged(r: &mut Random, good: &Snapshot) -> (Vec<u8>, usize) {
    let lined = lined(r, good);
    damaged_as(r, good, lined)
}

/// The same of a text with the line of the codes, or without it.
pub fn damaged_as(r: &mut Random, good: &Snapshot, lined: bool) -> (Vec<u8>, usize) {
    let s = &good.settings;
    let text = good.written(lined).into_bytes();
    let mut all = lines(&text);
    let last = all.len();
    let head = counters_at(lined) + 1 + 5 * s.d as usize + 5 + 3;
    let at = r.below(last as u64) as usize;
    match r.below(20) {
        // a field of no form
        0..=2 => {
            let mut fields = split(&all[at]);
            let place = r.below(fields.len() as u64) as usize;
            fields[place] = bad_field(r).to_vec();
            all[at] = join(&fields);
            (all.concat(), at + 1)
        }
        // one field more or less
        3 => {
            let mut fields = split(&all[at]);
            fields.push(if r.once_in(2) { Vec::new() } else { fields[fields.len() - 1].clone() });
            all[at] = join(&fields);
            (all.concat(), at + 1)
        }
        4 => {
            let mut fields = split(&all[at]);
            fields.pop();
            all[at] = join(&fields);
            (all.concat(), at + 1)
        }
        // the end cut off, inside a line or behind its LF
        5 => {
            let keep = r.below(text.len() as u64) as usize;
            let whole = lines(&text[..keep]).iter().filter(|l| l.last() == Some(&b'\n')).count();
            let complete = keep > 0 && text[keep - 1] == b'\n' && whole == head && !(s.method >= NORMALIZE && good.values_seen < s.start);
            (text[..keep].to_vec(), if complete { 0 } else { whole + 1 })
        }
        // something behind the text; a further line is never allowed where the initial values are complete
        6 => {
            let mut longer = text.clone();
            longer.extend_from_slice(r.pick(&[&b"\n"[..], b"x", b"tim\t0\n", b"set", b"\0"]));
            (longer, last + 1)
        }
        // a CR before the LF
        7 => {
            let end = all[at].len() - 1;
            all[at].insert(end, b'\r');
            (all.concat(), at + 1)
        }
        // an empty line before a line, and a line twice
        8 => {
            all.insert(at, b"\n".to_vec());
            (all.concat(), at + 1)
        }
        9 => {
            let again = all[at].clone();
            all.insert(at, again);
            let bad = second_copy(at, counters_at(lined) + 1, head, last);
            (all.concat(), bad)
        }
        // settings and counters that a row or the form refuses
        10..=12 => spoiled_head(r, good, lined),
        // times that fall, times with internal 0
        13 => spoiled_times(r, good, lined, head),
        // an initial value that is not finite
        14 if last > head => {
            let at = head + r.below((last - head) as u64) as usize;
            let mut fields = split(&all[at]);
            let end = fields.len() - 1;
            fields[end] = r.pick(&[&b"7f800000"[..], b"ff800000", b"7fc00000"]).to_vec();
            all[at] = join(&fields);
            (all.concat(), at + 1)
        }
        15 if last > head => {
            let at = head + r.below((last - head) as u64) as usize;
            all.remove(at);
            // One line too few: with none left past waiting, the text has the form again.
            let complete = last - head == 1 && good.values_seen >= s.start;
            (all.concat(), if complete { 0 } else { last })
        }
        16..=18 => spoiled_codes(r, good),
        _ => (text, 0),
    }
}

/// Damage of the line of the codes. A text whose line is left out has the form, with other codes where they were not zeros.
fn spoiled_codes(r: &mut Random, good: &Snapshot) -> (Vec<u8>, usize) {
    let mut all = lines(good.written(true).as_bytes());
    let mut fields = split(&all[2]);
    let place = r.from(1, good.settings.d) as usize;
    match r.below(10) {
        // beyond 16 bits
        0 | 1 => fields[place] = r.pick(&["65536", "65537", "131072", "99999", "100000", "4294967296", "18446744073709551615"]).into(),
        2 => fields[place].insert(0, b'0'),
        3 => fields[place] = r.pick(&["", "-1", "+1", " 1", "1 ", "a", "0x1", "00000001"]).into(),
        // a code too few, one too many
        4 => {
            fields.pop();
        }
        5 => fields.push(r.pick(&["0", "65535", ""]).into()),
        6 => fields[0] = r.pick(&["ch", "chnn", "Chn", "CHN", "", "wgt"]).into(),
        // the line twice
        7 => {
            all.insert(3, all[2].clone());
            return (all.concat(), 4);
        }
        // the line elsewhere: what stands before it begins a text without the line
        8 => {
            let line = all.remove(2);
            let places: Vec<usize> = (0..=all.len()).filter(|&p| p != 2).collect();
            let at = r.pick(&places);
            all.insert(at, line);
            return (all.concat(), at + 1);
        }
        _ => {
            all.remove(2);
            return (all.concat(), 0);
        }
    }
    all[2] = join(&fields);
    (all.concat(), 3)
}

/// The bad line where line `at` (from 0) stands twice.
fn second_copy(at: usize, first_statistic: usize, head: usize, last: usize) -> usize {
    let after_statistics = head - 3;
    if (first_statistic..after_statistics).contains(&at) {
        // One `dev` line too many: the line where `inp` must stand.
        return after_statistics + 1;
    }
    if at >= head {
        // One `buf` line too many: the line behind the last that may stand.
        return last + 1;
    }
    at + 2
}

fn spoiled_head(r: &mut Random, good: &Snapshot, lined: bool) -> (Vec<u8>, usize) {
    let mut w = good.clone();
    let counters = counters_at(lined) + 1;
    let mut all = lines(w.written(lined).as_bytes());
    let mut set = split(&all[0]);
    let waits = w.settings.method >= NORMALIZE && w.values_seen < w.settings.start;
    let change = |set: &mut Vec<Vec<u8>>, place: usize, to: &str| set[place] = to.as_bytes().to_vec();
    match r.below(12) {
        0 => {
            let letter = r.pick(&["G", "s", "ST", "0"]);
            change(&mut set, 1, letter);
            if letter == "G" {
                // Since request #114 a letter of the form: only the line of the points may then be too short.
                all[0] = join(&set);
                let points = counters + 5 * w.settings.d as usize + 5 + 2;
                return (all.concat(), if w.settings.timed() { 0 } else { points });
            }
        }
        1 => change(&mut set, 2, r.pick(&["6", "00", "9"])),
        2 => change(&mut set, 3, r.pick(&["0", "17", "18446744073709551615"])),
        3 => change(&mut set, 4, r.pick(&["0", "65"])),
        4 => {
            change(&mut set, 5, "7");
            change(&mut set, 6, "6");
        }
        5 => {
            change(&mut set, 5, "2000");
            change(&mut set, 6, "2000");
        }
        6 => change(&mut set, 7, r.pick(&["3ff0000000000000", "bfb999999999999a", "7ff8000000000000", "8000000000000001"])),
        7 => {
            // NONE with a weight that is not 1.0
            change(&mut set, 2, "0");
            all[0] = join(&set);
            let mut weights = vec![b"wgt".to_vec()];
            weights.extend((0..w.settings.d).map(|_| b"3f800000".to_vec()));
            let end = weights.len() - 1;
            weights[end] = r.pick(&[&b"3f800001"[..], b"7fc00000", b"bf800000"]).to_vec();
            all[1] = join(&weights);
            return (all.concat(), 2);
        }
        8 => {
            w.values_seen = SEEN_LIMIT + 1 + r.below(3);
            return (w.written(lined).into_bytes(), counters);
        }
        9 => {
            w.internal = SEEN_LIMIT + 1;
            return (w.written(lined).into_bytes(), counters);
        }
        10 => {
            // past the Rust's last count the text still has the form
            let limit = a_limit(r);
            w.count = limit + 1 + r.below(3);
            return (w.written(lined).into_bytes(), if limit < COUNT_LIMIT { 0 } else { counters });
        }
        _ => {
            if !waits {
                return (w.written(lined).into_bytes(), 0);
            }
            w.internal = 1 + r.below(5);
            return (w.written(lined).into_bytes(), counters);
        }
    }
    all[0] = join(&set);
    (all.concat(), 1)
}

fn spoiled_times(r: &mut Random, good: &Snapshot, lined: bool, head: usize) -> (Vec<u8>, usize) {
    let mut w = good.clone();
    let k = w.times.len();
    if w.internal == 0 {
        let at = r.below(k as u64) as usize;
        w.times[at..].iter_mut().for_each(|t| *t = 3);
        return (w.written(lined).into_bytes(), head);
    }
    if k > 1 && r.once_in(2) {
        let at = r.from(1, k as u64 - 1) as usize;
        w.times[at - 1] = w.times[at - 1].max(1);
        w.times[at] = w.times[at - 1] - 1;
        return (w.written(lined).into_bytes(), head);
    }
    let n = w.initial.len();
    if n > 1 {
        let at = r.from(1, n as u64 - 1) as usize;
        w.initial[at - 1].0 = w.initial[at - 1].0.max(1);
        w.initial[at].0 = w.initial[at - 1].0 - 1;
        return (w.written(lined).into_bytes(), head + at + 1);
    }
    (w.written(lined).into_bytes(), 0)
}

/// A good text with a few bytes changed, dropped or added: the reader decides.
pub fn scratched(r: &mut Random, good: &Snapshot) -> Vec<u8> {
    let lined = lined(r, good);
    scratched_as(r, good, lined)
}

pub fn scratched_as(r: &mut Random, good: &Snapshot, lined: bool) -> Vec<u8> {
    let mut text = good.written(lined).into_bytes();
    for _ in 0..r.from(1, 3) {
        let at = r.below(text.len() as u64) as usize;
        match r.below(4) {
            0 => {
                text.remove(at);
            }
            1 => text.insert(at, r.pick(b"0129afS\t\n x")),
            _ => text[at] = r.pick(b"0123456789abcdefST\t\n -"),
        }
        if text.is_empty() {
            break;
        }
    }
    text
}

/// The places (line, field) of the whole numbers of a text, or of its floats.
fn places(all: &[Vec<u8>], whole: bool) -> Vec<(usize, usize)> {
    let is_whole = |name: &[u8], field: usize| match name {
        b"set" => (2..7).contains(&field),
        b"chn" | b"cnt" | b"tim" => true,
        b"buf" => field == 1,
        _ => false,
    };
    let mut found = Vec::new();
    for (at, line) in all.iter().enumerate() {
        let fields = split(line);
        let named = fields[0].as_slice();
        found.extend(
            (1..fields.len()).filter(|&f| fields[f].len() > 1 || is_whole(named, f)).filter(|&f| is_whole(named, f) == whole).map(|f| (at, f)),
        );
    }
    found
}

/// A text that misses the form by little, in one of twelve ways: the reader decides, since fewer `buf` lines may leave a text of the form.
pub fn near(r: &mut Random, good: &Snapshot, lined: bool, way: u64) -> Vec<u8> {
    let mut all = lines(good.written(lined).as_bytes());
    let at = r.below(all.len() as u64) as usize;
    let (wholes, floats) = (places(&all, true), places(&all, false));
    let letters = |line: &[u8], field: usize| split(line)[field].iter().any(u8::is_ascii_alphabetic);
    let lettered: Vec<_> = floats.iter().copied().filter(|&(line, field)| letters(&all[line], field)).collect();
    let mut change = |(line, field): (usize, usize), to: &dyn Fn(&[u8]) -> Vec<u8>| {
        let mut fields = split(&all[line]);
        fields[field] = to(&fields[field]);
        all[line] = join(&fields);
    };
    match way {
        0 => {
            all.remove(at);
        }
        1 => all.truncate(all.len() - r.from(1, 4) as usize),
        2 => {
            let at = at.min(all.len() - 2);
            all.swap(at, at + 1);
        }
        3 => {
            all.last_mut().unwrap().pop();
        }
        4 => change(r.pick(&lettered), &|f| f.to_ascii_uppercase()),
        5 => change(r.pick(&wholes), &|f| [b"0", f].concat()),
        6 => {
            let nan = r.pick(&[&b"ffc00000"[..], b"7fc00001", b"7f800001", b"ffffffff"]);
            let wide = r.pick(&[&b"fff8000000000000"[..], b"7ff8000000000001", b"7ff0000000000001", b"ffffffffffffffff"]);
            change(r.pick(&floats), &|f| if f.len() == 8 { nan.to_vec() } else { wide.to_vec() });
        }
        7 => {
            let place = r.pick(&floats);
            let blank = r.pick(&[&b" "[..], b"\t\t", b"\x0b", b""]);
            change(place, &|f| [blank, f].concat());
        }
        8 => {
            let more = all[at].clone();
            all.push(r.pick(&[&more[..], &all.concat(), b"buf\t0\n", b"\t", b"\n\n"]).to_vec());
        }
        9 => {
            let counts = a_limit(r);
            let limit = r.pick(&[(1, SEEN_LIMIT), (2, SEEN_LIMIT), (3, counts)]);
            let over = r.below(3);
            change((counters_at(lined), limit.0), &|_| (limit.1 - 1 + over).to_string().into_bytes());
        }
        // the line of the codes, put in where it was not
        10 => {
            let mut w = good.clone();
            let at = r.below(w.settings.d) as usize;
            w.settings.codes[at] = 65535;
            all = lines(w.written(true).as_bytes());
            let mut fields = split(&all[2]);
            fields[at + 1] = r.pick(&["65535", "65536", "65534", "0", "00", "065535", "65535 ", "6553", "655350", ""]).into();
            all[2] = join(&fields);
        }
        _ => {
            all = lines(good.written(true).as_bytes());
            let line = all.remove(2);
            let places = [1, 2, 3, all.len() - 1, all.len()];
            for _ in 0..r.below(3) {
                all.insert(r.pick(&places), line.clone());
            }
        }
    }
    all.concat()
}
