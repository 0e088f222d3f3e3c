//! Random lists of calls, by random roles under a random table, on the static library and on the unchanged Rust: every answer, refusal and text, what lies
//! past the answers, and heads that were damaged; and the calls that take no preprocessor. Usage: differential SEED LISTS [TEXTS [CASES]].
use differential::lists::{align, corrected, impute, roots, stranding, Tally};
use differential::{by, call, same, settings};
use oracle::calls::{Answer, Call, Learn, Mode, Settings, COUNT_LIMIT, SEEN_LIMIT};
use oracle::random::{any_mode, bad_settings, expected_codes, settings as random_settings, Calls, Random, FULL};
use oracle::reference::Reference;
use oracle::roles::{self, granted, rights, withheld, PUT_AWAY, TAKE_UP};
use oracle::snapshot::{take_up, Snapshot};
use oracle::texts::{self, damaged_as, far, scratched_as, snapshot, undrained};
use veerycouch::{Memory, Preprocessor, Rights, HEAD_WORDS};

/// One more than the last row.
const ROWS: usize = 29;

#[derive(Default)]
struct Met {
    calls: u64,
    texts: u64,
    rows: [u64; ROWS],
    builds: [u64; ROWS],
    damaged: [u64; ROWS],
    stranded: u64,
    drained: u64,
    /// Lists in mode G.
    gap: u64,
    restarts: u64,
    answers: u64,
    others: u64,
    read: [u64; ROWS],
    unlined: u64,
    unlined_bad: u64,
    /// Entries made by a role under a table, withheld ones, and those of them whose table or role is of no form.
    withheld: u64,
    formless: u64,
    cells: u64,
    differences: u64,
}

fn difference(met: &mut Met, list: u64, what: &str, s: &Settings, calls: &[Call]) {
    met.differences += 1;
    if met.differences <= 5 {
        println!("list {list}: {what}\n  {s:?}");
        calls.iter().for_each(|c| println!("  {c:?}"));
    }
}

/// Memory of the settings' lengths and up to three more of each part, with rubbish in it.
fn rubbish(r: &mut Random, d: u64, k: u64, start: u64) -> Memory {
    let mut m = Memory::sized(d as usize, k as usize, start as usize);
    let mut more = || r.from(0, 3) as usize;
    let lengths = [
        HEAD_WORDS + more(),
        m.statistics.len() + more(),
        m.last_shingled_input.len() + more(),
        m.last_shingled_point.len() + more(),
        m.previous_timestamps.len() + more(),
        m.initial_values.len() + more(),
        m.initial_timestamps.len() + more(),
    ];
    m.head = (0..lengths[0]).map(|_| r.next()).collect();
    m.statistics = (0..lengths[1]).map(|_| f64::from_bits(r.next())).collect();
    m.last_shingled_input = (0..lengths[2]).map(|_| f32::from_bits(r.next() as u32)).collect();
    m.last_shingled_point = (0..lengths[3]).map(|_| f32::from_bits(r.next() as u32)).collect();
    m.previous_timestamps = (0..lengths[4]).map(|_| r.next()).collect();
    m.initial_values = (0..lengths[5]).map(|_| f32::from_bits(r.next() as u32)).collect();
    m.initial_timestamps = (0..lengths[6]).map(|_| r.next()).collect();
    m
}

/// One part, that is needed, one element too short.
fn cut(r: &mut Random, m: &mut Memory, s: &Settings) -> bool {
    let (d, k, start) = (s.d as usize, s.k as usize, s.initial_room());
    match r.below(7) {
        0 => m.head.truncate(HEAD_WORDS - 1),
        1 => m.statistics.truncate(3 * (5 * d + 5) - 1),
        2 => m.last_shingled_input.truncate(d * k - 1),
        3 => m.last_shingled_point.truncate(s.dimension() - 1),
        4 => m.previous_timestamps.truncate(k - 1),
        5 if start > 0 => m.initial_values.truncate(start * d - 1),
        6 if start > 0 => m.initial_timestamps.truncate(start - 1),
        _ => return false,
    }
    true
}

/// What lies past the parts in use is as it was.
fn past_kept(old: &Memory, new: &Memory, s: &Settings) -> bool {
    let (d, k, start) = (s.d as usize, s.k as usize, s.initial_room());
    let single = |x: &[f32], y: &[f32], n: usize| x.len() == y.len() && x[n..].iter().zip(&y[n..]).all(|(p, q)| p.to_bits() == q.to_bits());
    let n = 3 * (5 * d + 5);
    old.head[HEAD_WORDS..] == new.head[HEAD_WORDS..]
        && old.statistics[n..].iter().zip(&new.statistics[n..]).all(|(p, q)| p.to_bits() == q.to_bits())
        && single(&old.last_shingled_input, &new.last_shingled_input, d * k)
        && single(&old.last_shingled_point, &new.last_shingled_point, s.dimension())
        && old.previous_timestamps[k..] == new.previous_timestamps[k..]
        && single(&old.initial_values, &new.initial_values, start * d)
        && old.initial_timestamps[start..] == new.initial_timestamps[start..]
}

/// A build that must be refused by `row`, with nothing changed.
fn refused_build(met: &mut Met, list: u64, numbers: (u64, u64), s: &Settings, memory: Memory, row: u64) {
    met.builds[row as usize] += 1;
    let old = memory.clone();
    match Preprocessor::build_by_numbers(numbers.0, numbers.1, &settings(s), memory) {
        Err((refusal, memory)) if refusal.0 == row && same(&memory, &old) => {}
        Err((refusal, _)) => difference(met, list, &format!("build: row {} for {row}, or memory changed", refusal.0), s, &[]),
        Ok(_) => difference(met, list, &format!("build accepted what row {row} refuses"), s, &[]),
    }
}

fn builds(r: &mut Random, met: &mut Met, list: u64, s: &Settings) {
    let bad = bad_settings(r, FULL);
    // Row 1 is of its own mode.
    let bad = if bad.mode == Mode::StreamingImpute { bad } else { any_mode(r, bad) };
    let memory = rubbish(r, bad.d.min(16), bad.k.min(64), bad.start.min(1999));
    let numbers = (settings(&bad).forest_mode as u64, bad.method as u64);
    if bad.row() != 0 {
        refused_build(met, list, numbers, &bad, memory, bad.row() as u64);
    }
    let good = (settings(s).forest_mode as u64, s.method as u64);
    match r.below(4) {
        0 => {
            let wild = if r.once_in(2) { (r.from(4, u64::MAX - 4), good.1) } else { (good.0, r.from(6, u64::MAX - 7)) };
            let memory = rubbish(r, s.d, s.k, s.start);
            refused_build(met, list, wild, s, memory, 19);
        }
        1 => {
            let mut memory = rubbish(r, s.d, s.k, s.start);
            if cut(r, &mut memory, s) {
                refused_build(met, list, good, s, memory, 20);
            }
        }
        _ => {}
    }
}

/// The settings that words hold, where they name a mode, a method and codes.
fn decoded(w: &[u64]) -> Settings {
    let d = w[2];
    Settings {
        mode: [Mode::Standard, Mode::TimeAugmented, Mode::StreamingImpute, Mode::GapAugmented][w[0] as usize],
        method: w[1] as u8,
        d,
        k: w[3],
        start: w[4],
        stop: w[5],
        decay: f64::from_bits(w[6]),
        weight_time: f32::from_bits(w[7] as u32),
        weights: w[12..28].iter().take(d.min(16) as usize).map(|&b| f32::from_bits(b as u32)).collect(),
        codes: w[28..44].iter().take(d.min(16) as usize).map(|&c| c as u16).collect(),
    }
}

fn row_of_words(w: &[u64]) -> u64 {
    if w.len() < HEAD_WORDS {
        20
    } else if w[0] > 3 || w[1] > 5 || w[28..44].iter().any(|&c| c > 65535) {
        19
    } else {
        match decoded(w).row() {
            0 if misfit(w) => 20,
            row => row as u64,
        }
    }
}

/// Counters that no text of these settings has: "While waiting, `buf` lines = values_seen and internal is 0; later none, or start lines under methods 4 and 5
/// (with such lines, internal is 0 if values_seen = start)"; and the limits of the three.
fn misfit(w: &[u64]) -> bool {
    let (normalizes, start) = (w[1] >= 4, w[4]);
    let [seen, internal, count, held] = [w[8], w[9], w[10], w[11]];
    let within = seen <= SEEN_LIMIT && internal <= SEEN_LIMIT && count <= COUNT_LIMIT;
    let fits = if normalizes && seen < start {
        internal == 0 && held == seen
    } else {
        held == 0 || (normalizes && held == start && (seen != start || internal == 0))
    };
    !(within && fits)
}

/// A head with one word damaged: refused by the row of its settings, where there is one; else its codes are told, and of calls there is some answer, and
/// nothing undefined.
fn damage(r: &mut Random, met: &mut Met, list: u64, p: &Preprocessor, s: &Settings, c: &Call) {
    let mut memory = p.memory().clone();
    if r.once_in(8) {
        memory.head.truncate(r.below(HEAD_WORDS as u64) as usize);
    } else {
        let at = r.below(HEAD_WORDS as u64) as usize;
        memory.head[at] = match r.below(4) {
            0 => r.next(),
            1 => r.below(70),
            2 => r.from(65534, 65537),
            _ => memory.head[at] ^ (1 << r.below(64)),
        };
    }
    let row = row_of_words(&memory.head);
    met.damaged[row as usize] += 1;
    let old = memory.clone();
    let mut other = Preprocessor::from_memory(memory);
    if row == 0 {
        let mut output = vec![0.0; 32];
        let _ = (other.drain(), other.scale(&mut output), other.shift(&mut output), other.difference_deviations(&mut output), other.save());
        let codes = other.codes();
        if codes.as_ref() != Ok(&decoded(&old.head).codes) {
            difference(met, list, &format!("codes of a damaged head: {codes:?}: {:x?}", old.head), s, &[]);
        }
        return;
    }
    // The table stands before the head.
    let none = call(&mut other, &by(&[0; 16], 0), c, s);
    let first = call(&mut other, &Rights::default(), c, s);
    let mut text = vec![0; 64];
    let mut codes = [0x1234; 17];
    let rows = [other.numbers().err(), other.save_into(&mut text).err(), other.codes_into(&mut codes).err(), other.drain().err()];
    let kept = same(other.memory(), &old) && text.iter().all(|&b| b == 0) && codes == [0x1234; 17];
    if none != Ok(Answer::No(22)) || first != Ok(Answer::No(row as u8)) || rows.iter().any(|x| x.map(|x| x.0) != Some(row)) || !kept {
        difference(met, list, &format!("damaged head: row {row}, got {none:?}, {first:?} and {rows:?}, kept {kept}: {:x?}", old.head), s, std::slice::from_ref(c));
    }
}

/// The text that a role with the right puts away.
fn text_of(p: &mut Preprocessor, by: &Rights, buffer: &mut Vec<u8>, expected: &str) -> Result<(), String> {
    p.set_rights(by.clone());
    let n = expected.len();
    buffer.clear();
    buffer.resize(n + 2, 0xa5);
    if p.save_into(&mut buffer[..n - 1]).map_err(|r| r.0) != Err(20) || buffer.iter().any(|&b| b != 0xa5) {
        return Err("a text one byte longer than its output".to_string());
    }
    match p.save_into(buffer) {
        Ok(length) if length == n && &buffer[..n] == expected.as_bytes() && buffer[n..] == [0xa5, 0xa5] => Ok(()),
        other => Err(format!("text: {other:?}\n{}\n---\n{expected}", String::from_utf8_lossy(buffer))),
    }
}

/// What happened in a list, for restarts: the roles of its calls and the table of them all.
struct Record {
    table: Vec<u8>,
    roles: Vec<u64>,
    calls: Vec<Call>,
    answers: Vec<Answer>,
    texts: Vec<String>,
}

impl Record {
    /// A role that has the right, under the list's table, or under one that grants all.
    fn entitled(&self, right: usize) -> Rights {
        granted(&self.table, &[right]).map_or_else(Rights::default, |role| by(&self.table, role))
    }
}

/// The row of a withheld entry, and that it depends on nothing else: the same of memory with rubbish in it, and both memories and all outputs as they were.
fn withheld_call(q: &mut Random, met: &mut Met, list: u64, p: &mut Preprocessor, by: &Rights, c: &Call, s: &Settings) {
    met.withheld += 1;
    met.formless += (by.role > 3 || by.table.len() != 16 || by.table.iter().any(|&b| b > 1)) as u64;
    let mut other = Preprocessor::from_memory(rubbish(q, s.d, s.k, s.start));
    for p in [p, &mut other] {
        let old = p.memory().clone();
        let given = call(p, by, c, s);
        if given != Ok(Answer::No(22)) || !same(&old, p.memory()) {
            difference(met, list, &format!("{by:?} is withheld: {given:?}, or memory changed"), s, std::slice::from_ref(c));
        }
    }
}

/// Putting away and taking up by a role that has not the right: 22, and not a byte or a cell is another. The text is not looked at.
fn withheld_texts(q: &mut Random, met: &mut Met, list: u64, p: &mut Preprocessor, table: &[u8], text: &str, s: &Settings) {
    let by = by(table, roles::role(q));
    p.set_rights(by.clone());
    if withheld(table, by.role, &[PUT_AWAY]) {
        met.withheld += 1;
        let (old, mut buffer) = (p.memory().clone(), [0xa5; 64]);
        let given = p.save_into(&mut buffer).map_err(|r| r.0);
        if given != Err(22) || buffer != [0xa5; 64] || !same(&old, p.memory()) {
            difference(met, list, &format!("{by:?} may not put away: {given:?}, or something changed"), s, &[]);
        }
    }
    if withheld(table, by.role, &[TAKE_UP]) {
        met.withheld += 1;
        let memory = rubbish(q, s.d, s.k, s.start);
        let old = memory.clone();
        // A text of the form, one without its first byte, or none.
        let text = &text.as_bytes()[..];
        let text = q.pick(&[text, &text[1..], &[]]);
        let codes = expected_codes(q, &s.codes);
        match Preprocessor::restore_by(by.clone(), text, &codes, memory) {
            Err((refusal, 0, memory)) if refusal.0 == 22 && same(&memory, &old) => {}
            Err((refusal, line, _)) => difference(met, list, &format!("{by:?} may not take up: {refusal}, line {line}, or memory changed"), s, &[]),
            Ok(_) => difference(met, list, &format!("{by:?} has taken up"), s, &[]),
        }
    }
}

/// One call of each kind; some of them are refused for other reasons.
fn one_of_each(s: &Settings) -> Vec<Call> {
    let (input, none, d, width) = (vec![1.0; s.d as usize], Vec::new(), s.d as usize, s.width());
    let timestamp = u64::MAX;
    let learn = Learn { input: input.clone(), timestamp, point: None, grade: 0.0, relative_index: 0, expected: None, deviations_out: width, past_out: d, expected_out: d };
    vec![
        Call::Point { input: input.clone(), timestamp, out: s.dimension() },
        Call::Learn(learn),
        Call::Drain,
        Call::Transform { input, timestamp, out: width },
        Call::TurnBack { values: none.clone(), upper: none.clone(), lower: none, outs: [0; 6] },
        Call::Scale { out: width },
        Call::Shift { out: width },
        Call::Status { out: width },
    ]
}

/// Every cell of the table decides its own role's calls and no other: without it, and with it alone.
fn cells(met: &mut Met, list: u64, p: &Preprocessor, text: &str, s: &Settings) {
    for cell in 0..16 {
        let (mut without, mut alone) = ([1u8; 16], [0u8; 16]);
        without[cell] = 0;
        alone[cell] = 1;
        for table in [&without, &alone] {
            for role in 0..4 {
                let by = by(table, role);
                for c in one_of_each(s) {
                    met.cells += 1;
                    let mut other = p.clone();
                    let given = call(&mut other, &by, &c, s);
                    if (given == Ok(Answer::No(22))) != withheld(table, role, rights(&c)) {
                        difference(met, list, &format!("{by:?}: {given:?}"), s, &[c]);
                    }
                }
                met.cells += 2;
                let mut other = p.clone();
                other.set_rights(by.clone());
                let saved = other.save().map_err(|r| r.0) != Err(22);
                let taken = Preprocessor::restore_by(by.clone(), text.as_bytes(), &s.codes, other.into_memory()).map_err(|r| r.0 .0).err() != Some(22);
                if saved == withheld(table, role, &[PUT_AWAY]) || taken == withheld(table, role, &[TAKE_UP]) {
                    difference(met, list, &format!("{by:?}: saved {saved}, taken up {taken}"), s, &[]);
                }
            }
        }
    }
}

fn run_list(r: &mut Random, list: u64, met: &mut Met, s: &Settings, mut reference: Reference, p: &mut Preprocessor) -> Option<Record> {
    let mut maker = Calls::new(r, s);
    let mut buffer = Vec::new();
    // Tables and roles take nothing from the generator's own numbers. Half of the lists have every right.
    let q = &mut r.aside(105);
    let table = if q.once_in(2) { vec![1; 16] } else { roles::table(q) };
    let mut record = Record { table, roles: Vec::new(), calls: Vec::new(), answers: Vec::new(), texts: Vec::new() };
    let length = r.from(0, 30) as usize;
    let hurt = r.below(length as u64 + 1) as usize;
    let mut was_stranded = false;
    for place in 0..=length {
        let text = Snapshot::of(&reference).text();
        met.texts += 1;
        if let Err(what) = text_of(p, &record.entitled(PUT_AWAY), &mut buffer, &text) {
            difference(met, list, &format!("place {place}: {what}"), s, &record.calls);
            return None;
        }
        withheld_texts(q, met, list, p, &record.table, &text, s);
        if list % 100 == 0 && place == length / 2 {
            cells(met, list, p, &text, s);
        }
        record.texts.push(text);
        if place == length {
            break;
        }
        let c = maker.next(r);
        if place == hurt {
            damage(r, met, list, p, s, &c);
        }
        met.calls += 1;
        let role = roles::role(q);
        record.roles.push(role);
        if withheld(&record.table, role, rights(&c)) {
            withheld_call(q, met, list, p, &by(&record.table, role), &c, s);
            met.rows[22] += 1;
            record.calls.push(c);
            record.answers.push(Answer::No(22));
            continue;
        }
        let waiting = !reference.rust.initial().0.is_empty();
        let answer = reference.call(&c);
        let before = (answer.row() != 0).then(|| p.memory().clone());
        let given = call(p, &by(&record.table, role), &c, s);
        record.calls.push(c);
        met.rows[answer.row() as usize] += 1;
        if given.as_ref() != Ok(&answer) || before.is_some_and(|m| !same(&m, p.memory())) {
            difference(met, list, &format!("place {place}: {given:?} for {answer:?}, or a refusal changed memory"), s, &record.calls);
            return None;
        }
        if let (Some(Call::Point { .. }), Answer::Numbers(point)) = (record.calls.last(), &answer) {
            maker.last_point = Some(point.iter().map(|&b| f32::from_bits(b)).collect());
        }
        record.answers.push(answer);
        met.drained += (waiting && reference.rust.initial().0.is_empty()) as u64;
        let stranded = waiting && reference.internal() > 0 && !reference.rust.initial().0.is_empty();
        met.stranded += (stranded && !was_stranded) as u64;
        was_stranded |= stranded;
    }
    Some(record)
}

/// A text without its line of codes.
fn unlined(text: &str) -> String {
    text.split_inclusive('\n').enumerate().filter(|(i, _)| *i != 2).map(|(_, line)| line).collect()
}

/// Codes other than the list's own are refused by 27, and memory is as it was.
fn other_codes(r: &mut Random, list: u64, met: &mut Met, s: &Settings, by: &Rights, text: &str) {
    r.next();
    let codes = expected_codes(r, &s.codes);
    if codes == s.codes {
        return;
    }
    met.others += 1;
    let memory = rubbish(r, s.d, s.k, s.start);
    let old = memory.clone();
    match Preprocessor::restore_by(by.clone(), text.as_bytes(), &codes, memory) {
        Err((refusal, 0, memory)) if refusal.0 == 27 && same(&memory, &old) => {}
        Err((refusal, line, _)) => difference(met, list, &format!("{codes:?}: {refusal}, line {line}, or memory changed"), s, &[]),
        Ok(_) => difference(met, list, &format!("taken up with {codes:?}"), s, &[]),
    }
}

/// From every place: taken up in memory of rubbish, the same later answers and the same last text.
fn restarts(r: &mut Random, list: u64, met: &mut Met, s: &Settings, record: &Record) {
    let mut buffer = Vec::new();
    for place in 0..record.texts.len() {
        let memory = rubbish(r, s.d, s.k, s.start);
        let old = memory.clone();
        met.restarts += 1;
        let bare = s.codes.iter().all(|&c| c == 0) && r.once_in(2);
        let text = if bare { unlined(&record.texts[place]) } else { record.texts[place].clone() };
        let taker = record.entitled(TAKE_UP);
        other_codes(r, list, met, s, &taker, &text);
        let mut p = match Preprocessor::restore_by(taker, text.as_bytes(), &s.codes, memory) {
            Ok(p) => p,
            Err((refusal, line, _)) => return difference(met, list, &format!("place {place}: {refusal}, line {line}"), s, &record.calls),
        };
        for ((c, answer), role) in record.calls[place..].iter().zip(&record.answers[place..]).zip(&record.roles[place..]) {
            met.answers += 1;
            let given = call(&mut p, &by(&record.table, *role), c, s);
            if given.as_ref() != Ok(answer) {
                return difference(met, list, &format!("restart at {place}: {given:?} for {answer:?}"), s, &record.calls);
            }
        }
        if let Err(what) = text_of(&mut p, &record.entitled(PUT_AWAY), &mut buffer, record.texts.last().unwrap()) {
            return difference(met, list, &format!("restart at {place}: {what}"), s, &record.calls);
        }
        if !past_kept(&old, p.memory(), s) {
            return difference(met, list, &format!("restart at {place}: memory past the need was written"), s, &record.calls);
        }
    }
}

/// The snapshot that a text holds where it is taken up with these codes in this memory, or the row and the line.
fn expected(text: &[u8], codes: &[u16], m: &Memory) -> Result<Snapshot, (u64, u64)> {
    let room = [
        m.statistics.len(),
        m.last_shingled_input.len(),
        m.last_shingled_point.len(),
        m.previous_timestamps.len(),
        m.initial_values.len(),
        m.initial_timestamps.len(),
    ];
    let taken = take_up(text, codes, &room).map_err(|refused| (refused.row as u64, refused.line as u64))?;
    if m.head.len() < HEAD_WORDS {
        return Err((20, 0));
    }
    Ok(taken)
}

/// A text of the form or damaged, half of them without the line of the codes: by the library and by the oracle's reader, in memory of which one part may be
/// too short, with the text's codes or others. Taken up and written again, or the same row and line.
fn texts(r: &mut Random, number: u64, met: &mut Met) {
    let good = if r.once_in(4) { undrained(r, FULL) } else { snapshot(r, FULL) };
    let mut good = texts::any_mode(r, good);
    let lined = r.once_in(2);
    if !lined {
        good.settings.codes.fill(0);
    }
    let s = &good.settings;
    let text = match r.below(3) {
        0 => good.written(lined).into_bytes(),
        1 => damaged_as(r, &good, lined).0,
        _ => scratched_as(r, &good, lined),
    };
    let read = oracle::snapshot::read(&text);
    let sized = read.as_ref().map_or(s, |w| &w.settings);
    let codes = expected_codes(r, &sized.codes);
    let mut memory = rubbish(r, sized.d, sized.k, sized.start);
    if r.once_in(8) {
        cut(r, &mut memory, sized);
    }
    let old = memory.clone();
    let expected = expected(&text, &codes, &memory);
    met.read[expected.as_ref().map_or_else(|refused| refused.0, |_| 0) as usize] += 1;
    let bare = !text.split_inclusive(|&b| b == b'\n').nth(2).is_some_and(|line| line.starts_with(b"chn"));
    met.unlined += bare as u64;
    met.unlined_bad += (bare && read.is_err()) as u64;
    let what = match (Preprocessor::restore_in(&text, &codes, memory), expected) {
        (Ok(mut p), Ok(snapshot)) => match text_of(&mut p, &Rights::default(), &mut Vec::new(), &snapshot.text()) {
            Ok(()) if past_kept(&old, p.memory(), &snapshot.settings) => return,
            Ok(()) => "memory past the need was written".to_string(),
            Err(what) => what,
        },
        (Err((refusal, line, memory)), Err(refused)) if (refusal.0, line) == refused && same(&memory, &old) => return,
        (Err((refusal, line, _)), Err(refused)) => format!("{refusal}, line {line} for {refused:?}, or memory changed"),
        (Ok(_), Err(refused)) => format!("taken up, but {refused:?}"),
        (Err((refusal, line, _)), Ok(_)) => format!("{refusal}, line {line}, for a text to be taken up"),
    };
    difference(met, number, &format!("text: {what}\n{}", String::from_utf8_lossy(&text)), s, &[]);
}

/// A state that calls need not reach, laid into the library's memory by hand.
fn laid(p: Preprocessor, w: &Snapshot) -> Preprocessor {
    let mut m = p.into_memory();
    m.head[8..12].copy_from_slice(&[w.values_seen, w.internal, w.count, w.initial.len() as u64]);
    w.statistics.iter().flatten().zip(&mut m.statistics).for_each(|(x, place)| *place = *x);
    m.last_shingled_input[..w.inputs.len()].copy_from_slice(&w.inputs);
    m.last_shingled_point[..w.point.len()].copy_from_slice(&w.point);
    m.previous_timestamps[..w.times.len()].copy_from_slice(&w.times);
    for (i, (time, values)) in w.initial.iter().enumerate() {
        m.initial_timestamps[i] = *time;
        m.initial_values[i * values.len()..(i + 1) * values.len()].copy_from_slice(values);
    }
    Preprocessor::from_memory(m)
}

fn one(seed: u64, list: u64, met: &mut Met) {
    let mut r = Random::new(seed.wrapping_mul(0x1_0000_0001).wrapping_add(list));
    // Three lists in ten start from a state that calls need not reach, one of them with a count around the Rust's last one or around the limit.
    let given = match list % 10 {
        4 => Some(snapshot(&mut r, FULL)),
        7 => Some(far(&mut r, FULL)),
        9 => Some(undrained(&mut r, FULL)),
        _ => None,
    };
    let given = given.map(|w| texts::any_mode(&r, w));
    let s = match &given {
        Some(w) => w.settings.clone(),
        None => {
            let s = random_settings(&mut r, FULL);
            any_mode(&r, s)
        }
    };
    met.gap += s.gap() as u64;
    builds(&mut r, met, list, &s);
    met.builds[0] += 1;
    let memory = rubbish(&mut r, s.d, s.k, s.start);
    let old = memory.clone();
    let mut p = match Preprocessor::build_in(&settings(&s), memory) {
        Ok(p) => p,
        Err((refusal, _)) => return difference(met, list, &format!("build: {refusal}"), &s, &[]),
    };
    let mut reference = Reference::build(&s).unwrap();
    if let Some(w) = &given {
        p = laid(p, w);
        reference = w.restore();
    }
    let Some(record) = run_list(&mut r, list, met, &s, reference, &mut p) else { return };
    if !past_kept(&old, p.memory(), &s) {
        difference(met, list, "memory past the need was written", &s, &record.calls);
    }
    restarts(&mut r, list, met, &s, &record);
}

type Rows = [u64; ROWS];

fn by_row(list: &Rows) -> String {
    list.iter().enumerate().filter(|(_, &n)| n > 0).map(|(i, n)| format!("{i}: {n}")).collect::<Vec<_>>().join(", ")
}

fn told(met: &Met, lists: u64) {
    println!("lists {lists}, calls {}, texts {} (each also with an output one byte short)", met.calls, met.texts);
    println!("calls by row {}", by_row(&met.rows));
    println!("builds by row {}", by_row(&met.builds));
    println!("damaged heads by row {}", by_row(&met.damaged));
    println!("drained {}, lists stranded {}, lists in mode G {}", met.drained, met.stranded, met.gap);
    println!("withheld {} (of them {} by a table or a role of no form), cells asked {}", met.withheld, met.formless, met.cells);
    println!("restarts {}, answers after one {}; with other codes {}", met.restarts, met.answers, met.others);
    println!("texts read {}, by row {}; without the line of the codes {}, of them bad {}", met.read.iter().sum::<u64>(), by_row(&met.read), met.unlined, met.unlined_bad);
}

/// CASES random cases of each call that takes no preprocessor.
fn cases(seed: u64, count: u64) -> u64 {
    let kinds: [(&str, fn(u64, u64) -> Tally); 5] = [("impute", impute), ("align", align), ("strandings", stranding), ("corrected", corrected), ("sqrt", roots)];
    let mut differences = 0;
    for (name, run) in kinds {
        let t = run(seed, count);
        println!("{name}: {} cases, by row {}; differences {}", t.rows.iter().sum::<u64>(), by_row(&t.rows), t.differences);
        differences += t.differences;
    }
    differences
}

fn main() {
    let given: Vec<u64> = std::env::args().skip(1).map(|a| a.parse().expect("SEED LISTS [TEXTS [CASES]]")).collect();
    let (seed, lists) = (given[0], given[1]);
    let mut met = Met::default();
    for list in 0..lists {
        one(seed, list, &mut met);
    }
    for number in 0..given.get(2).copied().unwrap_or(0) {
        let mut r = Random::new((seed ^ 0x7e87).wrapping_mul(0x1_0000_0001).wrapping_add(number));
        texts(&mut r, number, &mut met);
    }
    told(&met, lists);
    if let Some(&count) = given.get(3) {
        met.differences += cases(seed, count);
    }
    println!("differences {}", met.differences);
    std::process::exit((met.differences > 0) as i32);
}
