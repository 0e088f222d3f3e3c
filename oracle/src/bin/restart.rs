//! Puts the Rust's state away and takes it up again at every place of random lists of calls, and tries the reader on damaged texts.
//! Usage: restart SEED LISTS TEXTS
use oracle::calls::{Answer, Call};
use oracle::random::{any_mode, expected_codes, settings, Calls, Random, FULL};
use oracle::reference::Reference;
use oracle::snapshot::{read, take_up, Refused, Room, Snapshot, ROOMY};
use oracle::texts::{self, damaged, far, given, lines, put_away, scratched, snapshot, undrained};

fn text(reference: &Reference) -> String {
    Snapshot::of(reference).text()
}

/// Takes the text up, its own codes expected; it must be of the form and be written again as the same bytes, but for a line of zeros that it lacks.
fn taken_up(text: &[u8], codes: &[u16]) -> Reference {
    let snapshot = take_up(text, codes, &ROOMY).unwrap_or_else(|refused| panic!("{refused:?} in\n{}", String::from_utf8_lossy(text)));
    let away = String::from_utf8(put_away(text, codes.len())).unwrap();
    assert_eq!(snapshot.text(), away);
    let reference = snapshot.restore();
    assert_eq!(Snapshot::of(&reference).text(), away);
    reference
}

/// A room that is too short for the snapshot in one list, or just long enough in all.
fn room(r: &Random, good: &Snapshot) -> (Room, bool) {
    let r = &mut r.aside(20);
    let mut room = good.settings.room();
    let at = r.below(6) as usize;
    let short = room[at] > 0 && r.once_in(3);
    room[at] -= short as usize;
    (room, short)
}

/// Rows 27 and 20 of a text of the form, told from the codes and lengths alone. Gives the row.
fn check_expected(r: &Random, text: &[u8], own: &[u16], good: &Snapshot) -> u8 {
    let expected = expected_codes(r, own);
    let (room, short) = room(r, good);
    let row = match (expected == own, short) {
        (false, _) => 27,
        (true, true) => 20,
        (true, false) => 0,
    };
    let refused = take_up(text, &expected, &room).err();
    assert_eq!(refused, (row > 0).then_some(Refused { row, line: 0 }), "{expected:?} {own:?} {room:?}");
    row
}

/// A list run from a given state: its calls, their answers, and the text at every place.
fn run(r: &mut Random, mut reference: Reference, length: u64) -> (Vec<Call>, Vec<Answer>, Vec<String>) {
    let mut maker = Calls::new(r, &reference.settings);
    let (mut calls, mut answers, mut texts) = (Vec::new(), Vec::new(), vec![text(&reference)]);
    for _ in 0..length {
        let call = maker.next(r);
        let answer = reference.call(&call);
        if let (Call::Point { .. }, Answer::Numbers(point)) = (&call, &answer) {
            maker.last_point = Some(point.iter().map(|&b| f32::from_bits(b)).collect());
        }
        calls.push(call);
        answers.push(answer);
        texts.push(text(&reference));
    }
    (calls, answers, texts)
}

/// From every place: the same answers and the same last text.
fn restart_everywhere(codes: &[u16], calls: &[Call], answers: &[Answer], texts: &[String]) -> u64 {
    let mut compared = 0;
    for place in 0..texts.len() {
        let mut other = taken_up(texts[place].as_bytes(), codes);
        for (call, answer) in calls[place..].iter().zip(&answers[place..]) {
            assert_eq!(&other.call(call), answer, "place {place}: {call:?}\n{}", texts[place]);
            compared += 1;
        }
        assert_eq!(text(&other), texts[calls.len()]);
    }
    compared
}

/// The lines before the bad one begin some text of the form: they are completed here with plain lines, and that text is read.
fn completed(before: &[Vec<u8>]) -> Vec<u8> {
    let field = |line: usize, place: usize| -> String {
        let fields = before[line].split(|b| *b == b'\t' || *b == b'\n').nth(place).unwrap();
        String::from_utf8(fields.to_vec()).unwrap()
    };
    let mut text: Vec<u8> = before.concat();
    let (method, d, k, start) = if before.is_empty() {
        text.extend_from_slice(b"set\tS\t0\t1\t1\t0\t0\t0000000000000000\t00000000\n");
        (0, 1, 1, 0)
    } else {
        let number = |place| field(0, place).parse::<usize>().unwrap();
        (number(2), number(3), number(4), number(5))
    };
    let timed = !before.is_empty() && field(0, 1) != "S";
    // The line of the codes stands there, or is filled in, or the counters are the third line already.
    let bare = before.len() > 2 && field(2, 0) != "chn";
    let counters = if bare { 2 } else { 3 };
    let seen = if before.len() > counters { field(counters, 1).parse::<u64>().unwrap() } else { start as u64 };
    let statistics = 5 * d + 5;
    let mut fill = |at: usize, line: String| {
        if before.len() <= at && at > 0 {
            text.extend_from_slice(line.as_bytes());
            text.push(b'\n');
        }
    };
    fill(1, format!("wgt{}", "\t3f800000".repeat(d)));
    if !bare {
        fill(2, format!("chn{}", "\t65535".repeat(d)));
    }
    fill(counters, format!("cnt\t{start}\t0\t0"));
    let first = counters + 1;
    for i in 0..statistics {
        fill(first + i, format!("dev{}", "\t0000000000000000".repeat(3)));
    }
    fill(first + statistics, format!("inp{}", "\t00000000".repeat(d * k)));
    fill(first + 1 + statistics, format!("pnt{}", "\t00000000".repeat(if timed { (d + 1) * k } else { d * k })));
    fill(first + 2 + statistics, format!("tim{}", "\t0".repeat(k)));
    let head = first + 3 + statistics;
    let present = before.len().saturating_sub(head);
    let waits = method >= 4 && seen < start as u64;
    let wanted = if waits {
        seen as usize
    } else if present > 0 {
        start
    } else {
        0
    };
    for _ in present..wanted {
        text.extend_from_slice(format!("buf\t{}{}\n", u64::MAX, "\t00000000".repeat(d)).as_bytes());
    }
    text
}

/// A bad line says that the lines before it still begin a text of the form, unless they already are one.
fn check_bad_line(text: &[u8], line: usize) {
    let all = lines(text);
    let before = &all[..line - 1];
    assert!(before.iter().all(|l| l.last() == Some(&b'\n')));
    let whole = completed(before);
    assert!(read(&whole).is_ok(), "line {:?} of\n{}", read(&whole).err(), String::from_utf8_lossy(&whole));
    // Nothing behind the bad line changes it.
    let mut other = all[..all.len().min(line)].concat();
    if all.len() > line {
        other.extend_from_slice(b"anything\n");
    }
    assert_eq!(read(&other).err(), Some(line));
}

fn main() {
    let arguments: Vec<u64> = std::env::args().skip(1).map(|a| a.parse().expect("SEED LISTS TEXTS")).collect();
    let (seed, lists, texts) = (arguments[0], arguments[1], arguments[2]);
    let (mut places, mut compared, mut gap) = (0u64, 0u64, 0u64);
    let mut rows = [0u64; 29];
    for list in 0..lists {
        let mut r = Random::new(seed.wrapping_mul(0x1_0000_0003).wrapping_add(list));
        // Three lists in ten start from a text that calls need not reach, one of them with a count around the Rust's last one or around the limit.
        let first = match list % 10 {
            at @ (4 | 7 | 9) => {
                let state = [snapshot, far, undrained][at as usize / 3 - 1](&mut r, FULL);
                texts::any_mode(&r, state).restore()
            }
            _ => {
                let s = settings(&mut r, FULL);
                Reference::build(&any_mode(&r, s)).unwrap()
            }
        };
        gap += first.settings.gap() as u64;
        let codes = first.settings.codes.clone();
        let length = r.from(0, 18);
        let (calls, answers, all) = run(&mut r, first, length);
        answers.iter().for_each(|a| rows[a.row() as usize] += 1);
        places += all.len() as u64;
        compared += restart_everywhere(&codes, &calls, &answers, &all);
    }
    println!("lists {lists}, places {places}, answers compared after a restart {compared}, none differs");
    println!("lists in mode G {gap}; accepted {}; refused by row {:?}", rows[0], (10..=20).chain([28]).map(|i| (i, rows[i])).collect::<Vec<_>>());
    let (mut bad, mut without, mut expected) = (0u64, 0u64, [0u64; 28]);
    for n in 0..texts {
        let mut r = Random::new(seed.wrapping_mul(0x1_0000_0005).wrapping_add(n));
        let good = snapshot(&mut r, FULL);
        let good = texts::any_mode(&r, good);
        let whole = given(&r, &good);
        taken_up(&whole, &good.settings.codes);
        without += (whole != good.text().as_bytes()) as u64;
        expected[check_expected(&r, &whole, &good.settings.codes, &good) as usize] += 1;
        let (text, line) = damaged(&mut r, &good);
        assert_eq!(read(&text).err().unwrap_or(0), line, "{}", String::from_utf8_lossy(&text));
        let scratch = scratched(&mut r, &good);
        for text in [text, scratch] {
            match read(&text) {
                Ok(snapshot) => assert_eq!(snapshot.text().as_bytes(), put_away(&text, snapshot.settings.d as usize)),
                Err(line) => {
                    // 19 comes before 27 and 20.
                    let (codes, none) = (expected_codes(&r, &good.settings.codes), [0; 6]);
                    assert_eq!(take_up(&text, &codes, &none).err(), Some(Refused { row: 19, line }));
                    check_bad_line(&text, line);
                    bad += 1;
                }
            }
        }
    }
    println!("texts {texts}, {without} without codes; taken up {}, refused by 27 {}, by 20 {}", expected[0], expected[27], expected[20]);
    println!("damaged {}, bad {bad}, each at the line that was expected", 2 * texts);
}
