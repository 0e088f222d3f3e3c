//! Request #105: which cell decides which call, tables and roles of no form, and demand 3 over lists of (role, call): the history has the granted calls alone.
use oracle::calls::{Answer, Call, Learn};
use oracle::history::History;
use oracle::random::{any_mode, settings, Calls, Random, FULL};
use oracle::reference::Reference;
use oracle::roles::{call, granted, rights, role, table, withheld, LEARN, PUT_AWAY, SEE, TAKE_UP};
use oracle::snapshot::{take_up, Snapshot, ROOMY};

fn one_of_each() -> Vec<(Call, &'static [usize])> {
    let (input, none) = (vec![1.0], Vec::new());
    let learn = Learn {
        input: input.clone(),
        timestamp: 1,
        point: None,
        grade: 0.0,
        relative_index: 0,
        expected: None,
        deviations_out: 1,
        past_out: 1,
        expected_out: 1,
    };
    vec![
        (Call::Point { input: input.clone(), timestamp: 1, out: 1 }, &[SEE, LEARN]),
        (Call::Learn(learn), &[LEARN]),
        (Call::Drain, &[LEARN]),
        (Call::Transform { input, timestamp: 1, out: 1 }, &[SEE]),
        (Call::TurnBack { values: none.clone(), upper: none.clone(), lower: none, outs: [0; 6] }, &[SEE]),
        (Call::Scale { out: 1 }, &[SEE]),
        (Call::Shift { out: 1 }, &[SEE]),
        (Call::Status { out: 1 }, &[SEE]),
    ]
}

/// With one cell withheld, the calls of that role that need that right are refused, and no other; with the needed cells alone granted they are not.
#[test]
fn every_cell() {
    let entries: Vec<&[usize]> = one_of_each().iter().map(|(_, needed)| *needed).chain([&[PUT_AWAY][..], &[TAKE_UP]]).collect();
    for (c, needed) in one_of_each() {
        assert_eq!(rights(&c), needed, "{c:?}");
    }
    for cell in 0..16 {
        let (mut without, mut alone) = ([1u8; 16], [0u8; 16]);
        without[cell] = 0;
        alone[cell] = 1;
        for who in 0..4 {
            for needed in &entries {
                let named = cell / 4 == who && needed.contains(&(cell % 4));
                assert_eq!(withheld(&without, who as u64, needed), named);
                assert_eq!(withheld(&alone, who as u64, needed), !(named && needed.len() == 1));
            }
        }
    }
    // role 2: see is cell 8, learn 9
    let mut t = [0u8; 16];
    (t[8], t[9]) = (1, 1);
    assert!(!withheld(&t, 2, &[SEE, LEARN]) && withheld(&t, 1, &[SEE, LEARN]) && withheld(&t, 2, &[PUT_AWAY]));
}

#[test]
fn tables_and_roles_of_no_form() {
    for needed in [&[SEE][..], &[LEARN], &[SEE, LEARN], &[PUT_AWAY], &[TAKE_UP]] {
        assert!(!withheld(&[1; 16], 3, needed));
        for wrong in [0, 1, 4, 15, 17, 32] {
            assert!(withheld(&vec![1; wrong], 0, needed));
        }
        for role in [4, 5, 256, 1 << 32, 1 << 63, u64::MAX] {
            assert!(withheld(&[1; 16], role, needed));
        }
        for cell in 0..16 {
            for byte in [2, 3, 128, 255] {
                let mut t = [1; 16];
                t[cell] = byte;
                assert!(withheld(&t, 0, needed) && withheld(&t, 3, needed));
            }
        }
    }
}

/// Lists of (role, call) under one table: the text is the history's of the granted calls, and a restart by roles that have the rights leaves all later answers.
#[test]
fn lists_of_roles() {
    let (mut refused, mut compared) = (0, 0);
    for list in 0..1_500 {
        let mut r = Random::new(0x105_0000 + list);
        let s = settings(&mut r, FULL);
        let s = any_mode(&r, s);
        let t = table(&mut r);
        let (mut p, mut history) = (Reference::build(&s).unwrap(), History::new(&s));
        let mut maker = Calls::new(&mut r, &s);
        let (mut made, mut answers, mut texts) = (Vec::new(), Vec::new(), vec![Snapshot::of(&p).text()]);
        for _ in 0..r.from(0, 16) {
            let (who, c) = (role(&mut r), maker.next(&mut r));
            let answer = call(&mut p, &t, who, &c);
            if withheld(&t, who, rights(&c)) {
                assert_eq!(answer, Answer::No(22));
                refused += 1;
            } else {
                assert_eq!(history.call(&c), answer.row());
            }
            let text = Snapshot::of(&p).text();
            assert_eq!(text, history.text());
            made.push((who, c));
            answers.push(answer);
            texts.push(text);
        }
        if granted(&t, &[PUT_AWAY]).is_none() || granted(&t, &[TAKE_UP]).is_none() {
            continue;
        }
        for place in 0..texts.len() {
            let mut other = take_up(texts[place].as_bytes(), &s.codes, &ROOMY).unwrap().restore();
            for ((who, c), answer) in made[place..].iter().zip(&answers[place..]) {
                assert_eq!(&call(&mut other, &t, *who, c), answer);
                compared += 1;
            }
        }
    }
    assert!(refused > 3_000 && compared > 20_000, "{refused} {compared}");
}
