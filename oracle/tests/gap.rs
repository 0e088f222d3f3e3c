//! Mode G (request #114): samples by hand; every time element, time shift and turned-back time against the rule computed from the history's text alone; and all that is
//! not time against the Rust in TIME_AUGMENTED.
use oracle::bits::{all32, bits32, bits64};
use oracle::calls::{Answer, Call, Learn, Mode, Settings, COUNT_LIMIT, NONE, NORMALIZE, WEIGHTED};
use oracle::gap::element;
use oracle::history::History;
use oracle::random::{gapped, settings, Calls, Random, FULL};
use oracle::reference::Reference;
use oracle::snapshot::{read, Snapshot};
use oracle::texts::{self, snapshot, undrained};

fn given(method: u8, k: u64, start: u64, weight_time: f32) -> Settings {
    let (d, stop, decay) = (1, 1000, 0.0);
    Settings { mode: Mode::GapAugmented, method, d, k, start, stop, decay, weight_time, weights: vec![1.0], codes: vec![0] }
}

fn learn(value: f32, timestamp: u64, point: Option<Vec<f32>>) -> Call {
    let (input, grade, relative_index, expected) = (vec![value], 0.0, 0, None);
    Call::Learn(Learn { input, timestamp, point, grade, relative_index, expected, deviations_out: 9, past_out: 9, expected_out: 9 })
}

fn transform(timestamp: u64) -> Call {
    Call::Transform { input: vec![5.0], timestamp, out: 2 }
}

fn point(timestamp: u64) -> Call {
    Call::Point { input: vec![5.0], timestamp, out: 99 }
}

#[test]
fn the_element() {
    assert_eq!(element(30, 1.0, 1.0), 30.0);
    assert_eq!(element(30, 2.0, 1.0), 60.0);
    assert_eq!(element(30, 2.0, 4.0), 15.0);
    assert_eq!(element(0, -2.0, 1.0).to_bits(), 0x8000_0000);
    assert!(element(0, f32::INFINITY, 1.0).is_nan());
    assert_eq!(element(1, f32::NEG_INFINITY, 1.0), f32::NEG_INFINITY);
    assert!(element(1, f32::NAN, 1.0).is_nan());
    // one rounding to f64 of the gap, none to f32 before the end: 2^53 + 1 is turned to 2^53
    assert_eq!(element((1 << 53) + 1, 1.0, 1.0), (1u64 << 53) as f32);
    assert_eq!(element(u64::MAX, 1.0, 1.0), 18446744073709551616.0);
    // 16777217 / 16777216 is narrowed once, at the end
    assert_eq!(element(16777217, 1.0, 1.0), 16777216.0);
    assert_eq!(element(33554435, 1.0, 2.0), 16777218.0);
}

/// Multiplied, then divided, then narrowed: 25,690,113 × 49 / 49 is halfway between two f32, and 25,690,113 / 49 × 49 is not.
#[test]
fn the_order_of_the_operations() {
    assert_eq!(element(25_690_113, 49.0, 49.0), 25_690_112.0);
    assert_eq!((25_690_113.0f64 / 49.0 * 49.0) as f32, 25_690_114.0);
    assert_eq!(element(123_032_899, 3.0, 11.0), 33_554_428.0);
    assert_eq!((123_032_899.0f64 * (3.0 / 11.0)) as f32, 33_554_426.0);
    for (weight_time, timescale, gaps) in oracle::vectors::gap::HALFWAY {
        for gap in gaps {
            // exactly: the quotient is an odd number of 25 bits
            let (product, scale) = (gap as u128 * weight_time as u128, timescale as u128);
            let quotient = (product / scale) as u64;
            assert!(product % scale == 0 && quotient % 2 == 1 && quotient >> 24 == 1);
            assert_eq!(element(gap, weight_time, timescale), quotient as f32);
        }
    }
}

/// Times 100 and 130: the gap, and what T has of the same times (document 01's sample).
#[test]
fn after_a_learnt_reading() {
    for (weight_time, expected) in [(1.0f32, 30.0f32), (2.0, 60.0), (0.0, 0.0), (-1.0, -30.0)] {
        let mut p = Reference::build(&given(NONE, 1, 0, weight_time)).unwrap();
        // nothing seen: gap 0, whatever the time
        assert_eq!(p.call(&transform(77)), Answer::Numbers(all32(&[5.0, 0.0 * weight_time])));
        p.call(&learn(1.0, 100, Some(vec![1.0, 0.0])));
        assert_eq!(p.call(&transform(130)), Answer::Numbers(all32(&[5.0, expected])));
        assert_eq!(p.call(&point(130)), Answer::Numbers(all32(&[5.0, expected])));
        assert_eq!(p.call(&transform(99)), Answer::No(28));
        assert_eq!(p.call(&point(99)), Answer::No(28));
        assert_eq!(p.call(&transform(100)), Answer::Numbers(all32(&[5.0, 0.0 * weight_time])));
        // no drift, though the mean of the differences is 100
        assert_eq!(p.call(&Call::Shift { out: 2 }), Answer::Numbers(all32(&[0.0, 100.0])));
    }
}

/// While readings wait the newest is the last of them; F's gaps are 0, 7 and 0; a reading at the newest time has gap 0.
#[test]
fn waiting_and_drained() {
    for by_point in [false, true] {
        let mut p = Reference::build(&given(NORMALIZE, 4, 3, 2.0)).unwrap();
        p.call(&learn(4.0, 10, None));
        assert_eq!(p.call(&transform(9)), Answer::No(28));
        assert_eq!(p.call(&point(9)), Answer::No(28));
        assert_eq!(p.call(&point(10)), Answer::None);
        assert_eq!(p.call(&transform(13)), Answer::Numbers(all32(&[5.0, 6.0])));
        p.call(&learn(4.0, 17, None));
        p.call(&learn(4.0, 17, None));
        // the statistics of the differences 0, 7, 0: deviations 0, 3.5 and the root of 98/9
        let scale = (3.5 + (49.0f64 / 3.0 - (7.0f64 / 3.0) * (7.0 / 3.0)).sqrt()) / 3.0 + 1.0;
        let gaps = [0.0, (7.0 * 2.0 / scale) as f32, 0.0];
        let drained = vec![0.0, 0.0, 0.0, gaps[0], 0.0, gaps[1], 0.0, gaps[2]];
        if by_point {
            let newest = (21.0 * 2.0 / scale) as f32;
            assert_eq!(
                p.call(&Call::Point { input: vec![4.0], timestamp: 38, out: 8 }),
                Answer::Numbers(all32(&[&drained[2..], &[0.0, newest]].concat()))
            );
        } else {
            assert_eq!(p.call(&Call::Drain), Answer::Done);
        }
        assert_eq!(all32(&Snapshot::of(&p).point), all32(&drained));
        assert_eq!(p.call(&transform(16)), Answer::No(28));
    }
}

/// Row 28 stands behind 10 and 11 and before 18 and 20, and with nothing seen too.
#[test]
fn the_order_of_row_28() {
    let mut p = Reference::build(&given(WEIGHTED, 1, 0, 1.0)).unwrap();
    p.call(&learn(1.0, 100, Some(vec![1.0, 0.0])));
    let wrong = |input: Vec<f32>, timestamp| Call::Point { input, timestamp, out: 0 };
    assert_eq!(p.call(&wrong(vec![], 99)), Answer::No(10));
    assert_eq!(p.call(&wrong(vec![f32::NAN], 99)), Answer::No(11));
    assert_eq!(p.call(&wrong(vec![1.0], 99)), Answer::No(28));
    assert_eq!(p.call(&wrong(vec![1.0], 100)), Answer::No(20));
    assert_eq!(p.call(&Call::Transform { input: vec![f32::NAN], timestamp: 99, out: 0 }), Answer::No(28));
    assert_eq!(p.call(&Call::Transform { input: vec![], timestamp: 99, out: 0 }), Answer::No(10));
    let dev = "dev\t0000000000000000\t0000000000000000\t0000000000000000\n".repeat(10);
    let text = format!("set\tG\t1\t1\t1\t0\t9\t0000000000000000\t3f800000\nwgt\t3f800000\nchn\t0\ncnt\t0\t3\t0\n{dev}inp\t00000000\npnt\t00000000\t00000000\ntim\t100\n");
    let mut p = read(text.as_bytes()).unwrap().restore();
    assert_eq!(Snapshot::of(&p).text(), text);
    assert_eq!(p.call(&transform(99)), Answer::No(28));
    assert_eq!(p.call(&transform(150)), Answer::Numbers(all32(&[5.0, 0.0])));
    let text = format!("set\tG\t4\t1\t1\t1\t9\t0000000000000000\t3f800000\nwgt\t3f800000\nchn\t0\ncnt\t1\t0\t{COUNT_LIMIT}\n{dev}inp\t00000000\npnt\t00000000\t00000000\ntim\t0\nbuf\t40\t3f800000\n");
    let mut p = read(text.as_bytes()).unwrap().restore();
    assert_eq!((p.call(&point(39)), p.call(&point(40))), (Answer::No(28), Answer::No(18)));
}

/// No drift is added, then the cascade from the last time; upper and lower are put right.
#[test]
fn turned_back() {
    let mut p = Reference::build(&given(NONE, 1, 0, 2.0)).unwrap();
    p.call(&learn(1.0, 100, Some(vec![1.0, 0.0])));
    let back = Call::TurnBack { values: vec![9.0, 6.0, 9.0, 4.0], upper: vec![9.0, 8.0, 9.0, 1.0], lower: vec![9.0, 7.0, 9.0, -2.0], outs: [9; 6] };
    let Answer::Ranges { times, .. } = p.call(&back) else { panic!("accepted") };
    // 6 / 2 = 3 after 100, then 4 / 2 = 2 after 103
    assert_eq!(times, Some([[103.0f64, 105.0], [104.0, 105.0], [103.0, 102.0]].map(|l| l.map(f64::to_bits).to_vec())));
}

/// The letter in the bench, and row 28 of its `p`: 1 and 2 are seen, so that the gap from 2 to 9 is 7; the one to the learnt 9 is 0.
#[test]
fn the_bench() {
    let head = "set\tG\t0\t1\t1\t0\t20\t0000000000000000\t3f800000\nwgt\t3f800000\n";
    let with = |calls: &str| oracle::bench::run(format!("{head}{calls}").as_bytes());
    assert_eq!(with("p\t5\t40000000\n"), "pt\t40000000\t00000000\n");
    assert_eq!(
        with("p\t2\t3f800000\nl\t2\t3f800000\np\t1\t3f800000\np\t9\t3f800000\n"),
        "pt\t3f800000\t00000000\nok\nno\t28\npt\t3f800000\t40e00000\n"
    );
    assert!(with("s\n").starts_with(head));
    for letter in ["g", "GG", "", "3"] {
        assert_eq!(oracle::bench::run(head.replacen('G', letter, 1).as_bytes()), "no\t19\n");
    }
}

/// The last mean of the statistics' lines, and 1; the last time; the points: from a text alone.
fn told(text: &str) -> (f64, u64, Vec<u32>) {
    let fields = |name: &str| text.lines().rev().find(|l| l.starts_with(name)).unwrap().split('\t').skip(1).map(String::from).collect::<Vec<_>>();
    let double = |f: &str| f64::from_bits(u64::from_str_radix(f, 16).unwrap());
    let dev = fields("dev");
    let (weight, sum) = (double(&dev[0]), double(&dev[1]));
    let mean = if weight <= 0.0 { 0.0 } else { sum / weight };
    (mean + 1.0, fields("tim").last().unwrap().parse().unwrap(), fields("pnt").iter().map(|f| u32::from_str_radix(f, 16).unwrap()).collect())
}

/// Random lists in G. The newest time is that of the last learn that added an entry, kept here; the rest of the rule is read from the history's text.
#[test]
fn the_rule_from_the_history() {
    let (mut elements, mut shifts, mut turned, mut refused) = (0, 0, 0, 0);
    for list in 0..6_000 {
        let mut r = Random::new(0x114_0000 + list);
        let s = gapped(settings(&mut r, FULL));
        let (mut p, mut history) = (Reference::build(&s).unwrap(), History::new(&s));
        let mut maker = Calls::new(&mut r, &s);
        let mut added: Option<u64> = None;
        for _ in 0..r.from(0, 24) {
            let call = maker.next(&mut r);
            let entries = history.entries.iter().filter(|e| !matches!(e, oracle::history::Entry::Drained)).count();
            let row = history.call(&call);
            let answer = p.call(&call);
            assert_eq!(answer.row(), row, "{call:?}");
            // a drain in the call is made before its element
            let (scale, last, kept) = told(&history.text());
            let gap = |t: u64| added.map_or(0, |newest| t - newest);
            let wt = s.weight_time as f64;
            let made = |t: u64| bits32((gap(t) as f64 * wt / scale) as f32);
            match (&call, &answer) {
                (Call::Point { timestamp, .. } | Call::Transform { timestamp, .. }, Answer::No(28)) => {
                    assert!(*timestamp < added.unwrap());
                    refused += 1;
                }
                (Call::Point { timestamp, .. }, Answer::Numbers(given)) => {
                    let width = s.width();
                    assert_eq!(given.last(), Some(&made(*timestamp)), "{call:?}");
                    assert_eq!(given[..given.len() - width], kept[width..]);
                    maker.last_point = Some(given.iter().map(|&b| f32::from_bits(b)).collect());
                    elements += 1;
                }
                (Call::Transform { timestamp, .. }, Answer::Numbers(given)) => {
                    assert_eq!(given.last(), Some(&made(*timestamp)), "{call:?}");
                    elements += 1;
                }
                (Call::Shift { .. }, Answer::Numbers(given)) => {
                    assert_eq!(given.last(), Some(&bits32(last as f32)));
                    shifts += 1;
                }
                (Call::TurnBack { values, .. }, Answer::Ranges { times: Some(times), .. }) => {
                    let factor = if wt == 0.0 { 0.0 } else { 1.0 / wt };
                    let mut at = last as f64;
                    for (i, &bits) in times[0].iter().enumerate() {
                        let x = values[i * s.dimension() + (s.d * s.k) as usize];
                        at = x as f64 * factor * scale + at;
                        assert_eq!(bits, bits64(at), "{call:?}");
                        at = f64::from_bits(bits);
                    }
                    turned += 1;
                }
                _ => {}
            }
            if let Call::Learn(c) = &call {
                let now = history.entries.iter().filter(|e| !matches!(e, oracle::history::Entry::Drained)).count();
                if now > entries {
                    added = Some(c.timestamp);
                }
            }
        }
    }
    assert!(elements > 8_000 && shifts > 1_500 && turned > 800 && refused > 500, "{elements} {shifts} {turned} {refused}");
}

/// Nothing but time is another than in TIME_AUGMENTED: the same calls, those that row 28 refuses left out, on the Rust in T.
#[test]
fn all_else_is_the_rusts() {
    let mut compared = 0;
    for list in 0..3_000 {
        let mut r = Random::new(0x1140_0000 + list);
        let mut first = match list % 3 {
            0 => Snapshot::of(&Reference::build(&settings(&mut r, FULL)).unwrap()),
            1 => snapshot(&mut r, FULL),
            _ => undrained(&mut r, FULL),
        };
        first = texts::gapped(&r, first);
        let mut gap = first.restore();
        first.settings.mode = Mode::TimeAugmented;
        let mut time = first.restore();
        let mut maker = Calls::new(&mut r, &gap.settings);
        for _ in 0..r.from(0, 16) {
            let call = maker.next(&mut r);
            let mine = gap.call(&call);
            if mine == Answer::No(28) {
                continue;
            }
            let theirs = time.call(&call);
            let width = gap.settings.width();
            let channels = |l: &[u32]| l.iter().enumerate().filter(|(i, _)| (i + 1) % width != 0).map(|(_, &x)| x).collect::<Vec<_>>();
            match (&call, &mine, &theirs) {
                (Call::Point { .. } | Call::Transform { .. } | Call::Shift { .. }, Answer::Numbers(a), Answer::Numbers(b)) => {
                    assert_eq!(channels(a), channels(b))
                }
                (Call::TurnBack { .. }, Answer::Ranges { numbers: a, .. }, Answer::Ranges { numbers: b, .. }) => assert_eq!(a, b),
                _ => assert_eq!(mine, theirs, "{call:?}"),
            }
            let (a, b) = (Snapshot::of(&gap), Snapshot::of(&time));
            assert_eq!(channels(&all32(&a.point)), channels(&all32(&b.point)));
            let bare = |w: &Snapshot| {
                Snapshot { point: vec![0.0; w.point.len()], settings: Settings { mode: Mode::TimeAugmented, ..w.settings.clone() }, ..w.clone() }
                    .text()
            };
            assert_eq!(bare(&a), bare(&b));
            compared += 1;
        }
    }
    assert!(compared > 15_000, "{compared}");
}
