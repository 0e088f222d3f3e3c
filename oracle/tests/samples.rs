//! Document 01's sample readings, run on the Rust.
use oracle::bits::{all32, bits32};
use oracle::calls::{Answer, Call, Learn, Mode, Settings, NORMALIZE, WEIGHTED};
use oracle::common::deviation::Deviation;
use oracle::common::rangevector::RangeVector;
use oracle::reference::Reference;
use oracle::snapshot::{read, take_up, Room, ROOMY};
use oracle::trcf::transformer::WeightedTransformer;
use oracle::trcf::types::TransformMethod;

#[test]
fn statistics() {
    let mut s = Deviation::new(0.0).unwrap();
    s.update(3.0);
    s.update(5.0);
    assert_eq!((s.weight, s.sum, s.sum_squared, s.mean(), s.deviation()), (2.0, 8.0, 34.0, 4.0, 1.0));
    let mut s = Deviation::new(0.5).unwrap();
    s.update(4.0);
    s.update(1.0);
    assert_eq!((s.weight, s.sum, s.sum_squared, s.mean()), (1.5, 3.0, 9.0, 2.0));
    assert_eq!(s.deviation().to_bits(), 0x3ff6a09e667f3bcd);
}

#[test]
fn numbers() {
    assert_eq!(f64::from_bits(1).sqrt().to_bits(), 0x1e60000000000000);
    assert_eq!(9007199254740993u64 as f64, 9007199254740992.0);
    assert_eq!(9007199254740995u64 as f64, 9007199254740996.0);
    assert_eq!(16777217u64 as f32, 16777216.0);
    assert_eq!(16777219u64 as f32, 16777220.0);
}

#[test]
fn ranges() {
    let mut range = RangeVector::from(vec![1.0f32, 2.0, 3.0]);
    range.cascaded_add(&[10.0]).unwrap();
    assert_eq!(range.values, [11.0, 13.0, 16.0]);
    let mut range = RangeVector { values: vec![2.0f64], upper: vec![3.0], lower: vec![1.0] };
    range.scale(0, -1.0);
    assert_eq!((range.values[0], range.upper[0], range.lower[0]), (-2.0, -2.0, -2.0));
}

#[test]
fn weighted() {
    let t = WeightedTransformer::new(TransformMethod::WEIGHTED, 1, 0.0, &[2.0]).unwrap();
    assert_eq!(t.transform(&[3.0], &[0.0]), [6.0]);
    assert_eq!(t.invert(&[6.0], &[0.0]), [1.5]);
}

fn learn(value: f32, timestamp: u64) -> Call {
    let (point, expected) = (None, None);
    Call::Learn(Learn {
        input: vec![value],
        timestamp,
        point,
        grade: 0.0,
        relative_index: 0,
        expected,
        deviations_out: 9,
        past_out: 9,
        expected_out: 9,
    })
}

#[test]
fn drained_inputs() {
    let settings = Settings {
        mode: Mode::Standard,
        method: NORMALIZE,
        d: 1,
        k: 4,
        start: 2,
        stop: 9,
        decay: 0.0,
        weight_time: 1.0,
        weights: vec![1.0],
        codes: vec![0],
    };
    let mut p = Reference::build(&settings).unwrap();
    p.call(&learn(4.0, 1));
    p.call(&learn(6.0, 2));
    assert_eq!(p.call(&Call::Drain), Answer::Done);
    assert_eq!(p.rust.shingled_input(), [0.0, 4.0, 4.0, 6.0]);
    assert_eq!(p.call(&Call::Drain), Answer::No(15));
}

#[test]
fn time_element() {
    for (weight_time, expected) in [(1.0f32, 30.0f32), (2.0, -70.0)] {
        let dev = "dev\t0000000000000000\t0000000000000000\t0000000000000000\n".repeat(10);
        let weight = format!("{:08x}", bits32(weight_time));
        let text = format!(
            "set\tT\t{WEIGHTED}\t1\t1\t0\t9\t0000000000000000\t{weight}\nwgt\t3f800000\ncnt\t1\t1\t0\n{dev}inp\t00000000\npnt\t00000000\t00000000\ntim\t100\n"
        );
        let mut p = read(text.as_bytes()).unwrap().restore();
        let given = p.call(&Call::Transform { input: vec![5.0], timestamp: 130, out: 2 });
        assert_eq!(given, Answer::Numbers(all32(&[5.0, expected])));
    }
}

/// Request #113: the line of the codes, a text without it, and the order of rows 19, 27 and 20.
#[test]
fn codes() {
    let set = "set\tS\t0\t2\t1\t0\t9\t0000000000000000\t3f800000\nwgt\t3f800000\t3f800000\n";
    let dev = "dev\t0000000000000000\t0000000000000000\t0000000000000000\n".repeat(15);
    let rest = format!("cnt\t0\t0\t0\n{dev}inp\t00000000\t00000000\npnt\t00000000\t00000000\ntim\t0\n");
    let with = |line: &str| format!("{set}{line}{rest}");
    let refused = |text: &str, codes: &[u16], room: &Room| take_up(text.as_bytes(), codes, room).err().map(|r| (r.row, r.line));
    let lined = with("chn\t7\t65535\n");
    assert_eq!(read(lined.as_bytes()).unwrap().text(), lined);
    assert_eq!(read(with("").as_bytes()).unwrap().text(), with("chn\t0\t0\n"));
    assert_eq!(refused(&lined, &[7, 65535], &ROOMY), None);
    assert_eq!(refused(&with(""), &[0, 0], &ROOMY), None);
    for other in [&[7][..], &[7, 65535, 0], &[], &[7, 65534], &[65535, 7], &[0, 0]] {
        assert_eq!(refused(&lined, other, &[0; 6]), Some((27, 0)));
    }
    assert_eq!(refused(&lined, &[7, 65535], &[0; 6]), Some((20, 0)));
    for bad in ["chn\t7\t65536\n", "chn\t7\n", "chn\t7\t1\t0\n", "chn\t07\t1\n", "chn\t\t1\n", "chn\n", "chn\t7\t1 \n", "\n", "CHN\t7\t1\n"] {
        assert_eq!(refused(&with(bad), &[7, 1], &[0; 6]), Some((19, 3)));
    }
    for bad in ["chn\t7\t1\nchn\t7\t1\n", "cnt\t0\t0\t0\nchn\t7\t1\n", "cnt\t0\t0\t0\n"] {
        assert_eq!(refused(&with(bad), &[7, 1], &ROOMY), Some((19, 4)));
    }
    assert_eq!(refused(&format!("{set}chn\t7\t1\n"), &[7, 1], &ROOMY), Some((19, 4)));
    assert_eq!(refused(set, &[7, 1], &ROOMY), Some((19, 3)));
}
