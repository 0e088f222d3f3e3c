//! What the Rust itself does where a row refuses: the evidence for docs/DIFFERENCES.md. No row is asked here.
use oracle::calls::{Mode, Settings, DIFFERENCE, NONE, NORMALIZE, SUBTRACT_MA};
use oracle::common::descriptor::Descriptor;
use oracle::common::deviation::Deviation;
use oracle::common::rangevector::RangeVector;
use oracle::reference::rust_build;
use oracle::trcf::preprocessor::Preprocessor;
use std::panic::{catch_unwind, AssertUnwindSafe};

fn panics<T>(act: impl FnOnce() -> T) -> bool {
    catch_unwind(AssertUnwindSafe(|| drop(act()))).is_err()
}

fn built(mode: Mode, method: u8, d: u64, k: u64, start: u64, stop: u64) -> Preprocessor {
    let weights = vec![1.0; d as usize];
    let codes = vec![0; d as usize];
    rust_build(&Settings { mode, method, d, k, start, stop, decay: 0.1, weight_time: 1.0, weights, codes }).unwrap()
}

fn learn(p: &mut Preprocessor, input: &[f32], time: u64, y: &[f32]) -> bool {
    let mut result = Descriptor { rcf_point: Some(y.to_vec()), ..Default::default() };
    p.post_process(&mut result, input, time, &Descriptor::default()).is_ok()
}

#[test]
fn row_4_is_accepted() {
    built(Mode::Standard, NONE, 17, 65, 0, 9);
}

#[test]
fn row_6_of_create_is_accepted_and_18_too() {
    assert_eq!(Deviation::create(1.5, 0.0, 0.0, 0.0, -1).count, -1);
}

#[test]
fn row_10_of_learn() {
    // While waiting the input is kept as it is, and the drain then fails.
    let mut p = built(Mode::Standard, NORMALIZE, 2, 2, 1, 9);
    assert!(learn(&mut p, &[1.0], 1, &[0.0; 4]));
    assert!(p.drain(None).is_err());
    // Past it, an error below stop; from stop on it is shifted in by its own length, or panics where it is longer than the shingle.
    let mut p = built(Mode::Standard, NONE, 2, 2, 0, 1);
    assert!(!learn(&mut p, &[1.0], 1, &[0.0; 4]));
    assert!(learn(&mut p, &[1.0, 2.0], 1, &[0.0; 4]));
    assert!(learn(&mut p, &[3.0], 2, &[0.0; 4]));
    assert_eq!(p.shingled_input(), [0.0, 1.0, 2.0, 3.0]);
    assert!(panics(|| learn(&mut p, &[1.0; 5], 3, &[0.0; 4])));
}

#[test]
fn row_10_of_transform() {
    let p = built(Mode::Standard, DIFFERENCE, 2, 1, 0, 9);
    assert_eq!(p.transform(&[3.0], 1).len(), 1);
    let p = built(Mode::Standard, SUBTRACT_MA, 1, 1, 0, 9);
    assert_eq!(p.transform(&[3.0, 4.0], 1).len(), 2);
    assert!(panics(|| p.transform(&[0.0; 6], 1)));
}

#[test]
fn row_11_of_learn_is_accepted() {
    let mut p = built(Mode::Standard, NONE, 1, 1, 0, 9);
    assert!(learn(&mut p, &[f32::INFINITY], 1, &[0.0]));
    assert!(p.all_statistics().next().unwrap().sum.is_infinite());
}

#[test]
fn row_12_panics() {
    let mut p = built(Mode::Standard, NONE, 1, 1, 0, 9);
    assert!(learn(&mut p, &[1.0], 10, &[0.0]));
    assert!(panics(|| learn(&mut p, &[1.0], 9, &[0.0])));
}

#[test]
fn row_13_copies_the_shorter_part() {
    let mut p = built(Mode::Standard, NONE, 1, 3, 0, 9);
    assert!(learn(&mut p, &[1.0], 1, &[7.0]));
    assert_eq!(p.kept_point(), [7.0, 0.0, 0.0]);
    assert!(learn(&mut p, &[1.0], 2, &[]));
}

#[test]
fn rows_13_and_14_panic_with_a_grade() {
    for (relative_index, expected) in [(1, 2), (-2, 2), (i32::MAX, 2), (i32::MIN, 2), (0, 1)] {
        let mut p = built(Mode::Standard, NONE, 1, 2, 0, 9);
        let mut result = Descriptor {
            rcf_point: Some(vec![0.0; 2]),
            anomaly_grade: 1.0,
            relative_index,
            expected_rcf_point: Some(vec![0.0; expected]),
            ..Default::default()
        };
        assert!(panics(|| p.post_process(&mut result, &[1.0], 1, &Descriptor::default())), "{relative_index} {expected}");
    }
    assert!(panics(|| RangeVector::from(vec![1.0f32]).shift(1, 1.0)));
}

#[test]
fn row_15_panics() {
    for method in [NONE, NORMALIZE] {
        let mut p = built(Mode::Standard, method, 1, 1, 0, 9);
        assert!(panics(|| p.drain(None)));
    }
}

fn lists(values: usize, upper: usize, lower: usize) -> RangeVector<f32> {
    RangeVector { values: vec![1.0; values], upper: vec![1.0; upper], lower: vec![1.0; lower] }
}

#[test]
fn row_16() {
    let p = built(Mode::Standard, DIFFERENCE, 2, 1, 0, 9);
    assert!(panics(|| p.invert_extrapolation(lists(0, 0, 0))));
    assert!(panics(|| p.invert_extrapolation(lists(2, 1, 2))));
    assert!(p.invert_extrapolation(lists(3, 3, 3)).is_err());
    assert!(p.invert_extrapolation(lists(2, 3, 3)).is_ok());
    for method in [NONE, DIFFERENCE] {
        let p = built(Mode::TimeAugmented, method, 1, 2, 0, 9);
        assert!(panics(|| p.invert_extrapolation(lists(3, 3, 3))));
    }
    // A broken list is an error of the transformer after its scales and shifts were made.
    let mut range = lists(3, 3, 3);
    assert!(range.cascaded_add(&[1.0, 1.0]).is_err());
    assert!(range.cascaded_add(&[]).is_err());
    assert!(panics(|| lists(0, 0, 0).cascaded_add(&[1.0])));
}

#[test]
fn row_18_panics() {
    for discount in [0.0, 0.5] {
        let mut s = Deviation::create(discount, 1.0, 1.0, 1.0, i32::MAX);
        assert!(panics(|| s.update(1.0)));
    }
    // With a discount the last count but one is already too large for count + 2.
    assert!(panics(|| Deviation::create(0.5, 1.0, 1.0, 1.0, 2_147_483_646).update(1.0)));
    Deviation::create(0.5, 1.0, 1.0, 1.0, 2_147_483_645).update(1.0);
}

/// The Rust keeps an old anomaly in the descriptor that it was handed.
#[test]
fn an_old_anomaly_stays() {
    let mut p = built(Mode::Standard, NONE, 1, 1, 0, 9);
    let mut result = Descriptor { rcf_point: Some(vec![0.0]), anomaly_grade: 1.0, expected_rcf_point: Some(vec![0.0]), ..Default::default() };
    p.post_process(&mut result, &[1.0], 1, &Descriptor::default()).unwrap();
    assert_eq!(result.last_anomaly.as_ref().unwrap().likelihood_of_values, [1.0]);
    result.anomaly_grade = 0.0;
    p.post_process(&mut result, &[1.0], 2, &Descriptor::default()).unwrap();
    assert!(result.last_anomaly.is_some());
}
