//! Where the written rule stands in the Rust's place (request #101): below the Rust's last count both agree, so that nothing but the width of the count is another.
use oracle::calls::{Answer, Call, COUNT_LIMIT};
use oracle::common::deviation::Deviation;
use oracle::counts::{held, written, RUST_COUNT};
use oracle::random::{settings, Calls, Random, FULL};
use oracle::reference::Reference;
use oracle::snapshot::Snapshot;
use oracle::texts::{far_decay, snapshot, undrained};

fn bits(s: &Deviation) -> [u64; 3] {
    [s.weight, s.sum, s.sum_squared].map(oracle::bits::bits64)
}

/// One update by the Rust and by the written rule, at counts up to the Rust's last one.
#[test]
fn the_written_rule_is_the_rusts() {
    let mut r = Random::new(101);
    for n in 0..200_000 {
        let count = match n % 4 {
            0 => RUST_COUNT - 1 - r.below(8),
            1 => r.below(RUST_COUNT),
            _ => r.below(1000),
        };
        let discount = if n % 3 == 0 { r.wild64() } else { far_decay(&mut r, count) };
        let mut a = Deviation::create(discount, r.wild64(), r.wild64(), r.wild64(), held(count));
        let mut b = a.clone();
        let score = r.wild64();
        a.update(score);
        written(&mut b, count, score);
        assert_eq!((bits(&a), a.count), (bits(&b), b.count), "{discount} {count} {score}");
    }
}

/// Lists of calls in which every feeding is taken out of the Rust's hands, against the Rust.
#[test]
fn feeding_is_the_rusts() {
    let mut fed = 0;
    for list in 0..6_000 {
        let mut r = Random::new(0x101_0000 + list);
        let mut rust = match list % 3 {
            0 => Reference::build(&settings(&mut r, FULL)).unwrap(),
            kind => {
                let mut w = if kind == 1 { snapshot(&mut r, FULL) } else { undrained(&mut r, FULL) };
                w.count = w.count.min(RUST_COUNT - 100);
                w.restore()
            }
        };
        let mut other = rust.clone();
        let mut maker = Calls::new(&mut r, &rust.settings);
        for _ in 0..r.from(0, 16) {
            let call = maker.next(&mut r);
            let answer = rust.call(&call);
            if let (Call::Point { .. }, Answer::Numbers(point)) = (&call, &answer) {
                maker.last_point = Some(point.iter().map(|&b| f32::from_bits(b)).collect());
            }
            let n = if answer.row() == 0 { other.feeds(&call) } else { 0 };
            fed += n;
            if n > 0 {
                assert_eq!(other.call_past(&call), answer);
                other.count += n;
            } else {
                assert_eq!(other.call(&call), answer);
            }
            assert_eq!(Snapshot::of(&rust).text(), Snapshot::of(&other).text());
        }
    }
    assert!(fed > 5_000, "{fed} readings fed");
}

/// Across the Rust's last count, where the Rust itself would panic, and up to the limit.
#[test]
fn fed_across_both() {
    for (first, last, feeds) in [(RUST_COUNT - 3, RUST_COUNT + 3, 6), (COUNT_LIMIT - 3, COUNT_LIMIT, 3)] {
        let mut w = snapshot(&mut Random::new(1), FULL);
        let k = w.settings.k as usize;
        (w.settings.start, w.settings.stop, w.values_seen, w.internal, w.times, w.count) = (0, u64::MAX, 5, 5, vec![0; k], first);
        w.initial.clear();
        let mut reference = w.restore();
        let (d, dimension, width) = (w.settings.d as usize, w.settings.dimension(), w.settings.width());
        let learn = Call::Learn(oracle::calls::Learn {
            input: vec![1.0; d],
            timestamp: 1,
            point: Some(vec![0.0; dimension]),
            grade: 0.0,
            relative_index: 0,
            expected: None,
            deviations_out: width,
            past_out: 0,
            expected_out: 0,
        });
        for n in 0..6 {
            assert_eq!(reference.call(&learn).row(), if n < feeds { 0 } else { 18 });
        }
        assert_eq!(reference.count(), last);
    }
}
