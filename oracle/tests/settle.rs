//! The settling program of request #106: what it prints, and what it refuses in which order (READINGS-02, 43 to 47).
use oracle::settle::{run, Signal};

fn set(mode: &str, method: u64, d: u64, k: u64, start: u64) -> String {
    format!("set\t{mode}\t{method}\t{d}\t{k}\t{start}\t2000\t0000000000000000\t3f800000\n")
}

fn pair(mode: &str, method: u64, k: u64, start: u64, weight: &str) -> String {
    set(mode, method, 1, k, start) + "wgt\t" + weight + "\n"
}

const ONE: &str = "3f800000";

/// NONE in mode S: the last element is the reading itself.
#[test]
fn the_largest_and_the_first_ready() {
    // 1, 3, 5, 7
    let signal = "sig\t1\t2\t0\t0\t0\t4\n";
    assert_eq!(run((pair("S", 0, 1, 0, ONE) + signal).as_bytes()), "1\t0\t40e00000\n");
    // k 3 is ready after reading 2, k 4 after 3, k 5 never
    for (k, ready) in [(3, 2), (4, 3), (5, 4)] {
        assert_eq!(run((pair("S", 0, k, 0, ONE) + signal).as_bytes()), format!("1\t{ready}\t40e00000\n"));
    }
    // NORMALIZE: start 2 waits for readings 0 and 1; reading 2 drains both, so that its learn is the third
    assert_eq!(run((pair("S", 4, 3, 2, ONE) + signal).as_bytes()).split('\t').nth(1), Some("2"));
    // start 4: the fourth reading completes it, and no point is given
    assert_eq!(run((pair("S", 4, 1, 4, ONE) + signal).as_bytes()), "1\t4\t-\n");
    assert_eq!(run((pair("S", 4, 1, 1999, ONE) + "sig\t1\t2\t0\t0\t0\t1000\n").as_bytes()), "1\t1000\t-\n");
}

/// In T the element is the time: i − the time before × weight_time / timescale; reading 0 has 0 − 0 × 1 / 1.
#[test]
fn the_element_of_time() {
    // times 0, 1, 2: gaps all 1 but the first; one reading gives 0
    assert_eq!(run((pair("T", 0, 1, 0, ONE) + "sig\t9\t0\t0\t0\t0\t1\n").as_bytes()), "1\t0\t00000000\n");
    assert_eq!(run((pair("G", 0, 1, 0, ONE) + "sig\t9\t0\t0\t0\t0\t1\n").as_bytes()), "1\t0\t00000000\n");
    // the second: gap 1 over a timescale of 1, its one reading fed having no deviation
    assert_eq!(run((pair("G", 0, 1, 0, ONE) + "sig\t9\t0\t0\t0\t0\t2\n").as_bytes()), "1\t0\t3f800000\n");
}

#[test]
fn equal_ones_and_not_a_numbers() {
    // −0 × 5 = −0 at first, then −0 × −5 = 0
    assert_eq!(run((pair("S", 1, 1, 0, "80000000") + "sig\t5\t0\t0\t-10\t1\t3\n").as_bytes()), "1\t0\t80000000\n");
    assert_eq!(run((pair("S", 1, 1, 0, "80000000") + "sig\t-5\t0\t0\t10\t1\t3\n").as_bytes()), "1\t0\t00000000\n");
    // ∞ × 0 is passed over, ∞ × 1 is kept
    assert_eq!(run((pair("S", 1, 1, 0, "7f800000") + "sig\t0\t0\t0\t1\t2\t3\n").as_bytes()), "1\t0\t7f800000\n");
    assert_eq!(run((pair("S", 1, 1, 0, "7fc00000") + "sig\t0\t0\t0\t1\t2\t3\n").as_bytes()), "1\t0\t-\n");
}

#[test]
fn readings_of_the_signal() {
    let s = Signal::read(b"sig\t10\t-3\t100\t-1000\t4\t6").unwrap();
    assert_eq!((0..6).map(|i| s.reading(i)).collect::<Vec<_>>(), [10.0, 107.0, 4.0, 101.0, -1002.0, -905.0]);
    for good in ["-1000", "1000", "0", "-1"] {
        assert!(Signal::read(format!("sig\t{good}\t{good}\t{good}\t{good}\t0\t1").as_bytes()).is_some());
    }
    for bad in ["-0", "01", "-01", "1001", "-1001", "+1", "", "-", "1 "] {
        for place in 0..6 {
            let mut f = ["1", "1", "1", "1", "1", "1"];
            f[place] = bad;
            assert_eq!(Signal::read(format!("sig\t{}", f.join("\t")).as_bytes()), None, "{bad} {place}");
        }
    }
    for (place, n, good) in [(0, 1, true), (1000, 1000, true), (1001, 1, false), (0, 0, false), (0, 1001, false)] {
        assert_eq!(Signal::read(format!("sig\t0\t0\t0\t0\t{place}\t{n}").as_bytes()).is_some(), good);
    }
    assert_eq!(Signal::read(b"sig\t1\t1\t1\t1\t-1\t1"), None);
    assert_eq!(Signal::read(b"sig\t1\t1\t1\t1\t1\t-1"), None);
}

#[test]
fn refusals_and_their_order() {
    let good = "sig\t1\t2\t0\t0\t0\t4\n";
    let p = pair("S", 0, 1, 0, ONE);
    let two = set("S", 0, 2, 1, 0) + "wgt\t3f800000\t3f800000\n";
    let refused = |text: String| run(text.as_bytes());
    let cases: [(String, u8); 26] = [
        (String::new(), 23),
        (good.to_string(), 23),
        ("sig\n".to_string(), 23),
        (p.clone(), 23),
        ("set".to_string(), 19),
        (set("S", 0, 1, 1, 0), 19),
        (set("S", 0, 1, 1, 0) + "wgt\t3f800000", 19),
        (set("S", 0, 1, 1, 0) + good, 19),
        (p.clone() + "set", 19),
        (p.clone() + &good[..good.len() - 1], 23),
        (p.clone() + good + "\n", 23),
        (p.clone() + good + "x", 23),
        (p.clone() + good + &p, 23),
        (two.clone() + good, 23),
        (set("S", 0, 2, 1, 0) + "wgt\t3f800000\n" + good, 5),
        (set("S", 0, 2, 1, 0) + "wgt\t3f800000\t40000000\n" + good, 9),
        (two.clone() + "set\n", 23),
        (set("S", 0, 0, 1, 0) + "wgt\tx\n" + &two, 19),
        (set("S", 0, 0, 1, 0) + "wgt\n" + &two, 2),
        (set("S", 4, 1, 1, 2000) + "wgt\t3f800000\n" + good, 8),
        (p.repeat(9) + good, 23),
        (p.repeat(8) + "set", 23),
        (p.repeat(8) + "set\tx\n" + good, 23),
        (p.repeat(7) + &set("S", 0, 0, 1, 0) + "wgt\n" + &p + good, 2),
        (p.repeat(8) + &set("S", 0, 0, 1, 0) + "wgt\n" + good, 23),
        (p.clone() + "sig\tx\n", 23),
    ];
    for (text, row) in cases {
        assert_eq!(refused(text.clone()), format!("no\t{row}\n"), "{text}");
    }
    assert_eq!(run((p.repeat(8) + good).as_bytes()).lines().count(), 8);
}
