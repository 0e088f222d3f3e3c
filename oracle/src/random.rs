//! Seeded generators of settings and calls: the same seed gives the same list.
use crate::calls::*;

/// SplitMix64.
#[derive(Clone)]
pub struct Random(u64);

impl Random {
    pub fn new(seed: u64) -> Random {
        Random(seed)
    }

    pub fn next(&mut self) -> u64 {
        self.0 = self.0.wrapping_add(0x9e37_79b9_7f4a_7c15);
        let mut z = self.0;
        z = (z ^ (z >> 30)).wrapping_mul(0xbf58_476d_1ce4_e5b9);
        z = (z ^ (z >> 27)).wrapping_mul(0x94d0_49bb_1331_11eb);
        z ^ (z >> 31)
    }

    /// Another generator, which takes nothing from this one's numbers.
    pub fn aside(&self, key: u64) -> Random {
        Random(Random(self.0 ^ key.wrapping_mul(0xd134_2543_de82_ef95)).next())
    }

    /// Below `n`.
    pub fn below(&mut self, n: u64) -> u64 {
        self.next() % n
    }

    /// From `a` to `b`, both among them.
    pub fn from(&mut self, a: u64, b: u64) -> u64 {
        a + self.below(b - a + 1)
    }

    /// True once in `n` times.
    pub fn once_in(&mut self, n: u64) -> bool {
        self.below(n) == 0
    }

    pub fn pick<T: Copy>(&mut self, list: &[T]) -> T {
        list[self.below(list.len() as u64) as usize]
    }

    /// Any f32, every not-a-number the canonical one.
    pub fn any32(&mut self) -> f32 {
        f32::from_bits(crate::bits::bits32(f32::from_bits(self.next() as u32)))
    }

    pub fn any64(&mut self) -> f64 {
        f64::from_bits(crate::bits::bits64(f64::from_bits(self.next())))
    }

    pub fn finite32(&mut self) -> f32 {
        loop {
            let x = self.any32();
            if x.is_finite() {
                return x;
            }
        }
    }

    /// Small whole numbers, quarters, large ones that overflow when subtracted or squared, subnormals, signed zeros, any bits.
    pub fn value32(&mut self) -> f32 {
        match self.below(12) {
            0..=3 => self.from(0, 20) as f32 - 10.0,
            4..=6 => self.from(0, 4000) as f32 / 16.0 - 100.0,
            7 => self.pick(&[0.0, -0.0, 1.0, -1.0, 0.1]),
            8 => self.pick(&[f32::MAX, f32::MIN, 3.0e38, -3.0e38, 1.0e20, -1.0e20]),
            9 => self.pick(&[1.0e-45, -1.0e-45, 1.0e-40, f32::MIN_POSITIVE, 1.0e-20]),
            10 => self.from(0, 1 << 24) as f32 * 0.001,
            _ => self.finite32(),
        }
    }

    /// As `value32`, with infinities and not-a-numbers among them.
    pub fn wild32(&mut self) -> f32 {
        match self.below(10) {
            0 => self.pick(&[f32::INFINITY, f32::NEG_INFINITY, f32::NAN]),
            1 => self.any32(),
            _ => self.value32(),
        }
    }

    pub fn wild64(&mut self) -> f64 {
        match self.below(12) {
            0 => self.pick(&[f64::INFINITY, f64::NEG_INFINITY, f64::NAN]),
            1 => self.any64(),
            2 => self.pick(&[f64::MAX, f64::MIN, 1.0e200, -1.0e160]),
            3 => self.pick(&[5.0e-324, -5.0e-324, 1.0e-310, f64::MIN_POSITIVE, 1.0e-160]),
            4 => self.pick(&[0.0, -0.0, 0.1]),
            5 | 6 => self.value32() as f64,
            7 => self.next() as f64,
            _ => self.from(0, 200) as f64 / 8.0 - 10.0,
        }
    }

    pub fn list32(&mut self, n: usize, one: fn(&mut Random) -> f32) -> Vec<f32> {
        (0..n).map(|_| one(self)).collect()
    }

    /// A discount or decay that row 6 accepts.
    pub fn decay(&mut self) -> f64 {
        match self.below(8) {
            0 => 0.0,
            1 => self.pick(&[-0.0, 5.0e-324, 1.0e-300, 1.0e-17]),
            2 => self.pick(&[0.999_999_999_999_999_9, 0.99, 0.9]),
            3 => 0.5,
            4 => 0.001,
            5 => self.pick(&[0.1, 0.01, 0.25]),
            _ => (self.next() >> 11) as f64 / (1u64 << 53) as f64,
        }
    }

    pub fn weight(&mut self) -> f32 {
        match self.below(8) {
            0 => self.pick(&[0.0, -0.0]),
            1 => self.pick(&[f32::INFINITY, f32::NEG_INFINITY, f32::NAN, 1.0e-45, -1.0e-40]),
            2 => -self.pick(&[1.0, 2.0, 0.5]),
            3 => self.any32(),
            _ => self.pick(&[1.0, 2.0, 0.5, 3.0, 0.1]),
        }
    }
}

/// How large settings may get, or with `exact` how many channels and how long a shingle they have.
#[derive(Clone, Copy)]
pub struct Sizes {
    pub d: u64,
    pub k: u64,
    pub start: u64,
    pub exact: bool,
}

pub const FULL: Sizes = Sizes { d: 16, k: 64, start: 12, exact: false };

/// Settings that no row refuses.
pub fn settings(r: &mut Random, sizes: Sizes) -> Settings {
    let method = if r.once_in(2) { r.from(4, 5) } else { r.below(6) } as u8;
    let d = if r.once_in(6) { r.from(1, sizes.d) } else { r.from(1, sizes.d.min(3)) };
    let k = match r.below(24) {
        0 => sizes.k,
        1 => r.from(1, sizes.k),
        2..=6 => 1,
        _ => r.from(1, sizes.k.min(6)),
    };
    let (d, k) = if sizes.exact { (sizes.d, sizes.k) } else { (d, k) };
    let start = if r.once_in(8) { r.from(0, sizes.start) } else { r.from(0, sizes.start.min(4)) };
    let stop = match r.below(4) {
        0 => start,
        1 => start + r.from(0, 4),
        2 => start + r.from(1, 12),
        _ => r.pick(&[u64::MAX, 1 << 63, 1000]).max(start),
    };
    let weights = (0..d).map(|_| if method == NONE { 1.0 } else { r.weight() }).collect();
    let weight_time = if r.once_in(2) { 1.0 } else { r.weight() };
    let mode = if r.once_in(2) { Mode::Standard } else { Mode::TimeAugmented };
    let decay = r.decay();
    let codes = codes(r, d as usize);
    Settings { mode, method, d, k, start, stop, decay, weight_time, weights, codes }
}

/// The same settings in mode G (request #114), which no generator gives by itself: a seed's settings are those that it gave before there was the mode.
pub fn gapped(settings: Settings) -> Settings {
    Settings { mode: Mode::GapAugmented, ..settings }
}

/// A third of them in mode G. Takes nothing from the generator.
pub fn any_mode(r: &Random, settings: Settings) -> Settings {
    if r.aside(114).once_in(3) {
        gapped(settings)
    } else {
        settings
    }
}

/// `n` codes, a third of the lists zeros throughout. They take nothing from the generator's own numbers, so that a seed's settings and calls
/// are those that it gave before there were codes.
pub fn codes(r: &Random, n: usize) -> Vec<u16> {
    let r = &mut r.aside(113);
    let zeros = r.once_in(3);
    (0..n).map(|_| if zeros { 0 } else { r.code() }).collect()
}

/// Codes that taking up expects: the text's own, or others in one value or in number. They too take nothing from the generator.
pub fn expected_codes(r: &Random, own: &[u16]) -> Vec<u16> {
    let r = &mut r.aside(27);
    let mut codes = own.to_vec();
    match r.below(20) {
        0 => {
            codes.pop();
        }
        1 => codes.push(0),
        2 => codes.push(r.code()),
        3 => codes.clear(),
        4 | 5 => {
            let at = r.below(own.len() as u64) as usize;
            codes[at] = codes[at].wrapping_add(r.pick(&[1, 65535, 256, 32768]));
        }
        6 => codes.iter_mut().for_each(|c| *c = 0),
        7 => codes.reverse(),
        _ => {}
    }
    codes
}

/// Settings of which most meet one row or more, 1 to 9.
pub fn bad_settings(r: &mut Random, sizes: Sizes) -> Settings {
    let mut s = settings(r, sizes);
    spoil_codes(r, &mut s);
    for _ in 0..r.from(1, 2) {
        match r.below(10) {
            0 => s.mode = Mode::StreamingImpute,
            1 => s.d = 0,
            2 => s.k = 0,
            3 => s.d = r.pick(&[17, 18, 40]),
            4 => s.k = r.pick(&[65, 100]),
            5 => s.weights = r.list32_of_length(0, 17),
            6 => s.decay = r.pick(&[1.0, -0.001, -5.0e-324, f64::NAN, f64::INFINITY, f64::NEG_INFINITY, 1.000_000_000_000_000_2, 2.0]),
            7 => s.stop = s.start.saturating_sub(1),
            8 => {
                s.start = r.pick(&[1999, 2000, 2001, u64::MAX]);
                s.stop = u64::MAX;
            }
            _ => {
                s.method = NONE;
                s.weights.iter_mut().for_each(|w| *w = 1.0);
                if let Some(w) = s.weights.last_mut() {
                    *w = r.pick(&[2.0, 1.000_000_1, f32::NAN, -1.0, 1.0]);
                }
            }
        }
    }
    s
}

/// One list of codes in four is most likely not d long.
fn spoil_codes(r: &Random, s: &mut Settings) {
    let r = &mut r.aside(5);
    if r.once_in(4) {
        let n = r.pick(&[0, s.d - 1, s.d + 1, 16, 17]);
        s.codes = (0..n).map(|_| r.code()).collect();
    }
}

impl Random {
    /// A channel's code: the ends, the small ones, any.
    pub fn code(&mut self) -> u16 {
        match self.below(5) {
            0 => 0,
            1 => 65535,
            2 => self.from(1, 12) as u16,
            3 => self.pick(&[255, 256, 32767, 32768, 65534, 10, 9999, 10000]),
            _ => self.next() as u16,
        }
    }

    fn list32_of_length(&mut self, a: u64, b: u64) -> Vec<f32> {
        let n = self.from(a, b) as usize;
        self.list32(n, |r| r.pick(&[1.0, 1.0, 1.0, 2.0]))
    }
}

/// A maker of one list of calls: it keeps the time that runs, the last point given, and how often each call comes.
pub struct Calls {
    pub settings: Settings,
    pub last_point: Option<Vec<f32>>,
    time: u64,
    shares: [u64; 8],
    /// One call in this many gets a fault.
    faults: u64,
    wild: bool,
}

impl Calls {
    pub fn new(r: &mut Random, settings: &Settings) -> Calls {
        // Without points, only drains stand between the initial values and a learned one: they can be stranded.
        let shares = match r.below(5) {
            0 => [0, 12, 1, 1, 1, 1, 1, 1],
            1 => [0, 12, 0, 1, 1, 1, 1, 1],
            2 => [8, 8, 4, 1, 1, 1, 1, 1],
            3 => [6, 12, 1, 1, 2, 1, 1, 1],
            _ => [2, 3, 1, 1, 1, 1, 1, 1],
        };
        let time = match r.below(10) {
            0 => r.pick(&[1 << 53, (1 << 63) - 2, 1 << 63, u64::MAX - 40, (1 << 24) + 1]),
            1 => r.next() >> r.from(1, 63),
            2 => 0,
            _ => r.from(0, 200),
        };
        Calls { settings: settings.clone(), last_point: None, time, shares, faults: r.pick(&[4, 8, 30, 1000]), wild: r.once_in(3) }
    }

    fn timestamp(&mut self, r: &mut Random) -> u64 {
        match r.below(12) {
            0 => self.time.saturating_sub(r.from(1, 30)),
            1 => self.time,
            2 if r.once_in(20) => r.next(),
            _ => {
                self.time = self.time.saturating_add(if r.once_in(30) { r.from(0, 1 << 40) } else { r.from(0, 20) });
                self.time
            }
        }
    }

    fn faulty(&self, r: &mut Random) -> bool {
        r.once_in(self.faults)
    }

    fn input(&self, r: &mut Random) -> Vec<f32> {
        let d = self.settings.d as usize;
        if self.faulty(r) {
            return match r.below(4) {
                0 => r.list32(d - 1, Random::value32),
                1 => r.list32(d + 1, Random::value32),
                2 => Vec::new(),
                _ => {
                    let mut list = r.list32(d, Random::value32);
                    let at = r.below(d as u64) as usize;
                    list[at] = r.pick(&[f32::INFINITY, f32::NEG_INFINITY, f32::NAN]);
                    list
                }
            };
        }
        if self.wild {
            r.list32(d, Random::value32)
        } else {
            r.list32(d, |r| r.from(0, 400) as f32 / 4.0)
        }
    }

    /// A list as long as `get_dimension`, with not-a-numbers and infinities at times.
    fn forest_point(&self, r: &mut Random) -> Vec<f32> {
        let n = self.settings.dimension();
        if self.faulty(r) {
            let n = r.pick(&[0, n - 1, n + 1]);
            return r.list32(n, Random::value32);
        }
        match &self.last_point {
            Some(point) if r.once_in(2) => point.clone(),
            _ if r.once_in(3) => r.list32(n, Random::wild32),
            _ => r.list32(n, Random::value32),
        }
    }

    /// The length of a lent output that needs `n`.
    fn out(&self, r: &mut Random, n: usize) -> usize {
        if n > 0 && self.faulty(r) {
            r.pick(&[0, n - 1])
        } else {
            n + if r.once_in(3) { r.below(4) as usize } else { 0 }
        }
    }

    fn learn(&mut self, r: &mut Random) -> Call {
        let s = &self.settings;
        let (k, d, width) = (s.k as i64, s.d as usize, s.width());
        let point = if r.once_in(5) { None } else { Some(self.forest_point(r)) };
        let expected = if r.once_in(2) { None } else { Some(self.forest_point(r)) };
        let grade = r.pick(&[0.0, 0.0, 0.5, 1.0, f32::NAN, -1.0, -0.0, f32::INFINITY, 1.0e-45]);
        let relative_index = match r.below(8) {
            _ if self.faulty(r) => r.pick(&[1, -k as i32, i32::MAX, i32::MIN, 2]),
            0..=2 => 0,
            3 => (1 - k) as i32,
            _ => -(r.below(k as u64) as i32),
        };
        let outs = [self.out(r, width), self.out(r, d), self.out(r, d)];
        Call::Learn(Learn {
            input: self.input(r),
            timestamp: self.timestamp(r),
            point,
            grade,
            relative_index,
            expected,
            deviations_out: outs[0],
            past_out: outs[1],
            expected_out: outs[2],
        })
    }

    fn turn_back(&self, r: &mut Random) -> Call {
        let s = &self.settings;
        let (d, dimension) = (s.d as usize, s.dimension());
        let block = if s.timed() { dimension } else { d };
        let most = if block > 40 { 2 } else { 5 };
        let n = match r.below(6) {
            0 => 0,
            1 => r.below(block as u64 * 3) as usize,
            2 => block - 1,
            _ => block * r.from(1, most) as usize,
        };
        let values = r.list32(n, Random::wild32);
        let tame = r.once_in(2);
        let mut bound = |sign: f32| -> Vec<f32> {
            if tame {
                values.iter().map(|v| v + sign * r.from(0, 5) as f32).collect()
            } else {
                r.list32(n, Random::wild32)
            }
        };
        let (mut upper, mut lower) = (bound(1.0), bound(-1.0));
        if self.faulty(r) {
            if r.once_in(2) {
                upper.push(1.0)
            } else {
                lower.truncate(n.saturating_sub(1))
            }
        }
        let blocks = n / dimension;
        let numbers = blocks * (s.d * s.k) as usize;
        let mut outs = [numbers, numbers, numbers, blocks, blocks, blocks];
        for o in outs.iter_mut() {
            if r.once_in(3) {
                *o = self.out(r, *o);
            }
        }
        Call::TurnBack { values, upper, lower, outs }
    }

    pub fn next(&mut self, r: &mut Random) -> Call {
        let mut at = r.below(self.shares.iter().sum());
        let mut kind = 0;
        while at >= self.shares[kind] {
            at -= self.shares[kind];
            kind += 1;
        }
        let (width, dimension) = (self.settings.width(), self.settings.dimension());
        match kind {
            0 => Call::Point { input: self.input(r), timestamp: self.timestamp(r), out: self.out(r, dimension) },
            1 => self.learn(r),
            2 => Call::Drain,
            3 => {
                let mut input = self.input(r);
                if self.wild {
                    input.iter_mut().for_each(|x| *x = if r.once_in(4) { r.wild32() } else { *x });
                }
                Call::Transform { input, timestamp: self.timestamp(r), out: self.out(r, width) }
            }
            4 => self.turn_back(r),
            5 => Call::Scale { out: self.out(r, width) },
            6 => Call::Shift { out: self.out(r, width) },
            _ => Call::Status { out: self.out(r, width) },
        }
    }
}
