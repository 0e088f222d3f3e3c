//! The settling program of request #106 over the Rust (mode G by the written rule): the whole input to the whole output.
use crate::bench::{head, learn};
use crate::bits::hex32;
use crate::calls::{Answer, Call, Settings};
use crate::reference::Reference;
use crate::snapshot::{fields, whole};

const MOST_PAIRS: usize = 8;
const LARGEST: u64 = 1000;

/// The made-up engine: base, ramp, ripple, jump, jump place, readings n.
#[derive(Clone, Copy, Debug, PartialEq)]
pub struct Signal {
    pub base: i64,
    pub ramp: i64,
    pub ripple: i64,
    pub jump: i64,
    pub place: u64,
    pub n: u64,
}

/// A whole number of size at most 1,000, "with a minus sign if negative".
fn signed(field: &[u8]) -> Option<i64> {
    let (sign, digits) = field.strip_prefix(b"-").map_or((1, field), |digits| (-1, digits));
    let size = whole(digits).filter(|&n| n <= LARGEST)? as i64;
    (sign > 0 || size > 0).then_some(sign * size)
}

impl Signal {
    /// "one line `sig`: base, ramp, ripple, jump, jump place, readings n (1 to 1,000)"; nothing where it is of another form or outside the limits.
    pub fn read(line: &[u8]) -> Option<Signal> {
        let f = fields(line, "sig").filter(|f| f.len() == 6)?;
        Some(Signal {
            base: signed(f[0])?,
            ramp: signed(f[1])?,
            ripple: signed(f[2])?,
            jump: signed(f[3])?,
            place: whole(f[4]).filter(|&p| p <= LARGEST)?,
            n: whole(f[5]).filter(|&n| 1 <= n && n <= LARGEST)?,
        })
    }

    /// "Reading i, from 0, is base + ramp × i, plus ripple if i is odd, plus jump if i ≥ the place".
    pub fn reading(&self, i: u64) -> f32 {
        let mut x = self.base + self.ramp * i as i64;
        if i % 2 == 1 {
            x += self.ripple;
        }
        if i >= self.place {
            x += self.jump;
        }
        assert_eq!(x as f32 as i64, x, "exact as f32");
        x as f32
    }
}

/// Takes a line off the input: its bytes, or None where its LF is missing.
fn line<'a>(rest: &mut &'a [u8]) -> Option<&'a [u8]> {
    let end = rest.iter().position(|&b| b == b'\n')?;
    let line = &rest[..end];
    *rest = &rest[end + 1..];
    Some(line)
}

/// Whether the first field of what stands next is `set`.
fn begins_pair(rest: &[u8]) -> bool {
    rest.split(|&b| b == b'\t' || b == b'\n').next() == Some(b"set")
}

/// The settings of all pairs and the signal, or the number that refuses the input.
pub fn read(input: &[u8]) -> Result<(Vec<Settings>, Signal), u8> {
    let mut rest = input;
    let mut pairs = Vec::new();
    while begins_pair(rest) {
        if pairs.len() == MOST_PAIRS {
            return Err(23);
        }
        let (set, wgt) = (line(&mut rest), line(&mut rest));
        let settings = head(set, wgt).ok_or(19)?;
        match settings.row() {
            0 if settings.d != 1 => return Err(23),
            0 => pairs.push(settings),
            row => return Err(row),
        }
    }
    let signal = line(&mut rest).and_then(Signal::read).ok_or(23)?;
    if pairs.is_empty() || !rest.is_empty() {
        return Err(23);
    }
    Ok((pairs, signal))
}

/// "the index of the first reading after which the watch is ready (n if never) and the largest last element of a point"
fn settled(settings: &Settings, signal: &Signal) -> (u64, Option<f32>) {
    let mut reference = Reference::build(settings).expect("no row refuses");
    let (mut ready, mut largest) = (signal.n, None);
    for i in 0..signal.n {
        let input = vec![signal.reading(i)];
        let point = match reference.call(&Call::Point { input: input.clone(), timestamp: i, out: usize::MAX }) {
            Answer::None => None,
            Answer::Numbers(bits) => Some(bits.into_iter().map(f32::from_bits).collect::<Vec<_>>()),
            other => panic!("a point is refused: {other:?}"),
        };
        if let Some(&x) = point.as_ref().and_then(|p| p.last()) {
            // "not-a-numbers are passed over, and of equal ones the first is kept"
            if !x.is_nan() && largest.map_or(true, |l: f32| l < x) {
                largest = Some(x);
            }
        }
        let answer = reference.call(&learn(input, i, point));
        assert_eq!(answer.row(), 0, "a learn is refused");
        if ready == signal.n && reference.rust.is_ready() {
            ready = i;
        }
    }
    (ready, largest)
}

pub fn run(input: &[u8]) -> String {
    let (pairs, signal) = match read(input) {
        Ok(read) => read,
        Err(row) => return format!("no\t{row}\n"),
    };
    let mut out = String::new();
    for (n, settings) in pairs.iter().enumerate() {
        let (ready, largest) = settled(settings, &signal);
        out += &format!("{}\t{ready}\t{}\n", n + 1, largest.map_or("-".to_string(), hex32));
    }
    out
}
