//! The bench of document 01 over the Rust: lines in, lines out (docs/ORACLE.md names the readings of the form).
use crate::bits::hex32;
use crate::calls::{Answer, Call, Learn, Settings};
use crate::reference::Reference;
use crate::snapshot::{every, fields, set_line, single, whole, Snapshot};

const WIDEST: u64 = 4;
const LONGEST_START: u64 = 500;

/// The lines of the input; a last one without its LF is of no form.
fn lines(input: &[u8]) -> impl Iterator<Item = Option<&[u8]>> {
    input.split_inclusive(|&b| b == b'\n').map(|line| line.strip_suffix(b"\n"))
}

/// A time and any number of values behind the name.
fn time_and_values(line: &[u8], name: &str) -> Option<(u64, Vec<f32>)> {
    let f = fields(line, name)?;
    Some((whole(f.first()?)?, every(&f[1..], None, single)?))
}

/// The settings of both lines, where they are of the form; rows aside.
pub fn head(set: Option<&[u8]>, wgt: Option<&[u8]>) -> Option<Settings> {
    let mut settings = set_line(set?)?;
    settings.weights = every(&fields(wgt?, "wgt")?, None, single)?;
    // "The bench has zero codes and its `s` shows the line."
    settings.codes = settings.zero_codes();
    Some(settings)
}

/// A learn of grade 0, without an expected point.
pub fn learn(input: Vec<f32>, timestamp: u64, point: Option<Vec<f32>>) -> Call {
    let (grade, relative_index, expected) = (0.0, 0, None);
    Call::Learn(Learn { input, timestamp, point, grade, relative_index, expected, deviations_out: 64, past_out: 64, expected_out: 64 })
}

fn answered(answer: Answer) -> String {
    match answer {
        Answer::No(row) => format!("no\t{row}\n"),
        Answer::None => "none\n".to_string(),
        Answer::Numbers(point) => {
            let mut line = "pt".to_string();
            for bits in point {
                line += "\t";
                line += &hex32(f32::from_bits(bits));
            }
            line + "\n"
        }
        _ => "ok\n".to_string(),
    }
}

/// What one call line prints.
fn line(reference: &mut Reference, last_point: &mut Option<Vec<f32>>, line: Option<&[u8]>) -> String {
    let Some(line) = line else { return "no\t19\n".to_string() };
    if let Some((timestamp, input)) = time_and_values(line, "p") {
        let answer = reference.call(&Call::Point { input, timestamp, out: usize::MAX });
        if let Answer::Numbers(point) = &answer {
            *last_point = Some(point.iter().map(|&b| f32::from_bits(b)).collect());
        }
        answered(answer)
    } else if let Some((timestamp, input)) = time_and_values(line, "l") {
        answered(reference.call(&learn(input, timestamp, last_point.clone())))
    } else if line == b"d" {
        answered(reference.call(&Call::Drain))
    } else if line == b"s" {
        Snapshot::of(reference).text()
    } else {
        "no\t19\n".to_string()
    }
}

pub fn run(input: &[u8]) -> String {
    let mut lines = lines(input);
    let (set, wgt) = (lines.next().flatten(), lines.next().flatten());
    let Some(settings) = head(set, wgt) else { return "no\t19\n".to_string() };
    let mut reference = match Reference::build(&settings) {
        Ok(reference) => reference,
        Err(row) => return format!("no\t{row}\n"),
    };
    if settings.d > WIDEST || settings.start > LONGEST_START {
        return "no\t20\n".to_string();
    }
    let mut last_point = None;
    lines.map(|l| line(&mut reference, &mut last_point, l)).collect()
}

#[cfg(test)]
mod tests {
    use super::run;

    /// Document 01's own example, with request #113's line.
    #[test]
    fn the_example() {
        let given = "set\tS\t0\t1\t1\t10\t20\t0000000000000000\t3f800000\nwgt\t3f800000\ns\n";
        let dev = "dev\t0000000000000000\t0000000000000000\t0000000000000000\n".repeat(10);
        let head = &given[..given.len() - 2];
        assert_eq!(run(given.as_bytes()), format!("{head}chn\t0\ncnt\t0\t0\t0\n{dev}inp\t00000000\npnt\t00000000\ntim\t0\n"));
    }

    /// Readings 1 to 13 of the lines.
    #[test]
    fn the_readings() {
        let head = "set\tS\t4\t1\t2\t1\t20\t0000000000000000\t3f800000\nwgt\t3f800000\n";
        let with = |calls: &str| run(format!("{head}{calls}").as_bytes());
        assert_eq!(run(b""), "no\t19\n");
        assert_eq!(run(b"set\tS\t0\t0\t1\t10\t20\t0000000000000000\t3f800000\nwgt\tx\n"), "no\t19\n");
        assert_eq!(run(b"set\tS\t0\t0\t1\t10\t20\t0000000000000000\t3f800000\nwgt\n"), "no\t2\n");
        assert_eq!(run(b"set\tS\t0\t1\t1\t10\t20\t7ff8000000000000\t3f800000\nwgt\t3f800000\n"), "no\t6\n");
        assert_eq!(run(b"set\tS\t0\t1\t1\t501\t501\t0000000000000000\t3f800000\nwgt\t3f800000\ns\n"), "no\t20\n");
        assert_eq!(with(""), "");
        assert_eq!(with("p\n"), "no\t19\n");
        assert_eq!(with("p\t5\n"), "no\t10\n");
        assert_eq!(with("p\t5\t7fc00000\n"), "no\t11\n");
        assert_eq!(with("p\t5\t7fc00001\n"), "no\t19\n");
        assert_eq!(with("p\t1\t3f800000\tzz\n"), "no\t19\n");
        assert_eq!(with("d\t\n\nS\nd\r\nd"), "no\t19\n".repeat(5));
        assert_eq!(with("p\t1\t3f800000\nl\t1\t3f800000\np\t2\t3f800000\nd\n"), "none\nok\npt\t00000000\t00000000\nno\t15\n");
    }
}
