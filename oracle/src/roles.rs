//! Request #105, over the reference: a lent table of 4 roles by 4 rights is asked before anything else.
use crate::calls::{Answer, Call};
use crate::random::Random;
use crate::reference::Reference;

/// "(see: […]; learn: learn, drain; put away; take up) […] role by role in that order of rights".
pub const SEE: usize = 0;
pub const LEARN: usize = 1;
pub const PUT_AWAY: usize = 2;
pub const TAKE_UP: usize = 3;

/// "see: point, transform, turn-back, scale, shift, status; learn: learn, drain"; "Point may drain, so it needs see and learn".
pub fn rights(call: &Call) -> &'static [usize] {
    match call {
        Call::Point { .. } => &[SEE, LEARN],
        Call::Learn(_) | Call::Drain => &[LEARN],
        Call::Transform { .. } | Call::TurnBack { .. } | Call::Scale { .. } | Call::Shift { .. } | Call::Status { .. } => &[SEE],
    }
}

/// "22: right withheld, role above 3, a table not of 16 cells, or a cell other than 0 or 1; before row 1."
pub fn withheld(table: &[u8], role: u64, rights: &[usize]) -> bool {
    let Ok(cells) = <[u8; 16]>::try_from(table) else { return true };
    if role > 3 || cells.iter().any(|&c| c > 1) {
        return true;
    }
    let (_, mine) = cells.split_at(4 * role as usize);
    rights.iter().any(|&right| mine[right] != 1)
}

/// A call made by a role: 22 and nothing changed, or the call.
pub fn call(reference: &mut Reference, table: &[u8], role: u64, call: &Call) -> Answer {
    if withheld(table, role, rights(call)) {
        Answer::No(22)
    } else {
        reference.call(call)
    }
}

// ---- generators

/// A table: all rights, all but one cell, one role's, some, none; one in eight of no form.
pub fn table(r: &mut Random) -> Vec<u8> {
    let mut t = match r.below(6) {
        0 => vec![1; 16],
        1 => {
            let mut t = vec![1; 16];
            t[r.below(16) as usize] = 0;
            t
        }
        2 => {
            let role = r.below(4);
            (0..16).map(|i| (i / 4 == role) as u8).collect()
        }
        3 if r.once_in(4) => vec![0; 16],
        _ => (0..16).map(|_| !r.once_in(4) as u8).collect(),
    };
    if r.once_in(8) {
        match r.below(4) {
            0 => {
                t.pop();
            }
            1 => t.push(r.pick(&[0, 1, 1])),
            2 => t.truncate(r.below(16) as usize),
            _ => t[r.below(16) as usize] = r.pick(&[2, 2, 3, 128, 255]),
        }
    }
    t
}

/// A role of the table, or one in sixteen of none.
pub fn role(r: &mut Random) -> u64 {
    if r.once_in(16) {
        r.pick(&[4, 5, 255, 256, 1 << 32, (1 << 32) + 1, 1 << 63, u64::MAX, u64::MAX - 3])
    } else {
        r.below(4)
    }
}

/// A role that has the rights under the table, if there is one.
pub fn granted(table: &[u8], rights: &[usize]) -> Option<u64> {
    (0..4).find(|&role| !withheld(table, role, rights))
}
