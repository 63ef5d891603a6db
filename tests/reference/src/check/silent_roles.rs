//! K4 at the roles that have the value and ignore it. Records at every stage, with every sort of call: whatever the value, answer, record
//! and buffers are those with 0, but for the field itself. So is the target of a write at every call but a report of time, while its sum is
//! 0.
use super::editions_ports::{calls, responders, senders};
use super::pair::{Call, Pair, Rec};
use super::silent::given;
use super::tlr_ports::{read_receivers, targets, writers};
use super::vectors::*;
use crate::records::*;

const VALUES: [u16; 3] = [1, 2, 65_535];

/// The call at a copy of the record with this value; what the library left.
fn at(s: &Script, value: u16, call: &Call) -> Result<(Answer, Pair), String> {
    let mut pair = s.pair.clone();
    pair.rec = pair.rec.map(|rec| given(rec, value));
    let a = pair.call(call).map_err(|e| format!("record {}, value {value}: {e}", s.name))?.unwrap();
    Ok((a, pair))
}

fn alike(s: &Script, call: &Call) -> Result<u64, String> {
    let (a, off) = at(s, 0, call)?;
    for value in VALUES {
        let (b, pair) = at(s, value, call)?;
        let same = given(off.rec[1], value) == pair.rec[1] && off.data[1] == pair.data[1] && off.out[1] == pair.out[1];
        if a != b || !same {
            let rec = pair.rec[1];
            return Err(format!("record {}, value {value}: {call:?}\n  at both sides {b:?}, with 0 {a:?}\n  {rec:?}", s.name));
        }
    }
    Ok(1 + VALUES.len() as u64)
}

/// Set-ups with a value over a record with another one: READY, and the field is the new one; or 1, and nothing changes.
fn set_up(s: &Script) -> Result<u64, String> {
    let write = matches!(s.pair.rec[0], Rec::Writer(_) | Rec::Target(_));
    let (mut n, t) = (0, transfer(write, 8, 2, 1, 8));
    let (a, off) = at(s, 7, &Call::SetUp(t, 24))?;
    for irt in VALUES {
        let (b, pair) = at(s, 7, &Call::SetUp(Transfer { irt, ..t }, 24))?;
        let (c, kept) = at(s, 7, &Call::SetUp(Transfer { irt, window: 0, ..t }, 24))?;
        let refused = c == Answer::refused(1) && kept.rec[1] == given(s.pair.rec[1], 7);
        if a != Answer::is(READY) || b != a || pair.rec[1] != given(off.rec[1], irt) || !refused {
            return Err(format!(
                "record {}, set-up with value {irt}: at both sides {b:?} {:?}, {c:?} {:?}",
                s.name, pair.rec[1], kept.rec[1]
            ));
        }
        n += 2;
    }
    Ok(n + 1)
}

/// Calls compared, or the first difference.
pub(super) fn all() -> Result<u64, String> {
    let mut n = 0;
    for records in [senders()?, read_receivers()?, writers()?, targets()?, responders()?] {
        for s in &records {
            n += s.holds(true)? + set_up(s)?;
            for call in calls(&s.pair) {
                n += alike(s, &call)?;
            }
        }
    }
    Ok(n)
}
