//! K4 with each of the 65,536 values at the set-ups of every role and at reports of time, each report, and each sum that a record may have.
use super::editions_values::{roles, Role};
use super::pair::{Call, Rec};
use super::silent::{reports, Watched};
use super::vectors::{bytes, transfer};
use crate::records::*;

/// A set-up with this value, over whatever was there, is taken; the field holds it.
fn set_ups(roles: &mut [Role; 6], value: u16) -> Result<(), String> {
    for role in roles {
        role.t.irt = value;
        role.set_up(value % 2 == 1, if value % 2 == 1 { !value } else { 0 })?;
    }
    Ok(())
}

/// A target of eight bytes, whose first XFER_RDY, tag 0, had its ACK.
fn open(value: u16) -> Result<Watched, String> {
    let mut w = Watched::new(Transfer { irt: value, ..transfer(true, 8, 1, 1, 8) }, vec![0; 8])?;
    for call in [Call::Next(8, 36), Call::Ack] {
        w.call(&call)?;
    }
    Ok(w)
}

fn gives(w: &mut Watched, call: Call, due: (u8, u8)) -> Result<(), String> {
    let a = w.call(&call)?;
    if (a.what, a.number) == due {
        return Ok(());
    }
    Err(format!("{call:?} gave {a:?} at both sides, due {due:?}\n  {:?}", w.pair.rec[1]))
}

/// One below the value is counted, the value fails: in one report and in two, at once and after a store.
fn one(value: u16) -> Result<u64, String> {
    let (counted, fails) = if value == 0 { ((UNCHANGED, 0), (UNCHANGED, 0)) } else { ((TAKEN, 0), (FAILED, 33)) };
    let below = value.saturating_sub(1);
    let mut w = open(value)?;
    gives(&mut w, Call::Time(below), counted)?;
    gives(&mut w, Call::Time(0), counted)?;
    gives(&mut w.clone(), Call::Time(value.max(1)), fails)?;
    let stored = w.frame(bytes(1, 0, 0, 0, &[7; 4]));
    gives(&mut w, stored, (STORED, 0))?;
    gives(&mut w.clone(), Call::Time(value), fails)?;
    gives(&mut w, Call::Time(below / 2), counted)?;
    gives(&mut w, Call::Time(below - below / 2), counted)?;
    gives(&mut w, Call::Time(1), fails)?;
    // Two calls went to copies.
    Ok(w.calls + 2)
}

/// Every report, at a sum of 0 and one that is not: `past` is what stands in the record.
fn each_report(value: u16, past: u16) -> Result<u64, String> {
    let mut w = open(value)?;
    gives(&mut w, Call::Time(past), (TAKEN, 0))?;
    let start = w.clone();
    for ms in 0..=65_535 {
        w.pair.rec = start.pair.rec;
        w.past = start.past;
        let due = if u32::from(past) + u32::from(ms) < u32::from(value) { (TAKEN, 0) } else { (FAILED, 33) };
        gives(&mut w, Call::Time(ms), due)?;
    }
    Ok(w.calls)
}

/// Every sum in a made-up record: above the value it is 1 and nothing changes; else the reports next to the value decide.
fn each_sum(value: u16) -> Result<u64, String> {
    let open = open(value)?;
    let (mut pair, mut n) = (open.pair.clone(), open.calls);
    for sum in 0..=65_535 {
        let made = Target { elapsed: sum, ..open.target() };
        for ms in reports(value, sum) {
            pair.rec = [Rec::Target(made); 2];
            let a = pair.call(&Call::Time(ms))?.unwrap();
            n += 1;
            let all = u32::from(sum) + u32::from(ms);
            let due = match (sum <= value, all < u32::from(value)) {
                (false, _) => (Answer::refused(1), made),
                _ if value == 0 => (Answer::is(UNCHANGED), made),
                (_, true) => (Answer::is(TAKEN), Target { elapsed: all as u16, ..made }),
                (_, false) => (Answer::failed(33, 0), Target { receiver: Receiver { ended: true, ..made.receiver }, ..made }),
            };
            if (a, pair.rec[1]) != (due.0, Rec::Target(due.1)) {
                return Err(format!("sum {sum}, report {ms}: at both sides {a:?} {:?}\n  due {due:?}", pair.rec[1]));
            }
        }
    }
    Ok(n)
}

/// Calls compared, or the first difference.
pub(super) fn all() -> Result<u64, String> {
    let (mut roles, mut n) = (roles(), 0);
    for value in 0..=65_535 {
        set_ups(&mut roles, value).map_err(|e| format!("value {value}: {e}"))?;
        n += one(value).map_err(|e| format!("value {value}: {e}"))?;
    }
    n += roles.iter().map(|role| role.calls).sum::<u64>();
    for (value, past) in [(1, 0), (2, 1), (1000, 0), (1000, 999), (32_768, 1), (65_535, 0), (65_535, 1), (65_535, 65_534)] {
        n += each_report(value, past).map_err(|e| format!("value {value}, sum {past}: {e}"))?;
    }
    for value in [0, 1, 256, 32_768, 65_534, 65_535] {
        n += each_sum(value).map_err(|e| format!("value {value}: {e}"))?;
    }
    Ok(n)
}
