//! K4 by hand, numbers beside 33: the other failures of the target while a sum stands, and records whose sum is at the value or above it.
use super::pair::{Call, Rec};
use super::silent::EDGES;
use super::silent_vectors::*;
use super::vectors::{transfer, Script};
use crate::records::*;

/// The other failures keep the sum and end the record; 33 comes on a report only, though the sum be the value.
fn failures() -> Result<u64, String> {
    let mut n = 0;
    for limit in [0, 1] {
        let table =
            [(data(8, 8, 0, 0, 4), 20), (data(8, 4, 0, 0, 5), 21), (data(8, 4, 0, 0, 0), 22), (data(8, 5, 1, 0, 1), 20), (Call::Loss, 31)];
        for (call, number) in table {
            for sum in [0, 6, 7] {
                let mut s = open("K4 other failures", 7, 8, limit, 8)?;
                steps(&mut s, &[(data(8, 0, 0, 0, 4), KEPT, 0)])?;
                made_up(&mut s, |t| t.elapsed = sum);
                steps(&mut s, &[(call.clone(), (FAILED, number), sum), (time(0), ENDED, sum), (time(65_535), ENDED, sum)])?;
                over(&mut s)?;
                n += s.holds(true)?;
            }
        }
    }
    // Retries off: the next frame is stored, another one fails.
    let mut s = open("K4 retries off", 10, 12, 0, 12)?;
    steps(&mut s, &[(time(9), COUNTED, 9), (data(12, 0, 0, 0, 4), KEPT, 0), (time(9), COUNTED, 9), (data(12, 4, 1, 0, 4), KEPT, 0)])?;
    steps(&mut s, &[(time(9), COUNTED, 9), (data(12, 4, 1, 0, 4), (FAILED, 20), 9), (time(1), ENDED, 9)])?;
    n += s.holds(true)?;
    // The XFER_RDY's own failures, while time does not count.
    for (bad, number) in [(Call::Nak, 28), (Call::Timeout, 29), (Call::Cut, 30)] {
        let mut s = fresh("K4 XFER_RDY fails", 1, 8, 0, 8)?;
        steps(&mut s, &[(ask(8), (FRAME, 0), 0), (time(1), NOTHING, 0), (bad, (FAILED, number), 0), (time(1), ENDED, 0)])?;
        over(&mut s)?;
        n += s.holds(true)?;
    }
    Ok(n)
}

/// A field of the record at both sides.
fn made_up(s: &mut Script, change: impl Fn(&mut Target)) {
    for rec in &mut s.pair.rec {
        let Rec::Target(t) = rec else { unreachable!() };
        change(t);
    }
}

/// 1: "another count past its limit", here the value. It goes before 2 and all else, at every call but a set-up.
fn broken() -> Result<u64, String> {
    let mut n = 0;
    for (value, sum) in [(0, 1), (0, 65_535), (1, 2), (9, 10), (9, 265), (65_534, 65_535)] {
        for ended in [false, true] {
            let mut s = open("K4 sum above the value", value, 8, 1, 8)?;
            made_up(&mut s, |t| (t.elapsed, t.receiver.ended) = (sum, ended));
            let mut calls =
                vec![Call::Ack, Call::Nak, Call::Timeout, Call::Cut, Call::Loss, ask(8), data(8, 0, 0, 0, 4), data(8, 0, 0, 9, 4)];
            calls.extend(EDGES.map(time));
            for call in calls {
                steps(&mut s, &[(call, (REFUSED, 1), sum)])?;
            }
            // A set-up looks at nothing of the old record; one that is refused leaves it.
            let t = Transfer { irt: 3, ..transfer(true, 8, 4, 1, 8) };
            steps(&mut s, &[(Call::SetUp(Transfer { count: 0, ..t }, 0), (REFUSED, 1), sum), (Call::SetUp(t, 0), (READY, 0), 0)])?;
            n += s.holds(of(&s) == Target { receiver: Receiver { transfer: t, ..Receiver::default() }, ..Target::default() })?;
        }
    }
    // A sum equal to the value is no broken one: any report then reaches the value; a store or an ACK starts from zero.
    for value in [1, 9, 65_535] {
        for (call, due, sum) in [
            (time(0), SILENT, value),
            (time(65_535), SILENT, value),
            (data(8, 0, 0, 0, 4), KEPT, 0),
            (data(8, 0, 0, 0, 8), FILLED, 0),
            (data(8, 4, 0, 0, 4), DROPPED, value),
        ] {
            let mut s = open("K4 sum at the value", value, 8, 1, 8)?;
            made_up(&mut s, |t| t.elapsed = value);
            steps(&mut s, &[(call, due, sum)])?;
            n += s.holds(true)?;
        }
        let mut s = fresh("K4 sum at the value, before the ACK", value, 8, 1, 8)?;
        made_up(&mut s, |t| t.elapsed = value);
        steps(
            &mut s,
            &[(time(0), NOTHING, value), (ask(8), (FRAME, 0), value), (time(9), NOTHING, value), (Call::Nak, (RETRY, 0), value)],
        )?;
        steps(&mut s, &[(ask(8), (FRAME, 0), value), (Call::Ack, (ACKNOWLEDGED, 0), 0), (time(value), SILENT, 0)])?;
        n += s.holds(true)?;
    }
    Ok(n)
}

/// Calls compared, or the first difference.
pub(super) fn all() -> Result<u64, String> {
    Ok(failures()? + broken()?)
}
