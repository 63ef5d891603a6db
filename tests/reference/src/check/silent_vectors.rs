//! K4 by hand: reports of time among the other calls at the target of a write, each with the answer that is due and the sum after it.
use super::pair::{Call, Rec};
use super::silent::EDGES;
use super::vectors::*;
use crate::records::*;

/// A call, what is due, and the sum in the record after it.
pub(super) type Step = (Call, (u8, u8), u16);

pub(super) const COUNTED: (u8, u8) = (TAKEN, 0);
pub(super) const NOTHING: (u8, u8) = (UNCHANGED, 0);
pub(super) const SILENT: (u8, u8) = (FAILED, 33);
pub(super) const KEPT: (u8, u8) = (STORED, 0);
pub(super) const DROPPED: (u8, u8) = (DISCARDED, 0);
pub(super) const FILLED: (u8, u8) = (RECEIVED, 0);
pub(super) const ENDED: (u8, u8) = (REFUSED, 2);

pub(super) fn time(milliseconds: u16) -> Call {
    Call::Time(milliseconds)
}

/// Write DATA of `len` bytes for a target of `count`; `flags` are byte 10.
pub(super) fn data(count: usize, offset: u32, flags: u8, tptt: u16, len: usize) -> Call {
    Call::Frame(bytes(1, offset, flags, tptt, &vec![0xd0 + tptt as u8; len]), count)
}

pub(super) fn ask(count: usize) -> Call {
    Call::Next(count, 1048)
}

/// A target of `count` bytes in frames of four.
pub(super) fn fresh(name: &'static str, value: u16, count: u32, limit: u32, burst: u32) -> Result<Script, String> {
    Script::new(name, Rec::Target(Target::default()), Transfer { irt: value, ..transfer(true, count, 4, limit, burst) })
}

/// Its first XFER_RDY, tag 0, had its ACK.
pub(super) fn open(name: &'static str, value: u16, count: u32, limit: u32, burst: u32) -> Result<Script, String> {
    let mut s = fresh(name, value, count, limit, burst)?;
    s.call(ask(count as usize), (FRAME, 0))?;
    s.call(Call::Ack, (ACKNOWLEDGED, 0))?;
    Ok(s)
}

pub(super) fn of(s: &Script) -> Target {
    let Rec::Target(t) = s.pair.rec[1] else { unreachable!() };
    t
}

pub(super) fn steps(s: &mut Script, list: &[Step]) -> Result<(), String> {
    for (i, (call, due, sum)) in list.iter().enumerate() {
        s.call(call.clone(), *due).map_err(|e| format!("step {}: {e}", i + 1))?;
        if of(s).elapsed != *sum {
            return Err(format!("{}: step {}, {call:?}: the sum is {} at both sides, due {sum}", s.name, i + 1, of(s).elapsed));
        }
    }
    Ok(())
}

/// The record has ended: every call is 2, also one that would be refused by another number, and changes nothing.
pub(super) fn over(s: &mut Script) -> Result<(), String> {
    let (before, n) = (s.pair.clone(), s.pair.data[0].len());
    let mut calls: Vec<Call> = EDGES.iter().map(|ms| time(*ms)).collect();
    calls.extend([Call::Ack, Call::Nak, Call::Timeout, Call::Cut, Call::Loss, ask(n), Call::Next(n, 0)]);
    calls.extend([data(n, 0, 0, 0, 4), data(n, 0, 1, 0, 4), data(n, 0, 0, 9, 4), Call::Frame(vec![1; 5], n)]);
    for call in calls {
        s.call(call, ENDED)?;
    }
    let same = s.pair.rec == before.rec && s.pair.data == before.data && s.pair.out == before.out;
    s.holds(same).map(|_| ())
}

/// "A host that stops in the middle of a write": after the second of three frames.
fn goes_silent() -> Result<u64, String> {
    let mut s = open("K4 silent after the second frame", 1000, 12, 1, 12)?;
    steps(
        &mut s,
        &[
            (time(400), COUNTED, 400),
            (data(12, 0, 0, 0, 4), KEPT, 0),
            (time(999), COUNTED, 999),
            (data(12, 4, 0, 0, 4), KEPT, 0),
            (time(500), COUNTED, 500),
            (time(0), COUNTED, 500),
            (time(499), COUNTED, 999),
            (time(0), COUNTED, 999),
            (time(1), SILENT, 999),
        ],
    )?;
    // 33 is a failure: it ends the record. All else is as the frame at 4 left it.
    let transfer = Transfer { irt: 1000, ..transfer(true, 12, 4, 1, 12) };
    let receiver = Receiver { transfer, base: 0, end: 12, expected: 8, filled: 8, waiting: false, ended: true };
    let due = Target { receiver, retries: 0, tptt: 0, under: 0, since: 0, state: STATE_READY, stored: true, elapsed: 999 };
    if of(&s) != due {
        return Err(format!("{}: at both sides {:?}\n  due {due:?}", s.name, of(&s)));
    }
    over(&mut s)?;
    let n = s.holds(s.pair.data[1] == [0xd0, 0xd0, 0xd0, 0xd0, 0xd0, 0xd0, 0xd0, 0xd0, 8, 9, 10, 11])?;
    // In one report; and never a frame at all.
    let mut s = open("K4 silent from the ACK", 1000, 12, 1, 12)?;
    steps(&mut s, &[(time(1000), SILENT, 0)])?;
    over(&mut s)?;
    Ok(n + s.holds(s.pair.data[1] == (0..12).collect::<Vec<u8>>())?)
}

/// "at each DATA frame stored, not at a discarded one".
fn frames() -> Result<u64, String> {
    let mut n = 0;
    // Frames after a gap arrive all the time, and so does the one at the expected offset: all are discarded until CDP one.
    let mut s = open("K4 discarded frames keep coming", 10, 16, 1, 16)?;
    steps(
        &mut s,
        &[
            (data(16, 0, 0, 0, 4), KEPT, 0),
            (time(4), COUNTED, 4),
            (data(16, 8, 0, 0, 4), DROPPED, 4),
            (time(4), COUNTED, 8),
            (data(16, 4, 0, 0, 4), DROPPED, 8),
            (data(16, 12, 0, 0, 4), DROPPED, 8),
            (time(1), COUNTED, 9),
            (data(16, 8, 0, 0, 4), DROPPED, 9),
            (time(1), SILENT, 9),
        ],
    )?;
    over(&mut s)?;
    n += s.holds(true)?;
    // A repeat with CDP one is stored, though it brings no new byte; so is the frame that follows it. The filled mark stays 8.
    let mut s = open("K4 stored repeat", 10, 16, 1, 16)?;
    steps(
        &mut s,
        &[
            (data(16, 0, 0, 0, 4), KEPT, 0),
            (data(16, 4, 0, 0, 4), KEPT, 0),
            (time(9), COUNTED, 9),
            (data(16, 0, 1, 0, 4), KEPT, 0),
            (time(9), COUNTED, 9),
            (data(16, 4, 0, 0, 4), KEPT, 0),
            (time(9), COUNTED, 9),
            (time(1), SILENT, 9),
        ],
    )?;
    n += s.holds(of(&s).receiver.filled == 8)?;
    // CDP one while waiting, at the filled mark and inside it.
    let mut s = open("K4 CDP while waiting", 3, 16, 2, 16)?;
    steps(
        &mut s,
        &[
            (data(16, 0, 0, 0, 8), KEPT, 0),
            (time(2), COUNTED, 2),
            (data(16, 12, 0, 0, 4), DROPPED, 2),
            (data(16, 8, 1, 0, 4), KEPT, 0),
            (time(2), COUNTED, 2),
            (data(16, 4, 1, 0, 2), KEPT, 0),
            (time(1), COUNTED, 1),
            (data(16, 6, 1, 0, 10), FILLED, 0),
            (time(65_535), NOTHING, 0),
        ],
    )?;
    n += s.holds(s.pair.data[1] == [0xd0; 16])?;
    // 5, 6, 7, 8: refused, so not stored.
    let mut s = open("K4 refused frames", 5, 8, 1, 8)?;
    let at = |k: usize, byte: u8| {
        let Call::Frame(mut f, n) = data(8, 0, 0, 0, 4) else { unreachable!() };
        f[k] = byte;
        Call::Frame(f, n)
    };
    steps(
        &mut s,
        &[
            (time(4), COUNTED, 4),
            (Call::Frame(vec![1; 25], 8), (REFUSED, 5), 4),
            (at(0, 5), (REFUSED, 6), 4),
            (at(1, 0), (REFUSED, 7), 4),
            (at(17, 0x13), (REFUSED, 8), 4),
            (at(19, 1), (REFUSED, 8), 4),
            (data(7, 0, 0, 0, 4), (REFUSED, 1), 4),
            (time(1), SILENT, 4),
        ],
    )?;
    Ok(n + s.holds(true)?)
}

/// "Time reported outside that span changes nothing", up to the first ACK: fresh, unanswered, to be resent, resent.
fn before_the_ack() -> Result<u64, String> {
    let mut n = 0;
    for value in [1, 2, 65_535] {
        let mut s = fresh("K4 before the ACK", value, 8, 3, 8)?;
        let quiet = |s: &mut Script| {
            let before = s.pair.clone();
            steps(s, &[value - 1, value, 0, 65_535].map(|ms| (time(ms), NOTHING, 0)))?;
            s.holds(s.pair.rec == before.rec && s.pair.data == before.data && s.pair.out == before.out).map(|_| ())
        };
        quiet(&mut s)?;
        s.frame(0, 4, 0)?;
        quiet(&mut s)?;
        steps(&mut s, &[(data(8, 0, 0, 0, 4), DROPPED, 0)])?;
        quiet(&mut s)?;
        for (tptt, bad) in [(1, Call::Nak), (2, Call::Timeout), (3, Call::Cut)] {
            steps(&mut s, &[(bad, (RETRY, 0), 0)])?;
            quiet(&mut s)?;
            s.frame(0, 6, tptt)?;
            quiet(&mut s)?;
        }
        // The ACK of the one that was resent. The first report counts whole, however much of it was before the ACK.
        steps(&mut s, &[(Call::Ack, (ACKNOWLEDGED, 0), 0), (time(value - 1), COUNTED, value - 1)])?;
        steps(&mut s, &[(data(8, 0, 0, 3, 4), KEPT, 0), (time(value), SILENT, 0)])?;
        over(&mut s)?;
        n += s.holds(true)?;
    }
    // A cut with nothing unanswered, and answers out of turn, do not start the sum anew.
    let mut s = open("K4 no start", 5, 8, 1, 8)?;
    steps(
        &mut s,
        &[
            (time(3), COUNTED, 3),
            (Call::Cut, NOTHING, 3),
            (Call::Ack, (REFUSED, 4), 3),
            (Call::Nak, (REFUSED, 4), 3),
            (Call::Timeout, (REFUSED, 4), 3),
            (ask(8), (WAIT, 0), 3),
            (time(2), SILENT, 3),
        ],
    )?;
    Ok(n + s.holds(true)?)
}

/// Three bursts: between them, and after the last one is filled, time does not count. Each ACK starts the sum from zero.
fn bursts() -> Result<u64, String> {
    let mut n = 0;
    for limit in [0, 1] {
        let mut s = open("K4 bursts", 5, 10, limit, 4)?;
        let mut base = 0;
        for (tptt, len) in [(0, 4), (1, 4), (0, 2)] {
            steps(
                &mut s,
                &[
                    (time(4), COUNTED, 4),
                    (data(10, base, 0, tptt, 1), KEPT, 0),
                    (time(2), COUNTED, 2),
                    (time(2), COUNTED, 4),
                    (data(10, base + 1, 0, tptt, len - 1), FILLED, 0),
                    (time(65_535), NOTHING, 0),
                    (time(4), NOTHING, 0),
                    (data(10, base, 1, tptt, 1), DROPPED, 0),
                    (time(1), NOTHING, 0),
                ],
            )?;
            base += len as u32;
            if base < 10 {
                steps(&mut s, &[(ask(10), (FRAME, 0), 0), (time(65_535), NOTHING, 0), (time(4), NOTHING, 0)])?;
                steps(&mut s, &[(Call::Ack, (ACKNOWLEDGED, 0), 0)])?;
            }
        }
        steps(&mut s, &[(ask(10), (WAIT, 0), 0), (time(65_535), NOTHING, 0), (Call::Loss, (FAILED, 31), 0)])?;
        over(&mut s)?;
        n += s.holds(true)?;
        // Silent in the second burst.
        let mut s = open("K4 silent in the second burst", 5, 10, limit, 4)?;
        steps(&mut s, &[(time(4), COUNTED, 4), (data(10, 0, 0, 0, 4), FILLED, 0), (time(9), NOTHING, 0), (ask(10), (FRAME, 0), 0)])?;
        steps(&mut s, &[(time(9), NOTHING, 0), (Call::Ack, (ACKNOWLEDGED, 0), 0), (time(4), COUNTED, 4), (time(1), SILENT, 4)])?;
        over(&mut s)?;
        n += s.holds(of(&s).receiver.base == 4)?;
    }
    Ok(n)
}

/// "0 to 65,535 milliseconds; 0 switches it off"; "0 to 65,535" in a report; "reaches".
fn values() -> Result<u64, String> {
    let mut n = 0;
    let mut s = open("K4 off", 0, 8, 1, 8)?;
    for ms in EDGES.into_iter().chain([65_535; 5]) {
        steps(&mut s, &[(time(ms), NOTHING, 0)])?;
    }
    steps(&mut s, &[(data(8, 0, 0, 0, 4), KEPT, 0), (time(65_535), NOTHING, 0), (data(8, 4, 0, 0, 4), FILLED, 0)])?;
    n += s.holds(true)?;
    // Value, reports that are counted, the report that fails. Some sums are 65,536 or more.
    let table: [(u16, &[u16], u16); 20] = [
        (1, &[], 1),
        (1, &[0, 0, 0], 1),
        (1, &[0], 65_535),
        (2, &[], 2),
        (2, &[1], 1),
        (2, &[0, 1, 0], 1),
        (2, &[1], 65_535),
        (2, &[], 65_535),
        (10, &[9], 65_527),
        (10, &[9], 65_535),
        (256, &[255], 1),
        (257, &[255, 1], 1),
        (32_768, &[32_767], 1),
        (32_769, &[32_768], 32_768),
        (40_000, &[30_000], 40_000),
        (65_535, &[65_534], 1),
        (65_535, &[65_534, 0], 2),
        (65_535, &[65_534], 65_535),
        (65_535, &[32_767, 32_767], 1),
        (65_535, &[], 65_535),
    ];
    for (value, counted, last) in table {
        for before in [false, true] {
            let mut s = open("K4 values", value, 8, 1, 8)?;
            if before {
                steps(&mut s, &[(time(value - 1), COUNTED, value - 1), (data(8, 0, 0, 0, 4), KEPT, 0)])?;
            }
            let mut sum = 0;
            for ms in counted {
                sum += ms;
                steps(&mut s, &[(time(*ms), COUNTED, sum)])?;
            }
            let a = s.call(time(last), SILENT)?;
            n +=
                s.holds(a == Answer { number: 33, what: FAILED, ..Answer::default() } && of(&s).elapsed == sum && of(&s).receiver.ended)?;
        }
    }
    Ok(n)
}

/// Calls compared, or the first difference.
pub(super) fn all() -> Result<u64, String> {
    Ok(goes_silent()? + frames()? + before_the_ack()? + bursts()? + values()?)
}
