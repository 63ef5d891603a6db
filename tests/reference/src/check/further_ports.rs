//! K5 with records at every stage and made-up ones, and calls of every sort. A read that begins at a start does what the same read from 0 does:
//! the same answers, all marks and offsets that much further in, the same bytes that much further in at the host, and none beside them. A start
//! that breaks a limit, or that does not go with the marks, is 1 at every call, and nothing changes.
use super::editions_ports::{calls, responders, senders};
use super::further::*;
use super::further_vectors::read;
use super::pair::{Call, Pair, Rec};
use super::tlr_ports::{read_receivers, targets, writers};
use super::vectors::*;
use crate::records::*;
use std::collections::BTreeSet;

/// Bytes behind the read in the host's buffer.
const BEHIND: usize = 9;

/// The record, its buffers and the call, that much further in.
fn further(pair: &Pair, by: u32) -> Pair {
    let rec = moved(pair.rec[1], by);
    let out = moved_frame(&pair.out[1], by);
    let mut data = pair.data[1].clone();
    if matches!(rec, Rec::Receiver(_)) {
        data = [vec![0x5b; by as usize], data, vec![0xb5; BEHIND]].concat();
    }
    Pair { rec: [rec, rec], data: [data.clone(), data], out: [out.clone(), out] }
}

fn further_call(rec: &Rec, call: &Call, by: u32, lent: usize) -> Call {
    match (rec, call) {
        (Rec::Receiver(_), Call::Frame(f, n)) => {
            // As long as the read needs, or all of it; one short stays one short.
            let n = if *n == lent && f.len() % 8 == 0 { *n + BEHIND } else { *n };
            Call::Frame(moved_frame(f, by), n + by as usize)
        }
        (_, Call::SetUp(t, n)) => Call::SetUp(Transfer { start: t.start + by, ..*t }, *n),
        _ => call.clone(),
    }
}

/// The call at a read from 0 and at the same read further in. Its answer, and the calls compared.
fn alike(pair: &Pair, call: &Call, by: u32) -> Result<(Answer, u64), String> {
    let mut today = pair.clone();
    let a = today.call(call)?.unwrap();
    let mut there = further(pair, by);
    let far = further_call(&pair.rec[1], call, by, pair.data[1].len());
    let b = there.call(&far)?.unwrap();
    let due = further(&today, by);
    if a == b && there.rec[1] == due.rec[1] && there.data[1] == due.data[1] && there.out[1] == due.out[1] {
        return Ok((a, 2));
    }
    let told = [there.rec[1], due.rec[1]];
    Err(format!("{far:?}\n  at both sides {b:?}, from 0 {a:?}\n  {:?}\n  due {:?}", told[0], told[1]))
}

/// A record with this start: 1 at the call, and nothing changes.
fn refused(pair: &Pair, call: &Call, start: u32) -> Result<u64, String> {
    let mut there = pair.clone();
    there.rec = there.rec.map(|rec| with_start(rec, start));
    let before = there.clone();
    let a = there.call(call)?.unwrap();
    if a == Answer::refused(1) && there.rec == before.rec && there.data == before.data && there.out == before.out {
        return Ok(1);
    }
    Err(format!("start {start}, {call:?}: at both sides {a:?} {:?}\n  due 1 and nothing changed", there.rec[1]))
}

/// DATA outside the read, by bytes that the host's buffer has.
fn beside(pair: &Pair, by: u32) -> Result<u64, String> {
    let there = further(pair, by);
    let Rec::Receiver(r) = there.rec[1] else { return Ok(0) };
    let (mut n, lent) = (0, there.data[1].len());
    let end = r.transfer.start + r.transfer.count;
    for offset in (0..by).step_by(1 + by as usize / 20).chain([by - 1, end, end + 1, lent as u32, u32::MAX]) {
        for flags in [0, 1] {
            let mut pair = there.clone();
            let a = pair.call(&Call::Frame(bytes(1, offset, flags, 0, &[0x99; 4]), lent))?.unwrap();
            let due = match r {
                Receiver { ended: true, .. } => Answer::refused(2),
                Receiver { filled, end, .. } if filled == end => Answer::is(DISCARDED),
                _ => Answer::failed(20, 0),
            };
            if a != due || pair.data != there.data {
                return Err(format!("DATA at {offset}: {a:?} at both sides, due {due:?}\n  {r:?}"));
            }
            n += 1;
        }
    }
    Ok(n)
}

/// Every record of a role that reads; `due`: answers that must have come up.
fn role(records: Vec<Script>, places: &[u32], due: &[(u8, u8)]) -> Result<u64, String> {
    let (mut n, mut seen) = (0, BTreeSet::new());
    for s in &records {
        let told = |e: String| format!("{} {}: {e}", format!("{:?}", s.pair.rec[1]).split('(').next().unwrap(), s.name);
        n += s.holds(true)?;
        let t = transfer(false, 8, 2, 1, 8);
        let mut all = calls(&s.pair);
        all.extend([t, Transfer { count: 0, ..t }, Transfer { burst: 9, ..t }, Transfer { write: true, ..t }].map(|t| Call::SetUp(t, 24)));
        for call in &all {
            // A RESPONSE of a write may be set up, but not with a start.
            if matches!((call, &s.pair.rec[0]), (Call::SetUp(Transfer { write: true, .. }, _), Rec::Responder(_))) {
                continue;
            }
            for by in places {
                let (a, calls) = alike(&s.pair, call, *by).map_err(told)?;
                seen.insert((a.what, a.number));
                n += calls;
            }
            if matches!(call, Call::SetUp(..)) {
                continue;
            }
            let count = if matches!(s.pair.rec[0], Rec::Responder(_)) { 4 } else { 12 };
            for start in [MOST - count + 1, MOST, u32::MAX, 0u32.wrapping_sub(count)] {
                n += refused(&s.pair, call, start).map_err(told)?;
            }
            if count == 12 {
                // Marks below the start, and past start plus count.
                let (there, far) = (further(&s.pair, 12), further_call(&s.pair.rec[1], call, 12, 12));
                for (pair, call, start) in
                    [(&s.pair, call, 1), (&s.pair, call, 12), (&there, &far, 0), (&there, &far, 11), (&there, &far, 13)]
                {
                    n += refused(pair, call, start).map_err(told)?;
                }
            }
        }
        for by in places.iter().filter(|by| **by < 1000) {
            n += beside(&s.pair, *by).map_err(told)?;
        }
    }
    match due.iter().find(|answer| !seen.contains(answer)) {
        None => Ok(n),
        Some(answer) => Err(format!("{answer:?} never came up, {seen:?}")),
    }
}

/// The records of a write: "a write's start other than 0" is 1 at every call.
fn writes() -> Result<u64, String> {
    let mut n = 0;
    let of_writes = responders()?.into_iter().filter(|s| matches!(s.pair.rec[0], Rec::Responder(r) if r.transfer.write)).collect();
    for records in [writers()?, targets()?, of_writes] {
        for s in &records {
            n += s.holds(true)?;
            for call in calls(&s.pair) {
                for start in [1, 4, 12, 256, MOST - 12, MOST, u32::MAX, 0u32.wrapping_sub(12)] {
                    n += refused(&s.pair, &call, start).map_err(|e| format!("{}: {e}", s.name))?;
                }
            }
        }
    }
    Ok(n)
}

/// Marks at, beside and far from the ends of a read of eight bytes, in every order.
fn grid() -> Result<u64, String> {
    let (mut n, mut fit) = (0, 0);
    for start in [0, 9, 300, MOST - 8] {
        let t = read(start, 8, 2, 1);
        let values = [0, start.wrapping_sub(1), start, start + 1, start + 5, start + 8, start + 9, 8];
        for k in 0..values.len().pow(4) {
            let m = [k & 7, k >> 3 & 7, k >> 6 & 7, k >> 9].map(|i| values[i]);
            let fits = start <= m[0] && m[0] <= m[1] && m[1] <= m[2] && m[2] <= m[3] && u64::from(m[3]) <= u64::from(start) + 8;
            let burst = Burst { base: m[0], end: m[3], limit: 1, tptt: 0 };
            let sender = Sender { transfer: t, burst, balance: m[1], next: m[2], unanswered: 1, ..Sender::default() };
            let receiver = Receiver { transfer: t, base: m[0], expected: m[1], filled: m[2], end: m[3], ..Receiver::default() };
            let lent = if start == MOST - 8 { 0 } else { start as usize + 8 };
            let arrives = Call::Frame(bytes(1, m[1], 0, 0, &[7; 2]), lent);
            let mut all =
                vec![(Rec::Sender(sender), Call::Loss), (Rec::Sender(sender), Call::Timeout), (Rec::Sender(sender), Call::Next(8, 48))];
            all.push((Rec::Receiver(receiver), Call::Loss));
            if lent > 0 {
                all.push((Rec::Receiver(receiver), arrives));
            }
            for (rec, call) in all {
                let mut pair = Pair::new(rec, pattern(&t, lent.max(8)), 48);
                let a = pair.call(&call)?.unwrap();
                n += 1;
                if (a == Answer::refused(1)) == fits || !fits && pair.rec[1] != rec {
                    return Err(format!("start {start}, marks {m:?}, {call:?}: {a:?} at both sides\n  {:?}", pair.rec[1]));
                }
            }
            fit += u64::from(fits);
        }
    }
    if fit == 0 {
        return Err("no marks were in range".into());
    }
    Ok(n)
}

/// Calls compared, or the first difference.
pub(super) fn all() -> Result<u64, String> {
    let asked = [(WAIT, 0), (FRAME, 0), (RETRY, 0), (UNCHANGED, 0), (FAILED, 31), (READY, 0), (REFUSED, 1), (REFUSED, 2), (REFUSED, 3)];
    let sent = [&asked[..], &[(TAKEN, 0), (DELIVERED, 0), (FAILED, 28), (REFUSED, 4), (REFUSED, 5), (REFUSED, 6)]].concat();
    let mut n = role(senders()?, &[1, 4, 12, 255, 4097, MOST - 12], &sent)?;
    let stored = [(STORED, 0), (RECEIVED, 0), (DISCARDED, 0), (FAILED, 20), (FAILED, 21), (FAILED, 22), (FAILED, 27), (RESPONSE, 0)];
    n += role(read_receivers()?, &[1, 4, 12, 100], &[&stored[..], &[(REFUSED, 1), (REFUSED, 5), (REFUSED, 7), (REFUSED, 8)]].concat())?;
    let of_reads = responders()?.into_iter().filter(|s| matches!(s.pair.rec[0], Rec::Responder(r) if !r.transfer.write)).collect();
    n += role(of_reads, &[1, 4, MOST - 8], &asked)?;
    Ok(n + writes()? + grid()?)
}
