//! K7 with records at every stage and calls of every sort. Under SAS-2, whatever the value, answer, record and buffers are those of SAS-1.1, but
//! for the TPTT of read DATA and RESPONSE; so is the frame handed out next. A nonzero value under SAS-1.1 is 1 at every call, and nothing
//! changes. The TPTT of read DATA and RESPONSE that arrive counts for nothing.
use super::editions::*;
use super::pair::{Call, Pair, Rec};
use super::states::{sends, taken};
use super::tlr_ports::{frames, read_receivers, targets, writers};
use super::vectors::*;
use crate::frame;
use crate::records::*;
use std::collections::BTreeSet;

/// Of SAS-2; the first two are tags that XFER_RDYs have too.
const VALUES: [u16; 7] = [0, 1, 255, 256, 0x8001, 65_534, 65_535];

/// Twelve bytes in frames of four, window 2, limit 1.
pub(super) fn senders() -> Result<Vec<Script>, String> {
    let out = |name, at: &[u32], calls: &[(Call, u8)]| -> Result<Script, String> {
        let mut s = read_sender(name, 12, 2, 1)?;
        sends(&mut s, 0, at)?;
        for (call, what) in calls {
            s.call(call.clone(), (*what, 0))?;
        }
        Ok(s)
    };
    let mut resent = out("resent", &[0, 4], &[(Call::Timeout, RETRY)])?;
    resent.frame(0, 1, 0)?;
    let last = |name| -> Result<Script, String> {
        let mut s = out(name, &[0, 4], &[(Call::Ack, TAKEN)])?;
        sends(&mut s, 0, &[8])?;
        taken(&mut s, &[Call::Ack])?;
        Ok(s)
    };
    let mut delivered = last("delivered")?;
    delivered.call(Call::Ack, (DELIVERED, 0))?;
    let mut ended = out("ended", &[0], &[])?;
    ended.call(Call::Loss, (FAILED, 31))?;
    Ok(vec![
        out("fresh", &[], &[])?,
        out("one out", &[0], &[])?,
        out("window full", &[0, 4], &[])?,
        out("balance moved", &[0], &[(Call::Ack, TAKEN)])?,
        out("NAK pending", &[0, 4], &[(Call::Nak, TAKEN)])?,
        out("retry, NAK", &[0], &[(Call::Nak, RETRY)])?,
        out("retry, cut", &[0, 4], &[(Call::Ack, TAKEN), (Call::Cut, RETRY)])?,
        resent,
        last("last out")?,
        delivered,
        ended,
        read_sender("no retries", 12, 2, 0)?,
    ])
}

/// Of a read and of a write, limit 0 and 1.
pub(super) fn responders() -> Result<Vec<Script>, String> {
    let mut all = Vec::new();
    for write in [false, true] {
        for limit in [0, 1] {
            let new = |name| Script::new(name, Rec::Responder(Responder::default()), transfer(write, 4, 4, limit, 4));
            let mut out = new("out")?;
            out.frame(0, 0, 0)?;
            let mut retry = new("retry")?;
            retry.frame(0, 0, 0)?;
            retry.call(Call::Nak, (RETRY, 0))?;
            let mut resent = new("resent")?;
            resent.frame(0, 0, 0)?;
            resent.call(Call::Cut, (RETRY, 0))?;
            resent.frame(0, 2, 0)?;
            let mut delivered = new("delivered")?;
            delivered.frame(0, 0, 0)?;
            delivered.call(Call::Ack, (DELIVERED, 0))?;
            all.extend([new("fresh")?, out, retry, resent, delivered]);
        }
    }
    Ok(all)
}

fn next(pair: &Pair) -> Option<Call> {
    (!matches!(pair.rec[0], Rec::Receiver(_))).then(|| Call::Next(pair.data[0].len(), pair.out[0].len()))
}

/// All but set-ups; frames with each value of the flags.
pub(super) fn calls(pair: &Pair) -> Vec<Call> {
    let n = pair.data[0].len();
    let mut all = vec![Call::Loss];
    if next(pair).is_some() {
        all.extend([Call::Ack, Call::Nak, Call::Timeout, Call::Cut]);
        for room in [0, 23, 24, 27, 28, 35, 36, 47, 48, 1047, 1048] {
            all.extend([n, n - 1, 0].map(|n| Call::Next(n, room)));
        }
    }
    if !matches!(pair.rec[0], Rec::Responder(_)) {
        for mut f in frames() {
            for flags in 0..8 {
                f[10] = flags;
                all.push(Call::Frame(f.clone(), n));
            }
            all.push(Call::Frame(f, n - 1));
        }
    }
    all
}

/// The call at a copy of the record with this edition and value.
fn at(s: &Script, edition: Edition, call: &Call) -> Result<(Answer, Pair), String> {
    let mut pair = s.pair.clone();
    name(&mut pair, edition);
    let a = pair.call(call).map_err(|e| format!("record {}, {edition:?}: {e}", s.name))?.unwrap();
    Ok((a, pair))
}

/// What the library left.
fn left(pair: &Pair) -> (Rec, &[u8], &[u8]) {
    (pair.rec[1], &pair.data[1], &pair.out[1])
}

/// What is due under `edition` where SAS-1.1 with 0 answered `a` and left `today`.
fn due(today: &Pair, a: &Answer, edition: Edition) -> Pair {
    let mut pair = today.clone();
    name(&mut pair, edition);
    if a.what == FRAME && carries(&pair.rec[1]) {
        pair.out[1][18..20].copy_from_slice(&carried(edition));
    }
    pair
}

fn fault(s: &Script, call: &Call, edition: Edition, told: String) -> String {
    let rec = format!("{:?}", s.pair.rec[1]);
    let role = rec.split('(').next().unwrap();
    format!("{role} {}, {edition:?}: {call:?}\n  {told}", s.name)
}

/// The call, and a frame asked for after it, under every edition. The answer of SAS-1.1 and the calls compared.
fn alike(s: &Script, call: &Call) -> Result<(Answer, u64), String> {
    let (a, today) = at(s, TODAY, call)?;
    let mut then = today.clone();
    let mut n = 1;
    let b = match next(&today) {
        Some(next) => then.call(&next).map_err(|e| fault(s, call, TODAY, format!("then {e}")))?,
        None => None,
    };
    n += u64::from(b.is_some());
    for value in VALUES {
        let edition = (true, value);
        let (x, mut pair) = at(s, edition, call)?;
        let wanted = due(&today, &a, edition);
        if x != a || left(&pair) != left(&wanted) {
            let told =
                format!("at both sides {x:?}, due {a:?}\n  {:?}\n  due {:?}\n  {:02x?}", pair.rec[1], wanted.rec[1], &pair.out[1][..28]);
            return Err(fault(s, call, edition, told));
        }
        if let (Some(b), Some(next)) = (&b, next(&pair)) {
            let y = pair.call(&next).map_err(|e| fault(s, call, edition, format!("then {e}")))?.unwrap();
            let mut wanted = due(&then, b, edition);
            if a.what == FRAME && b.what != FRAME {
                // No frame went out after the one that the call itself put down.
                wanted.out[1].copy_from_slice(&due(&then, &a, edition).out[1]);
            }
            if y != *b || left(&pair) != left(&wanted) {
                let told = format!("then at both sides {y:?}, due {b:?}\n  {:?}\n  {:02x?}", pair.rec[1], &pair.out[1][..28]);
                return Err(fault(s, call, edition, told));
            }
            n += 1;
        }
        n += 1;
    }
    for value in VALUES.into_iter().filter(|value| *value != 0) {
        let edition = (false, value);
        let (x, pair) = at(s, edition, call)?;
        let mut before = s.pair.clone();
        name(&mut before, edition);
        if x != Answer::refused(1) || left(&pair) != left(&before) {
            return Err(fault(s, call, edition, format!("at both sides {x:?}, due 1 and nothing changed\n  {:?}", pair.rec[1])));
        }
        n += 1;
    }
    Ok((a, n))
}

/// Set-ups over the record, whatever it was before: READY as under SAS-1.1, or 1 and nothing changed.
fn set_up(s: &Script) -> Result<u64, String> {
    let write = matches!(s.pair.rec[0], Rec::Writer(_) | Rec::Target(_));
    let t = transfer(write, 8, 2, 1, 8);
    let (a, today) = at(s, TODAY, &Call::SetUp(t, 24))?;
    let mut n = 1;
    for before in [TODAY, (true, 7), (false, 7)] {
        for sas2 in [false, true] {
            for value in VALUES {
                let call = Call::SetUp(Transfer { sas2, value, ..t }, 24);
                let (x, pair) = at(s, before, &call)?;
                let wanted = if sas2 || value == 0 {
                    (a, named(today.rec[1], (sas2, value)))
                } else {
                    (Answer::refused(1), named(s.pair.rec[1], before))
                };
                if (x, pair.rec[1]) != wanted || pair.data != s.pair.data || pair.out != s.pair.out {
                    return Err(fault(s, &call, before, format!("at both sides {x:?} {:?}\n  due {wanted:?}", pair.rec[1])));
                }
                n += 1;
            }
        }
    }
    // A transfer that breaks a limit besides is 1 under either edition.
    for broken in [Transfer { count: 0, ..t }, Transfer { window: 65, ..t }, Transfer { burst: 9, ..t }, Transfer { local: 1 << 24, ..t }] {
        for (sas2, value) in [TODAY, (false, 7), (true, 0), (true, 7)] {
            let call = Call::SetUp(Transfer { sas2, value, ..broken }, 24);
            let (x, pair) = at(s, TODAY, &call)?;
            if x != Answer::refused(1) || pair.rec != s.pair.rec {
                return Err(fault(s, &call, TODAY, format!("at both sides {x:?}, due 1 and nothing changed")));
            }
            n += 1;
        }
    }
    Ok(n)
}

/// "Receivers of both ignore it": each frame of a type that carries it, with other TPTTs, is taken as with zero.
fn ignored(s: &Script) -> Result<u64, String> {
    let types: &[u8] = match s.pair.rec[0] {
        Rec::Receiver(_) => &[frame::DATA, frame::RESPONSE_TYPE],
        Rec::Writer(_) => &[frame::RESPONSE_TYPE],
        _ => return Ok(0),
    };
    let (mut n, lent) = (0, s.pair.data[0].len());
    for mut f in frames().into_iter().filter(|f| f.len() >= 20 && types.contains(&f[0])) {
        for flags in [0, 1, 2] {
            f[10] = flags;
            f[18..20].fill(0);
            let (a, zero) = at(s, TODAY, &Call::Frame(f.clone(), lent))?;
            for tptt in [1, 2, 0x00ff, 0x0100, 0x8001, 0xfffe, 0xffff] {
                f[18..20].copy_from_slice(&u16::to_be_bytes(tptt));
                for edition in [TODAY, (true, 0), (true, tptt), (true, !tptt)] {
                    let call = Call::Frame(f.clone(), lent);
                    let (x, pair) = at(s, edition, &call)?;
                    let wanted = due(&zero, &a, edition);
                    if x != a || left(&pair) != left(&wanted) {
                        return Err(fault(s, &call, edition, format!("at both sides {x:?}, with TPTT zero {a:?}")));
                    }
                    n += 1;
                }
            }
            n += 1;
        }
    }
    Ok(n)
}

/// Write DATA whose TPTT is the value and not the tag of the XFER_RDY: 8, "in write DATA also a TPTT not current".
fn not_current(s: &Script) -> Result<u64, String> {
    let Rec::Target(t) = s.pair.rec[0] else { return Ok(0) };
    let (mut n, lent) = (0, s.pair.data[0].len());
    for value in VALUES.into_iter().filter(|value| t.state == STATE_NONE || *value != t.tptt) {
        let call = Call::Frame(bytes(1, t.receiver.base, 0, value, &[0x77; 4]), lent);
        let number = if t.receiver.ended { 2 } else { 8 };
        let (x, pair) = at(s, (true, value), &call)?;
        if x != Answer::refused(number) || pair.rec[1] != named(s.pair.rec[1], (true, value)) || pair.data != s.pair.data {
            return Err(fault(s, &call, (true, value), format!("at both sides {x:?}, due {number}")));
        }
        n += 1;
    }
    Ok(n)
}

/// Every record of a role. `due`: answers that must have come up.
fn role(records: Vec<Script>, due: &[(u8, u8)]) -> Result<u64, String> {
    let (mut n, mut seen) = (0, BTreeSet::new());
    for s in &records {
        n += s.holds(true)?;
        for call in calls(&s.pair) {
            let (a, calls) = alike(s, &call)?;
            seen.insert((a.what, a.number));
            n += calls;
        }
        n += set_up(s)? + ignored(s)? + not_current(s)?;
    }
    match due.iter().find(|answer| !seen.contains(answer)) {
        None => Ok(n),
        Some(answer) => Err(format!("{answer:?} never came up, {seen:?}")),
    }
}

/// Calls compared, or the first difference.
pub(super) fn all() -> Result<u64, String> {
    let refused = |numbers: &[u8], more: &[(u8, u8)]| [&numbers.iter().map(|n| (REFUSED, *n)).collect::<Vec<_>>()[..], more].concat();
    let asked = [(WAIT, 0), (FRAME, 0), (RETRY, 0), (UNCHANGED, 0), (FAILED, 31)];
    let mut n = role(senders()?, &refused(&[1, 2, 3, 4, 5, 6], &[&asked[..], &[(TAKEN, 0), (DELIVERED, 0), (FAILED, 28)]].concat()))?;
    let stored = [(STORED, 0), (RECEIVED, 0), (DISCARDED, 0), (FAILED, 31)];
    n += role(read_receivers()?, &refused(&[1, 2, 5, 6, 7, 8], &[&stored[..], &[(RESPONSE, 0), (FAILED, 34)]].concat()))?;
    let bursts = [(NEXT_BURST, 0), (NEXT_BURST_DELIVERS, 0), (REPEATED, 0), (RESPONSE, 0), (FAILED, 25)];
    n += role(writers()?, &refused(&[1, 2, 3, 4, 5, 6, 7, 8], &[&asked[..], &bursts].concat()))?;
    n += role(targets()?, &refused(&[1, 2, 3, 4, 5, 6, 7, 8], &[&asked[..], &stored, &[(ACKNOWLEDGED, 0)]].concat()))?;
    Ok(n + role(responders()?, &refused(&[1, 2, 3, 4], &[&asked[..], &[(DELIVERED, 0), (FAILED, 28)]].concat()))?)
}
