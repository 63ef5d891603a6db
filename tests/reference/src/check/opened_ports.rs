//! K9 at both initiators, with records at every stage: the whole answer, the whole record and the part are held against what is due. What
//! the calls before tell of a record stands beside it; a refusal goes before 32 and 34, and its part is empty.
use super::headers::{reserved, with};
use super::opened::{place_due, reference_place, Iu, RESTS};
use super::opened_iu::SHAPES;
use super::pair::{Call, Pair, Rec, CALLS};
use super::states::{asked, sends, taken};
use super::tlr_ports::{read_senders, targets};
use super::vectors::*;
use crate::records::*;
use crate::{ffi, frame};
use std::sync::atomic::Ordering::Relaxed;

/// A record and what a RESPONSE finds: the frames of the burst in service, or None where the record has ended.
pub(super) struct At {
    script: Script,
    frames: Option<u64>,
}

fn data(offset: u32, cdp: u8, len: usize) -> Vec<u8> {
    bytes(1, offset, cdp, 0, &vec![0xc7; len])
}

fn readers() -> Result<Vec<At>, String> {
    let new = |name, limit, frames: &[(Vec<u8>, (u8, u8))]| -> Result<At, String> {
        let mut script = read_receiver(name, 12, limit)?;
        let mut ended = false;
        for (f, due) in frames {
            let a = script.arrives(f.clone(), *due)?;
            ended |= a.what == FAILED || a.what == RESPONSE;
        }
        Ok(At { script, frames: (!ended).then_some(0) })
    };
    let (stored, discarded) = ((STORED, 0), (DISCARDED, 0));
    let mut lost = read_receiver("ended, 31", 12, 1)?;
    lost.call(Call::Loss, (FAILED, 31))?;
    Ok(vec![
        new("fresh", 1, &[])?,
        new("stored", 1, &[(data(0, 0, 4), stored)])?,
        new("waiting", 1, &[(data(0, 0, 4), stored), (data(8, 0, 4), discarded)])?,
        new("expected below filled", 1, &[(data(0, 0, 8), stored), (data(0, 1, 4), stored)])?,
        new("filled", 1, &[(data(0, 0, 12), (RECEIVED, 0))])?,
        new("filled, resent", 1, &[(data(0, 0, 12), (RECEIVED, 0)), (data(0, 1, 4), discarded)])?,
        new("retries off", 0, &[(data(0, 0, 4), stored)])?,
        new("ended, RESPONSE", 1, &[(bytes(7, 0, 0, 0, &response_iu(0, 42)), (RESPONSE, 0))])?,
        new("ended, 34", 1, &[(bytes(7, 0, 0, 0, &[3; 24]), (FAILED, 34))])?,
        new("ended, 32", 1, &[(bytes(7, 0, 0, 0, &[3; 23]), (FAILED, 32))])?,
        new("ended, 20", 1, &[(data(12, 0, 4), (FAILED, 20))])?,
        At { script: lost, frames: None },
    ])
}

fn writers() -> Result<Vec<At>, String> {
    // Twelve bytes, window 2; a burst from 0 under tag 0, frames out at these offsets, then these calls.
    let out = |name, limit, len, at: &[u32], calls: &[(Call, (u8, u8))]| -> Result<At, String> {
        let mut script = asked(name, 12, 2, limit, len)?;
        sends(&mut script, 0, at)?;
        let mut ended = false;
        for (call, due) in calls {
            let a = script.call(call.clone(), *due)?;
            ended |= a.what == FAILED || a.what == RESPONSE;
        }
        Ok(At { script, frames: (!ended).then_some(at.len() as u64) })
    };
    let frame = |f| Call::Frame(f, 12);
    let (next, again) = ((NEXT_BURST_DELIVERS, 0), (REPEATED, 0));
    let (waits, nak, retry) = ((Call::Ack, (TAKEN, 0)), (Call::Nak, (TAKEN, 0)), (Call::Timeout, (RETRY, 0)));
    let mut resent = out("retried, resent", 1, 8, &[0], std::slice::from_ref(&retry))?;
    resent.script.frame(0, 1, 0)?;
    resent.frames = Some(2);
    let mut started = out("the second started", 1, 4, &[0], &[(frame(ready(4, 8, 4, 1)), next), waits.clone()])?;
    started.script.frame(4, 0, 1)?;
    taken(&mut started.script, &[Call::Ack])?;
    Ok(vec![
        At { script: writer("no burst", 12, 2, 1)?, frames: Some(0) },
        out("none out", 1, 8, &[], &[])?,
        out("one out", 1, 8, &[0], &[])?,
        out("one answered", 1, 8, &[0], std::slice::from_ref(&waits))?,
        out("all out", 1, 8, &[0, 4], &[])?,
        out("delivered", 1, 8, &[0, 4], &[waits.clone(), (Call::Ack, (DELIVERED, 0))])?,
        out("all delivered", 1, 4, &[0], &[(Call::Ack, (DELIVERED, 0))])?,
        out("NAK pending", 1, 8, &[0, 4], std::slice::from_ref(&nak))?,
        out("retried", 1, 8, &[0, 4], std::slice::from_ref(&retry))?,
        resent,
        out("the next burst waits", 1, 4, &[0], &[(frame(ready(4, 8, 4, 1)), next)])?,
        out("a repeat waits", 1, 8, &[0, 4], &[(frame(ready(0, 8, 6, 1)), again)])?,
        out("a repeat waits, NAK pending", 1, 8, &[0, 4], &[nak.clone(), (frame(ready(0, 8, 6, 1)), again)])?,
        out("a repeat of what waited waits", 1, 4, &[0], &[(frame(ready(4, 8, 4, 1)), next), (frame(ready(4, 8, 6, 2)), again)])?,
        started,
        out("retries off", 0, 8, &[0], &[])?,
        out("ended, RESPONSE", 1, 8, &[0], &[(frame(bytes(7, 0, 0, 0, &response_iu(0, 42))), (RESPONSE, 0))])?,
        out("ended, 34", 1, 8, &[0], &[(frame(bytes(7, 0, 0, 0, &[3; 24])), (FAILED, 34))])?,
        out("ended, 32", 1, 8, &[0], &[(frame(bytes(7, 0, 0, 0, &[3; 23])), (FAILED, 32))])?,
        out("ended, 25", 1, 8, &[0], &[(frame(ready(0, 7, 6, 1)), (FAILED, 25))])?,
        out("ended, 28", 0, 8, &[0], &[(Call::Nak, (FAILED, 28))])?,
        out("ended, 31, a burst waited", 1, 4, &[0], &[(frame(ready(4, 8, 4, 1)), next), (Call::Loss, (FAILED, 31))])?,
    ])
}

/// The IU in a frame for the record. With n the flags, TPTT, data offset, the header's reserved bits and the fill change: none counts.
fn framed(iu: &Iu, n: usize) -> Vec<u8> {
    let mut f = bytes(7, [0, 9, u32::MAX][n % 3], (n % 32) as u8, [0, 1, 0xffff][n / 3 % 3], &iu.bytes());
    f[24 + iu.len..].fill([0, 0xff, 0x5a][n / 2 % 3]);
    if n % 5 < 2 {
        f = reserved(f);
    }
    f
}

/// "A RESPONSE ends the command", and 32 or 34 the port: nothing is unanswered and no NAK pending, all else stays.
pub(super) fn closed(rec: Rec) -> Rec {
    match rec {
        Rec::Receiver(r) => Rec::Receiver(Receiver { ended: true, ..r }),
        Rec::Writer(w) => Rec::Writer(Writer { sender: Sender { unanswered: 0, nak: false, ended: true, ..w.sender }, ..w }),
        other => other,
    }
}

impl At {
    /// The call at a copy of the record; the answer, the record and the part that are due, and no byte of the data changed.
    fn gets(&self, f: &[u8], lent: usize, due: Answer) -> Result<Pair, String> {
        let mut pair = self.script.pair.clone();
        let name = self.script.name;
        let a = pair.call(&Call::Frame(f.to_vec(), lent)).map_err(|e| format!("record {name}: {e}"))?.unwrap();
        let before = &self.script.pair;
        let rec = if due.what == REFUSED { before.rec[1] } else { closed(before.rec[1]) };
        let kept = pair.data == before.data && pair.out == before.out;
        if a == due && pair.rec[1] == rec && kept && reference_place(&a, f)? == place_due(&due) {
            return Ok(pair);
        }
        let (was, is) = (before.rec[1], pair.rec[1]);
        Err(format!("record {name}: {f:02x?}\n  at both sides {a:?}\n  due           {due:?}\n  before {was:?}\n  after  {is:?}"))
    }

    fn lent(&self) -> usize {
        self.script.pair.data[0].len()
    }

    /// A RESPONSE; then each call is 2, another RESPONSE too, and the part is empty.
    fn tried(&self, iu: &Iu, n: usize) -> Result<u64, String> {
        let f = framed(iu, n);
        let due = self.frames.map_or(Answer::refused(2), |frames| iu.due_at(frames));
        let mut pair = self.gets(&f, self.lent(), due)?;
        let room = pair.out[0].len();
        let mut calls = 2;
        for call in [Call::Next(self.lent(), room), Call::Timeout, Call::Frame(f, self.lent())] {
            let rec = pair.rec[1];
            let Some(a) = pair.call(&call)? else { continue };
            calls += 1;
            if a != Answer::refused(2) || pair.rec[1] != rec {
                return Err(format!("record {}, after {due:?}: {call:?} gave {a:?} at both sides, due 2", self.script.name));
            }
        }
        Ok(calls)
    }

    /// 1, 5, 6, 7 and 8 go before 32 and 34; 2 goes before 5.
    fn refusals(&self, iu: &Iu, n: usize) -> Result<u64, String> {
        let f = framed(iu, n);
        let mut cases = vec![(f[..f.len() - 1].to_vec(), 5), (f[..20].to_vec(), 5), ([&f[..], &[0; 1028]].concat(), 5), (vec![], 5)];
        cases.push((with(f[..24].to_vec(), 11, 1), 5));
        cases.extend([0, 2, 6, 0x16, 0x17, 0x27, 0x87, 0xff].map(|kind| (with(f.clone(), 0, kind), 6)));
        if matches!(self.script.pair.rec[0], Rec::Writer(_)) {
            cases.push((with(f.clone(), 0, 1), 6));
        }
        for (at, number) in [(1, 7), (2, 7), (3, 7), (5, 7), (6, 7), (7, 7), (16, 8), (17, 8)] {
            cases.extend([1, 0x80].map(|bit| (with(f.clone(), at, f[at] ^ bit), number)));
        }
        for (f, number) in &cases {
            self.gets(f, self.lent(), Answer::refused(if self.frames.is_some() { *number } else { 2 }))?;
        }
        let mut calls = 2 * cases.len() as u64;
        if matches!(self.script.pair.rec[0], Rec::Receiver(_)) {
            for lent in [0, self.lent() - 1] {
                self.gets(&f, lent, Answer::refused(1))?;
                calls += 2;
            }
        }
        Ok(calls)
    }

    /// Every IU length with each kind; what follows byte 24, one less and one more as the length in it.
    fn lengths(&self) -> Result<u64, String> {
        let mut calls = 0;
        for len in 0..=1024usize {
            let list = len.saturating_sub(24) as u32;
            let cases = [
                (0, list, u32::MAX),
                (1, list, 4),
                (1, 4, list),
                (2, list, 4),
                (2, list.wrapping_sub(1), list),
                (2, list + 1, list),
                (3, list, 4),
            ];
            for (i, (kind, sense, response)) in cases.into_iter().enumerate() {
                let iu = Iu {
                    byte_10: kind | ((len + i) as u8) << 2,
                    status: (len * 3) as u8,
                    sense,
                    response,
                    len,
                    rest: RESTS[(len + i) % 3],
                };
                calls += self.tried(&iu, len * 7 + i)?;
            }
        }
        Ok(calls)
    }

    /// All values of byte 10 and of byte 11, with IUs that one kind or another takes.
    fn kinds(&self) -> Result<u64, String> {
        let mut calls = 0;
        for (i, (_, sense, response, len)) in SHAPES.into_iter().enumerate() {
            for byte_10 in 0..=255u8 {
                let status = byte_10.wrapping_mul(167) ^ i as u8;
                let iu = Iu { byte_10, status, sense, response, len, rest: RESTS[i % 3] };
                calls += self.tried(&iu, usize::from(byte_10) + i)?;
            }
        }
        Ok(calls)
    }
}

/// Records that number 1 shuts out, each by one field.
fn broken() -> Result<Vec<At>, String> {
    let mut all = Vec::new();
    let transfers: [fn(&mut Transfer); 9] = [
        |t| t.write = !t.write,
        |t| t.size = 6,
        |t| t.window = 65,
        |t| t.limit = 16,
        |t| t.burst = 0,
        |t| t.burst = 13,
        |t| t.local = 1 << 24,
        |t| t.remote = 1 << 24,
        |t| t.value = 1,
    ];
    let receivers: [fn(&mut Receiver); 4] = [|r| r.base = 5, |r| r.expected = 5, |r| r.filled = 13, |r| r.end = 13];
    let senders: [fn(&mut Writer); 12] = [
        |w| w.sender.burst.base = 9,
        |w| w.sender.burst.end = 13,
        |w| w.sender.burst.limit = 2,
        |w| w.sender.balance = 9,
        |w| w.sender.next = 9,
        |w| w.sender.unanswered = 3,
        |w| w.sender.retries = 2,
        |w| w.sender.frames = 1 << 60,
        |w| w.reached = 9,
        |w| w.taken.end = 13,
        |w| w.taken.base = 1,
        |w| w.taken.limit = 2,
    ];
    for ended in [false, true] {
        for k in 0..transfers.len() + receivers.len() {
            let mut at = readers()?.swap_remove(1);
            at.script.pair.rec.iter_mut().for_each(|rec| {
                let Rec::Receiver(r) = rec else { unreachable!() };
                r.ended = ended;
                if k < transfers.len() {
                    transfers[k](&mut r.transfer)
                } else {
                    receivers[k - transfers.len()](r)
                }
            });
            all.push(at);
        }
        for k in 0..transfers.len() + senders.len() {
            let mut at = writers()?.swap_remove(2);
            at.script.pair.rec.iter_mut().for_each(|rec| {
                let Rec::Writer(w) = rec else { unreachable!() };
                w.sender.ended = ended;
                if k < transfers.len() {
                    transfers[k](&mut w.sender.transfer)
                } else {
                    senders[k - transfers.len()](w)
                }
            });
            all.push(at);
        }
    }
    Ok(all)
}

/// The frame reader gives the IU of any RESPONSE and does not open it: no 32, no 34, no kind, status or sense.
pub(super) fn reader() -> Result<u64, String> {
    let mut n = 0;
    for len in 0..=1024usize {
        for byte_10 in 0..4 {
            let list = len.saturating_sub(24) as u32;
            let f = framed(&Iu { byte_10, status: 2, sense: list, response: list, len, rest: RESTS[len % 3] }, len);
            let mut headers = [Header::default(); 2];
            let a = frame::read(&mut headers[0], &f);
            CALLS.fetch_add(1, Relaxed);
            let b = unsafe { ffi::ssp_frame_read(&mut headers[1], f.as_ptr(), f.len()) };
            let due = Answer { what: PARSED, start: 24, len, ..Answer::default() };
            if a != b || b != due || headers[0] != headers[1] {
                return Err(format!("frame reader, {f:02x?}\n  reference {a:?}\n  library   {b:?}\n  due       {due:?}"));
            }
            n += 1;
        }
    }
    Ok(n)
}

/// Calls compared, or the first difference.
pub fn all() -> Result<u64, String> {
    let mut n = 0;
    // Taken; 34; 32.
    let shapes = || SHAPES.into_iter().chain([(3, 18, 4, 42), (2, 18, 0, 41), (0, 0, 0, 27), (2, 1, 0, 23)]).enumerate();
    let iu = |i: usize, (byte_10, sense, response, len)| Iu { byte_10, status: 2, sense, response, len, rest: RESTS[i % 3] };
    for (role, records) in [("read, initiator", readers()?), ("write, initiator", writers()?)] {
        for at in &records {
            let told = |e| format!("{role}: {e}");
            n += at.script.holds(true)? + at.lengths().map_err(told)? + at.kinds().map_err(told)?;
            for (i, shape) in shapes() {
                n += at.refusals(&iu(i, shape), i).map_err(told)?;
            }
        }
    }
    for at in broken()? {
        for (i, shape) in shapes() {
            at.gets(&framed(&iu(i, shape), i), at.lent(), Answer::refused(1))?;
            n += 2;
        }
    }
    // The target takes no RESPONSE.
    for script in read_senders()?.into_iter().chain(targets()?) {
        let number = if script.name == "ended" { 2 } else { 6 };
        let at = At { script, frames: None };
        for (i, shape) in shapes() {
            at.gets(&framed(&iu(i, shape), i), at.lent(), Answer::refused(number))?;
            n += 2;
        }
    }
    Ok(n)
}
