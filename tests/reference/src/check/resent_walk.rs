//! K3 at every state that small writes get to. The walk goes over the initiator's records, from set-up and by events only; at each of them
//! XFER_RDYs of every sort arrive, and the run goes on for a few calls. What is due is told from the calls and answers before, by the
//! paper's sentences; no field of the record is looked at for it.
use super::pair::{Call, Pair, Rec};
use super::resent::xfer_rdy;
use super::vectors::{bytes, transfer};
use crate::frame;
use crate::records::*;
use std::collections::{BTreeSet, HashSet, VecDeque};

/// What came before, as calls and answers tell it.
#[derive(Clone, Copy, Default, PartialEq, Eq, Hash, Debug)]
struct Past {
    /// Base and end of the last burst taken, and of the other one that was taken before.
    last: Option<(u32, u32)>,
    other: Option<(u32, u32)>,
    tptt: u8,
    /// Up to where the last one's frames were handed out.
    out: u32,
    unanswered: u32,
    /// Frames since the burst in service began.
    frames: u64,
    /// The last one has to wait for answers; it was a repeat; that of one which had to wait.
    waits: bool,
    repeat: bool,
    again: bool,
    nak: bool,
    retried: bool,
    delivered: bool,
}

impl Past {
    /// `f`: what was handed out.
    fn note(&mut self, call: &Call, a: &Answer, f: &[u8]) {
        match (call, a.what) {
            (Call::Next(..), FRAME) => {
                let end = frame::header_of(f).offset + (a.len - 24) as u32 - u32::from(f[11]);
                self.out = self.out.max(end);
                self.unanswered += 1;
                self.frames += 1;
            }
            (Call::Ack | Call::Nak, TAKEN | DELIVERED) => {
                self.unanswered -= 1;
                self.nak |= *call == Call::Nak;
                self.delivered = a.what == DELIVERED;
            }
            (_, RETRY) => (self.unanswered, self.nak, self.retried) = (0, false, true),
            (Call::Timeout | Call::Cut, TAKEN) => self.unanswered = 0,
            (Call::Frame(f, _), NEXT_BURST | NEXT_BURST_DELIVERS | REPEATED) => {
                let number = |at: usize| u32::from_be_bytes([f[at], f[at + 1], f[at + 2], f[at + 3]]);
                let (base, repeat) = (number(24), a.what == REPEATED);
                *self = Past {
                    last: Some((base, base + number(28))),
                    other: if repeat { self.other } else { self.last },
                    tptt: f[19],
                    out: base,
                    waits: true,
                    repeat,
                    again: repeat && self.waits,
                    retried: false,
                    delivered: false,
                    ..*self
                };
            }
            _ => {}
        }
        if self.waits && self.unanswered == 0 {
            (self.waits, self.frames, self.nak) = (false, 0, false);
        }
    }

    /// The paper and K3 on an XFER_RDY with an IU of 12 bytes that passes 5 to 8.
    fn due(&self, count: u32, retransmit: bool, offset: u32, len: u32) -> Answer {
        let (base, end) = self.last.unwrap_or_default();
        if retransmit && self.last.is_some() && offset == base {
            return if len == end - base { Answer::is(REPEATED) } else { Answer::failed(25, self.frames) };
        }
        if offset != end {
            return Answer::failed(26, self.frames);
        }
        if self.out != end {
            return Answer::failed(27, self.frames);
        }
        if len == 0 || u64::from(offset) + u64::from(len) > u64::from(count) {
            return Answer::failed(25, self.frames);
        }
        if self.last.is_none() || self.delivered {
            return Answer::is(NEXT_BURST);
        }
        Answer::count(NEXT_BURST_DELIVERS, self.frames)
    }

    /// Where the run is, in words; every one of `STAGES` must come up.
    fn stage(&self) -> &'static str {
        let Some((base, end)) = self.last else { return "no burst" };
        match self {
            Past { waits: true, again: true, .. } => "a repeat of what waited waits",
            Past { waits: true, repeat: true, .. } => "a repeat waits",
            Past { waits: true, .. } => "the next burst waits",
            Past { delivered: true, .. } => "delivered",
            Past { nak: true, .. } => "NAK pending",
            Past { retried: true, .. } => "retried",
            _ if self.out == base => "none out",
            Past { unanswered: 0, .. } => "some out and answered",
            _ if self.out < end => "some out",
            _ => "all out",
        }
    }
}

const STAGES: [&str; 11] = [
    "no burst",
    "none out",
    "some out",
    "some out and answered",
    "all out",
    "NAK pending",
    "retried",
    "delivered",
    "the next burst waits",
    "a repeat waits",
    "a repeat of what waited waits",
];

#[derive(Clone)]
struct At {
    pair: Pair,
    past: Past,
    calls: u64,
}

impl At {
    fn call(&mut self, call: &Call) -> Result<Answer, String> {
        let a = self.pair.call(call).map_err(|e| format!("record: {}; {e}", self.past.stage()))?.unwrap();
        self.past.note(call, &a, &self.pair.out[1]);
        self.calls += 1;
        Ok(a)
    }

    /// The call, with what is due by the paper.
    fn gets(&mut self, call: Call, due: Answer) -> Result<(), String> {
        let (stage, before) = (self.past.stage(), self.pair.rec[1]);
        let a = self.call(&call)?;
        if a == due {
            return Ok(());
        }
        Err(format!("record: {stage}; {call:?}\n  before  {before:?}\n  at both sides {a:?}\n  due           {due:?}"))
    }

    fn next(&self) -> Call {
        Call::Next(self.pair.data[0].len(), self.pair.out[0].len())
    }

    fn frame(&self, f: Vec<u8>) -> Call {
        Call::Frame(f, self.pair.data[0].len())
    }

    /// A frame of the new burst is due: offset, CDP, tag.
    fn sends(&mut self, t: &Transfer, offset: u32, cdp: bool) -> Result<(), String> {
        let (_, end) = self.past.last.unwrap();
        let len = t.size.min(end - offset);
        self.gets(self.next(), Answer::length(frame::room(len as usize)))?;
        let (f, tptt) = (&self.pair.out[1], u16::from(self.past.tptt));
        let h = frame::header_of(f);
        let data = &f[24..24 + len as usize];
        if (h.offset, h.cdp, h.retransmit, h.tptt) == (offset, cdp, false, tptt) && *data == self.pair.data[1][offset as usize..][..len as usize] {
            return Ok(());
        }
        Err(format!("at both sides {:02x?}; due offset {offset}, CDP {cdp}, tag {tptt}", &f[..28]))
    }

    /// After an XFER_RDY that was taken, with this limit in force: "till then wait", and the whole burst goes out from its base.
    fn goes_on(&self, t: &Transfer, limit: u32) -> Result<u64, String> {
        let (base, end) = self.past.last.unwrap();
        let before = self.calls;
        let mut n = 0;
        // The answers come, then each frame and its answer.
        let mut at = self.clone();
        for k in 0..self.past.unanswered {
            at.gets(at.next(), Answer::is(WAIT))?;
            at.gets(if k % 2 == 0 { Call::Nak } else { Call::Ack }, Answer::is(TAKEN))?;
        }
        let mut frames = 0;
        for offset in (base..end).step_by(t.size as usize) {
            at.sends(t, offset, false)?;
            frames += 1;
            let last = offset + t.size >= end;
            at.gets(Call::Ack, if last { Answer::count(DELIVERED, frames) } else { Answer::is(TAKEN) })?;
        }
        at.gets(at.next(), Answer::is(WAIT))?;
        n += at.calls - before;
        // Timeout or cut, a frame; its answer is bad, with the limit that the new XFER_RDY has.
        let idle = self.past.unanswered == 0;
        let cases = [(Call::Timeout, Answer::refused(4), Call::Nak, 28), (Call::Cut, Answer::is(UNCHANGED), Call::Timeout, 29)];
        for (first, none, bad, number) in cases {
            let mut at = self.clone();
            at.gets(first, if idle { none } else { Answer::is(TAKEN) })?;
            at.sends(t, base, false)?;
            if limit > 0 {
                at.gets(bad, Answer::is(RETRY))?;
                at.sends(t, base, true)?;
                at.gets(at.frame(bytes(7, 0, 0, 0, &[0; 24])), Answer { start: 24, len: 24, ..Answer::count(RESPONSE, 2) })?;
            } else {
                at.gets(bad, Answer::failed(number, 1))?;
            }
            at.gets(at.next(), Answer::refused(2))?;
            n += at.calls - before;
        }
        Ok(n)
    }

    /// One XFER_RDY at a copy of the record, and what follows.
    fn tried(&self, t: &Transfer, byte_10: u8, offset: u32, len: u32) -> Result<u64, String> {
        let mut at = self.clone();
        at.calls = 0;
        let due = self.past.due(t.count, byte_10 & 2 != 0, offset, len);
        at.gets(at.frame(xfer_rdy(byte_10, 2, offset, len)), due)?;
        if due.what != FAILED {
            return Ok(at.calls + at.goes_on(t, if byte_10 & 4 != 0 { t.limit } else { 0 })?);
        }
        at.ended(self)?;
        Ok(at.calls)
    }

    /// A failure takes nothing of the frame, and each later call is 2.
    fn ended(&mut self, before: &At) -> Result<(), String> {
        let (Rec::Writer(old), Rec::Writer(new)) = (before.pair.rec[1], self.pair.rec[1]) else { unreachable!() };
        let sender = Sender { unanswered: 0, nak: false, ended: true, ..old.sender };
        if new != (Writer { sender, ..old }) {
            return Err(format!("record: {}; a failure left at both sides\n  {new:?}\n  of {old:?}", before.past.stage()));
        }
        let (base, end) = self.past.last.unwrap_or_default();
        for call in [self.next(), Call::Ack, Call::Timeout, self.frame(xfer_rdy(6, 3, base, end - base))] {
            self.gets(call, Answer::refused(2))?;
        }
        Ok(())
    }

    /// Offsets and lengths at which something ends, each with RETRANSMIT and RETRY DATA FRAMES one and zero.
    fn probes(&self, t: &Transfer) -> Result<u64, String> {
        let ((base, end), (low, high)) = (self.past.last.unwrap_or_default(), self.past.other.unwrap_or_default());
        let mut n = 0;
        let offsets = BTreeSet::from([0, base, end, low, base + 1, base.wrapping_sub(1), end.wrapping_sub(1), end + 1, t.count, u32::MAX]);
        for offset in offsets {
            let (own, left) = (end - base, t.count.saturating_sub(offset));
            // At other offsets the length does not count: a few are enough.
            let all = BTreeSet::from([0, 1, own.wrapping_sub(1), own, own + 1, high - low, left, left + 1, u32::MAX]);
            let few = BTreeSet::from([0, own, own + 1, left + 1]);
            for len in if offset == base || offset == end { all } else { few } {
                for byte_10 in [0, 2, 4, 6] {
                    n += self.tried(t, byte_10, offset, len)?;
                }
            }
        }
        Ok(n + self.misfits(base, end)? + self.misfits(end, end)?)
    }

    /// 5 to 8 leave all as it was; 23 and 24 go before the length.
    fn misfits(&self, offset: u32, end: u32) -> Result<u64, String> {
        let mut n = 0;
        for len in [end - offset, end - offset + 1] {
            let f = xfer_rdy(6, 2, offset, len);
            for (at, bit, number) in [(0, 0x40, 6), (1, 1, 7), (6, 0x80, 7), (17, 1, 8), (16, 0x80, 8)] {
                let mut g = f.clone();
                g[at] ^= bit;
                n += self.refuses(g, number)?;
            }
            n += self.refuses(f[..35].to_vec(), 5)?;
            for (iu, number) in [(11, 23), (13, 24)] {
                let mut g = f.clone();
                g.resize(if iu == 11 { 36 } else { 40 }, 0);
                g[11] = (g.len() - 24 - iu) as u8;
                let mut at = self.clone();
                at.calls = 0;
                at.gets(at.frame(g), Answer::failed(number, self.past.frames))?;
                at.ended(self)?;
                n += at.calls;
            }
        }
        Ok(n)
    }

    fn refuses(&self, f: Vec<u8>, number: u8) -> Result<u64, String> {
        let mut at = self.clone();
        at.gets(at.frame(f), Answer::refused(number))?;
        if at.pair.rec == self.pair.rec {
            return Ok(1);
        }
        Err(format!("record: {}; {number} changed it at both sides: {:?}", self.past.stage(), at.pair.rec[1]))
    }
}

/// Each burst ends at one of `ends`; byte 10 of the XFER_RDYs is `flags`, and RETRANSMIT in a repeat.
fn walk(t: Transfer, ends: &[u32], flags: u8, seen: &mut BTreeSet<&'static str>) -> Result<u64, String> {
    let data = (0..t.count).map(|i| 0x40 + i as u8).collect();
    let mut at = At { pair: Pair::new(Rec::Writer(Writer::default()), data, 32), past: Past::default(), calls: 0 };
    at.gets(Call::SetUp(t, 0), Answer::is(READY))?;
    let (mut n, mut known) = (1, HashSet::from([(at.pair.rec[1], at.past)]));
    let mut list = VecDeque::from([at]);
    while let Some(at) = list.pop_front() {
        seen.insert(at.past.stage());
        n += at.probes(&t)?;
        let (base, end) = at.past.last.unwrap_or_default();
        let mut events = vec![at.next(), Call::Ack, Call::Nak, Call::Timeout, Call::Cut];
        // Another tag at each, of two only, so that the walk comes to an end.
        if base < end {
            events.push(at.frame(xfer_rdy(flags | 2, 1 - at.past.tptt, base, end - base)));
        }
        if let (true, Some(to)) = (at.past.out == end, ends.iter().find(|to| **to > end)) {
            events.push(at.frame(xfer_rdy(flags, 1 - at.past.tptt, end, to - end)));
        }
        for call in events {
            let mut next = at.clone();
            let a = next.call(&call)?;
            n += 1;
            if a.what != FAILED && known.insert((next.pair.rec[1], next.past)) {
                list.push_back(next);
            }
        }
    }
    Ok(n)
}

/// Calls compared, or the first difference.
pub fn all() -> Result<u64, String> {
    let (mut n, mut seen) = (0, BTreeSet::new());
    // Count, window, limit, ends of the bursts, byte 10.
    let plans: [(u32, u32, u32, &[u32], u8); 9] = [
        (14, 2, 1, &[6, 9], 4),
        (12, 3, 1, &[4, 12], 4),
        (9, 1, 2, &[5, 9], 4),
        (14, 2, 0, &[8, 10], 4),
        (13, 2, 2, &[6], 0),
        (17, 3, 1, &[10, 15, 17], 4),
        (6, 2, 1, &[1, 3, 6], 4),
        (8, 2, 1, &[8], 4),
        (16, 3, 2, &[9, 14], 4),
    ];
    for (count, window, limit, ends, flags) in plans {
        n += walk(transfer(true, count, window, limit, count), ends, flags, &mut seen)?;
    }
    match STAGES.iter().find(|stage| !seen.contains(*stage)) {
        None => Ok(n),
        Some(stage) => Err(format!("no record came up: {stage}")),
    }
}
