//! K8 at the ports. They act on nothing there: frames that differ only in TLR CONTROL are taken alike, by records at every stage and in
//! whole runs. They write 0: no frame goes out with one of these bits, or a reserved one beside them.
use super::bursts::second;
use super::pair::{Call, Pair, Rec};
use super::states::{asked, open, sends, taken};
use super::vectors::*;
use super::world::{self, World};
use crate::records::*;
use std::collections::BTreeSet;

/// What stands in bits 7 to 3 of byte 10: the four values of TLR CONTROL; then the reserved bits, without and with it.
const HIGH: [u8; 6] = [0, 8, 0x10, 0x18, 0xe0, 0xf8];

fn data(offset: u32, flags: u8, tptt: u16, len: usize) -> Vec<u8> {
    bytes(1, offset, flags, tptt, &vec![0xc7; len])
}

/// The record after these frames, each with what is due.
fn after(mut s: Script, frames: &[(Vec<u8>, u8)]) -> Result<Script, String> {
    for (f, what) in frames {
        s.arrives(f.clone(), (*what, 0))?;
    }
    Ok(s)
}

pub(super) fn read_receivers() -> Result<Vec<Script>, String> {
    let new = |name| read_receiver(name, 12, 1);
    let response = bytes(7, 0, 0, 0, &[0; 24]);
    Ok(vec![
        new("fresh")?,
        after(new("stored")?, &[(data(0, 0, 0, 4), STORED)])?,
        after(new("waiting")?, &[(data(0, 0, 0, 4), STORED), (data(8, 0, 0, 4), DISCARDED)])?,
        after(new("expected below filled")?, &[(data(0, 0, 0, 8), STORED), (data(0, 1, 0, 4), STORED)])?,
        after(new("filled")?, &[(data(0, 0, 0, 12), RECEIVED)])?,
        after(new("ended")?, &[(response, RESPONSE)])?,
        after(read_receiver("no retries", 12, 0)?, &[(data(0, 0, 0, 4), STORED)])?,
    ])
}

pub(super) fn writers() -> Result<Vec<Script>, String> {
    // Twelve bytes, window 2, limit 1; a burst from 0, some of it out.
    let out = |name, len, at: &[u32]| -> Result<Script, String> {
        let mut s = asked(name, 12, 2, 1, len)?;
        sends(&mut s, 0, at)?;
        Ok(s)
    };
    let mut delivered = out("delivered", 4, &[0])?;
    delivered.call(Call::Ack, (DELIVERED, 0))?;
    let mut nak = out("NAK pending", 8, &[0, 4])?;
    taken(&mut nak, &[Call::Nak])?;
    let mut retry = out("retry", 8, &[0])?;
    retry.call(Call::Timeout, (RETRY, 0))?;
    Ok(vec![
        writer("fresh", 12, 2, 1)?,
        out("asked", 8, &[])?,
        out("under way", 8, &[0])?,
        out("all out", 8, &[0, 4])?,
        delivered,
        nak,
        retry,
        after(out("burst pending", 4, &[0])?, &[(ready(4, 4, 4, 1), NEXT_BURST_DELIVERS)])?,
        after(out("burst pending again", 8, &[0])?, &[(ready(0, 8, 6, 1), REPEATED)])?,
        after(out("ended", 8, &[0])?, &[(bytes(7, 0, 0, 0, &[0; 24]), RESPONSE)])?,
        after(writer("no retries", 12, 2, 0)?, &[(ready(0, 8, 0, 0), NEXT_BURST)])?,
    ])
}

pub(super) fn targets() -> Result<Vec<Script>, String> {
    let mut unanswered = target("XFER_RDY out", 12, 1, 8)?;
    unanswered.frame(0, 4, 0)?;
    let mut again = target("XFER_RDY to be sent again", 12, 1, 8)?;
    again.frame(0, 4, 0)?;
    again.call(Call::Timeout, (RETRY, 0))?;
    let mut resent = target("XFER_RDY resent", 12, 1, 8)?;
    resent.frame(0, 4, 0)?;
    resent.call(Call::Nak, (RETRY, 0))?;
    resent.frame(0, 6, 1)?;
    resent.call(Call::Ack, (ACKNOWLEDGED, 0))?;
    let mut ended = open("ended", 12, 1, 8)?;
    ended.call(Call::Loss, (FAILED, 31))?;
    Ok(vec![
        target("fresh", 12, 1, 8)?,
        unanswered,
        again,
        resent,
        ended,
        open("open", 12, 1, 8)?,
        after(open("stored", 12, 1, 8)?, &[(data(0, 0, 0, 4), STORED)])?,
        after(open("waiting", 12, 1, 8)?, &[(data(4, 0, 0, 4), DISCARDED)])?,
        after(open("expected below filled", 12, 1, 12)?, &[(data(0, 0, 0, 8), STORED), (data(0, 1, 0, 4), STORED)])?,
        after(open("filled, more due", 12, 1, 8)?, &[(data(0, 0, 0, 8), RECEIVED)])?,
        after(open("filled", 12, 1, 12)?, &[(data(0, 0, 0, 12), RECEIVED)])?,
        second("second burst", 1)?,
        open("no retries", 12, 0, 8)?,
    ])
}

pub(super) fn read_senders() -> Result<Vec<Script>, String> {
    let mut nak = read_sender("NAK pending", 12, 2, 1)?;
    sends(&mut nak, 0, &[0, 4])?;
    taken(&mut nak, &[Call::Nak])?;
    let mut retry = read_sender("retry", 12, 2, 1)?;
    sends(&mut retry, 0, &[0])?;
    retry.call(Call::Cut, (RETRY, 0))?;
    let mut ended = read_sender("ended", 12, 2, 1)?;
    ended.call(Call::Loss, (FAILED, 31))?;
    Ok(vec![read_sender("fresh", 12, 2, 1)?, nak, retry, ended])
}

/// Frames of all kinds, byte 10 zero: well placed for one record or another, misplaced, malformed.
pub(super) fn frames() -> Vec<Vec<u8>> {
    let mut all = Vec::new();
    for tptt in [0, 1, 2] {
        for offset in [0, 2, 4, 8, 12, u32::MAX] {
            all.extend([0, 1, 4, 8, 12, 13].map(|len| data(offset, 0, tptt, len)));
            all.extend([0, 1, 4, 8, 12, u32::MAX].map(|len| ready(offset, len, 0, tptt)));
        }
    }
    all.extend([0, 11, 13, 16].map(|len| bytes(5, 0, 0, 0, &vec![0; len])));
    all.extend([0, 23].map(|len| bytes(7, 0, 0, 0, &vec![0; len])));
    all.extend([24, 27, 1024].map(|len| bytes(7, 0, 0, 0, &response_iu(0, len))));
    // K9: no data, and bytes after them.
    all.push(bytes(7, 0, 0, 0, &[0; 27]));
    let placed = [data(0, 0, 0, 4), ready(0, 8, 0, 0), bytes(7, 0, 0, 0, &[0; 24])];
    for f in placed {
        // Other types, another address, another tag; then lengths and a fill that do not fit.
        all.extend([0, 2, 6, 0x16, 0xff].map(|kind| [&[kind], &f[1..]].concat()));
        for at in [1, 7, 17] {
            let mut g = f.clone();
            g[at] ^= 1;
            all.push(g);
        }
        all.extend([11, 20, 23, 25, 26].map(|len| f[..len].to_vec()));
        all.push([&f[..], &[0; 1028]].concat());
        let mut g = f[..24].to_vec();
        g[11] = 1;
        all.push(g);
    }
    all
}

/// What a call left at the library.
fn left(pair: &Pair) -> (&Rec, &[u8], &[u8]) {
    (&pair.rec[1], &pair.data[1], &pair.out[1])
}

/// One frame with each value of the high bits, each at a copy of the record. The answer, and the calls compared.
fn alike(s: &Script, f: &[u8]) -> Result<(Answer, u64), String> {
    let lent = s.pair.data[0].len();
    let arrives = |high: u8| -> Result<(Answer, Pair), String> {
        let (mut pair, mut f) = (s.pair.clone(), f.to_vec());
        f[10] |= high;
        let a = pair.call(&Call::Frame(f, lent)).map_err(|e| format!("record {}: {e}", s.name))?.unwrap();
        Ok((a, pair))
    };
    let (due, first) = arrives(0)?;
    for high in &HIGH[1..] {
        let (a, pair) = arrives(*high)?;
        if a != due || left(&pair) != left(&first) {
            let (name, x, y) = (s.name, first.rec[1], pair.rec[1]);
            return Err(format!("record {name}: at both sides {due:?}, with {high:02x} in byte 10 {a:?}\n  {x:?}\n  {y:?}\n  {f:02x?}"));
        }
    }
    Ok((due, HIGH.len() as u64))
}

/// Every record with every frame and all eight values of the flags. `due`: the answers that must have come up.
fn role(records: Vec<Script>, due: &[(u8, u8)]) -> Result<u64, String> {
    let (mut n, mut seen) = (0, BTreeSet::new());
    for s in &records {
        n += s.holds(true)?;
        for mut f in frames() {
            for flags in 0..8 {
                f[10] = flags;
                let (a, calls) = alike(s, &f)?;
                seen.insert((a.what, a.number));
                n += calls;
            }
        }
    }
    match due.iter().find(|answer| !seen.contains(answer)) {
        None => Ok(n),
        Some(answer) => Err(format!("{answer:?} never came up, {seen:?}")),
    }
}

/// The frames on the way.
fn way(w: &mut World) -> impl Iterator<Item = &mut Vec<u8>> {
    w.data.frames.iter_mut().chain(&mut w.ready.frames).chain(&mut w.response)
}

fn pairs(w: &World) -> [&Pair; 3] {
    [&w.sender, &w.receiver, &w.responder]
}

/// Frames handed out so far: in a write, type, byte 10.
type Out = BTreeSet<(bool, u8, u8)>;

/// A run beside itself: in the second world each frame on the way has a TLR CONTROL. Records, buffers and what goes out stay the same.
fn beside(seed: u64, out: &mut Out) -> Result<u64, String> {
    let (t, list) = world::from_seed(seed);
    let (mut zero, mut marked) = (World::new(t)?, World::new(t)?);
    for w in [&mut zero, &mut marked] {
        for pair in [&mut w.sender, &mut w.receiver, &mut w.responder] {
            // Ones, so that a bit left as it was shows.
            pair.out.iter_mut().for_each(|out| out.fill(0xff));
        }
    }
    for (i, event) in list.iter().enumerate() {
        let at = i + 1;
        zero.step(*event).map_err(|e| format!("event {at}: {e}"))?;
        marked.step(*event).map_err(|e| format!("event {at}, with TLR CONTROL on the way: {e}"))?;
        if pairs(&zero).map(left) != pairs(&marked).map(left) {
            return Err(format!("event {at}, with TLR CONTROL on the way: another record, buffer or frame at both sides"));
        }
        for (k, (f, g)) in way(&mut zero).zip(way(&mut marked)).enumerate() {
            if f[10] & 0xf8 != 0 {
                return Err(format!("event {at}: handed out at both sides with byte 10 {:02x}", f[10]));
            }
            out.insert((t[0].write, f[0], f[10]));
            g[10] = f[10] | HIGH[1 + (i + k) % 3];
        }
    }
    Ok(zero.calls + marked.calls)
}

fn runs() -> Result<u64, String> {
    let (mut n, mut out) = (0, Out::new());
    for seed in 1..=600 {
        n += beside(seed, &mut out).map_err(|e| format!("run of seed {seed}, {e}"))?;
    }
    // DATA of a read and of a write, XFER_RDY without and with retries, RESPONSE: first and resent.
    let mut due = vec![(true, 5, 0), (true, 5, 4), (true, 5, 6)];
    for write in [false, true] {
        due.extend([(1, 0), (1, 1), (7, 0), (7, 2)].map(|(kind, byte)| (write, kind, byte)));
    }
    if out != due.iter().copied().collect() {
        return Err(format!("frames handed out {out:?}, due {due:?}"));
    }
    Ok(n)
}

/// Calls compared, or the first difference. Each role must give every answer that the header lists for an arrival, but for 1: no record here
/// is a broken one.
pub fn all() -> Result<u64, String> {
    let refusals = |more: &[(u8, u8)]| [&[2, 5, 6, 7, 8].map(|n| (REFUSED, n))[..], more].concat();
    let ends = |numbers: &[u8]| numbers.iter().map(|n| (FAILED, *n)).collect::<Vec<_>>();
    let stores = [(DISCARDED, 0), (STORED, 0), (RECEIVED, 0)];
    let bursts = [(NEXT_BURST, 0), (NEXT_BURST_DELIVERS, 0), (REPEATED, 0), (RESPONSE, 0)];
    let read = [&stores[..], &[(RESPONSE, 0)], &ends(&[20, 21, 22, 23, 24, 27, 32, 34])].concat();
    let mut n = role(read_receivers()?, &refusals(&read)).map_err(|e| format!("read, initiator: {e}"))?;
    let write = [&bursts[..], &ends(&[23, 24, 25, 26, 27, 32, 34])].concat();
    n += role(writers()?, &refusals(&write)).map_err(|e| format!("write, initiator: {e}"))?;
    let target = [&stores[..], &ends(&[20, 21, 22])].concat();
    n += role(targets()?, &refusals(&target)).map_err(|e| format!("write, target: {e}"))?;
    n += role(read_senders()?, &[(REFUSED, 2), (REFUSED, 5), (REFUSED, 6)]).map_err(|e| format!("read, target: {e}"))?;
    Ok(n + runs()?)
}
