//! K9 with numbers from a seed: IUs at the reader, RESPONSEs at made-up records and at the initiators of whole runs, made-up answers.
use super::opened::{parts, reads, Iu};
use super::opened_ports::closed;
use super::pair::{Call, Pair, Rec};
use super::rng::Rng;
use super::world::{self, World};
use super::{further, made_up};
use crate::frame;
use crate::records::*;

/// Any bytes, mostly with what a kind needs, or nearly so.
fn iu(g: &mut Rng) -> Vec<u8> {
    let list = match g.below(6) {
        0 => 0,
        1 => 4,
        2 => g.of(&[1, 2, 3, 8, 18, 252, 999, 1000, 1001]),
        3 => g.up_to(1001),
        _ => g.up_to(40),
    };
    let near = |g: &mut Rng, n: u32| match g.below(12) {
        0 => n.wrapping_add(1),
        1 => n.wrapping_sub(1),
        2 => n ^ 1 << g.below(32),
        3 => g.next() as u32,
        _ => n,
    };
    let kind = g.of(&[0, 1, 2, 2, 2, 3]);
    let fits = [0, 4, list, list][usize::from(kind)];
    // Now and then shorter than 24.
    let len = if g.one_in(12) { g.up_to(1024) } else { 24 + near(g, fits).min(1000) };
    let mut iu: Vec<u8> = (0..len.max(24)).map(|_| g.next() as u8).collect();
    iu[10] = iu[10] & 0xfc | kind;
    if g.below(8) > 0 {
        let at = if kind == 1 { 20 } else { 16 };
        let own = near(g, fits);
        iu[at..at + 4].copy_from_slice(&own.to_be_bytes());
    }
    iu.truncate(len as usize);
    iu
}

/// A RESPONSE for the record; now and then not for it, or with a bit changed.
fn response(g: &mut Rng, t: &Transfer) -> Vec<u8> {
    let iu = iu(g);
    let h = Header {
        kind: if g.one_in(30) { g.of(&[6, 0x16]) } else { frame::RESPONSE_TYPE },
        dest: (if g.one_in(30) { t.remote } else { t.local }) & 0xff_ffff,
        source: (if g.one_in(30) { t.local } else { t.remote }) & 0xff_ffff,
        retry: g.one_in(4),
        retransmit: g.one_in(2),
        cdp: g.one_in(4),
        tlr: g.up_to(3) as u8,
        tag: if g.one_in(30) { t.tag ^ 1 } else { t.tag },
        tptt: g.next() as u16,
        offset: if g.one_in(4) { g.next() as u32 } else { 0 },
    };
    let mut f = vec![0; 1048];
    let n = frame::write(&h, &iu, &mut f).len;
    f.truncate(n);
    f[24 + iu.len()..].iter_mut().for_each(|b| *b = g.next() as u8);
    match g.below(20) {
        0 => f.truncate(g.up_to(n as u32) as usize),
        1 => f[11] = g.next() as u8,
        2 | 3 => f[g.below(n as u64) as usize] ^= 1 << g.below(8),
        _ => {}
    }
    f
}

/// A RESPONSE at the record, and again. An answer that is no refusal is K9's and the paper's; it ends the record, a refusal leaves it.
fn arrives(pair: &mut Pair, f: &[u8], lent: usize) -> Result<u64, String> {
    let before = pair.clone();
    let call = Call::Frame(f.to_vec(), lent);
    let a = pair.call(&call)?.unwrap();
    let frames = if let Rec::Writer(w) = before.rec[1] { w.sender.frames } else { 0 };
    let (rec, due) = if a.what == REFUSED {
        (before.rec[1], Answer::refused(a.number))
    } else {
        let iu = &f[24..f.len() - usize::from(f[11] & 3)];
        (closed(before.rec[1]), Iu::of(iu).due_at(frames))
    };
    let after = pair.rec[1];
    let b = pair.call(&call)?.unwrap();
    // A bit of the type may have changed.
    if f.first() != Some(&frame::RESPONSE_TYPE) {
        return Ok(4);
    }
    if a != due || after != rec || pair.data != before.data {
        return Err(format!("{call:?}\n  at both sides {a:?}\n  due           {due:?}\n  {after:?}"));
    }
    if a.what != REFUSED && b != Answer::refused(2) {
        return Err(format!("{call:?} again: {b:?} at both sides, due 2"));
    }
    Ok(4)
}

fn records(g: &mut Rng) -> Result<u64, String> {
    const ROOM: usize = 120;
    let kind = 1 + g.below(2);
    let rec = made_up::record(g, kind);
    let (t, needed) = match &rec {
        Rec::Receiver(r) => (r.transfer, further::sum(&r.transfer)),
        Rec::Writer(w) => (w.sender.transfer, u64::from(w.sender.transfer.count)),
        _ => unreachable!(),
    };
    let mut pair = Pair::new(rec, vec![0x3c; ROOM], 0);
    let lent = if g.one_in(30) { g.up_to(ROOM as u32) } else { needed.min(ROOM as u64) as u32 };
    let f = response(g, &t);
    arrives(&mut pair, &f, lent as usize)
}

/// A run; before each event RESPONSEs at copies of the initiator's record.
fn run(seed: u64) -> Result<u64, String> {
    let (ends, list) = world::from_seed(seed);
    let (g, mut w, t) = (&mut Rng(!seed), World::new(ends)?, ends[0]);
    let here = ends[usize::from(!t.write)];
    let mut n = 0;
    for (i, event) in list.iter().enumerate() {
        let at = i + 1;
        let pair = if t.write { &w.sender } else { &w.receiver };
        let f = response(g, &here);
        n += arrives(&mut pair.clone(), &f, pair.data[0].len()).map_err(|e| format!("before event {at}: {e}"))?;
        w.step(*event).map_err(|e| format!("event {at}: {e}"))?;
    }
    Ok(n + w.calls)
}

/// An answer of an IU or a frame, with fields changed; the bytes are that many, or fewer or more.
fn made_up_answer(g: &mut Rng) -> Result<u64, String> {
    let mut iu = iu(g);
    let mut a = reads(&iu)?;
    if g.one_in(2) && a.what == PARSED {
        let head: Vec<u8> = (0..24).map(|_| g.next() as u8).collect();
        iu = [head, iu].concat();
        (a.what, a.start) = (RESPONSE, 24);
    }
    let any = |g: &mut Rng| g.next() as usize >> g.below(64);
    for _ in 0..g.below(3) {
        match g.below(8) {
            0 => a.number = g.of(&[0, 8, 32, 34]),
            1 => a.what = g.up_to(18) as u8,
            2 => a.kind = g.of(&[0, 1, 2, 3, 6]),
            3 => a.status = g.next() as u8,
            4 => a.frames = g.next(),
            5 => a.start = any(g),
            6 => a.len = any(g),
            _ => a.sense = any(g),
        }
    }
    match g.below(4) {
        0 => iu.truncate(g.up_to(iu.len() as u32) as usize),
        1 => iu.resize(iu.len() + g.up_to(40) as usize, 0x99),
        _ => {}
    }
    parts(&a, &iu)?;
    Ok(5)
}

/// Calls compared, or the first difference.
pub fn all() -> Result<u64, String> {
    let mut n = 0;
    for seed in 1..=300_000 {
        let g = &mut Rng(seed);
        let told = |e| format!("RESPONSE, seed {seed}: {e}");
        let bytes = iu(g);
        let (a, due) = (reads(&bytes).map_err(told)?, Iu::of(&bytes).due());
        if a != due {
            return Err(told(format!("IU {bytes:02x?}\n  at both sides {a:?}\n  due           {due:?}")));
        }
        n += 2 + records(g).map_err(told)? + made_up_answer(g).map_err(told)?;
    }
    for seed in 1..=400 {
        n += run(seed).map_err(|e| format!("RESPONSE, run of seed {seed}, {e}"))?;
    }
    Ok(n)
}
