//! Single calls of every entry point, with made-up records and any bytes.
use super::forged::near;
use super::pair::{Call, Pair, Rec};
use super::rng::Rng;
use super::{editions, further, made_up, silent};
use crate::frame;
use crate::records::*;
use crate::{ffi, records};

fn transfer_of(rec: &Rec) -> Transfer {
    match rec {
        Rec::Sender(s) => s.transfer,
        Rec::Receiver(r) => r.transfer,
        Rec::Writer(w) => w.sender.transfer,
        Rec::Target(t) => t.receiver.transfer,
        Rec::Responder(r) => r.transfer,
    }
}

/// Offsets and a tag that the record may like.
fn likes(g: &mut Rng, rec: &Rec) -> (u32, u16, u32) {
    match rec {
        Rec::Receiver(r) => (g.of(&[r.base, r.expected, r.expected, r.filled, r.end]), 0, r.end),
        Rec::Target(t) => {
            let r = &t.receiver;
            (g.of(&[r.base, r.expected, r.expected, r.filled, r.end]), t.tptt, r.end)
        }
        Rec::Writer(w) => {
            let b = if w.pending { w.taken } else { w.sender.burst };
            (g.of(&[b.base, b.end, b.end]), g.of(&[0, 1, 9]), w.sender.transfer.count)
        }
        _ => (0, 0, 0),
    }
}

/// K9: mostly an IU that is taken, of `n` bytes or, with response data, 28; else any bytes. From a generator of its own, so that the other
/// numbers stay those of the seed.
fn opens(own: &mut Rng, iu: &mut [u8], n: usize) -> usize {
    let list = n.saturating_sub(24) as u32;
    let (kind, n) = match own.below(8) {
        0 => return n,
        1 if n == 25 => (RESPONSE_DATA, 28),
        _ if n > 24 => (SENSE_DATA, n),
        _ => (NO_DATA, n),
    };
    iu[10] = iu[10] & 0xfc | kind;
    let near = if own.one_in(8) { own.of(&[1, u32::MAX]) } else { 0 };
    match kind {
        RESPONSE_DATA => iu[20..24].copy_from_slice(&4u32.wrapping_add(near).to_be_bytes()),
        SENSE_DATA => iu[16..20].copy_from_slice(&list.wrapping_add(near).to_be_bytes()),
        _ => {}
    }
    n
}

pub fn bytes(g: &mut Rng, rec: &Rec) -> Vec<u8> {
    let t = transfer_of(rec);
    let (at, tptt, end) = likes(g, rec);
    let kind = match rec {
        Rec::Receiver(_) => g.of(&[1, 1, 1, 1, 5, 7]),
        Rec::Target(_) => g.of(&[1, 1, 1, 1, 1, 7]),
        _ => g.of(&[1, 5, 5, 5, 5, 7]),
    };
    let offset = if g.one_in(10) { g.of(&[at.wrapping_add(1), at.wrapping_sub(1), u32::MAX]) } else { at };
    let left = end.wrapping_sub(offset).min(1024);
    let mut iu = vec![0; 1100];
    iu.iter_mut().for_each(|b| *b = g.next() as u8);
    let n = match kind {
        5 => {
            let room = t.count.wrapping_sub(offset);
            let len = g.of(&[0, 1, room, room, room / 2, room.wrapping_add(1), u32::MAX]);
            frame::xfer_rdy_write(&XferRdy { offset, len }, &mut iu);
            if g.one_in(8) { g.of(&[0, 11, 13, 16]) } else { 12 }
        }
        7 => {
            let n = g.of(&[0, 23, 24, 25, 1024]);
            opens(&mut Rng(!g.0 ^ 9), &mut iu, n)
        }
        _ => g.of(&[0, 1, 2, 3, 4, 4, 4, 8, left as usize, left as usize, (left as usize + 1).min(1024)]),
    };
    // From a generator of its own, so that the other numbers stay those of the seed.
    let tlr = Rng(!g.0).up_to(3) as u8;
    // K7, likewise: any TPTT where none counts, and now and then the value as a write's tag.
    let own = &mut Rng(!g.0 ^ 7);
    let tptt = match rec {
        Rec::Receiver(_) => editions::tptt(own, t.value),
        _ if kind == 7 => editions::tptt(own, t.value),
        Rec::Target(_) if own.one_in(16) => t.value,
        _ => tptt,
    };
    let h = Header {
        kind: if g.one_in(20) { g.of(&[6, 0x16]) } else { kind },
        dest: (if g.one_in(20) { t.remote } else { t.local }) & 0xff_ffff,
        source: (if g.one_in(20) { t.local } else { t.remote }) & 0xff_ffff,
        retry: g.one_in(2),
        retransmit: g.one_in(2),
        cdp: g.one_in(3),
        tlr,
        tag: if g.one_in(20) { t.tag ^ 1 } else { t.tag },
        tptt: if g.one_in(10) { tptt ^ 1 } else { tptt },
        offset: if kind == 1 { offset } else { 0 },
    };
    let mut f = vec![0; 1048];
    let a = frame::write(&h, &iu[..n], &mut f);
    f.truncate(a.len);
    match g.below(16) {
        0 => f.truncate(g.up_to(f.len() as u32) as usize),
        1 => f.resize(g.of(&[0, 20, 23, 24, 25, 28, 1044, 1048, 1049, 1052, 2000]), 0),
        2 | 3 => {
            let i = g.up_to(f.len() as u32 - 1) as usize;
            f[i] ^= 1 << g.below(8);
        }
        4 => f.iter_mut().for_each(|b| *b = g.next() as u8),
        5 => f[11] = g.next() as u8,
        _ => {}
    }
    f
}

fn call(g: &mut Rng, rec: &Rec, kind: u64, room: usize) -> Call {
    let t = transfer_of(rec);
    let mut lent = t.count as usize;
    match rec {
        Rec::Responder(r) => lent = r.len as usize,
        // K5: from a generator of its own, as above.
        Rec::Receiver(_) => lent = further::lent(&mut Rng(!g.0 ^ 5), &t, room),
        _ => {}
    }
    if g.one_in(20) {
        lent = lent.wrapping_add(1);
    } else if g.one_in(20) {
        lent = lent.wrapping_sub(1);
    }
    let lent = if lent > room { g.of(&[0, 1, room]) } else { lent };
    match g.below(16) {
        0 => Call::SetUp(made_up::transfer(g, kind == 2 || kind == 3), g.of(&[0, 23, 24, 1024, 1025, usize::MAX, 1 << 32 | 24])),
        1 | 2 => Call::Ack,
        3 | 4 => Call::Nak,
        5 => Call::Timeout,
        6 => Call::Cut,
        7 => Call::Loss,
        8..=11 => Call::Next(lent, if g.one_in(2) { 1100 } else { g.of(&[0, 23, 24, 27, 28, 32, 35, 36, 48, 51, 52, 1047, 1048]) }),
        _ => Call::Frame(bytes(g, rec), lent),
    }
}

/// The frame reader and writer, XFER_RDY's IU, and the writer's two steps. Calls compared.
fn frames(g: &mut Rng) -> Result<u64, String> {
    // Mostly one that is taken; from a generator of its own, as above.
    let own = &mut Rng(!g.0);
    let larger = 4 + own.up_to(251) as u8;
    let tlr = if own.one_in(8) { own.of(&[4, larger, 255]) } else { own.up_to(3) as u8 };
    let kind = g.of(&[1, 5, 6, 7, 0x16, 0, 2, 255]);
    let h = Header {
        kind,
        dest: g.of(&[0, 0x12_3456, 0xff_ffff, 1 << 24, u32::MAX]),
        source: g.of(&[0, 0x12_3456, 0xff_ffff, 0xab_cdef, 1 << 24]),
        retry: g.one_in(2),
        retransmit: g.one_in(2),
        cdp: g.one_in(2),
        tlr,
        tag: g.next() as u16,
        tptt: g.next() as u16,
        offset: g.next() as u32,
    };
    let iu: Vec<u8> = (0..g.of(&[0, 1, 2, 3, 4, 11, 12, 13, 1023, 1024, 1025, 1028])).map(|_| g.next() as u8).collect();
    let room = g.of(&[0, 23, 24, 27, 28, 36, 40, 1047, 1048, 1049]);
    let (mut o, mut p) = (vec![0x5a; room], vec![0x5a; room]);
    let a = frame::write(&h, &iu, &mut o);
    let b = unsafe { ffi::ssp_frame_write(h, iu.as_ptr(), iu.len(), p.as_mut_ptr(), room) };
    if a != b || o != p {
        return Err(format!("frame_write {h:?} iu {} room {room}: {a:?} {b:?}", iu.len()));
    }
    if g.one_in(3) {
        o.iter_mut().for_each(|b| *b = g.next() as u8);
        if let Some(b) = o.first_mut() {
            *b = g.of(&[1, 5, 6, 7, 0x16, 9]);
        }
    }
    let seen = if g.one_in(2) { &o[..a.len.min(o.len())] } else { &o[..] };
    let old = records::Header { kind: 77, tag: 9, ..h };
    let (mut x, mut y) = (old, old);
    let a = frame::read(&mut x, seen);
    let b = unsafe { ffi::ssp_frame_read(&mut y, seen.as_ptr(), seen.len()) };
    if a != b || x != y {
        return Err(format!("frame_read {seen:02x?}: {a:?} {b:?}\n  {x:?}\n  {y:?}"));
    }
    let q = XferRdy { offset: g.next() as u32, len: g.next() as u32 };
    let room = g.of(&[0, 11, 12, 13, 20]);
    let (mut o, mut p) = (vec![0x5a; room], vec![0x5a; room]);
    let a = frame::xfer_rdy_write(&q, &mut o);
    let b = unsafe { ffi::ssp_xfer_rdy_write(q, p.as_mut_ptr(), room) };
    if a != b || o != p {
        return Err(format!("xfer_rdy_write {q:?} room {room}: {a:?} {b:?}"));
    }
    let seen = &iu[..iu.len().min(20)];
    let (mut x, mut y) = (q, q);
    let a = frame::xfer_rdy_read(&mut x, seen);
    let b = unsafe { ffi::ssp_xfer_rdy_read(&mut y, seen.as_ptr(), seen.len()) };
    if a != b || x != y {
        return Err(format!("xfer_rdy_read {seen:02x?}: {a:?} {b:?}\n  {x:?}\n  {y:?}"));
    }
    // In either order, over any bytes; at the end, so that the numbers drawn above stay those of the seed.
    let room = g.of(&[0, 23, 24, 27, 28, 36, 40, 1047, 1048, 1049]);
    let mut o: Vec<u8> = (0..room).map(|_| g.next() as u8).collect();
    let mut p = o.clone();
    let first = g.one_in(2);
    for data in [first, !first] {
        let a = if data { frame::write_data(&h, &iu, &mut o) } else { frame::write_header(&h, &iu, &mut o) };
        let step = if data { ffi::ssp_frame_write_data } else { ffi::ssp_frame_write_header };
        let b = unsafe { step(h, iu.as_ptr(), iu.len(), p.as_mut_ptr(), room) };
        if a != b || o != p {
            let name = if data { "data" } else { "header" };
            return Err(format!("frame_write_{name} {h:?} iu {} room {room}: {a:?} {b:?}", iu.len()));
        }
    }
    Ok(6)
}

/// K3: a resent XFER_RDY and a call after it, at a copy and from a generator of its own, so that the calls of the seed stay.
fn resent(g: &mut Rng, w: &Writer, mut pair: Pair) -> Result<u64, String> {
    let lent = (w.sender.transfer.count as usize).min(pair.data[0].len());
    pair.call(&Call::Frame(near(g, w), lent))?;
    let after = match g.below(6) {
        0 => Call::Ack,
        1 => Call::Nak,
        2 => Call::Timeout,
        3 => Call::Cut,
        _ => Call::Next(lent, pair.out[0].len()),
    };
    pair.call(&after)?;
    Ok(2)
}

/// K4, likewise: a report of time, a call of any sort, and a report again.
fn timed(g: &mut Rng, mut pair: Pair, room: usize) -> Result<u64, String> {
    let mut calls = 0;
    for report in [true, false, true] {
        let Rec::Target(t) = pair.rec[0] else { unreachable!() };
        let call = if report { Call::Time(silent::report(&t, 1 << 16 | g.next() as u32)) } else { call(g, &pair.rec[0], 3, room) };
        calls += u64::from(pair.call(&call)?.is_some());
    }
    Ok(calls)
}

/// Calls compared, or the difference; each seed makes one record and three calls. The record before a call
/// is told with it, so that one call is the shortest list.
pub fn all(first: u64, n: u64) -> Result<u64, String> {
    const ROOM: usize = 1100;
    let mut calls = 0;
    for seed in first..first + n {
        let g = &mut Rng(seed);
        if g.one_in(12) {
            calls += frames(g).map_err(|e| format!("single call, seed {seed}: {e}"))?;
            continue;
        }
        let kind = g.below(5);
        let rec = made_up::record(g, kind);
        let data = (0..ROOM).map(|i| (i * 3 + seed as usize) as u8).collect();
        let mut pair = Pair::new(rec, data, ROOM);
        if let Rec::Writer(w) = &rec {
            calls += resent(&mut Rng(!seed), w, pair.clone()).map_err(|e| format!("single call, seed {seed}, resent: {e}"))?;
        }
        if kind == 3 {
            calls += timed(&mut Rng(!seed ^ 4), pair.clone(), ROOM).map_err(|e| format!("single call, seed {seed}, time: {e}"))?;
        }
        for _ in 0..3 {
            let call = call(g, &pair.rec[0], kind, ROOM);
            let a = pair.call(&call).map_err(|e| format!("single call, seed {seed}: {e}"))?;
            calls += u64::from(a.is_some());
        }
    }
    Ok(calls)
}
