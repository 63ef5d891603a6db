//! Made-up records and bytes, with fields near and at their limits.
use super::pair::Rec;
use super::rng::Rng;
use super::{editions, further, silent};
use crate::records::*;

pub fn transfer(g: &mut Rng, write: bool) -> Transfer {
    // K7, K4 and K5: from generators of their own, so that the other numbers stay those of the seed.
    let (sas2, value) = editions::any(&mut Rng(!g.0 ^ 7));
    let irt = silent::value(&mut Rng(!g.0 ^ 4));
    let own = &mut Rng(!g.0 ^ 5);
    let count = if g.one_in(12) { g.of(&[1, 16_777_215, 16_777_216]) } else { 1 + g.up_to(60) };
    let mut t = Transfer {
        write: write ^ g.one_in(60),
        count,
        size: g.of(&[4, 4, 8, 12, 1024]),
        window: if g.one_in(10) { 64 } else { 1 + g.up_to(3) },
        limit: g.of(&[0, 0, 1, 2, 3, 15]),
        burst: 1 + g.up_to(count - 1),
        local: if g.one_in(10) { 0xff_ffff } else { 0x12_3456 },
        remote: if g.one_in(10) { 0 } else { 0xab_cdef },
        tag: g.of(&[0, 0x12, 0xffff]),
        sas2,
        value,
        irt,
        start: 0,
    };
    t.start = further::start(own, t.write, count);
    if g.one_in(12) {
        match g.below(8) {
            0 => t.count = g.of(&[0, 16_777_217, u32::MAX]),
            1 => t.size = g.of(&[0, 1, 2, 3, 5, 6, 1022, 1028, u32::MAX, 1 << 31]),
            2 => t.window = g.of(&[0, 65, u32::MAX]),
            3 => t.limit = g.of(&[16, 17, u32::MAX]),
            4 => t.burst = g.of(&[0, count + 1, u32::MAX]),
            5 => t.local = g.of(&[1 << 24, u32::MAX]),
            6 => t.remote = g.of(&[1 << 24, u32::MAX]),
            _ => t.burst = count,
        }
    }
    t
}

/// Marks in order, from the start up to start plus count; now and then out of order or past them.
fn marks<const N: usize>(g: &mut Rng, t: &Transfer) -> [u32; N] {
    let count = t.count.clamp(1, 1 << 24);
    // K5: now and then as if the start were 0.
    let start = if Rng(!g.0 ^ 5).one_in(24) { 0 } else { t.start };
    let mut m = [0; N];
    for x in m.iter_mut() {
        *x = match g.below(6) {
            0 => 0,
            1 | 2 => count,
            _ => g.up_to(count),
        };
    }
    m.sort();
    if g.one_in(3) {
        m[0] = 0;
        m[N - 1] = count;
    }
    for i in 1..N {
        if g.one_in(5) {
            m[i] = m[i - 1];
        }
    }
    if g.one_in(12) {
        let i = g.below(N as u64) as usize;
        m[i] = match g.below(4) {
            0 => m[i].wrapping_sub(1),
            1 => m[i].wrapping_add(1),
            2 => u32::MAX,
            _ => count + 1,
        };
    }
    m.map(|mark: u32| mark.wrapping_add(start))
}

/// A count up to its limit, now and then one more or far more.
fn counted(g: &mut Rng, most: u32) -> u32 {
    match g.below(40) {
        0 => most.wrapping_add(1),
        1 => u32::MAX,
        2..=12 => most,
        13..=24 => 0,
        _ => g.up_to(most.min(1 << 20)),
    }
}

fn bit(g: &mut Rng) -> bool {
    g.one_in(2)
}

fn burst_limit(g: &mut Rng, t: &Transfer) -> u32 {
    match g.below(16) {
        0 => g.of(&[1, 15, 16, u32::MAX]),
        1 => t.limit.wrapping_add(1),
        2 => t.limit / 2,
        3..=5 => 0,
        _ => t.limit,
    }
}

pub fn sender(g: &mut Rng, write: bool) -> Sender {
    let transfer = transfer(g, write);
    let [base, balance, next, end] = marks(g, &transfer);
    let limit = burst_limit(g, &transfer);
    Sender {
        transfer,
        burst: Burst { base, end, tptt: g.of(&[0, 1, 0xffff]), limit },
        next,
        balance: if write && g.below(4) > 0 { base } else { balance },
        unanswered: if g.one_in(4) { g.up_to(1) } else { counted(g, transfer.window) },
        nak: g.one_in(3),
        cdp: bit(g),
        retries: counted(g, limit),
        frames: if g.one_in(10) { g.of(&[(1 << 60) - 1, 1 << 60, u64::MAX]) } else { g.below(9) },
        ended: g.one_in(20),
    }
}

pub fn receiver(g: &mut Rng, write: bool) -> Receiver {
    let transfer = transfer(g, write);
    let [base, expected, filled, end] = marks(g, &transfer);
    Receiver { transfer, base, end, expected, filled, waiting: bit(g), ended: g.one_in(20) }
}

pub fn record(g: &mut Rng, kind: u64) -> Rec {
    match kind {
        0 => Rec::Sender(sender(g, false)),
        1 => Rec::Receiver(receiver(g, false)),
        2 => {
            let s = sender(g, true);
            let [base, end] = marks(g, &s.transfer);
            let reached = match g.below(8) {
                0 => s.burst.base,
                1 => s.burst.end.wrapping_add(1),
                2 => s.burst.base.wrapping_sub(1),
                3 | 4 => s.next,
                5 => s.next.wrapping_sub(1),
                _ => s.burst.end,
            };
            let limit = burst_limit(g, &s.transfer);
            let taken = Burst { base, end, tptt: g.of(&[0, 1, 7]), limit };
            Rec::Writer(Writer { sender: s, reached, pending: g.one_in(3), taken })
        }
        3 => {
            let r = receiver(g, true);
            let since = if g.one_in(20) { g.of(&[17, 18, 0x7fff, 0xfffe, 0xffff]) } else { g.up_to(r.transfer.limit.min(15) + 1) as u16 };
            let state = if g.one_in(30) { g.of(&[4, 255]) } else { g.of(&[0, 1, 2, 3, 3, 3]) };
            let elapsed = silent::sum(&mut Rng(!g.0 ^ 4), r.transfer.irt);
            Rec::Target(Target {
                receiver: r,
                state,
                tptt: g.of(&[0, 1, 2]),
                retries: counted(g, r.transfer.limit),
                stored: bit(g),
                under: g.of(&[0, 1, 2, 5, 16, 0xffff]),
                since,
                elapsed,
            })
        }
        _ => {
            let t = transfer(g, false);
            let write = bit(g);
            let start = if write { further::start(&mut Rng(!g.0 ^ 5), true, t.count) } else { t.start };
            let t = Transfer { write, start, ..t };
            let len = if g.one_in(8) { g.of(&[0, 23, 1025, u32::MAX]) } else { g.of(&[24, 25, 26, 27, 28, 100, 1024]) };
            Rec::Responder(Responder { transfer: t, len, unanswered: bit(g), retries: counted(g, t.limit.max(1)), ended: g.one_in(20) })
        }
    }
}
