//! K5, reads that start further in: what the part has in common. `further_vectors` and `further_host` have sequences by hand,
//! `further_values` starts, sums and lengths of buffers, `further_ports` records at every stage and made-up ones at the edges,
//! `further_runs` both ends together, `further_reads` several reads of one command. The sides are compared at every call; then K5's
//! sentences are held against what the library did.
use super::editions::transfer_of;
use super::opened::counted;
use super::pair::Rec;
use super::rng::Rng;
use crate::frame;
use crate::records::*;

/// "Start plus count is at most 16,777,216."
pub const MOST: u32 = 16_777_216;

/// A start for a made-up transfer: mostly one that is taken, which in a write is 0; now and then one past the limit, by a little or by so much
/// that the sum passes 32 bits.
pub fn start(g: &mut Rng, write: bool, count: u32) -> u32 {
    let last = MOST.saturating_sub(count);
    if g.one_in(24) {
        return g.of(&[1, last + 1, MOST, u32::MAX, 0u32.wrapping_sub(count), 1 << 31]);
    }
    match g.below(8) {
        _ if write => 0,
        0 | 1 => 0,
        2..=5 => (1 + g.up_to(40)).min(last),
        6 => last - g.up_to(3).min(last),
        _ => g.up_to(last),
    }
}

/// A start that is taken, with which the host's buffer stays small.
pub fn small(g: &mut Rng, write: bool) -> u32 {
    match g.below(5) {
        _ if write => 0,
        0 => 0,
        1 => g.of(&[1, 2, 3, 4, 8]),
        4 if g.one_in(8) => g.up_to(3_000),
        _ => 1 + g.up_to(50),
    }
}

/// Start plus count, whatever they are.
pub fn sum(t: &Transfer) -> u64 {
    u64::from(t.start) + u64::from(t.count)
}

/// How long a buffer to lend to a read's host of a made-up record: as long as it must be, or longer, up to `room`.
pub fn lent(g: &mut Rng, t: &Transfer, room: usize) -> usize {
    let needed = sum(t) as usize;
    let more = room.saturating_sub(needed);
    needed + if g.one_in(2) { 0 } else { g.up_to(more as u32) as usize }
}

/// What the host's buffer holds before the read: a pattern that goes by the place in the read, before it, in it and behind it.
pub fn pattern(t: &Transfer, len: usize) -> Vec<u8> {
    (0..len as u32).map(|i| (i.wrapping_sub(t.start).wrapping_mul(5) ^ 0xc3) as u8).collect()
}

/// A host's buffer with that pattern, now and then as long as the read needs, mostly longer.
pub fn host(t: &Transfer) -> Vec<u8> {
    let needed = sum(t) as usize;
    pattern(t, needed + needed * 7 % 5)
}

/// The record of a read that began at `by` and not at 0; all else is the same.
pub(super) fn moved(mut rec: Rec, by: u32) -> Rec {
    transfer_of(&mut rec).start += by;
    match &mut rec {
        Rec::Sender(s) => {
            let b = &mut s.burst;
            [&mut b.base, &mut b.end, &mut s.balance, &mut s.next].into_iter().for_each(|mark| *mark += by);
        }
        Rec::Receiver(r) => {
            [&mut r.base, &mut r.end, &mut r.expected, &mut r.filled].into_iter().for_each(|mark| *mark += by);
        }
        Rec::Responder(_) => {}
        _ => unreachable!("a write's start is 0"),
    }
    rec
}

/// DATA at an offset that much further in; any other bytes as they are.
pub(super) fn moved_frame(f: &[u8], by: u32) -> Vec<u8> {
    let mut f = f.to_vec();
    if f.len() >= 24 && f[0] == frame::DATA {
        let offset = u32::from_be_bytes([f[20], f[21], f[22], f[23]]);
        f[20..24].copy_from_slice(&offset.wrapping_add(by).to_be_bytes());
    }
    f
}

/// The record with this start, whatever its marks.
pub(super) fn with_start(mut rec: Rec, start: u32) -> Rec {
    transfer_of(&mut rec).start = start;
    rec
}

/// "its bytes outside the read never change"
pub(super) fn outside_kept(t: &Transfer, before: &[u8], after: &[u8]) -> bool {
    let [start, end] = [t.start as usize, sum(t) as usize];
    before.len() == after.len() && before[..start] == after[..start] && before[end..] == after[end..]
}

/// Calls compared, or the first difference.
pub fn all() -> Result<u64, String> {
    counted(|| {
        let by_hand = super::further_vectors::all().and_then(|n| Ok(n + super::further_host::all()?));
        let by_hand = by_hand.map_err(|e| format!("by hand: {e}"))?;
        let values = super::further_values::all().map_err(|e| format!("values: {e}"))?;
        Ok(by_hand + values + super::further_ports::all()? + super::further_runs::all()? + super::further_reads::all()?)
    })
}
