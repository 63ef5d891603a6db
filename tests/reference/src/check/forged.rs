//! Made-up XFER_RDYs for the initiator of a write, from what its record likes.
use super::rng::Rng;
use crate::frame;
use crate::records::*;

/// The burst taken last.
fn last(w: &Writer) -> Burst {
    if w.pending {
        w.taken
    } else {
        w.sender.burst
    }
}

/// Flags and TPTT are those of `h`; `n` bytes of IU.
fn xfer_rdy(t: &Transfer, x: XferRdy, h: Header, n: usize) -> Vec<u8> {
    let mut iu = [0; 16];
    frame::xfer_rdy_write(&x, &mut iu);
    let mut out = vec![0; 40];
    let h = Header { kind: frame::XFER_RDY, dest: t.local & 0xff_ffff, source: t.remote & 0xff_ffff, tag: t.tag, ..h };
    let a = frame::write(&h, &iu[..n], &mut out);
    out.truncate(a.len);
    out
}

pub fn forged(w: &Writer, k: u32) -> Vec<u8> {
    let (t, last) = (&w.sender.transfer, last(w));
    let offset = match k & 7 {
        0 | 1 => last.base,
        2..=5 => last.end,
        6 => last.end.wrapping_sub(1),
        _ => k >> 28,
    };
    let left = t.count.saturating_sub(offset);
    let len = match k >> 3 & 7 {
        0 => 0,
        1 => left + 1,
        2 => u32::MAX,
        3 => left,
        // K3: the length of the burst that it repeats, one less or one more.
        _ if k & 7 < 2 && k >> 19 & 1 == 1 => (last.end - last.base + [0, 1, 1, 2][(k >> 26 & 3) as usize]).wrapping_sub(1),
        _ => 1 + (k >> 8) % left.max(1),
    };
    let h = Header {
        retry: k >> 16 & 3 != 0,
        retransmit: k >> 18 & 1 != 0,
        tlr: (k >> 6 & 3) as u8,
        tptt: (k >> 20 & 3) as u16,
        ..Header::default()
    };
    let n = if k >> 22 & 15 == 0 { 10 + (k >> 26 & 3) as usize } else { 12 };
    xfer_rdy(t, XferRdy { offset, len }, h, n)
}

/// K3: a repeat of the burst taken last, so many bytes longer; None where there is none.
pub fn repeat(w: &Writer, more: i32) -> Option<Vec<u8>> {
    let last = last(w);
    let len = (last.end - last.base).wrapping_add_signed(more);
    let h = Header { retransmit: true, ..Header::default() };
    (last.base < last.end).then(|| xfer_rdy(&w.sender.transfer, XferRdy { offset: last.base, len }, h, 12))
}

/// K3: mostly a repeat, of the right length or near it, for any record.
pub fn near(g: &mut Rng, w: &Writer) -> Vec<u8> {
    let (t, served, last) = (&w.sender.transfer, &w.sender.burst, last(w));
    let own = last.end.wrapping_sub(last.base);
    let [left, other] = [t.count.wrapping_sub(last.base), served.end.wrapping_sub(served.base)];
    let len = g.of(&[own, own, own, own.wrapping_sub(1), own.wrapping_add(1), own / 2, left, other]);
    let offset = if g.one_in(8) { g.of(&[last.end, served.base]) } else { last.base };
    let h = Header { retry: g.one_in(2), retransmit: !g.one_in(8), tptt: g.of(&[0, 1, 0xffff]), ..Header::default() };
    xfer_rdy(t, XferRdy { offset, len }, h, 12)
}
