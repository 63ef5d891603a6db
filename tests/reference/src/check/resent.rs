//! K3, a resent XFER_RDY at the initiator of a write: by hand here; `resent_walk` has every state of small writes, `resent_runs` both ends
//! together. The sides are compared at every call; then K3's sentences are held against what the library did.
use super::pair::{Call, Rec};
use super::states::{asked, ended, sends, taken};
use super::vectors::*;
use crate::records::*;

/// An XFER_RDY for the initiator of `transfer`, byte for byte.
pub(super) fn xfer_rdy(byte_10: u8, tptt: u8, offset: u32, len: u32) -> Vec<u8> {
    let head = [5, 0xab, 0xcd, 0xef, 0, 0x12, 0x34, 0x56, 0, 0, byte_10, 0, 0, 0, 0, 0, 0, 0x12, 0, tptt, 0, 0, 0, 0];
    [&head[..], &offset.to_be_bytes(), &len.to_be_bytes(), &[0; 4]].concat()
}

/// Calls compared, or the first difference.
pub fn all() -> Result<u64, String> {
    Ok(super::resent_walk::all()? + super::resent_runs::all()?)
}

/// The library's record.
fn record(s: &Script) -> Writer {
    let Rec::Writer(w) = s.pair.rec[1] else { unreachable!("{}: not a write's initiator", s.name) };
    w
}

/// Twenty bytes, window 2, limit 1; a burst from 0 to 8 under tag 0, with frames out at these offsets.
fn first(name: &'static str, at: &[u32]) -> Result<Script, String> {
    let mut s = asked(name, 20, 2, 1, 8)?;
    sends(&mut s, 0, at)?;
    Ok(s)
}

/// 25 ends the record and takes nothing of the frame: all else stays, also a burst that waits to start. Of the fields of an ended record no
/// paper speaks; nothing is unanswered and no NAK pending, as after the other failures.
fn refuses(mut s: Script, f: Vec<u8>, frames: u64) -> Result<u64, String> {
    let before = record(&s);
    let a = s.arrives(f, (FAILED, 25))?;
    let sender = Sender { unanswered: 0, nak: false, ended: true, ..before.sender };
    let kept = record(&s) == Writer { sender, ..before };
    ended(&mut s)?;
    s.arrives(xfer_rdy(6, 3, 0, 8), (REFUSED, 2))?;
    s.holds(kept && a.frames == frames)
}

/// The whole record after the new 25, and after a repeat, by hand.
fn records() -> Result<u64, String> {
    let mut n = 0;
    let burst = Burst { base: 0, end: 8, limit: 1, tptt: 0 };
    let sender = Sender { transfer: transfer(true, 20, 2, 1, 20), burst, next: 4, unanswered: 1, frames: 1, ..Sender::default() };
    let before = Writer { sender, reached: 4, pending: false, taken: Burst::default() };
    let mut s = first("K3 record, 25", &[0])?;
    n += s.holds(record(&s) == before)?;
    let a = s.arrives(
        vec![
            5, 0xab, 0xcd, 0xef, 0, 0x12, 0x34, 0x56, 0, 0, 6, 0, 0, 0, 0, 0, 0, 0x12, 0, 1, 0, 0, 0, 0, // header, RETRANSMIT, tag 1
            0, 0, 0, 0, 0, 0, 0, 7, 0, 0, 0, 0, // from 0, seven bytes
        ],
        (FAILED, 25),
    )?;
    let due = Sender { unanswered: 0, ended: true, ..sender };
    let told = Answer { number: 25, what: FAILED, frames: 1, ..Answer::default() };
    n += s.holds(a == told && record(&s) == Writer { sender: due, ..before })?;
    // The right one waits for the frame that is out, under the new tag.
    let mut s = first("K3 record, repeat waits", &[0])?;
    let a = s.arrives(
        vec![
            5, 0xab, 0xcd, 0xef, 0, 0x12, 0x34, 0x56, 0, 0, 6, 0, 0, 0, 0, 0, 0, 0x12, 0, 1, 0, 0, 0, 0, // header, RETRANSMIT, tag 1
            0, 0, 0, 0, 0, 0, 0, 8, 0, 0, 0, 0, // from 0, eight bytes
        ],
        (REPEATED, 0),
    )?;
    let waits = Writer { pending: true, taken: Burst { tptt: 1, ..burst }, ..before };
    n += s.holds(a == Answer::is(REPEATED) && record(&s) == waits)?;
    taken(&mut s, &[Call::Ack])?;
    let fresh = Sender { burst: Burst { tptt: 1, ..burst }, next: 0, unanswered: 0, frames: 0, ..sender };
    n += s.holds(record(&s) == Writer { sender: fresh, reached: 0, ..before })?;
    sends(&mut s, 1, &[0, 4])?;
    // With nothing out it starts at once; RETRY DATA FRAMES zero is its own.
    let mut s = first("K3 record, repeat starts", &[])?;
    s.arrives(xfer_rdy(2, 1, 0, 8), (REPEATED, 0))?;
    let fresh = Sender { burst: Burst { base: 0, end: 8, limit: 0, tptt: 1 }, ..fresh };
    n += s.holds(record(&s) == Writer { sender: fresh, reached: 0, ..before })?;
    Ok(n)
}

/// "From now on its length must be that of the burst it repeats."
fn lengths() -> Result<u64, String> {
    let mut n = 0;
    for byte_10 in [2, 6] {
        for len in [0, 1, 4, 7, 9, 12, 16, 19, 20, 21, 0x108, 0x1_0008, 0x100_0008, 0x8000_0008, u32::MAX - 7, u32::MAX] {
            n += refuses(first("K3 none out", &[])?, xfer_rdy(byte_10, 1, 0, len), 0)?;
            n += refuses(first("K3 some out", &[0])?, xfer_rdy(byte_10, 1, 0, len), 1)?;
            n += refuses(first("K3 all out", &[0, 4])?, xfer_rdy(byte_10, 0, 0, len), 2)?;
            // "At any time": delivered; a NAK pending; retried, and so the limit used up.
            let mut s = first("K3 delivered", &[0, 4])?;
            taken(&mut s, &[Call::Ack])?;
            s.call(Call::Ack, (DELIVERED, 0))?;
            n += refuses(s, xfer_rdy(byte_10, 1, 0, len), 2)?;
            let mut s = first("K3 NAK pending", &[0, 4])?;
            taken(&mut s, &[Call::Nak])?;
            n += refuses(s, xfer_rdy(byte_10, 1, 0, len), 2)?;
            let mut s = first("K3 retried", &[0])?;
            s.call(Call::Timeout, (RETRY, 0))?;
            s.frame(0, 1, 0)?;
            n += refuses(s, xfer_rdy(byte_10, 1, 0, len), 2)?;
        }
    }
    // The same with eight bytes: it is taken, and the burst goes out again from its base, CDP zero.
    for event in [Call::Ack, Call::Nak, Call::Timeout, Call::Cut] {
        let mut s = first("K3 repeat", &[0])?;
        s.arrives(xfer_rdy(6, 1, 0, 8), (REPEATED, 0))?;
        s.waits()?;
        taken(&mut s, &[event])?;
        sends(&mut s, 1, &[0, 4])?;
        // And once more, also under a tag that was used before.
        s.arrives(xfer_rdy(6, 0, 0, 8), (REPEATED, 0))?;
        taken(&mut s, &[Call::Ack, Call::Nak])?;
        sends(&mut s, 0, &[0, 4])?;
        taken(&mut s, &[Call::Ack])?;
        let a = s.call(Call::Ack, (DELIVERED, 0))?;
        n += s.holds(a.frames == 2)?;
    }
    // Retries off at the transfer: 01 takes the previous base all the same.
    for (len, due) in [(8, (REPEATED, 0)), (7, (FAILED, 25)), (9, (FAILED, 25))] {
        let mut s = asked("K3 retries off", 20, 2, 0, 8)?;
        s.arrives(xfer_rdy(6, 1, 0, len), due)?;
        n += s.holds(true)?;
    }
    // The greatest count: lengths that are alike but for their first byte or their last.
    for (len, due) in [(0x100_0000, (REPEATED, 0)), (0xff_ffff, (FAILED, 25)), (0x100_0001, (FAILED, 25)), (1, (FAILED, 25))] {
        let mut s = asked("K3 greatest", 0x100_0000, 2, 1, 0x100_0000)?;
        s.arrives(xfer_rdy(6, 1, 0, len), due)?;
        n += s.holds(true)?;
    }
    for (len, due) in [(8, (REPEATED, 0)), (0x108, (FAILED, 25)), (0x1_0008, (FAILED, 25)), (0xff_fff8, (FAILED, 25))] {
        let mut s = asked("K3 greatest", 0x100_0000, 2, 1, 8)?;
        s.arrives(xfer_rdy(6, 1, 0, len), due)?;
        n += s.holds(true)?;
    }
    Ok(n)
}

/// What is no repeat: nothing was taken yet, or it is for the burst after the last one taken; its XFER_RDY before never came here.
fn no_repeat() -> Result<u64, String> {
    let mut n = 0;
    for byte_10 in [0, 2, 4, 6] {
        for (len, due) in [(1, (NEXT_BURST, 0)), (8, (NEXT_BURST, 0)), (20, (NEXT_BURST, 0)), (0, (FAILED, 25)), (21, (FAILED, 25))] {
            let mut s = writer("K3 first", 20, 2, 1)?;
            s.arrives(xfer_rdy(byte_10, 1, 0, len), due)?;
            n += s.holds(true)?;
        }
        let next = [1, 4, 7, 8, 9, 12].map(|len| (len, NEXT_BURST_DELIVERS, 0));
        for (len, what, number) in [&next[..], &[0, 13, 20, u32::MAX].map(|len| (len, FAILED, 25))].concat() {
            let mut s = first("K3 at the end", &[0, 4])?;
            let a = s.arrives(xfer_rdy(byte_10, 1, 8, len), (what, number))?;
            n += s.holds(a.frames == 2)?;
            // 27 goes before 25, of whatever length.
            let mut s = first("K3 at the end, not all out", &[0])?;
            s.arrives(xfer_rdy(byte_10, 1, 8, len), (FAILED, 27))?;
            n += s.holds(true)?;
        }
        // 26 goes before 25: other offsets, and the previous base with RETRANSMIT zero.
        for offset in [0, 1, 4, 7, 9, 12, 19, 20, 21, u32::MAX] {
            for len in [0, 4, 7, 8, 9, 12, 20, 21, u32::MAX] {
                if offset > 0 || byte_10 & 2 == 0 {
                    let mut s = first("K3 elsewhere", &[0, 4])?;
                    s.arrives(xfer_rdy(byte_10, 1, offset, len), (FAILED, 26))?;
                    n += s.holds(true)?;
                }
            }
        }
    }
    // 23 and 24, and before them 7 and 8, which change nothing; the length in it is not that of the burst.
    for (iu, number) in [(0, 23), (7, 23), (8, 23), (11, 23), (13, 24), (16, 24)] {
        let mut s = first("K3 IU", &[0])?;
        s.arrives(bytes(5, 0, 6, 1, &[0, 0, 0, 0, 0, 0, 0, 7, 0, 0, 0, 0, 0, 0, 0, 0][..iu]), (FAILED, number))?;
        n += s.holds(true)?;
    }
    for (at, number) in [(0, 6), (1, 7), (3, 7), (5, 7), (7, 7), (16, 8), (17, 8)] {
        for len in [7, 8, 9] {
            let mut s = first("K3 not for it", &[0])?;
            let before = record(&s);
            let mut f = xfer_rdy(6, 1, 0, len);
            f[at] ^= 0x40;
            s.arrives(f, (REFUSED, number))?;
            n += s.holds(record(&s) == before)?;
        }
    }
    Ok(n)
}

/// "The previous burst is the last one taken, started or not": one of four bytes, from 8, waits for the frames of the first, of eight bytes.
fn waiting() -> Result<u64, String> {
    let mut n = 0;
    let second = |name| -> Result<Script, String> {
        let mut s = first(name, &[0, 4])?;
        s.arrives(xfer_rdy(4, 1, 8, 4), (NEXT_BURST_DELIVERS, 0))?;
        Ok(s)
    };
    for len in [0, 1, 3, 5, 8, 12, 13, u32::MAX] {
        n += refuses(second("K3 while it waits")?, xfer_rdy(6, 2, 8, len), 2)?;
        // The burst in service is not the previous one any more.
        for offset in [0, 4] {
            let mut s = second("K3 while it waits, the first")?;
            s.arrives(xfer_rdy(6, 2, offset, len), (FAILED, 26))?;
            n += s.holds(record(&s).pending && record(&s).taken == Burst { base: 8, end: 12, limit: 1, tptt: 1 })?;
        }
        let mut s = second("K3 while it waits, its end")?;
        s.arrives(xfer_rdy(6, 2, 12, len), (FAILED, 27))?;
        n += s.holds(true)?;
        // After its start it is the same; no frame of it was handed out yet, so the count is 0.
        let mut s = second("K3 it has started")?;
        taken(&mut s, &[Call::Ack, Call::Nak])?;
        n += refuses(s, xfer_rdy(6, 2, 8, len), 0)?;
        // A repeat waits in its place; then a repeat of the first, eight bytes.
        let mut s = second("K3 a repeat of it waits")?;
        s.arrives(xfer_rdy(2, 2, 8, 4), (REPEATED, 0))?;
        n += s.holds(record(&s).taken == Burst { base: 8, end: 12, limit: 0, tptt: 2 })?;
        n += refuses(s, xfer_rdy(6, 3, 8, len), 2)?;
        let mut s = first("K3 a repeat waits", &[0])?;
        s.arrives(xfer_rdy(6, 1, 0, 8), (REPEATED, 0))?;
        n += refuses(s, xfer_rdy(6, 2, 0, if len == 8 { 4 } else { len }), 1)?;
    }
    let mut s = second("K3 repeated while it waits")?;
    s.arrives(xfer_rdy(6, 2, 8, 4), (REPEATED, 0))?;
    s.arrives(xfer_rdy(6, 3, 8, 4), (REPEATED, 0))?;
    s.waits()?;
    taken(&mut s, &[Call::Timeout])?;
    sends(&mut s, 3, &[8])?;
    s.call(Call::Nak, (RETRY, 0))?;
    s.frame(8, 1, 3)?;
    let a = s.call(Call::Ack, (DELIVERED, 0))?;
    s.arrives(xfer_rdy(6, 0, 12, 8), (NEXT_BURST, 0))?;
    n += s.holds(a.frames == 2)?;
    // With a third one the second is not the previous one any more.
    for (offset, len, due) in [(12, 3, (REPEATED, 0)), (12, 4, (FAILED, 25)), (8, 4, (FAILED, 26)), (8, 3, (FAILED, 26))] {
        let mut s = second("K3 third")?;
        taken(&mut s, &[Call::Cut])?;
        sends(&mut s, 1, &[8])?;
        s.arrives(xfer_rdy(4, 2, 12, 3), (NEXT_BURST_DELIVERS, 0))?;
        s.arrives(xfer_rdy(6, 3, offset, len), due)?;
        n += s.holds(true)?;
    }
    Ok(n)
}

/// K3 and the paper by hand.
pub fn vectors() -> Result<u64, String> {
    Ok(records()? + lengths()? + no_repeat()? + waiting()?)
}
