//! K9, the sense data as a part of the caller's own bytes: by the pointer that the library gives. First the bytes that the answer is about.
//! Of other bytes and of made-up answers no paper speaks: what is due there was written down before it was compared, and follows the
//! library in one field; in others the library was changed to it (OPEN.md). Whatever the library did, its part would have to lie inside
//! the bytes that were given.
use super::opened::{parts, place_due, reads, Iu, Place, RESTS};
use super::opened_iu::SHAPES;
use super::pair::{Call, Pair};
use super::states::{asked, open, sends};
use super::vectors::*;
use crate::records::*;
use crate::{ffi, frame};

/// The part at both sides, and where it is due.
fn stands(a: &Answer, bytes: &[u8], due: Place) -> Result<u64, String> {
    let got = parts(a, bytes)?;
    if got == due {
        return Ok(3);
    }
    Err(format!("sense data of {a:?} in {} bytes: {got:?} at both sides, due {due:?}", bytes.len()))
}

/// What is due of any answer with any `n` bytes: K9 where the answer is a true one, else the guess. The sense data have to lie inside the
/// IU, and the IU inside the bytes.
fn guess(a: &Answer, n: usize) -> Place {
    let opened = (a.what == RESPONSE || a.what == PARSED) && a.kind == SENSE_DATA && a.sense > 0;
    let [n, start, len, sense] = [n, a.start, a.len, a.sense].map(|x| x as u128);
    let inside = start + len <= n && 24 + sense <= len;
    (opened && inside).then(|| (a.start + 24, a.sense))
}

/// The answers to one IU: of the IU reader with the IU; of both initiators with the frame.
fn answers(iu: &Iu) -> Result<Vec<(Answer, Vec<u8>)>, String> {
    let f = bytes(7, 0, 0, 0, &iu.bytes());
    let mut all = vec![(reads(&iu.bytes())?, iu.bytes())];
    let mut crossed = asked("part, write", 12, 2, 1, 8)?;
    sends(&mut crossed, 0, &[0, 4])?;
    for s in [read_receiver("part, read", 12, 1)?, crossed] {
        let mut pair: Pair = s.pair.clone();
        all.push((pair.call(&Call::Frame(f.clone(), 12))?.unwrap(), f.clone()));
    }
    Ok(all)
}

/// The bytes of the answer; the same cut short at each place, and longer; others in their place.
fn other_bytes() -> Result<u64, String> {
    let mut n = 0;
    // Taken; 34; 32.
    let failed = [(3, 18, 4, 42), (2, 18, 0, 41), (2, 0, 0, 24), (1, 4, 5, 28), (2, 1, 0, 23)];
    for (i, (byte_10, sense, response, len)) in SHAPES.into_iter().chain(failed).enumerate() {
        let iu = Iu { byte_10, status: 2, sense, response, len, rest: RESTS[i % 3] };
        for (a, own) in answers(&iu)? {
            n += stands(&a, &own, place_due(&a))? + 1;
            // The end of the sense data: the fill may be missing.
            let end = a.start + 24 + a.sense;
            for k in 0..=own.len() {
                let due = if k < end { None } else { place_due(&a) };
                n += stands(&a, &own[..k], due)?;
            }
            let more = [&own[..], &[0x77; 1048]].concat();
            for k in [1, 2, 3, 4, 24, 1048] {
                n += stands(&a, &more[..own.len() + k], place_due(&a))?;
            }
            // Not opened again: other bytes as long, also those of another RESPONSE.
            for byte in [0, 1, 2, 3, 0xff] {
                n += stands(&a, &vec![byte; own.len()], place_due(&a))?;
            }
            for (_, sense, response, len) in SHAPES {
                for byte_10 in 0..4 {
                    let mut other = Iu { byte_10, status: 0, sense, response, len, rest: RESTS[0] }.bytes();
                    if a.start > 0 {
                        other = bytes(7, 0, 0, 0, &other);
                    }
                    let due = if other.len() < end { None } else { place_due(&a) };
                    n += stands(&a, &other, due)?;
                }
            }
        }
    }
    Ok(n)
}

/// Answers of calls that took no RESPONSE, with the bytes of one that has sense data: empty.
fn other_calls() -> Result<u64, String> {
    let f = bytes(7, 0, 0, 0, &response_iu(0x70, 42));
    let mut all = Vec::new();
    let mut s = asked("part, none", 12, 2, 1, 4)?;
    let lent = Call::Next(12, 1048);
    let calls = [
        (Call::Next(12, 27), (REFUSED, 3)),
        (lent.clone(), (FRAME, 0)),
        (lent.clone(), (WAIT, 0)),
        (Call::Timeout, (RETRY, 0)),
        (Call::Cut, (UNCHANGED, 0)),
        (lent.clone(), (FRAME, 0)),
        (Call::Frame(ready(0, 4, 6, 1), 12), (REPEATED, 0)),
        (Call::Nak, (TAKEN, 0)),
        (lent.clone(), (FRAME, 0)),
        (Call::Frame(ready(4, 8, 4, 2), 12), (NEXT_BURST_DELIVERS, 0)),
        (Call::Ack, (TAKEN, 0)),
        (lent, (FRAME, 0)),
        (Call::Frame(bytes(7, 0, 0, 0, &[2; 42]), 12), (FAILED, 34)),
        (Call::Frame(f.clone(), 12), (REFUSED, 2)),
    ];
    for (call, due) in calls {
        all.push(s.call(call, due)?);
    }
    let mut n = s.holds(true)?;
    let mut s = open("part, none", 8, 1, 4)?;
    let data = |offset| Call::Frame(bytes(1, offset, 0, 0, &[7; 4]), 8);
    for (call, due) in [(Call::Frame(f.clone(), 8), (REFUSED, 6)), (data(0), (RECEIVED, 0)), (data(0), (DISCARDED, 0))] {
        all.push(s.call(call, due)?);
    }
    n += s.holds(true)?;
    // The other readers give PARSED too, the frame reader of this very frame.
    let mut header = Header::default();
    all.push(frame::read(&mut header, &f));
    all.push(unsafe { ffi::ssp_frame_read(&mut header, f.as_ptr(), f.len()) });
    let mut x = XferRdy::default();
    all.push(unsafe { ffi::ssp_xfer_rdy_read(&mut x, f[24..36].as_ptr(), 12) });
    for a in all {
        for bytes in [&f[..], &f[24..], &f[..68], &[]] {
            n += stands(&a, bytes, None)?;
        }
    }
    Ok(n)
}

/// Made-up answers: every field at its ends, with bytes of several lengths.
fn made_up() -> Result<u64, String> {
    let mut n = 0;
    let space: Vec<u8> = (0..2100).map(|i| (i % 253) as u8).collect();
    let top = usize::MAX;
    for what in [RESPONSE, PARSED, REFUSED, FAILED, WAIT, FRAME, STORED, NEXT_BURST, 18, 255] {
        for kind in [0, 1, 2, 3, 4, 6, 130, 255] {
            for start in [0, 1, 23, 24, 25, 44, 48, 1024, 1048, top - 47, top - 24, top - 23, top - 22, top] {
                for sense in [0, 1, 18, 20, 1000, 1001, 1 << 32, 1 << 63, top - 47, top - 24, top] {
                    for len in [0, 24, 42, 44, 1024, top, sense.wrapping_add(24), sense.wrapping_add(25)] {
                        let odd = what ^ kind ^ len as u8;
                        let number = if odd & 1 == 0 { 0 } else { 34 };
                        let a = Answer { number, what, kind, status: odd, frames: sense as u64, start, len, sense };
                        for bytes in [0, 1, 24, 42, 48, 66, 68, 1048, 2100] {
                            n += stands(&a, &space[..bytes], guess(&a, bytes))?;
                        }
                    }
                }
            }
        }
    }
    // At each end of the bytes and of the IU: the last that fits and the first that does not.
    for start in 0..=60 {
        for sense in 0..=30 {
            for len in 20 + sense..=28 + sense {
                for bytes in start + len - 4..=start + len + 4 {
                    let a = Answer { what: RESPONSE, kind: SENSE_DATA, start, sense, len, ..Answer::default() };
                    n += stands(&a, &space[..bytes], guess(&a, bytes))?;
                }
            }
        }
    }
    Ok(n)
}

/// Calls compared, or the first difference.
pub fn all() -> Result<u64, String> {
    Ok(other_bytes()? + other_calls()? + made_up()?)
}
