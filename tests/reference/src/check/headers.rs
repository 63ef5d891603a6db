//! Rules and error cases of the T10 papers 001 to 003 as vectors: RESPONSE, the fields that the ports write and look at, byte 10, which
//! frames a port takes, and what the port layer reports. Papers and marks as in `states`.
use super::pair::{Call, Rec};
use super::states::{asked, ended, open, sends, taken, BAD};
use super::vectors::*;
use crate::records::*;
use crate::{ffi, frame};

/// A header as `bytes` makes it.
pub(super) fn header(kind: u8, flags: u8, tptt: u16, offset: u32) -> Header {
    let [retry, retransmit, cdp] = [flags & 4 != 0, flags & 2 != 0, flags & 1 != 0];
    Header { kind, dest: 0xab_cdef, source: 0x12_3456, retry, retransmit, cdp, tlr: flags >> 3, tag: 0x12, tptt, offset }
}

/// Every reserved bit of the header one: bytes 4, 8, 9, 12 to 15, bits 7 to 5 of byte 10, bits 7 to 2 of byte 11.
pub(super) fn reserved(mut f: Vec<u8>) -> Vec<u8> {
    for at in [4, 8, 9, 12, 13, 14, 15] {
        f[at] = 0xff;
    }
    f[10] |= 0xe0;
    f[11] |= 0xfc;
    f
}

pub(super) fn with(mut f: Vec<u8>, at: usize, byte: u8) -> Vec<u8> {
    f[at] = byte;
    f
}

/// The frame reader at both sides.
pub(super) fn reads(f: &[u8], due: Header, len: usize) -> Result<u64, String> {
    let (mut x, mut y) = (Header::default(), Header::default());
    let a = frame::read(&mut x, f);
    let b = unsafe { ffi::ssp_frame_read(&mut y, f.as_ptr(), f.len()) };
    let answer = Answer { what: PARSED, start: 24, len, ..Answer::default() };
    if a == answer && b == answer && x == due && y == due {
        return Ok(1);
    }
    Err(format!("frame reader, {f:02x?}: due {due:?}\n  reference {a:?} {x:?}\n  library   {b:?} {y:?}"))
}

/// The frame writer at both sides.
fn writes(h: Header, iu: &[u8], due: &[u8]) -> Result<u64, String> {
    let (mut x, mut y) = (vec![0xa5; due.len()], vec![0xa5; due.len()]);
    let a = frame::write(&h, iu, &mut x);
    let b = unsafe { ffi::ssp_frame_write(h, iu.as_ptr(), iu.len(), y.as_mut_ptr(), y.len()) };
    if a == Answer::length(due.len()) && b == a && x == due && y == due {
        return Ok(1);
    }
    Err(format!("frame writer, {h:?}: due {due:02x?}\n  reference {a:?} {x:02x?}\n  library   {b:?} {y:02x?}"))
}

fn response() -> Result<u64, String> {
    let mut n = 0;
    // 001, 9.2.6.3.3.7.1 a) to k): every byte; no flag, offset zero, fill by the length; TPTT is vendor-specific (01: zero). 01: the IU,
    // and so DATAPRES and the rest, is the caller's: 28 bytes with response data, 26 with two bytes of sense data.
    for len in [24, 26, 28] {
        let iu: Vec<u8> = (0..len).map(|i| 0x80 | i as u8).collect();
        let mut due = vec![7, 0x12, 0x34, 0x56, 0, 0xab, 0xcd, 0xef, 0, 0, 0, 0, 0, 0, 0, 0, 0, 0x12, 0, 0, 0, 0, 0, 0];
        due.extend(&iu);
        if len == 26 {
            due[11] = 2;
            due.extend([0, 0]);
        }
        for (last, number) in BAD {
            let mut s = responder("001 RESPONSE", 3)?;
            s.pair.data = [iu.clone(), iu.clone()];
            s.call(Call::SetUp(transfer(false, 4, 4, 3, 4), len), (READY, 0))?;
            let mut alike = s.frame(0, 0, 0)? == due;
            // 001, 9.2.6.3.3.3.1, RESPONSE a) to c); 003, 9.2.4.3.5: RETRANSMIT one in each of the retries, the rest the same.
            for (call, _) in BAD {
                s.call(call, (RETRY, 0))?;
                alike &= s.frame(0, 2, 0)? == with(due.clone(), 10, 2);
                // 001: it is interlocked, and the answer is waited for.
                s.waits()?;
            }
            // 001, table 3: Response Failed when the number of retries has been reached; 01: by the last answer.
            s.call(last, (FAILED, number))?;
            ended(&mut s)?;
            n += s.holds(alike)?;
        }
    }
    // 001, table 3: the ACK of a resent one is Response Delivered.
    let mut s = responder("001 RESPONSE delivered", 0)?;
    s.frame(0, 0, 0)?;
    s.call(Call::Timeout, (RETRY, 0))?;
    s.frame(0, 2, 0)?;
    s.call(Call::Ack, (DELIVERED, 0))?;
    ended(&mut s)?;
    n += s.holds(true)?;
    // 003, 9.2.4.3.5: with RETRANSMIT one and none before, it is the valid one; an extra one is discarded (01: the command has ended, 2).
    for flags in [0, 2] {
        let f = bytes(7, 0, flags, 0, &response_iu(5, 25));
        for mut s in [read_receiver("003 RESPONSE", 8, 1)?, writer("003 RESPONSE", 8, 1, 1)?, asked("003 RESPONSE", 8, 1, 1, 8)?] {
            let a = s.arrives(f.clone(), (RESPONSE, 0))?;
            s.arrives(bytes(7, 0, 2, 0, &response_iu(5, 25)), (REFUSED, 2))?;
            ended(&mut s)?;
            n += s.holds((a.start, a.len) == (24, 25))?;
        }
    }
    // 01: an IU of 23 bytes is 32 in a write too.
    let mut s = asked("RESPONSE short", 8, 1, 1, 8)?;
    s.arrives(bytes(7, 0, 2, 0, &[0; 23]), (FAILED, 32))?;
    ended(&mut s)?;
    n += s.holds(true)?;
    // 003, 9.2.4.34 without retries: a failed read ends in a RESPONSE with CHECK CONDITION; the initiator takes it though data is missing.
    let mut s = read_receiver("003 RESPONSE early", 8, 0)?;
    s.arrives(bytes(1, 0, 0, 0, &[5; 4]), (STORED, 0))?;
    s.arrives(bytes(7, 0, 0, 0, &response_iu(5, 24)), (RESPONSE, 0))?;
    s.arrives(bytes(1, 4, 0, 0, &[5; 4]), (REFUSED, 2))?;
    n += s.holds(s.pair.data[0] == [5, 5, 5, 5, 4, 5, 6, 7])?;
    Ok(n)
}

fn fields() -> Result<u64, String> {
    let mut n = 0;
    // 001, 9.2.6.3.3.4.1 a) to l), read DATA: every byte, with one and with three fill bytes; TPTT is vendor-specific (01: zero whatever
    // the record says).
    for (count, fill, tail) in [(7, 1, [4, 5, 6, 0]), (5, 3, [4, 0, 0, 0])] {
        let mut s = read_sender("001 read DATA", count, 2, 1)?;
        for rec in &mut s.pair.rec {
            if let Rec::Sender(r) = rec {
                r.burst.tptt = 0x0707;
            }
        }
        s.frame(0, 0, 0)?;
        let f = s.frame(4, 0, 0)?;
        let due = [1, 0x12, 0x34, 0x56, 0, 0xab, 0xcd, 0xef, 0, 0, 0, fill, 0, 0, 0, 0, 0, 0x12, 0, 0, 0, 0, 0, 4];
        n += s.holds(f[..24] == due && f[24..] == tail)?;
    }
    // 001, "Overview": target ports may set TPTT to any value in any frame; 01: ignored in read DATA and RESPONSE, the reader gives it.
    let mut s = read_receiver("001 TPTT", 4, 1)?;
    s.arrives(bytes(1, 0, 0, 0xffff, &[7; 4]), (RECEIVED, 0))?;
    s.arrives(bytes(7, 0, 0, 0x1234, &response_iu(7, 24)), (RESPONSE, 0))?;
    n += s.holds(s.pair.data[0] == [7; 4])?;
    let mut s = asked("001 TPTT", 4, 1, 1, 4)?;
    s.arrives(bytes(7, 0, 0, 0x1234, &response_iu(7, 24)), (RESPONSE, 0))?;
    n += s.holds(true)?;
    n += reads(&bytes(1, 4, 0, 0xfffe, &[7; 5]), header(1, 0, 0xfffe, 4), 5)?;
    // 001, 9.2.6.3.3.5.1 k), 9.2.6.3.3.7.1 i): DATA OFFSET is zero outside DATA; 01 has no test of it on arrival.
    let mut s = writer("001 DATA OFFSET", 8, 1, 1)?;
    s.arrives(with(ready(0, 8, 4, 0), 23, 9), (NEXT_BURST, 0))?;
    s.frame(0, 0, 0)?;
    s.arrives(bytes(7, 9, 0, 0, &[0; 24]), (RESPONSE, 0))?;
    n += s.holds(true)?;
    Ok(n)
}

fn byte_10() -> Result<u64, String> {
    let mut n = 0;
    // 003, table 92: bits 2, 1, 0 of byte 10; K8: bits 4 and 3 too; no other bit of the header is written.
    for flags in 0..32 {
        for kind in [1, 5, 6, 7, 0x16] {
            let mut due =
                [kind, 0xab, 0xcd, 0xef, 0, 0x12, 0x34, 0x56, 0, 0, flags, 2, 0, 0, 0, 0, 0, 0x12, 0xff, 0xfe, 0, 0, 0, 9, 8, 8, 0, 0];
            n += writes(header(kind, flags, 0xfffe, 9), &[8; 2], &due)?;
            // 002, 1.0.0.1.2: reserved fields may be tested for zero; 01: they are ignored.
            n += reads(&reserved(due.to_vec()), header(kind, flags, 0xfffe, 9), 2)?;
            for bit in 5..8 {
                due[10] = flags | 1 << bit;
                n += reads(&due, header(kind, flags, 0xfffe, 9), 2)?;
            }
        }
    }
    // At each role the reserved bits change nothing, nor (K8) do bits 4 and 3, one by one in byte 10; bit 8: all of them, everywhere.
    for bit in 3..9 {
        let mark = |f: Vec<u8>| if bit < 8 { with(f.clone(), 10, f[10] | 1 << bit) } else { reserved(with(f.clone(), 10, f[10] | 0x18)) };
        let mut s = read_receiver("002 reserved, read", 12, 1)?;
        s.arrives(mark(bytes(1, 0, 0, 0, &[7; 4])), (STORED, 0))?;
        s.arrives(mark(bytes(1, 8, 0, 0, &[9; 3])), (DISCARDED, 0))?;
        s.arrives(mark(bytes(1, 4, 0, 0, &[9; 4])), (DISCARDED, 0))?;
        s.arrives(mark(bytes(1, 4, 1, 0, &[7; 5])), (STORED, 0))?;
        s.arrives(mark(bytes(1, 9, 0, 0, &[7; 3])), (RECEIVED, 0))?;
        let a = s.arrives(mark(bytes(7, 0, 2, 0, &response_iu(0, 26))), (RESPONSE, 0))?;
        n += s.holds(s.pair.data[0] == [7; 12] && a.len == 26)?;
        let mut s = open("002 reserved, write", 12, 1, 12)?;
        s.arrives(mark(bytes(1, 8, 0, 0, &[9; 4])), (DISCARDED, 0))?;
        s.arrives(mark(bytes(1, 0, 0, 0, &[9; 4])), (DISCARDED, 0))?;
        s.arrives(mark(bytes(1, 0, 1, 0, &[7; 6])), (STORED, 0))?;
        s.arrives(mark(bytes(1, 6, 0, 0, &[7; 6])), (RECEIVED, 0))?;
        n += s.holds(s.pair.data[0] == [7; 12])?;
        // RETRY DATA FRAMES zero stays zero, one stays one; the IU's reserved bytes count as little.
        for (flags, due) in [(0, (FAILED, 28)), (4, (RETRY, 0))] {
            let mut s = writer("002 reserved, XFER_RDY", 8, 1, 1)?;
            s.arrives(with(mark(ready(0, 8, flags, 1)), 35, 0xff), (NEXT_BURST, 0))?;
            s.frame(0, 0, 1)?;
            s.call(Call::Nak, due)?;
            n += s.holds(true)?;
        }
        // So does RETRANSMIT.
        for (flags, due) in [(4, (FAILED, 26)), (6, (REPEATED, 0))] {
            let mut s = asked("002 reserved, RETRANSMIT", 8, 1, 1, 8)?;
            s.arrives(mark(ready(0, 8, flags, 1)), due)?;
            n += s.holds(true)?;
        }
        let mut s = writer("002 reserved, RESPONSE", 8, 1, 1)?;
        s.arrives(mark(bytes(7, 0, 0, 0, &[0; 24])), (RESPONSE, 0))?;
        n += s.holds(true)?;
    }
    // 003, new bits, has RETRY DATA FRAMES in byte 9 bit 2, its table 92 in byte 10 bit 2; 01: byte 10. That of byte 9 is no retry.
    for (call, number) in BAD {
        let mut s = writer("003 byte 9", 4, 1, 3)?;
        s.arrives(with(ready(0, 4, 0, 0), 9, 4), (NEXT_BURST, 0))?;
        s.frame(0, 0, 0)?;
        s.call(call, (FAILED, number))?;
        n += s.holds(true)?;
    }
    // 003, 9.2.1: RETRY DATA FRAMES is zero outside XFER_RDY, RETRANSMIT in DATA, CDP outside DATA; 01 has no test of them there.
    let mut s = read_receiver("003 flags elsewhere", 8, 1)?;
    s.arrives(bytes(1, 0, 6, 0, &[7; 4]), (STORED, 0))?;
    s.arrives(bytes(1, 0, 6, 0, &[7; 4]), (DISCARDED, 0))?;
    s.arrives(bytes(1, 4, 7, 0, &[7; 4]), (RECEIVED, 0))?;
    s.arrives(bytes(7, 0, 5, 0, &response_iu(7, 24)), (RESPONSE, 0))?;
    n += s.holds(true)?;
    let mut s = open("003 flags elsewhere", 8, 1, 8)?;
    s.arrives(bytes(1, 4, 6, 0, &[7; 4]), (DISCARDED, 0))?;
    s.arrives(bytes(1, 0, 7, 0, &[7; 8]), (RECEIVED, 0))?;
    n += s.holds(true)?;
    let mut s = writer("003 flags elsewhere", 8, 1, 1)?;
    s.arrives(ready(0, 4, 5, 0), (NEXT_BURST, 0))?;
    s.frame(0, 0, 0)?;
    s.arrives(ready(0, 4, 5, 0), (FAILED, 26))?;
    n += s.holds(true)?;
    Ok(n)
}

/// Frames that a port does not take. T10 discards them; 01: refuses them with a number, and nothing changes.
fn not_taken() -> Result<u64, String> {
    let mut n = 0;
    // 002, 1.0.0.1.2: a target takes COMMAND, TASK and DATA only (01: write DATA), an initiator none of COMMAND and TASK.
    let others = [0, 2, 4, 6, 0x16, 0x81, 0xff];
    let roles: [(Script, &[u8], &[u8]); 4] = [
        (read_sender("002 router", 8, 1, 1)?, &[1, 5, 7], &[]),
        (open("002 router", 8, 1, 8)?, &[5, 7], &[1]),
        (read_receiver("002 router", 8, 1)?, &[], &[1, 5, 7]),
        (asked("002 router", 8, 1, 1, 8)?, &[1], &[5, 7]),
    ];
    for (mut s, more, takes) in roles {
        let before = s.pair.clone();
        for kind in others.iter().chain(more) {
            s.arrives(with(bytes(1, 0, 0, 0, &[9; 24]), 0, *kind), (REFUSED, 6))?;
            // Type before address and tag.
            s.arrives(with(with(bytes(1, 0, 0, 0, &[9; 24]), 0, *kind), 2, 9), (REFUSED, 6))?;
        }
        // 01: before all of these, the frame's length and its fill.
        for len in [0, 20, 23, 25, 27, 1052] {
            s.arrives(vec![0; len], (REFUSED, 5))?;
        }
        for kind in [1, 5, 7] {
            s.arrives(with(bytes(kind, 0, 0, 0, &[]), 11, 1), (REFUSED, 5))?;
        }
        for kind in takes {
            // 002: hashed addresses may be checked against the connection's; 01: they are. Then the tag of the command.
            let f = bytes(*kind, 0, 0, 0, &[9; 24]);
            for (at, number) in [(1, 7), (3, 7), (5, 7), (7, 7), (16, 8), (17, 8)] {
                s.arrives(with(f.clone(), at, f[at] ^ 1), (REFUSED, number))?;
                // Address before tag.
                s.arrives(with(with(f.clone(), 17, 9), at, f[at] ^ 1), (REFUSED, number))?;
            }
        }
        let kept = s.pair.rec == before.rec && s.pair.data == before.data;
        n += s.holds(kept)?;
    }
    Ok(n)
}

/// Both ends hear of a nexus loss at any time; a cut or an answer is nothing to a port that has no frame out.
fn statuses() -> Result<u64, String> {
    let mut n = 0;
    // 001, 9.2.6.3.3.3.1; 002, 1.0.0.1.3.3.1: I_T Nexus Loss is told as such, whatever is under way, and ends it.
    let mut s = read_sender("001 nexus loss", 12, 2, 1)?;
    sends(&mut s, 0, &[0, 4])?;
    taken(&mut s, &[Call::Nak])?;
    let a = s.call(Call::Loss, (FAILED, 31))?;
    s.call(Call::Ack, (REFUSED, 2))?;
    n += s.holds(a.frames == 2 && matches!(s.pair.rec[0], Rec::Sender(r) if r.ended && r.unanswered == 0 && !r.nak))?;
    let name = "001 nexus loss";
    let mut others = [target(name, 8, 1, 4)?, responder(name, 1)?, asked(name, 8, 2, 1, 8)?, read_receiver(name, 8, 1)?];
    for (s, flags) in others.iter_mut().zip([4, 0, 0]) {
        s.frame(0, flags, 0)?;
    }
    for mut s in others {
        s.call(Call::Loss, (FAILED, 31))?;
        ended(&mut s)?;
        n += s.holds(true)?;
    }
    // 001: "Connection Lost Without ACK/NAK" and the answers are of a frame that is out; 01: else a cut changes nothing, answers are 4.
    let name = "001 none out";
    let mut again = target(name, 8, 1, 4)?;
    again.frame(0, 4, 0)?;
    again.call(Call::Nak, (RETRY, 0))?;
    let new = [read_sender(name, 8, 1, 1)?, target(name, 8, 1, 4)?, responder(name, 1)?, writer(name, 8, 1, 1)?];
    for mut s in new.into_iter().chain([asked(name, 8, 1, 1, 8)?, open(name, 8, 1, 4)?, again]) {
        let before = s.pair.rec[0];
        s.call(Call::Cut, (UNCHANGED, 0))?;
        for call in [Call::Ack, Call::Nak, Call::Timeout] {
            s.call(call, (REFUSED, 4))?;
        }
        n += s.holds(s.pair.rec[0] == before)?;
    }
    Ok(n)
}

pub fn all() -> Result<u64, String> {
    Ok(response()? + fields()? + byte_10()? + not_taken()? + statuses()?)
}
