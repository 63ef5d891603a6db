//! K8, TLR CONTROL (bits 4 and 3 of byte 10) in the frame writer, its two steps and the frame reader; `tlr_ports` has the ports. The sides
//! are compared at every call; then K8's sentences are held against what the library left.
use super::headers::{header as given, reads, reserved, with};
use super::pair::Call;
use super::states::asked;
use super::steps::*;
use super::vectors::{bytes, read_receiver, read_sender, ready, response_iu, target};
use crate::records::*;
use crate::{ffi, frame};

const KINDS: [u8; 5] = [frame::DATA, frame::XFER_RDY, frame::COMMAND, frame::RESPONSE_TYPE, frame::TASK];

/// All 32 values of the five bits with every type. Byte 10 is the five bits; answer and every other byte are as with TLR CONTROL 0.
fn written(iu: &[u8], other: &[u8]) -> Result<u64, String> {
    let mut n = 0;
    for k in 0..160 {
        let h = header(k);
        let byte = h.tlr * 8 + u8::from(h.retry) * 4 + u8::from(h.retransmit) * 2 + u8::from(h.cdp);
        for len in [0, 1, 2, 3, 4, 12, 24, 1021, 1024, 1025] {
            let due = frame::room(len);
            for room in [0, 24, due - 1, due, due + 1, ROOM] {
                for background in ["ones", "pattern"] {
                    let case = Case { header: h, iu: &iu[..len], room, background };
                    n += case.tried(&other[..len])? + lands(&case, byte)?;
                }
            }
        }
    }
    Ok(n)
}

/// The writer and its steps, each over the background.
fn lands(case: &Case, byte: u8) -> Result<u64, String> {
    let before = background(case.background);
    let zero = Case { header: Header { tlr: 0, ..case.header }, ..*case };
    for step in CALLS {
        let left = case.call(0, step, &before)?;
        let mut due = zero.call(0, step, &before)?;
        if due.0.what == FRAME && step != DATA {
            due.1[10] = byte;
        }
        if left != due {
            let (a, b) = (left.0, left.1[10]);
            return Err(case.fault(format!("{}: at both sides {a:?}, byte 10 {b:02x}; due {byte:02x}, the rest as with 0", NAMES[step])));
        }
    }
    Ok(6)
}

/// 4 to 255 with every type and all flags: 1, also where the room is too short (1 goes before 3), and no byte changes.
fn refused(iu: &[u8]) -> Result<u64, String> {
    let mut n = 0;
    for tlr in 4..=255 {
        for k in 0..40 {
            for (len, room) in [(0, 24), (5, 32), (1024, 1048), (4, ROOM), (0, 0), (5, 24), (5, 31), (1024, 1047), (1025, ROOM)] {
                for background in ["ones", "pattern"] {
                    n += refuses(&Case { header: Header { tlr, ..header(k) }, iu: &iu[..len], room, background })?;
                }
            }
        }
    }
    Ok(n)
}

fn refuses(case: &Case) -> Result<u64, String> {
    let before = background(case.background);
    for step in CALLS {
        let (a, left) = case.call(0, step, &before)?;
        if a != Answer::refused(1) || left != before {
            return Err(case.fault(format!("{}: {a:?} at both sides, due 1 and no byte changed", NAMES[step])));
        }
    }
    Ok(3)
}

/// The reader at both sides, over what `old` held; what the library gave.
fn reader(f: &[u8], old: Header) -> Result<(Answer, Header), String> {
    let (mut x, mut y) = (old, old);
    let a = frame::read(&mut x, f);
    let b = unsafe { ffi::ssp_frame_read(&mut y, f.as_ptr(), f.len()) };
    if a == b && x == y {
        return Ok((b, y));
    }
    Err(format!("frame reader, {:02x?}\n  reference {a:?} {x:?}\n  library   {b:?} {y:?}", &f[..f.len().min(32)]))
}

/// The frame with reserved bits and fill zero: what is left of it once it was read and written again.
fn plain(f: &[u8]) -> Vec<u8> {
    let mut f = f.to_vec();
    for at in [4, 8, 9, 12, 13, 14, 15] {
        f[at] = 0;
    }
    f[10] &= 0x1f;
    f[11] &= 3;
    let fill = f.len() - usize::from(f[11]);
    f[fill..].fill(0);
    f
}

/// All 256 values of byte 10 in one frame. The reader gives bits 4 and 3; all else is as with these and the reserved bits zero.
fn bytes_10(f: &[u8], old: Header) -> Result<u64, String> {
    for byte in 0..=255 {
        let f = with(f.to_vec(), 10, byte);
        let fault = |what: String| format!("byte 10 {byte:02x}: {what}\n  {:02x?}, {} bytes", &f[..24], f.len());
        let (a, h) = reader(&f, old)?;
        let (b, zero) = reader(&with(f.clone(), 10, byte & 7), old)?;
        let flags = [byte & 4 != 0, byte & 2 != 0, byte & 1 != 0];
        if a != b || h != (Header { tlr: byte >> 3 & 3, ..zero }) || [h.retry, h.retransmit, h.cdp] != flags {
            return Err(fault(format!("at both sides {a:?} {h:?}; with bits 7 to 3 zero {b:?} {zero:?}")));
        }
        // Written again, over no zero byte.
        let case = Case { header: h, iu: &f[24..24 + a.len], room: f.len(), background: "ones" };
        let (a, left) = case.call(0, WRITER, &background("ones"))?;
        if a != Answer::length(f.len()) || left[..f.len()] != plain(&f) || left[10] != byte & 0x1f {
            return Err(fault(format!("written again, at both sides {a:?} {:02x?}", &left[..f.len()])));
        }
    }
    Ok(3 * 256)
}

/// A frame that is not read: the same number, and the header stays, whatever byte 10 is.
fn unread(f: &[u8], old: Header, number: u8) -> Result<u64, String> {
    for byte in 0..=255 {
        let f = with(f.to_vec(), 10, byte);
        let got = reader(&f, old)?;
        if got != (Answer::refused(number), old) {
            return Err(format!("frame reader: {got:?} at both sides, due {number}\n  {f:02x?}"));
        }
    }
    Ok(256)
}

fn read(iu: &[u8]) -> Result<u64, String> {
    let mut n = 0;
    for old in [Header::default(), Header { kind: 0xff, tlr: 0xff, ..MOST }] {
        for kind in KINDS {
            for len in [0, 1, 2, 3, 4, 24, 1024] {
                let f = bytes(kind, 0x9596_9798, 0, 0x8384, &iu[..len]);
                n += bytes_10(&f, old)?;
                // Reserved bits one, and fill that is not zero.
                let mut f = reserved(f);
                f[24 + len..].fill(0xff);
                n += bytes_10(&f, old)?;
            }
        }
        for kind in [0, 2, 0x81, 0xff] {
            n += unread(&with(bytes(1, 4, 0, 0, &iu[..24]), 0, kind), old, 6)?;
        }
        for len in [11, 20, 23, 25, 26, 27, 1049, 1052] {
            n += unread(&vec![1; len], old, 5)?;
        }
        n += unread(&with(bytes(1, 4, 0, 0, &[]), 11, 1), old, 5)?;
    }
    Ok(n)
}

/// Calls compared, or the first difference.
pub fn all() -> Result<u64, String> {
    let iu = |flip: u8| (0..1025).map(|i| (i * 5 % 253) as u8 ^ flip).collect::<Vec<u8>>();
    Ok(written(&iu(0), &iu(0xff))? + refused(&iu(0))? + read(&iu(0))? + super::tlr_ports::all()?)
}

/// R1's header with another byte 10.
fn r1(byte_10: u8) -> [u8; 24] {
    [1, 0x12, 0x34, 0x56, 0, 0xab, 0xcd, 0xef, 0, 0, byte_10, 0, 0, 0, 0, 0, 0, 0x12, 0, 0, 0, 0, 0, 4]
}

/// K8 and the paper by hand.
pub fn vectors() -> Result<u64, String> {
    let mut n = 0;
    let ones = [0xff; 32];
    let (iu, length) = ([4, 5, 6, 7], Answer::length);
    let h = Header { kind: 1, dest: 0x12_3456, source: 0xab_cdef, tag: 0x12, offset: 4, ..Header::default() };
    // "The writer puts them down": R1 over ones, TLR CONTROL, bits 2 to 0, byte 10. K2: the header step does, the data step does not.
    let table = [
        (0, 0, 0x00),
        (1, 0, 0x08),
        (2, 0, 0x10),
        (3, 0, 0x18),
        (0, 7, 0x07),
        (1, 7, 0x0f),
        (2, 7, 0x17),
        (3, 7, 0x1f),
        (1, 1, 0x09),
        (1, 4, 0x0c),
        (2, 2, 0x12),
        (2, 4, 0x14),
        (3, 1, 0x19),
    ];
    for (tlr, flags, byte) in table {
        let h = Header { tlr, retry: flags & 4 != 0, retransmit: flags & 2 != 0, cdp: flags & 1 != 0, ..h };
        let whole = [&r1(byte)[..], &iu, &ones[28..]].concat();
        n += leaves("K8 R1", WRITER, h, &iu, &ones, (length(28), &whole))?;
        let head = [&r1(byte)[..], &ones[24..]].concat();
        n += leaves("K8 R1", HEADER, h, &iu, &ones, (length(28), &head))?;
        let data = [&ones[..24], &iu, &ones[28..]].concat();
        n += leaves("K8 R1", DATA, h, &iu, &ones, (length(28), &data))?;
        n += leaves("K8 R1", HEADER, h, &iu, &data, (length(28), &whole))?;
        n += leaves("K8 R1", DATA, h, &iu, &head, (length(28), &whole))?;
        // "The frame reader gives them as a number from 0 to 3"; bits 7 to 5 stay reserved: each and all of them one, the same header.
        for more in [0, 0x20, 0x40, 0x80, 0xe0] {
            n += reads(&[&r1(byte | more)[..], &iu].concat(), h, 4)?;
        }
        // 3 as ever where the number is taken.
        n += leaves("K8 space", WRITER, h, &iu, &ones[..27], (Answer::refused(3), &ones[..27]))?;
    }
    // FFh: all flags, 3. E7h: all flags, 0. The others: no flag. In every type.
    for kind in KINDS {
        for (byte, five) in [(0xff, 0x1f), (0xe7, 7), (0xf8, 0x18), (0xf0, 0x10), (0xe8, 8)] {
            n += reads(&with(bytes(kind, 9, 0, 0xfffe, &[8; 2]), 10, byte), given(kind, five, 0xfffe, 9), 2)?;
        }
    }
    // "The writer refuses a larger number by 1", and so the steps; before 3 where the buffer is short.
    for tlr in [4, 5, 7, 8, 0x0c, 0x10, 0x18, 0x20, 0x80, 0xfc, 0xff] {
        for step in CALLS {
            for room in [0, 23, 24, 27, 28, 32] {
                let due = (Answer::refused(1), &ones[..room]);
                n += leaves("K8 refused", step, Header { tlr, ..h }, &iu, &ones[..room], due)?;
            }
        }
    }
    Ok(n + ports()?)
}

/// "The ports write 0 and act on nothing there": frames with 3 arrive at each role, and byte 10 of what goes out is that of before.
fn ports() -> Result<u64, String> {
    let mut s = read_receiver("K8 read", 12, 1)?;
    s.arrives(bytes(1, 0, 0x18, 0, &[7; 4]), (STORED, 0))?;
    s.arrives(bytes(1, 8, 0x18, 0, &[9; 4]), (DISCARDED, 0))?;
    s.arrives(bytes(1, 4, 0x18, 0, &[9; 4]), (DISCARDED, 0))?;
    s.arrives(bytes(1, 4, 0x19, 0, &[7; 8]), (RECEIVED, 0))?;
    s.arrives(bytes(7, 0, 0x1a, 0, &response_iu(7, 24)), (RESPONSE, 0))?;
    let mut n = s.holds(s.pair.data[0] == [7; 12])?;
    let mut s = asked("K8 write", 12, 1, 1, 4)?;
    s.frame(0, 0, 0)?;
    s.call(Call::Ack, (DELIVERED, 0))?;
    s.arrives(ready(4, 8, 0x1c, 1), (NEXT_BURST, 0))?;
    s.frame(4, 0, 1)?;
    s.call(Call::Nak, (RETRY, 0))?;
    s.frame(4, 1, 1)?;
    s.arrives(ready(4, 8, 0x1e, 2), (REPEATED, 0))?;
    s.call(Call::Ack, (TAKEN, 0))?;
    s.frame(4, 0, 2)?;
    // RETRY DATA FRAMES zero stays zero beside it.
    s.arrives(ready(4, 8, 0x1a, 3), (REPEATED, 0))?;
    s.call(Call::Ack, (TAKEN, 0))?;
    s.frame(4, 0, 3)?;
    s.call(Call::Timeout, (FAILED, 29))?;
    n += s.holds(true)?;
    let mut s = target("K8 target", 8, 1, 8)?;
    s.frame(0, 4, 0)?;
    s.arrives(bytes(1, 0, 0x18, 0, &[9; 8]), (DISCARDED, 0))?;
    s.call(Call::Nak, (RETRY, 0))?;
    s.frame(0, 6, 1)?;
    s.call(Call::Ack, (ACKNOWLEDGED, 0))?;
    s.arrives(bytes(1, 4, 8, 1, &[9; 4]), (DISCARDED, 0))?;
    s.arrives(bytes(1, 0, 0x10, 1, &[9; 4]), (DISCARDED, 0))?;
    s.arrives(bytes(1, 0, 0x11, 1, &[7; 8]), (RECEIVED, 0))?;
    n += s.holds(s.pair.data[0] == [7; 8])?;
    let mut s = read_sender("K8 read sent", 8, 2, 1)?;
    s.frame(0, 0, 0)?;
    s.arrives(bytes(1, 0, 0x18, 0, &[7; 4]), (REFUSED, 6))?;
    s.call(Call::Cut, (RETRY, 0))?;
    s.frame(0, 1, 0)?;
    n += s.holds(true)?;
    Ok(n)
}
