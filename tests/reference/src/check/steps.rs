//! K2, the writer in two steps: each step by itself, each call after each other one, and beside the writer. The sides are compared at every
//! call; then K2's sentences are held against what the library left.
use crate::records::*;
use crate::{ffi, frame};
use std::ops::Range;

/// The most that is lent; the bytes past the room must stay too.
pub(super) const ROOM: usize = 1092;
const SPACE: usize = ROOM + 8;
pub(super) type Bytes = [u8; SPACE];
/// What a call left.
pub(super) type Left = (Answer, Bytes);

/// The calls, by the parts of the frame that each puts down: after two calls the parts of both are there.
pub(super) const DATA: usize = 1;
pub(super) const HEADER: usize = 2;
pub(super) const WRITER: usize = 3;
pub(super) const CALLS: [usize; 3] = [DATA, HEADER, WRITER];
pub(super) const NAMES: [&str; 4] = ["no call", "data step", "header step", "writer"];

/// One call at the reference and at the library, which is lent the first `room` bytes.
fn both(step: usize, h: &Header, iu: &[u8], room: usize, before: &Bytes) -> [Left; 2] {
    let (mut x, mut y) = (*before, *before);
    let out = &mut x[..room];
    let a = match step {
        DATA => frame::write_data(h, iu, out),
        HEADER => frame::write_header(h, iu, out),
        _ => frame::write(h, iu, out),
    };
    let call = match step {
        DATA => ffi::ssp_frame_write_data,
        HEADER => ffi::ssp_frame_write_header,
        _ => ffi::ssp_frame_write,
    };
    let b = unsafe { call(*h, iu.as_ptr(), iu.len(), y.as_mut_ptr(), room) };
    [(a, x), (b, y)]
}

/// What the output holds before. The two differ in every byte and have no zero, so that a byte cleared, written or left by mistake shows.
pub(super) fn background(name: &str) -> Bytes {
    std::array::from_fn(|i| if name == "ones" { 0xff } else { (i % 251) as u8 + 1 })
}

/// All bytes but those of `part` are as before.
fn kept(before: &Bytes, after: &Bytes, part: Range<usize>) -> bool {
    before[..part.start] == after[..part.start] && before[part.end..] == after[part.end..]
}

#[derive(Clone, Copy)]
pub(super) struct Case<'a> {
    pub(super) header: Header,
    pub(super) iu: &'a [u8],
    pub(super) room: usize,
    pub(super) background: &'static str,
}

impl Case<'_> {
    pub(super) fn fault(&self, what: String) -> String {
        format!("{what}\n  {:?}, IU of {}, room {}, background: {}", self.header, self.iu.len(), self.room, self.background)
    }
    /// The call `step` at both sides, and what the library left; `earlier` is the call that left `before`.
    pub(super) fn call(&self, earlier: usize, step: usize, before: &Bytes) -> Result<Left, String> {
        let [(a, x), (b, y)] = both(step, &self.header, self.iu, self.room, before);
        if a == b && x == y {
            return Ok((b, y));
        }
        let at = (0..SPACE).find(|i| x[*i] != y[*i]);
        let bytes = at.map_or("bytes alike".to_string(), |i| format!("byte {i}: {:02x} {:02x}", x[i], y[i]));
        Err(self.fault(format!("{} after {}: reference {a:?}, library {b:?}; {bytes}", NAMES[step], NAMES[earlier])))
    }
    /// K2 of the three calls, each over the background.
    fn sentences(&self, left: &[Left; 4]) -> Result<(), String> {
        let (answer, _) = left[WRITER];
        let n = answer.len;
        let parts = if answer.what == FRAME { [24..n, 0..24, 0..n] } else { [0..0, 0..0, 0..0] };
        for (step, part) in CALLS.into_iter().zip(parts) {
            let (a, bytes) = &left[step];
            if *a != answer {
                return Err(self.fault(format!("{}: {a:?} at both sides, the writer {answer:?}", NAMES[step])));
            }
            if !kept(&left[0].1, bytes, part.clone()) {
                return Err(self.fault(format!("{}: at both sides it changed bytes other than {part:?}", NAMES[step])));
            }
        }
        Ok(())
    }
    /// Calls compared. `other` is an IU of the same length.
    pub(super) fn tried(&self, other: &[u8]) -> Result<u64, String> {
        let before = background(self.background);
        let mut left = [(Answer::default(), before); 4];
        for step in CALLS {
            left[step] = self.call(0, step, &before)?;
        }
        self.sentences(&left)?;
        // Both orders are the writer; a step again, or one after the writer, changes nothing.
        for first in CALLS {
            for step in CALLS {
                if self.call(first, step, &left[first].1)? != left[first | step] {
                    let due = NAMES[first | step];
                    return Err(self.fault(format!("{} after {}: at both sides not as the {due} alone", NAMES[step], NAMES[first])));
                }
            }
        }
        // The header step looks at no byte of the IU.
        if (Case { iu: other, ..*self }).call(0, HEADER, &before)? != left[HEADER] {
            return Err(self.fault("header step: at both sides another for another IU of that length".into()));
        }
        if left[DATA].0.what == REFUSED {
            return Ok(13);
        }
        // The data step puts down nothing of the header.
        for header in [Header { kind: frame::DATA, ..Header::default() }, MOST] {
            let case = Case { header, ..*self };
            if case.call(0, DATA, &before)? != left[DATA] {
                return Err(self.fault(format!("data step: at both sides another with {header:?}")));
            }
        }
        Ok(15)
    }
}

/// Every bit one that may be, but for the type.
pub(super) const MOST: Header = Header {
    kind: frame::TASK,
    dest: 0xff_ffff,
    source: 0xff_ffff,
    retry: true,
    retransmit: true,
    cdp: true,
    tlr: 3,
    tag: 0xffff,
    tptt: 0xffff,
    offset: u32::MAX,
};

/// A header with bytes that differ; with n the types and the five bits of byte 10 change, all 160 together.
pub(super) fn header(n: usize) -> Header {
    let kind = [frame::DATA, frame::XFER_RDY, frame::COMMAND, frame::RESPONSE_TYPE, frame::TASK][n % 5];
    let [retry, retransmit, cdp] = [n & 4 != 0, n & 2 != 0, n & 1 != 0];
    let tlr = (n >> 3 & 3) as u8;
    Header { kind, dest: 0x12_3456, source: 0xab_cdef, retry, retransmit, cdp, tlr, tag: 0x7172, tptt: 0x8384, offset: 0x9596_9798 }
}

/// An IU, and one that differs from it in every byte. Both go on behind the part that is lent: no fill comes from there.
struct Source([Vec<u8>; 2]);

impl Source {
    fn tried(&self, header: Header, len: usize, room: usize) -> Result<u64, String> {
        let mut n = 0;
        for background in ["ones", "pattern"] {
            n += Case { header, iu: &self.0[0][..len], room, background }.tried(&self.0[1][..len])?;
        }
        Ok(n)
    }
}

/// Every IU length with the rooms at which something ends, and every room for short IUs.
fn lengths(s: &Source) -> Result<u64, String> {
    let mut n = 0;
    for len in 0..=1029 {
        let due = frame::room(len);
        for room in [due - 1, due, due + 1, 0, 23, 24, 25, 1047, 1048, 1049] {
            n += s.tried(header(len), len, room)?;
        }
    }
    for len in 0..=13 {
        for room in 0..=frame::room(len) + 5 {
            n += s.tried(header(len + 3), len, room)?;
        }
    }
    // Lengths whose last 8 or 16 bits would fit.
    for len in [1030, 1048, 1280, 2048, 4096, 65_535, 65_536, 65_540] {
        for room in [0, 24, 28, 1047, 1048, ROOM] {
            n += s.tried(header(len), len, room)?;
        }
    }
    Ok(n)
}

/// Every type byte, addresses at and past 24 bits, and the other fields at their ends.
fn headers(s: &Source) -> Result<u64, String> {
    let mut n = 0;
    let at = |h: Header, len: usize| -> Result<u64, String> {
        let due = frame::room(len);
        [0, 24, due - 1, due, ROOM].iter().map(|room| s.tried(h, len, *room)).sum()
    };
    for kind in 0..=255 {
        for len in [0, 3, 4, 1024, 1025] {
            n += at(Header { kind, ..header(len) }, len)?;
        }
    }
    let addresses = [0, 0x12_3456, 0xff_ffff, 0x100_0000, 0x112_3456, 0x8000_0000, u32::MAX];
    for dest in addresses {
        for source in addresses {
            for len in [0, 2, 1025] {
                n += at(Header { dest, source, ..header(len) }, len)?;
            }
        }
    }
    for k in 0..160 {
        n += at(header(k), 5)?;
    }
    for [tag, tptt] in [[0, 0], [0, 0xffff], [0xffff, 0], [0xffff, 0xffff], [0x00ff, 0xff00]] {
        for offset in [0, 1, 0xff, 0x8000_0000, u32::MAX] {
            n += at(Header { tag, tptt, offset, ..header(0) }, 5)?;
        }
    }
    Ok(n)
}

/// Calls compared, or the first difference.
pub fn all() -> Result<u64, String> {
    let iu = |flip: u8| (0..65_540).map(|i| (i * 5 % 253) as u8 ^ flip).collect();
    let s = Source([iu(0), iu(0xff)]);
    Ok(lengths(&s)? + headers(&s)?)
}

/// One call over `before`, at both sides with the answer and the bytes that are due.
pub(super) fn leaves(name: &str, step: usize, h: Header, iu: &[u8], before: &[u8], due: (Answer, &[u8])) -> Result<u64, String> {
    let mut space = [0xa5; SPACE];
    space[..before.len()].copy_from_slice(before);
    let mut after = space;
    after[..due.1.len()].copy_from_slice(due.1);
    let sides = both(step, &h, iu, before.len(), &space);
    if sides.iter().all(|side| *side == (due.0, after)) {
        return Ok(1);
    }
    let [(a, x), (b, y)] = sides.map(|(a, x)| (a, x[..before.len()].to_vec()));
    let part = NAMES[step];
    Err(format!("{name}: {part}, {h:?}, due {:?} {:02x?}\n  reference {a:?} {x:02x?}\n  library   {b:?} {y:02x?}", due.0, due.1))
}

/// K2 and the paper by hand; the length that a step answers where it is taken is the header's (OPEN.md).
pub fn vectors() -> Result<u64, String> {
    let mut n = 0;
    let ones = [0xff; 32];
    let h = Header { kind: 1, dest: 0x12_3456, source: 0xab_cdef, tag: 0x12, offset: 4, ..Header::default() };
    // R1: the header, over ones, so that the reserved bits are seen to be written; K2: "changes no other byte".
    let r1 = [1, 0x12, 0x34, 0x56, 0, 0xab, 0xcd, 0xef, 0, 0, 0, 0, 0, 0, 0, 0, 0, 0x12, 0, 0, 0, 0, 0, 4];
    let length = Answer::length;
    let alone = [&r1[..], &ones[..4]].concat();
    n += leaves("R1 in two steps", HEADER, h, &[4, 5, 6, 7], &ones[..28], (length(28), &alone))?;
    // K2: "leaves the first 24 bytes unchanged"; "one after the other they are the writer".
    let data = [&ones[..24], &[4, 5, 6, 7]].concat();
    n += leaves("R1 in two steps", DATA, h, &[4, 5, 6, 7], &ones[..28], (length(28), &data))?;
    let whole = [&r1[..], &[4, 5, 6, 7]].concat();
    n += leaves("R1 in two steps", HEADER, h, &[4, 5, 6, 7], &data, (length(28), &whole))?;
    n += leaves("R1 in two steps", DATA, h, &[4, 5, 6, 7], &alone, (length(28), &whole))?;
    // R2: two data bytes. "The frame": fill is written zero, byte 11 has its number; "output bytes beyond the frame stay unchanged".
    // K2: the fill goes with the data, byte 11 with the header. So too with one byte, with three and with none.
    let tails: [(&[u8], &[u8], u8); 4] =
        [(&[8, 9], &[8, 9, 0, 0], 2), (&[8], &[8, 0, 0, 0], 3), (&[8, 9, 10], &[8, 9, 10, 0], 1), (&[], &[], 0)];
    for (iu, tail, fill) in tails {
        let len = 24 + tail.len();
        let data = [&ones[..24], tail, &ones[len..]].concat();
        n += leaves("R2 in two steps", DATA, h, iu, &ones, (length(len), &data))?;
        let mut head = [&r1[..], &ones[24..]].concat();
        head[11] = fill;
        n += leaves("R2 in two steps", HEADER, h, iu, &ones, (length(len), &head))?;
    }
    // 3: "a frame is due, the output buffer is shorter"; the frame is the whole one, as K2 has each step refuse as the writer does.
    for room in [0, 23, 24, 27] {
        for step in CALLS {
            n += leaves("space, two steps", step, h, &[4, 5, 6, 7], &ones[..room], (Answer::refused(3), &ones[..room]))?;
        }
    }
    // 1: "also for another type or an IU over 1,024 bytes", "a hashed address passes 24 bits"; it comes before 3.
    let far = 0x100_0000;
    let refused = [(Header { kind: 2, ..h }, 4), (Header { dest: far, ..h }, 4), (Header { source: far, ..h }, 4), (h, 1025)];
    for (h, len) in refused {
        for room in [0, 24, 32] {
            for step in CALLS {
                n += leaves("refused, two steps", step, h, &vec![7; len], &ones[..room], (Answer::refused(1), &ones[..room]))?;
            }
        }
    }
    Ok(n)
}
