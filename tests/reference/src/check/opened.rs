//! K9, opening the RESPONSE: what the part has in common. `opened_iu` has the IU reader, `opened_ports` both initiators, `opened_part` the
//! sense data as a part of the caller's bytes, `opened_runs` the random ones, `opened_vectors` frames by hand. The sides are compared at
//! every call; then K9's sentences are held against what the library did.
use super::pair::CALLS;
use crate::records::*;
use crate::{ffi, frame};
use std::ops::Range;
use std::sync::atomic::Ordering::Relaxed;

/// Where the sense data stand: offset in the bytes that were lent, and length. An empty part may point anywhere.
pub(super) type Place = Option<(usize, usize)>;

fn place(bytes: &[u8], at: *const u8, len: usize) -> Place {
    (len > 0).then(|| ((at as usize).wrapping_sub(bytes.as_ptr() as usize), len))
}

pub(super) fn reference_place(a: &Answer, bytes: &[u8]) -> Result<Place, String> {
    let part = frame::sense_data(a, bytes);
    Ok(place(bytes, part.as_ptr(), part.len()))
}

/// The library's, by the pointer that it gives; `before` is what of the bytes the part was before the call.
pub(super) fn lib_place(a: &Answer, bytes: &mut [u8], before: Range<usize>) -> Result<Place, String> {
    let mut part = ffi::Part { at: bytes[before.clone()].as_ptr(), len: before.len() };
    CALLS.fetch_add(1, Relaxed);
    let n = unsafe { ffi::ssp_sense_data(&mut part, *a, bytes.as_mut_ptr(), bytes.len()) };
    let place = place(bytes, part.at, part.len);
    let inside = place.is_none_or(|(at, len)| at <= bytes.len() && len <= bytes.len() - at);
    if n == part.len && inside {
        return Ok(place);
    }
    Err(format!("answered {n}, the part is {place:?} of {} bytes", bytes.len()))
}

/// The part at both sides; the library's bytes are a copy, with others before and after them, and must stay.
pub(super) fn parts(a: &Answer, bytes: &[u8]) -> Result<Place, String> {
    let due = reference_place(a, bytes)?;
    let n = bytes.len();
    for before in [0..0, 0..n, n / 2..n] {
        let mut lent = Lent::new(bytes);
        let got = lib_place(a, lent.bytes(), before.clone());
        if !lent.kept(bytes) {
            return Err(format!("the library changed the bytes or some beside them: sense data of {a:?}, {n} bytes"));
        }
        if got.as_ref() != Ok(&due) {
            return Err(format!("sense data of {a:?}, {n} bytes, part before {before:?}\n  reference {due:?}\n  library   {got:?}"));
        }
    }
    Ok(due)
}

/// A copy of bytes that are lent, at an odd place in a buffer of its own.
pub(super) struct Lent(Vec<u8>);

const SIDE: usize = 7;

impl Lent {
    pub(super) fn new(bytes: &[u8]) -> Lent {
        let mut space = Vec::with_capacity(bytes.len() + 2 * SIDE);
        space.extend([0xd5; SIDE]);
        space.extend(bytes);
        space.extend([0xd5; SIDE]);
        Lent(space)
    }
    pub(super) fn bytes(&mut self) -> &mut [u8] {
        let n = self.0.len() - SIDE;
        &mut self.0[SIDE..n]
    }
    pub(super) fn kept(&self, bytes: &[u8]) -> bool {
        let (head, tail) = self.0.split_at(SIDE + bytes.len());
        head[..SIDE] == [0xd5; SIDE] && head[SIDE..] == *bytes && tail == [0xd5; SIDE]
    }
}

/// The bytes of an IU that do not count.
#[derive(Clone, Copy, PartialEq, Eq, Debug)]
pub(super) enum Rest {
    Zeros,
    Ones,
    Pattern,
}

pub(super) const RESTS: [Rest; 3] = [Rest::Zeros, Rest::Ones, Rest::Pattern];

/// What counts of an IU, by K9, and what the rest of it is.
#[derive(Clone, Copy, PartialEq, Eq, Debug)]
pub(super) struct Iu {
    pub(super) byte_10: u8,
    pub(super) status: u8,
    pub(super) sense: u32,
    pub(super) response: u32,
    pub(super) len: usize,
    pub(super) rest: Rest,
}

impl Iu {
    pub(super) fn bytes(&self) -> Vec<u8> {
        let mut iu = match self.rest {
            Rest::Zeros => vec![0; self.len.max(24)],
            Rest::Ones => vec![0xff; self.len.max(24)],
            Rest::Pattern => (0..self.len.max(24)).map(|i| (i % 251) as u8 + 1).collect(),
        };
        (iu[10], iu[11]) = (self.byte_10, self.status);
        iu[16..20].copy_from_slice(&self.sense.to_be_bytes());
        iu[20..24].copy_from_slice(&self.response.to_be_bytes());
        iu.truncate(self.len);
        iu
    }

    /// What counts of any bytes; those under 24 count by their number only.
    pub(super) fn of(iu: &[u8]) -> Iu {
        let b = |at: usize| iu.get(at).copied().unwrap_or(0);
        let number = |at: usize| u32::from_be_bytes([b(at), b(at + 1), b(at + 2), b(at + 3)]);
        Iu { byte_10: b(10), status: b(11), sense: number(16), response: number(20), len: iu.len(), rest: Rest::Zeros }
    }

    /// K9 and the paper's 32, as the IU reader answers.
    pub(super) fn due(&self) -> Answer {
        if self.len < 24 {
            return Answer { number: 32, what: FAILED, ..Answer::default() };
        }
        let kind = self.byte_10 % 4;
        let (met, sense) = match kind {
            // "Kind 0 needs an IU of exactly 24"
            0 => (self.len == 24, 0),
            // "kind 1 a response length of 4 and an IU of 28"
            1 => (self.response == 4 && self.len == 28, 0),
            // "kind 2 a sense length of 1 to 1,000 and an IU of 24 plus it"
            2 => (self.sense >= 1 && self.sense <= 1000 && self.len as u64 == 24 + u64::from(self.sense), self.sense as usize),
            // "kind 3 or a need not met"
            _ => (false, 0),
        };
        if !met {
            return Answer { number: 34, what: FAILED, ..Answer::default() };
        }
        Answer { number: 0, what: PARSED, kind, status: self.status, frames: 0, start: 0, len: self.len, sense }
    }

    /// The same at an initiator that takes the frame; `frames` of the burst in service.
    pub(super) fn due_at(&self, frames: u64) -> Answer {
        match self.due() {
            a if a.what == PARSED => Answer { what: RESPONSE, frames, start: 24, ..a },
            a => Answer { frames, ..a },
        }
    }
}

/// "the sense data as that part of the caller's own frame; for kinds 0 and 1, a refusal or a failure the part is empty."
pub(super) fn place_due(a: &Answer) -> Place {
    (a.sense > 0).then_some((a.start + 24, a.sense))
}

/// The IU reader at both sides, then the part. The library's answer.
pub(super) fn reads(iu: &[u8]) -> Result<Answer, String> {
    let a = frame::response_read(iu);
    let mut lent = Lent::new(iu);
    let bytes = lent.bytes();
    CALLS.fetch_add(1, Relaxed);
    let b = unsafe { ffi::ssp_response_iu_read(bytes.as_mut_ptr(), bytes.len()) };
    let places = [reference_place(&a, iu), lib_place(&b, bytes, 0..iu.len())];
    if a == b && places[0] == places[1] && lent.kept(iu) {
        return Ok(b);
    }
    let shown = &iu[..iu.len().min(28)];
    let kept = if lent.kept(iu) { "" } else { "\n  the library changed the IU or bytes beside it" };
    let told = format!("\n  reference {a:?} {:?}\n  library   {b:?} {:?}", places[0], places[1]);
    Err(format!("IU of {} bytes, {shown:02x?}{told}{kept}", iu.len()))
}

/// The same, and what is due.
pub(super) fn tried(iu: &Iu) -> Result<u64, String> {
    let bytes = iu.bytes();
    let (a, due) = (reads(&bytes)?, iu.due());
    if a == due && reference_place(&a, &bytes)? == place_due(&due) {
        return Ok(2);
    }
    Err(format!("IU {iu:?}\n  at both sides {a:?}\n  due           {due:?}"))
}

/// A difference is told with the calls of the library up to it.
pub(super) fn counted(run: impl FnOnce() -> Result<u64, String>) -> Result<u64, String> {
    CALLS.store(0, Relaxed);
    run().map_err(|e| format!("call {}: {e}", CALLS.load(Relaxed)))
}

/// Calls compared, or the first difference; a call for the part is one too.
pub fn all() -> Result<u64, String> {
    counted(|| {
        let ports = super::opened_iu::all()? + super::opened_ports::all()?;
        let parts = super::opened_part::all()? + super::opened_runs::all()?;
        Ok(ports + parts + super::opened_iu::far()? + super::opened_ports::reader()?)
    })
}
