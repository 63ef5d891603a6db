//! K9 at the IU reader alone: every length, every need just met, one below and one above, and every byte that does not count.
use super::opened::{reads, tried, Iu, Rest, RESTS};
use super::pair::CALLS;
use crate::records::Answer;
use crate::{ffi, frame};
use std::alloc::{alloc_zeroed, dealloc, Layout};
use std::collections::BTreeSet;
use std::sync::atomic::Ordering::Relaxed;

/// IUs that are taken: byte 10, sense length, response length, bytes. The length of the other list is one that would be wrong.
pub(super) const SHAPES: [(u8, u32, u32, usize); 9] = [
    (0, 0, 0, 24),
    (0, 18, 4, 24),
    (1, 0, 4, 28),
    (1, 18, 4, 28),
    (2, 1, 0, 25),
    (2, 4, 4, 28),
    (2, 18, 0, 42),
    (2, 999, 1000, 1023),
    (2, 1000, u32::MAX, 1024),
];

fn iu((byte_10, sense, response, len): (u8, u32, u32, usize), status: u8, rest: Rest) -> Iu {
    Iu { byte_10, status, sense, response, len, rest }
}

/// Every IU length, and some past a frame's. The lengths in it: what is after byte 24, near that, alike in some bytes, at the limits.
fn lengths() -> Result<u64, String> {
    let mut n = 0;
    for len in (0..=1032usize).chain([1048, 1049, 1280, 2047, 2048, 65_535, 65_536, 65_560, 65_561, 66_560]) {
        let list = len.saturating_sub(24) as u32;
        let near =
            [list, list.wrapping_sub(1), list + 1, list + 0x100, list + 0x1_0000, list + 0x100_0000, list | 1 << 31, list.swap_bytes()];
        let own: BTreeSet<u32> = near.into_iter().chain([0, 1, 4, 24, len as u32, 1000, 1001, u32::MAX]).collect();
        for (i, own) in own.into_iter().enumerate() {
            for (k, other) in [0, 4, list, 1000, u32::MAX].into_iter().enumerate() {
                for kind in 0..4 {
                    let (sense, response) = if kind == 1 { (other, own) } else { (own, other) };
                    // The reserved bits of byte 10, the status and the other bytes go with the numbers.
                    let byte_10 = kind | ((len * 5 + i * 3 + k) as u8) << 2;
                    n += tried(&iu((byte_10, sense, response, len), (len + i) as u8, RESTS[(i + k) % 3]))?;
                }
            }
        }
    }
    Ok(n)
}

/// Each length in the IU up to 1,002 with each IU up to 1,024 bytes: both needs together.
fn together() -> Result<u64, String> {
    let mut n = 0;
    for len in 0..=1024 {
        for own in 0..=1002 {
            n += tried(&iu((2 | own as u8 & 0xfc, own, 4, len), len as u8, Rest::Zeros))?;
        }
        for own in 0..=40 {
            n += tried(&iu((1 | len as u8 & 0xfc, len as u32, own, len), own as u8, Rest::Zeros))?;
        }
    }
    Ok(n)
}

/// All values of byte 10 with all of byte 11: with IUs that one kind or the other takes, and that none does.
fn kinds() -> Result<u64, String> {
    let mut n = 0;
    let wrong = [(0, 0, 0, 25), (0, 0, 4, 28), (0, 1, 4, 28), (0, 1001, 4, 1024), (0, 1, 4, 23)];
    for (i, (_, sense, response, len)) in SHAPES.into_iter().chain(wrong).enumerate() {
        for byte_10 in 0..=255 {
            for status in 0..=255 {
                n += tried(&iu((byte_10, sense, response, len), status, RESTS[i % 3]))?;
            }
        }
    }
    Ok(n)
}

/// Every byte of an IU that is taken, with every value: where it does not count the answer is the same.
fn each_byte() -> Result<u64, String> {
    let mut n = 0;
    for (i, shape) in SHAPES.into_iter().enumerate() {
        let base = iu(shape, 2, RESTS[i % 3]);
        let mut bytes = base.bytes();
        let due = base.due();
        let own = [0..0, 20..24, 16..20][usize::from(shape.0)].clone();
        for at in 0..bytes.len() {
            let old = bytes[at];
            let counts = at == 10 || at == 11 || own.contains(&at);
            for byte in 0..=255 {
                bytes[at] = byte;
                let a = reads(&bytes)?;
                let due = if counts { Iu::of(&bytes).due() } else { due };
                if a != due {
                    return Err(format!("{base:?}, byte {at} {byte:02x}\n  at both sides {a:?}\n  due           {due:?}"));
                }
                // Of its own length every other value is 34.
                if own.contains(&at) && byte != old && a.number != 34 {
                    return Err(format!("{base:?}, byte {at} {byte:02x}: {a:?} at both sides, due 34"));
                }
                n += 2;
            }
            bytes[at] = old;
        }
    }
    Ok(n)
}

/// IUs whose length is a kind's need in its low 16 or 32 bits only: 34. The memory of the long ones is zero but for the first bytes, and
/// only these are touched; where there is no room for so many nothing is tried.
pub(super) fn far() -> Result<u64, String> {
    let mut n = 0;
    for (byte_10, sense, response, len) in SHAPES {
        n += tried(&iu((byte_10, sense, response, len + 0x1_0000), 2, Rest::Zeros))?;
        let bytes = len + 0x1_0000_0000;
        let head = iu((byte_10, sense, response, 24), 2, Rest::Zeros).bytes();
        let layout = Layout::array::<u8>(bytes).map_err(|e| e.to_string())?;
        let at = unsafe { alloc_zeroed(layout) };
        if at.is_null() {
            continue;
        }
        let [a, b] = unsafe {
            at.copy_from_nonoverlapping(head.as_ptr(), 24);
            [frame::response_read(std::slice::from_raw_parts(at, bytes)), ffi::ssp_response_iu_read(at, bytes)]
        };
        unsafe { dealloc(at, layout) };
        CALLS.fetch_add(1, Relaxed);
        if a != b || b != Answer::failed(34, 0) {
            return Err(format!("IU of {bytes} bytes, {head:02x?}\n  reference {a:?}\n  library   {b:?}"));
        }
        n += 1;
    }
    Ok(n)
}

/// Calls compared, or the first difference.
pub fn all() -> Result<u64, String> {
    Ok(lengths()? + together()? + kinds()? + each_byte()?)
}
