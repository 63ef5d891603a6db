//! The receiving port's step for DATA that has passed 5 to 8.
use crate::records::*;

pub fn fail(r: &mut Receiver, number: u8) -> Answer {
    r.ended = true;
    Answer::failed(number, 0)
}

pub fn data(r: &mut Receiver, header: &Header, iu: &[u8], data: &mut [u8]) -> Answer {
    if r.filled == r.end {
        return Answer::is(DISCARDED);
    }
    let retries = r.transfer.limit > 0;
    let offset = header.offset;
    let outside = offset < r.base || offset >= r.end;
    if outside || (!retries && offset != r.expected) || (retries && header.cdp && offset > r.filled) {
        return fail(r, 20);
    }
    let end = offset + iu.len() as u32;
    if end > r.end {
        return fail(r, 21);
    }
    if iu.is_empty() {
        return fail(r, 22);
    }
    if retries && !header.cdp && (r.waiting || offset != r.expected) {
        r.waiting = true;
        return Answer::is(DISCARDED);
    }
    data[offset as usize..end as usize].copy_from_slice(iu);
    r.expected = end;
    r.filled = r.filled.max(end);
    r.waiting = false;
    Answer::is(if r.filled == r.end { RECEIVED } else { STORED })
}
