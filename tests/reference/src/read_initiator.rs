//! A read at the initiator.
use crate::records::*;
use crate::{frame, receiver};

fn gate(r: &Receiver) -> Option<Answer> {
    if !r.fits() || r.transfer.write {
        return Some(Answer::refused(1));
    }
    r.ended.then(|| Answer::refused(2))
}

pub fn set_up(r: &mut Receiver, t: Transfer) -> Answer {
    if !t.fits() || t.write {
        return Answer::refused(1);
    }
    let (start, end) = (t.start, t.end() as u32);
    *r = Receiver { transfer: t, base: start, end, expected: start, filled: start, ..Receiver::default() };
    Answer::is(READY)
}

pub fn frame_received(r: &mut Receiver, bytes: &[u8], data: &mut [u8]) -> Answer {
    // K5: the buffer may be longer than the read needs.
    if (data.len() as u64) < r.transfer.end() {
        return Answer::refused(1);
    }
    if let Some(a) = gate(r) {
        return a;
    }
    let takes = [frame::DATA, frame::XFER_RDY, frame::RESPONSE_TYPE];
    let (header, iu) = match frame::arrive(&r.transfer, bytes, &takes) {
        Ok(x) => x,
        Err(n) => return Answer::refused(n),
    };
    match header.kind {
        frame::DATA => receiver::data(r, &header, iu, data),
        frame::XFER_RDY => {
            let n = if iu.len() < 12 {
                23
            } else if iu.len() > 12 {
                24
            } else {
                27
            };
            receiver::fail(r, n)
        }
        _ => {
            let opened = frame::response_read(iu);
            if opened.what != PARSED {
                return receiver::fail(r, opened.number);
            }
            r.ended = true;
            Answer { what: RESPONSE, start: 24, ..opened }
        }
    }
}

pub fn nexus_lost(r: &mut Receiver) -> Answer {
    match gate(r) {
        Some(a) => a,
        None => receiver::fail(r, 31),
    }
}
